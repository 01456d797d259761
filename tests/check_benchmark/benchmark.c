// The check of a full pool, beside a check of the same in plain C and a plain sum of the bytes of all held blocks, in one run.
// Four pools of 65,536 bytes with 12,192 marks: in one name and in sixteen, the usual mix of marks and an even one.
#include <stdbool.h>
#include <stdint.h>
#include <stdio.h>
#include <string.h>
#include <time.h>

enum { SHARES = 508, BYTES = 65536, MARKS = 12192, LEAF = 96, ROUNDS = 50, TRIES = 500 };

bool forfochry_check(const uint8_t *pool, size_t bytes, uint8_t *map);

// Pools.

static uint32_t seed = 1;
static uint32_t next_random(void) { seed = seed * 1664525u + 1013904223u; return seed >> 8; }
static uint8_t even_mark(void) { return next_random() % 16; }
// of a hundred lines: comments, continuations, a few common and equivalence statements, the rest other lines
static uint8_t usual_mark(void) {
    uint32_t r = next_random() % 100;
    return r < 30 ? 1 : r < 40 ? 2 : r < 41 ? 3 : r < 43 ? 4 : 0;
}

static void put_word(uint8_t *p, size_t at, unsigned v) { p[at] = v & 255; p[at + 1] = v >> 8; }
static unsigned word(const uint8_t *p, size_t at) { return p[at] + 256u * p[at + 1]; }

// one name's tree over blocks from `*free` on; the root and the height
static unsigned build(uint8_t *p, unsigned n, uint8_t (*mark)(void), unsigned *free, unsigned *height) {
    unsigned blocks[SHARES], many = 0, leaves = n / LEAF ? n / LEAF : 1;
    for (unsigned i = 0; i < leaves; i++) {
        unsigned b = (*free)++, size = n * (i + 1) / leaves - n * i / leaves;
        for (unsigned j = 0; j < size; j++) p[512 + 128 * b + j] = mark();
        put_word(p, 512 + 128 * b + 126, size);
        blocks[many++] = b;
    }
    for (*height = 0; many > 1; ++*height) {
        unsigned parents = (many + 2) / 3, at = 0;
        if (parents * 2 > many) parents = many / 2;
        for (unsigned i = 0; i < parents; i++) {
            unsigned b = (*free)++, size = many * (i + 1) / parents - many * i / parents;
            for (unsigned k = 0; k < size; k++) {
                unsigned child = blocks[at++], count = word(p, 512 + 128 * child + 126);
                size_t e = 512 + 128 * b + 36 * k, c = 512 + 128 * child;
                put_word(p, e, child);
                for (unsigned w = 0; w < 17; w++) {
                    unsigned sum = 0;
                    if (*height == 0 && w == 0) sum = count;
                    else if (*height == 0) for (unsigned j = 0; j < count; j++) sum += p[c + j] == w - 1;
                    else for (unsigned j = 0; j < count; j++) sum += word(p, c + 36 * j + 2 + 2 * w);
                    put_word(p, e + 2 + 2 * w, sum);
                }
            }
            put_word(p, 512 + 128 * b + 126, size);
            blocks[i] = b;
        }
        many = parents;
    }
    return blocks[0];
}

static unsigned build_pool(uint8_t *p, unsigned names, uint8_t (*mark)(void)) {
    unsigned free = 0;
    memset(p, 0, BYTES);
    p[0] = 1;
    for (unsigned i = 0; i < names; i++) {
        unsigned q = SHARES * (i + 1) / names - SHARES * i / names, n = 24 * q, height, at = 128 + 24 * i;
        unsigned root = build(p, n, mark, &free, &height);
        p[at] = 1; p[at + 1] = 16; p[at + 2] = height;
        put_word(p, at + 4, q); put_word(p, at + 6, root); put_word(p, at + 8, n);
    }
    return free;
}

#include "plain_check.h"

static unsigned plain_sum(const uint8_t *p, unsigned held) {
    unsigned sum = 0;
    for (size_t i = 0; i < 128 * (size_t)held; i++) sum += p[512 + i];
    return sum;
}

// Times.

static double now(void) {
    struct timespec t;
    clock_gettime(CLOCK_MONOTONIC, &t);
    return t.tv_sec * 1e9 + t.tv_nsec;
}

static uint8_t pool[BYTES], map[SHARES];
static volatile unsigned sink;

// One try of each contestant: nanoseconds a round, kept where they are the least yet.
#define TRY(result, code)                                \
    {                                                    \
        double start = now();                            \
        for (int r = 0; r < ROUNDS; r++) sink = (code);  \
        double took = (now() - start) / ROUNDS;          \
        if (took < result) result = took;                \
    }

int main(void) {
    for (int i = 0; i < 4; i++) {
        unsigned names = i % 2 ? 16 : 1, held = build_pool(pool, names, i < 2 ? usual_mark : even_mark);
        if (!forfochry_check(pool, BYTES, map) || !plain_check(pool, BYTES, map)) { puts("a sound pool is refused"); return 1; }
        double proved = 1e18, plain = 1e18, sum = 1e18;
        // in turn, so that a slow or a fast spell of the machine meets all three, and in short tries, so that some aren't broken off
        for (int try = 0; try < TRIES; try++) {
            TRY(proved, forfochry_check(pool, BYTES, map));
            TRY(plain, plain_check(pool, BYTES, map));
            TRY(sum, plain_sum(pool, held));
        }
        printf("%-6s marks, %2u names, %3u blocks: check %6.0f ns, plain C %6.0f ns (%.2f), sum of bytes %6.0f ns (%.2f)\n",
               i < 2 ? "usual" : "even", names, held, proved, plain, proved / plain, sum, proved / sum);
    }
    return 0;
}
