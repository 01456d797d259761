// The check in plain C, without proofs: the tests of crates/pool_check in their order, but for a leaf below a branch. There the proved check adds
// up the claims first, then counts over a whole block and stops behind the last symbol claimed; this one counts over the leaf's own length,
// looks at every symbol and compares the sum of the claims last. Both refuse the same pools.
typedef struct { const uint8_t *p; uint8_t *map; unsigned shares, alphabet, holder; } Walk;

static unsigned count_of(const uint8_t *marks, size_t n, uint8_t c) {
    uint8_t met = 0;
    for (size_t i = 0; i < n; i++) met += marks[i] == c;
    return met;
}

// a leaf by the counts that its entry claims
static bool leaf_repeats(const uint8_t *p, size_t e, unsigned leaf, unsigned alphabet) {
    size_t at = 512 + 128 * (size_t)leaf;
    unsigned many = word(p, at + 126), sum = 0;
    if (word(p, e + 2) != many) return false;
    for (unsigned c = 0; c < 16; c++) {
        unsigned told = word(p, e + 4 + 2 * c);
        if (told != 0 && (c >= alphabet || count_of(p + at, many, c) != told)) return false;
        sum += told;
    }
    return sum == many;
}

// the sum of the words that a branch's entries have at an offset
static unsigned entry_sum(const uint8_t *p, size_t at, unsigned many, unsigned offset) {
    unsigned two = word(p, at + offset) + word(p, at + 36 + offset);
    return many == 2 ? two : two + word(p, at + 72 + offset);
}

static bool branch_repeats(const uint8_t *p, size_t e, unsigned child) {
    size_t at = 512 + 128 * (size_t)child;
    unsigned many = word(p, at + 126), wrong = 0;
    for (unsigned w = 0; w < 17; w++) wrong |= word(p, e + 2 + 2 * w) ^ entry_sum(p, at, many, 2 + 2 * w);
    return wrong == 0;
}

static bool check_children(Walk *s, unsigned level, unsigned b, unsigned k, unsigned left);

static bool check_block(Walk *s, unsigned level, unsigned b, unsigned fewest) {
    if (b >= s->shares || s->map[b] != 0) return false;
    size_t at = 512 + 128 * (size_t)b;
    unsigned many = word(s->p, at + 126);
    if (s->p[at + 125] != 0 || many < fewest || many > (level == 0 ? 125 : 3)) return false;
    s->map[b] = s->holder;
    return level == 0 || check_children(s, level - 1, b, 0, many);
}

static bool check_children(Walk *s, unsigned level, unsigned b, unsigned k, unsigned left) {
    for (; left > 0; left--, k++) {
        size_t e = 512 + 128 * (size_t)b + 36 * k;
        unsigned child = word(s->p, e);
        if (!check_block(s, level, child, level == 0 ? 63 : 2)) return false;
        if (!(level == 0 ? leaf_repeats(s->p, e, child, s->alphabet) : branch_repeats(s->p, e, child))) return false;
    }
    return true;
}

static bool all_zero(const uint8_t *p, size_t n) {
    for (size_t i = 0; i < n; i++) if (p[i]) return false;
    return true;
}

__attribute__((noinline)) static bool plain_check(const uint8_t *p, size_t bytes, uint8_t *map) {
    if (bytes % 128 || bytes < 640 || bytes > 65536 || p[0] != 1 || !all_zero(p + 1, 127)) return false;
    unsigned shares = (bytes - 512) / 128, promised = 0;
    for (unsigned i = 0; i < 16; i++) promised += word(p, 128 + 24 * i + 4);
    if (promised > shares) return false;
    memset(map, 0, SHARES);
    for (unsigned i = 0; i < 16; i++) {
        const uint8_t *r = p + 128 + 24 * i;
        if (r[0] == 0) {
            if (!all_zero(r, 24)) return false;
            continue;
        }
        unsigned q = word(r, 4), n = word(r, 8);
        if (r[0] != 1 || r[1] < 2 || r[1] > 16 || q < 1 || r[2] > 7 || n > 24 * q || r[3] || !all_zero(r + 10, 14)) return false;
        Walk s = {p, map, shares, r[1], i + 1};
        if (!check_block(&s, r[2], word(r, 6), r[2] == 0 ? 0 : 2)) return false;
        size_t at = 512 + 128 * (size_t)word(r, 6);
        unsigned many = word(p, at + 126);
        if (r[2] == 0) for (unsigned j = 0; j < many; j++) if (p[at + j] >= r[1]) return false;
        if ((r[2] == 0 ? many : entry_sum(p, at, many, 2)) != n) return false;
    }
    return true;
}
