/* The fault that started all this: a file shrinks, a block of its falls free, another file grows into that block, and an EQUIVALENCE
   mark of the first is gone. Here the same is done on purpose, and the mark is asked for after every step. */
#include <stdio.h>
#include <stdlib.h>
#include <string.h>
#include "forfochry.h"

enum { OPEN = 1, INSERT = 3, DELETE = 4, RANK = 6, SELECT = 7, COMMENT = 1, STORAGE_SHARED = 3 };

/* twelve shares, six for each file: all of the pool is promised */
static uint8_t pool[512 + 12 * 128];
static char text[256][128];
static uint32_t lines;

static uint32_t ask(uint8_t code, uint8_t name, uint8_t symbol, uint32_t number)
{
    uint8_t frame[8] = {code, name, symbol, 0, number >> 24, number >> 16, number >> 8, number};
    uint8_t answer[8];
    uint64_t outcome = forfochry_run(pool, sizeof pool, frame, sizeof frame, answer, sizeof answer);
    if (outcome >> 32 != 0 || answer[0] != 0) {
        fprintf(stderr, "two_files: command %u is refused: call %u, status %u; forfochry.h says what they mean\n", code,
                forfochry_status(outcome), outcome >> 32 != 0 ? 0 : answer[0]);
        exit(1);
    }
    return (uint32_t)answer[4] << 24 | (uint32_t)answer[5] << 16 | (uint32_t)answer[6] << 8 | answer[7];
}

/* The one line of the first file that carries EQUIVALENCE must be where the text has it. */
static void look(const char *after)
{
    uint32_t found = ask(RANK, 0, STORAGE_SHARED, lines);
    uint32_t line = ask(SELECT, 0, STORAGE_SHARED, 1);
    printf("%-52s line %3u: %s\n", after, line, text[line - 1]);
    if (found != 1 || strstr(text[line - 1], "EQUIVALENCE") == NULL) {
        fprintf(stderr, "two_files: the mark is lost\n");
        exit(1);
    }
}

/* Takes a line out of the first file, its text and its mark. */
static void take_out(uint32_t line)
{
    ask(DELETE, 0, 0, line);
    memmove(text[line - 1], text[line], (lines - line) * sizeof text[0]);
    lines--;
}

int main(int argc, char **argv)
{
    FILE *file = argc == 2 ? fopen(argv[1], "r") : NULL;
    if (file == NULL || forfochry_format(pool, sizeof pool) != 0) {
        fprintf(stderr, "two_files: give the path of examples/melt.f\n");
        return 1;
    }
    ask(OPEN, 0, 16, 6);
    while (lines < 144 && fgets(text[lines], sizeof text[lines], file)) {
        size_t length = strcspn(text[lines], "\r\n");
        text[lines][length] = 0;
        uint8_t mark = forfochry_mark((const uint8_t *)text[lines], length);
        lines++;
        ask(INSERT, 0, mark, lines);
    }
    look("the first file is read, into several blocks:");
    ask(OPEN, 1, 16, 6);
    for (uint32_t k = 1; k <= 125; k++)
        ask(INSERT, 1, 15, 1);
    look("a second file fills one block:");
    for (uint32_t j = ask(RANK, 0, COMMENT, lines); j > 0; j--)
        take_out(ask(SELECT, 0, COMMENT, j));
    look("the first loses its comments, its blocks fall free:");
    for (uint32_t k = 126; k <= 144; k++)
        ask(INSERT, 1, 15, 1);
    look("the second grows into them, as far as it may:");
    for (uint32_t k = 144; k > 0; k--)
        ask(DELETE, 1, 0, k);
    look("and is emptied:");
    return 0;
}
