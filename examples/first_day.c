/* The lines of a Fortran file that carry EQUIVALENCE, by the index: cc first_day.c libforfochry.a */
#include <stdio.h>
#include <stdlib.h>
#include "forfochry.h"

enum { OPEN = 1, INSERT = 3, RANK = 6, SELECT = 7, STORAGE_SHARED = 3 };

static uint8_t pool[65536];

static int fail(const char *why)
{
    fprintf(stderr, "first_day: %s\n", why);
    return 1;
}

/* Runs one frame to name 0 and gives its value. */
static uint32_t ask(uint8_t code, uint8_t symbol, uint32_t number)
{
    uint8_t frame[8] = {code, 0, symbol, 0, number >> 24, number >> 16, number >> 8, number};
    uint8_t answer[8];
    uint64_t outcome = forfochry_run(pool, sizeof pool, frame, sizeof frame, answer, sizeof answer);
    if (outcome >> 32 != 0 || answer[0] != 0) {
        fprintf(stderr, "first_day: command %u is refused: call %u, status %u; forfochry.h says what they mean\n", code,
                forfochry_status(outcome), outcome >> 32 != 0 ? 0 : answer[0]);
        exit(1);
    }
    return (uint32_t)answer[4] << 24 | (uint32_t)answer[5] << 16 | (uint32_t)answer[6] << 8 | answer[7];
}

/* The next line without its line feed, nor the carriage return just before one; NULL at the end. The caller owns it. */
static char *next_line(FILE *file, size_t *length)
{
    char *line = NULL;
    size_t room = 0;
    ssize_t read = getline(&line, &room, file);
    if (read < 0) {
        free(line);
        return NULL;
    }
    if (line[read - 1] == '\n') {
        line[--read] = 0;
        if (read > 0 && line[read - 1] == '\r')
            line[--read] = 0;
    }
    *length = (size_t)read;
    return line;
}

int main(int argc, char **argv)
{
    static char *text[12192];
    uint32_t lines = 0;
    size_t length;
    FILE *file = argc == 2 ? fopen(argv[1], "r") : NULL;
    if (file == NULL)
        return fail("give the path of a fixed-form Fortran file");
    if (forfochry_format(pool, sizeof pool) != 0)
        return fail("the pool's length isn't allowed");
    ask(OPEN, 16, 508);
    for (char *line; (line = next_line(file, &length)) != NULL; text[lines++] = line)
        ask(INSERT, forfochry_mark((const uint8_t *)line, length), lines + 1);
    if (ferror(file))
        return fail("the file can't be read");
    uint32_t shared = ask(RANK, STORAGE_SHARED, lines);
    printf("%u of %u lines carry EQUIVALENCE\n", shared, lines);
    for (uint32_t j = 1; j <= shared; j++) {
        uint32_t line = ask(SELECT, STORAGE_SHARED, j);
        printf("%u: %s\n", line, text[line - 1]);
    }
    return 0;
}
