/* The library's three calls on a machine that isn't x86-64: each is handed to server.c, which runs under the kit's emulator. */
#include <stdint.h>
#include <stdio.h>
#include <stdlib.h>
#include <string.h>
#include <unistd.h>

enum { ROOM = 1 << 20, FORMAT = 0, RUN = 1, MARK = 2 };

static int to_server, from_server, started;

static void fail(const char *why)
{
    fprintf(stderr, "emulated library: %s\n", why);
    exit(3);
}

static void start(void)
{
    int down[2], up[2];
    if (pipe(down) != 0 || pipe(up) != 0)
        fail("no pipe can be made");
    fflush(NULL);
    pid_t child = fork();
    if (child < 0)
        fail("no process can be made");
    if (child == 0) {
        dup2(down[0], 0);
        dup2(up[1], 1);
        close(down[1]);
        close(up[0]);
        execl(EMULATOR, EMULATOR, SERVER, (char *)NULL);
        _exit(127);
    }
    close(down[0]);
    close(up[1]);
    to_server = down[1];
    from_server = up[0];
    started = 1;
}

static void send_all(const void *bytes, size_t n)
{
    while (n > 0) {
        ssize_t moved = write(to_server, bytes, n);
        if (moved <= 0)
            fail("the server takes nothing more");
        bytes = (const char *)bytes + moved;
        n -= (size_t)moved;
    }
}

static void take_all(void *bytes, size_t n)
{
    while (n > 0) {
        ssize_t moved = read(from_server, bytes, n);
        if (moved <= 0)
            fail("the server has ended");
        bytes = (char *)bytes + moved;
        n -= (size_t)moved;
    }
}

/* One call with up to three buffers. What comes back of a buffer lent to be read alone has to be what was sent. */
static uint64_t ask(uint64_t call, uint8_t *first, size_t first_len, const uint8_t *second, size_t second_len, uint8_t *third, size_t third_len)
{
    static uint8_t back[ROOM];
    uint64_t request[4] = {call, first_len, second_len, third_len}, reply[2];
    if (first_len > ROOM || second_len > ROOM || third_len > ROOM)
        fail("a buffer is longer than the server's");
    if (!started)
        start();
    send_all(request, sizeof request);
    send_all(first, first_len);
    send_all(second, second_len);
    send_all(third, third_len);
    take_all(reply, sizeof reply);
    take_all(first, first_len);
    take_all(back, second_len);
    take_all(third, third_len);
    if (!reply[1])
        fail("a byte beside a lent buffer was changed");
    if (second_len > 0 && memcmp(back, second, second_len) != 0)
        fail("a byte of the commands was changed");
    return reply[0];
}

uint32_t forfochry_format(uint8_t *pool, size_t pool_len) { return (uint32_t)ask(FORMAT, pool, pool_len, NULL, 0, NULL, 0); }

uint64_t forfochry_run(uint8_t *pool, size_t pool_len, const uint8_t *commands, size_t commands_len, uint8_t *answers, size_t answers_len)
{
    return ask(RUN, pool, pool_len, commands, commands_len, answers, answers_len);
}

uint8_t forfochry_mark(const uint8_t *line, size_t line_len)
{
    static uint8_t copy[ROOM];
    if (line_len > ROOM)
        fail("a line is longer than the server's buffer");
    if (line_len > 0)
        memcpy(copy, line, line_len);
    uint8_t mark = (uint8_t)ask(MARK, copy, line_len, NULL, 0, NULL, 0);
    if (line_len > 0 && memcmp(copy, line, line_len) != 0)
        fail("a byte of the line was changed");
    return mark;
}
