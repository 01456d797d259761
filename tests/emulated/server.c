/* Serves calls of the library over standard input and output, without a C library: it runs under an emulator where the machine
   isn't x86-64. A request is four numbers (call, three lengths) and the buffers; the reply is the result, a flag and the buffers that
   the call may write. Each buffer stands between guard bytes, and the flag tells whether they are as they were. */
typedef __UINT8_TYPE__ byte;
typedef __UINT32_TYPE__ u32;
typedef __UINT64_TYPE__ u64;
typedef __SIZE_TYPE__ size;

u32 forfochry_format(byte *pool, size pool_len);
u64 forfochry_run(byte *pool, size pool_len, const byte *commands, size commands_len, byte *answers, size answers_len);
byte forfochry_mark(const byte *line, size line_len);

enum { GUARD = 64, ROOM = 1 << 20, FORMAT = 0, RUN = 1, MARK = 2 };

static byte arena[3][GUARD + ROOM + GUARD];

void *memcpy(void *to, const void *from, size n)
{
    byte *t = to;
    const byte *f = from;
    for (size i = 0; i < n; i++)
        t[i] = f[i];
    return to;
}

void *memmove(void *to, const void *from, size n)
{
    byte *t = to;
    const byte *f = from;
    if (t <= f)
        return memcpy(to, from, n);
    while (n-- > 0)
        t[n] = f[n];
    return to;
}

void *memset(void *to, int value, size n)
{
    byte *t = to;
    for (size i = 0; i < n; i++)
        t[i] = (byte)value;
    return to;
}

int memcmp(const void *one, const void *two, size n)
{
    const byte *a = one, *b = two;
    for (size i = 0; i < n; i++)
        if (a[i] != b[i])
            return a[i] < b[i] ? -1 : 1;
    return 0;
}

int bcmp(const void *one, const void *two, size n) { return memcmp(one, two, n); }

static long call_system(long number, long a, long b, long c)
{
    long result;
    __asm__ volatile("syscall" : "=a"(result) : "a"(number), "D"(a), "S"(b), "d"(c) : "rcx", "r11", "memory");
    return result;
}

static void leave(int status)
{
    for (;;)
        call_system(60, status, 0, 0);
}

/* Moves n bytes, by reads (0) or writes (1); at the end of the input the server leaves. */
static void move_all(long number, byte *bytes, size n)
{
    while (n > 0) {
        long moved = call_system(number, number, (long)bytes, (long)n);
        if (moved <= 0)
            leave(moved == 0 ? 0 : 1);
        bytes += moved;
        n -= (size)moved;
    }
}

static byte *lent(int k) { return arena[k] + GUARD; }

static void guard(int k, size n)
{
    memset(arena[k], 0xA5, GUARD);
    memset(lent(k) + n, 0x5A, GUARD);
}

static int guarded(int k, size n)
{
    for (size i = 0; i < GUARD; i++)
        if (arena[k][i] != 0xA5 || lent(k)[n + i] != 0x5A)
            return 0;
    return 1;
}

/* What a caller passes: an empty buffer has no address at all. */
static byte *passed(int k, const u64 *length) { return length[k] == 0 ? (byte *)0 : lent(k); }

static u64 serve(u64 call, const u64 *length)
{
    if (call == FORMAT)
        return forfochry_format(passed(0, length), length[0]);
    if (call == RUN)
        return forfochry_run(passed(0, length), length[0], passed(1, length), length[1], passed(2, length), length[2]);
    return forfochry_mark(passed(0, length), length[0]);
}

/* The entry: the stack is aligned as a call leaves it. */
__asm__(".globl _start\n_start: call serve_all\n");

void serve_all(void)
{
    for (;;) {
        u64 request[4], reply[2];
        move_all(0, (byte *)request, sizeof request);
        for (int k = 0; k < 3; k++) {
            if (request[k + 1] > ROOM)
                leave(2);
            move_all(0, lent(k), request[k + 1]);
            guard(k, request[k + 1]);
        }
        reply[0] = serve(request[0], request + 1);
        reply[1] = guarded(0, request[1]) && guarded(1, request[2]) && guarded(2, request[3]);
        move_all(1, (byte *)reply, sizeof reply);
        for (int k = 0; k < 3; k++)
            move_all(1, lent(k), request[k + 1]);
    }
}
