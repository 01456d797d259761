/* Forfochry, a proved mark index: up to sixteen sequences of marks in one lent pool of bytes.

   Link target/staticlib/libforfochry.a, which `make` writes (x86-64 Linux). The library uses no heap, keeps nothing
   between calls and has no global state: all it knows is in the pool. Calls on different pools may run at the same time.

   What the caller owes, since no proof reaches it:
   - Each buffer is a pointer and the number of bytes behind it, all readable, and writable where the pointer isn't const. Nothing else
     reads or writes them during the call.
   - The three buffers of forfochry_run don't overlap.
   - A buffer of 0 bytes may have any pointer, null too: nothing is read or written through it.

   What the library promises of each result and each buffer is docs/CONTRACTS.md. */
#ifndef FORFOCHRY_H
#define FORFOCHRY_H

#include <stddef.h>
#include <stdint.h>

#ifdef __cplusplus
extern "C" {
#endif

/* The release, which pkg-config's --modversion tells too. */
#define FORFOCHRY_VERSION "2.0.1"

/* A pool has a multiple of 128 bytes, from 640 to 65,536: a directory of 512 and at least one block of 128, which is one share. */
#define FORFOCHRY_SHORTEST_POOL 640
#define FORFOCHRY_LONGEST_POOL 65536
#define FORFOCHRY_BLOCK 128
/* Commands and answers are frames of eight bytes, and one call takes up to 8,192 bytes of commands. */
#define FORFOCHRY_FRAME 8
#define FORFOCHRY_LONGEST_COMMANDS 8192

/* Statuses of a call, the lowest that applies. A refused call leaves pool and answers as they were and runs no frame. */
enum {
    FORFOCHRY_DONE = 0,
    FORFOCHRY_POOL_LENGTH = 101,     /* the pool's length isn't allowed */
    FORFOCHRY_COMMANDS_LENGTH = 102, /* the commands are no whole frames, or too many */
    FORFOCHRY_ROOM_SHORT = 103,      /* the answer room is shorter than the commands */
    FORFOCHRY_NOT_SOUND = 104        /* the pool isn't sound: damaged, or never formatted */
};

/* Command frame: code, name, symbol, a zero byte, then a number of four bytes, high byte first. Fields that a command doesn't use
   are zero. Names are 0 to 15; FORFOCHRY_UNPROMISED takes the name byte 255. Places count from 1; n is the name's length.

   code         symbol         number             value answered
   OPEN         alphabet size  shares q           0                  (alphabet 2 to 16; room for 24 marks a share)
   CLOSE        -              -                  0
   INSERT       mark           place 1 to n + 1   new length
   DELETE       -              place 1 to n       new length         (answers the mark that was taken out as its symbol)
   ACCESS       -              place 1 to n       0                  (answers the mark as its symbol, and its depth)
   RANK         mark           place 0 to n       how many of it stand at places 1 to that one
   SELECT       mark           j, at least 1      the place of the j-th
   LENGTH       -              -                  n
   UNPROMISED   -              -                  shares that no name was promised */
enum {
    FORFOCHRY_OPEN = 1,
    FORFOCHRY_CLOSE = 2,
    FORFOCHRY_INSERT = 3,
    FORFOCHRY_DELETE = 4,
    FORFOCHRY_ACCESS = 5,
    FORFOCHRY_RANK = 6,
    FORFOCHRY_SELECT = 7,
    FORFOCHRY_LENGTH = 8,
    FORFOCHRY_UNPROMISED = 9
};

/* Answer frame: status, the command's name byte, symbol, depth, then a value of four bytes, high byte first. With a status other than
   0 the last three are 0, and the frame changed nothing; the frames behind it run all the same. The lowest status that applies: */
enum {
    FORFOCHRY_UNKNOWN_CODE = 1,
    FORFOCHRY_NAME_NOT_ALLOWED = 2,
    FORFOCHRY_UNUSED_NOT_ZERO = 3,
    FORFOCHRY_ALREADY_OPEN = 4,
    FORFOCHRY_NOT_OPEN = 5,
    FORFOCHRY_ALPHABET_NOT_ALLOWED = 6,
    FORFOCHRY_NO_SHARES = 7,
    FORFOCHRY_SYMBOL_OUTSIDE = 8,
    FORFOCHRY_PLACE_OUTSIDE = 9,
    FORFOCHRY_ORDINAL_OUTSIDE = 10,
    FORFOCHRY_FULL = 11,
    FORFOCHRY_SHARES_EXCEEDED = 12
};

/* Makes the pool sound with no name open, whatever stood in it. FORFOCHRY_DONE or FORFOCHRY_POOL_LENGTH. */
uint32_t forfochry_format(uint8_t *pool, size_t pool_bytes);

/* Runs the commands in order and writes one answer each to the front of the answer room, whose rest stays as it was. No commands is
   accepted. The call's status is the result's upper half, the number of frames run its lower half. */
uint64_t forfochry_run(uint8_t *pool, size_t pool_bytes, const uint8_t *commands, size_t commands_bytes, uint8_t *answers, size_t answers_bytes);

static inline uint32_t forfochry_status(uint64_t result) { return (uint32_t)(result >> 32); }
static inline uint32_t forfochry_count(uint64_t result) { return (uint32_t)result; }

/* The mark of one line of fixed-form Fortran, without its line end: 15 a byte outside 32 to 126, 1 comment, 2 continuation,
   3 EQUIVALENCE, 4 COMMON, 0 any other. Refuses nothing; columns past 72 aren't read. */
uint8_t forfochry_mark(const uint8_t *line, size_t line_bytes);

#ifdef __cplusplus
}
#endif

#endif
