/* Stands between a program and its inputs and outputs: input comes in blocks and may fail where it ends, an output takes few
   bytes, has room for so many, and then fails, and calls may be interrupted. What is not set stays as the system has it.

   BLOCKS=9,14   standard input comes in blocks of 9 and 14 bytes, which no read passes, and then as it is asked for
   BROKEN=0      where the input with this descriptor has ended, a read fails: 0 is standard input, 3 the first file
   STEP=3        a write takes 3 bytes at most
   ROOM=20       standard output takes 20 bytes in all, ERRORS=5 standard error 5; then a write fails, or with FULL=1
                 takes no byte, once: after that it would take everything
   SIGNALS=1     two of three calls are interrupted

   A line for each call goes to the descriptor 9: 'read' with how many bytes of standard input were given and how many
   were taken by standard output before, 'write' likewise, and 'late' for a call of an end that has failed.

   cc -O2 -shared -fPIC -o ends.so ends.c; LD_PRELOAD=./ends.so ROOM=20 PROGRAM 9> told */
#include <errno.h>
#include <limits.h>
#include <stdio.h>
#include <stdlib.h>
#include <sys/syscall.h>
#include <unistd.h>

enum { OUTPUT = 1, ERRORS = 2, TOLD = 9 };

static const char *blocks;
static long left, step, room[3], given, taken;
static int broken, is_full, has_signals, has_failed[3], calls;

static long number(const char *name, long otherwise) {
    const char *text = getenv(name);
    return text ? atol(text) : otherwise;
}

__attribute__((constructor)) static void begin(void) {
    blocks = getenv("BLOCKS");
    step = number("STEP", LONG_MAX);
    room[OUTPUT] = number("ROOM", LONG_MAX);
    room[ERRORS] = number("ERRORS", LONG_MAX);
    broken = number("BROKEN", -1);
    is_full = number("FULL", 0) != 0;
    has_signals = number("SIGNALS", 0) != 0;
}

static void tell(const char *call) { dprintf(TOLD, "%s %ld %ld\n", call, given, taken); }

static ssize_t fail(int error) {
    errno = error;
    return -1;
}

static int is_interrupted(void) { return has_signals && ++calls % 3 != 0; }

/* As many bytes as are left of a block, or as are asked for behind the last one. */
static size_t within(size_t count) {
    char *end;
    if (left == 0 && blocks && *blocks) {
        left = strtol(blocks, &end, 10);
        blocks = *end == ',' ? end + 1 : end;
    }
    return left > 0 && (size_t)left < count ? (size_t)left : count;
}

ssize_t read(int from, void *buffer, size_t count) {
    if (from == broken && has_failed[0]) tell("late");
    if (is_interrupted()) return fail(EINTR);
    if (from == 0) tell("read");
    ssize_t got = syscall(SYS_read, from, buffer, from == 0 ? within(count) : count);
    if (got == 0 && count > 0 && from == broken) {
        has_failed[0] = 1;
        return fail(EIO);
    }
    if (got > 0 && from == 0) given += got;
    if (got > 0 && from == 0 && left > 0) left -= got;
    return got;
}

ssize_t write(int to, const void *buffer, size_t count) {
    if (to != OUTPUT && to != ERRORS) return syscall(SYS_write, to, buffer, count);
    if (has_failed[to]) tell("late");
    if (is_interrupted()) return fail(EINTR);
    if (to == OUTPUT) tell("write");
    if (count == 0) return 0;
    if (count > (size_t)step) count = step;
    if (count > (size_t)room[to]) count = room[to];
    if (count == 0) {
        has_failed[to] = 1;
        room[to] = LONG_MAX;
        return is_full ? 0 : fail(EIO);
    }
    ssize_t got = syscall(SYS_write, to, buffer, count);
    if (got > 0) room[to] -= got;
    if (got > 0 && to == OUTPUT) taken += got;
    return got;
}
