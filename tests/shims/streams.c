/* Preloaded into a program: call FAILING_CALL of read and write, counted from 1, fails, and each later one too; call INTERRUPTED_CALL is
   interrupted before anything is moved, and as many after it as INTERRUPTIONS says, or none; with ONE_BYTE set, a call moves one byte at
   most. Writes to standard error are left alone, and not counted. */
#include <errno.h>
#include <stdlib.h>
#include <unistd.h>

ssize_t __read(int, void *, size_t), __write(int, const void *, size_t);

static long calls;

/* Why this call fails, or 0. */
static int failure(void) {
    const char *failing = getenv("FAILING_CALL"), *interrupted = getenv("INTERRUPTED_CALL"), *more = getenv("INTERRUPTIONS");
    calls++;
    if (interrupted && calls >= atol(interrupted) && calls <= atol(interrupted) + (more ? atol(more) : 0)) return EINTR;
    return failing && calls >= atol(failing) ? EIO : 0;
}

static size_t most(size_t size) { return size && getenv("ONE_BYTE") ? 1 : size; }

ssize_t read(int file, void *to, size_t size) {
    int why = failure();
    if (why) return errno = why, -1;
    return __read(file, to, most(size));
}

ssize_t write(int file, const void *from, size_t size) {
    if (file == STDERR_FILENO) return __write(file, from, size);
    int why = failure();
    if (why) return errno = why, -1;
    return __write(file, from, most(size));
}
