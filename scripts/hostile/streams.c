/* Preloaded into a program, it lets the program's own reads and writes take little, and fails one of them.
 *
 *   STREAMS_MOST  the bytes that a read or a write takes at most; 0 or nothing: no limit
 *   STREAMS_READ  the number of the read that fails, counted from 1; 0 or nothing: none
 *   STREAMS_ROOM  the bytes that standard output takes in all; nothing: no limit
 *   STREAMS_WITH  the number of the error that they fail with
 *
 * gcc -O2 -shared -fPIC -o streams.so streams.c
 */
#define _GNU_SOURCE
#include <dlfcn.h>
#include <errno.h>
#include <stdatomic.h>
#include <stdlib.h>
#include <unistd.h>

static atomic_long reads, room;
static long most, fail_at;
static int with;

static ssize_t (*next_read)(int, void *, size_t);
static ssize_t (*next_write)(int, const void *, size_t);

static long number_in(const char *name, long otherwise) {
    const char *text = getenv(name);
    return text && *text ? atol(text) : otherwise;
}

__attribute__((constructor)) static void begin(void) {
    next_read = dlsym(RTLD_NEXT, "read");
    next_write = dlsym(RTLD_NEXT, "write");
    most = number_in("STREAMS_MOST", 0);
    fail_at = number_in("STREAMS_READ", 0);
    room = number_in("STREAMS_ROOM", -1);
    with = (int)number_in("STREAMS_WITH", EIO);
}

static ssize_t fail(void) {
    errno = with;
    return -1;
}

ssize_t read(int stream, void *to, size_t size) {
    if (size == 0) return next_read(stream, to, size); /* it asks only whether the stream is open */
    if (atomic_fetch_add(&reads, 1) + 1 == fail_at) return fail();
    return next_read(stream, to, most && size > (size_t)most ? (size_t)most : size);
}

ssize_t write(int stream, const void *from, size_t size) {
    if (stream != STDOUT_FILENO) return next_write(stream, from, size);
    if (most && size > (size_t)most) size = (size_t)most;
    if (room >= 0) {
        if (room == 0 && size > 0) return fail();
        if (size > (size_t)room) size = (size_t)room;
        room -= (long)size;
    }
    return next_write(stream, from, size);
}
