// Makes calls of read and write fail, or take less than is given. What is to happen stands in the environment: READ_FAILS and
// WRITE_FAILS are the number of the call that fails, counted from 1, and WITH the number of its error (0: the call takes no byte). With
// FROM_THERE_ON all later calls fail too; with ONE_BYTE each call takes one byte at most. Reads are those of the descriptor READ_FROM (0
// if it isn't given), writes those of standard output.
#define _GNU_SOURCE
#include <dlfcn.h>
#include <errno.h>
#include <stdlib.h>
#include <unistd.h>

static long reads, writes;

static long number(const char *name) {
    const char *text = getenv(name);
    return text ? atol(text) : -1;
}

static int fails(const char *which, long call) {
    long at = number(which);
    return at > 0 && (getenv("FROM_THERE_ON") ? call >= at : call == at);
}

ssize_t read(int from, void *to, size_t size) {
    static ssize_t (*real)(int, void *, size_t);
    if (!real) real = dlsym(RTLD_NEXT, "read");
    if (from != (getenv("READ_FROM") ? number("READ_FROM") : 0)) return real(from, to, size);
    if (fails("READ_FAILS", ++reads)) {
        errno = (int)number("WITH");
        return errno ? -1 : 0;
    }
    return real(from, to, getenv("ONE_BYTE") && size > 1 ? 1 : size);
}

ssize_t write(int to, const void *from, size_t size) {
    static ssize_t (*real)(int, const void *, size_t);
    if (!real) real = dlsym(RTLD_NEXT, "write");
    if (to != 1) return real(to, from, size);
    if (fails("WRITE_FAILS", ++writes)) {
        errno = (int)number("WITH");
        return errno ? -1 : 0;
    }
    return real(to, from, getenv("ONE_BYTE") && size > 1 ? 1 : size);
}
