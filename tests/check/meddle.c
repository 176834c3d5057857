// At the first write to the descriptor MEDDLE_AT, or where that is 0 to any above the three streams, or at the first opening of MEDDLE_AT
// where that is a path, does MEDDLE_HOW with MEDDLE_WITH: `append` adds a byte to a file, `remove` removes a file or a folder.
#define _GNU_SOURCE
#include <ctype.h>
#include <dlfcn.h>
#include <fcntl.h>
#include <stdarg.h>
#include <stdio.h>
#include <stdlib.h>
#include <string.h>
#include <unistd.h>

static ssize_t (*real)(int, const void *, size_t);
static int (*real_open)(int, const char *, int, ...);
static int done;

static void meddle(void) {
    const char *how = getenv("MEDDLE_HOW"), *with = getenv("MEDDLE_WITH");
    if (!how || !with) return;
    done = 1;
    if (!strcmp(how, "remove")) {
        if (remove(with)) abort();
        return;
    }
    int file = real_open(AT_FDCWD, with, O_WRONLY | O_APPEND);
    if (file < 0 || real(file, "#", 1) != 1 || close(file)) abort();
}

static void find_real(void) {
    if (!real) real = dlsym(RTLD_NEXT, "write");
    if (!real_open) real_open = dlsym(RTLD_NEXT, "openat");
}

ssize_t write(int descriptor, const void *bytes, size_t count) {
    find_real();
    const char *at = getenv("MEDDLE_AT");
    int wanted = at && isdigit((unsigned char)*at) ? atoi(at) : -1;
    if (!done && wanted >= 0 && (wanted ? descriptor == wanted : descriptor > 2)) meddle();
    return real(descriptor, bytes, count);
}

static int opened(int folder, const char *path, int flags, mode_t mode) {
    find_real();
    const char *at = getenv("MEDDLE_AT");
    if (!done && at && !strcmp(at, path)) meddle();
    return real_open(folder, path, flags, mode);
}

int open(const char *path, int flags, ...) {
    va_list more;
    va_start(more, flags);
    mode_t mode = flags & (O_CREAT | O_TMPFILE) ? va_arg(more, mode_t) : 0;
    va_end(more);
    return opened(AT_FDCWD, path, flags, mode);
}

int openat(int folder, const char *path, int flags, ...) {
    va_list more;
    va_start(more, flags);
    mode_t mode = flags & (O_CREAT | O_TMPFILE) ? va_arg(more, mode_t) : 0;
    va_end(more);
    return opened(folder, path, flags, mode);
}
