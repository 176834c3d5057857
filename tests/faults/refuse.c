// Makes one call of malloc or realloc fail: the one whose number is in REFUSE_AT, counted from 1; with FROM_THERE_ON all later ones too.
// That it was met is told on standard error, since a program that asks again for less may go on as if it had not been.
#define _GNU_SOURCE
#include <dlfcn.h>
#include <stdlib.h>
#include <unistd.h>

static long seen, at = -1;
static int onwards;

static int refused(void) {
    if (at < 0) {
        const char *number = getenv("REFUSE_AT");
        at = number ? atol(number) : 0;
        onwards = at > 0 && getenv("FROM_THERE_ON");
    }
    seen++;
    if (onwards ? seen < at : seen != at) return 0;
    static const char told[] = "refused\n";
    if (seen == at && write(2, told, sizeof told - 1) < 0) abort();
    return 1;
}

void *malloc(size_t size) {
    static void *(*real)(size_t);
    if (!real) real = dlsym(RTLD_NEXT, "malloc");
    return refused() ? NULL : real(size);
}

void *realloc(void *old, size_t size) {
    static void *(*real)(void *, size_t);
    if (!real) real = dlsym(RTLD_NEXT, "realloc");
    return refused() ? NULL : real(old, size);
}
