// A plain line reader, for scale: it copies each line of a file into memory of its own, and writes them to a
// buffer again. It knows nothing of scripts.
#include <stdio.h>
#include <stdlib.h>
#include <string.h>
#include <time.h>

static double now(void) {
    struct timespec t;
    clock_gettime(CLOCK_MONOTONIC, &t);
    return t.tv_sec * 1e9 + t.tv_nsec;
}

int main(int argc, char **argv) {
    if (argc != 3) return 2;
    FILE *file = fopen(argv[1], "rb");
    if (!file) return 1;
    fseek(file, 0, SEEK_END);
    size_t size = ftell(file);
    rewind(file);
    char *bytes = malloc(size + 1), *out = malloc(size + 1);
    if (!bytes || !out || fread(bytes, 1, size, file) != size) return 1;
    int rounds = atoi(argv[2]);
    double read_best = 1e18, write_best = 1e18;
    for (int round = 0; round < rounds; round++) {
        size_t count = 0, room = 0;
        char **lines = NULL;
        size_t *lens = NULL;
        double start = now();
        for (char *at = bytes, *end = bytes + size; at < end;) {
            char *feed = memchr(at, '\n', end - at);
            size_t len = (feed ? feed : end) - at;
            if (count == room) {
                room = room ? room * 2 : 64;
                lines = realloc(lines, room * sizeof *lines);
                lens = realloc(lens, room * sizeof *lens);
            }
            lines[count] = malloc(len + 1);
            memcpy(lines[count], at, len);
            lens[count++] = len;
            at += len + 1;
        }
        double middle = now();
        size_t written = 0;
        for (size_t i = 0; i < count; i++) {
            memcpy(out + written, lines[i], lens[i]);
            written += lens[i];
            if (written < size) out[written++] = '\n';
        }
        double end = now();
        if (middle - start < read_best) read_best = middle - start;
        if (end - middle < write_best) write_best = end - middle;
        for (size_t i = 0; i < count; i++) free(lines[i]);
        free(lines);
        free(lens);
    }
    printf("read %.0f\nwrite %.0f\n", read_best, write_best);
    return 0;
}
