/* The memory of a script. libraft's nodes aren't closed when a script ends: what they hold is given back here, all of it. */
#include "node.h"

#include <stdint.h>
#include <stdlib.h>
#include <string.h>

/* What stands before each piece: the pieces are a ring, whose first holds nothing. */
struct piece {
    struct piece *next;
    struct piece *last;
    size_t size;
    max_align_t begin[];
};

static struct piece ring = {&ring, &ring, 0};

static struct piece *piece_of(void *memory) { return (struct piece *)((char *)memory - offsetof(struct piece, begin)); }

static void *taken(void *data, size_t size)
{
    (void)data;
    struct piece *piece = size > SIZE_MAX - sizeof *piece ? NULL : malloc(sizeof *piece + size);
    if (piece == NULL) {
        return NULL;
    }
    *piece = (struct piece){ring.next, &ring, size};
    ring.next->last = piece;
    ring.next = piece;
    return piece->begin;
}

static void given_back(void *data, void *memory)
{
    (void)data;
    if (memory == NULL) {
        return;
    }
    struct piece *piece = piece_of(memory);
    piece->last->next = piece->next;
    piece->next->last = piece->last;
    free(piece);
}

static void *taken_empty(void *data, size_t count, size_t size)
{
    void *memory = size > 0 && count > SIZE_MAX / size ? NULL : taken(data, count * size);
    return memory == NULL ? NULL : memset(memory, 0, count * size);
}

static void *resized(void *data, void *memory, size_t size)
{
    void *larger = taken(data, size);
    if (larger != NULL && memory != NULL) {
        size_t held = piece_of(memory)->size;
        memcpy(larger, memory, held < size ? held : size);
        given_back(data, memory);
    }
    return larger;
}

/* libraft asks for aligned memory for its disk alone, which isn't used here. */
static void *aligned(void *data, size_t alignment, size_t size)
{
    (void)data, (void)alignment, (void)size;
    return NULL;
}

static void aligned_given_back(void *data, size_t alignment, void *memory) { (void)data, (void)alignment, (void)memory; }

void memory_start(void)
{
    static struct raft_heap heap = {NULL, taken, given_back, taken_empty, resized, aligned, aligned_given_back};
    raft_heap_set(&heap);
}

void memory_reset(void)
{
    while (ring.next != &ring) {
        given_back(NULL, ring.next->begin);
    }
}
