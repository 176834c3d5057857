/* raft.c's messages, which are JSON, and how the protocol has them. */
#ifndef LETTERS_H
#define LETTERS_H

#include <stdbool.h>
#include <stddef.h>
#include <stdint.h>

#include "../c/raftbench.h"
#include "openvswitch/json.h"
#include "openvswitch/uuid.h"

/* raft.c's logs and terms begin at 1: its indexes and terms are one more than in the protocol. */
enum { SHIFT = 1 };
/* A server of configurations that may neither be empty nor lack who has them. */
#define DUMMY UINT64_C(0x7fffffff)

/* A message that was sent, as it would be read. `place` is that of its method in a table. */
struct letter {
    uint64_t from, to;
    size_t place;
    char *method;
    struct json *params;
    bool goes_before_save;
};

/* A letter, which lasts until all are freed; NULL for a method that has no place in the protocol, such as a greeting. */
struct letter *letter_new(uint64_t from, uint64_t to, const char *method, const struct json *params);
void put_letter(struct rb_text *messages, struct letter *letter);
void letters_free(void);

/* A node's id is its server's uuid, and the port of its address. */
struct uuid uuid_of(uint64_t id);
uint64_t id_of(const struct uuid *uuid);
char *address_of(uint64_t id);

/* A part of an object, NULL if it isn't there or of another type; of a number, 0. */
const struct json *part(const struct json *object, const char *name, enum json_type type);
uint64_t number(const struct json *object, const char *name);

/* raft.c's data are objects: those of the bench have their bytes in hexadecimal. The bytes last until the call is answered. */
struct json *data_of(struct rb_bytes bytes);
struct rb_bytes bytes_of(const struct json *data);

struct json *servers_of(const struct rb_ids *ids);
void show_servers(struct rb_ids *ids, const struct json *servers);

#endif
