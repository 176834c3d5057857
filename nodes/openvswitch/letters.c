#include "letters.h"

#include <config.h>

#include <inttypes.h>
#include <stdlib.h>
#include <string.h>

#include "openvswitch/json.h"
#include "openvswitch/shash.h"
#include "util.h"
#include "uuid.h"

/* All letters of a script. */
static struct letter **letters;
static size_t letter_count;

/* Ids are uuids, and addresses */

struct uuid uuid_of(uint64_t id) { return (struct uuid){{(uint32_t)id, (uint32_t)(id >> 32), 0, 0}}; }

uint64_t id_of(const struct uuid *uuid) { return (uint64_t)uuid->parts[1] << 32 | uuid->parts[0]; }

static uint64_t id_in(const char *text)
{
    struct uuid uuid;
    return text != NULL && uuid_from_string(&uuid, text) ? id_of(&uuid) : 0;
}

char *address_of(uint64_t id) { return xasprintf("tcp:127.0.0.1:%" PRIu64, id); }

/* Parts of JSON */

const struct json *part(const struct json *object, const char *name, enum json_type type)
{
    const struct json *found = object != NULL && object->type == JSON_OBJECT ? shash_find_data(json_object(object), name) : NULL;
    return found != NULL && found->type == type ? found : NULL;
}

uint64_t number(const struct json *object, const char *name)
{
    const struct json *found = part(object, name, JSON_INTEGER);
    return found != NULL ? (uint64_t)json_integer(found) : 0;
}

/* An index or a term of raft.c's. It may say 0, which is before its first. */
static uint64_t shifted(uint64_t number) { return number > 0 ? number - SHIFT : 0; }

static const char *text(const struct json *object, const char *name)
{
    const struct json *found = part(object, name, JSON_STRING);
    return found != NULL ? json_string(found) : "";
}

/* raft.c's data are objects: those of the bench have their bytes in hexadecimal. */
struct json *data_of(struct rb_bytes bytes)
{
    struct json *data = json_object_create();
    char *hex = rb_take(2 * bytes.count + 1, 1);
    for (size_t at = 0; at < bytes.count; at++) {
        sprintf(hex + 2 * at, "%02x", ((const unsigned char *)bytes.at)[at]);
    }
    json_object_put_string(data, "hex", hex);
    return data;
}

struct rb_bytes bytes_of(const struct json *data)
{
    if (data != NULL && data->type == JSON_SERIALIZED_OBJECT) {
        struct json *parsed = json_from_serialized_object(data);
        struct rb_bytes bytes = bytes_of(parsed);
        json_destroy(parsed);
        return bytes;
    }
    const char *hex = text(data, "hex");
    size_t count = strlen(hex) / 2;
    unsigned char *bytes = rb_take(count, 1);
    for (size_t at = 0; at < count; at++) {
        sscanf(hex + 2 * at, "%2hhx", &bytes[at]);
    }
    return (struct rb_bytes){bytes, count};
}

struct json *servers_of(const struct rb_ids *ids)
{
    struct json *servers = json_object_create();
    for (size_t at = 0; at < ids->count; at++) {
        struct uuid uuid = uuid_of(ids->all[at]);
        char name[UUID_LEN + 1], *address = address_of(ids->all[at]);
        snprintf(name, sizeof name, UUID_FMT, UUID_ARGS(&uuid));
        json_object_put_string(servers, name, address);
        free(address);
    }
    return servers;
}

void show_servers(struct rb_ids *ids, const struct json *servers)
{
    struct shash_node *server;
    if (servers == NULL || servers->type != JSON_OBJECT) {
        return;
    }
    SHASH_FOR_EACH (server, json_object(servers)) {
        if (id_in(server->name) != DUMMY) {
            rb_put_id(ids, id_in(server->name));
        }
    }
}

/* Messages. Pre-votes have the sender's term here, and in the protocol the one that is asked for. */

static void fill_vote_request(struct rb_message *m, const struct json *p)
{
    m->type = part(p, "is_prevote", JSON_TRUE) ? RB_PRE_VOTE : RB_VOTE;
    m->index = number(p, "last_log_index") - SHIFT;
    m->log_term = number(p, "last_log_term") - SHIFT;
    m->transfer = part(p, "leadership_transfer", JSON_TRUE) != NULL;
    m->term += m->type == RB_PRE_VOTE;
}

static void fill_vote_reply(struct rb_message *m, const struct json *p)
{
    m->type = part(p, "is_prevote", JSON_TRUE) ? RB_PRE_VOTE_RESP : RB_VOTE_RESP;
    m->reject = id_in(text(p, "vote")) != m->to;
    m->term += m->type == RB_PRE_VOTE_RESP && !m->reject;
}

static void fill_append_request(struct rb_message *m, const struct json *p)
{
    const struct json *log = part(p, "log", JSON_ARRAY);
    struct rb_entry *entries = rb_take(log == NULL ? 0 : json_array_size(log), sizeof *entries);
    m->type = RB_APP;
    m->index = shifted(number(p, "prev_log_index"));
    m->log_term = number(p, "prev_log_term") - SHIFT;
    m->commit = number(p, "leader_commit") - SHIFT;
    m->entries = entries;
    m->entry_count = log == NULL ? 0 : json_array_size(log);
    for (size_t at = 0; at < m->entry_count; at++) {
        const struct json *entry = json_array_at(log, at);
        const struct json *data = part(entry, "data", JSON_OBJECT);
        entries[at] = (struct rb_entry){number(entry, "term") - SHIFT, m->index + 1 + at, bytes_of(data), NULL};
    }
}

static void fill_append_reply(struct rb_message *m, const struct json *p)
{
    m->type = RB_APP_RESP;
    m->reject = strcmp(text(p, "result"), "OK") != 0;
    m->index = shifted(number(p, "prev_log_index") + (m->reject ? 0 : number(p, "n_entries")));
    m->reject_hint = m->reject ? number(p, "log_end") - 1 - SHIFT : 0;
}

static void fill_snapshot_request(struct rb_message *m, const struct json *p)
{
    struct rb_snapshot *snapshot = rb_take(1, sizeof *snapshot);
    snapshot->index = number(p, "last_index") - SHIFT;
    snapshot->term = number(p, "last_term") - SHIFT;
    snapshot->content = bytes_of(part(p, "data", JSON_OBJECT));
    show_servers(&snapshot->config.voters, part(p, "last_servers", JSON_OBJECT));
    m->type = RB_SNAP;
    m->snapshot = snapshot;
}

static void fill_snapshot_reply(struct rb_message *m, const struct json *p)
{
    m->type = RB_APP_RESP;
    m->index = number(p, "last_index") - SHIFT;
}

static void fill_become_leader(struct rb_message *m, const struct json *p OVS_UNUSED) { m->type = RB_TIMEOUT_NOW; }

static void fill_command(struct rb_message *m, const struct json *p)
{
    struct rb_entry *entry = rb_take(1, sizeof *entry);
    entry->data = bytes_of(part(p, "data", JSON_OBJECT));
    m->type = RB_PROP;
    m->entries = entry;
    m->entry_count = 1;
}

/* The others, such as a greeting or the answer to a command, have no place in the protocol, and aren't sent. */
static const struct {
    const char *method;
    void (*fill)(struct rb_message *m, const struct json *p);
} methods[] = {
    {"vote_request", fill_vote_request}, {"vote_reply", fill_vote_reply}, {"append_request", fill_append_request},
    {"append_reply", fill_append_reply}, {"install_snapshot_request", fill_snapshot_request},
    {"install_snapshot_reply", fill_snapshot_reply}, {"become_leader", fill_become_leader},
    {"execute_command_request", fill_command},
};

struct letter *letter_new(uint64_t from, uint64_t to, const char *method, const struct json *params)
{
    size_t place = 0;
    while (place < ARRAY_SIZE(methods) && strcmp(methods[place].method, method) != 0) {
        place++;
    }
    if (place == ARRAY_SIZE(methods)) {
        return NULL;
    }
    char *text_of_params = json_to_string(params, 0);
    struct letter *letter = xzalloc(sizeof *letter);
    *letter = (struct letter){from, to, place, xstrdup(method), json_from_string(text_of_params), false};
    free(text_of_params);
    letters = xrealloc(letters, (letter_count + 1) * sizeof *letters);
    letters[letter_count++] = letter;
    return letter;
}

void put_letter(struct rb_text *messages, struct letter *letter)
{
    const struct json *params = json_array_at(letter->params, 0);
    struct rb_message m = {
        .from = letter->from, .to = letter->to, .term = shifted(number(params, "term")), .before_save = letter->goes_before_save, .own = letter,
    };
    methods[letter->place].fill(&m, params);
    rb_put_message(messages, &m);
}

void letters_free(void)
{
    while (letter_count > 0) {
        struct letter *letter = letters[--letter_count];
        json_destroy(letter->params);
        free(letter->method);
        free(letter);
    }
}

