/* raftbench.h puts a Raft that is written in C behind the protocol of docs/OWN-NODES.md. Fill a `struct rb_library` with your
 * functions, and serve it:
 *
 *     #define RAFTBENCH_IMPLEMENTATION    // in one file of your adapter
 *     #include "raftbench.h"
 *
 *     int main(void) { return rb_serve(&mine); }
 *
 * Lines, JSON, base64, numbers of messages, batches, digests and errors are the header's. It needs C11 and POSIX's read.
 * first.c beside it is an adapter of 80 lines.
 *
 * Ownership: what a pointer of a struct leads to is borrowed. Your functions may read what they are given until they return, and
 * the header reads what you put into a struct before it calls you again. A list (`rb_put_..`) copies.
 *
 * Units: time is in ticks, three of which are an election timeout; sizes are in bytes; ids, terms and indexes are numbers from 0 to
 * 2^63 - 1, where id 0 is nobody, and an empty log ends at index 0 in term 0.
 *
 * The sections. Of each, "N. " finds its head.
 *
 *     1. Values              what the header gives to your functions, and gets from them
 *     2. Library             your functions
 *     3. Helpers             lists, events, memory and failures, for your functions
 *
 * and, with RAFTBENCH_IMPLEMENTATION:
 *
 *     4. State               all that the header keeps
 *     5. Memory              of a call, and of a script
 *     6. Writing JSON        a format, and what each value becomes
 *     7. Messages            written, and kept until the script ends
 *     8. Reading JSON        a text becomes a tree
 *     9. Parts               a tree becomes values
 *     10. SHA-256            for digests
 *     11. Answers            what each question is answered with
 *     12. Calls              which function each call becomes
 *     13. Serving            lines in, lines out */
#ifndef RAFTBENCH_H
#define RAFTBENCH_H

#include <stdbool.h>
#include <stddef.h>
#include <stdint.h>

/* 1. Values -------------------------------------------------------------------------------------------------------- */

enum { RB_MOST_IDS = 64 };

struct rb_bytes {
    const void *at;
    size_t count;
};

/* A set of ids, in any order. */
struct rb_ids {
    size_t count;
    uint64_t all[RB_MOST_IDS];
};

/* docs/SCRIPTS.md says what the parts of a configuration are. `is_auto`: a joint one is left by itself. */
struct rb_config {
    struct rb_ids voters, outgoing, learners, next;
    bool is_auto;
};

/* Where a log begins: all up to `index` is applied, and came to `content` and `config`. */
struct rb_snapshot {
    uint64_t index, term;
    struct rb_bytes content;
    struct rb_config config;
};

enum rb_transition { RB_AUTO, RB_EXPLICIT, RB_IMPLICIT };

/* Each letter is v, l, r or u: the id becomes a voter or a learner, or is removed, or is left as it is. */
struct rb_change {
    enum rb_transition transition;
    size_t count;
    struct {
        char letter;
        uint64_t id;
    } words[RB_MOST_IDS];
};

/* An entry has data, or a change if that isn't NULL. */
struct rb_entry {
    uint64_t term, index;
    struct rb_bytes data;
    const struct rb_change *change;
};

enum rb_type {
    RB_VOTE, RB_VOTE_RESP, RB_PRE_VOTE, RB_PRE_VOTE_RESP, RB_APP, RB_APP_RESP, RB_HEARTBEAT, RB_HEARTBEAT_RESP, RB_SNAP, RB_PROP,
    RB_TRANSFER_LEADER, RB_TIMEOUT_NOW,
};

/* A message; the document says which types have which parts. `own` is yours, and comes back with the message: it has to last until
 * the script ends. The bench may cut entries off the end of an append, if you say `is_open`. */
struct rb_message {
    enum rb_type type;
    uint64_t from, to, term, index, log_term, commit, reject_hint, target, context;
    bool reject, transfer, before_save;
    const struct rb_entry *entries;
    size_t entry_count;
    const struct rb_snapshot *snapshot;
    void *own;
};

struct rb_start {
    uint64_t id;
    struct rb_snapshot base;
    uint64_t inflight, max_size_per_msg;
    bool prevote, checkquorum, step_down_on_removal;
};

enum rb_role { RB_FOLLOWER, RB_PRECANDIDATE, RB_CANDIDATE, RB_LEADER };

/* `is_ready`: there is something to save, to send or to apply. */
struct rb_state {
    enum rb_role role;
    uint64_t term, vote, lead, commit, applied;
    struct rb_bytes content;
    struct rb_config config;
    bool is_ready;
};

/* A text that grows. */
struct rb_text {
    char *at;
    size_t count, room;
};

/* The lists take what `rb_put_entry`, `rb_put_message` and `rb_put_read` put. */
struct rb_ready {
    bool has_hard, has_snapshot, sync;
    uint64_t term, vote, commit;
    uint64_t snapshot_index, snapshot_term;
    struct rb_text entries, committed, messages, reads;
};

/* `durable`: the last index that is saved. `entries` takes those after the base, by `rb_put_entry`. */
struct rb_log {
    uint64_t base_index, base_term, durable;
    struct rb_text entries;
};

/* What a leader knows of a member; `state` is probe, replicate or snapshot. */
struct rb_view {
    uint64_t node, match, next, inflight, snapshot;
    const char *state;
    bool waiting, active;
};

enum rb_saved { RB_SAVED_NOTHING, RB_SAVED_ENTRIES, RB_SAVED_ALL };

/* 2. Library ------------------------------------------------------------------------------------------------------- */

struct rb_library {
    const char *name;

    /* Each library has these. `stop` frees a node when a script is over. */
    void *(*start)(const struct rb_start *start);
    void (*stop)(void *node);
    void (*state)(void *node, struct rb_state *state);
    void (*campaign)(void *node);
    void (*propose)(void *node, struct rb_bytes data);
    void (*step)(void *node, const struct rb_message *message);
    void (*ready)(void *node, struct rb_ready *ready);
    void (*advance)(void *node);

    /* What is NULL your nodes can't do, and the bench doesn't ask for it. */
    void (*tick)(void *node);
    void (*set_timeout)(void *node, uint64_t ticks);
    void (*forget_leader)(void *node);
    void (*propose_change)(void *node, const struct rb_change *change, bool is_v1);
    void (*transfer)(void *node, uint64_t to);
    void (*report_unreachable)(void *node, uint64_t to);
    void (*compact)(void *node, uint64_t index);
    void (*snapshot)(void *node, uint64_t to, struct rb_message *message);
    void (*log)(void *node, struct rb_log *log);
    void (*status)(void *node, struct rb_text *views);
    void *(*restart)(void *node, enum rb_saved saved); /* gives the node that goes on; if it is another one, this one is stopped */
    void (*lost)(void *node, const struct rb_message *message);
    void (*read)(void *node, uint64_t id);
    void (*report_snapshot)(void *node, uint64_t to, bool failed);
    void (*reset)(void); /* a script is over, and all of its nodes were stopped */

    /* What else `hello` says. Each list ends with NULL, and may be NULL. */
    const char *const *without, *const *always, *const *limits;
    bool is_open, is_ordered, is_apart;
};

/* 3. Helpers ------------------------------------------------------------------------------------------------------- */

/* Answers calls until standard input ends; gives the program's status. */
int rb_serve(const struct rb_library *library);

void rb_put_entry(struct rb_text *entries, struct rb_entry entry);
void rb_put_message(struct rb_text *messages, const struct rb_message *message);
void rb_put_read(struct rb_text *reads, uint64_t id, uint64_t index);
void rb_put_view(struct rb_text *views, const struct rb_view *view);
void rb_put_id(struct rb_ids *ids, uint64_t id);

#ifdef __GNUC__
#define RB_IS_FORMAT __attribute__((format(printf, 2, 3)))
#else
#define RB_IS_FORMAT
#endif

/* An event of the node that is called, of level DEBUG, INFO, WARN, ERROR or FATAL. */
void rb_event(const char *level, const char *format, ...) RB_IS_FORMAT;

/* Zeroed memory, which is the header's and lasts until the call is answered. */
void *rb_take(size_t count, size_t size);

/* What never should have happened, such as a failed assertion, at a place of your library: the call is answered with it, and of the
 * nodes only `stop` and `reset` are called from then on. Doesn't return. */
_Noreturn void rb_fail(const char *at, const char *format, ...) RB_IS_FORMAT;

#define RB_TEXT_(x) #x
#define RB_TEXT(x) RB_TEXT_(x)
#define RB_ASSERT(holds) ((holds) ? (void)0 : rb_fail(__FILE__ ":" RB_TEXT(__LINE__), "%s doesn't hold", #holds))

#endif

#if defined RAFTBENCH_IMPLEMENTATION && !defined RAFTBENCH_IMPLEMENTED
#define RAFTBENCH_IMPLEMENTED

#include <inttypes.h>
#include <setjmp.h>
#include <stdarg.h>
#include <stdio.h>
#include <stdlib.h>
#include <string.h>
#include <unistd.h>

/* 4. State --------------------------------------------------------------------------------------------------------- */

#define RB_COUNT(array) (sizeof(array) / sizeof *(array))
#define RB_GREATEST ((UINT64_C(1) << 63) - 1)
enum { RB_CHUNK = 1 << 16, RB_MOST_DEPTH = 64 };

static const char *const rb_types[] = {
    "MsgVote", "MsgVoteResp", "MsgPreVote", "MsgPreVoteResp", "MsgApp", "MsgAppResp", "MsgHeartbeat", "MsgHeartbeatResp", "MsgSnap",
    "MsgProp", "MsgTransferLeader", "MsgTimeoutNow",
};
static const char *const rb_roles[] = {"follower", "precandidate", "candidate", "leader"};
static const char *const rb_transitions[] = {"auto", "explicit", "implicit"};
static const char *const rb_words_of_saved[] = {"nothing", "entries", "all"};

/* Memory that is taken piece by piece, and given back all at once. */
struct rb_block {
    struct rb_block *before;
    size_t used, room;
    max_align_t memory[];
};

static struct {
    const struct rb_library *library;
    struct rb_hosted {
        uint64_t id;
        void *node;
    } *nodes;
    size_t node_count;
    struct rb_message *given; /* since the last reset */
    size_t given_count, given_room;
    struct rb_block *of_script, *of_call;
    struct rb_text answer, events, views;
    struct rb_ready ready;
    struct rb_log log;
    bool is_broken; /* a call of this script has failed */
    bool is_answering; /* `failed` can be jumped to */
    uint64_t hidden; /* answers that are still to be hidden by a digest */
    struct rb_sha {
        uint32_t words[8];
        uint64_t count;
        unsigned char block[64];
    } digest;
    jmp_buf failed;
    char failure[400], at[200];
} rb;

_Noreturn void rb_fail(const char *at, const char *format, ...)
{
    va_list more;
    va_start(more, format);
    vsnprintf(rb.failure, sizeof rb.failure, format, more);
    va_end(more);
    snprintf(rb.at, sizeof rb.at, "%s", at);
    if (!rb.is_answering) {
        fprintf(stderr, "%s: %s\n", rb.at, rb.failure);
        abort();
    }
    longjmp(rb.failed, 1);
}

static _Noreturn void rb_no_memory(void)
{
    fputs("raftbench.h: out of memory\n", stderr);
    exit(1);
}

/* 5. Memory -------------------------------------------------------------------------------------------------------- */

static void *rb_take_from(struct rb_block **blocks, size_t count, size_t size)
{
    const size_t unit = sizeof(max_align_t);
    if (size > 0 && count > (SIZE_MAX / 4) / size) {
        rb_no_memory();
    }
    size_t needed = (count * size + unit - 1) / unit * unit;
    if (*blocks == NULL || (*blocks)->room - (*blocks)->used < needed) {
        size_t room = needed > RB_CHUNK ? needed : RB_CHUNK;
        struct rb_block *block = malloc(sizeof *block + room);
        if (block == NULL) {
            rb_no_memory();
        }
        *block = (struct rb_block){*blocks, 0, room};
        *blocks = block;
    }
    void *memory = (char *)(*blocks)->memory + (*blocks)->used;
    (*blocks)->used += needed;
    return memset(memory, 0, needed);
}

/* Gives back all but the first block. */
static void rb_give_back(struct rb_block **blocks)
{
    while (*blocks != NULL && (*blocks)->before != NULL) {
        struct rb_block *before = (*blocks)->before;
        free(*blocks);
        *blocks = before;
    }
    if (*blocks != NULL) {
        (*blocks)->used = 0;
    }
}

void *rb_take(size_t count, size_t size) { return rb_take_from(&rb.of_call, count, size); }

/* An array with room for one more. */
static void *rb_grown(void *array, size_t count, size_t *room, size_t size)
{
    if (count < *room) {
        return array;
    }
    *room = *room * 2 + 16;
    void *grown = *room > SIZE_MAX / size ? NULL : realloc(array, *room * size);
    if (grown == NULL) {
        rb_no_memory();
    }
    return grown;
}

static struct rb_bytes rb_copied(struct rb_bytes bytes)
{
    void *copy = rb_take_from(&rb.of_script, bytes.count, 1);
    return (struct rb_bytes){bytes.count > 0 ? memcpy(copy, bytes.at, bytes.count) : copy, bytes.count};
}

void rb_put_id(struct rb_ids *ids, uint64_t id)
{
    if (ids->count == RB_MOST_IDS) {
        rb_fail("raftbench.h", "more than %d ids", RB_MOST_IDS);
    }
    ids->all[ids->count++] = id;
}

/* 6. Writing JSON -------------------------------------------------------------------------------------------------- */

static void rb_put(struct rb_text *text, const void *bytes, size_t count)
{
    if (text->room - text->count < count) {
        text->room = (text->count + count) * 2 + 256;
        text->at = realloc(text->at, text->room);
        if (text->at == NULL) {
            rb_no_memory();
        }
    }
    if (count > 0) {
        memcpy(text->at + text->count, bytes, count);
    }
    text->count += count;
}

static void rb_puts(struct rb_text *text, const char *string) { rb_put(text, string, strlen(string)); }

/* A word of a list, which a value of an enumeration has to be in. */
static const char *rb_named(const char *const *words, size_t count, unsigned at)
{
    RB_ASSERT(at < count);
    return words[at];
}

/* Goes before each item of a list: a comma, but before the first. */
static void rb_put_comma(struct rb_text *text)
{
    if (text->count > 0 && text->at[text->count - 1] != '[') {
        rb_puts(text, ",");
    }
}

static void rb_put_string(struct rb_text *text, const char *string)
{
    rb_puts(text, "\"");
    for (; *string != '\0'; string++) {
        /* A byte that isn't ASCII may be of any encoding: it becomes the character of that number. */
        unsigned char byte = (unsigned char)*string;
        char escaped[8] = {*string, '\0'};
        if (byte < 0x20 || byte >= 0x7f || byte == '"' || byte == '\\') {
            snprintf(escaped, sizeof escaped, "\\u%04x", byte);
        }
        rb_puts(text, escaped);
    }
    rb_puts(text, "\"");
}

static void rb_put_number(struct rb_text *text, uint64_t number)
{
    char digits[24];
    snprintf(digits, sizeof digits, "%" PRIu64, number);
    rb_puts(text, digits);
}

static const char rb_digits[] = "ABCDEFGHIJKLMNOPQRSTUVWXYZabcdefghijklmnopqrstuvwxyz0123456789+/";

static void rb_put_base64(struct rb_text *text, struct rb_bytes bytes)
{
    const unsigned char *from = bytes.at;
    rb_puts(text, "\"");
    for (size_t at = 0; at < bytes.count; at += 3) {
        size_t left = bytes.count - at;
        uint32_t three = (uint32_t)from[at] << 16 | (left > 1 ? (uint32_t)from[at + 1] << 8 : 0) | (left > 2 ? from[at + 2] : 0);
        char four[] = {rb_digits[three >> 18], rb_digits[three >> 12 & 63], rb_digits[three >> 6 & 63], rb_digits[three & 63]};
        memset(four + 1 + left, '=', left < 3 ? 3 - left : 0);
        rb_put(text, four, sizeof four);
    }
    rb_puts(text, "\"");
}

static void rb_put_ids(struct rb_text *text, const struct rb_ids *ids)
{
    rb_puts(text, "[");
    for (size_t at = 0; at < ids->count && at < RB_MOST_IDS; at++) {
        rb_put_comma(text);
        rb_put_number(text, ids->all[at]);
    }
    rb_puts(text, "]");
}

static void rb_put_words(struct rb_text *text, const char *const *words)
{
    for (; words != NULL && *words != NULL; words++) {
        rb_put_comma(text);
        rb_put_string(text, *words);
    }
}

/* Puts a format, in which ' stands for ", and a letter after % for a value: n a uint64_t, t a truth, s a string, b rb_bytes; i the
 * ids, l the list and w the words that a pointer leads to. */
static void rb_format(struct rb_text *text, const char *format, ...)
{
    va_list values;
    va_start(values, format);
    for (; *format != '\0'; format++) {
        char letter = *format == '%' ? *++format : '\0';
        if (letter == 'n') {
            rb_put_number(text, va_arg(values, uint64_t));
        } else if (letter == 't') {
            rb_puts(text, va_arg(values, int) ? "true" : "false");
        } else if (letter == 's') {
            rb_put_string(text, va_arg(values, const char *));
        } else if (letter == 'b') {
            rb_put_base64(text, va_arg(values, struct rb_bytes));
        } else if (letter == 'i') {
            rb_put_ids(text, va_arg(values, const struct rb_ids *));
        } else if (letter == 'l') {
            const struct rb_text *list = va_arg(values, const struct rb_text *);
            rb_put(text, list->at, list->count);
        } else if (letter == 'w') {
            rb_put_words(text, va_arg(values, const char *const *));
        } else {
            rb_put(text, *format == '\'' ? "\"" : format, 1);
        }
    }
    va_end(values);
}

static void rb_put_config(struct rb_text *text, const struct rb_config *c)
{
    rb_format(text, "'config':{'voters':%i,'outgoing':%i,'learners':%i,'next':%i,'auto':%t}", &c->voters, &c->outgoing, &c->learners,
              &c->next, c->is_auto);
}

static void rb_put_change(struct rb_text *text, const struct rb_change *change)
{
    rb_format(text, "'change':{'transition':%s,'words':[", rb_named(rb_transitions, RB_COUNT(rb_transitions), change->transition));
    for (size_t at = 0; at < change->count && at < RB_MOST_IDS; at++) {
        char word[32];
        snprintf(word, sizeof word, "%c%" PRIu64, change->words[at].letter, change->words[at].id);
        rb_put_comma(text);
        rb_put_string(text, word);
    }
    rb_puts(text, "]}");
}

void rb_put_entry(struct rb_text *entries, struct rb_entry entry)
{
    rb_put_comma(entries);
    rb_format(entries, "{'term':%n,'index':%n,", entry.term, entry.index);
    if (entry.change != NULL) {
        rb_put_change(entries, entry.change);
    } else {
        rb_format(entries, "'data':%b", entry.data);
    }
    rb_puts(entries, "}");
}

void rb_put_read(struct rb_text *reads, uint64_t id, uint64_t index)
{
    rb_put_comma(reads);
    rb_format(reads, "{'id':%n,'index':%n}", id, index);
}

void rb_put_view(struct rb_text *views, const struct rb_view *view)
{
    RB_ASSERT(view->state != NULL);
    rb_put_comma(views);
    rb_format(views, "{'node':%n,'state':%s,'match':%n,'next':%n,'inflight':%n,'waiting':%t,'active':%t,'snapshot':%n}", view->node,
              view->state, view->match, view->next, view->inflight, view->waiting, view->active, view->snapshot);
}

void rb_event(const char *level, const char *format, ...)
{
    char line[1000];
    va_list more;
    va_start(more, format);
    vsnprintf(line, sizeof line, format, more);
    va_end(more);
    rb_put_comma(&rb.events);
    rb_format(&rb.events, "[%s,%s]", level, line);
}

/* 7. Messages ------------------------------------------------------------------------------------------------------ */

/* Where the numbers and the truths of a message are. */
static const struct rb_field {
    const char *name;
    size_t at;
} rb_numbers[] = {
    {"from", offsetof(struct rb_message, from)}, {"to", offsetof(struct rb_message, to)}, {"term", offsetof(struct rb_message, term)},
    {"index", offsetof(struct rb_message, index)}, {"logTerm", offsetof(struct rb_message, log_term)},
    {"commit", offsetof(struct rb_message, commit)}, {"rejectHint", offsetof(struct rb_message, reject_hint)},
    {"target", offsetof(struct rb_message, target)}, {"context", offsetof(struct rb_message, context)},
}, rb_truths[] = {
    {"reject", offsetof(struct rb_message, reject)}, {"transfer", offsetof(struct rb_message, transfer)},
    {"before_save", offsetof(struct rb_message, before_save)},
};

/* Keeps a message until the script ends. */
static void rb_keep(const struct rb_message *message)
{
    struct rb_entry *entries = rb_take_from(&rb.of_script, message->entry_count, sizeof *entries);
    rb.given = rb_grown(rb.given, rb.given_count, &rb.given_room, sizeof *rb.given);
    struct rb_message *kept = &rb.given[rb.given_count++];
    *kept = *message;
    kept->entries = entries;
    for (size_t at = 0; at < message->entry_count; at++) {
        entries[at] = message->entries[at];
        entries[at].data = rb_copied(entries[at].data);
        if (entries[at].change != NULL) {
            entries[at].change = rb_copied((struct rb_bytes){entries[at].change, sizeof *entries[at].change}).at;
        }
    }
    if (message->snapshot != NULL) {
        struct rb_snapshot *snapshot = rb_take_from(&rb.of_script, 1, sizeof *snapshot);
        *snapshot = *message->snapshot;
        snapshot->content = rb_copied(snapshot->content);
        kept->snapshot = snapshot;
    }
}

void rb_put_message(struct rb_text *messages, const struct rb_message *message)
{
    const char *begin = (const char *)message;
    rb_put_comma(messages);
    rb_format(messages, "{'type':%s", rb_named(rb_types, RB_COUNT(rb_types), message->type));
    for (size_t at = 0; at < RB_COUNT(rb_numbers); at++) {
        rb_format(messages, ",%s:%n", rb_numbers[at].name, *(const uint64_t *)(const void *)(begin + rb_numbers[at].at));
    }
    for (size_t at = 0; at < RB_COUNT(rb_truths); at++) {
        rb_format(messages, ",%s:%t", rb_truths[at].name, *(const bool *)(const void *)(begin + rb_truths[at].at));
    }
    rb_format(messages, ",'entries':[");
    for (size_t at = 0; at < message->entry_count; at++) {
        rb_put_entry(messages, message->entries[at]);
    }
    rb_puts(messages, "]");
    if (message->snapshot != NULL) {
        const struct rb_snapshot *s = message->snapshot;
        rb_format(messages, ",'snapshot':{'index':%n,'term':%n,'content':%b,", s->index, s->term, s->content);
        rb_put_config(messages, &s->config);
        rb_puts(messages, "}");
    }
    if (message->own != NULL) {
        rb_format(messages, ",'own':%n", (uint64_t)rb.given_count);
    }
    rb_puts(messages, "}");
    rb_keep(message);
}

/* 8. Reading JSON -------------------------------------------------------------------------------------------------- */

/* A value and what it has lie in memory that lasts as long as the call. */
enum rb_kind { RB_NULL, RB_TRUTH, RB_NUMBER, RB_STRING, RB_ARRAY, RB_OBJECT };

struct rb_json {
    enum rb_kind kind;
    uint64_t number; /* of a truth: 0 or 1 */
    struct rb_bytes text;
    const char *name; /* in an object; it ends with a 0 */
    size_t count;
    struct rb_json *first, *next;
};

struct rb_reader {
    const char *at, *end;
    unsigned depth;
};

static _Noreturn void rb_no_json(const char *why) { rb_fail("raftbench.h", "the call is no JSON: %s", why); }

static char rb_peek(struct rb_reader *reader)
{
    while (reader->at < reader->end && strchr(" \t\r\n", *reader->at) != NULL && *reader->at != '\0') {
        reader->at++;
    }
    return reader->at < reader->end ? *reader->at : '\0';
}

static void rb_expect(struct rb_reader *reader, const char *word)
{
    size_t count = strlen(word);
    if ((size_t)(reader->end - reader->at) < count || memcmp(reader->at, word, count) != 0) {
        rb_fail("raftbench.h", "the call is no JSON: %s is missing", word);
    }
    reader->at += count;
}

static unsigned rb_hex(struct rb_reader *reader)
{
    unsigned value = 0;
    for (int digit = 0; digit < 4; digit++) {
        static const char hex[] = "0123456789abcdef";
        char c = reader->at < reader->end ? *reader->at++ : '\0';
        const char *place = c == '\0' ? NULL : strchr(hex, c >= 'A' && c <= 'F' ? c - 'A' + 'a' : c);
        if (place == NULL) {
            rb_no_json("four digits after \\u");
        }
        value = value * 16 + (unsigned)(place - hex);
    }
    return value;
}

/* A character of a string, as UTF-8. Half of a surrogate pair stands for itself: no text of the protocol has any. */
static size_t rb_unescaped(struct rb_reader *reader, char *to)
{
    static const char letters[] = "\"\\/bfnrt", meant[] = "\"\\/\b\f\n\r\t";
    char c = *reader->at++;
    if ((unsigned char)c < 0x20) {
        rb_no_json("a control character in a string");
    }
    if (c != '\\') {
        *to = c;
        return 1;
    }
    char letter = reader->at < reader->end ? *reader->at++ : '\0';
    const char *place = letter == '\0' ? NULL : strchr(letters, letter);
    if (place != NULL) {
        *to = meant[place - letters];
        return 1;
    }
    if (letter != 'u') {
        rb_no_json("an escape");
    }
    unsigned code = rb_hex(reader);
    size_t count = code < 0x80 ? 1 : code < 0x800 ? 2 : 3;
    for (size_t at = count; at-- > 1; code >>= 6) {
        to[at] = (char)(0x80 | (code & 0x3f));
    }
    to[0] = (char)(count == 1 ? code : (count == 2 ? 0xc0 : 0xe0) | code);
    return count;
}

static struct rb_bytes rb_parse_string(struct rb_reader *reader)
{
    rb_expect(reader, "\"");
    const char *end = reader->at;
    while (end < reader->end && *end != '"') {
        end += *end == '\\' && end + 1 < reader->end ? 2 : 1;
    }
    if (end >= reader->end) {
        rb_no_json("a string has no end");
    }
    /* An escape is longer than what it means. */
    char *text = rb_take((size_t)(end - reader->at) + 1, 1);
    size_t count = 0;
    while (reader->at < end) {
        count += rb_unescaped(reader, text + count);
    }
    reader->at++;
    return (struct rb_bytes){text, count};
}

static uint64_t rb_parse_number(struct rb_reader *reader)
{
    uint64_t value = 0;
    const char *begin = reader->at;
    for (; reader->at < reader->end && *reader->at >= '0' && *reader->at <= '9'; reader->at++) {
        unsigned digit = (unsigned)(*reader->at - '0');
        if (value > (RB_GREATEST - digit) / 10) {
            rb_no_json("a number is above 2^63 - 1");
        }
        value = value * 10 + digit;
    }
    if (reader->at == begin || (reader->at < reader->end && *reader->at != '\0' && strchr(".eE", *reader->at) != NULL)) {
        rb_no_json("not a whole number from 0 on");
    }
    return value;
}

static struct rb_json *rb_parse(struct rb_reader *reader);

static void rb_parse_items(struct rb_reader *reader, struct rb_json *value, char end)
{
    struct rb_json **last = &value->first;
    reader->at++;
    if (rb_peek(reader) == end) {
        reader->at++;
        return;
    }
    for (;;) {
        const char *name = NULL;
        if (value->kind == RB_OBJECT) {
            rb_peek(reader);
            name = rb_parse_string(reader).at;
            rb_peek(reader);
            rb_expect(reader, ":");
        }
        *last = rb_parse(reader);
        (*last)->name = name;
        last = &(*last)->next;
        value->count++;
        char next = rb_peek(reader);
        if (next != ',' && next != end) {
            rb_no_json("a comma or an end is missing");
        }
        reader->at++;
        if (next == end) {
            return;
        }
    }
}

static struct rb_json *rb_parse(struct rb_reader *reader)
{
    struct rb_json *value = rb_take(1, sizeof *value);
    if (++reader->depth > RB_MOST_DEPTH) {
        rb_no_json("too deep");
    }
    switch (rb_peek(reader)) {
    case '{':
        value->kind = RB_OBJECT;
        rb_parse_items(reader, value, '}');
        break;
    case '[':
        value->kind = RB_ARRAY;
        rb_parse_items(reader, value, ']');
        break;
    case '"':
        value->kind = RB_STRING;
        value->text = rb_parse_string(reader);
        break;
    case 't':
    case 'f':
        value->kind = RB_TRUTH;
        value->number = *reader->at == 't';
        rb_expect(reader, value->number ? "true" : "false");
        break;
    case 'n':
        rb_expect(reader, "null");
        break;
    default:
        value->kind = RB_NUMBER;
        value->number = rb_parse_number(reader);
    }
    reader->depth--;
    return value;
}

/* 9. Parts --------------------------------------------------------------------------------------------------------- */

/* A part of an object; NULL if it isn't there. One of another kind is refused. */
static const struct rb_json *rb_part(const struct rb_json *object, const char *name, enum rb_kind kind)
{
    const struct rb_json *part = object == NULL || object->kind != RB_OBJECT ? NULL : object->first;
    while (part != NULL && strcmp(part->name, name) != 0) {
        part = part->next;
    }
    if (part == NULL || part->kind == RB_NULL) {
        return NULL;
    }
    if (part->kind != kind) {
        rb_fail("raftbench.h", "%s is of another kind", name);
    }
    return part;
}

static uint64_t rb_number(const struct rb_json *object, const char *name)
{
    const struct rb_json *part = rb_part(object, name, RB_NUMBER);
    return part == NULL ? 0 : part->number;
}

static bool rb_truth(const struct rb_json *object, const char *name)
{
    const struct rb_json *part = rb_part(object, name, RB_TRUTH);
    return part != NULL && part->number != 0;
}

static const char *rb_string(const struct rb_json *object, const char *name)
{
    const struct rb_json *part = rb_part(object, name, RB_STRING);
    return part == NULL ? "" : part->text.at;
}

static const struct rb_json *rb_items(const struct rb_json *object, const char *name)
{
    const struct rb_json *part = rb_part(object, name, RB_ARRAY);
    return part == NULL ? NULL : part->first;
}

/* The place of a part's word in a list. */
static unsigned rb_word(const struct rb_json *object, const char *name, const char *const *words, size_t count)
{
    const char *word = rb_string(object, name);
    for (size_t at = 0; at < count; at++) {
        if (strcmp(words[at], word) == 0) {
            return (unsigned)at;
        }
    }
    rb_fail("raftbench.h", "%s has an unknown word, %.80s", name, word);
}

static struct rb_bytes rb_data(const struct rb_json *object, const char *name)
{
    const struct rb_json *part = rb_part(object, name, RB_STRING);
    struct rb_bytes text = part == NULL ? (struct rb_bytes){"", 0} : part->text;
    unsigned char *bytes = rb_take(text.count / 4 * 3 + 3, 1);
    size_t count = 0, pads = 0;
    uint32_t held = 0;
    for (size_t at = 0; at < text.count; at++) {
        char c = ((const char *)text.at)[at];
        const char *digit = c == '\0' ? NULL : strchr(rb_digits, c);
        pads += c == '=';
        if ((digit == NULL) != (c == '=') || (pads > 0 && c != '=') || pads > 2 || (c == '=' && at % 4 < 2)) {
            rb_fail("raftbench.h", "%s is not base64", name);
        }
        held = held << 6 | (digit == NULL ? 0 : (uint32_t)(digit - rb_digits));
        if (at % 4 == 3) {
            bytes[count++] = (unsigned char)(held >> 16 & 0xff);
            bytes[count++] = (unsigned char)(held >> 8 & 0xff);
            bytes[count++] = (unsigned char)(held & 0xff);
        }
    }
    if (text.count % 4 != 0) {
        rb_fail("raftbench.h", "%s is not base64", name);
    }
    return (struct rb_bytes){bytes, count - pads};
}

static struct rb_ids rb_ids_of(const struct rb_json *object, const char *name)
{
    struct rb_ids ids = {0};
    for (const struct rb_json *id = rb_items(object, name); id != NULL; id = id->next) {
        if (id->kind != RB_NUMBER) {
            rb_fail("raftbench.h", "%s has what is no id", name);
        }
        rb_put_id(&ids, id->number);
    }
    return ids;
}

static struct rb_snapshot rb_snapshot_of(const struct rb_json *object)
{
    const struct rb_json *config = rb_part(object, "config", RB_OBJECT);
    return (struct rb_snapshot){
        rb_number(object, "index"), rb_number(object, "term"), rb_data(object, "content"),
        {rb_ids_of(config, "voters"), rb_ids_of(config, "outgoing"), rb_ids_of(config, "learners"), rb_ids_of(config, "next"),
         rb_truth(config, "auto")},
    };
}

static const struct rb_change *rb_change_of(const struct rb_json *object)
{
    struct rb_change *change = rb_take(1, sizeof *change);
    change->transition = (enum rb_transition)rb_word(object, "transition", rb_transitions, RB_COUNT(rb_transitions));
    for (const struct rb_json *word = rb_items(object, "words"); word != NULL; word = word->next) {
        const char *text = word->kind == RB_STRING && word->text.count > 1 ? word->text.at : "?";
        struct rb_reader digits = {text + 1, text + (*text == '?' ? 1 : word->text.count), 0};
        if (strchr("vlru", *text) == NULL || change->count == RB_MOST_IDS) {
            rb_fail("raftbench.h", "words of a change");
        }
        change->words[change->count].letter = *text;
        change->words[change->count++].id = rb_parse_number(&digits);
    }
    return change;
}

static const struct rb_message *rb_message_of(const struct rb_json *object)
{
    struct rb_message *message = rb_take(1, sizeof *message);
    message->type = (enum rb_type)rb_word(object, "type", rb_types, RB_COUNT(rb_types));
    for (size_t at = 0; at < RB_COUNT(rb_numbers); at++) {
        *(uint64_t *)(void *)((char *)message + rb_numbers[at].at) = rb_number(object, rb_numbers[at].name);
    }
    for (size_t at = 0; at < RB_COUNT(rb_truths); at++) {
        *(bool *)(void *)((char *)message + rb_truths[at].at) = rb_truth(object, rb_truths[at].name);
    }
    const struct rb_json *entries = rb_part(object, "entries", RB_ARRAY);
    struct rb_entry *filled = rb_take(entries == NULL ? 0 : entries->count, sizeof *filled);
    message->entries = filled;
    for (const struct rb_json *entry = entries == NULL ? NULL : entries->first; entry != NULL; entry = entry->next) {
        const struct rb_json *change = rb_part(entry, "change", RB_OBJECT);
        filled[message->entry_count++] = (struct rb_entry){
            rb_number(entry, "term"), rb_number(entry, "index"), rb_data(entry, "data"), change == NULL ? NULL : rb_change_of(change),
        };
    }
    const struct rb_json *snapshot = rb_part(object, "snapshot", RB_OBJECT), *own = rb_part(object, "own", RB_NUMBER);
    if (snapshot != NULL) {
        struct rb_snapshot *held = rb_take(1, sizeof *held);
        *held = rb_snapshot_of(snapshot);
        message->snapshot = held;
    }
    if (own != NULL && own->number < rb.given_count) {
        message->own = rb.given[own->number].own;
    }
    return message;
}

/* 10. SHA-256 ------------------------------------------------------------------------------------------------------ */

/* FIPS 180-4. */
static const uint32_t rb_sha_constants[64] = {
    0x428a2f98, 0x71374491, 0xb5c0fbcf, 0xe9b5dba5, 0x3956c25b, 0x59f111f1, 0x923f82a4, 0xab1c5ed5, 0xd807aa98, 0x12835b01, 0x243185be,
    0x550c7dc3, 0x72be5d74, 0x80deb1fe, 0x9bdc06a7, 0xc19bf174, 0xe49b69c1, 0xefbe4786, 0x0fc19dc6, 0x240ca1cc, 0x2de92c6f, 0x4a7484aa,
    0x5cb0a9dc, 0x76f988da, 0x983e5152, 0xa831c66d, 0xb00327c8, 0xbf597fc7, 0xc6e00bf3, 0xd5a79147, 0x06ca6351, 0x14292967, 0x27b70a85,
    0x2e1b2138, 0x4d2c6dfc, 0x53380d13, 0x650a7354, 0x766a0abb, 0x81c2c92e, 0x92722c85, 0xa2bfe8a1, 0xa81a664b, 0xc24b8b70, 0xc76c51a3,
    0xd192e819, 0xd6990624, 0xf40e3585, 0x106aa070, 0x19a4c116, 0x1e376c08, 0x2748774c, 0x34b0bcb5, 0x391c0cb3, 0x4ed8aa4a, 0x5b9cca4f,
    0x682e6ff3, 0x748f82ee, 0x78a5636f, 0x84c87814, 0x8cc70208, 0x90befffa, 0xa4506ceb, 0xbef9a3f7, 0xc67178f2,
};

static const struct rb_sha rb_sha_begin = {
    {0x6a09e667, 0xbb67ae85, 0x3c6ef372, 0xa54ff53a, 0x510e527f, 0x9b05688c, 0x1f83d9ab, 0x5be0cd19}, 0, {0},
};

static uint32_t rb_turned(uint32_t word, unsigned by) { return word >> by | word << (32 - by); }

static void rb_sha_block(uint32_t *words, const unsigned char *block)
{
    uint32_t w[64], h[8];
    memcpy(h, words, sizeof h);
    for (size_t t = 0; t < 64; t++) {
        if (t < 16) {
            w[t] = (uint32_t)block[4 * t] << 24 | (uint32_t)block[4 * t + 1] << 16 | (uint32_t)block[4 * t + 2] << 8 | block[4 * t + 3];
        } else {
            w[t] = (rb_turned(w[t - 2], 17) ^ rb_turned(w[t - 2], 19) ^ w[t - 2] >> 10) + w[t - 7] +
                   (rb_turned(w[t - 15], 7) ^ rb_turned(w[t - 15], 18) ^ w[t - 15] >> 3) + w[t - 16];
        }
        uint32_t one = h[7] + (rb_turned(h[4], 6) ^ rb_turned(h[4], 11) ^ rb_turned(h[4], 25)) + ((h[4] & h[5]) ^ (~h[4] & h[6])) +
                       rb_sha_constants[t] + w[t];
        uint32_t two = (rb_turned(h[0], 2) ^ rb_turned(h[0], 13) ^ rb_turned(h[0], 22)) + ((h[0] & h[1]) ^ (h[0] & h[2]) ^ (h[1] & h[2]));
        memmove(h + 1, h, 7 * sizeof *h);
        h[4] += one;
        h[0] = one + two;
    }
    for (size_t at = 0; at < 8; at++) {
        words[at] += h[at];
    }
}

static void rb_sha_add(struct rb_sha *sha, const void *bytes, size_t count)
{
    const unsigned char *from = bytes;
    for (size_t at = 0; at < count; at++) {
        sha->block[sha->count++ % 64] = from[at];
        if (sha->count % 64 == 0) {
            rb_sha_block(sha->words, sha->block);
        }
    }
}

/* 64 hexadecimal digits, and a 0. */
static void rb_sha_end(struct rb_sha *sha, char *to)
{
    static const unsigned char pad[64] = {0x80};
    uint64_t bits = sha->count * 8;
    unsigned char length[8];
    for (size_t at = 0; at < 8; at++) {
        length[at] = (unsigned char)(bits >> (56 - 8 * at) & 0xff);
    }
    rb_sha_add(sha, pad, 1 + (119 - sha->count % 64) % 64);
    rb_sha_add(sha, length, sizeof length);
    for (size_t at = 0; at < 8; at++) {
        snprintf(to + 8 * at, 9, "%08" PRIx32, sha->words[at]);
    }
}

/* 11. Answers ------------------------------------------------------------------------------------------------------ */

static void rb_put_hello(struct rb_text *text)
{
    const struct rb_library *l = rb.library;
    const struct {
        const char *word;
        bool is_there;
    } calls[] = {
        {"tick", l->tick != NULL}, {"set_timeout", l->set_timeout != NULL}, {"forget_leader", l->forget_leader != NULL},
        {"propose_change", l->propose_change != NULL}, {"transfer", l->transfer != NULL}, {"status", l->status != NULL},
        {"report_unreachable", l->report_unreachable != NULL}, {"compact", l->compact != NULL}, {"snapshot", l->snapshot != NULL},
        {"log", l->log != NULL}, {"durable", l->log != NULL},
    }, optional[] = {
        {"restart", l->restart != NULL}, {"lost", l->lost != NULL}, {"read", l->read != NULL},
        {"report_snapshot", l->report_snapshot != NULL},
    };
    rb_format(text, "'name':%s,'protocol':1,'open':%t,'ordered':%t,'apart':%t,'batch':true,'digest':true", l->name, l->is_open,
              l->is_ordered, l->is_apart);
    rb_format(text, ",'always':[%w],'limits':[%w],'without':[", l->always, l->limits);
    for (size_t at = 0; at < RB_COUNT(calls); at++) {
        rb_put_words(text, (const char *const[]){calls[at].is_there ? NULL : calls[at].word, NULL});
    }
    rb_put_words(text, l->without);
    rb_format(text, "],'calls':[");
    for (size_t at = 0; at < RB_COUNT(optional); at++) {
        rb_put_words(text, (const char *const[]){optional[at].is_there ? optional[at].word : NULL, NULL});
    }
    rb_puts(text, "]");
}

static void rb_put_state(struct rb_text *text, void *node)
{
    struct rb_state s = {0};
    rb.library->state(node, &s);
    rb_format(text, "{'role':%s,'term':%n,'vote':%n,'lead':%n,'commit':%n,'applied':%n,'content':%b,'ready':%t,",
              rb_named(rb_roles, RB_COUNT(rb_roles), s.role), s.term, s.vote, s.lead, s.commit, s.applied, s.content, s.is_ready);
    rb_put_config(text, &s.config);
    rb_puts(text, "}");
}

static void rb_put_changed(struct rb_text *text, void *node)
{
    rb_format(text, "'state':");
    rb_put_state(text, node);
    rb_format(text, ",'events':[%l]", &rb.events);
}

/* The text's memory, without what it has. */
static struct rb_text rb_emptied(struct rb_text text) { return (struct rb_text){text.at, 0, text.room}; }

static void rb_put_ready(struct rb_text *text, void *node)
{
    struct rb_ready *r = &rb.ready;
    *r = (struct rb_ready){
        .entries = rb_emptied(r->entries), .committed = rb_emptied(r->committed), .messages = rb_emptied(r->messages),
        .reads = rb_emptied(r->reads),
    };
    rb.library->ready(node, r);
    rb_format(text, "'ready':{'entries':[%l],'committed':[%l],'messages':[%l],'reads':[%l],'sync':%t", &r->entries, &r->committed,
              &r->messages, &r->reads, r->sync);
    if (r->has_hard) {
        rb_format(text, ",'hard':{'term':%n,'vote':%n,'commit':%n}", r->term, r->vote, r->commit);
    }
    if (r->has_snapshot) {
        rb_format(text, ",'snapshot':{'index':%n,'term':%n}", r->snapshot_index, r->snapshot_term);
    }
    rb_puts(text, "}");
}

static void rb_put_log(struct rb_text *text, void *node)
{
    struct rb_log *log = &rb.log;
    *log = (struct rb_log){.entries = rb_emptied(log->entries)};
    rb.library->log(node, log);
    rb_format(text, "'base':{'index':%n,'term':%n},'durable':%n,'entries':[%l]", log->base_index, log->base_term, log->durable,
              &log->entries);
}

static void rb_put_views(struct rb_text *text, void *node)
{
    rb.views.count = 0;
    rb.library->status(node, &rb.views);
    rb_format(text, "'views':[%l]", &rb.views);
}

static void rb_put_snapshot_for(struct rb_text *text, void *node, uint64_t to)
{
    struct rb_message message = {.type = RB_SNAP, .to = to};
    rb.views.count = 0;
    rb.library->snapshot(node, to, &message);
    rb_put_message(&rb.views, &message);
    rb_format(text, "'message':%l", &rb.views);
}

/* 12. Calls -------------------------------------------------------------------------------------------------------- */

static const struct rb_message *rb_message_at(const struct rb_json *number)
{
    if (number->kind != RB_NUMBER || number->number >= rb.given_count) {
        rb_fail("raftbench.h", "there is no such message");
    }
    return &rb.given[number->number];
}

static void rb_step(struct rb_text *text, void *node, const struct rb_json *call)
{
    const struct rb_json *message = rb_part(call, "message", RB_OBJECT);
    if (message != NULL) {
        rb.library->step(node, rb_message_of(message));
        rb_put_changed(text, node);
        return;
    }
    rb_format(text, "'states':[");
    for (const struct rb_json *one = rb_items(call, "messages"); one != NULL; one = one->next) {
        rb.library->step(node, rb_message_of(one));
        rb_put_comma(text);
        rb_put_state(text, node);
    }
    for (const struct rb_json *one = rb_items(call, "numbers"); one != NULL; one = one->next) {
        rb.library->step(node, rb_message_at(one));
        rb_put_comma(text);
        rb_put_state(text, node);
    }
    rb_format(text, "],'events':[%l]", &rb.events);
}

static void *rb_start(const struct rb_json *call)
{
    const struct rb_json *options = rb_part(call, "options", RB_OBJECT);
    struct rb_start *start = rb_take(1, sizeof *start);
    *start = (struct rb_start){
        rb_number(call, "node"), rb_snapshot_of(rb_part(call, "base", RB_OBJECT)), rb_number(options, "inflight"),
        rb_number(options, "max_size_per_msg"), rb_truth(options, "prevote"), rb_truth(options, "checkquorum"),
        rb_truth(options, "step_down_on_removal"),
    };
    return rb.library->start(start);
}

static void rb_lose(void *node, const struct rb_json *call)
{
    const struct rb_json *message = rb_part(call, "message", RB_OBJECT), *number = rb_part(call, "number", RB_NUMBER);
    if (message == NULL && number == NULL) {
        rb_fail("raftbench.h", "lost: no message");
    }
    rb.library->lost(node, message != NULL ? rb_message_of(message) : rb_message_at(number));
}

/* Calls that only change a node, and have one part at most. Whether there was such a call. */
static bool rb_changes(const char *name, void *node, const struct rb_json *call)
{
    const struct rb_library *l = rb.library;
    const struct {
        const char *name;
        void (*run)(void *node);
    } plain[] = {{"campaign", l->campaign}, {"advance", l->advance}, {"tick", l->tick}, {"forget_leader", l->forget_leader}};
    const struct {
        const char *name, *part;
        void (*run)(void *node, uint64_t number);
    } numbered[] = {
        {"set_timeout", "ticks", l->set_timeout}, {"transfer", "to", l->transfer}, {"compact", "index", l->compact},
        {"report_unreachable", "to", l->report_unreachable}, {"read", "id", l->read},
    };
    for (size_t at = 0; at < RB_COUNT(plain); at++) {
        if (strcmp(name, plain[at].name) == 0 && plain[at].run != NULL) {
            plain[at].run(node);
            return true;
        }
    }
    for (size_t at = 0; at < RB_COUNT(numbered); at++) {
        if (strcmp(name, numbered[at].name) == 0 && numbered[at].run != NULL) {
            numbered[at].run(node, rb_number(call, numbered[at].part));
            return true;
        }
    }
    return false;
}

/* The other calls that change a node. */
static bool rb_changes_more(const char *name, struct rb_hosted *hosted, const struct rb_json *call)
{
    const struct rb_library *l = rb.library;
    if (strcmp(name, "propose") == 0) {
        l->propose(hosted->node, rb_data(call, "data"));
    } else if (strcmp(name, "propose_change") == 0 && l->propose_change != NULL) {
        l->propose_change(hosted->node, rb_change_of(rb_part(call, "change", RB_OBJECT)), rb_truth(call, "v1"));
    } else if (strcmp(name, "report_snapshot") == 0 && l->report_snapshot != NULL) {
        l->report_snapshot(hosted->node, rb_number(call, "to"), rb_truth(call, "failed"));
    } else if (strcmp(name, "lost") == 0 && l->lost != NULL) {
        rb_lose(hosted->node, call);
    } else if (strcmp(name, "restart") == 0 && l->restart != NULL) {
        void *was = hosted->node;
        hosted->node = l->restart(was, (enum rb_saved)rb_word(call, "saved", rb_words_of_saved, RB_COUNT(rb_words_of_saved)));
        if (hosted->node != was) {
            l->stop(was);
        }
    } else if (strcmp(name, "start") != 0) {
        return false;
    }
    return true;
}

static void rb_reset(void)
{
    while (rb.node_count > 0) {
        rb.library->stop(rb.nodes[--rb.node_count].node);
    }
    rb.given_count = 0;
    if (rb.library->reset != NULL) {
        rb.library->reset();
    }
    rb_give_back(&rb.of_script);
    rb.is_broken = false;
}

/* The node that is called. One that starts replaces an earlier one with its id. */
static struct rb_hosted *rb_hosted_of(const char *name, const struct rb_json *call)
{
    static size_t room;
    uint64_t id = rb_number(call, "node");
    struct rb_hosted *hosted = NULL;
    for (size_t at = 0; at < rb.node_count && hosted == NULL; at++) {
        hosted = rb.nodes[at].id == id ? &rb.nodes[at] : NULL;
    }
    if (strcmp(name, "start") == 0) {
        void *node = rb_start(call);
        if (hosted == NULL) {
            rb.nodes = rb_grown(rb.nodes, rb.node_count, &room, sizeof *rb.nodes);
            hosted = &rb.nodes[rb.node_count++];
        } else {
            rb.library->stop(hosted->node);
        }
        *hosted = (struct rb_hosted){id, node};
    }
    if (hosted == NULL) {
        rb_fail("raftbench.h", "there is no such node");
    }
    return hosted;
}

static void rb_answer_node(struct rb_text *text, const char *name, const struct rb_json *call)
{
    const struct rb_library *l = rb.library;
    struct rb_hosted *hosted = rb_hosted_of(name, call);
    if (strcmp(name, "step") == 0) {
        rb_step(text, hosted->node, call);
    } else if (strcmp(name, "ready") == 0) {
        rb_put_ready(text, hosted->node);
    } else if (strcmp(name, "log") == 0 && l->log != NULL) {
        rb_put_log(text, hosted->node);
    } else if (strcmp(name, "status") == 0 && l->status != NULL) {
        rb_put_views(text, hosted->node);
    } else if (strcmp(name, "snapshot") == 0 && l->snapshot != NULL) {
        rb_put_snapshot_for(text, hosted->node, rb_number(call, "to"));
    } else if (rb_changes(name, hosted->node, call) || rb_changes_more(name, hosted, call)) {
        rb_put_changed(text, hosted->node);
    } else {
        rb_fail("raftbench.h", "there is no call %.80s", name);
    }
}

/* 13. Serving ------------------------------------------------------------------------------------------------------ */

/* Writes the answer of a line into a text, or nothing if a digest begins with it. */
static void rb_answer(struct rb_text *text, const char *line, size_t count)
{
    struct rb_reader reader = {line, line + count, 0};
    const struct rb_json *call = rb_parse(&reader);
    const char *name = rb_string(call, "call");
    if (rb_peek(&reader) != '\0' || reader.at != reader.end) {
        rb_no_json("it goes on after its end");
    }
    if (strcmp(name, "digest") == 0) {
        rb.hidden = rb_number(call, "calls");
        rb.digest = rb_sha_begin;
        return;
    }
    rb_puts(text, "{");
    if (strcmp(name, "hello") == 0) {
        rb_put_hello(text);
    } else if (strcmp(name, "reset") == 0) {
        rb_reset();
    } else if (rb.is_broken) {
        rb_fail("raftbench.h", "an earlier call of this script has failed");
    } else {
        rb_answer_node(text, name, call);
    }
    rb_puts(text, "}\n");
}

/* The same, with what failed as the answer. */
static void rb_answer_or_failure(const char *line, size_t count)
{
    rb_give_back(&rb.of_call);
    rb.answer.count = rb.events.count = 0;
    rb.is_answering = true;
    if (setjmp(rb.failed) == 0) {
        rb_answer(&rb.answer, line, count);
    } else {
        rb.is_broken = true;
        rb.answer.count = 0;
        rb_format(&rb.answer, "{'error':%s,'at':%s}\n", rb.failure, rb.at);
    }
    rb.is_answering = false;
}

static void rb_write_answer(void)
{
    char digest[65];
    if (rb.answer.count == 0) {
        return;
    }
    if (rb.hidden == 0) {
        fwrite(rb.answer.at, 1, rb.answer.count, stdout);
        return;
    }
    rb_sha_add(&rb.digest, rb.answer.at, rb.answer.count);
    if (--rb.hidden == 0) {
        rb_sha_end(&rb.digest, digest);
        printf("{\"digest\":\"%s\"}\n", digest);
    }
}

int rb_serve(const struct rb_library *library)
{
    char *held = NULL;
    size_t count = 0, room = 0;
    if (library->start == NULL || library->stop == NULL || library->state == NULL || library->campaign == NULL ||
        library->propose == NULL || library->step == NULL || library->ready == NULL || library->advance == NULL) {
        fputs("raftbench.h: one of the eight functions is NULL\n", stderr);
        return 2;
    }
    rb.library = library;
    for (;;) {
        size_t begun = 0;
        for (char *end; begun < count && (end = memchr(held + begun, '\n', count - begun)) != NULL; begun = (size_t)(end - held) + 1) {
            rb_answer_or_failure(held + begun, (size_t)(end - held) - begun);
            rb_write_answer();
        }
        /* No whole line is left: what was answered goes out before more is waited for. */
        if (fflush(stdout) != 0 || ferror(stdout)) {
            return 1;
        }
        count -= begun;
        if (count > 0) {
            memmove(held, held + begun, count);
        }
        held = rb_grown(held, count + RB_CHUNK, &room, 1);
        ssize_t more = read(STDIN_FILENO, held + count, room - count);
        if (more <= 0) {
            static const char last[] = "{\"call\":\"reset\"}";
            rb_answer_or_failure(last, sizeof last - 1);
            free(held);
            return more < 0;
        }
        count += (size_t)more;
    }
}

#endif
