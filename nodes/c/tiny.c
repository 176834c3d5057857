#include "tiny.h"

#include <stdio.h>
#include <stdlib.h>
#include <string.h>

static void *resized(void *memory, size_t count, size_t size)
{
    void *larger = size > 0 && count > SIZE_MAX / size ? NULL : realloc(memory, count * size + 1);
    if (larger == NULL) {
        fputs("out of memory\n", stderr);
        exit(1);
    }
    return larger;
}

/* Entries */

static void add(struct tiny_entries *to, uint64_t term, const void *data, size_t size)
{
    to->all = resized(to->all, to->count + 1, sizeof *to->all);
    struct tiny_entry *entry = &to->all[to->count++];
    *entry = (struct tiny_entry){term, size, resized(NULL, size, 1)};
    if (size > 0) {
        memcpy(entry->data, data, size);
    }
}

static void cut(struct tiny_entries *entries, size_t count)
{
    while (entries->count > count) {
        free(entries->all[--entries->count].data);
    }
}

/* Puts the entries from a place on into the place of all that were there. */
static void copy(struct tiny_entries *to, const struct tiny_entries *from, size_t first)
{
    cut(to, 0);
    for (size_t at = first; at < from->count; at++) {
        add(to, from->all[at].term, from->all[at].data, from->all[at].size);
    }
}

static void drop(struct tiny_entries *entries)
{
    cut(entries, 0);
    free(entries->all);
    *entries = (struct tiny_entries){NULL, 0};
}

/* The log */

uint64_t tiny_last(const struct tiny *n) { return n->base + n->now.log.count; }

/* No term, where there is no entry. */
static uint64_t term_at(const struct tiny *n, uint64_t index)
{
    if (index == n->base) {
        return n->base_term;
    }
    return index > n->base && index <= tiny_last(n) ? n->now.log.all[index - n->base - 1].term : UINT64_MAX;
}

/* Messages */

static struct tiny_message *put(struct tiny *n, enum tiny_type type, uint64_t to)
{
    n->outbox = resized(n->outbox, n->outbox_count + 1, sizeof *n->outbox);
    struct tiny_message *m = &n->outbox[n->outbox_count++];
    *m = (struct tiny_message){.type = type, .to = to, .from = n->id, .term = n->now.term};
    return m;
}

static void put_append(struct tiny *n, size_t voter)
{
    struct tiny_message *m = put(n, TINY_APPEND, n->voters[voter].id);
    m->index = n->voters[voter].next - 1;
    m->log_term = term_at(n, m->index);
    m->commit = n->commit;
    copy(&m->entries, &n->now.log, m->index - n->base);
    n->voters[voter].next = tiny_last(n) + 1;
}

static void put_appends(struct tiny *n)
{
    for (size_t at = 0; at < n->voter_count; at++) {
        if (n->voters[at].id != n->id) {
            put_append(n, at);
        }
    }
}

/* The place of a voter; if it is none, `voter_count`. */
static size_t voter_of(const struct tiny *n, uint64_t id)
{
    size_t at = 0;
    while (at < n->voter_count && n->voters[at].id != id) {
        at++;
    }
    return at;
}

/* Commits what a quorum has, if it is of the leader's own term (3.6.2). */
static void look_at_commit(struct tiny *n)
{
    for (uint64_t index = tiny_last(n); index > n->commit; index--) {
        size_t count = 0;
        for (size_t at = 0; at < n->voter_count; at++) {
            count += n->voters[at].id == n->id || n->voters[at].match >= index;
        }
        if (2 * count > n->voter_count && term_at(n, index) == n->now.term) {
            n->commit = index;
            put_appends(n);
            return;
        }
    }
}

/* Elections */

static void follow(struct tiny *n, uint64_t term)
{
    n->now.vote = term > n->now.term ? 0 : n->now.vote;
    n->now.term = term;
    n->role = TINY_FOLLOWER;
}

static void look_at_votes(struct tiny *n)
{
    size_t count = 0;
    for (size_t at = 0; at < n->voter_count; at++) {
        count += n->voters[at].has_voted;
    }
    if (2 * count <= n->voter_count) {
        return;
    }
    n->role = TINY_LEADER;
    for (size_t at = 0; at < n->voter_count; at++) {
        n->voters[at].next = tiny_last(n) + 1;
        n->voters[at].match = 0;
    }
    tiny_propose(n, NULL, 0);
}

void tiny_campaign(struct tiny *n)
{
    size_t own = voter_of(n, n->id);
    if (n->role == TINY_LEADER || own == n->voter_count) {
        return;
    }
    follow(n, n->now.term + 1);
    n->role = TINY_CANDIDATE;
    n->now.vote = n->id;
    for (size_t at = 0; at < n->voter_count; at++) {
        n->voters[at].has_voted = at == own;
        if (at != own) {
            struct tiny_message *m = put(n, TINY_VOTE, n->voters[at].id);
            m->index = tiny_last(n);
            m->log_term = term_at(n, m->index);
        }
    }
    look_at_votes(n);
}

static void take_request(struct tiny *n, const struct tiny_message *m)
{
    uint64_t last = tiny_last(n), term = term_at(n, last);
    bool is_new = m->log_term > term || (m->log_term == term && m->index >= last);
    bool is_free = n->now.vote == 0 || n->now.vote == m->from;
    struct tiny_message *answer = put(n, TINY_VOTE_ANSWER, m->from);
    answer->is_refused = !is_new || !is_free;
    if (!answer->is_refused) {
        n->now.vote = m->from;
    }
}

/* Replication */

void tiny_propose(struct tiny *n, const void *data, size_t size)
{
    if (n->role == TINY_LEADER) {
        add(&n->now.log, n->now.term, data, size);
        put_appends(n);
        look_at_commit(n);
    }
}

/* Takes acknowledgements out of the outbox whose last entry is after an index: it is cut before it was saved. */
static void withdraw(struct tiny *n, uint64_t index)
{
    size_t kept = 0;
    for (size_t at = 0; at < n->outbox_count; at++) {
        const struct tiny_message *m = &n->outbox[at];
        if (m->type != TINY_APPEND_ANSWER || m->is_refused || m->index <= index) {
            n->outbox[kept++] = *m;
        }
    }
    n->outbox_count = kept;
}

/* An entry that is held already stays, and one that differs goes with all after it. */
static void take_entry(struct tiny *n, uint64_t index, const struct tiny_entry *entry)
{
    if (term_at(n, index) != entry->term) {
        withdraw(n, index - 1);
        cut(&n->now.log, index - 1 - n->base);
        add(&n->now.log, entry->term, entry->data, entry->size);
    }
}

static void take_append(struct tiny *n, const struct tiny_message *m)
{
    follow(n, n->now.term);
    bool is_refused = term_at(n, m->index) != m->log_term;
    for (size_t at = 0; at < m->entries.count && !is_refused; at++) {
        take_entry(n, m->index + 1 + at, &m->entries.all[at]);
    }
    struct tiny_message *answer = put(n, TINY_APPEND_ANSWER, m->from);
    answer->index = m->index + (is_refused ? 0 : m->entries.count);
    answer->is_refused = is_refused;
    if (!is_refused) {
        uint64_t known = m->commit < answer->index ? m->commit : answer->index;
        n->commit = known > n->commit ? known : n->commit;
    }
}

static void take_answer(struct tiny *n, const struct tiny_message *m)
{
    size_t from = voter_of(n, m->from);
    if (from == n->voter_count) {
        return;
    }
    if (m->is_refused && m->index > n->base) {
        n->voters[from].next = m->index;
        put_append(n, from);
    } else if (!m->is_refused && m->index > n->voters[from].match) {
        n->voters[from].match = m->index;
        look_at_commit(n);
    }
}

void tiny_step(struct tiny *n, const struct tiny_message *m)
{
    if (m->term > n->now.term) {
        follow(n, m->term);
    }
    if (m->term < n->now.term) {
        return;
    }
    if (m->type == TINY_VOTE) {
        take_request(n, m);
    } else if (m->type == TINY_APPEND) {
        take_append(n, m);
    } else if (m->type == TINY_APPEND_ANSWER && n->role == TINY_LEADER) {
        take_answer(n, m);
    } else if (m->type == TINY_VOTE_ANSWER && n->role == TINY_CANDIDATE && !m->is_refused && voter_of(n, m->from) < n->voter_count) {
        n->voters[voter_of(n, m->from)].has_voted = true;
        look_at_votes(n);
    }
}

/* The disk */

static void copy_disk(struct tiny_disk *to, const struct tiny_disk *from)
{
    to->term = from->term;
    to->vote = from->vote;
    copy(&to->log, &from->log, 0);
}

static void empty_outbox(struct tiny *n)
{
    while (n->outbox_count > 0) {
        drop(&n->outbox[--n->outbox_count].entries);
    }
}

void tiny_advance(struct tiny *n)
{
    copy_disk(&n->saved, &n->now);
    empty_outbox(n);
}

struct tiny *tiny_restart(struct tiny *n, bool with_all)
{
    empty_outbox(n);
    if (!with_all) {
        copy_disk(&n->now, &n->saved);
    }
    n->role = TINY_FOLLOWER;
    n->commit = n->base;
    return n;
}

struct tiny *tiny_new(uint64_t id, uint64_t base, uint64_t base_term, const uint64_t *voters, size_t count)
{
    if (count > TINY_MOST_VOTERS) {
        return NULL;
    }
    struct tiny *n = resized(NULL, 1, sizeof *n);
    *n = (struct tiny){.id = id, .base = base, .base_term = base_term, .commit = base, .voter_count = count};
    for (size_t at = 0; at < count; at++) {
        n->voters[at].id = voters[at];
    }
    return n;
}

void tiny_free(struct tiny *n)
{
    empty_outbox(n);
    free(n->outbox);
    drop(&n->now.log);
    drop(&n->saved.log);
    free(n);
}
