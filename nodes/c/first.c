/* The adapter of a tiny Raft (tiny.c), and what to copy for yours: cc -std=c11 -o first first.c tiny.c */
#define RAFTBENCH_IMPLEMENTATION
#include "raftbench.h"
#include "tiny.h"

static const enum rb_type types[] = {[TINY_VOTE] = RB_VOTE, [TINY_VOTE_ANSWER] = RB_VOTE_RESP, [TINY_APPEND] = RB_APP, [TINY_APPEND_ANSWER] = RB_APP_RESP};

static void *start(const struct rb_start *given)
{
    const struct rb_ids *voters = &given->base.config.voters;
    return tiny_new(given->id, given->base.index, given->base.term, voters->all, voters->count);
}

static void stop(void *node) { tiny_free(node); }
static void campaign(void *node) { tiny_campaign(node); }
static void propose(void *node, struct rb_bytes data) { tiny_propose(node, data.at, data.count); }
static void advance(void *node) { tiny_advance(node); }
static void *restart(void *node, enum rb_saved saved) { return tiny_restart(node, saved == RB_SAVED_ALL); }

static void state(void *node, struct rb_state *shown)
{
    const struct tiny *n = node;
    shown->role = n->role == TINY_LEADER ? RB_LEADER : n->role == TINY_CANDIDATE ? RB_CANDIDATE : RB_FOLLOWER;
    shown->term = n->now.term;
    shown->vote = n->now.vote;
    shown->commit = n->commit;
    shown->is_ready = n->outbox_count > 0;
}

static void step(void *node, const struct rb_message *m)
{
    struct tiny_entry *entries = rb_take(m->entry_count, sizeof *entries);
    for (size_t at = 0; at < m->entry_count; at++) {
        entries[at] = (struct tiny_entry){m->entries[at].term, m->entries[at].data.count, (void *)m->entries[at].data.at};
    }
    struct tiny_message message = {.to = m->to, .from = m->from, .term = m->term, .index = m->index, .log_term = m->log_term,
        .commit = m->commit, .is_refused = m->reject, .entries = {entries, m->entry_count}};
    while (types[message.type] != m->type) {
        message.type++;
    }
    tiny_step(node, &message);
}

static struct rb_entry shown_entry(const struct tiny_entries *entries, size_t at, uint64_t before)
{
    const struct tiny_entry *entry = &entries->all[at];
    return (struct rb_entry){entry->term, before + 1 + at, {entry->data, entry->size}, NULL};
}

static void ready(void *node, struct rb_ready *ready)
{
    const struct tiny *n = node;
    for (const struct tiny_message *m = n->outbox; m < n->outbox + n->outbox_count; m++) {
        struct rb_entry *entries = rb_take(m->entries.count, sizeof *entries);
        for (size_t at = 0; at < m->entries.count; at++) {
            entries[at] = shown_entry(&m->entries, at, m->index);
        }
        rb_put_message(&ready->messages, &(struct rb_message){.type = types[m->type], .from = m->from, .to = m->to, .term = m->term,
            .index = m->index, .log_term = m->log_term, .commit = m->commit, .reject = m->is_refused, .entries = entries,
            .entry_count = m->entries.count});
    }
}

static void show_log(void *node, struct rb_log *log)
{
    const struct tiny *n = node;
    log->base_index = n->base;
    log->base_term = n->base_term;
    log->durable = n->base + n->saved.log.count;
    for (size_t at = 0; at < n->now.log.count; at++) {
        rb_put_entry(&log->entries, shown_entry(&n->now.log, at, n->base));
    }
}

static const char *const without[] = {"lead", "applied", "content", "config", "learners", "joint", "auto", "inflight", "prevote",
    "checkquorum", "step_down_on_removal", "ready", "sync", "torn", NULL};
static const struct rb_library tiny = {.name = "tiny", .start = start, .stop = stop, .state = state, .campaign = campaign,
    .propose = propose, .step = step, .ready = ready, .advance = advance, .log = show_log, .restart = restart, .without = without, .is_open = true};

int main(void) { return rb_serve(&tiny); }
