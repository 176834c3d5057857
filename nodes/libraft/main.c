/* The nodes of libraft behind the protocol of docs/OWN-NODES.md. */
#define RAFTBENCH_IMPLEMENTATION
#include "../c/raftbench.h"
#include "node.h"

#include <limits.h>
#include <stdio.h>
#include <string.h>

/* On libraft's own disk terms begin at 1, and 0 stands for no entry: here they are one more than in the protocol. */
static uint64_t shown_term(raft_term term) { return term > 0 ? term - 1 : 0; }

static struct rb_bytes shown_bytes(struct raft_buffer bytes) { return (struct rb_bytes){bytes.base, bytes.len}; }

static void add_members(struct raft_configuration *members, const struct rb_ids *ids, int role)
{
    for (size_t at = 0; at < ids->count; at++) {
        char address[24];
        snprintf(address, sizeof address, "%llu", (unsigned long long)ids->all[at]);
        raft_configuration_add(members, ids->all[at], address, role);
    }
}

static void *start(const struct rb_start *given)
{
    const struct rb_snapshot *base = &given->base;
    struct raft_configuration members;
    raft_configuration_init(&members);
    add_members(&members, &base->config.voters, RAFT_VOTER);
    add_members(&members, &base->config.learners, RAFT_STANDBY);
    struct raft_buffer content = {(void *)base->content.at, base->content.count};
    struct node *n = node_start(given->id, base->index, base->index > 0 ? base->term + 1 : 0, &members, content, given->prevote);
    raft_configuration_close(&members);
    return n;
}

/* What a node holds is given back when the script is over. */
static void stop(void *node) { (void)node; }

static void show_config(struct rb_config *config, const struct raft_configuration *members)
{
    for (unsigned at = 0; at < members->n; at++) {
        const struct raft_server *server = &members->servers[at];
        rb_put_id(server->role == RAFT_VOTER ? &config->voters : &config->learners, server->id);
    }
}

static enum rb_role role_of(const struct node *n)
{
    switch (n->raft.state) {
    case RAFT_LEADER:
        return RB_LEADER;
    case RAFT_CANDIDATE:
        return n->raft.candidate_state.in_pre_vote ? RB_PRECANDIDATE : RB_CANDIDATE;
    default:
        return RB_FOLLOWER;
    }
}

static void state(void *node, struct rb_state *shown)
{
    const struct node *n = node;
    shown->role = role_of(n);
    shown->term = shown_term(n->raft.current_term);
    shown->vote = n->raft.voted_for;
    if (n->raft.state == RAFT_LEADER) {
        shown->lead = n->raft.id;
    } else if (n->raft.state == RAFT_FOLLOWER) {
        shown->lead = n->raft.follower_state.current_leader.id;
    }
    shown->commit = n->raft.commit_index;
    shown->applied = n->shown_applied;
    shown->content = (struct rb_bytes){n->content.base, n->shown_size};
    shown->is_ready = node_has_ready(n);
    show_config(&shown->config, &n->raft.configuration);
}

static struct rb_entry shown_entry(raft_index index, const struct raft_entry *entry)
{
    struct rb_bytes none = {NULL, 0};
    return (struct rb_entry){shown_term(entry->term), index, entry->type == RAFT_COMMAND ? shown_bytes(entry->buf) : none, NULL};
}

static void put_entries(struct rb_text *entries, const struct node *n, raft_index after, raft_index through)
{
    for (raft_index index = after + 1; index <= through; index++) {
        rb_put_entry(entries, shown_entry(index, node_entry(n, index)));
    }
}

static void show_append(struct rb_message *m, const struct raft_append_entries *append)
{
    struct rb_entry *entries = rb_take(append->n_entries, sizeof *entries);
    for (unsigned at = 0; at < append->n_entries; at++) {
        entries[at] = shown_entry(append->prev_log_index + 1 + at, &append->entries[at]);
    }
    m->type = RB_APP;
    m->term = shown_term(append->term);
    m->index = append->prev_log_index;
    m->log_term = shown_term(append->prev_log_term);
    m->commit = append->leader_commit;
    m->entries = entries;
    m->entry_count = append->n_entries;
}

static void show_append_result(struct rb_message *m, const struct raft_append_entries_result *result)
{
    m->type = RB_APP_RESP;
    m->term = shown_term(result->term);
    m->reject = result->rejected > 0;
    m->index = m->reject ? result->rejected : result->last_log_index;
    m->reject_hint = m->reject ? result->last_log_index : 0;
}

static void show_vote(struct rb_message *m, const struct raft_request_vote *vote)
{
    m->type = vote->pre_vote ? RB_PRE_VOTE : RB_VOTE;
    m->term = shown_term(vote->term);
    m->index = vote->last_log_index;
    m->log_term = shown_term(vote->last_log_term);
    m->transfer = vote->disrupt_leader;
}

static void show_vote_result(struct rb_message *m, const struct raft_request_vote_result *result)
{
    m->type = result->pre_vote == raft_tribool_true ? RB_PRE_VOTE_RESP : RB_VOTE_RESP;
    m->term = shown_term(result->term);
    m->reject = !result->vote_granted;
}

static void show_snapshot(struct rb_message *m, const struct raft_install_snapshot *install)
{
    struct rb_snapshot *snapshot = rb_take(1, sizeof *snapshot);
    snapshot->index = install->last_index;
    snapshot->term = shown_term(install->last_term);
    snapshot->content = shown_bytes(install->data);
    show_config(&snapshot->config, &install->conf);
    m->type = RB_SNAP;
    m->term = shown_term(install->term);
    m->snapshot = snapshot;
}

static void put_letter(struct rb_text *messages, struct letter *letter, bool before_save)
{
    struct rb_message m = {.from = letter->from, .to = letter->to, .before_save = before_save, .own = letter};
    switch (letter->content.type) {
    case RAFT_IO_APPEND_ENTRIES:
        show_append(&m, &letter->content.append_entries);
        break;
    case RAFT_IO_APPEND_ENTRIES_RESULT:
        show_append_result(&m, &letter->content.append_entries_result);
        break;
    case RAFT_IO_REQUEST_VOTE:
        show_vote(&m, &letter->content.request_vote);
        break;
    case RAFT_IO_REQUEST_VOTE_RESULT:
        show_vote_result(&m, &letter->content.request_vote_result);
        break;
    case RAFT_IO_INSTALL_SNAPSHOT:
        show_snapshot(&m, &letter->content.install_snapshot);
        break;
    default:
        m.type = RB_TIMEOUT_NOW;
        m.term = shown_term(letter->content.timeout_now.term);
    }
    rb_put_message(messages, &m);
}

/* What libraft has sent doesn't wait for its writes. Term and vote it saves at once; here they count as saved at an advance. */
static void ready(void *node, struct rb_ready *shown)
{
    struct node *n = node;
    raft_index stored = n->shown_stored;
    size_t sent = n->shown_term == n->raft.current_term && n->shown_vote == n->raft.voted_for ? n->outbox.count : 0;
    node_write(n);
    for (size_t at = 0; at < n->outbox.count; at++) {
        put_letter(&shown->messages, n->outbox.all[at], at < sent);
    }
    raft_index base = node_log_base(n), last = n->raft.last_stored;
    put_entries(&shown->entries, n, stored > base ? stored : base, last < node_log_last(n) ? last : node_log_last(n));
    put_entries(&shown->committed, n, n->shown_commit > base ? n->shown_commit : base, n->raft.last_applied);
    shown->has_hard = true;
    shown->term = shown_term(n->raft.current_term);
    shown->vote = n->raft.voted_for;
    shown->commit = n->raft.commit_index;
}

static void show_log(void *node, struct rb_log *log)
{
    const struct node *n = node;
    log->base_index = node_log_base(n);
    log->base_term = shown_term(node_term_at(n, log->base_index));
    log->durable = n->raft.last_stored;
    put_entries(&log->entries, n, log->base_index, node_log_last(n));
}

static void status(void *node, struct rb_text *views)
{
    static const char *const states[] = {"probe", "replicate", "snapshot"};
    const struct node *n = node;
    for (unsigned at = 0; n->raft.state == RAFT_LEADER && at < n->raft.configuration.n; at++) {
        const struct raft_progress *view = &n->raft.leader_state.progress[at];
        struct rb_view shown = {
            .node = n->raft.configuration.servers[at].id, .state = states[view->state % 3], .match = view->match_index,
            .next = view->next_index, .snapshot = view->snapshot_index, .active = view->recent_recv,
        };
        rb_put_view(views, &shown);
    }
}

/* A message is the letter that was sent. If the bench has cut an append, only the entries that are left are delivered. */
static void step(void *node, const struct rb_message *m)
{
    RB_ASSERT(m->own != NULL);
    node_receive(node, m->own, m->type == RB_APP ? (unsigned)m->entry_count : UINT_MAX);
}

static void campaign(void *node) { node_campaign(node); }

static void propose(void *node, struct rb_bytes data) { node_propose(node, (struct raft_buffer){(void *)data.at, data.count}); }

static void advance(void *node) { node_sent(node); }

static void tick(void *node) { node_tick(node); }

static void set_timeout(void *node, uint64_t ticks) { node_set_timeout(node, (unsigned)ticks); }

static void transfer(void *node, uint64_t to) { node_transfer(node, to); }

static void *restart(void *node, enum rb_saved saved) { return node_restart(node, saved == RB_SAVED_ALL); }

static const struct rb_library libraft = {
    .name = "libraft " VERSION, .start = start, .stop = stop, .state = state, .campaign = campaign, .propose = propose, .step = step,
    .ready = ready, .advance = advance, .tick = tick, .set_timeout = set_timeout, .transfer = transfer, .log = show_log,
    .status = status, .restart = restart, .reset = memory_reset,
    .without = (const char *const[]){"status", "inflight", "step_down_on_removal", "ready", "sync", "torn", NULL},
    .always = (const char *const[]){"checkquorum", NULL}, .is_open = true,
};

int main(int count, char **words)
{
    for (int at = 1; at < count; at++) {
        node_is_cured = node_is_cured || strcmp(words[at], "--cured") == 0;
    }
    memory_start();
    return rb_serve(&libraft);
}
