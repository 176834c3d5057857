/* A node that can be asked for everything, and says what it was asked: an event has the name of the call and its parts, and a state, a ready
 * and a message have what the node was last given. It holds nodes/c/raftbench.h to docs/OWN-NODES.md (test_c.py). */
#define RAFTBENCH_IMPLEMENTATION
#include "../../nodes/c/raftbench.h"

struct node {
    uint64_t id;
    struct rb_config config;
    char content[64];
    size_t size;
    int own;
};

static int count;

static void *start(const struct rb_start *s)
{
    struct node *n = calloc(1, sizeof *n);
    RB_ASSERT(n != NULL && s->base.content.count <= sizeof n->content);
    n->id = s->id;
    n->config = s->base.config;
    n->size = s->base.content.count;
    memcpy(n->content, s->base.content.at, n->size);
    rb_event("INFO", "start %d %d %d %d %d %d %d", (int)s->base.index, (int)s->base.term, (int)s->inflight, (int)s->max_size_per_msg,
             s->prevote, s->checkquorum, s->step_down_on_removal);
    count++;
    return n;
}

static void stop(void *node)
{
    count--;
    free(node);
}

static void reset(void) { RB_ASSERT(count == 0); }

static void state(void *node, struct rb_state *s)
{
    const struct node *n = node;
    *s = (struct rb_state){RB_PRECANDIDATE, 3, 4, 5, 6, 7, {n->content, n->size}, n->config, true};
}

static void campaign(void *node) { rb_event("DEBUG", "campaign \"\\\n\x7f of %d", (int)((struct node *)node)->id); }
static void tick(void *node) { RB_ASSERT(node == NULL); }
static void forget_leader(void *node) { rb_fail("a place", "forgot %d", (int)((struct node *)node)->id); }
static void advance(void *node) { (void)node; }
static void say(const void *node, const char *name, uint64_t number)
{
    RB_ASSERT(node != NULL);
    rb_event("INFO", "%s %" PRIu64, name, number);
}

static void set_timeout(void *node, uint64_t ticks) { say(node, "set_timeout", ticks); }
static void transfer(void *node, uint64_t to) { say(node, "transfer", to); }
static void report_unreachable(void *node, uint64_t to) { say(node, "report_unreachable", to); }
static void compact(void *node, uint64_t index) { say(node, "compact", index); }
static void read_at(void *node, uint64_t id) { say(node, "read", id); }

static void lost(void *node, const struct rb_message *m)
{
    rb_event("WARN", "lost %d %d", (int)m->index, m->own == &((struct node *)node)->own);
}

static void propose(void *node, struct rb_bytes data)
{
    (void)node;
    rb_event("INFO", "propose %.*s", (int)data.count, (const char *)data.at);
}

static void report_snapshot(void *node, uint64_t to, bool failed)
{
    (void)node;
    rb_event("INFO", "report_snapshot %d %d", (int)to, failed);
}

static void propose_change(void *node, const struct rb_change *c, bool is_v1)
{
    (void)node;
    for (size_t at = 0; at < c->count; at++) {
        rb_event("INFO", "propose_change %d %c%d %d", (int)c->transition, c->words[at].letter, (int)c->words[at].id, is_v1);
    }
}

static void step(void *node, const struct rb_message *m)
{
    rb_event("INFO", "step %d %d %d %d %d %d %d %d %d %d%d%d %d", (int)m->type, (int)m->from, (int)m->to, (int)m->term, (int)m->index,
             (int)m->log_term, (int)m->commit, (int)m->reject_hint, (int)m->entry_count, m->reject, m->transfer, m->before_save,
             m->own == &((struct node *)node)->own);
}

static struct rb_message message_of(struct node *n, uint64_t to)
{
    static const struct rb_change change = {RB_EXPLICIT, 2, {{'v', 3}, {'r', 40}}};
    static const struct rb_entry entries[] = {{2, 9, {"a", 1}, NULL}, {2, 10, {NULL, 0}, &change}};
    struct rb_snapshot *snapshot = rb_take(1, sizeof *snapshot);
    *snapshot = (struct rb_snapshot){8, 2, {n->content, n->size}, n->config};
    return (struct rb_message){RB_SNAP, n->id, to, 2, 8, 1, 7, 6, 5, 4, true, true, true, entries, 2, snapshot, &n->own};
}

static void snapshot(void *node, uint64_t to, struct rb_message *m) { *m = message_of(node, to); }

static void ready(void *node, struct rb_ready *r)
{
    struct rb_message m = message_of(node, 2);
    r->has_hard = r->has_snapshot = r->sync = true;
    r->term = 2, r->vote = 1, r->commit = 7;
    r->snapshot_index = 8, r->snapshot_term = 1;
    rb_put_entry(&r->entries, m.entries[0]);
    rb_put_entry(&r->entries, m.entries[1]);
    rb_put_entry(&r->committed, m.entries[0]);
    rb_put_message(&r->messages, &m);
    rb_put_message(&r->messages, &(struct rb_message){.type = RB_TIMEOUT_NOW, .from = 1, .to = 3});
    rb_put_read(&r->reads, 5, 7);
}

static void show_log(void *node, struct rb_log *log)
{
    *log = (struct rb_log){8, 1, 9, log->entries};
    rb_put_entry(&log->entries, message_of(node, 2).entries[0]);
}

static void status(void *node, struct rb_text *views)
{
    (void)node;
    rb_put_view(views, &(struct rb_view){.node = 1, .state = "probe", .match = 2, .next = 3, .inflight = 4, .snapshot = 5, .active = true});
    rb_put_view(views, &(struct rb_view){.node = 2, .state = "snapshot", .waiting = true});
}

static void *restart(void *node, enum rb_saved saved)
{
    struct node *n = malloc(sizeof *n);
    RB_ASSERT(n != NULL);
    *n = *(struct node *)node;
    rb_event("INFO", "restart %d", (int)saved);
    count++;
    return n;
}

static const struct rb_library every = {
    .name = "every \xe9", .start = start, .stop = stop, .reset = reset, .state = state, .campaign = campaign, .propose = propose, .step = step,
    .ready = ready, .advance = advance, .tick = tick, .set_timeout = set_timeout, .forget_leader = forget_leader,
    .propose_change = propose_change, .transfer = transfer, .report_unreachable = report_unreachable, .compact = compact,
    .snapshot = snapshot, .log = show_log, .status = status, .restart = restart, .lost = lost, .read = read_at,
    .report_snapshot = report_snapshot, .without = (const char *const[]){"torn", NULL}, .always = (const char *const[]){"prevote", NULL},
    .limits = (const char *const[]){"max_size_per_msg", NULL}, .is_open = true, .is_apart = true,
};

int main(void) { return rb_serve(&every); }
