/* One node of libraft, with what libraft leaves to its user: a disk, a clock, and a state machine, all in memory.
 *
 * What the node writes and sends is kept until it is asked for (`node_ready`): then the disk has written, and the messages that
 * waited for that are there too. */
#ifndef NODE_H
#define NODE_H

#include <raft.h>
#include <stdbool.h>
#include <stddef.h>

enum { MILLISECONDS_OF_TICK = 100, TICKS_OF_TIMEOUT = 3 };

/* libraft takes 0 for the time when an append was last sent: on a clock that begins there, a new leader sends no first one. */
enum { CLOCK_AT_START = 1000 * MILLISECONDS_OF_TICK };

/* A message on its way. What it points to is its own. */
struct letter {
    raft_id from;
    raft_id to;
    struct raft_message content;
};

struct letters {
    struct letter **all;
    size_t count;
};

/* A write of entries that isn't done. */
struct write {
    struct raft_io_append *request;
    raft_io_append_cb done;
    raft_index last;
    raft_term term;
};

struct sending {
    struct raft_io_send *request;
    raft_io_send_cb done;
};

/* What a disk holds. Its entries follow the snapshot, and each is a copy of its own. */
struct disk {
    raft_term term;
    raft_id vote;
    raft_index base;
    raft_term base_term;
    struct raft_configuration members;
    struct raft_buffer content;
    struct raft_entry *entries;
    size_t count;
};

struct node {
    struct raft raft;
    struct raft_io io;
    struct raft_fsm machine;
    raft_io_tick_cb tick;
    raft_io_recv_cb receive;
    raft_time now;
    bool pre_vote;
    /* The disk, and what it held when what was ready was saved last: a restart begins with that. */
    struct disk disk;
    struct disk saved;
    /* The payloads that were applied, one after the other; and how many bytes and entries of them were so at the last advance. */
    struct raft_buffer content;
    size_t shown_size;
    raft_index shown_applied;
    struct write writes[256];
    size_t write_count;
    struct sending sendings[4096];
    size_t sending_count;
    struct letters outbox;
    raft_term shown_term;
    raft_id shown_vote;
    raft_index shown_commit;
    raft_index shown_stored;
    bool led;
    struct raft_transfer transfer;
    /* Where the append that is being received ends, or 0. */
    raft_index compared;
    /* Whether a write is being finished that an earlier leader asked for. */
    bool is_late;
};

/* Whether acknowledgements end where the append did, and go to who sent it: docs/FOUND.md, libraft, 1 and 3. */
extern bool node_is_cured;

/* A node that begins with a snapshot, in term 1 as on libraft's own disk; `members` and `content` are copied. */
struct node *node_start(raft_id id, raft_index base, raft_term base_term, const struct raft_configuration *members,
                        struct raft_buffer content, bool pre_vote);
void node_campaign(struct node *n);
void node_tick(struct node *n);
void node_set_timeout(struct node *n, unsigned ticks);
void node_propose(struct node *n, struct raft_buffer payload);
void node_transfer(struct node *n, raft_id to);
/* An append keeps `most` entries at most. */
void node_receive(struct node *n, const struct letter *letter, unsigned most);
/* A node that begins with what this one saved, or with all that is on its disk. This one is done with. */
struct node *node_restart(const struct node *n, bool all);

bool node_has_ready(const struct node *n);
/* Finishes what was being written. What it wants to send is in `outbox` then. */
void node_write(struct node *n);
/* The messages have gone out. */
void node_sent(struct node *n);

raft_term node_term_at(const struct node *n, raft_index index);
const struct raft_entry *node_entry(const struct node *n, raft_index index);
raft_index node_log_base(const struct node *n);
raft_index node_log_last(const struct node *n);

/* From now on all memory that libraft and the nodes take is noted, and `memory_reset` gives back what is left of it. */
void memory_start(void);
void memory_reset(void);

/* Memory of libraft's kind; ends the program where there is none. */
void *allocated(size_t size);
struct raft_buffer copied(struct raft_buffer from);

#endif
