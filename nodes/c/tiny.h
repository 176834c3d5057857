/* A tiny Raft, as an author begins one: elections, replication and commits (thesis, 3.4 to 3.6), and a disk. Its user sends what is in
 * the outbox, and calls `tiny_advance`: all of it is saved and sent then. */
#ifndef TINY_H
#define TINY_H

#include <stdbool.h>
#include <stddef.h>
#include <stdint.h>

enum { TINY_MOST_VOTERS = 64 };
enum tiny_role { TINY_FOLLOWER, TINY_CANDIDATE, TINY_LEADER };
enum tiny_type { TINY_VOTE, TINY_VOTE_ANSWER, TINY_APPEND, TINY_APPEND_ANSWER };

struct tiny_entry {
    uint64_t term;
    size_t size;
    void *data;
};

/* Entries, each with memory of its own. */
struct tiny_entries {
    struct tiny_entry *all;
    size_t count;
};

/* `index` and `log_term`: the candidate's last entry, the one before the entries of an append, or what is acknowledged or refused. */
struct tiny_message {
    enum tiny_type type;
    uint64_t to, from, term, index, log_term, commit;
    bool is_refused;
    struct tiny_entries entries;
};

struct tiny_disk {
    uint64_t term, vote;
    struct tiny_entries log;
};

struct tiny {
    uint64_t id, base, base_term, commit;
    enum tiny_role role;
    struct tiny_disk now, saved;
    struct {
        uint64_t id, next, match;
        bool has_voted;
    } voters[TINY_MOST_VOTERS];
    size_t voter_count;
    struct tiny_message *outbox;
    size_t outbox_count;
};

/* A follower whose log begins after an entry at `base`; NULL if there are too many voters. */
struct tiny *tiny_new(uint64_t id, uint64_t base, uint64_t base_term, const uint64_t *voters, size_t count);
void tiny_free(struct tiny *n);
void tiny_campaign(struct tiny *n);
void tiny_propose(struct tiny *n, const void *data, size_t size);
/* Copies what it keeps of the message. */
void tiny_step(struct tiny *n, const struct tiny_message *m);
void tiny_advance(struct tiny *n);
/* The same node begins again with what was saved last, or with all that it had. */
struct tiny *tiny_restart(struct tiny *n, bool with_all);
uint64_t tiny_last(const struct tiny *n);

#endif
