/* What ovsdb/raft.c has of the rest of Open vSwitch, in memory: its file, its connections, its clock, its random numbers and its uuids.
 * Each has the place of the library's own by a macro, so that raft.c, which is included after this, is as it is. */
#ifndef REPLACED_H
#define REPLACED_H

#include <config.h>

#include <errno.h>
#include <inttypes.h>
#include <stdarg.h>
#include <stdlib.h>
#include <string.h>
#include <unistd.h>

#include "raft.h"
#include "raft-private.h"

#include "cooperative-multitasking.h"
#include "hash.h"
#include "jsonrpc.h"
#include "lockfile.h"
#include "openvswitch/dynamic-string.h"
#include "openvswitch/hmap.h"
#include "openvswitch/json.h"
#include "openvswitch/list.h"
#include "openvswitch/poll-loop.h"
#include "openvswitch/shash.h"
#include "openvswitch/vlog.h"
#include "ovsdb-error.h"
#include "ovsdb-parser.h"
#include "ovsdb/log.h"
#include "raft-rpc.h"
#include "random.h"
#include "simap.h"
#include "socket-util.h"
#include "stream.h"
#include "timeval.h"
#include "unicode.h"
#include "unixctl.h"
#include "util.h"
#include "uuid.h"

#include "../c/raftbench.h"

/* Its file. A ticket stands for all records that were written before it was given. */
struct disk {
    struct json **records;
    size_t count, read, synced;
    uint64_t given, done;
};

/* Its connection to a peer: what is sent goes to the outbox of the owner, and what is received was put here by a step. */
struct wire {
    char *name;
    void *owner;
    uint64_t peer;
    unsigned int seqno;
    struct jsonrpc_msg *arrived;
};

/* Of the node that runs. */
static void *running;
static long long int clock_ms;

static unsigned int uuids, drawn;
static bool is_drawn;

static struct jsonrpc_session *wire_open(const char *name);
static int wire_send(struct jsonrpc_session *session, struct jsonrpc_msg *message);

/* As it would be after it was written and read again. */
static struct json *reread(const struct json *json)
{
    char *text = json_to_string(json, 0);
    struct json *again = json_from_string(text);
    free(text);
    return again;
}

static struct ovsdb_error *disk_read(struct ovsdb_log *log, struct json **json)
{
    struct disk *disk = (struct disk *)log;
    *json = disk->read < disk->count ? reread(disk->records[disk->read++]) : NULL;
    return NULL;
}

static struct ovsdb_error *disk_write(struct ovsdb_log *log, struct json *json)
{
    struct disk *disk = (struct disk *)log;
    disk->records = xrealloc(disk->records, (disk->count + 1) * sizeof *disk->records);
    disk->records[disk->count++] = json;
    disk->read = disk->count;
    return NULL;
}

static void disk_sync(struct disk *disk)
{
    disk->synced = disk->count;
    disk->done = disk->given;
}

static void disk_clear(struct disk *disk)
{
    for (size_t at = 0; at < disk->count; at++) {
        json_destroy(disk->records[at]);
    }
    free(disk->records);
}

static void disk_close(struct ovsdb_log *log)
{
    if (log != NULL) {
        disk_clear((struct disk *)log);
        free(log);
    }
}

static struct ovsdb_error *disk_replace_start(struct ovsdb_log **log)
{
    *log = xzalloc(sizeof(struct disk));
    return NULL;
}

/* As in log.c, the new file is on the disk when this returns, and all tickets are done. */
static struct ovsdb_error *disk_replace_commit(struct ovsdb_log *old, struct ovsdb_log *new)
{
    struct disk *disk = (struct disk *)old, *with = (struct disk *)new;
    disk_clear(disk);
    disk->records = with->records;
    disk->count = disk->read = with->count;
    disk->given++;
    disk_sync(disk);
    free(with);
    return NULL;
}

static struct jsonrpc_msg *wire_receive(struct jsonrpc_session *session)
{
    struct wire *wire = (struct wire *)session;
    struct jsonrpc_msg *message = wire->arrived;
    wire->arrived = NULL;
    return message;
}

static void wire_close(struct jsonrpc_session *session)
{
    struct wire *wire = (struct wire *)session;
    free(wire->name);
    free(wire);
}

static struct uuid next_uuid(void) { return (struct uuid){{0, 0, 1, ++uuids}}; }

/* The least, or one of a sequence that begins anew with each script. */
static uint32_t draw(uint32_t count)
{
    drawn = drawn * 1103515245u + 12345u;
    return is_drawn ? (drawn >> 16) % count : 0;
}

static _Noreturn void assertion_failed(const char *where, const char *function, const char *condition)
{
    const char *file = strrchr(where, '/');
    rb_fail(file != NULL ? file + 1 : where, "assertion %s failed in %s()", condition, function);
}

#define ovsdb_log_read disk_read
#define ovsdb_log_write_and_free disk_write
#define ovsdb_log_commit_start(LOG) (++((struct disk *)(LOG))->given)
#define ovsdb_log_commit_progress(LOG) (((struct disk *)(LOG))->done)
#define ovsdb_log_commit_wait(LOG, TICKET) ((void)0)
#define ovsdb_log_commit_block(LOG) (disk_sync((struct disk *)(LOG)), (struct ovsdb_error *)NULL)
#define ovsdb_log_mark_base(LOG) ((void)0)
#define ovsdb_log_grew_lots(LOG) false
#define ovsdb_log_replace_start(LOG, NEW) disk_replace_start(NEW)
#define ovsdb_log_replace_commit disk_replace_commit
#define ovsdb_log_replace_abort(LOG) ((void)0)
#define ovsdb_log_close disk_close
#define ovsdb_log_open(NAME, MAGIC, MODE, LOCKING, LOG) (*(LOG) = NULL, (struct ovsdb_error *)NULL)
#define jsonrpc_session_open(NAME, RETRY) wire_open(NAME)
#define jsonrpc_session_open_unreliably(RPC, DSCP) NULL
#define jsonrpc_session_send wire_send
#define jsonrpc_session_recv wire_receive
#define jsonrpc_session_recv_wait(SESSION) ((void)0)
#define jsonrpc_session_close wire_close
#define jsonrpc_session_run(SESSION) ((void)0)
#define jsonrpc_session_wait(SESSION) ((void)0)
#define jsonrpc_session_get_name(SESSION) (((struct wire *)(SESSION))->name)
#define jsonrpc_session_get_seqno(SESSION) (((struct wire *)(SESSION))->seqno)
#define jsonrpc_session_is_alive(SESSION) true
#define jsonrpc_session_is_connected(SESSION) true
#define jsonrpc_session_get_backlog(SESSION) 0
#define jsonrpc_session_force_reconnect(SESSION) ((void)0)
#define jsonrpc_session_set_probe_interval(SESSION, MS) ((void)0)
#define jsonrpc_session_set_backlog_threshold(SESSION, MESSAGES, BYTES) ((void)0)
#define jsonrpc_open(STREAM) NULL
#define pstream_open(NAME, STREAM, DSCP) EAFNOSUPPORT
#define pstream_accept(STREAM, NEW) EAGAIN
#define pstream_get_name(STREAM) ""
#define pstream_close(STREAM) ((void)0)
#define pstream_wait(STREAM) ((void)0)
#define cooperative_multitasking_set(CALL, ARGUMENT, AT, MS, NAME) ((void)0)
#define cooperative_multitasking_remove(CALL, ARGUMENT) ((void)0)
#define time_msec() clock_ms
#define random_range draw
#define uuid_random next_uuid
#define unixctl_command_register(NAME, USAGE, LEAST, MOST, CALL, AUX) ((void)0)
#define ovs_assert_failure assertion_failed

#endif
