/* What the files that raft.c needs ask of the rest of Open vSwitch. Nothing of it has a part in what Raft does. */
#include <config.h>

#include <stdarg.h>
#include <stdio.h>
#include <stdlib.h>
#include <string.h>

#include "cooperative-multitasking.h"
#include "coverage.h"
#include "jsonrpc.h"
#include "openvswitch/json.h"
#include "openvswitch/vlog.h"
#include "ovs-thread.h"
#include "unixctl.h"
#include "util.h"

/* With OVS_LOG in the environment, what raft.c logs goes to standard error. */
static bool is_logged(void) { return getenv("OVS_LOG") != NULL; }

static void show(const char *format, va_list values)
{
    if (is_logged()) {
        vfprintf(stderr, format, values);
        fputc('\n', stderr);
    }
}

void vlog(const struct vlog_module *module OVS_UNUSED, enum vlog_level level OVS_UNUSED, const char *format, ...)
{
    va_list values;
    va_start(values, format);
    show(format, values);
    va_end(values);
}

void vlog_rate_limit(const struct vlog_module *module OVS_UNUSED, enum vlog_level level OVS_UNUSED,
                     struct vlog_rate_limit *limit OVS_UNUSED, const char *format, ...)
{
    va_list values;
    va_start(values, format);
    show(format, values);
    va_end(values);
}

void vlog_fatal(const struct vlog_module *module OVS_UNUSED, const char *format, ...)
{
    va_list values;
    va_start(values, format);
    vfprintf(stderr, format, values);
    exit(1);
}

void vlog_abort(const struct vlog_module *module OVS_UNUSED, const char *format, ...)
{
    va_list values;
    va_start(values, format);
    vfprintf(stderr, format, values);
    abort();
}

bool vlog_is_enabled(const struct vlog_module *module OVS_UNUSED, enum vlog_level level OVS_UNUSED) { return is_logged(); }

bool vlog_should_drop(const struct vlog_module *module OVS_UNUSED, enum vlog_level level OVS_UNUSED,
                      struct vlog_rate_limit *limit OVS_UNUSED)
{
    return !is_logged();
}

void vlog_insert_module(struct ovs_list *module OVS_UNUSED) { }

struct jsonrpc_msg *jsonrpc_create_notify(const char *method, struct json *params)
{
    struct jsonrpc_msg *message = xzalloc(sizeof *message);
    message->type = JSONRPC_NOTIFY;
    message->method = xstrdup(method);
    message->params = params;
    return message;
}

void jsonrpc_msg_destroy(struct jsonrpc_msg *message)
{
    if (message != NULL) {
        json_destroy(message->params);
        free(message->method);
        free(message);
    }
}

const char *jsonrpc_msg_type_to_string(enum jsonrpc_msg_type type OVS_UNUSED) { return "notification"; }

bool ovsthread_once_start__(struct ovsthread_once *once) { return !once->done; }

void ovsthread_once_done(struct ovsthread_once *once) { once->done = true; }

long long int time_msec(void) { return 0; }

bool inet_parse_active(const char *target OVS_UNUSED, int port OVS_UNUSED, void *to OVS_UNUSED, bool resolves OVS_UNUSED,
                       bool *dns OVS_UNUSED)
{
    return true;
}

void inet_parse_host_port_tokens(char *target, char **host, char **port)
{
    char *colon = strrchr(target, ':');
    *colon = '\0';
    *host = target;
    *port = colon + 1;
}

void coverage_counter_register(struct coverage_counter *counter OVS_UNUSED) { }

void cooperative_multitasking_yield_at(const char *source OVS_UNUSED) { }

void unixctl_command_reply(struct unixctl_conn *conn OVS_UNUSED, const char *body OVS_UNUSED) { }

void unixctl_command_reply_error(struct unixctl_conn *conn OVS_UNUSED, const char *error OVS_UNUSED) { }
