/* Writes the calls of a node and their answers as a trace for nodes/replay (docs/TRACES.md). One file a node or one for all: a call and its
 * answer are written at once. */
#ifndef TRACE_H
#define TRACE_H

#include <stdarg.h>
#include <stdio.h>

struct trace_state {
    const char *role; /* follower, precandidate, candidate or leader */
    unsigned long long term, vote, lead, commit;
};

/* What the library doesn't show is left out of each comparison: its words are in `without`, such as "\"content\",\"config\"". */
static inline void trace_begin(FILE *out, const char *library, const char *without)
{
    fprintf(out, "> {\"call\":\"hello\",\"protocol\":1}\n");
    fprintf(out, "< {\"name\":\"%s\",\"protocol\":1,\"without\":[%s]}\n", library, without);
}

/* A call, with its further parts as JSON, such as "\"message\":{..}"; "" for none. `at` is a time by which several files are put in order. */
static inline void trace_call(FILE *out, const char *call, unsigned long long node, double at, struct trace_state s, const char *parts, ...)
{
    va_list more;
    va_start(more, parts);
    fprintf(out, "> {\"call\":\"%s\",\"node\":%llu,\"at\":%.6f%s", call, node, at, parts[0] ? "," : "");
    vfprintf(out, parts, more);
    va_end(more);
    fprintf(out, "}\n< {\"state\":{\"role\":\"%s\",\"term\":%llu,\"vote\":%llu,\"lead\":%llu,\"commit\":%llu,\"ready\":false}}\n", s.role, s.term,
            s.vote, s.lead, s.commit);
}

/* What a node sends and saves: `messages` as JSON objects with commas between them. */
static inline void trace_ready(FILE *out, unsigned long long node, double at, struct trace_state s, const char *messages)
{
    fprintf(out, "> {\"call\":\"ready\",\"node\":%llu,\"at\":%.6f}\n< {\"ready\":{\"messages\":[%s]}}\n", node, at, messages);
    trace_call(out, "advance", node, at, s, "");
}

#endif
