/* What the calls of smoltcp_check.h look for before they are made. */
#ifndef SMOLTCP_CHECK_MARKS_H
#define SMOLTCP_CHECK_MARKS_H

#include <stdio.h>
#include <stdlib.h>
#include "smoltcp_marks.h"

/* Each thread of a file of the program knows of the sockets that it borrowed, where the compiler has such memory. */
#if defined(__cplusplus) && __cplusplus >= 201103L
#define SMOLTCP_THREAD thread_local
#elif defined(__STDC_VERSION__) && __STDC_VERSION__ >= 201112L
#define SMOLTCP_THREAD _Thread_local
#elif defined(__GNUC__)
#define SMOLTCP_THREAD __thread
#else
#define SMOLTCP_THREAD
#endif

/* The sockets that hosts lent last, and whether the host was called since. */
enum { SMOLTCP_BORROWED = 16 };
struct smoltcp_borrowed { const void *socket, *host; int late; };
static SMOLTCP_THREAD struct smoltcp_borrowed smoltcp_borrowed[SMOLTCP_BORROWED];
static SMOLTCP_THREAD unsigned smoltcp_borrowed_next;

static inline void smoltcp_misuse(const char *call, const char *what) {
    fprintf(stderr, "%s: %s\n", call, what);
    abort();
}

static inline struct smoltcp_borrowed *smoltcp_find_borrowed(const void *s) {
    unsigned i;
    for (i = 0; i < SMOLTCP_BORROWED; i++) if (s && smoltcp_borrowed[i].socket == s) return &smoltcp_borrowed[i];
    return NULL;
}

/* A call on the host ends what it lent. */
static inline void smoltcp_end_borrowed(const void *host, int gone) {
    unsigned i;
    for (i = 0; i < SMOLTCP_BORROWED; i++) {
        if (smoltcp_borrowed[i].host != host) continue;
        smoltcp_borrowed[i].late = 1;
        if (gone) smoltcp_borrowed[i].socket = NULL;
    }
}

static inline void smoltcp_note_borrowed(const void *host, const void *s) {
    struct smoltcp_borrowed *at = smoltcp_find_borrowed(s);
    if (!s) return;
    if (!at) at = &smoltcp_borrowed[smoltcp_borrowed_next++ % SMOLTCP_BORROWED];
    at->socket = s;
    at->host = host;
    at->late = 0;
}

/* A socket that a program hands to a call. own: 1 and 2, the call is for sockets in memory of the program alone; 2, it
 * is refused by an error where none lies there. */
static inline void smoltcp_look(const void *s, size_t size, int own, const char *call) {
    struct smoltcp_borrowed *at = smoltcp_find_borrowed(s);
    if (!s) return;
    if (at && own) smoltcp_misuse(call, "the socket is in a host: remove it first, or leave this call to the host");
    if (at && at->late) smoltcp_misuse(call, "the socket was borrowed before a later call on its host");
    if (!at && own != 2 && smoltcp_is_empty(s, size)) {
        smoltcp_misuse(call, "no socket lies here: it was never made, was released, or was moved into a host");
    }
}

static inline void smoltcp_look_at_host(const void *host, uint64_t mark, int gone, const char *call) {
    if (mark != smoltcp_mark_at(host)) {
        smoltcp_misuse(call, "no host lies here: it was never made, was released, or was copied from elsewhere");
    }
    smoltcp_end_borrowed(host, gone);
}

/* Memory of a socket and of its two buffers, which overlap nowhere. */
static inline void smoltcp_look_apart(const void *a, size_t a_size, const void *b, size_t b_size, const char *call) {
    uintptr_t from = (uintptr_t)a, to = (uintptr_t)b;
    if (a && b && from < to + b_size && to < from + a_size) {
        smoltcp_misuse(call, "the memory of a socket and its buffers overlap");
    }
}

#endif
