/* Bodies of the calls of smoltcp_host.h that do more than hand on. */

#include "smoltcp_marks.h"

SMOLTCP_INLINE size_t smoltcp_host_size(void) {
    size_t size = 0;
    smoltcp_host_size_nonnull(&size);
    return size + sizeof(struct smoltcp_host) - SMOLTCP_HOST_SIZE;
}

/* The RSTs of dropped connections go out first. */
SMOLTCP_INLINE int64_t smoltcp_host_emit(struct smoltcp_host *host, int64_t now, uint8_t *out, size_t cap) {
    struct smoltcp_host_handle h = {SMOLTCP_AT(host)};
    size_t len, i;
    if (!host || (!out && cap)) return SMOLTCP_ERROR_NULL;
    if (!host->waiting) return smoltcp_host_emit_nonnull(&h, now, SMOLTCP_OR_NONE(uint8_t, out), cap);
    len = host->resets[0].len;
    if (cap < len) return SMOLTCP_ERROR_ROOM;
    for (i = 0; i < len; i++) out[i] = host->resets[0].bytes[i];
    host->waiting--;
    for (i = 1; i < SMOLTCP_HOST_RESETS; i++) host->resets[i - 1] = host->resets[i];
    return (int64_t)len;
}

SMOLTCP_INLINE int64_t smoltcp_host_poll_at(const struct smoltcp_host *host) {
    struct smoltcp_host_handle h = {SMOLTCP_AT(host)};
    int64_t at = 0;
    if (!host) return INT64_MIN;
    if (host->waiting) return host->waiting_since;
    return smoltcp_host_poll_at_nonnull(&h, &at) == 0 ? at : INT64_MAX;
}

SMOLTCP_INLINE int64_t smoltcp_host_connect(struct smoltcp_host *host, const struct smoltcp_socket_id *id,
                                            const struct smoltcp_endpoint *remote,
                                            const struct smoltcp_endpoint *local) {
    static const struct smoltcp_endpoint any = {{0, {0}, {0}}, 0};
    struct smoltcp_host_handle h = {SMOLTCP_AT(host)};
    if (!host || !id || !remote) return SMOLTCP_ERROR_NULL;
    return smoltcp_host_connect_nonnull(&h, id, remote, local ? local : &any);
}

SMOLTCP_INLINE int64_t smoltcp_host_bind_udp(struct smoltcp_host *host, const struct smoltcp_socket_id *id,
                                             const struct smoltcp_endpoint *local) {
    static const struct smoltcp_endpoint any = {{0, {0}, {0}}, 0};
    struct smoltcp_host_handle h = {SMOLTCP_AT(host)};
    if (!host || !id) return SMOLTCP_ERROR_NULL;
    return smoltcp_host_bind_udp_nonnull(&h, id, local ? local : &any);
}

SMOLTCP_INLINE int64_t smoltcp_host_tcp(struct smoltcp_host *host, const struct smoltcp_socket_id *id,
                                        struct smoltcp_tcp **out) {
    struct smoltcp_host_handle h = {SMOLTCP_AT(host)};
    struct smoltcp_socket_at place = {NULL};
    int64_t answer;
    if (!host || !id || !out) return SMOLTCP_ERROR_NULL;
    answer = smoltcp_host_tcp_nonnull(&h, id, &place);
    *out = answer == SMOLTCP_OK ? (struct smoltcp_tcp *)(void *)place.at : NULL;
    return answer;
}

SMOLTCP_INLINE int64_t smoltcp_host_udp(struct smoltcp_host *host, const struct smoltcp_socket_id *id,
                                        struct smoltcp_udp **out) {
    struct smoltcp_host_handle h = {SMOLTCP_AT(host)};
    struct smoltcp_socket_at place = {NULL};
    int64_t answer;
    if (!host || !id || !out) return SMOLTCP_ERROR_NULL;
    answer = smoltcp_host_udp_nonnull(&h, id, &place);
    *out = answer == SMOLTCP_OK ? (struct smoltcp_udp *)(void *)place.at : NULL;
    return answer;
}

SMOLTCP_INLINE int64_t smoltcp_host_raw(struct smoltcp_host *host, const struct smoltcp_socket_id *id,
                                        struct smoltcp_raw **out) {
    struct smoltcp_host_handle h = {SMOLTCP_AT(host)};
    struct smoltcp_socket_at place = {NULL};
    int64_t answer;
    if (!host || !id || !out) return SMOLTCP_ERROR_NULL;
    answer = smoltcp_host_raw_nonnull(&h, id, &place);
    *out = answer == SMOLTCP_OK ? (struct smoltcp_raw *)(void *)place.at : NULL;
    return answer;
}

SMOLTCP_INLINE int64_t smoltcp_host_icmp(struct smoltcp_host *host, const struct smoltcp_socket_id *id,
                                         struct smoltcp_icmp **out) {
    struct smoltcp_host_handle h = {SMOLTCP_AT(host)};
    struct smoltcp_socket_at place = {NULL};
    int64_t answer;
    if (!host || !id || !out) return SMOLTCP_ERROR_NULL;
    answer = smoltcp_host_icmp_nonnull(&h, id, &place);
    *out = answer == SMOLTCP_OK ? (struct smoltcp_icmp *)(void *)place.at : NULL;
    return answer;
}

#ifdef SMOLTCP_LIBRARY /* symbols alone: what is rare, and looks for marks */

SMOLTCP_INLINE int64_t smoltcp_host_init_sized(struct smoltcp_host *host, size_t size, size_t capacity,
                                               const struct smoltcp_cidr *addresses, size_t count,
                                               const struct smoltcp_key *key) {
    struct smoltcp_host_handle h = {SMOLTCP_AT(host)};
    int64_t answer;
    if (!host || (!addresses && count) || !key) return SMOLTCP_ERROR_NULL;
    if (size != smoltcp_host_size()) return SMOLTCP_ERROR_VERSION;
    addresses = SMOLTCP_OR_NONE(const struct smoltcp_cidr, addresses);
    answer = smoltcp_host_init_nonnull(&h, capacity, addresses, count, key);
    host->mark = answer == SMOLTCP_OK ? smoltcp_mark_at(host) : 0;
    host->waiting = 0;
    return answer;
}

SMOLTCP_INLINE int64_t (smoltcp_host_init)(struct smoltcp_host *host, size_t capacity,
                                           const struct smoltcp_cidr *addresses, size_t count,
                                           const struct smoltcp_key *key) {
    return smoltcp_host_init_sized(host, sizeof *host, capacity, addresses, count, key);
}

SMOLTCP_INLINE int64_t smoltcp_host_release(struct smoltcp_host *host) {
    struct smoltcp_host_handle h = {SMOLTCP_AT(host)};
    int64_t answer;
    if (!host) return SMOLTCP_ERROR_NULL;
    if (host->mark != smoltcp_mark_at(host)) return SMOLTCP_ERROR_STATE;
    answer = smoltcp_host_release_nonnull(&h);
    if (answer == SMOLTCP_OK) host->mark = 0;
    return answer;
}

SMOLTCP_INLINE int64_t smoltcp_host_add_tcp(struct smoltcp_host *host, struct smoltcp_tcp *s,
                                            struct smoltcp_socket_id *out) {
    struct smoltcp_host_handle h = {SMOLTCP_AT(host)};
    struct smoltcp_tcp_handle room = {SMOLTCP_AT(s)};
    int64_t answer;
    if (!host || !s || !out) return SMOLTCP_ERROR_NULL;
    if (smoltcp_is_empty(s, sizeof *s)) return SMOLTCP_ERROR_STATE;
    answer = smoltcp_host_add_tcp_nonnull(&h, &room, out);
    if (answer == SMOLTCP_OK) smoltcp_make_empty(s, sizeof *s);
    return answer;
}

SMOLTCP_INLINE int64_t smoltcp_host_add_udp(struct smoltcp_host *host, struct smoltcp_udp *s,
                                            struct smoltcp_socket_id *out) {
    struct smoltcp_host_handle h = {SMOLTCP_AT(host)};
    struct smoltcp_udp_handle room = {SMOLTCP_AT(s)};
    int64_t answer;
    if (!host || !s || !out) return SMOLTCP_ERROR_NULL;
    if (smoltcp_is_empty(s, sizeof *s)) return SMOLTCP_ERROR_STATE;
    answer = smoltcp_host_add_udp_nonnull(&h, &room, out);
    if (answer == SMOLTCP_OK) smoltcp_make_empty(s, sizeof *s);
    return answer;
}

SMOLTCP_INLINE int64_t smoltcp_host_add_raw(struct smoltcp_host *host, struct smoltcp_raw *s,
                                            struct smoltcp_socket_id *out) {
    struct smoltcp_host_handle h = {SMOLTCP_AT(host)};
    struct smoltcp_raw_handle room = {SMOLTCP_AT(s)};
    int64_t answer;
    if (!host || !s || !out) return SMOLTCP_ERROR_NULL;
    if (smoltcp_is_empty(s, sizeof *s)) return SMOLTCP_ERROR_STATE;
    answer = smoltcp_host_add_raw_nonnull(&h, &room, out);
    if (answer == SMOLTCP_OK) smoltcp_make_empty(s, sizeof *s);
    return answer;
}

SMOLTCP_INLINE int64_t smoltcp_host_add_icmp(struct smoltcp_host *host, struct smoltcp_icmp *s,
                                             struct smoltcp_socket_id *out) {
    struct smoltcp_host_handle h = {SMOLTCP_AT(host)};
    struct smoltcp_icmp_handle room = {SMOLTCP_AT(s)};
    int64_t answer;
    if (!host || !s || !out) return SMOLTCP_ERROR_NULL;
    if (smoltcp_is_empty(s, sizeof *s)) return SMOLTCP_ERROR_STATE;
    answer = smoltcp_host_add_icmp_nonnull(&h, &room, out);
    if (answer == SMOLTCP_OK) smoltcp_make_empty(s, sizeof *s);
    return answer;
}

/* Writes the RST of a socket that was aborted, as its next dispatch would, if one is due. */
static inline void smoltcp_host_keep_reset(struct smoltcp_host *host, struct smoltcp_tcp *s,
                                           const struct smoltcp_endpoint *local,
                                           const struct smoltcp_endpoint *remote) {
    struct smoltcp_context cx;
    int64_t len;
    size_t i;
    if (host->waiting == SMOLTCP_HOST_RESETS) return;
    if (smoltcp_host_context(host, &remote->addr, &cx) != SMOLTCP_OK) return;
    for (i = 0; i < 4; i++) cx.v4[i] = local->addr.v4[i];
    for (i = 0; i < 16; i++) cx.v6[i] = local->addr.v6[i];
    len = smoltcp_tcp_dispatch(s, &cx, host->resets[host->waiting].bytes, SMOLTCP_REPLY_ROOM);
    if (len <= 0) return;
    host->resets[host->waiting].len = (uint8_t)len;
    host->waiting_since = cx.now;
    host->waiting++;
}

SMOLTCP_INLINE int64_t smoltcp_host_drop_tcp(struct smoltcp_host *host, const struct smoltcp_socket_id *id) {
    struct smoltcp_endpoint local, remote;
    struct smoltcp_context none = {0, 0, 0, 1500, {0}, {0}};
    struct smoltcp_tcp s;
    uint8_t packet[SMOLTCP_REPLY_ROOM];
    int64_t answer = smoltcp_host_remove_tcp(host, id, &s);
    if (answer != SMOLTCP_OK) return answer;
    smoltcp_tcp_abort(&s);
    if (smoltcp_tcp_local_endpoint(&s, &local) == 1 && smoltcp_tcp_remote_endpoint(&s, &remote) == 1) {
        smoltcp_host_keep_reset(host, &s, &local, &remote);
    }
    /* without an address of its own the socket lets go of its peer, so that it can be released */
    smoltcp_tcp_dispatch(&s, &none, packet, sizeof packet);
    return smoltcp_tcp_release(&s, NULL, NULL);
}

#endif
