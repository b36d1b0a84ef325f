/* With SMOLTCP_CHECK defined: each call that takes a socket or a host looks first whether one lies there, and
 * ends the program by abort, with a sentence on standard error, where it can tell that none does. Included by
 * smoltcp_socket.h and smoltcp_host.h. Made by c/abi from crates/smoltcp_c; not to be changed by hand. */
#ifndef SMOLTCP_HOST_CHECK_H
#define SMOLTCP_HOST_CHECK_H

#include "smoltcp_check_marks.h"

static inline struct smoltcp_host *smoltcp_checked_host(struct smoltcp_host *s, int own, const char *call) {
    if (s) smoltcp_look_at_host(s, s->mark, own, call);
    return s;
}

static inline const struct smoltcp_host *smoltcp_checked_const_host(const struct smoltcp_host *s, int own,
                                                                    const char *call) {
    if (s) smoltcp_look_at_host(s, s->mark, own, call);
    return s;
}
#define smoltcp_host_set_mtu(s, ...) \
    (smoltcp_host_set_mtu)(smoltcp_checked_host((s), 0, "smoltcp_host_set_mtu"), __VA_ARGS__)
#define smoltcp_host_set_guards(s, ...) \
    (smoltcp_host_set_guards)(smoltcp_checked_host((s), 0, "smoltcp_host_set_guards"), __VA_ARGS__)
#define smoltcp_host_set_syn_cookies(s, ...) \
    (smoltcp_host_set_syn_cookies)(smoltcp_checked_host((s), 0, "smoltcp_host_set_syn_cookies"), __VA_ARGS__)
#define smoltcp_host_stop_syn_cookies(s) \
    (smoltcp_host_stop_syn_cookies)(smoltcp_checked_host((s), 0, "smoltcp_host_stop_syn_cookies"))
#define smoltcp_host_set_most_of_source(s, ...) \
    (smoltcp_host_set_most_of_source)(smoltcp_checked_host((s), 0, "smoltcp_host_set_most_of_source"), __VA_ARGS__)
#define smoltcp_host_set_answer_key(s, ...) \
    (smoltcp_host_set_answer_key)(smoltcp_checked_host((s), 0, "smoltcp_host_set_answer_key"), __VA_ARGS__)
#define smoltcp_host_join(s, ...) \
    (smoltcp_host_join)(smoltcp_checked_host((s), 0, "smoltcp_host_join"), __VA_ARGS__)
#define smoltcp_host_leave(s, ...) \
    (smoltcp_host_leave)(smoltcp_checked_host((s), 0, "smoltcp_host_leave"), __VA_ARGS__)
#define smoltcp_host_counters(s, ...) \
    (smoltcp_host_counters)(smoltcp_checked_const_host((s), 0, "smoltcp_host_counters"), __VA_ARGS__)
#define smoltcp_host_receive(s, ...) \
    (smoltcp_host_receive)(smoltcp_checked_host((s), 0, "smoltcp_host_receive"), __VA_ARGS__)
#define smoltcp_host_emit(s, ...) \
    (smoltcp_host_emit)(smoltcp_checked_host((s), 0, "smoltcp_host_emit"), __VA_ARGS__)
#define smoltcp_host_poll_at(s) \
    (smoltcp_host_poll_at)(smoltcp_checked_const_host((s), 0, "smoltcp_host_poll_at"))
#define smoltcp_host_context(s, ...) \
    (smoltcp_host_context)(smoltcp_checked_host((s), 0, "smoltcp_host_context"), __VA_ARGS__)
#define smoltcp_host_connect(s, ...) \
    (smoltcp_host_connect)(smoltcp_checked_host((s), 0, "smoltcp_host_connect"), __VA_ARGS__)
#define smoltcp_host_bind_udp(s, ...) \
    (smoltcp_host_bind_udp)(smoltcp_checked_host((s), 0, "smoltcp_host_bind_udp"), __VA_ARGS__)
#define smoltcp_host_drop_tcp(s, ...) \
    (smoltcp_host_drop_tcp)(smoltcp_checked_host((s), 0, "smoltcp_host_drop_tcp"), __VA_ARGS__)
#define smoltcp_host_set_addresses(s, ...) \
    (smoltcp_host_set_addresses)(smoltcp_checked_host((s), 0, "smoltcp_host_set_addresses"), __VA_ARGS__)
#define smoltcp_host_add_tcp(s, ...) \
    (smoltcp_host_add_tcp)(smoltcp_checked_host((s), 0, "smoltcp_host_add_tcp"), __VA_ARGS__)
#define smoltcp_host_add_udp(s, ...) \
    (smoltcp_host_add_udp)(smoltcp_checked_host((s), 0, "smoltcp_host_add_udp"), __VA_ARGS__)
#define smoltcp_host_add_raw(s, ...) \
    (smoltcp_host_add_raw)(smoltcp_checked_host((s), 0, "smoltcp_host_add_raw"), __VA_ARGS__)
#define smoltcp_host_add_icmp(s, ...) \
    (smoltcp_host_add_icmp)(smoltcp_checked_host((s), 0, "smoltcp_host_add_icmp"), __VA_ARGS__)
#define smoltcp_host_remove_tcp(s, ...) \
    (smoltcp_host_remove_tcp)(smoltcp_checked_host((s), 0, "smoltcp_host_remove_tcp"), __VA_ARGS__)
#define smoltcp_host_remove_udp(s, ...) \
    (smoltcp_host_remove_udp)(smoltcp_checked_host((s), 0, "smoltcp_host_remove_udp"), __VA_ARGS__)
#define smoltcp_host_remove_raw(s, ...) \
    (smoltcp_host_remove_raw)(smoltcp_checked_host((s), 0, "smoltcp_host_remove_raw"), __VA_ARGS__)
#define smoltcp_host_remove_icmp(s, ...) \
    (smoltcp_host_remove_icmp)(smoltcp_checked_host((s), 0, "smoltcp_host_remove_icmp"), __VA_ARGS__)

static inline int64_t smoltcp_checked_host_tcp(struct smoltcp_host *host, const struct smoltcp_socket_id *id,
                                               struct smoltcp_tcp **out) {
    int64_t answer = (smoltcp_host_tcp)(smoltcp_checked_host(host, 0, "smoltcp_host_tcp"), id, out);
    if (answer == SMOLTCP_OK) smoltcp_note_borrowed(host, *out);
    return answer;
}
#define smoltcp_host_tcp(host, id, out) smoltcp_checked_host_tcp((host), (id), (out))

static inline int64_t smoltcp_checked_host_udp(struct smoltcp_host *host, const struct smoltcp_socket_id *id,
                                               struct smoltcp_udp **out) {
    int64_t answer = (smoltcp_host_udp)(smoltcp_checked_host(host, 0, "smoltcp_host_udp"), id, out);
    if (answer == SMOLTCP_OK) smoltcp_note_borrowed(host, *out);
    return answer;
}
#define smoltcp_host_udp(host, id, out) smoltcp_checked_host_udp((host), (id), (out))

static inline int64_t smoltcp_checked_host_raw(struct smoltcp_host *host, const struct smoltcp_socket_id *id,
                                               struct smoltcp_raw **out) {
    int64_t answer = (smoltcp_host_raw)(smoltcp_checked_host(host, 0, "smoltcp_host_raw"), id, out);
    if (answer == SMOLTCP_OK) smoltcp_note_borrowed(host, *out);
    return answer;
}
#define smoltcp_host_raw(host, id, out) smoltcp_checked_host_raw((host), (id), (out))

static inline int64_t smoltcp_checked_host_icmp(struct smoltcp_host *host, const struct smoltcp_socket_id *id,
                                                struct smoltcp_icmp **out) {
    int64_t answer = (smoltcp_host_icmp)(smoltcp_checked_host(host, 0, "smoltcp_host_icmp"), id, out);
    if (answer == SMOLTCP_OK) smoltcp_note_borrowed(host, *out);
    return answer;
}
#define smoltcp_host_icmp(host, id, out) smoltcp_checked_host_icmp((host), (id), (out))
#define smoltcp_host_capacity(s, ...) \
    (smoltcp_host_capacity)(smoltcp_checked_const_host((s), 0, "smoltcp_host_capacity"), __VA_ARGS__)
#define smoltcp_host_at(s, ...) \
    (smoltcp_host_at)(smoltcp_checked_const_host((s), 0, "smoltcp_host_at"), __VA_ARGS__)
#define smoltcp_host_touched(s, ...) \
    (smoltcp_host_touched)(smoltcp_checked_const_host((s), 0, "smoltcp_host_touched"), __VA_ARGS__)
#define smoltcp_host_ended(s, ...) \
    (smoltcp_host_ended)(smoltcp_checked_const_host((s), 0, "smoltcp_host_ended"), __VA_ARGS__)
#define smoltcp_host_opened(s, ...) \
    (smoltcp_host_opened)(smoltcp_checked_const_host((s), 0, "smoltcp_host_opened"), __VA_ARGS__)

/* The answer is an error where no host lies there. */
static inline int64_t smoltcp_checked_host_release(struct smoltcp_host *host) {
    if (host) smoltcp_end_borrowed(host, 1);
    return (smoltcp_host_release)(host);
}
#define smoltcp_host_release(host) smoltcp_checked_host_release(host)

#endif
