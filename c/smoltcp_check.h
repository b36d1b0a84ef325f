/* With SMOLTCP_CHECK defined: each call that takes a socket or a host looks first whether one lies there, and
 * ends the program by abort, with a sentence on standard error, where it can tell that none does. Included by
 * smoltcp_socket.h and smoltcp_host.h. Made by c/abi from crates/smoltcp_c; not to be changed by hand. */
#ifndef SMOLTCP_CHECK_H
#define SMOLTCP_CHECK_H

#include "smoltcp_check_marks.h"

static inline struct smoltcp_tcp *smoltcp_checked_tcp(struct smoltcp_tcp *s, int own, const char *call) {
    smoltcp_look(s, sizeof *s, own, call);
    return s;
}

static inline const struct smoltcp_tcp *smoltcp_checked_const_tcp(const struct smoltcp_tcp *s, int own,
                                                                  const char *call) {
    smoltcp_look(s, sizeof *s, own, call);
    return s;
}
#define smoltcp_tcp_ask(s, ...) \
    (smoltcp_tcp_ask)(smoltcp_checked_const_tcp((s), 0, "smoltcp_tcp_ask"), __VA_ARGS__)
#define smoltcp_tcp_release(s, ...) \
    (smoltcp_tcp_release)(smoltcp_checked_tcp((s), 2, "smoltcp_tcp_release"), __VA_ARGS__)
#define smoltcp_tcp_listen(s, ...) \
    (smoltcp_tcp_listen)(smoltcp_checked_tcp((s), 0, "smoltcp_tcp_listen"), __VA_ARGS__)
#define smoltcp_tcp_connect(s, ...) \
    (smoltcp_tcp_connect)(smoltcp_checked_tcp((s), 0, "smoltcp_tcp_connect"), __VA_ARGS__)
#define smoltcp_tcp_close(s) \
    (smoltcp_tcp_close)(smoltcp_checked_tcp((s), 0, "smoltcp_tcp_close"))
#define smoltcp_tcp_abort(s) \
    (smoltcp_tcp_abort)(smoltcp_checked_tcp((s), 0, "smoltcp_tcp_abort"))
#define smoltcp_tcp_ended(s) \
    (smoltcp_tcp_ended)(smoltcp_checked_const_tcp((s), 0, "smoltcp_tcp_ended"))
#define smoltcp_tcp_negotiated(s, ...) \
    (smoltcp_tcp_negotiated)(smoltcp_checked_const_tcp((s), 0, "smoltcp_tcp_negotiated"), __VA_ARGS__)
#define smoltcp_tcp_send(s, ...) \
    (smoltcp_tcp_send)(smoltcp_checked_tcp((s), 0, "smoltcp_tcp_send"), __VA_ARGS__)
#define smoltcp_tcp_recv(s, ...) \
    (smoltcp_tcp_recv)(smoltcp_checked_tcp((s), 0, "smoltcp_tcp_recv"), __VA_ARGS__)
#define smoltcp_tcp_peek_slice(s, ...) \
    (smoltcp_tcp_peek_slice)(smoltcp_checked_const_tcp((s), 0, "smoltcp_tcp_peek_slice"), __VA_ARGS__)
#define smoltcp_tcp_peek(s, ...) \
    (smoltcp_tcp_peek)(smoltcp_checked_const_tcp((s), 0, "smoltcp_tcp_peek"), __VA_ARGS__)
#define smoltcp_tcp_consume(s, ...) \
    (smoltcp_tcp_consume)(smoltcp_checked_tcp((s), 0, "smoltcp_tcp_consume"), __VA_ARGS__)
#define smoltcp_tcp_reserve(s, ...) \
    (smoltcp_tcp_reserve)(smoltcp_checked_tcp((s), 0, "smoltcp_tcp_reserve"), __VA_ARGS__)
#define smoltcp_tcp_commit(s, ...) \
    (smoltcp_tcp_commit)(smoltcp_checked_tcp((s), 0, "smoltcp_tcp_commit"), __VA_ARGS__)
#define smoltcp_tcp_state(s) \
    (smoltcp_tcp_state)(smoltcp_checked_const_tcp((s), 0, "smoltcp_tcp_state"))
#define smoltcp_tcp_is_listening(s) \
    (smoltcp_tcp_is_listening)(smoltcp_checked_const_tcp((s), 0, "smoltcp_tcp_is_listening"))
#define smoltcp_tcp_is_open(s) \
    (smoltcp_tcp_is_open)(smoltcp_checked_const_tcp((s), 0, "smoltcp_tcp_is_open"))
#define smoltcp_tcp_is_active(s) \
    (smoltcp_tcp_is_active)(smoltcp_checked_const_tcp((s), 0, "smoltcp_tcp_is_active"))
#define smoltcp_tcp_has_work(s) \
    (smoltcp_tcp_has_work)(smoltcp_checked_const_tcp((s), 0, "smoltcp_tcp_has_work"))
#define smoltcp_tcp_may_send(s) \
    (smoltcp_tcp_may_send)(smoltcp_checked_const_tcp((s), 0, "smoltcp_tcp_may_send"))
#define smoltcp_tcp_may_recv(s) \
    (smoltcp_tcp_may_recv)(smoltcp_checked_const_tcp((s), 0, "smoltcp_tcp_may_recv"))
#define smoltcp_tcp_can_send(s) \
    (smoltcp_tcp_can_send)(smoltcp_checked_const_tcp((s), 0, "smoltcp_tcp_can_send"))
#define smoltcp_tcp_can_recv(s) \
    (smoltcp_tcp_can_recv)(smoltcp_checked_const_tcp((s), 0, "smoltcp_tcp_can_recv"))
#define smoltcp_tcp_send_queue(s) \
    (smoltcp_tcp_send_queue)(smoltcp_checked_const_tcp((s), 0, "smoltcp_tcp_send_queue"))
#define smoltcp_tcp_recv_queue(s) \
    (smoltcp_tcp_recv_queue)(smoltcp_checked_const_tcp((s), 0, "smoltcp_tcp_recv_queue"))
#define smoltcp_tcp_send_capacity(s) \
    (smoltcp_tcp_send_capacity)(smoltcp_checked_const_tcp((s), 0, "smoltcp_tcp_send_capacity"))
#define smoltcp_tcp_recv_capacity(s) \
    (smoltcp_tcp_recv_capacity)(smoltcp_checked_const_tcp((s), 0, "smoltcp_tcp_recv_capacity"))
#define smoltcp_tcp_local_endpoint(s, ...) \
    (smoltcp_tcp_local_endpoint)(smoltcp_checked_const_tcp((s), 0, "smoltcp_tcp_local_endpoint"), __VA_ARGS__)
#define smoltcp_tcp_remote_endpoint(s, ...) \
    (smoltcp_tcp_remote_endpoint)(smoltcp_checked_const_tcp((s), 0, "smoltcp_tcp_remote_endpoint"), __VA_ARGS__)
#define smoltcp_tcp_listen_endpoint(s, ...) \
    (smoltcp_tcp_listen_endpoint)(smoltcp_checked_const_tcp((s), 0, "smoltcp_tcp_listen_endpoint"), __VA_ARGS__)
#define smoltcp_tcp_set_timeout(s, ...) \
    (smoltcp_tcp_set_timeout)(smoltcp_checked_tcp((s), 0, "smoltcp_tcp_set_timeout"), __VA_ARGS__)
#define smoltcp_tcp_set_min_rto(s, ...) \
    (smoltcp_tcp_set_min_rto)(smoltcp_checked_tcp((s), 0, "smoltcp_tcp_set_min_rto"), __VA_ARGS__)
#define smoltcp_tcp_set_keep_alive(s, ...) \
    (smoltcp_tcp_set_keep_alive)(smoltcp_checked_tcp((s), 0, "smoltcp_tcp_set_keep_alive"), __VA_ARGS__)
#define smoltcp_tcp_set_ack_delay(s, ...) \
    (smoltcp_tcp_set_ack_delay)(smoltcp_checked_tcp((s), 0, "smoltcp_tcp_set_ack_delay"), __VA_ARGS__)
#define smoltcp_tcp_set_nagle_enabled(s, ...) \
    (smoltcp_tcp_set_nagle_enabled)(smoltcp_checked_tcp((s), 0, "smoltcp_tcp_set_nagle_enabled"), __VA_ARGS__)
#define smoltcp_tcp_set_hop_limit(s, ...) \
    (smoltcp_tcp_set_hop_limit)(smoltcp_checked_tcp((s), 0, "smoltcp_tcp_set_hop_limit"), __VA_ARGS__)
#define smoltcp_tcp_set_path_mtu(s, ...) \
    (smoltcp_tcp_set_path_mtu)(smoltcp_checked_tcp((s), 0, "smoltcp_tcp_set_path_mtu"), __VA_ARGS__)
#define smoltcp_tcp_pause_synack(s, ...) \
    (smoltcp_tcp_pause_synack)(smoltcp_checked_tcp((s), 0, "smoltcp_tcp_pause_synack"), __VA_ARGS__)
#define smoltcp_tcp_set_congestion_control(s, ...) \
    (smoltcp_tcp_set_congestion_control)(smoltcp_checked_tcp((s), 0, "smoltcp_tcp_set_congestion_control"), __VA_ARGS__)
#define smoltcp_tcp_set_rules(s, ...) \
    (smoltcp_tcp_set_rules)(smoltcp_checked_tcp((s), 0, "smoltcp_tcp_set_rules"), __VA_ARGS__)
#define smoltcp_tcp_set_timestamps(s, ...) \
    (smoltcp_tcp_set_timestamps)(smoltcp_checked_tcp((s), 0, "smoltcp_tcp_set_timestamps"), __VA_ARGS__)
#define smoltcp_tcp_set_tsval(s, ...) \
    (smoltcp_tcp_set_tsval)(smoltcp_checked_tcp((s), 0, "smoltcp_tcp_set_tsval"), __VA_ARGS__)
#define smoltcp_tcp_timeout(s) \
    (smoltcp_tcp_timeout)(smoltcp_checked_const_tcp((s), 0, "smoltcp_tcp_timeout"))
#define smoltcp_tcp_min_rto(s) \
    (smoltcp_tcp_min_rto)(smoltcp_checked_const_tcp((s), 0, "smoltcp_tcp_min_rto"))
#define smoltcp_tcp_keep_alive(s) \
    (smoltcp_tcp_keep_alive)(smoltcp_checked_const_tcp((s), 0, "smoltcp_tcp_keep_alive"))
#define smoltcp_tcp_ack_delay(s) \
    (smoltcp_tcp_ack_delay)(smoltcp_checked_const_tcp((s), 0, "smoltcp_tcp_ack_delay"))
#define smoltcp_tcp_nagle_enabled(s) \
    (smoltcp_tcp_nagle_enabled)(smoltcp_checked_const_tcp((s), 0, "smoltcp_tcp_nagle_enabled"))
#define smoltcp_tcp_hop_limit(s) \
    (smoltcp_tcp_hop_limit)(smoltcp_checked_const_tcp((s), 0, "smoltcp_tcp_hop_limit"))
#define smoltcp_tcp_congestion_control(s) \
    (smoltcp_tcp_congestion_control)(smoltcp_checked_const_tcp((s), 0, "smoltcp_tcp_congestion_control"))
#define smoltcp_tcp_rules(s) \
    (smoltcp_tcp_rules)(smoltcp_checked_const_tcp((s), 0, "smoltcp_tcp_rules"))
#define smoltcp_tcp_timestamp_enabled(s) \
    (smoltcp_tcp_timestamp_enabled)(smoltcp_checked_const_tcp((s), 0, "smoltcp_tcp_timestamp_enabled"))
#define smoltcp_tcp_process(s, ...) \
    (smoltcp_tcp_process)(smoltcp_checked_tcp((s), 1, "smoltcp_tcp_process"), __VA_ARGS__)
#define smoltcp_tcp_explain(s, ...) \
    (smoltcp_tcp_explain)(smoltcp_checked_const_tcp((s), 0, "smoltcp_tcp_explain"), __VA_ARGS__)
#define smoltcp_tcp_dispatch(s, ...) \
    (smoltcp_tcp_dispatch)(smoltcp_checked_tcp((s), 1, "smoltcp_tcp_dispatch"), __VA_ARGS__)
#define smoltcp_tcp_poll_at(s, ...) \
    (smoltcp_tcp_poll_at)(smoltcp_checked_const_tcp((s), 1, "smoltcp_tcp_poll_at"), __VA_ARGS__)

static inline int64_t smoltcp_checked_tcp_init(struct smoltcp_tcp *s, size_t size, uint8_t *rx, size_t rx_len,
                                               uint8_t *tx, size_t tx_len) {
    smoltcp_look_apart(rx, rx_len, tx, tx_len, "smoltcp_tcp_init");
    smoltcp_look_apart(s, size, rx, rx_len, "smoltcp_tcp_init");
    smoltcp_look_apart(s, size, tx, tx_len, "smoltcp_tcp_init");
    return (smoltcp_tcp_init_sized)(s, size, rx, rx_len, tx, tx_len);
}
#define smoltcp_tcp_init_sized(s, size, ...) smoltcp_checked_tcp_init((s), (size), __VA_ARGS__)

static inline struct smoltcp_udp *smoltcp_checked_udp(struct smoltcp_udp *s, int own, const char *call) {
    smoltcp_look(s, sizeof *s, own, call);
    return s;
}

static inline const struct smoltcp_udp *smoltcp_checked_const_udp(const struct smoltcp_udp *s, int own,
                                                                  const char *call) {
    smoltcp_look(s, sizeof *s, own, call);
    return s;
}
#define smoltcp_udp_ask(s, ...) \
    (smoltcp_udp_ask)(smoltcp_checked_const_udp((s), 0, "smoltcp_udp_ask"), __VA_ARGS__)
#define smoltcp_udp_release(s, ...) \
    (smoltcp_udp_release)(smoltcp_checked_udp((s), 2, "smoltcp_udp_release"), __VA_ARGS__)
#define smoltcp_udp_bind(s, ...) \
    (smoltcp_udp_bind)(smoltcp_checked_udp((s), 0, "smoltcp_udp_bind"), __VA_ARGS__)
#define smoltcp_udp_close(s) \
    (smoltcp_udp_close)(smoltcp_checked_udp((s), 0, "smoltcp_udp_close"))
#define smoltcp_udp_endpoint(s, ...) \
    (smoltcp_udp_endpoint)(smoltcp_checked_const_udp((s), 0, "smoltcp_udp_endpoint"), __VA_ARGS__)
#define smoltcp_udp_is_open(s) \
    (smoltcp_udp_is_open)(smoltcp_checked_const_udp((s), 0, "smoltcp_udp_is_open"))
#define smoltcp_udp_can_send(s) \
    (smoltcp_udp_can_send)(smoltcp_checked_const_udp((s), 0, "smoltcp_udp_can_send"))
#define smoltcp_udp_can_recv(s) \
    (smoltcp_udp_can_recv)(smoltcp_checked_const_udp((s), 0, "smoltcp_udp_can_recv"))
#define smoltcp_udp_packet_send_capacity(s) \
    (smoltcp_udp_packet_send_capacity)(smoltcp_checked_const_udp((s), 0, "smoltcp_udp_packet_send_capacity"))
#define smoltcp_udp_packet_recv_capacity(s) \
    (smoltcp_udp_packet_recv_capacity)(smoltcp_checked_const_udp((s), 0, "smoltcp_udp_packet_recv_capacity"))
#define smoltcp_udp_payload_send_capacity(s) \
    (smoltcp_udp_payload_send_capacity)(smoltcp_checked_const_udp((s), 0, "smoltcp_udp_payload_send_capacity"))
#define smoltcp_udp_payload_recv_capacity(s) \
    (smoltcp_udp_payload_recv_capacity)(smoltcp_checked_const_udp((s), 0, "smoltcp_udp_payload_recv_capacity"))
#define smoltcp_udp_send_queue(s) \
    (smoltcp_udp_send_queue)(smoltcp_checked_const_udp((s), 0, "smoltcp_udp_send_queue"))
#define smoltcp_udp_recv_queue(s) \
    (smoltcp_udp_recv_queue)(smoltcp_checked_const_udp((s), 0, "smoltcp_udp_recv_queue"))
#define smoltcp_udp_hop_limit(s) \
    (smoltcp_udp_hop_limit)(smoltcp_checked_const_udp((s), 0, "smoltcp_udp_hop_limit"))
#define smoltcp_udp_set_hop_limit(s, ...) \
    (smoltcp_udp_set_hop_limit)(smoltcp_checked_udp((s), 0, "smoltcp_udp_set_hop_limit"), __VA_ARGS__)
#define smoltcp_udp_send(s, ...) \
    (smoltcp_udp_send)(smoltcp_checked_udp((s), 0, "smoltcp_udp_send"), __VA_ARGS__)
#define smoltcp_udp_recv(s, ...) \
    (smoltcp_udp_recv)(smoltcp_checked_udp((s), 0, "smoltcp_udp_recv"), __VA_ARGS__)
#define smoltcp_udp_peek(s, ...) \
    (smoltcp_udp_peek)(smoltcp_checked_udp((s), 0, "smoltcp_udp_peek"), __VA_ARGS__)
#define smoltcp_udp_send_place(s, ...) \
    (smoltcp_udp_send_place)(smoltcp_checked_udp((s), 0, "smoltcp_udp_send_place"), __VA_ARGS__)
#define smoltcp_udp_recv_place(s, ...) \
    (smoltcp_udp_recv_place)(smoltcp_checked_udp((s), 0, "smoltcp_udp_recv_place"), __VA_ARGS__)
#define smoltcp_udp_peek_place(s, ...) \
    (smoltcp_udp_peek_place)(smoltcp_checked_udp((s), 0, "smoltcp_udp_peek_place"), __VA_ARGS__)
#define smoltcp_udp_accepts(s, ...) \
    (smoltcp_udp_accepts)(smoltcp_checked_const_udp((s), 1, "smoltcp_udp_accepts"), __VA_ARGS__)
#define smoltcp_udp_process(s, ...) \
    (smoltcp_udp_process)(smoltcp_checked_udp((s), 1, "smoltcp_udp_process"), __VA_ARGS__)
#define smoltcp_udp_dispatch(s, ...) \
    (smoltcp_udp_dispatch)(smoltcp_checked_udp((s), 1, "smoltcp_udp_dispatch"), __VA_ARGS__)
#define smoltcp_udp_poll_at(s, ...) \
    (smoltcp_udp_poll_at)(smoltcp_checked_const_udp((s), 1, "smoltcp_udp_poll_at"), __VA_ARGS__)

static inline struct smoltcp_raw *smoltcp_checked_raw(struct smoltcp_raw *s, int own, const char *call) {
    smoltcp_look(s, sizeof *s, own, call);
    return s;
}

static inline const struct smoltcp_raw *smoltcp_checked_const_raw(const struct smoltcp_raw *s, int own,
                                                                  const char *call) {
    smoltcp_look(s, sizeof *s, own, call);
    return s;
}
#define smoltcp_raw_ask(s, ...) \
    (smoltcp_raw_ask)(smoltcp_checked_const_raw((s), 0, "smoltcp_raw_ask"), __VA_ARGS__)
#define smoltcp_raw_release(s, ...) \
    (smoltcp_raw_release)(smoltcp_checked_raw((s), 2, "smoltcp_raw_release"), __VA_ARGS__)
#define smoltcp_raw_ip_version(s) \
    (smoltcp_raw_ip_version)(smoltcp_checked_const_raw((s), 0, "smoltcp_raw_ip_version"))
#define smoltcp_raw_ip_protocol(s) \
    (smoltcp_raw_ip_protocol)(smoltcp_checked_const_raw((s), 0, "smoltcp_raw_ip_protocol"))
#define smoltcp_raw_can_send(s) \
    (smoltcp_raw_can_send)(smoltcp_checked_const_raw((s), 0, "smoltcp_raw_can_send"))
#define smoltcp_raw_can_recv(s) \
    (smoltcp_raw_can_recv)(smoltcp_checked_const_raw((s), 0, "smoltcp_raw_can_recv"))
#define smoltcp_raw_packet_send_capacity(s) \
    (smoltcp_raw_packet_send_capacity)(smoltcp_checked_const_raw((s), 0, "smoltcp_raw_packet_send_capacity"))
#define smoltcp_raw_packet_recv_capacity(s) \
    (smoltcp_raw_packet_recv_capacity)(smoltcp_checked_const_raw((s), 0, "smoltcp_raw_packet_recv_capacity"))
#define smoltcp_raw_payload_send_capacity(s) \
    (smoltcp_raw_payload_send_capacity)(smoltcp_checked_const_raw((s), 0, "smoltcp_raw_payload_send_capacity"))
#define smoltcp_raw_payload_recv_capacity(s) \
    (smoltcp_raw_payload_recv_capacity)(smoltcp_checked_const_raw((s), 0, "smoltcp_raw_payload_recv_capacity"))
#define smoltcp_raw_send_queue(s) \
    (smoltcp_raw_send_queue)(smoltcp_checked_const_raw((s), 0, "smoltcp_raw_send_queue"))
#define smoltcp_raw_recv_queue(s) \
    (smoltcp_raw_recv_queue)(smoltcp_checked_const_raw((s), 0, "smoltcp_raw_recv_queue"))
#define smoltcp_raw_send(s, ...) \
    (smoltcp_raw_send)(smoltcp_checked_raw((s), 0, "smoltcp_raw_send"), __VA_ARGS__)
#define smoltcp_raw_recv(s, ...) \
    (smoltcp_raw_recv)(smoltcp_checked_raw((s), 0, "smoltcp_raw_recv"), __VA_ARGS__)
#define smoltcp_raw_peek(s, ...) \
    (smoltcp_raw_peek)(smoltcp_checked_raw((s), 0, "smoltcp_raw_peek"), __VA_ARGS__)
#define smoltcp_raw_send_place(s, ...) \
    (smoltcp_raw_send_place)(smoltcp_checked_raw((s), 0, "smoltcp_raw_send_place"), __VA_ARGS__)
#define smoltcp_raw_recv_place(s, ...) \
    (smoltcp_raw_recv_place)(smoltcp_checked_raw((s), 0, "smoltcp_raw_recv_place"), __VA_ARGS__)
#define smoltcp_raw_peek_place(s, ...) \
    (smoltcp_raw_peek_place)(smoltcp_checked_raw((s), 0, "smoltcp_raw_peek_place"), __VA_ARGS__)
#define smoltcp_raw_accepts(s, ...) \
    (smoltcp_raw_accepts)(smoltcp_checked_const_raw((s), 1, "smoltcp_raw_accepts"), __VA_ARGS__)
#define smoltcp_raw_process(s, ...) \
    (smoltcp_raw_process)(smoltcp_checked_raw((s), 1, "smoltcp_raw_process"), __VA_ARGS__)
#define smoltcp_raw_dispatch(s, ...) \
    (smoltcp_raw_dispatch)(smoltcp_checked_raw((s), 1, "smoltcp_raw_dispatch"), __VA_ARGS__)
#define smoltcp_raw_poll_at(s, ...) \
    (smoltcp_raw_poll_at)(smoltcp_checked_const_raw((s), 1, "smoltcp_raw_poll_at"), __VA_ARGS__)

static inline struct smoltcp_icmp *smoltcp_checked_icmp(struct smoltcp_icmp *s, int own, const char *call) {
    smoltcp_look(s, sizeof *s, own, call);
    return s;
}

static inline const struct smoltcp_icmp *smoltcp_checked_const_icmp(const struct smoltcp_icmp *s, int own,
                                                                    const char *call) {
    smoltcp_look(s, sizeof *s, own, call);
    return s;
}
#define smoltcp_icmp_ask(s, ...) \
    (smoltcp_icmp_ask)(smoltcp_checked_const_icmp((s), 0, "smoltcp_icmp_ask"), __VA_ARGS__)
#define smoltcp_icmp_release(s, ...) \
    (smoltcp_icmp_release)(smoltcp_checked_icmp((s), 2, "smoltcp_icmp_release"), __VA_ARGS__)
#define smoltcp_icmp_bind(s, ...) \
    (smoltcp_icmp_bind)(smoltcp_checked_icmp((s), 0, "smoltcp_icmp_bind"), __VA_ARGS__)
#define smoltcp_icmp_is_open(s) \
    (smoltcp_icmp_is_open)(smoltcp_checked_const_icmp((s), 0, "smoltcp_icmp_is_open"))
#define smoltcp_icmp_can_send(s) \
    (smoltcp_icmp_can_send)(smoltcp_checked_const_icmp((s), 0, "smoltcp_icmp_can_send"))
#define smoltcp_icmp_can_recv(s) \
    (smoltcp_icmp_can_recv)(smoltcp_checked_const_icmp((s), 0, "smoltcp_icmp_can_recv"))
#define smoltcp_icmp_packet_send_capacity(s) \
    (smoltcp_icmp_packet_send_capacity)(smoltcp_checked_const_icmp((s), 0, "smoltcp_icmp_packet_send_capacity"))
#define smoltcp_icmp_packet_recv_capacity(s) \
    (smoltcp_icmp_packet_recv_capacity)(smoltcp_checked_const_icmp((s), 0, "smoltcp_icmp_packet_recv_capacity"))
#define smoltcp_icmp_payload_send_capacity(s) \
    (smoltcp_icmp_payload_send_capacity)(smoltcp_checked_const_icmp((s), 0, "smoltcp_icmp_payload_send_capacity"))
#define smoltcp_icmp_payload_recv_capacity(s) \
    (smoltcp_icmp_payload_recv_capacity)(smoltcp_checked_const_icmp((s), 0, "smoltcp_icmp_payload_recv_capacity"))
#define smoltcp_icmp_send_queue(s) \
    (smoltcp_icmp_send_queue)(smoltcp_checked_const_icmp((s), 0, "smoltcp_icmp_send_queue"))
#define smoltcp_icmp_recv_queue(s) \
    (smoltcp_icmp_recv_queue)(smoltcp_checked_const_icmp((s), 0, "smoltcp_icmp_recv_queue"))
#define smoltcp_icmp_hop_limit(s) \
    (smoltcp_icmp_hop_limit)(smoltcp_checked_const_icmp((s), 0, "smoltcp_icmp_hop_limit"))
#define smoltcp_icmp_set_hop_limit(s, ...) \
    (smoltcp_icmp_set_hop_limit)(smoltcp_checked_icmp((s), 0, "smoltcp_icmp_set_hop_limit"), __VA_ARGS__)
#define smoltcp_icmp_send(s, ...) \
    (smoltcp_icmp_send)(smoltcp_checked_icmp((s), 0, "smoltcp_icmp_send"), __VA_ARGS__)
#define smoltcp_icmp_recv(s, ...) \
    (smoltcp_icmp_recv)(smoltcp_checked_icmp((s), 0, "smoltcp_icmp_recv"), __VA_ARGS__)
#define smoltcp_icmp_send_place(s, ...) \
    (smoltcp_icmp_send_place)(smoltcp_checked_icmp((s), 0, "smoltcp_icmp_send_place"), __VA_ARGS__)
#define smoltcp_icmp_recv_place(s, ...) \
    (smoltcp_icmp_recv_place)(smoltcp_checked_icmp((s), 0, "smoltcp_icmp_recv_place"), __VA_ARGS__)
#define smoltcp_icmp_accepts(s, ...) \
    (smoltcp_icmp_accepts)(smoltcp_checked_const_icmp((s), 1, "smoltcp_icmp_accepts"), __VA_ARGS__)
#define smoltcp_icmp_process(s, ...) \
    (smoltcp_icmp_process)(smoltcp_checked_icmp((s), 1, "smoltcp_icmp_process"), __VA_ARGS__)
#define smoltcp_icmp_dispatch(s, ...) \
    (smoltcp_icmp_dispatch)(smoltcp_checked_icmp((s), 1, "smoltcp_icmp_dispatch"), __VA_ARGS__)
#define smoltcp_icmp_poll_at(s, ...) \
    (smoltcp_icmp_poll_at)(smoltcp_checked_const_icmp((s), 1, "smoltcp_icmp_poll_at"), __VA_ARGS__)

#endif
