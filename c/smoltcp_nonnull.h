/* The calls of the library, for pointers that are known not to be null: nothing tests them here.
 * smoltcp_socket.h has the documented calls, which look at each pointer first. docs/C.md says what each
 * pointer has to lead to. Made by c/abi from crates/smoltcp_c; not to be changed by hand. */
#ifndef SMOLTCP_NONNULL_H
#define SMOLTCP_NONNULL_H

#include "smoltcp_types.h"

#ifdef __cplusplus
extern "C" {
#endif

/* What the library is handed: where a socket lies, or room for one; bytes and places that are a socket's, or were;
 * some bytes of a buffer. */
struct smoltcp_tcp_handle { uint8_t *at; };
struct smoltcp_udp_handle { uint8_t *at; };
struct smoltcp_raw_handle { uint8_t *at; };
struct smoltcp_icmp_handle { uint8_t *at; };
struct smoltcp_bytes { uint8_t *at; size_t len; };
struct smoltcp_place { const uint8_t *at; size_t len; };
struct smoltcp_places { uint8_t *at; size_t len; };

/* The sizes that the library's structs have, and those of sockets. */
#if defined(__STDC_VERSION__) && __STDC_VERSION__ >= 201112L
_Static_assert(sizeof(struct smoltcp_address) == 21, "address");
_Static_assert(sizeof(struct smoltcp_bytes) == 16, "bytes");
_Static_assert(sizeof(struct smoltcp_context) == 40, "context");
_Static_assert(sizeof(struct smoltcp_endpoint) == 24, "endpoint");
_Static_assert(sizeof(struct smoltcp_icmp_endpoint) == 28, "icmp_endpoint");
_Static_assert(sizeof(struct smoltcp_icmp_handle) == 8, "icmp_handle");
_Static_assert(sizeof(struct smoltcp_negotiated) == 24, "negotiated");
_Static_assert(sizeof(struct smoltcp_place) == 16, "place");
_Static_assert(sizeof(struct smoltcp_places) == 16, "places");
_Static_assert(sizeof(struct smoltcp_raw_filter) == 3, "raw_filter");
_Static_assert(sizeof(struct smoltcp_raw_handle) == 8, "raw_handle");
_Static_assert(sizeof(struct smoltcp_sizes) == 56, "sizes");
_Static_assert(sizeof(struct smoltcp_tcp_handle) == 8, "tcp_handle");
_Static_assert(sizeof(struct smoltcp_udp_handle) == 8, "udp_handle");
_Static_assert(sizeof(struct smoltcp_udp_metadata) == 46, "udp_metadata");
_Static_assert(sizeof(struct smoltcp_tcp) == SMOLTCP_TCP_SIZE, "tcp");
_Static_assert(sizeof(struct smoltcp_udp) == SMOLTCP_UDP_SIZE, "udp");
_Static_assert(sizeof(struct smoltcp_udp_place) == SMOLTCP_UDP_PLACE_SIZE, "udp_place");
_Static_assert(sizeof(struct smoltcp_raw) == SMOLTCP_RAW_SIZE, "raw");
_Static_assert(sizeof(struct smoltcp_raw_place) == SMOLTCP_RAW_PLACE_SIZE, "raw_place");
_Static_assert(sizeof(struct smoltcp_icmp) == SMOLTCP_ICMP_SIZE, "icmp");
_Static_assert(sizeof(struct smoltcp_icmp_place) == SMOLTCP_ICMP_PLACE_SIZE, "icmp_place");
#endif

int64_t smoltcp_sizes_nonnull(struct smoltcp_sizes *out);
int64_t smoltcp_tcp_abort_nonnull(struct smoltcp_tcp_handle *h);
int64_t smoltcp_tcp_ask_nonnull(struct smoltcp_tcp_handle *h, uint32_t what);
int64_t smoltcp_tcp_can_recv_nonnull(struct smoltcp_tcp_handle *h);
int64_t smoltcp_tcp_can_send_nonnull(struct smoltcp_tcp_handle *h);
int64_t smoltcp_tcp_close_nonnull(struct smoltcp_tcp_handle *h);
int64_t smoltcp_tcp_commit_nonnull(struct smoltcp_tcp_handle *h, size_t count);
int64_t smoltcp_tcp_connect_nonnull(struct smoltcp_tcp_handle *h, const struct smoltcp_context *cx,
                                    const struct smoltcp_endpoint *remote, const struct smoltcp_endpoint *local);
int64_t smoltcp_tcp_consume_nonnull(struct smoltcp_tcp_handle *h, size_t count);
int64_t smoltcp_tcp_dispatch_nonnull(uint8_t *at, const struct smoltcp_context *cx, uint8_t *out, size_t cap);
int64_t smoltcp_tcp_ended_nonnull(struct smoltcp_tcp_handle *h);
int64_t smoltcp_tcp_explain_nonnull(struct smoltcp_tcp_handle *h, const struct smoltcp_context *cx,
                                    const uint8_t *packet, size_t len);
int64_t smoltcp_tcp_init_nonnull(struct smoltcp_tcp_handle *room, struct smoltcp_bytes rx, struct smoltcp_bytes tx);
int64_t smoltcp_tcp_listen_nonnull(struct smoltcp_tcp_handle *h, const struct smoltcp_endpoint *endpoint);
int64_t smoltcp_tcp_listen_endpoint_nonnull(struct smoltcp_tcp_handle *h, struct smoltcp_endpoint *out);
int64_t smoltcp_tcp_local_endpoint_nonnull(struct smoltcp_tcp_handle *h, struct smoltcp_endpoint *out);
int64_t smoltcp_tcp_may_send_nonnull(struct smoltcp_tcp_handle *h);
int64_t smoltcp_tcp_negotiated_nonnull(struct smoltcp_tcp_handle *h, struct smoltcp_negotiated *out);
int64_t smoltcp_tcp_pause_synack_nonnull(struct smoltcp_tcp_handle *h, uint8_t pause);
int64_t smoltcp_tcp_peek_nonnull(struct smoltcp_tcp_handle *h, size_t size, struct smoltcp_place *out);
int64_t smoltcp_tcp_peek_slice_nonnull(struct smoltcp_tcp_handle *h, uint8_t *data, size_t cap);
int64_t smoltcp_tcp_poll_at_nonnull(uint8_t *at, const struct smoltcp_context *cx);
int64_t smoltcp_tcp_process_nonnull(struct smoltcp_tcp_handle *h, const struct smoltcp_context *cx,
                                    const uint8_t *packet, size_t len, uint8_t *reply, size_t cap);
int64_t smoltcp_tcp_recv_nonnull(struct smoltcp_tcp_handle *h, uint8_t *data, size_t cap);
int64_t smoltcp_tcp_release_nonnull(struct smoltcp_tcp_handle *room, struct smoltcp_bytes *rx,
                                    struct smoltcp_bytes *tx);
int64_t smoltcp_tcp_remote_endpoint_nonnull(struct smoltcp_tcp_handle *h, struct smoltcp_endpoint *out);
int64_t smoltcp_tcp_reserve_nonnull(struct smoltcp_tcp_handle *h, struct smoltcp_place *out);
int64_t smoltcp_tcp_reset_nonnull(const uint8_t *packet, size_t len, uint8_t *reply, size_t cap);
int64_t smoltcp_tcp_send_nonnull(struct smoltcp_tcp_handle *h, const uint8_t *data, size_t len);
int64_t smoltcp_tcp_set_ack_delay_nonnull(struct smoltcp_tcp_handle *h, int64_t micros);
int64_t smoltcp_tcp_set_congestion_control_nonnull(struct smoltcp_tcp_handle *h, uint32_t kind);
int64_t smoltcp_tcp_set_hop_limit_nonnull(struct smoltcp_tcp_handle *h, uint8_t hop_limit);
int64_t smoltcp_tcp_set_keep_alive_nonnull(struct smoltcp_tcp_handle *h, int64_t micros);
int64_t smoltcp_tcp_set_min_rto_nonnull(struct smoltcp_tcp_handle *h, int64_t micros);
int64_t smoltcp_tcp_set_nagle_enabled_nonnull(struct smoltcp_tcp_handle *h, uint8_t enabled);
int64_t smoltcp_tcp_set_path_mtu_nonnull(struct smoltcp_tcp_handle *h, const struct smoltcp_context *cx, uint32_t mtu);
int64_t smoltcp_tcp_set_rules_nonnull(struct smoltcp_tcp_handle *h, uint32_t rules);
int64_t smoltcp_tcp_set_timeout_nonnull(struct smoltcp_tcp_handle *h, int64_t micros);
int64_t smoltcp_tcp_set_timestamps_nonnull(struct smoltcp_tcp_handle *h, uint8_t enabled);
int64_t smoltcp_tcp_set_tsval_nonnull(struct smoltcp_tcp_handle *h, uint32_t tsval);
int64_t smoltcp_tcp_state_nonnull(struct smoltcp_tcp_handle *h);
int64_t smoltcp_udp_accepts_nonnull(struct smoltcp_udp_handle *h, const struct smoltcp_context *cx,
                                    const uint8_t *packet, size_t len);
int64_t smoltcp_udp_ask_nonnull(struct smoltcp_udp_handle *h, uint32_t what);
int64_t smoltcp_udp_bind_nonnull(struct smoltcp_udp_handle *h, const struct smoltcp_endpoint *endpoint);
int64_t smoltcp_udp_close_nonnull(struct smoltcp_udp_handle *h);
int64_t smoltcp_udp_dispatch_nonnull(struct smoltcp_udp_handle *h, const struct smoltcp_context *cx, uint8_t *out,
                                     size_t cap);
int64_t smoltcp_udp_endpoint_nonnull(struct smoltcp_udp_handle *h, struct smoltcp_endpoint *out);
int64_t smoltcp_udp_init_nonnull(struct smoltcp_places rx_places, struct smoltcp_bytes rx,
                                 struct smoltcp_places tx_places, struct smoltcp_bytes tx,
                                 struct smoltcp_udp_handle *room);
int64_t smoltcp_udp_peek_nonnull(struct smoltcp_udp_handle *h, struct smoltcp_udp_metadata *meta, uint8_t *data,
                                 size_t cap);
int64_t smoltcp_udp_peek_place_nonnull(struct smoltcp_udp_handle *h, struct smoltcp_udp_metadata *meta,
                                       struct smoltcp_place *out);
int64_t smoltcp_udp_place_nonnull(struct smoltcp_udp_handle *room);
int64_t smoltcp_udp_poll_at_nonnull(struct smoltcp_udp_handle *h, const struct smoltcp_context *cx, int64_t *at);
int64_t smoltcp_udp_process_nonnull(struct smoltcp_udp_handle *h, const struct smoltcp_context *cx,
                                    const uint8_t *packet, size_t len);
int64_t smoltcp_udp_recv_nonnull(struct smoltcp_udp_handle *h, struct smoltcp_udp_metadata *meta, uint8_t *data,
                                 size_t cap);
int64_t smoltcp_udp_recv_place_nonnull(struct smoltcp_udp_handle *h, struct smoltcp_udp_metadata *meta,
                                       struct smoltcp_place *out);
int64_t smoltcp_udp_release_nonnull(struct smoltcp_udp_handle *room, struct smoltcp_places *rx_places,
                                    struct smoltcp_bytes *rx, struct smoltcp_places *tx_places,
                                    struct smoltcp_bytes *tx);
int64_t smoltcp_udp_send_nonnull(struct smoltcp_udp_handle *h, const struct smoltcp_udp_metadata *meta,
                                 const uint8_t *data, size_t len);
int64_t smoltcp_udp_send_place_nonnull(struct smoltcp_udp_handle *h, const struct smoltcp_udp_metadata *meta,
                                       size_t size, struct smoltcp_place *out);
int64_t smoltcp_udp_set_hop_limit_nonnull(struct smoltcp_udp_handle *h, uint8_t hop_limit);
int64_t smoltcp_raw_accepts_nonnull(struct smoltcp_raw_handle *h, const uint8_t *packet, size_t len);
int64_t smoltcp_raw_ask_nonnull(struct smoltcp_raw_handle *h, uint32_t what);
int64_t smoltcp_raw_dispatch_nonnull(struct smoltcp_raw_handle *h, const struct smoltcp_context *cx, uint8_t *out,
                                     size_t cap);
int64_t smoltcp_raw_init_nonnull(struct smoltcp_places rx_places, struct smoltcp_bytes rx,
                                 struct smoltcp_places tx_places, struct smoltcp_bytes tx,
                                 const struct smoltcp_raw_filter *filter, struct smoltcp_raw_handle *room);
int64_t smoltcp_raw_peek_nonnull(struct smoltcp_raw_handle *h, uint8_t *data, size_t cap);
int64_t smoltcp_raw_peek_place_nonnull(struct smoltcp_raw_handle *h, struct smoltcp_place *out);
int64_t smoltcp_raw_place_nonnull(struct smoltcp_raw_handle *room);
int64_t smoltcp_raw_poll_at_nonnull(struct smoltcp_raw_handle *h, const struct smoltcp_context *cx, int64_t *at);
int64_t smoltcp_raw_process_nonnull(struct smoltcp_raw_handle *h, const struct smoltcp_context *cx,
                                    const uint8_t *packet, size_t len);
int64_t smoltcp_raw_recv_nonnull(struct smoltcp_raw_handle *h, uint8_t *data, size_t cap);
int64_t smoltcp_raw_recv_place_nonnull(struct smoltcp_raw_handle *h, struct smoltcp_place *out);
int64_t smoltcp_raw_release_nonnull(struct smoltcp_raw_handle *room, struct smoltcp_places *rx_places,
                                    struct smoltcp_bytes *rx, struct smoltcp_places *tx_places,
                                    struct smoltcp_bytes *tx);
int64_t smoltcp_raw_send_nonnull(struct smoltcp_raw_handle *h, const uint8_t *data, size_t len);
int64_t smoltcp_raw_send_place_nonnull(struct smoltcp_raw_handle *h, size_t size, struct smoltcp_place *out);
int64_t smoltcp_icmp_accepts_nonnull(struct smoltcp_icmp_handle *h, const struct smoltcp_context *cx,
                                     const uint8_t *packet, size_t len);
int64_t smoltcp_icmp_ask_nonnull(struct smoltcp_icmp_handle *h, uint32_t what);
int64_t smoltcp_icmp_bind_nonnull(struct smoltcp_icmp_handle *h, const struct smoltcp_icmp_endpoint *endpoint);
int64_t smoltcp_icmp_dispatch_nonnull(struct smoltcp_icmp_handle *h, const struct smoltcp_context *cx, uint8_t *out,
                                      size_t cap);
int64_t smoltcp_icmp_init_nonnull(struct smoltcp_places rx_places, struct smoltcp_bytes rx,
                                  struct smoltcp_places tx_places, struct smoltcp_bytes tx,
                                  struct smoltcp_icmp_handle *room);
int64_t smoltcp_icmp_place_nonnull(struct smoltcp_icmp_handle *room);
int64_t smoltcp_icmp_poll_at_nonnull(struct smoltcp_icmp_handle *h, const struct smoltcp_context *cx, int64_t *at);
int64_t smoltcp_icmp_process_nonnull(struct smoltcp_icmp_handle *h, const struct smoltcp_context *cx,
                                     const uint8_t *packet, size_t len);
int64_t smoltcp_icmp_recv_nonnull(struct smoltcp_icmp_handle *h, struct smoltcp_address *remote, uint8_t *data,
                                  size_t cap);
int64_t smoltcp_icmp_recv_place_nonnull(struct smoltcp_icmp_handle *h, struct smoltcp_address *remote,
                                        struct smoltcp_place *out);
int64_t smoltcp_icmp_release_nonnull(struct smoltcp_icmp_handle *room, struct smoltcp_places *rx_places,
                                     struct smoltcp_bytes *rx, struct smoltcp_places *tx_places,
                                     struct smoltcp_bytes *tx);
int64_t smoltcp_icmp_send_nonnull(struct smoltcp_icmp_handle *h, const struct smoltcp_address *remote,
                                  const uint8_t *data, size_t len);
int64_t smoltcp_icmp_send_place_nonnull(struct smoltcp_icmp_handle *h, const struct smoltcp_address *remote,
                                        size_t size, struct smoltcp_place *out);
int64_t smoltcp_icmp_set_hop_limit_nonnull(struct smoltcp_icmp_handle *h, uint8_t hop_limit);

#ifdef __cplusplus
}
#endif

#endif
