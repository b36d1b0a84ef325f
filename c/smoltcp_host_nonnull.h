/* The calls of a host, for pointers that are known not to be null: nothing tests them here. smoltcp_host.h has the
 * documented calls, which look at each pointer first.
 * Made by c/abi from crates/smoltcp_c; not to be changed by hand. */
#ifndef SMOLTCP_HOST_NONNULL_H
#define SMOLTCP_HOST_NONNULL_H

#include "smoltcp_host.h"
#include "smoltcp_nonnull.h"

#ifdef __cplusplus
extern "C" {
#endif

/* What the library is handed: where a host lies, or room for one; where a socket of it lies. */
struct smoltcp_host_handle { uint8_t *at; };
struct smoltcp_socket_at { uint8_t *at; };

/* The sizes that the library's structs have, and those of a host. */
#if defined(__STDC_VERSION__) && __STDC_VERSION__ >= 201112L
_Static_assert(sizeof(struct smoltcp_cidr) == 22, "cidr");
_Static_assert(sizeof(struct smoltcp_counters) == 128, "counters");
_Static_assert(sizeof(struct smoltcp_guards) == 32, "guards");
_Static_assert(sizeof(struct smoltcp_host_handle) == 8, "host_handle");
_Static_assert(sizeof(struct smoltcp_key) == 32, "key");
_Static_assert(sizeof(struct smoltcp_socket_at) == 8, "socket_at");
_Static_assert(sizeof(struct smoltcp_socket_id) == 16, "socket_id");
_Static_assert(sizeof(((struct smoltcp_host *)0)->memory) == SMOLTCP_HOST_SIZE, "host");
#endif

int64_t smoltcp_host_add_icmp_nonnull(struct smoltcp_host_handle *h, struct smoltcp_icmp_handle *room,
                                      struct smoltcp_socket_id *out);
int64_t smoltcp_host_add_raw_nonnull(struct smoltcp_host_handle *h, struct smoltcp_raw_handle *room,
                                     struct smoltcp_socket_id *out);
int64_t smoltcp_host_add_tcp_nonnull(struct smoltcp_host_handle *h, struct smoltcp_tcp_handle *room,
                                     struct smoltcp_socket_id *out);
int64_t smoltcp_host_add_udp_nonnull(struct smoltcp_host_handle *h, struct smoltcp_udp_handle *room,
                                     struct smoltcp_socket_id *out);
int64_t smoltcp_host_at_nonnull(struct smoltcp_host_handle *h, size_t index, struct smoltcp_socket_id *out);
int64_t smoltcp_host_bind_udp_nonnull(struct smoltcp_host_handle *h, const struct smoltcp_socket_id *id,
                                      const struct smoltcp_endpoint *local);
int64_t smoltcp_host_capacity_nonnull(struct smoltcp_host_handle *h, size_t *out);
int64_t smoltcp_host_connect_nonnull(struct smoltcp_host_handle *h, const struct smoltcp_socket_id *id,
                                     const struct smoltcp_endpoint *remote, const struct smoltcp_endpoint *local);
int64_t smoltcp_host_context_nonnull(struct smoltcp_host_handle *h, const struct smoltcp_address *remote,
                                     struct smoltcp_context *out);
int64_t smoltcp_host_counters_nonnull(struct smoltcp_host_handle *h, struct smoltcp_counters *out);
int64_t smoltcp_host_emit_nonnull(struct smoltcp_host_handle *h, int64_t now, uint8_t *out, size_t cap);
int64_t smoltcp_host_ended_nonnull(struct smoltcp_host_handle *h, size_t from, size_t *out);
int64_t smoltcp_host_icmp_nonnull(struct smoltcp_host_handle *h, const struct smoltcp_socket_id *id,
                                  struct smoltcp_socket_at *out);
int64_t smoltcp_host_init_nonnull(struct smoltcp_host_handle *room, size_t capacity,
                                  const struct smoltcp_cidr *addresses, size_t count, const struct smoltcp_key *key);
int64_t smoltcp_host_join_nonnull(struct smoltcp_host_handle *h, const struct smoltcp_address *group);
int64_t smoltcp_host_leave_nonnull(struct smoltcp_host_handle *h, const struct smoltcp_address *group);
int64_t smoltcp_host_opened_nonnull(struct smoltcp_host_handle *h, const struct smoltcp_socket_id *id, uint64_t *out);
int64_t smoltcp_host_poll_at_nonnull(struct smoltcp_host_handle *h, int64_t *at);
int64_t smoltcp_host_raw_nonnull(struct smoltcp_host_handle *h, const struct smoltcp_socket_id *id,
                                 struct smoltcp_socket_at *out);
int64_t smoltcp_host_receive_nonnull(struct smoltcp_host_handle *h, int64_t now, const uint8_t *packet, size_t len,
                                     uint8_t *reply, size_t cap);
int64_t smoltcp_host_release_nonnull(struct smoltcp_host_handle *room);
int64_t smoltcp_host_remove_icmp_nonnull(struct smoltcp_host_handle *h, const struct smoltcp_socket_id *id,
                                         struct smoltcp_icmp_handle *room);
int64_t smoltcp_host_remove_raw_nonnull(struct smoltcp_host_handle *h, const struct smoltcp_socket_id *id,
                                        struct smoltcp_raw_handle *room);
int64_t smoltcp_host_remove_tcp_nonnull(struct smoltcp_host_handle *h, const struct smoltcp_socket_id *id,
                                        struct smoltcp_tcp_handle *room);
int64_t smoltcp_host_remove_udp_nonnull(struct smoltcp_host_handle *h, const struct smoltcp_socket_id *id,
                                        struct smoltcp_udp_handle *room);
int64_t smoltcp_host_set_addresses_nonnull(struct smoltcp_host_handle *h, const struct smoltcp_cidr *addresses,
                                           size_t count);
int64_t smoltcp_host_set_answer_key_nonnull(struct smoltcp_host_handle *h, uint64_t key);
int64_t smoltcp_host_set_guards_nonnull(struct smoltcp_host_handle *h, const struct smoltcp_guards *guards);
int64_t smoltcp_host_set_most_of_source_nonnull(struct smoltcp_host_handle *h, size_t most);
int64_t smoltcp_host_set_mtu_nonnull(struct smoltcp_host_handle *h, size_t mtu);
int64_t smoltcp_host_set_syn_cookies_nonnull(struct smoltcp_host_handle *h, const struct smoltcp_key *key,
                                             size_t kept_from);
int64_t smoltcp_host_size_nonnull(size_t *out);
int64_t smoltcp_host_stop_syn_cookies_nonnull(struct smoltcp_host_handle *h);
int64_t smoltcp_host_tcp_nonnull(struct smoltcp_host_handle *h, const struct smoltcp_socket_id *id,
                                 struct smoltcp_socket_at *out);
int64_t smoltcp_host_touched_nonnull(struct smoltcp_host_handle *h, size_t from, size_t *out);
int64_t smoltcp_host_udp_nonnull(struct smoltcp_host_handle *h, const struct smoltcp_socket_id *id,
                                 struct smoltcp_socket_at *out);

#ifdef __cplusplus
}
#endif

#endif
