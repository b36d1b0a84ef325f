/* Bodies of the calls of smoltcp_host.h that only hand on.
 * Made by c/abi from crates/smoltcp_c; not to be changed by hand. */

SMOLTCP_INLINE int64_t smoltcp_host_at(const struct smoltcp_host *host, size_t index, struct smoltcp_socket_id *out) {
    struct smoltcp_host_handle h = {SMOLTCP_AT(host)};
    if (!host || !out) return SMOLTCP_ERROR_NULL;
    return smoltcp_host_at_nonnull(&h, index, out);
}

SMOLTCP_INLINE int64_t smoltcp_host_capacity(const struct smoltcp_host *host, size_t *out) {
    struct smoltcp_host_handle h = {SMOLTCP_AT(host)};
    if (!host || !out) return SMOLTCP_ERROR_NULL;
    return smoltcp_host_capacity_nonnull(&h, out);
}

SMOLTCP_INLINE int64_t smoltcp_host_context(struct smoltcp_host *host, const struct smoltcp_address *remote,
                                            struct smoltcp_context *out) {
    struct smoltcp_host_handle h = {SMOLTCP_AT(host)};
    if (!host || !remote || !out) return SMOLTCP_ERROR_NULL;
    return smoltcp_host_context_nonnull(&h, remote, out);
}

SMOLTCP_INLINE int64_t smoltcp_host_counters(const struct smoltcp_host *host, struct smoltcp_counters *out) {
    struct smoltcp_host_handle h = {SMOLTCP_AT(host)};
    if (!host || !out) return SMOLTCP_ERROR_NULL;
    return smoltcp_host_counters_nonnull(&h, out);
}

SMOLTCP_INLINE int64_t smoltcp_host_ended(const struct smoltcp_host *host, size_t from, size_t *out) {
    struct smoltcp_host_handle h = {SMOLTCP_AT(host)};
    if (!host || !out) return SMOLTCP_ERROR_NULL;
    return smoltcp_host_ended_nonnull(&h, from, out);
}

SMOLTCP_INLINE int64_t smoltcp_host_join(struct smoltcp_host *host, const struct smoltcp_address *group) {
    struct smoltcp_host_handle h = {SMOLTCP_AT(host)};
    if (!host || !group) return SMOLTCP_ERROR_NULL;
    return smoltcp_host_join_nonnull(&h, group);
}

SMOLTCP_INLINE int64_t smoltcp_host_leave(struct smoltcp_host *host, const struct smoltcp_address *group) {
    struct smoltcp_host_handle h = {SMOLTCP_AT(host)};
    if (!host || !group) return SMOLTCP_ERROR_NULL;
    return smoltcp_host_leave_nonnull(&h, group);
}

SMOLTCP_INLINE int64_t smoltcp_host_opened(const struct smoltcp_host *host, const struct smoltcp_socket_id *id,
                                           uint64_t *out) {
    struct smoltcp_host_handle h = {SMOLTCP_AT(host)};
    if (!host || !id || !out) return SMOLTCP_ERROR_NULL;
    return smoltcp_host_opened_nonnull(&h, id, out);
}

SMOLTCP_INLINE int64_t smoltcp_host_receive(struct smoltcp_host *host, int64_t now, const uint8_t *packet, size_t len,
                                            uint8_t *reply, size_t cap) {
    struct smoltcp_host_handle h = {SMOLTCP_AT(host)};
    if (!host) return SMOLTCP_ERROR_NULL;
    if (!packet) {
        if (len) return SMOLTCP_ERROR_NULL;
        packet = SMOLTCP_NONE(const uint8_t);
    }
    if (!reply) {
        if (cap) return SMOLTCP_ERROR_NULL;
        reply = SMOLTCP_NONE(uint8_t);
    }
    return smoltcp_host_receive_nonnull(&h, now, packet, len, reply, cap);
}

SMOLTCP_INLINE int64_t smoltcp_host_remove_icmp(struct smoltcp_host *host, const struct smoltcp_socket_id *id,
                                                struct smoltcp_icmp *s) {
    struct smoltcp_host_handle h = {SMOLTCP_AT(host)};
    struct smoltcp_icmp_handle room = {SMOLTCP_AT(s)};
    if (!host || !id || !s) return SMOLTCP_ERROR_NULL;
    return smoltcp_host_remove_icmp_nonnull(&h, id, &room);
}

SMOLTCP_INLINE int64_t smoltcp_host_remove_raw(struct smoltcp_host *host, const struct smoltcp_socket_id *id,
                                               struct smoltcp_raw *s) {
    struct smoltcp_host_handle h = {SMOLTCP_AT(host)};
    struct smoltcp_raw_handle room = {SMOLTCP_AT(s)};
    if (!host || !id || !s) return SMOLTCP_ERROR_NULL;
    return smoltcp_host_remove_raw_nonnull(&h, id, &room);
}

SMOLTCP_INLINE int64_t smoltcp_host_remove_tcp(struct smoltcp_host *host, const struct smoltcp_socket_id *id,
                                               struct smoltcp_tcp *s) {
    struct smoltcp_host_handle h = {SMOLTCP_AT(host)};
    struct smoltcp_tcp_handle room = {SMOLTCP_AT(s)};
    if (!host || !id || !s) return SMOLTCP_ERROR_NULL;
    return smoltcp_host_remove_tcp_nonnull(&h, id, &room);
}

SMOLTCP_INLINE int64_t smoltcp_host_remove_udp(struct smoltcp_host *host, const struct smoltcp_socket_id *id,
                                               struct smoltcp_udp *s) {
    struct smoltcp_host_handle h = {SMOLTCP_AT(host)};
    struct smoltcp_udp_handle room = {SMOLTCP_AT(s)};
    if (!host || !id || !s) return SMOLTCP_ERROR_NULL;
    return smoltcp_host_remove_udp_nonnull(&h, id, &room);
}

SMOLTCP_INLINE int64_t smoltcp_host_set_addresses(struct smoltcp_host *host, const struct smoltcp_cidr *addresses,
                                                  size_t count) {
    struct smoltcp_host_handle h = {SMOLTCP_AT(host)};
    if (!host) return SMOLTCP_ERROR_NULL;
    if (!addresses) {
        if (count) return SMOLTCP_ERROR_NULL;
        addresses = SMOLTCP_NONE(const struct smoltcp_cidr);
    }
    return smoltcp_host_set_addresses_nonnull(&h, addresses, count);
}

SMOLTCP_INLINE int64_t smoltcp_host_set_answer_key(struct smoltcp_host *host, uint64_t key) {
    struct smoltcp_host_handle h = {SMOLTCP_AT(host)};
    if (!host) return SMOLTCP_ERROR_NULL;
    return smoltcp_host_set_answer_key_nonnull(&h, key);
}

SMOLTCP_INLINE int64_t smoltcp_host_set_guards(struct smoltcp_host *host, const struct smoltcp_guards *guards) {
    struct smoltcp_host_handle h = {SMOLTCP_AT(host)};
    if (!host || !guards) return SMOLTCP_ERROR_NULL;
    return smoltcp_host_set_guards_nonnull(&h, guards);
}

SMOLTCP_INLINE int64_t smoltcp_host_set_most_of_source(struct smoltcp_host *host, size_t most) {
    struct smoltcp_host_handle h = {SMOLTCP_AT(host)};
    if (!host) return SMOLTCP_ERROR_NULL;
    return smoltcp_host_set_most_of_source_nonnull(&h, most);
}

SMOLTCP_INLINE int64_t smoltcp_host_set_mtu(struct smoltcp_host *host, size_t mtu) {
    struct smoltcp_host_handle h = {SMOLTCP_AT(host)};
    if (!host) return SMOLTCP_ERROR_NULL;
    return smoltcp_host_set_mtu_nonnull(&h, mtu);
}

SMOLTCP_INLINE int64_t smoltcp_host_set_syn_cookies(struct smoltcp_host *host, const struct smoltcp_key *key,
                                                    size_t kept_from) {
    struct smoltcp_host_handle h = {SMOLTCP_AT(host)};
    if (!host || !key) return SMOLTCP_ERROR_NULL;
    return smoltcp_host_set_syn_cookies_nonnull(&h, key, kept_from);
}

SMOLTCP_INLINE int64_t smoltcp_host_stop_syn_cookies(struct smoltcp_host *host) {
    struct smoltcp_host_handle h = {SMOLTCP_AT(host)};
    if (!host) return SMOLTCP_ERROR_NULL;
    return smoltcp_host_stop_syn_cookies_nonnull(&h);
}

SMOLTCP_INLINE int64_t smoltcp_host_touched(const struct smoltcp_host *host, size_t from, size_t *out) {
    struct smoltcp_host_handle h = {SMOLTCP_AT(host)};
    if (!host || !out) return SMOLTCP_ERROR_NULL;
    return smoltcp_host_touched_nonnull(&h, from, out);
}
