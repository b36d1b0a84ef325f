/* Bodies of the calls of smoltcp_socket.h that only hand on.
 * Made by c/abi from crates/smoltcp_c; not to be changed by hand. */

SMOLTCP_INLINE int64_t smoltcp_tcp_abort(struct smoltcp_tcp *s) {
    struct smoltcp_tcp_handle h = {SMOLTCP_AT(s)};
    if (!s) return SMOLTCP_ERROR_NULL;
    return smoltcp_tcp_abort_nonnull(&h);
}

SMOLTCP_INLINE int64_t smoltcp_tcp_ask(const struct smoltcp_tcp *s, uint32_t what) {
    struct smoltcp_tcp_handle h = {SMOLTCP_AT(s)};
    if (!s) return SMOLTCP_ERROR_NULL;
    return smoltcp_tcp_ask_nonnull(&h, what);
}

SMOLTCP_INLINE int64_t smoltcp_tcp_can_recv(const struct smoltcp_tcp *s) {
    struct smoltcp_tcp_handle h = {SMOLTCP_AT(s)};
    if (!s) return SMOLTCP_ERROR_NULL;
    return smoltcp_tcp_can_recv_nonnull(&h);
}

SMOLTCP_INLINE int64_t smoltcp_tcp_can_send(const struct smoltcp_tcp *s) {
    struct smoltcp_tcp_handle h = {SMOLTCP_AT(s)};
    if (!s) return SMOLTCP_ERROR_NULL;
    return smoltcp_tcp_can_send_nonnull(&h);
}

SMOLTCP_INLINE int64_t smoltcp_tcp_close(struct smoltcp_tcp *s) {
    struct smoltcp_tcp_handle h = {SMOLTCP_AT(s)};
    if (!s) return SMOLTCP_ERROR_NULL;
    return smoltcp_tcp_close_nonnull(&h);
}

SMOLTCP_INLINE int64_t smoltcp_tcp_commit(struct smoltcp_tcp *s, size_t count) {
    struct smoltcp_tcp_handle h = {SMOLTCP_AT(s)};
    if (!s) return SMOLTCP_ERROR_NULL;
    return smoltcp_tcp_commit_nonnull(&h, count);
}

SMOLTCP_INLINE int64_t smoltcp_tcp_connect(struct smoltcp_tcp *s, const struct smoltcp_context *cx,
                                           const struct smoltcp_endpoint *remote,
                                           const struct smoltcp_endpoint *local) {
    struct smoltcp_tcp_handle h = {SMOLTCP_AT(s)};
    if (!s || !cx || !remote || !local) return SMOLTCP_ERROR_NULL;
    return smoltcp_tcp_connect_nonnull(&h, cx, remote, local);
}

SMOLTCP_INLINE int64_t smoltcp_tcp_consume(struct smoltcp_tcp *s, size_t count) {
    struct smoltcp_tcp_handle h = {SMOLTCP_AT(s)};
    if (!s) return SMOLTCP_ERROR_NULL;
    return smoltcp_tcp_consume_nonnull(&h, count);
}

SMOLTCP_INLINE int64_t smoltcp_tcp_dispatch(struct smoltcp_tcp *s, const struct smoltcp_context *cx, uint8_t *out,
                                            size_t cap) {
    if (!s || !cx) return SMOLTCP_ERROR_NULL;
    if (!out) {
        if (cap) return SMOLTCP_ERROR_NULL;
        out = SMOLTCP_NONE(uint8_t);
    }
    return smoltcp_tcp_dispatch_nonnull(SMOLTCP_AT(s), cx, out, cap);
}

SMOLTCP_INLINE int64_t smoltcp_tcp_ended(const struct smoltcp_tcp *s) {
    struct smoltcp_tcp_handle h = {SMOLTCP_AT(s)};
    if (!s) return SMOLTCP_ERROR_NULL;
    return smoltcp_tcp_ended_nonnull(&h);
}

SMOLTCP_INLINE int64_t smoltcp_tcp_explain(const struct smoltcp_tcp *s, const struct smoltcp_context *cx,
                                           const uint8_t *packet, size_t len) {
    struct smoltcp_tcp_handle h = {SMOLTCP_AT(s)};
    if (!s || !cx) return SMOLTCP_ERROR_NULL;
    if (!packet) {
        if (len) return SMOLTCP_ERROR_NULL;
        packet = SMOLTCP_NONE(const uint8_t);
    }
    return smoltcp_tcp_explain_nonnull(&h, cx, packet, len);
}

SMOLTCP_INLINE int64_t smoltcp_tcp_listen(struct smoltcp_tcp *s, const struct smoltcp_endpoint *endpoint) {
    struct smoltcp_tcp_handle h = {SMOLTCP_AT(s)};
    if (!s || !endpoint) return SMOLTCP_ERROR_NULL;
    return smoltcp_tcp_listen_nonnull(&h, endpoint);
}

SMOLTCP_INLINE int64_t smoltcp_tcp_listen_endpoint(const struct smoltcp_tcp *s, struct smoltcp_endpoint *out) {
    struct smoltcp_tcp_handle h = {SMOLTCP_AT(s)};
    if (!s || !out) return SMOLTCP_ERROR_NULL;
    return smoltcp_tcp_listen_endpoint_nonnull(&h, out);
}

SMOLTCP_INLINE int64_t smoltcp_tcp_local_endpoint(const struct smoltcp_tcp *s, struct smoltcp_endpoint *out) {
    struct smoltcp_tcp_handle h = {SMOLTCP_AT(s)};
    if (!s || !out) return SMOLTCP_ERROR_NULL;
    return smoltcp_tcp_local_endpoint_nonnull(&h, out);
}

SMOLTCP_INLINE int64_t smoltcp_tcp_may_send(const struct smoltcp_tcp *s) {
    struct smoltcp_tcp_handle h = {SMOLTCP_AT(s)};
    if (!s) return SMOLTCP_ERROR_NULL;
    return smoltcp_tcp_may_send_nonnull(&h);
}

SMOLTCP_INLINE int64_t smoltcp_tcp_negotiated(const struct smoltcp_tcp *s, struct smoltcp_negotiated *out) {
    struct smoltcp_tcp_handle h = {SMOLTCP_AT(s)};
    if (!s || !out) return SMOLTCP_ERROR_NULL;
    return smoltcp_tcp_negotiated_nonnull(&h, out);
}

SMOLTCP_INLINE int64_t smoltcp_tcp_pause_synack(struct smoltcp_tcp *s, uint8_t pause) {
    struct smoltcp_tcp_handle h = {SMOLTCP_AT(s)};
    if (!s) return SMOLTCP_ERROR_NULL;
    return smoltcp_tcp_pause_synack_nonnull(&h, pause);
}

SMOLTCP_INLINE int64_t smoltcp_tcp_peek_slice(const struct smoltcp_tcp *s, uint8_t *data, size_t cap) {
    struct smoltcp_tcp_handle h = {SMOLTCP_AT(s)};
    if (!s) return SMOLTCP_ERROR_NULL;
    if (!data) {
        if (cap) return SMOLTCP_ERROR_NULL;
        data = SMOLTCP_NONE(uint8_t);
    }
    return smoltcp_tcp_peek_slice_nonnull(&h, data, cap);
}

SMOLTCP_INLINE int64_t smoltcp_tcp_process(struct smoltcp_tcp *s, const struct smoltcp_context *cx,
                                           const uint8_t *packet, size_t len, uint8_t *reply, size_t cap) {
    struct smoltcp_tcp_handle h = {SMOLTCP_AT(s)};
    if (!s || !cx) return SMOLTCP_ERROR_NULL;
    if (!packet) {
        if (len) return SMOLTCP_ERROR_NULL;
        packet = SMOLTCP_NONE(const uint8_t);
    }
    if (!reply) {
        if (cap) return SMOLTCP_ERROR_NULL;
        reply = SMOLTCP_NONE(uint8_t);
    }
    return smoltcp_tcp_process_nonnull(&h, cx, packet, len, reply, cap);
}

SMOLTCP_INLINE int64_t smoltcp_tcp_recv(struct smoltcp_tcp *s, uint8_t *data, size_t cap) {
    struct smoltcp_tcp_handle h = {SMOLTCP_AT(s)};
    if (!s) return SMOLTCP_ERROR_NULL;
    if (!data) {
        if (cap) return SMOLTCP_ERROR_NULL;
        data = SMOLTCP_NONE(uint8_t);
    }
    return smoltcp_tcp_recv_nonnull(&h, data, cap);
}

SMOLTCP_INLINE int64_t smoltcp_tcp_remote_endpoint(const struct smoltcp_tcp *s, struct smoltcp_endpoint *out) {
    struct smoltcp_tcp_handle h = {SMOLTCP_AT(s)};
    if (!s || !out) return SMOLTCP_ERROR_NULL;
    return smoltcp_tcp_remote_endpoint_nonnull(&h, out);
}

SMOLTCP_INLINE int64_t smoltcp_tcp_reset(const uint8_t *packet, size_t len, uint8_t *reply, size_t cap) {
    if (!packet) {
        if (len) return SMOLTCP_ERROR_NULL;
        packet = SMOLTCP_NONE(const uint8_t);
    }
    if (!reply) {
        if (cap) return SMOLTCP_ERROR_NULL;
        reply = SMOLTCP_NONE(uint8_t);
    }
    return smoltcp_tcp_reset_nonnull(packet, len, reply, cap);
}

SMOLTCP_INLINE int64_t smoltcp_tcp_send(struct smoltcp_tcp *s, const uint8_t *data, size_t len) {
    struct smoltcp_tcp_handle h = {SMOLTCP_AT(s)};
    if (!s) return SMOLTCP_ERROR_NULL;
    if (!data) {
        if (len) return SMOLTCP_ERROR_NULL;
        data = SMOLTCP_NONE(const uint8_t);
    }
    return smoltcp_tcp_send_nonnull(&h, data, len);
}

SMOLTCP_INLINE int64_t smoltcp_tcp_set_ack_delay(struct smoltcp_tcp *s, int64_t micros) {
    struct smoltcp_tcp_handle h = {SMOLTCP_AT(s)};
    if (!s) return SMOLTCP_ERROR_NULL;
    return smoltcp_tcp_set_ack_delay_nonnull(&h, micros);
}

SMOLTCP_INLINE int64_t smoltcp_tcp_set_congestion_control(struct smoltcp_tcp *s, uint32_t kind) {
    struct smoltcp_tcp_handle h = {SMOLTCP_AT(s)};
    if (!s) return SMOLTCP_ERROR_NULL;
    return smoltcp_tcp_set_congestion_control_nonnull(&h, kind);
}

SMOLTCP_INLINE int64_t smoltcp_tcp_set_hop_limit(struct smoltcp_tcp *s, uint8_t hop_limit) {
    struct smoltcp_tcp_handle h = {SMOLTCP_AT(s)};
    if (!s) return SMOLTCP_ERROR_NULL;
    return smoltcp_tcp_set_hop_limit_nonnull(&h, hop_limit);
}

SMOLTCP_INLINE int64_t smoltcp_tcp_set_keep_alive(struct smoltcp_tcp *s, int64_t micros) {
    struct smoltcp_tcp_handle h = {SMOLTCP_AT(s)};
    if (!s) return SMOLTCP_ERROR_NULL;
    return smoltcp_tcp_set_keep_alive_nonnull(&h, micros);
}

SMOLTCP_INLINE int64_t smoltcp_tcp_set_min_rto(struct smoltcp_tcp *s, int64_t micros) {
    struct smoltcp_tcp_handle h = {SMOLTCP_AT(s)};
    if (!s) return SMOLTCP_ERROR_NULL;
    return smoltcp_tcp_set_min_rto_nonnull(&h, micros);
}

SMOLTCP_INLINE int64_t smoltcp_tcp_set_nagle_enabled(struct smoltcp_tcp *s, uint8_t enabled) {
    struct smoltcp_tcp_handle h = {SMOLTCP_AT(s)};
    if (!s) return SMOLTCP_ERROR_NULL;
    return smoltcp_tcp_set_nagle_enabled_nonnull(&h, enabled);
}

SMOLTCP_INLINE int64_t smoltcp_tcp_set_path_mtu(struct smoltcp_tcp *s, const struct smoltcp_context *cx, uint32_t mtu) {
    struct smoltcp_tcp_handle h = {SMOLTCP_AT(s)};
    if (!s || !cx) return SMOLTCP_ERROR_NULL;
    return smoltcp_tcp_set_path_mtu_nonnull(&h, cx, mtu);
}

SMOLTCP_INLINE int64_t smoltcp_tcp_set_rules(struct smoltcp_tcp *s, uint32_t rules) {
    struct smoltcp_tcp_handle h = {SMOLTCP_AT(s)};
    if (!s) return SMOLTCP_ERROR_NULL;
    return smoltcp_tcp_set_rules_nonnull(&h, rules);
}

SMOLTCP_INLINE int64_t smoltcp_tcp_set_timeout(struct smoltcp_tcp *s, int64_t micros) {
    struct smoltcp_tcp_handle h = {SMOLTCP_AT(s)};
    if (!s) return SMOLTCP_ERROR_NULL;
    return smoltcp_tcp_set_timeout_nonnull(&h, micros);
}

SMOLTCP_INLINE int64_t smoltcp_tcp_set_timestamps(struct smoltcp_tcp *s, uint8_t enabled) {
    struct smoltcp_tcp_handle h = {SMOLTCP_AT(s)};
    if (!s) return SMOLTCP_ERROR_NULL;
    return smoltcp_tcp_set_timestamps_nonnull(&h, enabled);
}

SMOLTCP_INLINE int64_t smoltcp_tcp_set_tsval(struct smoltcp_tcp *s, uint32_t tsval) {
    struct smoltcp_tcp_handle h = {SMOLTCP_AT(s)};
    if (!s) return SMOLTCP_ERROR_NULL;
    return smoltcp_tcp_set_tsval_nonnull(&h, tsval);
}

SMOLTCP_INLINE int64_t smoltcp_tcp_state(const struct smoltcp_tcp *s) {
    struct smoltcp_tcp_handle h = {SMOLTCP_AT(s)};
    if (!s) return SMOLTCP_ERROR_NULL;
    return smoltcp_tcp_state_nonnull(&h);
}

SMOLTCP_INLINE int64_t smoltcp_udp_accepts(const struct smoltcp_udp *s, const struct smoltcp_context *cx,
                                           const uint8_t *packet, size_t len) {
    struct smoltcp_udp_handle h = {SMOLTCP_AT(s)};
    if (!s || !cx) return SMOLTCP_ERROR_NULL;
    if (!packet) {
        if (len) return SMOLTCP_ERROR_NULL;
        packet = SMOLTCP_NONE(const uint8_t);
    }
    return smoltcp_udp_accepts_nonnull(&h, cx, packet, len);
}

SMOLTCP_INLINE int64_t smoltcp_udp_ask(const struct smoltcp_udp *s, uint32_t what) {
    struct smoltcp_udp_handle h = {SMOLTCP_AT(s)};
    if (!s) return SMOLTCP_ERROR_NULL;
    return smoltcp_udp_ask_nonnull(&h, what);
}

SMOLTCP_INLINE int64_t smoltcp_udp_bind(struct smoltcp_udp *s, const struct smoltcp_endpoint *endpoint) {
    struct smoltcp_udp_handle h = {SMOLTCP_AT(s)};
    if (!s || !endpoint) return SMOLTCP_ERROR_NULL;
    return smoltcp_udp_bind_nonnull(&h, endpoint);
}

SMOLTCP_INLINE int64_t smoltcp_udp_close(struct smoltcp_udp *s) {
    struct smoltcp_udp_handle h = {SMOLTCP_AT(s)};
    if (!s) return SMOLTCP_ERROR_NULL;
    return smoltcp_udp_close_nonnull(&h);
}

SMOLTCP_INLINE int64_t smoltcp_udp_dispatch(struct smoltcp_udp *s, const struct smoltcp_context *cx, uint8_t *out,
                                            size_t cap) {
    struct smoltcp_udp_handle h = {SMOLTCP_AT(s)};
    if (!s || !cx) return SMOLTCP_ERROR_NULL;
    if (!out) {
        if (cap) return SMOLTCP_ERROR_NULL;
        out = SMOLTCP_NONE(uint8_t);
    }
    return smoltcp_udp_dispatch_nonnull(&h, cx, out, cap);
}

SMOLTCP_INLINE int64_t smoltcp_udp_endpoint(const struct smoltcp_udp *s, struct smoltcp_endpoint *out) {
    struct smoltcp_udp_handle h = {SMOLTCP_AT(s)};
    if (!s || !out) return SMOLTCP_ERROR_NULL;
    return smoltcp_udp_endpoint_nonnull(&h, out);
}

SMOLTCP_INLINE int64_t smoltcp_udp_peek(struct smoltcp_udp *s, struct smoltcp_udp_metadata *meta, uint8_t *data,
                                        size_t cap) {
    struct smoltcp_udp_handle h = {SMOLTCP_AT(s)};
    if (!s || !meta) return SMOLTCP_ERROR_NULL;
    if (!data) {
        if (cap) return SMOLTCP_ERROR_NULL;
        data = SMOLTCP_NONE(uint8_t);
    }
    return smoltcp_udp_peek_nonnull(&h, meta, data, cap);
}

SMOLTCP_INLINE int64_t smoltcp_udp_process(struct smoltcp_udp *s, const struct smoltcp_context *cx,
                                           const uint8_t *packet, size_t len) {
    struct smoltcp_udp_handle h = {SMOLTCP_AT(s)};
    if (!s || !cx) return SMOLTCP_ERROR_NULL;
    if (!packet) {
        if (len) return SMOLTCP_ERROR_NULL;
        packet = SMOLTCP_NONE(const uint8_t);
    }
    return smoltcp_udp_process_nonnull(&h, cx, packet, len);
}

SMOLTCP_INLINE int64_t smoltcp_udp_recv(struct smoltcp_udp *s, struct smoltcp_udp_metadata *meta, uint8_t *data,
                                        size_t cap) {
    struct smoltcp_udp_handle h = {SMOLTCP_AT(s)};
    if (!s || !meta) return SMOLTCP_ERROR_NULL;
    if (!data) {
        if (cap) return SMOLTCP_ERROR_NULL;
        data = SMOLTCP_NONE(uint8_t);
    }
    return smoltcp_udp_recv_nonnull(&h, meta, data, cap);
}

SMOLTCP_INLINE int64_t smoltcp_udp_send(struct smoltcp_udp *s, const struct smoltcp_udp_metadata *meta,
                                        const uint8_t *data, size_t len) {
    struct smoltcp_udp_handle h = {SMOLTCP_AT(s)};
    if (!s || !meta) return SMOLTCP_ERROR_NULL;
    if (!data) {
        if (len) return SMOLTCP_ERROR_NULL;
        data = SMOLTCP_NONE(const uint8_t);
    }
    return smoltcp_udp_send_nonnull(&h, meta, data, len);
}

SMOLTCP_INLINE int64_t smoltcp_udp_set_hop_limit(struct smoltcp_udp *s, uint8_t hop_limit) {
    struct smoltcp_udp_handle h = {SMOLTCP_AT(s)};
    if (!s) return SMOLTCP_ERROR_NULL;
    return smoltcp_udp_set_hop_limit_nonnull(&h, hop_limit);
}

SMOLTCP_INLINE int64_t smoltcp_raw_accepts(const struct smoltcp_raw *s, const uint8_t *packet, size_t len) {
    struct smoltcp_raw_handle h = {SMOLTCP_AT(s)};
    if (!s) return SMOLTCP_ERROR_NULL;
    if (!packet) {
        if (len) return SMOLTCP_ERROR_NULL;
        packet = SMOLTCP_NONE(const uint8_t);
    }
    return smoltcp_raw_accepts_nonnull(&h, packet, len);
}

SMOLTCP_INLINE int64_t smoltcp_raw_ask(const struct smoltcp_raw *s, uint32_t what) {
    struct smoltcp_raw_handle h = {SMOLTCP_AT(s)};
    if (!s) return SMOLTCP_ERROR_NULL;
    return smoltcp_raw_ask_nonnull(&h, what);
}

SMOLTCP_INLINE int64_t smoltcp_raw_dispatch(struct smoltcp_raw *s, const struct smoltcp_context *cx, uint8_t *out,
                                            size_t cap) {
    struct smoltcp_raw_handle h = {SMOLTCP_AT(s)};
    if (!s || !cx) return SMOLTCP_ERROR_NULL;
    if (!out) {
        if (cap) return SMOLTCP_ERROR_NULL;
        out = SMOLTCP_NONE(uint8_t);
    }
    return smoltcp_raw_dispatch_nonnull(&h, cx, out, cap);
}

SMOLTCP_INLINE int64_t smoltcp_raw_peek(struct smoltcp_raw *s, uint8_t *data, size_t cap) {
    struct smoltcp_raw_handle h = {SMOLTCP_AT(s)};
    if (!s) return SMOLTCP_ERROR_NULL;
    if (!data) {
        if (cap) return SMOLTCP_ERROR_NULL;
        data = SMOLTCP_NONE(uint8_t);
    }
    return smoltcp_raw_peek_nonnull(&h, data, cap);
}

SMOLTCP_INLINE int64_t smoltcp_raw_process(struct smoltcp_raw *s, const struct smoltcp_context *cx,
                                           const uint8_t *packet, size_t len) {
    struct smoltcp_raw_handle h = {SMOLTCP_AT(s)};
    if (!s || !cx) return SMOLTCP_ERROR_NULL;
    if (!packet) {
        if (len) return SMOLTCP_ERROR_NULL;
        packet = SMOLTCP_NONE(const uint8_t);
    }
    return smoltcp_raw_process_nonnull(&h, cx, packet, len);
}

SMOLTCP_INLINE int64_t smoltcp_raw_recv(struct smoltcp_raw *s, uint8_t *data, size_t cap) {
    struct smoltcp_raw_handle h = {SMOLTCP_AT(s)};
    if (!s) return SMOLTCP_ERROR_NULL;
    if (!data) {
        if (cap) return SMOLTCP_ERROR_NULL;
        data = SMOLTCP_NONE(uint8_t);
    }
    return smoltcp_raw_recv_nonnull(&h, data, cap);
}

SMOLTCP_INLINE int64_t smoltcp_raw_send(struct smoltcp_raw *s, const uint8_t *data, size_t len) {
    struct smoltcp_raw_handle h = {SMOLTCP_AT(s)};
    if (!s) return SMOLTCP_ERROR_NULL;
    if (!data) {
        if (len) return SMOLTCP_ERROR_NULL;
        data = SMOLTCP_NONE(const uint8_t);
    }
    return smoltcp_raw_send_nonnull(&h, data, len);
}

SMOLTCP_INLINE int64_t smoltcp_icmp_accepts(const struct smoltcp_icmp *s, const struct smoltcp_context *cx,
                                            const uint8_t *packet, size_t len) {
    struct smoltcp_icmp_handle h = {SMOLTCP_AT(s)};
    if (!s || !cx) return SMOLTCP_ERROR_NULL;
    if (!packet) {
        if (len) return SMOLTCP_ERROR_NULL;
        packet = SMOLTCP_NONE(const uint8_t);
    }
    return smoltcp_icmp_accepts_nonnull(&h, cx, packet, len);
}

SMOLTCP_INLINE int64_t smoltcp_icmp_ask(const struct smoltcp_icmp *s, uint32_t what) {
    struct smoltcp_icmp_handle h = {SMOLTCP_AT(s)};
    if (!s) return SMOLTCP_ERROR_NULL;
    return smoltcp_icmp_ask_nonnull(&h, what);
}

SMOLTCP_INLINE int64_t smoltcp_icmp_bind(struct smoltcp_icmp *s, const struct smoltcp_icmp_endpoint *endpoint) {
    struct smoltcp_icmp_handle h = {SMOLTCP_AT(s)};
    if (!s || !endpoint) return SMOLTCP_ERROR_NULL;
    return smoltcp_icmp_bind_nonnull(&h, endpoint);
}

SMOLTCP_INLINE int64_t smoltcp_icmp_dispatch(struct smoltcp_icmp *s, const struct smoltcp_context *cx, uint8_t *out,
                                             size_t cap) {
    struct smoltcp_icmp_handle h = {SMOLTCP_AT(s)};
    if (!s || !cx) return SMOLTCP_ERROR_NULL;
    if (!out) {
        if (cap) return SMOLTCP_ERROR_NULL;
        out = SMOLTCP_NONE(uint8_t);
    }
    return smoltcp_icmp_dispatch_nonnull(&h, cx, out, cap);
}

SMOLTCP_INLINE int64_t smoltcp_icmp_process(struct smoltcp_icmp *s, const struct smoltcp_context *cx,
                                            const uint8_t *packet, size_t len) {
    struct smoltcp_icmp_handle h = {SMOLTCP_AT(s)};
    if (!s || !cx) return SMOLTCP_ERROR_NULL;
    if (!packet) {
        if (len) return SMOLTCP_ERROR_NULL;
        packet = SMOLTCP_NONE(const uint8_t);
    }
    return smoltcp_icmp_process_nonnull(&h, cx, packet, len);
}

SMOLTCP_INLINE int64_t smoltcp_icmp_recv(struct smoltcp_icmp *s, struct smoltcp_address *remote, uint8_t *data,
                                         size_t cap) {
    struct smoltcp_icmp_handle h = {SMOLTCP_AT(s)};
    if (!s || !remote) return SMOLTCP_ERROR_NULL;
    if (!data) {
        if (cap) return SMOLTCP_ERROR_NULL;
        data = SMOLTCP_NONE(uint8_t);
    }
    return smoltcp_icmp_recv_nonnull(&h, remote, data, cap);
}

SMOLTCP_INLINE int64_t smoltcp_icmp_send(struct smoltcp_icmp *s, const struct smoltcp_address *remote,
                                         const uint8_t *data, size_t len) {
    struct smoltcp_icmp_handle h = {SMOLTCP_AT(s)};
    if (!s || !remote) return SMOLTCP_ERROR_NULL;
    if (!data) {
        if (len) return SMOLTCP_ERROR_NULL;
        data = SMOLTCP_NONE(const uint8_t);
    }
    return smoltcp_icmp_send_nonnull(&h, remote, data, len);
}

SMOLTCP_INLINE int64_t smoltcp_icmp_set_hop_limit(struct smoltcp_icmp *s, uint8_t hop_limit) {
    struct smoltcp_icmp_handle h = {SMOLTCP_AT(s)};
    if (!s) return SMOLTCP_ERROR_NULL;
    return smoltcp_icmp_set_hop_limit_nonnull(&h, hop_limit);
}

SMOLTCP_INLINE int64_t smoltcp_tcp_is_listening(const struct smoltcp_tcp *s) {
    return smoltcp_tcp_ask(s, SMOLTCP_ASK_IS_LISTENING);
}

SMOLTCP_INLINE int64_t smoltcp_tcp_is_open(const struct smoltcp_tcp *s) {
    return smoltcp_tcp_ask(s, SMOLTCP_ASK_IS_OPEN);
}

SMOLTCP_INLINE int64_t smoltcp_tcp_is_active(const struct smoltcp_tcp *s) {
    return smoltcp_tcp_ask(s, SMOLTCP_ASK_IS_ACTIVE);
}

SMOLTCP_INLINE int64_t smoltcp_tcp_has_work(const struct smoltcp_tcp *s) {
    return smoltcp_tcp_ask(s, SMOLTCP_ASK_HAS_WORK);
}

SMOLTCP_INLINE int64_t smoltcp_tcp_may_recv(const struct smoltcp_tcp *s) {
    return smoltcp_tcp_ask(s, SMOLTCP_ASK_MAY_RECV);
}

SMOLTCP_INLINE int64_t smoltcp_tcp_send_queue(const struct smoltcp_tcp *s) {
    return smoltcp_tcp_ask(s, SMOLTCP_ASK_SEND_QUEUE);
}

SMOLTCP_INLINE int64_t smoltcp_tcp_recv_queue(const struct smoltcp_tcp *s) {
    return smoltcp_tcp_ask(s, SMOLTCP_ASK_RECV_QUEUE);
}

SMOLTCP_INLINE int64_t smoltcp_tcp_send_capacity(const struct smoltcp_tcp *s) {
    return smoltcp_tcp_ask(s, SMOLTCP_ASK_SEND_CAPACITY);
}

SMOLTCP_INLINE int64_t smoltcp_tcp_recv_capacity(const struct smoltcp_tcp *s) {
    return smoltcp_tcp_ask(s, SMOLTCP_ASK_RECV_CAPACITY);
}

SMOLTCP_INLINE int64_t smoltcp_tcp_timeout(const struct smoltcp_tcp *s) {
    return smoltcp_tcp_ask(s, SMOLTCP_ASK_TIMEOUT);
}

SMOLTCP_INLINE int64_t smoltcp_tcp_min_rto(const struct smoltcp_tcp *s) {
    return smoltcp_tcp_ask(s, SMOLTCP_ASK_MIN_RTO);
}

SMOLTCP_INLINE int64_t smoltcp_tcp_keep_alive(const struct smoltcp_tcp *s) {
    return smoltcp_tcp_ask(s, SMOLTCP_ASK_KEEP_ALIVE);
}

SMOLTCP_INLINE int64_t smoltcp_tcp_ack_delay(const struct smoltcp_tcp *s) {
    return smoltcp_tcp_ask(s, SMOLTCP_ASK_ACK_DELAY);
}

SMOLTCP_INLINE int64_t smoltcp_tcp_nagle_enabled(const struct smoltcp_tcp *s) {
    return smoltcp_tcp_ask(s, SMOLTCP_ASK_NAGLE_ENABLED);
}

SMOLTCP_INLINE int64_t smoltcp_tcp_hop_limit(const struct smoltcp_tcp *s) {
    return smoltcp_tcp_ask(s, SMOLTCP_ASK_HOP_LIMIT);
}

SMOLTCP_INLINE int64_t smoltcp_tcp_congestion_control(const struct smoltcp_tcp *s) {
    return smoltcp_tcp_ask(s, SMOLTCP_ASK_CONGESTION_CONTROL);
}

SMOLTCP_INLINE int64_t smoltcp_tcp_rules(const struct smoltcp_tcp *s) {
    return smoltcp_tcp_ask(s, SMOLTCP_ASK_RULES);
}

SMOLTCP_INLINE int64_t smoltcp_tcp_timestamp_enabled(const struct smoltcp_tcp *s) {
    return smoltcp_tcp_ask(s, SMOLTCP_ASK_TIMESTAMP_ENABLED);
}

SMOLTCP_INLINE int64_t smoltcp_udp_is_open(const struct smoltcp_udp *s) {
    return smoltcp_udp_ask(s, SMOLTCP_ASK_IS_OPEN);
}

SMOLTCP_INLINE int64_t smoltcp_udp_can_send(const struct smoltcp_udp *s) {
    return smoltcp_udp_ask(s, SMOLTCP_ASK_CAN_SEND);
}

SMOLTCP_INLINE int64_t smoltcp_udp_can_recv(const struct smoltcp_udp *s) {
    return smoltcp_udp_ask(s, SMOLTCP_ASK_CAN_RECV);
}

SMOLTCP_INLINE int64_t smoltcp_udp_packet_send_capacity(const struct smoltcp_udp *s) {
    return smoltcp_udp_ask(s, SMOLTCP_ASK_PACKET_SEND_CAPACITY);
}

SMOLTCP_INLINE int64_t smoltcp_udp_packet_recv_capacity(const struct smoltcp_udp *s) {
    return smoltcp_udp_ask(s, SMOLTCP_ASK_PACKET_RECV_CAPACITY);
}

SMOLTCP_INLINE int64_t smoltcp_udp_payload_send_capacity(const struct smoltcp_udp *s) {
    return smoltcp_udp_ask(s, SMOLTCP_ASK_PAYLOAD_SEND_CAPACITY);
}

SMOLTCP_INLINE int64_t smoltcp_udp_payload_recv_capacity(const struct smoltcp_udp *s) {
    return smoltcp_udp_ask(s, SMOLTCP_ASK_PAYLOAD_RECV_CAPACITY);
}

SMOLTCP_INLINE int64_t smoltcp_udp_send_queue(const struct smoltcp_udp *s) {
    return smoltcp_udp_ask(s, SMOLTCP_ASK_SEND_QUEUE);
}

SMOLTCP_INLINE int64_t smoltcp_udp_recv_queue(const struct smoltcp_udp *s) {
    return smoltcp_udp_ask(s, SMOLTCP_ASK_RECV_QUEUE);
}

SMOLTCP_INLINE int64_t smoltcp_udp_hop_limit(const struct smoltcp_udp *s) {
    return smoltcp_udp_ask(s, SMOLTCP_ASK_HOP_LIMIT);
}

SMOLTCP_INLINE int64_t smoltcp_raw_ip_version(const struct smoltcp_raw *s) {
    return smoltcp_raw_ask(s, SMOLTCP_ASK_IP_VERSION);
}

SMOLTCP_INLINE int64_t smoltcp_raw_can_send(const struct smoltcp_raw *s) {
    return smoltcp_raw_ask(s, SMOLTCP_ASK_CAN_SEND);
}

SMOLTCP_INLINE int64_t smoltcp_raw_can_recv(const struct smoltcp_raw *s) {
    return smoltcp_raw_ask(s, SMOLTCP_ASK_CAN_RECV);
}

SMOLTCP_INLINE int64_t smoltcp_raw_packet_send_capacity(const struct smoltcp_raw *s) {
    return smoltcp_raw_ask(s, SMOLTCP_ASK_PACKET_SEND_CAPACITY);
}

SMOLTCP_INLINE int64_t smoltcp_raw_packet_recv_capacity(const struct smoltcp_raw *s) {
    return smoltcp_raw_ask(s, SMOLTCP_ASK_PACKET_RECV_CAPACITY);
}

SMOLTCP_INLINE int64_t smoltcp_raw_payload_send_capacity(const struct smoltcp_raw *s) {
    return smoltcp_raw_ask(s, SMOLTCP_ASK_PAYLOAD_SEND_CAPACITY);
}

SMOLTCP_INLINE int64_t smoltcp_raw_payload_recv_capacity(const struct smoltcp_raw *s) {
    return smoltcp_raw_ask(s, SMOLTCP_ASK_PAYLOAD_RECV_CAPACITY);
}

SMOLTCP_INLINE int64_t smoltcp_raw_send_queue(const struct smoltcp_raw *s) {
    return smoltcp_raw_ask(s, SMOLTCP_ASK_SEND_QUEUE);
}

SMOLTCP_INLINE int64_t smoltcp_raw_recv_queue(const struct smoltcp_raw *s) {
    return smoltcp_raw_ask(s, SMOLTCP_ASK_RECV_QUEUE);
}

SMOLTCP_INLINE int64_t smoltcp_icmp_is_open(const struct smoltcp_icmp *s) {
    return smoltcp_icmp_ask(s, SMOLTCP_ASK_IS_OPEN);
}

SMOLTCP_INLINE int64_t smoltcp_icmp_can_send(const struct smoltcp_icmp *s) {
    return smoltcp_icmp_ask(s, SMOLTCP_ASK_CAN_SEND);
}

SMOLTCP_INLINE int64_t smoltcp_icmp_can_recv(const struct smoltcp_icmp *s) {
    return smoltcp_icmp_ask(s, SMOLTCP_ASK_CAN_RECV);
}

SMOLTCP_INLINE int64_t smoltcp_icmp_packet_send_capacity(const struct smoltcp_icmp *s) {
    return smoltcp_icmp_ask(s, SMOLTCP_ASK_PACKET_SEND_CAPACITY);
}

SMOLTCP_INLINE int64_t smoltcp_icmp_packet_recv_capacity(const struct smoltcp_icmp *s) {
    return smoltcp_icmp_ask(s, SMOLTCP_ASK_PACKET_RECV_CAPACITY);
}

SMOLTCP_INLINE int64_t smoltcp_icmp_payload_send_capacity(const struct smoltcp_icmp *s) {
    return smoltcp_icmp_ask(s, SMOLTCP_ASK_PAYLOAD_SEND_CAPACITY);
}

SMOLTCP_INLINE int64_t smoltcp_icmp_payload_recv_capacity(const struct smoltcp_icmp *s) {
    return smoltcp_icmp_ask(s, SMOLTCP_ASK_PAYLOAD_RECV_CAPACITY);
}

SMOLTCP_INLINE int64_t smoltcp_icmp_send_queue(const struct smoltcp_icmp *s) {
    return smoltcp_icmp_ask(s, SMOLTCP_ASK_SEND_QUEUE);
}

SMOLTCP_INLINE int64_t smoltcp_icmp_recv_queue(const struct smoltcp_icmp *s) {
    return smoltcp_icmp_ask(s, SMOLTCP_ASK_RECV_QUEUE);
}

SMOLTCP_INLINE int64_t smoltcp_icmp_hop_limit(const struct smoltcp_icmp *s) {
    return smoltcp_icmp_ask(s, SMOLTCP_ASK_HOP_LIMIT);
}
