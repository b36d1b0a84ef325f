/* Bodies of the calls of smoltcp_socket.h that do more than hand on. */

#include "smoltcp_marks.h"

SMOLTCP_INLINE struct smoltcp_address smoltcp_ipv4(uint8_t a, uint8_t b, uint8_t c, uint8_t d) {
    struct smoltcp_address addr = {4, {a, b, c, d}, {0}};
    return addr;
}

SMOLTCP_INLINE struct smoltcp_address smoltcp_ipv6(const uint8_t octets[16]) {
    struct smoltcp_address addr = {6, {0}, {0}};
    int i;
    for (i = 0; i < 16; i++) addr.v6[i] = octets[i];
    return addr;
}

SMOLTCP_INLINE const char *smoltcp_strerror(int64_t answer) {
    if (answer >= 0) return "done";
    switch (answer) {
    case SMOLTCP_ERROR_STATE: return "not in this state of the socket";
    case SMOLTCP_ERROR_ADDRESS: return "a port or an address is missing or of another version";
    case SMOLTCP_ERROR_FINISHED: return "the peer has closed, and all that it sent was read";
    case SMOLTCP_ERROR_VERSION: return "a header of another size of socket or host";
    case SMOLTCP_ERROR_CONTEXT: return "the context's moment or its MTU is out of range";
    case SMOLTCP_ERROR_ROOM: return "too little room for a packet";
    case SMOLTCP_ERROR_NULL: return "a pointer is null";
    case SMOLTCP_NOT_ACCEPTED: return "the packet is not for this socket";
    case SMOLTCP_ERROR_RANGE: return "a number is out of its range";
    case SMOLTCP_ERROR_EMPTY: return "no packet waits";
    case SMOLTCP_ERROR_MEMORY: return "the heap has too little memory";
    case SMOLTCP_ERROR_SOCKET: return "the host has no socket of this name and kind";
    case SMOLTCP_ERROR_IN_USE: return "another socket has the connection or the port, or no port is free";
    default: return "no answer of any call";
    }
}

SMOLTCP_INLINE const char *smoltcp_state_name(int64_t state) {
    switch (state) {
    case SMOLTCP_CLOSED: return "CLOSED";
    case SMOLTCP_LISTEN: return "LISTEN";
    case SMOLTCP_SYN_SENT: return "SYN-SENT";
    case SMOLTCP_SYN_RECEIVED: return "SYN-RECEIVED";
    case SMOLTCP_ESTABLISHED: return "ESTABLISHED";
    case SMOLTCP_FIN_WAIT_1: return "FIN-WAIT-1";
    case SMOLTCP_FIN_WAIT_2: return "FIN-WAIT-2";
    case SMOLTCP_CLOSE_WAIT: return "CLOSE-WAIT";
    case SMOLTCP_CLOSING: return "CLOSING";
    case SMOLTCP_LAST_ACK: return "LAST-ACK";
    case SMOLTCP_TIME_WAIT: return "TIME-WAIT";
    default: return "UNKNOWN";
    }
}

SMOLTCP_INLINE const char *smoltcp_end_name(int64_t end) {
    switch (end) {
    case SMOLTCP_END_NONE: return "not ended";
    case SMOLTCP_END_FINISHED: return "closed by both sides";
    case SMOLTCP_END_REFUSED: return "refused by the peer";
    case SMOLTCP_END_RESET: return "reset by the peer";
    case SMOLTCP_END_TIMED_OUT: return "timed out";
    case SMOLTCP_END_ABORTED: return "aborted";
    case SMOLTCP_END_ADDRESS: return "own address gone";
    default: return "unknown";
    }
}

SMOLTCP_INLINE const char *smoltcp_row_name(int64_t row) {
    switch (row) {
    case SMOLTCP_ROW_NOT_ACCEPTED: return "not for this socket";
    case SMOLTCP_ROW_NO_SYN: return "no SYN while one is awaited";
    case SMOLTCP_ROW_RESET_UNACCEPTABLE: return "RST without an acceptable ACK in SYN-SENT";
    case SMOLTCP_ROW_RESET_IN_TIME_WAIT: return "RST in TIME-WAIT";
    case SMOLTCP_ROW_RESET_OUTSIDE: return "RST outside of the receive window";
    case SMOLTCP_ROW_NO_ACK: return "no ACK";
    case SMOLTCP_ROW_OLD_ACK: return "ACK before SND.UNA";
    case SMOLTCP_ROW_ACK_UNACCEPTABLE: return "unacceptable ACK of the SYN";
    case SMOLTCP_ROW_ACK_UNSENT: return "ACK of what was never sent";
    case SMOLTCP_ROW_RESET_CHALLENGED: return "RST in the receive window, but not at RCV.NXT";
    case SMOLTCP_ROW_SYN_CHALLENGED: return "SYN in a synchronized state";
    case SMOLTCP_ROW_OLD_TIMESTAMP: return "timestamp before TS.Recent";
    case SMOLTCP_ROW_OLD_DUPLICATE: return "before the receive window";
    case SMOLTCP_ROW_BEYOND_WINDOW: return "beyond the receive window";
    case SMOLTCP_ROW_HEARD_OUTSIDE: return "outside of the receive window, but its ACK is heard";
    case SMOLTCP_ROW_OPENS: return "SYN that opens";
    case SMOLTCP_ROW_RESET: return "RST that counts";
    case SMOLTCP_ROW_IGNORED: return "nothing that the state takes";
    case SMOLTCP_ROW_FIN: return "FIN that counts";
    case SMOLTCP_ROW_IN_ORDER: return "bytes at RCV.NXT";
    case SMOLTCP_ROW_BEHIND_GAP: return "bytes behind a gap";
    case SMOLTCP_ROW_NOTHING_NEW: return "ACK of nothing new in LAST-ACK";
    case SMOLTCP_ROW_BARE_ACK: return "ACK without bytes";
    default: return "unknown";
    }
}

SMOLTCP_INLINE struct smoltcp_sizes smoltcp_library_sizes(void) {
    struct smoltcp_sizes sizes;
    smoltcp_sizes_nonnull(&sizes);
    return sizes;
}

SMOLTCP_INLINE size_t smoltcp_tcp_size(void) {
    return smoltcp_library_sizes().tcp;
}

SMOLTCP_INLINE size_t smoltcp_udp_size(void) {
    return smoltcp_library_sizes().udp;
}

SMOLTCP_INLINE size_t smoltcp_udp_place_size(void) {
    return smoltcp_library_sizes().udp_place;
}

SMOLTCP_INLINE size_t smoltcp_raw_size(void) {
    return smoltcp_library_sizes().raw;
}

SMOLTCP_INLINE size_t smoltcp_raw_place_size(void) {
    return smoltcp_library_sizes().raw_place;
}

SMOLTCP_INLINE size_t smoltcp_icmp_size(void) {
    return smoltcp_library_sizes().icmp;
}

SMOLTCP_INLINE size_t smoltcp_icmp_place_size(void) {
    return smoltcp_library_sizes().icmp_place;
}

SMOLTCP_INLINE int64_t smoltcp_tcp_init_sized(struct smoltcp_tcp *s, size_t size, uint8_t *rx, size_t rx_len,
                                              uint8_t *tx, size_t tx_len) {
    struct smoltcp_tcp_handle h = {SMOLTCP_AT(s)};
    struct smoltcp_bytes of_rx = {rx, rx_len}, of_tx = {tx, tx_len};
    if (!s || !rx || !tx) return SMOLTCP_ERROR_NULL;
    if (size != smoltcp_library_sizes().tcp) return SMOLTCP_ERROR_VERSION;
    if (rx_len > SMOLTCP_LONGEST_BUFFER || tx_len > SMOLTCP_LONGEST_BUFFER) return SMOLTCP_ERROR_RANGE;
    return smoltcp_tcp_init_nonnull(&h, of_rx, of_tx);
}

SMOLTCP_INLINE int64_t (smoltcp_tcp_init)(struct smoltcp_tcp *s, uint8_t *rx, size_t rx_len, uint8_t *tx,
                                          size_t tx_len) {
    return smoltcp_tcp_init_sized(s, sizeof *s, rx, rx_len, tx, tx_len);
}

SMOLTCP_INLINE int64_t smoltcp_tcp_peek(const struct smoltcp_tcp *s, size_t size, const uint8_t **at) {
    struct smoltcp_tcp_handle h = {SMOLTCP_AT(s)};
    struct smoltcp_place place = {NULL, 0};
    int64_t answer;
    if (!s || !at) return SMOLTCP_ERROR_NULL;
    answer = smoltcp_tcp_peek_nonnull(&h, size, &place);
    if (answer >= 0) *at = place.at;
    return answer;
}

SMOLTCP_INLINE int64_t smoltcp_tcp_reserve(struct smoltcp_tcp *s, uint8_t **at) {
    struct smoltcp_tcp_handle h = {SMOLTCP_AT(s)};
    struct smoltcp_place place = {NULL, 0};
    int64_t answer;
    if (!s || !at) return SMOLTCP_ERROR_NULL;
    answer = smoltcp_tcp_reserve_nonnull(&h, &place);
    if (answer >= 0) *at = SMOLTCP_AT(place.at);
    return answer;
}

SMOLTCP_INLINE int64_t smoltcp_tcp_poll_at(const struct smoltcp_tcp *s, const struct smoltcp_context *cx) {
    if (!s || !cx) return INT64_MIN;
    return smoltcp_tcp_poll_at_nonnull(SMOLTCP_AT(s), cx);
}

SMOLTCP_INLINE int64_t smoltcp_udp_init_sized(struct smoltcp_udp *s, size_t size, struct smoltcp_udp_buffer rx,
                                              struct smoltcp_udp_buffer tx) {
    struct smoltcp_places rx_places = {(uint8_t *)rx.places, rx.count}, tx_places = {(uint8_t *)tx.places, tx.count};
    struct smoltcp_bytes of_rx = {rx.bytes, rx.len}, of_tx = {tx.bytes, tx.len};
    struct smoltcp_udp_handle h = {SMOLTCP_AT(s)}, place;
    size_t i;
    if (!s || !rx.places || !rx.bytes || !tx.places || !tx.bytes) return SMOLTCP_ERROR_NULL;
    if (size != smoltcp_library_sizes().udp) return SMOLTCP_ERROR_VERSION;
    if (rx.count > SMOLTCP_LONGEST_BUFFER || rx.len > SMOLTCP_LONGEST_BUFFER) return SMOLTCP_ERROR_RANGE;
    if (tx.count > SMOLTCP_LONGEST_BUFFER || tx.len > SMOLTCP_LONGEST_BUFFER) return SMOLTCP_ERROR_RANGE;
    for (i = 0; i < rx.count; i++) {
        place.at = (uint8_t *)&rx.places[i];
        smoltcp_udp_place_nonnull(&place);
    }
    for (i = 0; i < tx.count; i++) {
        place.at = (uint8_t *)&tx.places[i];
        smoltcp_udp_place_nonnull(&place);
    }
    return smoltcp_udp_init_nonnull(rx_places, of_rx, tx_places, of_tx, &h);
}

SMOLTCP_INLINE int64_t (smoltcp_udp_init)(struct smoltcp_udp *s, struct smoltcp_udp_buffer rx,
                                          struct smoltcp_udp_buffer tx) {
    return smoltcp_udp_init_sized(s, sizeof *s, rx, tx);
}

SMOLTCP_INLINE int64_t smoltcp_udp_send_place(struct smoltcp_udp *s, const struct smoltcp_udp_metadata *meta,
                                              size_t size, uint8_t **at) {
    struct smoltcp_udp_handle h = {SMOLTCP_AT(s)};
    struct smoltcp_place place = {NULL, 0};
    int64_t answer;
    if (!s || !meta || !at) return SMOLTCP_ERROR_NULL;
    answer = smoltcp_udp_send_place_nonnull(&h, meta, size, &place);
    if (answer == 0) *at = SMOLTCP_AT(place.at);
    return answer;
}

SMOLTCP_INLINE int64_t smoltcp_udp_recv_place(struct smoltcp_udp *s, struct smoltcp_udp_metadata *meta,
                                              const uint8_t **at) {
    struct smoltcp_udp_handle h = {SMOLTCP_AT(s)};
    struct smoltcp_place place = {NULL, 0};
    int64_t answer;
    if (!s || !meta || !at) return SMOLTCP_ERROR_NULL;
    answer = smoltcp_udp_recv_place_nonnull(&h, meta, &place);
    if (answer >= 0) *at = place.at;
    return answer;
}

SMOLTCP_INLINE int64_t smoltcp_udp_peek_place(struct smoltcp_udp *s, struct smoltcp_udp_metadata *meta,
                                              const uint8_t **at) {
    struct smoltcp_udp_handle h = {SMOLTCP_AT(s)};
    struct smoltcp_place place = {NULL, 0};
    int64_t answer;
    if (!s || !meta || !at) return SMOLTCP_ERROR_NULL;
    answer = smoltcp_udp_peek_place_nonnull(&h, meta, &place);
    if (answer >= 0) *at = place.at;
    return answer;
}

SMOLTCP_INLINE int64_t smoltcp_udp_poll_at(const struct smoltcp_udp *s, const struct smoltcp_context *cx) {
    struct smoltcp_udp_handle h = {SMOLTCP_AT(s)};
    int64_t at = 0, answer;
    if (!s || !cx) return INT64_MIN;
    answer = smoltcp_udp_poll_at_nonnull(&h, cx, &at);
    if (answer < 0) return INT64_MIN;
    return answer == 0 ? at : INT64_MAX;
}

SMOLTCP_INLINE int64_t smoltcp_raw_init_sized(struct smoltcp_raw *s, size_t size,
                                              const struct smoltcp_raw_filter *filter, struct smoltcp_raw_buffer rx,
                                              struct smoltcp_raw_buffer tx) {
    struct smoltcp_places rx_places = {(uint8_t *)rx.places, rx.count}, tx_places = {(uint8_t *)tx.places, tx.count};
    struct smoltcp_bytes of_rx = {rx.bytes, rx.len}, of_tx = {tx.bytes, tx.len};
    struct smoltcp_raw_handle h = {SMOLTCP_AT(s)}, place;
    size_t i;
    if (!s || !filter || !rx.places || !rx.bytes || !tx.places || !tx.bytes) return SMOLTCP_ERROR_NULL;
    if (size != smoltcp_library_sizes().raw) return SMOLTCP_ERROR_VERSION;
    if (filter->version != 0 && filter->version != 4 && filter->version != 6) return SMOLTCP_ERROR_RANGE;
    if (rx.count > SMOLTCP_LONGEST_BUFFER || rx.len > SMOLTCP_LONGEST_BUFFER) return SMOLTCP_ERROR_RANGE;
    if (tx.count > SMOLTCP_LONGEST_BUFFER || tx.len > SMOLTCP_LONGEST_BUFFER) return SMOLTCP_ERROR_RANGE;
    for (i = 0; i < rx.count; i++) {
        place.at = (uint8_t *)&rx.places[i];
        smoltcp_raw_place_nonnull(&place);
    }
    for (i = 0; i < tx.count; i++) {
        place.at = (uint8_t *)&tx.places[i];
        smoltcp_raw_place_nonnull(&place);
    }
    return smoltcp_raw_init_nonnull(rx_places, of_rx, tx_places, of_tx, filter, &h);
}

SMOLTCP_INLINE int64_t (smoltcp_raw_init)(struct smoltcp_raw *s, const struct smoltcp_raw_filter *filter,
                                          struct smoltcp_raw_buffer rx, struct smoltcp_raw_buffer tx) {
    return smoltcp_raw_init_sized(s, sizeof *s, filter, rx, tx);
}

SMOLTCP_INLINE int64_t smoltcp_raw_ip_protocol(const struct smoltcp_raw *s) {
    int64_t answer = smoltcp_raw_ask(s, SMOLTCP_ASK_IP_PROTOCOL);
    return s && answer < 0 ? (int64_t)SMOLTCP_RAW_ANY : answer;
}

SMOLTCP_INLINE int64_t smoltcp_raw_send_place(struct smoltcp_raw *s, size_t size, uint8_t **at) {
    struct smoltcp_raw_handle h = {SMOLTCP_AT(s)};
    struct smoltcp_place place = {NULL, 0};
    int64_t answer;
    if (!s || !at) return SMOLTCP_ERROR_NULL;
    answer = smoltcp_raw_send_place_nonnull(&h, size, &place);
    if (answer == 0) *at = SMOLTCP_AT(place.at);
    return answer;
}

SMOLTCP_INLINE int64_t smoltcp_raw_recv_place(struct smoltcp_raw *s, const uint8_t **at) {
    struct smoltcp_raw_handle h = {SMOLTCP_AT(s)};
    struct smoltcp_place place = {NULL, 0};
    int64_t answer;
    if (!s || !at) return SMOLTCP_ERROR_NULL;
    answer = smoltcp_raw_recv_place_nonnull(&h, &place);
    if (answer >= 0) *at = place.at;
    return answer;
}

SMOLTCP_INLINE int64_t smoltcp_raw_peek_place(struct smoltcp_raw *s, const uint8_t **at) {
    struct smoltcp_raw_handle h = {SMOLTCP_AT(s)};
    struct smoltcp_place place = {NULL, 0};
    int64_t answer;
    if (!s || !at) return SMOLTCP_ERROR_NULL;
    answer = smoltcp_raw_peek_place_nonnull(&h, &place);
    if (answer >= 0) *at = place.at;
    return answer;
}

SMOLTCP_INLINE int64_t smoltcp_raw_poll_at(const struct smoltcp_raw *s, const struct smoltcp_context *cx) {
    struct smoltcp_raw_handle h = {SMOLTCP_AT(s)};
    int64_t at = 0, answer;
    if (!s || !cx) return INT64_MIN;
    answer = smoltcp_raw_poll_at_nonnull(&h, cx, &at);
    if (answer < 0) return INT64_MIN;
    return answer == 0 ? at : INT64_MAX;
}

SMOLTCP_INLINE int64_t smoltcp_icmp_init_sized(struct smoltcp_icmp *s, size_t size, struct smoltcp_icmp_buffer rx,
                                               struct smoltcp_icmp_buffer tx) {
    struct smoltcp_places rx_places = {(uint8_t *)rx.places, rx.count}, tx_places = {(uint8_t *)tx.places, tx.count};
    struct smoltcp_bytes of_rx = {rx.bytes, rx.len}, of_tx = {tx.bytes, tx.len};
    struct smoltcp_icmp_handle h = {SMOLTCP_AT(s)}, place;
    size_t i;
    if (!s || !rx.places || !rx.bytes || !tx.places || !tx.bytes) return SMOLTCP_ERROR_NULL;
    if (size != smoltcp_library_sizes().icmp) return SMOLTCP_ERROR_VERSION;
    if (rx.count > SMOLTCP_LONGEST_BUFFER || rx.len > SMOLTCP_LONGEST_BUFFER) return SMOLTCP_ERROR_RANGE;
    if (tx.count > SMOLTCP_LONGEST_BUFFER || tx.len > SMOLTCP_LONGEST_BUFFER) return SMOLTCP_ERROR_RANGE;
    for (i = 0; i < rx.count; i++) {
        place.at = (uint8_t *)&rx.places[i];
        smoltcp_icmp_place_nonnull(&place);
    }
    for (i = 0; i < tx.count; i++) {
        place.at = (uint8_t *)&tx.places[i];
        smoltcp_icmp_place_nonnull(&place);
    }
    return smoltcp_icmp_init_nonnull(rx_places, of_rx, tx_places, of_tx, &h);
}

SMOLTCP_INLINE int64_t (smoltcp_icmp_init)(struct smoltcp_icmp *s, struct smoltcp_icmp_buffer rx,
                                           struct smoltcp_icmp_buffer tx) {
    return smoltcp_icmp_init_sized(s, sizeof *s, rx, tx);
}

SMOLTCP_INLINE int64_t smoltcp_icmp_send_place(struct smoltcp_icmp *s, const struct smoltcp_address *remote,
                                               size_t size, uint8_t **at) {
    struct smoltcp_icmp_handle h = {SMOLTCP_AT(s)};
    struct smoltcp_place place = {NULL, 0};
    int64_t answer;
    if (!s || !remote || !at) return SMOLTCP_ERROR_NULL;
    answer = smoltcp_icmp_send_place_nonnull(&h, remote, size, &place);
    if (answer == 0) *at = SMOLTCP_AT(place.at);
    return answer;
}

SMOLTCP_INLINE int64_t smoltcp_icmp_recv_place(struct smoltcp_icmp *s, struct smoltcp_address *remote,
                                               const uint8_t **at) {
    struct smoltcp_icmp_handle h = {SMOLTCP_AT(s)};
    struct smoltcp_place place = {NULL, 0};
    int64_t answer;
    if (!s || !remote || !at) return SMOLTCP_ERROR_NULL;
    answer = smoltcp_icmp_recv_place_nonnull(&h, remote, &place);
    if (answer >= 0) *at = place.at;
    return answer;
}

SMOLTCP_INLINE int64_t smoltcp_icmp_poll_at(const struct smoltcp_icmp *s, const struct smoltcp_context *cx) {
    struct smoltcp_icmp_handle h = {SMOLTCP_AT(s)};
    int64_t at = 0, answer;
    if (!s || !cx) return INT64_MIN;
    answer = smoltcp_icmp_poll_at_nonnull(&h, cx, &at);
    if (answer < 0) return INT64_MIN;
    return answer == 0 ? at : INT64_MAX;
}

#ifdef SMOLTCP_LIBRARY /* symbols alone: what is rare, and looks for marks */

SMOLTCP_INLINE int64_t smoltcp_tcp_release(struct smoltcp_tcp *s, uint8_t **rx, uint8_t **tx) {
    struct smoltcp_tcp_handle h = {SMOLTCP_AT(s)};
    struct smoltcp_bytes of_rx = {NULL, 0}, of_tx = {NULL, 0};
    int64_t answer;
    if (!s) return SMOLTCP_ERROR_NULL;
    if (smoltcp_is_empty(s, sizeof *s)) return SMOLTCP_ERROR_STATE;
    answer = smoltcp_tcp_release_nonnull(&h, &of_rx, &of_tx);
    if (answer == SMOLTCP_OK) smoltcp_make_empty(s, sizeof *s);
    if (answer == SMOLTCP_OK && rx) *rx = of_rx.at;
    if (answer == SMOLTCP_OK && tx) *tx = of_tx.at;
    return answer;
}

SMOLTCP_INLINE int64_t smoltcp_udp_release(struct smoltcp_udp *s, struct smoltcp_udp_buffer *rx,
                                           struct smoltcp_udp_buffer *tx) {
    struct smoltcp_udp_handle h = {SMOLTCP_AT(s)};
    struct smoltcp_places rx_places = {NULL, 0}, tx_places = {NULL, 0};
    struct smoltcp_bytes of_rx = {NULL, 0}, of_tx = {NULL, 0};
    int64_t answer;
    if (!s) return SMOLTCP_ERROR_NULL;
    if (smoltcp_is_empty(s, sizeof *s)) return SMOLTCP_ERROR_STATE;
    answer = smoltcp_udp_release_nonnull(&h, &rx_places, &of_rx, &tx_places, &of_tx);
    smoltcp_make_empty(s, sizeof *s);
    if (rx) {
        rx->places = (struct smoltcp_udp_place *)(void *)rx_places.at;
        rx->count = rx_places.len;
        rx->bytes = of_rx.at;
        rx->len = of_rx.len;
    }
    if (tx) {
        tx->places = (struct smoltcp_udp_place *)(void *)tx_places.at;
        tx->count = tx_places.len;
        tx->bytes = of_tx.at;
        tx->len = of_tx.len;
    }
    return answer;
}

SMOLTCP_INLINE int64_t smoltcp_raw_release(struct smoltcp_raw *s, struct smoltcp_raw_buffer *rx,
                                           struct smoltcp_raw_buffer *tx) {
    struct smoltcp_raw_handle h = {SMOLTCP_AT(s)};
    struct smoltcp_places rx_places = {NULL, 0}, tx_places = {NULL, 0};
    struct smoltcp_bytes of_rx = {NULL, 0}, of_tx = {NULL, 0};
    int64_t answer;
    if (!s) return SMOLTCP_ERROR_NULL;
    if (smoltcp_is_empty(s, sizeof *s)) return SMOLTCP_ERROR_STATE;
    answer = smoltcp_raw_release_nonnull(&h, &rx_places, &of_rx, &tx_places, &of_tx);
    smoltcp_make_empty(s, sizeof *s);
    if (rx) {
        rx->places = (struct smoltcp_raw_place *)(void *)rx_places.at;
        rx->count = rx_places.len;
        rx->bytes = of_rx.at;
        rx->len = of_rx.len;
    }
    if (tx) {
        tx->places = (struct smoltcp_raw_place *)(void *)tx_places.at;
        tx->count = tx_places.len;
        tx->bytes = of_tx.at;
        tx->len = of_tx.len;
    }
    return answer;
}

SMOLTCP_INLINE int64_t smoltcp_icmp_release(struct smoltcp_icmp *s, struct smoltcp_icmp_buffer *rx,
                                            struct smoltcp_icmp_buffer *tx) {
    struct smoltcp_icmp_handle h = {SMOLTCP_AT(s)};
    struct smoltcp_places rx_places = {NULL, 0}, tx_places = {NULL, 0};
    struct smoltcp_bytes of_rx = {NULL, 0}, of_tx = {NULL, 0};
    int64_t answer;
    if (!s) return SMOLTCP_ERROR_NULL;
    if (smoltcp_is_empty(s, sizeof *s)) return SMOLTCP_ERROR_STATE;
    answer = smoltcp_icmp_release_nonnull(&h, &rx_places, &of_rx, &tx_places, &of_tx);
    smoltcp_make_empty(s, sizeof *s);
    if (rx) {
        rx->places = (struct smoltcp_icmp_place *)(void *)rx_places.at;
        rx->count = rx_places.len;
        rx->bytes = of_rx.at;
        rx->len = of_rx.len;
    }
    if (tx) {
        tx->places = (struct smoltcp_icmp_place *)(void *)tx_places.at;
        tx->count = tx_places.len;
        tx->bytes = of_tx.at;
        tx->len = of_tx.len;
    }
    return answer;
}

#endif
