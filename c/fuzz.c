/* Random calls on pairs of sockets of each kind. Packets are lost, repeated, cut, changed and made up; buffers of every
 * length lie before a page that may not be touched.
 *
 *     fuzz CALLS SEED
 *
 * It checks that each answer is one that the header names, that nothing is written behind what was answered, that a
 * refused call changes no byte of a socket or of a place of its queues, that nothing goes out from an address that was
 * never set, that the bytes read are those that were sent, and that a TCP socket may go exactly where it is CLOSED and
 * its peer was told. */
#define _DEFAULT_SOURCE
#include <stdio.h>
#include <stdlib.h>
#include <string.h>
#include <sys/mman.h>
#include <unistd.h>

#include "smoltcp_socket.h"

enum { PAGE = 4096, LONGEST = 3 * PAGE, MTU = 1500, KEPT = 8, WRITTEN = 1 << 16, PLACES = 4, PAGES = 17,
       RAW = 253 /* a protocol for experiments (RFC 3692) */ };

/* One end: its socket, its buffers, its context, and packets that it emitted and are on their way. What it was given to
 * send since it was opened, and how much of the other's was read, where the connection was never broken. */
struct end {
    struct smoltcp_tcp tcp;
    uint8_t *rx, *tx;
    struct smoltcp_udp udp;
    struct smoltcp_udp_place places[2][PLACES];
    struct smoltcp_raw raw;
    struct smoltcp_raw_place raw_places[2][PLACES];
    struct smoltcp_icmp icmp;
    struct smoltcp_icmp_place icmp_places[2][PLACES];
    struct smoltcp_context cx;
    uint8_t packets[KEPT][MTU];
    size_t lengths[KEPT];
    uint8_t written[WRITTEN];
    size_t sent, read;
};

static struct end ends[2];
static uint8_t *pages[PAGES]; /* memory before a page that may not be touched: eight buffers an end, one for calls */
static uint64_t state;
static long calls, bytes, datagrams, raws, echoes;

static uint32_t draw(uint32_t below) {
    state = state * 6364136223846793005u + 1442695040888963407u;
    return (uint32_t)(state >> 33) % below;
}

static void fail(const char *what, int64_t answer) {
    printf("call %ld: %s answered %lld\n", calls, what, (long long)answer);
    exit(1);
}

static uint8_t *before_guard(int which, size_t len) { return pages[which] + LONGEST - len; }

static int64_t named(const char *what, int64_t answer, int64_t most) {
    if (answer > most || answer < SMOLTCP_ERROR_EMPTY) fail(what, answer);
    return answer;
}

static struct smoltcp_endpoint at(int host, int port) {
    struct smoltcp_endpoint e;
    memset(&e, 0, sizeof e);
    e.addr.version = 4;
    e.addr.v4[0] = 10;
    e.addr.v4[3] = (uint8_t)(host + 1);
    e.port = (uint16_t)port;
    return e;
}

/* A queue of up to four datagrams over a buffer of any length. */
static struct smoltcp_udp_buffer queue(struct smoltcp_udp_place *places, int which) {
    struct smoltcp_udp_buffer buffer = {places, draw(PLACES + 1), NULL, draw(LONGEST)};
    buffer.bytes = before_guard(which, buffer.len);
    return buffer;
}

static struct smoltcp_raw_buffer raw_queue(struct smoltcp_raw_place *places, int which) {
    struct smoltcp_raw_buffer buffer = {places, draw(PLACES + 1), NULL, draw(LONGEST)};
    buffer.bytes = before_guard(which, buffer.len);
    return buffer;
}

static struct smoltcp_icmp_buffer icmp_queue(struct smoltcp_icmp_place *places, int which) {
    struct smoltcp_icmp_buffer buffer = {places, draw(PLACES + 1), NULL, draw(LONGEST)};
    buffer.bytes = before_guard(which, buffer.len);
    return buffer;
}

/* A refused call changes no byte of the socket, nor a refused send of the places of its transmit queue. */
static void kept(const char *what, int64_t answer, const void *was, const void *is, size_t size) {
    if (answer < 0 && memcmp(was, is, size) != 0) fail(what, answer);
}

/* All sockets of an end are let go of: TCP's at once where it is CLOSED and its peer was told, and else after that. */
static void let_go(struct end *e) {
    struct smoltcp_tcp was = e->tcp;
    uint8_t *rx = NULL, *tx = NULL;
    int64_t state_was = smoltcp_tcp_state(&e->tcp);
    int64_t answer = named("release", smoltcp_tcp_release(&e->tcp, &rx, &tx), 0);
    kept("release", answer, &was, &e->tcp, sizeof was);
    if (answer != SMOLTCP_OK) {
        if (answer != SMOLTCP_ERROR_STATE || rx || tx) fail("release", answer);
        smoltcp_tcp_abort(&e->tcp);
        smoltcp_tcp_dispatch(&e->tcp, &e->cx, before_guard(4, MTU), MTU);
        answer = smoltcp_tcp_release(&e->tcp, &rx, &tx);
    } else if (state_was != SMOLTCP_CLOSED) fail("release", answer);
    if (answer != SMOLTCP_OK || rx != e->rx || tx != e->tx) fail("release", answer);
    if (smoltcp_udp_release(&e->udp, NULL, NULL)) fail("udp_release", 0);
    if (smoltcp_raw_release(&e->raw, NULL, NULL)) fail("raw_release", 0);
    if (smoltcp_icmp_release(&e->icmp, NULL, NULL)) fail("icmp_release", 0);
}

/* Both ends anew, over buffers of any length. */
static void begin(void) {
    static int begun;
    int i;
    for (i = 0; i < 2 && begun; i++) let_go(&ends[i]);
    begun = 1;
    for (i = 0; i < 2; i++) {
        struct end *e = &ends[i];
        size_t rx = draw(4) ? 1 + draw(LONGEST) : draw(3), tx = draw(4) ? 1 + draw(LONGEST) : draw(3);
        struct smoltcp_raw_filter filter = {(uint8_t)(draw(2) ? 4 : 0), (uint8_t)draw(2), RAW};
        memset(e->packets, 0, sizeof e->packets); /* a packet of an earlier connection could pass as one of this */
        memset(e->lengths, 0, sizeof e->lengths);
        e->sent = e->read = 0;
        memset(&e->cx, 0, sizeof e->cx);
        e->cx.ip_mtu = 576 + draw(MTU - 575);
        e->cx.v4[0] = 10;
        e->cx.v4[3] = (uint8_t)(i + 1);
        e->rx = before_guard(2 * i, rx);
        e->tx = before_guard(2 * i + 1, tx);
        if (smoltcp_tcp_init(&e->tcp, e->rx, rx, e->tx, tx)) fail("init", 0);
        if (smoltcp_udp_init(&e->udp, queue(e->places[0], 5 + 2 * i), queue(e->places[1], 6 + 2 * i))) fail("init", 1);
        if (smoltcp_raw_init(&e->raw, &filter, raw_queue(e->raw_places[0], 9 + 2 * i),
                             raw_queue(e->raw_places[1], 10 + 2 * i))) fail("init", 2);
        if (smoltcp_icmp_init(&e->icmp, icmp_queue(e->icmp_places[0], 13 + 2 * i),
                              icmp_queue(e->icmp_places[1], 14 + 2 * i))) fail("init", 3);
        if (draw(2)) smoltcp_tcp_set_timestamps(&e->tcp, 1);
        if (draw(2)) smoltcp_tcp_set_keep_alive(&e->tcp, 1000000);
    }
    {
        struct smoltcp_endpoint a = at(0, 49152), b = at(1, 7);
        struct smoltcp_icmp_endpoint ident;
        memset(&ident, 0, sizeof ident);
        ident.kind = SMOLTCP_ICMP_IDENT;
        ident.ident = 0x1234;
        smoltcp_tcp_listen(&ends[1].tcp, &b);
        smoltcp_tcp_connect(&ends[0].tcp, &ends[0].cx, &b, &a);
        a.addr.version = b.addr.version = 0;
        smoltcp_udp_bind(&ends[0].udp, &a);
        smoltcp_udp_bind(&ends[1].udp, &b);
        smoltcp_icmp_bind(&ends[0].icmp, &ident);
        smoltcp_icmp_bind(&ends[1].icmp, &ident);
    }
}

/* The answer of a call that was given a buffer of cap bytes, which it may have written up to the answer. */
static int64_t within(const char *what, int64_t answer, const uint8_t *buffer, size_t cap, uint8_t mark) {
    size_t i = answer > 0 ? (size_t)answer : 0;
    named(what, answer, (int64_t)cap);
    for (; i < cap; i++)
        if (buffer[i] != mark) fail(what, answer);
    return answer;
}

static void dispatch(struct end *e) {
    size_t cap = draw(8) ? MTU : draw(MTU);
    uint8_t *out = before_guard(4, cap);
    int64_t n;
    int k = (int)draw(KEPT);
    memset(out, 0xa5, cap);
    n = within("dispatch", smoltcp_tcp_dispatch(&e->tcp, &e->cx, out, cap), out, cap, 0xa5);
    if (n <= 0) return;
    memcpy(e->packets[k], out, (size_t)n);
    e->lengths[k] = (size_t)n;
}

/* A packet of the other end, whole or not, or one that is made up. */
static void process(struct end *e, struct end *from) {
    int k = (int)draw(KEPT);
    size_t len = from->lengths[k], cap = draw(8) ? 100 + draw(100) : draw(100);
    uint8_t *packet, reply[200];
    int64_t n, row;
    struct smoltcp_tcp was;
    if (draw(16) == 0) len = draw(MTU);
    packet = before_guard(4, len);
    if (len) memcpy(packet, from->packets[k], len);
    if (len && draw(16) == 0) packet[draw((uint32_t)len)] ^= (uint8_t)(1 << draw(8));
    if (draw(64) == 0) { size_t i; for (i = 0; i < len; i++) packet[i] = (uint8_t)draw(256); }
    memset(reply, 0x5a, sizeof reply);
    was = e->tcp;
    row = smoltcp_tcp_explain(&e->tcp, &e->cx, packet, len);
    if (memcmp(&was, &e->tcp, sizeof was) != 0) fail("explain changed the socket", row);
    if (row > SMOLTCP_ROW_BARE_ACK || (row < 0 && row != SMOLTCP_NOT_ACCEPTED)) fail("no row", row);
    n = within("process", smoltcp_tcp_process(&e->tcp, &e->cx, packet, len, reply, cap), reply, cap, 0x5a);
    if (cap >= SMOLTCP_REPLY_ROOM && (n == SMOLTCP_NOT_ACCEPTED) != (row <= SMOLTCP_ROW_NOT_ACCEPTED)) fail("row", row);
    if (n > 0 && n <= MTU) {
        k = (int)draw(KEPT);
        memcpy(e->packets[k], reply, (size_t)n);
        e->lengths[k] = (size_t)n;
    }
    within("reset", smoltcp_tcp_reset(packet, len, memset(reply, 0x5a, sizeof reply), cap), reply, cap, 0x5a);
    if (draw(4) == 0) from->lengths[k] = 0;
}

static void take_sent(struct end *e, const uint8_t *data, int64_t n) {
    if (n <= 0) return;
    if (e->sent + (size_t)n > WRITTEN) fail("too much for this test", n);
    memcpy(e->written + e->sent, data, (size_t)n);
    e->sent += (size_t)n;
}

static void send_bytes(struct end *e) {
    size_t len = draw(3000), i;
    uint8_t *data = before_guard(4, len), *place = NULL;
    int64_t free = smoltcp_tcp_send_capacity(&e->tcp) - smoltcp_tcp_send_queue(&e->tcp), n;
    if (e->sent + LONGEST > WRITTEN) return;
    for (i = 0; i < len; i++) data[i] = (uint8_t)draw(256);
    if (draw(2)) {
        take_sent(e, data, named("send", smoltcp_tcp_send(&e->tcp, data, len), free));
        return;
    }
    n = named("reserve", smoltcp_tcp_reserve(&e->tcp, &place), free);
    if (n < 0) return;
    if (smoltcp_tcp_commit(&e->tcp, (size_t)n + 1) != SMOLTCP_ERROR_RANGE) fail("commit of too many", n);
    if (len > (size_t)n) len = (size_t)n;
    if (len) memcpy(place, data, len);
    if (smoltcp_tcp_commit(&e->tcp, len) != (int64_t)len) fail("commit", (int64_t)len);
    take_sent(e, data, (int64_t)len);
}

static void check_read(struct end *e, struct end *from, const uint8_t *data, int64_t n) {
    if (n <= 0) return;
    if (e->read + (size_t)n > from->sent || memcmp(from->written + e->read, data, (size_t)n) != 0) fail("recv", n);
    e->read += (size_t)n;
    bytes += n;
}

static void recv_bytes(struct end *e, struct end *from) {
    size_t cap = draw(3000);
    uint8_t *data = before_guard(4, cap);
    const uint8_t *place = NULL;
    int64_t n;
    memset(data, 0x3c, cap);
    if (draw(2)) {
        n = within("peek_slice", smoltcp_tcp_peek_slice(&e->tcp, data, cap), data, cap, 0x3c);
        if (n > 0 && memcmp(from->written + e->read, data, (size_t)n) != 0) fail("peek_slice", n);
        memset(data, 0x3c, cap);
        check_read(e, from, data, within("recv", smoltcp_tcp_recv(&e->tcp, data, cap), data, cap, 0x3c));
        return;
    }
    n = named("peek", smoltcp_tcp_peek(&e->tcp, cap, &place), (int64_t)cap);
    if (n < 0) return;
    if (smoltcp_tcp_consume(&e->tcp, (size_t)1 << 40) != SMOLTCP_ERROR_RANGE) fail("consume of too many", n);
    check_read(e, from, place, n);
    if (smoltcp_tcp_consume(&e->tcp, (size_t)n) != n) fail("consume", n);
}

/* The context of an end, or the same without an address: then nothing is written. */
static struct smoltcp_context with_or_without(const struct end *e) {
    struct smoltcp_context cx = e->cx;
    if (draw(16) == 0) memset(cx.v4, 0, sizeof cx.v4);
    return cx;
}

static void from_somewhere(const char *what, int64_t answer, const struct smoltcp_context *cx) {
    if (cx->v4[0] == 0 && answer != 0 && answer != SMOLTCP_ERROR_ADDRESS) fail(what, answer);
    if (cx->v4[0] != 0 && answer == SMOLTCP_ERROR_ADDRESS) fail(what, answer);
}

/* A datagram's bytes follow from its first one. */
static uint8_t byte_of(const uint8_t *data, size_t i) { return (uint8_t)(data[0] + 7 * i); }

static void send_datagram(struct end *e, int to) {
    struct smoltcp_udp was = e->udp;
    struct smoltcp_udp_place places[PLACES];
    int64_t answer;
    size_t len = draw(900), i;
    uint8_t *data = before_guard(4, len);
    struct smoltcp_udp_metadata meta;
    memset(&meta, 0, sizeof meta);
    meta.endpoint = at(to, to ? 7 : 49152);
    if (len) data[0] = (uint8_t)draw(256);
    for (i = 1; i < len; i++) data[i] = byte_of(data, i);
    memcpy(places, e->places[1], sizeof places);
    answer = named("udp_send", smoltcp_udp_send(&e->udp, &meta, data, len), 0);
    kept("udp_send", answer, &was, &e->udp, sizeof was);
    kept("udp_send", answer, places, e->places[1], sizeof places);
}

/* The packet of the first datagram goes to the other end, or is lost, or is changed on its way. */
static void carry_datagram(struct end *e, struct end *to) {
    size_t cap = draw(8) ? MTU : draw(MTU);
    uint8_t *out = before_guard(4, cap), *packet;
    struct smoltcp_context cx = with_or_without(e);
    int64_t n;
    memset(out, 0xa5, cap);
    n = within("udp_dispatch", smoltcp_udp_dispatch(&e->udp, &cx, out, cap), out, cap, 0xa5);
    from_somewhere("udp_dispatch", n, &cx);
    if (n <= 0 || draw(8) == 0) return;
    packet = before_guard(4, (size_t)n);
    memmove(packet, out, (size_t)n);
    if (draw(16) == 0) packet[draw((uint32_t)n)] ^= (uint8_t)(1 << draw(8));
    named("udp_process", smoltcp_udp_process(&to->udp, &to->cx, packet, (size_t)n), 0);
}

static void recv_datagram(struct end *e) {
    size_t cap = draw(1000), i;
    uint8_t *data = before_guard(4, cap);
    struct smoltcp_udp_metadata meta;
    int64_t seen, n;
    memset(data, 0x3c, cap);
    seen = within("udp_peek", smoltcp_udp_peek(&e->udp, &meta, data, cap), data, cap, 0x3c);
    n = within("udp_recv", smoltcp_udp_recv(&e->udp, &meta, data, cap), data, cap, 0x3c);
    if (seen != n) fail("udp_peek", seen);
    if (n < 0) return;
    for (i = 1; i < (size_t)n; i++)
        if (data[i] != byte_of(data, i)) fail("udp_recv", n);
    datagrams++;
}

/* A whole packet, or any bytes, which leave the queue without a packet. */
static void send_raw(struct end *e) {
    struct smoltcp_raw was = e->raw;
    struct smoltcp_raw_place places[PLACES];
    int64_t answer;
    size_t len = 20 + draw(900), i;
    uint8_t *data = before_guard(4, len);
    memset(data, 0, 20);
    data[0] = 0x45;
    data[2] = (uint8_t)(len >> 8);
    data[3] = (uint8_t)len;
    data[8] = 64;
    data[9] = RAW;
    memcpy(data + 12, e->cx.v4, 4);
    data[16] = 10;
    if (len > 20) data[20] = (uint8_t)draw(256);
    for (i = 1; i < len - 20; i++) data[20 + i] = byte_of(data + 20, i);
    if (draw(16) == 0) data[1 + draw(3)] ^= (uint8_t)(1 << draw(8));
    if (draw(16) == 0) len = draw((uint32_t)len + 1);
    memcpy(places, e->raw_places[1], sizeof places);
    answer = named("raw_send", smoltcp_raw_send(&e->raw, data, len), 0);
    kept("raw_send", answer, &was, &e->raw, sizeof was);
    kept("raw_send", answer, places, e->raw_places[1], sizeof places);
}

/* The first packet goes to the other end, or is lost, or its header is changed on its way. */
static void carry_raw(struct end *e, struct end *to) {
    size_t cap = draw(8) ? MTU : draw(MTU);
    uint8_t *out = before_guard(4, cap), *packet;
    int64_t n, answer;
    int changed = draw(16) == 0;
    memset(out, 0xa5, cap);
    n = within("raw_dispatch", smoltcp_raw_dispatch(&e->raw, &e->cx, out, cap), out, cap, 0xa5);
    if (n <= 0 || draw(8) == 0) return;
    packet = before_guard(4, (size_t)n);
    memmove(packet, out, (size_t)n);
    if (changed) packet[1 + draw(19)] ^= (uint8_t)(1 << draw(8)); /* as version 6 it would have no checksum */
    answer = named("raw_process", smoltcp_raw_process(&to->raw, &to->cx, packet, (size_t)n), 0);
    if (changed && answer == 0) fail("raw_process", answer);
}

static void recv_raw(struct end *e) {
    size_t cap = draw(1000), i;
    uint8_t *data = before_guard(4, cap);
    int64_t seen, n;
    memset(data, 0x3c, cap);
    seen = within("raw_peek", smoltcp_raw_peek(&e->raw, data, cap), data, cap, 0x3c);
    n = within("raw_recv", smoltcp_raw_recv(&e->raw, data, cap), data, cap, 0x3c);
    if (seen != n) fail("raw_peek", seen);
    if (n < 0) return;
    if (n < 20 || data[0] != 0x45 || (data[2] << 8 | data[3]) != n) fail("raw_recv", n);
    for (i = 1; i < (size_t)n - 20; i++)
        if (data[20 + i] != byte_of(data + 20, i)) fail("raw_recv", n);
    raws++;
}

/* An echo request, whose checksum is the dispatch's, or bytes that are no message. */
static void send_echo(struct end *e, int to) {
    struct smoltcp_icmp was = e->icmp;
    struct smoltcp_icmp_place places[PLACES];
    int64_t answer;
    size_t len = 8 + draw(900), i;
    uint8_t *data = before_guard(4, len);
    struct smoltcp_endpoint there = at(to, 0);
    memset(data, 0, 8);
    data[0] = 8;
    data[4] = 0x12;
    data[5] = 0x34;
    data[7] = (uint8_t)draw(256);
    if (len > 8) data[8] = (uint8_t)draw(256);
    for (i = 1; i < len - 8; i++) data[8 + i] = byte_of(data + 8, i);
    if (draw(16) == 0) len = draw(8);
    memcpy(places, e->icmp_places[1], sizeof places);
    answer = named("icmp_send", smoltcp_icmp_send(&e->icmp, &there.addr, data, len), 0);
    kept("icmp_send", answer, &was, &e->icmp, sizeof was);
    kept("icmp_send", answer, places, e->icmp_places[1], sizeof places);
}

/* The first message goes to the other end, or is lost, or is changed on its way. */
static void carry_echo(struct end *e, struct end *to) {
    size_t cap = draw(8) ? MTU : draw(MTU);
    uint8_t *out = before_guard(4, cap), *packet;
    struct smoltcp_context cx = with_or_without(e);
    int64_t n, answer;
    int changed = draw(16) == 0;
    memset(out, 0xa5, cap);
    n = within("icmp_dispatch", smoltcp_icmp_dispatch(&e->icmp, &cx, out, cap), out, cap, 0xa5);
    from_somewhere("icmp_dispatch", n, &cx);
    if (n <= 0 || draw(8) == 0) return;
    packet = before_guard(4, (size_t)n);
    memmove(packet, out, (size_t)n);
    if (changed) packet[1 + draw((uint32_t)n - 1)] ^= (uint8_t)(1 << draw(8));
    answer = named("icmp_process", smoltcp_icmp_process(&to->icmp, &to->cx, packet, (size_t)n), 0);
    if (changed && answer == 0) fail("icmp_process", answer);
}

static void recv_echo(struct end *e) {
    size_t cap = draw(1000), i;
    uint8_t *data = before_guard(4, cap);
    struct smoltcp_address from;
    int64_t n;
    memset(data, 0x3c, cap);
    n = within("icmp_recv", smoltcp_icmp_recv(&e->icmp, &from, data, cap), data, cap, 0x3c);
    if (n < 0) return;
    if (n < 8 || data[0] != 8 || data[4] != 0x12 || data[5] != 0x34) fail("icmp_recv", n);
    for (i = 1; i < (size_t)n - 8; i++)
        if (data[8 + i] != byte_of(data + 8, i)) fail("icmp_recv", n);
    echoes++;
}

/* Numbers out of range and null pointers change nothing. */
static void refused(struct end *e) {
    struct smoltcp_tcp was = e->tcp;
    struct smoltcp_udp udp_was = e->udp;
    struct smoltcp_raw raw_was = e->raw;
    struct smoltcp_icmp icmp_was = e->icmp;
    struct smoltcp_context far = e->cx;
    uint8_t byte = 0;
    far.now = INT64_MAX;
    if (smoltcp_tcp_set_timeout(&e->tcp, INT64_MAX) != SMOLTCP_ERROR_RANGE) fail("set_timeout", 0);
    if (smoltcp_tcp_set_congestion_control(&e->tcp, 3 + draw(9)) != SMOLTCP_ERROR_RANGE) fail("congestion", 0);
    if (smoltcp_tcp_dispatch(&e->tcp, &far, &byte, 1) != SMOLTCP_ERROR_CONTEXT) fail("dispatch", 0);
    if (smoltcp_tcp_process(&e->tcp, &e->cx, &byte, 1, &byte, 1) != SMOLTCP_ERROR_ROOM) fail("process", 0);
    if (smoltcp_tcp_explain(&e->tcp, &far, &byte, 1) != SMOLTCP_ERROR_CONTEXT) fail("explain", 0);
    if (smoltcp_tcp_send(&e->tcp, NULL, 1) != SMOLTCP_ERROR_NULL) fail("send", 0);
    if (smoltcp_udp_dispatch(&e->udp, &far, &byte, 1) != SMOLTCP_ERROR_CONTEXT) fail("udp_dispatch", 0);
    if (smoltcp_udp_process(&e->udp, &e->cx, &byte, 1) != SMOLTCP_NOT_ACCEPTED) fail("udp_process", 0);
    if (smoltcp_raw_dispatch(&e->raw, &far, &byte, 1) != SMOLTCP_ERROR_CONTEXT) fail("raw_dispatch", 0);
    if (smoltcp_raw_process(&e->raw, &e->cx, &byte, 1) != SMOLTCP_NOT_ACCEPTED) fail("raw_process", 0);
    if (smoltcp_icmp_dispatch(&e->icmp, &far, &byte, 1) != SMOLTCP_ERROR_CONTEXT) fail("icmp_dispatch", 0);
    if (smoltcp_icmp_process(&e->icmp, &e->cx, &byte, 1) != SMOLTCP_NOT_ACCEPTED) fail("icmp_process", 0);
    if (memcmp(&was, &e->tcp, sizeof was) != 0) fail("a refused call changed the socket", 0);
    if (memcmp(&udp_was, &e->udp, sizeof udp_was) != 0) fail("a refused call changed the UDP socket", 0);
    if (memcmp(&raw_was, &e->raw, sizeof raw_was) != 0) fail("a refused call changed the raw socket", 0);
    if (memcmp(&icmp_was, &e->icmp, sizeof icmp_was) != 0) fail("a refused call changed the ICMP socket", 0);
}

static void call(void) {
    int i = (int)draw(2);
    struct end *e = &ends[i], *other = &ends[1 - i];
    int64_t limit = INT64_MAX;
    switch (draw(28)) {
    case 0: case 1: case 2: case 3: dispatch(e); break;
    case 4: case 5: case 6: case 7: case 8: process(e, other); break;
    case 9: case 10: send_bytes(e); break;
    case 11: case 12: recv_bytes(e, other); break;
    case 13: e->cx.now += draw(200000); e->cx.tsval = (uint32_t)(e->cx.now / 1000); e->cx.word = draw(1u << 31); break;
    case 14: refused(e); break;
    case 15: send_datagram(e, 1 - i); break;
    case 16: case 17: carry_datagram(e, other); break;
    case 18: recv_datagram(e); break;
    case 19: send_raw(e); break;
    case 20: case 21: carry_raw(e, other); break;
    case 22: recv_raw(e); break;
    case 23: send_echo(e, 1 - i); break;
    case 24: case 25: carry_echo(e, other); break;
    case 26: recv_echo(e); break;
    default:
        if (smoltcp_tcp_poll_at(&e->tcp, &e->cx) > limit) fail("poll_at", 0);
        if (named("state", smoltcp_tcp_state(&e->tcp), SMOLTCP_TIME_WAIT) < 0) fail("state", 0);
        if (draw(64) == 0) smoltcp_tcp_close(&e->tcp);
        if (draw(256) == 0) smoltcp_tcp_abort(&e->tcp);
    }
}

int main(int argc, char **argv) {
    long most = argc > 1 ? atol(argv[1]) : 100000;
    int i;
    state = argc > 2 ? (uint64_t)atoll(argv[2]) : 1;
    for (i = 0; i < PAGES; i++) {
        pages[i] = mmap(NULL, LONGEST + PAGE, PROT_READ | PROT_WRITE, MAP_PRIVATE | MAP_ANONYMOUS, -1, 0);
        if (pages[i] == MAP_FAILED || mprotect(pages[i] + LONGEST, PAGE, PROT_NONE) != 0) return perror("mmap"), 2;
    }
    for (calls = 0; calls < most; calls++) {
        if (calls % 2000 == 0) begin();
        call();
    }
    printf("%ld calls: %ld bytes, %ld datagrams, %ld raw packets and %ld echoes read as they were sent\n", calls, bytes,
           datagrams, raws, echoes);
    return 0;
}
