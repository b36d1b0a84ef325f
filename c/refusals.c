/* What a refused call leaves, byte by byte, and what an address that was never set means. */
#include <stdio.h>
#include <string.h>

#include "smoltcp_socket.h"

enum { ROOM = 100, MTU = 1500, PLACES = 3 };

static struct smoltcp_context cx;
static int failed;

static void want(const char *what, int64_t is, int64_t wanted) {
    if (is == wanted) return;
    printf("%s: %lld, wanted %lld\n", what, (long long)is, (long long)wanted);
    failed = 1;
}

/* 10.0.0.last or fd00::last. */
static struct smoltcp_endpoint endpoint(int version, int last, int port) {
    struct smoltcp_endpoint e;
    memset(&e, 0, sizeof e);
    e.addr.version = (uint8_t)version;
    e.addr.v4[0] = 10;
    e.addr.v4[3] = (uint8_t)last;
    e.addr.v6[0] = 0xfd;
    e.addr.v6[15] = (uint8_t)last;
    e.port = (uint16_t)port;
    return e;
}

/* The context has the address of this version alone, or none. */
static void has_address(int version) {
    struct smoltcp_endpoint own = endpoint(version, 1, 0);
    memset(cx.v4, 0, sizeof cx.v4);
    memset(cx.v6, 0, sizeof cx.v6);
    if (version == 4) memcpy(cx.v4, own.addr.v4, sizeof cx.v4);
    if (version == 6) memcpy(cx.v6, own.addr.v6, sizeof cx.v6);
}

static void no_connection(void) {
    static uint8_t rx[ROOM], tx[ROOM];
    static struct smoltcp_tcp s, was;
    struct smoltcp_endpoint own = endpoint(0, 0, 49152), zeros;
    uint8_t packet[MTU];
    int version;
    smoltcp_tcp_init(&s, rx, ROOM, tx, ROOM);
    for (version = 4; version <= 6; version += 2) {
        struct smoltcp_endpoint peer = endpoint(version, 2, 80);
        was = s;
        has_address(0);
        want("connect without an address", smoltcp_tcp_connect(&s, &cx, &peer, &own), SMOLTCP_ERROR_ADDRESS);
        has_address(10 - version);
        want("connect to the other version", smoltcp_tcp_connect(&s, &cx, &peer, &own), SMOLTCP_ERROR_ADDRESS);
        zeros = endpoint(version, 0, 49152);
        memset(zeros.addr.v4, 0, sizeof zeros.addr.v4);
        memset(zeros.addr.v6, 0, sizeof zeros.addr.v6);
        want("connect from zeros", smoltcp_tcp_connect(&s, &cx, &peer, &zeros), SMOLTCP_ERROR_ADDRESS);
        want("a refused connect changes nothing", memcmp(&s, &was, sizeof s), 0);
        has_address(version);
        want("connect", smoltcp_tcp_connect(&s, &cx, &peer, &own), SMOLTCP_OK);
        want("SYN", smoltcp_tcp_dispatch(&s, &cx, packet, sizeof packet) > 0, 1);
        smoltcp_tcp_abort(&s);
        smoltcp_tcp_dispatch(&s, &cx, packet, sizeof packet);
    }
}

static struct smoltcp_udp udp, udp_was;
static struct smoltcp_udp_place udp_places[2][PLACES], udp_places_were[PLACES];
static struct smoltcp_icmp icmp, icmp_was;
static struct smoltcp_icmp_place icmp_places[2][PLACES], icmp_places_were[PLACES];
static struct smoltcp_raw raw, raw_was;
static struct smoltcp_raw_place raw_places[2][PLACES], raw_places_were[PLACES];
static uint8_t bytes[6][ROOM], data[2 * ROOM], out[MTU];

static void make_all(void) {
    struct smoltcp_udp_buffer u = {udp_places[0], PLACES, bytes[0], ROOM}, v = {udp_places[1], PLACES, bytes[1], ROOM};
    struct smoltcp_icmp_buffer i = {icmp_places[0], PLACES, bytes[2], ROOM};
    struct smoltcp_icmp_buffer j = {icmp_places[1], PLACES, bytes[3], ROOM};
    struct smoltcp_raw_buffer r = {raw_places[0], PLACES, bytes[4], ROOM}, t = {raw_places[1], PLACES, bytes[5], ROOM};
    struct smoltcp_raw_filter filter = {4, 1, 0};
    struct smoltcp_endpoint port = endpoint(0, 0, 7);
    smoltcp_udp_init(&udp, u, v);
    smoltcp_udp_bind(&udp, &port);
    smoltcp_icmp_init(&icmp, i, j);
    smoltcp_raw_init(&raw, &filter, r, t);
}

static int64_t send_udp(size_t len, int version) {
    struct smoltcp_udp_metadata meta;
    memset(&meta, 0, sizeof meta);
    meta.endpoint = endpoint(version, 2, 53);
    return smoltcp_udp_send(&udp, &meta, data, len);
}

static int64_t send_icmp(size_t len, int version) {
    struct smoltcp_endpoint to = endpoint(version, 2, 0);
    memset(data, 0, 8);
    data[0] = version == 4 ? 8 : 128;
    return smoltcp_icmp_send(&icmp, &to.addr, data, len);
}

/* A datagram without a source leaves the queue, and dispatch says so; the next one is sent. */
static void no_source(void) {
    int version;
    make_all();
    for (version = 4; version <= 6; version += 2) {
        int header = version == 4 ? 20 : 40, other = 10 - version;
        has_address(other);
        want("UDP send", send_udp(0, version), 0);
        want("UDP send", send_udp(5, other), 0);
        want("UDP without a source", smoltcp_udp_dispatch(&udp, &cx, out, sizeof out), SMOLTCP_ERROR_ADDRESS);
        want("UDP with one", smoltcp_udp_dispatch(&udp, &cx, out, sizeof out), 60 - header + 8 + 5);
        want("UDP", smoltcp_udp_dispatch(&udp, &cx, out, sizeof out), 0);
        want("ICMP send", send_icmp(8, version), 0);
        want("ICMP send", send_icmp(12, other), 0);
        want("ICMP without a source", smoltcp_icmp_dispatch(&icmp, &cx, out, sizeof out), SMOLTCP_ERROR_ADDRESS);
        want("ICMP with one", smoltcp_icmp_dispatch(&icmp, &cx, out, sizeof out), 60 - header + 12);
        want("no ICMP message", send_icmp(3, other), 0);
        want("no ICMP message leaves", smoltcp_icmp_dispatch(&icmp, &cx, out, sizeof out), 0);
        want("ICMP", smoltcp_icmp_dispatch(&icmp, &cx, out, sizeof out), 0);
    }
}

/* Sends n bytes, where there is room for them or not: a refusal changes no byte of the sockets and of the places. */
static void send_all(const char *what, size_t n, int64_t wanted) {
    udp_was = udp, icmp_was = icmp, raw_was = raw;
    memcpy(udp_places_were, udp_places[1], sizeof udp_places_were);
    memcpy(icmp_places_were, icmp_places[1], sizeof icmp_places_were);
    memcpy(raw_places_were, raw_places[1], sizeof raw_places_were);
    want(what, send_udp(n, 4), wanted);
    want(what, send_icmp(n, 4), wanted);
    data[0] = 0x45;
    data[2] = 0;
    data[3] = (uint8_t)n;
    want(what, smoltcp_raw_send(&raw, data, n), wanted);
    if (wanted == 0) return;
    want(what, memcmp(&udp, &udp_was, sizeof udp), 0);
    want(what, memcmp(udp_places_were, udp_places[1], sizeof udp_places_were), 0);
    want(what, memcmp(&icmp, &icmp_was, sizeof icmp), 0);
    want(what, memcmp(icmp_places_were, icmp_places[1], sizeof icmp_places_were), 0);
    want(what, memcmp(&raw, &raw_was, sizeof raw), 0);
    want(what, memcmp(raw_places_were, raw_places[1], sizeof raw_places_were), 0);
}

static void dispatch_all(void) {
    want("UDP", smoltcp_udp_dispatch(&udp, &cx, out, sizeof out) > 0, 1);
    want("ICMP", smoltcp_icmp_dispatch(&icmp, &cx, out, sizeof out) > 0, 1);
    want("raw", smoltcp_raw_dispatch(&raw, &cx, out, sizeof out) > 0, 1);
}

static void refused_sends(void) {
    make_all();
    has_address(4);
    send_all("to an empty queue", 40, 0);
    dispatch_all();
    /* the queue is empty, and begins in the middle of its bytes */
    send_all("too long for an empty queue", ROOM + 1, SMOLTCP_ERROR_ROOM);
    send_all("first of two", 40, 0);
    send_all("second of two", 40, 0);
    send_all("no room", 30, SMOLTCP_ERROR_ROOM);
    dispatch_all();
    /* 20 bytes are free at the end and 40 at the beginning; for the second, and padding, there are two places */
    send_all("third, behind padding", 25, 0);
    send_all("no place", 1 + 24, SMOLTCP_ERROR_ROOM);
    dispatch_all();
    dispatch_all();
    send_all("one", 30, 0);
    send_all("two", 40, 0);
    dispatch_all();
    send_all("three", 20, 0);
    /* 10 bytes are free at the end and 30 at the beginning, and one place, which padding would take */
    send_all("room without a place", 25, SMOLTCP_ERROR_ROOM);
}

/* RFC 4291, section 2.2: fd00::2; the state's name is RFC 9293's. */
static void words(void) {
    static const uint8_t octets[16] = {0xfd, [15] = 2};
    struct smoltcp_address v4 = smoltcp_ipv4(10, 0, 0, 2), v6 = smoltcp_ipv6(octets);
    struct smoltcp_address want_v4 = endpoint(4, 2, 0).addr, want_v6 = endpoint(6, 2, 0).addr;
    want("an address of four numbers", v4.version == 4 && !memcmp(v4.v4, want_v4.v4, 4), 1);
    want("an address of 16 octets", v6.version == 6 && !memcmp(v6.v6, want_v6.v6, 16), 1);
    want("a name of a state", strcmp(smoltcp_state_name(SMOLTCP_SYN_RECEIVED), "SYN-RECEIVED"), 0);
    want("a name of a row", strcmp(smoltcp_row_name(SMOLTCP_ROW_IN_ORDER), "bytes at RCV.NXT"), 0);
    want("no name of a state", strcmp(smoltcp_state_name(SMOLTCP_ERROR_NULL), "UNKNOWN"), 0);
    want("words of an error", strcmp(smoltcp_strerror(SMOLTCP_ERROR_EMPTY), "no packet waits"), 0);
}

int main(void) {
    cx.ip_mtu = MTU;
    words();
    no_connection();
    no_source();
    refused_sends();
    printf(failed ? "FAILED\n" : "refusals: passed\n");
    return failed;
}
