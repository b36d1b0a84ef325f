/* Sockets in one process. TCP: a connects to b, sends a line, b sends it back, and both close. UDP: a datagram goes to
 * port 53, and the answer back; one finds no room, and one is lost. Raw: the packet of a datagram is taken and sent on.
 * ICMP: an echo request goes out, and the reply to it is read. */
#include <stdio.h>
#include <string.h>

#include "smoltcp_socket.h"

enum { ROOM = 4096, MTU = 1500, QUEUE = 100, TURN = 64 };

static uint8_t a_rx[ROOM], a_tx[ROOM], b_rx[ROOM], b_tx[ROOM];
static struct smoltcp_tcp a, b;
static struct smoltcp_context of_a, of_b;
static int failed;

static void want(const char *what, int64_t is, int64_t wanted) {
    if (is == wanted) return;
    printf("%s: %lld, wanted %lld\n", what, (long long)is, (long long)wanted);
    failed = 1;
}

static struct smoltcp_endpoint endpoint(int last, int port) {
    struct smoltcp_endpoint e;
    memset(&e, 0, sizeof e);
    e.addr.version = 4;
    e.addr.v4[0] = 10;
    e.addr.v4[3] = (uint8_t)last;
    e.port = (uint16_t)port;
    return e;
}

/* Gives what one socket emits to the other, and the replies back. Answers how many packets went. */
static int exchange(struct smoltcp_tcp *from, struct smoltcp_context *of_from, struct smoltcp_tcp *to,
                    struct smoltcp_context *of_to) {
    uint8_t packet[MTU], reply[MTU];
    int64_t len = 0;
    int count;
    for (count = 0; count < TURN; count++) {
        len = smoltcp_tcp_dispatch(from, of_from, packet, sizeof packet);
        if (len <= 0) break;
        len = smoltcp_tcp_process(to, of_to, packet, (size_t)len, reply, sizeof reply);
        if (len > 0) smoltcp_tcp_process(from, of_from, reply, (size_t)len, packet, sizeof packet);
    }
    want("dispatch", len < 0, 0);
    return count;
}

static void run(void) {
    int i;
    for (i = 0; i < 100; i++) {
        of_a.now += 20000;
        of_b.now += 20000;
        if (exchange(&a, &of_a, &b, &of_b) + exchange(&b, &of_b, &a, &of_a) == 0) return;
    }
}

/* Makes an IPv4 packet a fragment: one that more follow, or one that stands behind 1480 bytes. The header's checksum
 * stays right. */
static void make_fragment(uint8_t *packet, int behind) {
    uint32_t was = ((uint32_t)packet[6] << 8) + packet[7], is = behind ? 185 : 0x2000;
    uint32_t sum = ((uint32_t)packet[10] << 8) + packet[11] + was + 0xffffu - is;
    while (sum > 0xffff) sum = (sum & 0xffff) + (sum >> 16);
    packet[6] = (uint8_t)(is >> 8); packet[7] = (uint8_t)is;
    packet[10] = (uint8_t)(sum >> 8); packet[11] = (uint8_t)sum;
}

/* Gives what the one socket emits to the other, and answers what the other says of the last packet. */
static int64_t carry(struct smoltcp_udp *from, const struct smoltcp_context *of_from, struct smoltcp_udp *to,
                     const struct smoltcp_context *of_to) {
    uint8_t packet[MTU];
    int64_t len, answer = SMOLTCP_ERROR_EMPTY;
    while ((len = smoltcp_udp_dispatch(from, of_from, packet, sizeof packet)) > 0)
        answer = smoltcp_udp_process(to, of_to, packet, (size_t)len);
    want("all dispatched", len, 0);
    return answer;
}

/* Two places and some bytes. */
static struct smoltcp_udp_buffer two_places(struct smoltcp_udp_place *places, uint8_t *bytes) {
    struct smoltcp_udp_buffer buffer = {places, 2, bytes, QUEUE};
    return buffer;
}

/* A client and a server of UDP, and the packets that only one of them takes. */
static struct smoltcp_udp client, server;

static int64_t make_datagram_sockets(void) {
    static struct smoltcp_udp_place places[4][2];
    static uint8_t bytes[4][QUEUE];
    struct smoltcp_udp_buffer none = {NULL, 0, NULL, 0};
    want("size", (int64_t)smoltcp_udp_size(), SMOLTCP_UDP_SIZE);
    want("size of a place", (int64_t)smoltcp_udp_place_size(), SMOLTCP_UDP_PLACE_SIZE);
    want("no buffers", smoltcp_udp_init(&client, none, none), SMOLTCP_ERROR_NULL);
    none = two_places(places[0], bytes[0]);
    none.count = (size_t)-1;
    want("too many", smoltcp_udp_init(&client, none, none), SMOLTCP_ERROR_RANGE);
    return smoltcp_udp_init(&client, two_places(places[0], bytes[0]), two_places(places[1], bytes[1]))
           + smoltcp_udp_init(&server, two_places(places[2], bytes[2]), two_places(places[3], bytes[3]));
}

/* What a closed socket refuses, and what it says of itself. */
static void bind_both(const struct smoltcp_udp_metadata *meta) {
    struct smoltcp_endpoint at_a = endpoint(1, 49152), bound;
    uint8_t byte = 0;
    want("not open", smoltcp_udp_send(&client, meta, &byte, 1), SMOLTCP_ERROR_ADDRESS);
    want("is open", smoltcp_udp_is_open(&client), 0);
    want("bind", smoltcp_udp_bind(&client, &at_a), SMOLTCP_OK);
    want("bind", smoltcp_udp_bind(&server, &meta->endpoint), SMOLTCP_OK);
    want("open", smoltcp_udp_bind(&server, &meta->endpoint), SMOLTCP_ERROR_STATE);
    want("endpoint", smoltcp_udp_endpoint(&client, &bound), SMOLTCP_OK);
    want("bound to", memcmp(&bound, &at_a, sizeof bound), 0);
    want("places", smoltcp_udp_packet_send_capacity(&client) + smoltcp_udp_packet_recv_capacity(&server), 4);
    want("bytes", smoltcp_udp_payload_send_capacity(&client) + smoltcp_udp_payload_recv_capacity(&server), 2 * QUEUE);
    want("hop limit", smoltcp_udp_hop_limit(&client), 0);
    want("hop limit", smoltcp_udp_set_hop_limit(&client, 7), SMOLTCP_OK);
    want("hop limit", smoltcp_udp_hop_limit(&client), 7);
    want("nothing to emit", smoltcp_udp_poll_at(&client, &of_a), INT64_MAX);
    want("can send", smoltcp_udp_can_send(&client), 1);
    want("no question", smoltcp_udp_ask(&client, SMOLTCP_ASK_IS_ACTIVE), SMOLTCP_ERROR_RANGE);
    want("null", smoltcp_udp_ask(NULL, SMOLTCP_ASK_IS_OPEN), SMOLTCP_ERROR_NULL);
}

/* The packet of the client's datagram is for the server alone, whole and not damaged. */
static void offer_to_both(uint8_t *packet, size_t len) {
    uint8_t cut[MTU];
    want("for another port", smoltcp_udp_process(&client, &of_a, packet, len), SMOLTCP_NOT_ACCEPTED);
    want("accepts", smoltcp_udp_accepts(&client, &of_a, packet, len), 0);
    packet[30] ^= 1;
    want("damaged", smoltcp_udp_process(&server, &of_b, packet, len), SMOLTCP_NOT_ACCEPTED);
    packet[30] ^= 1;
    memcpy(cut, packet, len);
    make_fragment(cut, 0);
    want("first fragment", smoltcp_udp_process(&server, &of_b, cut, len), SMOLTCP_NOT_ACCEPTED);
    make_fragment(cut, 1);
    want("later fragment", smoltcp_udp_process(&server, &of_b, cut, len), SMOLTCP_NOT_ACCEPTED);
    want("accepts", smoltcp_udp_accepts(&server, &of_b, packet, len), 1);
    want("process", smoltcp_udp_process(&server, &of_b, packet, len), SMOLTCP_OK);
    want("process", smoltcp_udp_process(&server, &of_b, packet, len), SMOLTCP_OK);
    want("dropped", smoltcp_udp_process(&server, &of_b, packet, len), SMOLTCP_OK);
}

/* Datagrams are written and read where they lie in the queues, which have two places each. */
static void datagrams_in_place(const struct smoltcp_udp_metadata *to) {
    struct smoltcp_udp_metadata from;
    const uint8_t *came = NULL;
    uint8_t *at = NULL;
    int k;
    want("too long", smoltcp_udp_send_place(&client, to, QUEUE + 1, &at), SMOLTCP_ERROR_ROOM);
    want("null", smoltcp_udp_send_place(&client, to, 8, NULL), SMOLTCP_ERROR_NULL);
    for (k = 0; k < 2; k++) {
        want("place", smoltcp_udp_send_place(&client, to, 8, &at), SMOLTCP_OK);
        if (at) memcpy(at, k ? "in place" : "at first", 8);
    }
    want("no place", smoltcp_udp_send_place(&client, to, 8, &at), SMOLTCP_ERROR_ROOM);
    want("carry", carry(&client, &of_a, &server, &of_b), SMOLTCP_OK);
    want("peek", smoltcp_udp_peek_place(&server, &from, &came), 8);
    want("as written", came && memcmp(came, "at first", 8) == 0, 1);
    want("stays", smoltcp_udp_recv_place(&server, &from, &came), 8);
    want("as written", came && memcmp(came, "at first", 8) == 0, 1);
    want("the second", smoltcp_udp_recv_place(&server, &from, &came), 8);
    want("as written", came && memcmp(came, "in place", 8) == 0, 1);
    want("port", from.endpoint.port, 49152);
    want("empty", smoltcp_udp_recv_place(&server, &from, &came), SMOLTCP_ERROR_EMPTY);
    want("empty", smoltcp_udp_peek_place(&server, &from, &came), SMOLTCP_ERROR_EMPTY);
}

/* A datagram from a port of a to a socket of b, and one back to where it came from. */
static void datagrams(void) {
    static const uint8_t text[] = "which address?";
    struct smoltcp_udp_metadata meta, from;
    uint8_t packet[MTU] = {0}, bytes[64];
    int64_t len;

    memset(&meta, 0, sizeof meta);
    meta.endpoint = endpoint(2, 53);
    want("init", make_datagram_sockets(), SMOLTCP_OK);
    bind_both(&meta);
    want("send", smoltcp_udp_send(&client, &meta, text, sizeof text), SMOLTCP_OK);
    want("waiting", smoltcp_udp_send_queue(&client), sizeof text);
    want("too long", smoltcp_udp_send(&client, &meta, packet, QUEUE), SMOLTCP_ERROR_ROOM);
    want("emit now", smoltcp_udp_poll_at(&client, &of_a), of_a.now);
    want("short", smoltcp_udp_dispatch(&client, &of_a, packet, 1), SMOLTCP_ERROR_ROOM);
    len = smoltcp_udp_dispatch(&client, &of_a, packet, sizeof packet);
    want("packet", len, 28 + sizeof text);
    want("hop limit", packet[8], 7);
    offer_to_both(packet, (size_t)len);
    want("can recv", smoltcp_udp_can_recv(&server), 1);
    want("two came", smoltcp_udp_recv_queue(&server), 2 * sizeof text);
    want("short", smoltcp_udp_peek(&server, &from, bytes, 1), SMOLTCP_ERROR_ROOM);
    want("lost", smoltcp_udp_recv(&server, &from, bytes, 1), SMOLTCP_ERROR_ROOM);
    want("peek", smoltcp_udp_peek(&server, &from, bytes, sizeof bytes), sizeof text);
    len = smoltcp_udp_recv(&server, &from, bytes, sizeof bytes);
    want("payload", len, sizeof text);
    want("bytes", memcmp(bytes, text, sizeof text), 0);
    printf("server reads: %s\n", (const char *)bytes);
    want("port", from.endpoint.port, 49152);
    want("empty", smoltcp_udp_recv(&server, &from, bytes, sizeof bytes), SMOLTCP_ERROR_EMPTY);
    want("answer", smoltcp_udp_send(&server, &from, text, 5), SMOLTCP_OK);
    want("carry", carry(&server, &of_b, &client, &of_a), SMOLTCP_OK);
    want("answer", smoltcp_udp_recv(&client, &from, bytes, sizeof bytes), 5);
    datagrams_in_place(&meta);
    want("close", smoltcp_udp_close(&server), SMOLTCP_OK);
    want("close", smoltcp_udp_close(&client), SMOLTCP_OK);
}

/* A raw socket sends a packet with a checksum of 0 on, and computes it. */
static void send_on(struct smoltcp_raw *raw, const uint8_t *packet, int64_t len) {
    uint8_t same[MTU];
    memcpy(same, packet, (size_t)len);
    same[10] = 0; same[11] = 0; /* the checksum, which a dispatch computes */
    want("can send", smoltcp_raw_can_send(raw), 1);
    want("send", smoltcp_raw_send(raw, same, (size_t)len), SMOLTCP_OK);
    want("waiting", smoltcp_raw_send_queue(raw), len);
    want("emit now", smoltcp_raw_poll_at(raw, &of_b), of_b.now);
    want("short", smoltcp_raw_dispatch(raw, &of_b, same, 1), SMOLTCP_ERROR_ROOM);
    want("dispatch", smoltcp_raw_dispatch(raw, &of_b, same, sizeof same), len);
    want("same", memcmp(packet, same, (size_t)len), 0);
    want("nothing to emit", smoltcp_raw_poll_at(raw, &of_b), INT64_MAX);
}

/* A raw socket takes the packet that a UDP socket emits, and sends it on: the packet is the same. */
static void whole_packets(void) {
    static struct smoltcp_raw_place places[2][2];
    static uint8_t bytes[2][QUEUE];
    struct smoltcp_raw_filter filter = {4, 0, 17};
    struct smoltcp_raw_buffer rx = {places[0], 2, bytes[0], QUEUE}, tx = {places[1], 2, bytes[1], QUEUE};
    struct smoltcp_udp_metadata meta;
    struct smoltcp_raw raw;
    uint8_t packet[MTU] = {0}, same[MTU];
    int64_t len;

    memset(&meta, 0, sizeof meta);
    meta.endpoint = endpoint(2, 53);
    want("init", make_datagram_sockets(), SMOLTCP_OK);
    want("bind", smoltcp_udp_bind(&client, &meta.endpoint), SMOLTCP_OK);
    want("send", smoltcp_udp_send(&client, &meta, packet, 10), SMOLTCP_OK);
    len = smoltcp_udp_dispatch(&client, &of_a, packet, sizeof packet);
    want("size", (int64_t)smoltcp_raw_size(), SMOLTCP_RAW_SIZE);
    want("size of a place", (int64_t)smoltcp_raw_place_size(), SMOLTCP_RAW_PLACE_SIZE);
    filter.version = 5;
    want("no version", smoltcp_raw_init(&raw, &filter, rx, tx), SMOLTCP_ERROR_RANGE);
    filter.version = 6;
    want("init", smoltcp_raw_init(&raw, &filter, rx, tx), SMOLTCP_OK);
    want("other version", smoltcp_raw_process(&raw, &of_b, packet, (size_t)len), SMOLTCP_NOT_ACCEPTED);
    filter.version = 4;
    want("init", smoltcp_raw_init(&raw, &filter, rx, tx), SMOLTCP_OK);
    want("filter", smoltcp_raw_ip_version(&raw) == 4 && smoltcp_raw_ip_protocol(&raw) == 17, 1);
    want("room", smoltcp_raw_packet_recv_capacity(&raw) == 2 && smoltcp_raw_payload_send_capacity(&raw) == QUEUE, 1);
    want("accepts", smoltcp_raw_accepts(&raw, packet, (size_t)len), 1);
    want("process", smoltcp_raw_process(&raw, &of_b, packet, (size_t)len), SMOLTCP_OK);
    want("waiting", smoltcp_raw_can_recv(&raw) == 1 && smoltcp_raw_recv_queue(&raw) == len, 1);
    want("short", smoltcp_raw_peek(&raw, same, 1), SMOLTCP_ERROR_ROOM);
    want("recv", smoltcp_raw_recv(&raw, same, sizeof same), len);
    want("same", memcmp(packet, same, (size_t)len), 0);
    want("empty", smoltcp_raw_recv(&raw, same, sizeof same), SMOLTCP_ERROR_EMPTY);
    send_on(&raw, packet, len);
}

/* Two places and some bytes. */
static struct smoltcp_icmp_buffer two_messages(struct smoltcp_icmp_place *places, uint8_t *bytes) {
    struct smoltcp_icmp_buffer buffer = {places, 2, bytes, QUEUE};
    return buffer;
}

/* An echo request with identifier 7 and number 1 and its reply, which b sends with the same text. */
static void echoes(void) {
    static const uint8_t request[] = {8, 0, 0, 0, 0, 7, 0, 1, 'p', 'i', 'n', 'g'};
    static const uint8_t reply[] = {0, 0, 0, 0, 0, 7, 0, 1, 'p', 'i', 'n', 'g'};
    static struct smoltcp_icmp pinger, answering;
    static struct smoltcp_icmp_place places[4][2];
    static uint8_t room[4][QUEUE];
    struct smoltcp_icmp_endpoint ident;
    struct smoltcp_address from, to_a = endpoint(1, 0).addr, to_b = endpoint(2, 0).addr;
    uint8_t packet[MTU], cut[MTU], bytes[64];
    int64_t len;

    memset(&ident, 0, sizeof ident);
    want("size", (int64_t)smoltcp_icmp_size(), SMOLTCP_ICMP_SIZE);
    want("size of a place", (int64_t)smoltcp_icmp_place_size(), SMOLTCP_ICMP_PLACE_SIZE);
    want("init", smoltcp_icmp_init(&pinger, two_messages(places[0], room[0]), two_messages(places[1], room[1])), 0);
    want("init", smoltcp_icmp_init(&answering, two_messages(places[2], room[2]), two_messages(places[3], room[3])), 0);
    want("no messages", smoltcp_icmp_bind(&pinger, &ident), SMOLTCP_ERROR_ADDRESS);
    ident.kind = SMOLTCP_ICMP_IDENT;
    ident.ident = 7;
    want("is open", smoltcp_icmp_is_open(&pinger), 0);
    want("bind", smoltcp_icmp_bind(&pinger, &ident), SMOLTCP_OK);
    want("bind", smoltcp_icmp_bind(&answering, &ident), SMOLTCP_OK);
    want("can send", smoltcp_icmp_can_send(&pinger), 1);
    want("places", smoltcp_icmp_packet_send_capacity(&pinger) + smoltcp_icmp_packet_recv_capacity(&pinger), 4);
    want("bytes", smoltcp_icmp_payload_recv_capacity(&pinger), QUEUE);
    want("hop limit", smoltcp_icmp_hop_limit(&pinger), 0);
    want("no message", smoltcp_icmp_send(&pinger, &to_b, request, 3), SMOLTCP_OK);
    want("dropped", smoltcp_icmp_dispatch(&pinger, &of_a, packet, sizeof packet), 0);
    want("send", smoltcp_icmp_send(&pinger, &to_b, request, sizeof request), SMOLTCP_OK);
    want("emit now", smoltcp_icmp_poll_at(&pinger, &of_a), of_a.now);
    want("short", smoltcp_icmp_dispatch(&pinger, &of_a, packet, 1), SMOLTCP_ERROR_ROOM);
    len = smoltcp_icmp_dispatch(&pinger, &of_a, packet, sizeof packet);
    want("packet", len, 20 + sizeof request);
    memcpy(cut, packet, (size_t)len);
    make_fragment(cut, 0);
    want("first fragment", smoltcp_icmp_process(&answering, &of_b, cut, (size_t)len), SMOLTCP_NOT_ACCEPTED);
    make_fragment(cut, 1);
    want("later fragment", smoltcp_icmp_process(&answering, &of_b, cut, (size_t)len), SMOLTCP_NOT_ACCEPTED);
    want("accepts", smoltcp_icmp_accepts(&answering, &of_b, packet, (size_t)len), 1);
    want("process", smoltcp_icmp_process(&answering, &of_b, packet, (size_t)len), SMOLTCP_OK);
    want("request", smoltcp_icmp_recv(&answering, &from, bytes, sizeof bytes), sizeof request);
    want("source", memcmp(from.v4, to_a.v4, 4), 0);
    want("send", smoltcp_icmp_send(&answering, &from, reply, sizeof reply), SMOLTCP_OK);
    len = smoltcp_icmp_dispatch(&answering, &of_b, packet, sizeof packet);
    want("process", smoltcp_icmp_process(&pinger, &of_a, packet, (size_t)len), SMOLTCP_OK);
    want("can recv", smoltcp_icmp_can_recv(&pinger), 1);
    want("reply", smoltcp_icmp_recv(&pinger, &from, bytes, sizeof bytes), sizeof reply);
    want("text", memcmp(bytes + 4, reply + 4, sizeof reply - 4), 0);
    printf("echo reply: %.*s\n", 4, (const char *)bytes + 8);
    want("empty", smoltcp_icmp_recv(&pinger, &from, bytes, sizeof bytes), SMOLTCP_ERROR_EMPTY);
}

/* The settings of a are read as they were set. */
static void settings(void) {
    want("timeout is", smoltcp_tcp_timeout(&a), 60000000);
    want("no keep-alive", smoltcp_tcp_keep_alive(&a), -1);
    want("delay is", smoltcp_tcp_ack_delay(&a), 10000);
    want("no delay", smoltcp_tcp_ack_delay(&b), -1);
    want("nagle is", smoltcp_tcp_nagle_enabled(&a), 0);
    want("hop limit is", smoltcp_tcp_hop_limit(&a), 32);
    want("control is", smoltcp_tcp_congestion_control(&a), SMOLTCP_CONGESTION_NONE);
    want("timestamps are", smoltcp_tcp_timestamp_enabled(&a), 1);
}

/* Bytes are written where they are sent from, and read where they came. */
static void without_copies(void) {
    const uint8_t *came = NULL;
    uint8_t *at = NULL;
    int64_t room = smoltcp_tcp_reserve(&a, &at);
    want("places", room > 0 && room <= ROOM, 1);
    want("too many", smoltcp_tcp_commit(&a, (size_t)room + 1), SMOLTCP_ERROR_RANGE);
    memcpy(at, "in place", 8);
    want("commit", smoltcp_tcp_commit(&a, 8), 8);
    run();
    want("lent", smoltcp_tcp_peek(&b, 100, &came), 8);
    want("as written", memcmp(came, "in place", 8), 0);
    want("more than lent", smoltcp_tcp_consume(&b, 9), SMOLTCP_ERROR_RANGE);
    want("consume", smoltcp_tcp_consume(&b, 3), 3);
    want("the rest", smoltcp_tcp_peek(&b, 2, &came) == 2 && memcmp(came, "pl", 2) == 0, 1);
    want("consume", smoltcp_tcp_consume(&b, 5), 5);
    want("empty", smoltcp_tcp_recv_queue(&b), 0);
}

/* A packet that is a fragment, and one that no socket takes. A fragment's header keeps a right checksum. */
static void refused(void) {
    static struct smoltcp_tcp c, d;
    static uint8_t c_rx[ROOM], c_tx[ROOM], d_rx[ROOM], d_tx[ROOM];
    struct smoltcp_endpoint at_a = endpoint(1, 49153), at_b = endpoint(2, 8);
    uint8_t packet[MTU], cut[MTU], reply[MTU];
    int64_t len, n;
    int k;

    want("init", smoltcp_tcp_init(&c, c_rx, ROOM, c_tx, ROOM), SMOLTCP_OK);
    want("init", smoltcp_tcp_init(&d, d_rx, ROOM, d_tx, ROOM), SMOLTCP_OK);
    want("listen", smoltcp_tcp_listen(&d, &at_b), SMOLTCP_OK);
    want("connect", smoltcp_tcp_connect(&c, &of_a, &at_b, &at_a), SMOLTCP_OK);
    len = smoltcp_tcp_dispatch(&c, &of_a, packet, sizeof packet);
    for (k = 0; k < 2; k++) {
        memcpy(cut, packet, (size_t)len);
        make_fragment(cut, k);
        want("fragment", smoltcp_tcp_process(&d, &of_b, cut, (size_t)len, reply, sizeof reply), SMOLTCP_NOT_ACCEPTED);
        want("still listens", smoltcp_tcp_state(&d), SMOLTCP_LISTEN);
    }
    n = smoltcp_tcp_reset(packet, (size_t)len, reply, sizeof reply);
    want("an RST", n, 40);
    want("for an RST", smoltcp_tcp_reset(reply, (size_t)n, packet, sizeof packet), 0);
    want("process", smoltcp_tcp_process(&c, &of_a, reply, (size_t)n, packet, sizeof packet), 0);
    want("reset", smoltcp_tcp_state(&c), SMOLTCP_CLOSED);
}

int main(void) {
    static const uint8_t line[] = "the quick brown fox\n";
    uint8_t bytes[64], reply[MTU];
    struct smoltcp_endpoint at_a = endpoint(1, 49152), at_b = endpoint(2, 7), end;
    int64_t n;

    of_a.ip_mtu = of_b.ip_mtu = MTU;
    of_a.word = 1000; of_b.word = 5000; /* one connection each: a program draws a word for each, and never the same */
    of_a.v4[0] = of_b.v4[0] = 10; of_a.v4[3] = 1; of_b.v4[3] = 2;

    /* What C may break is met. */
    want("size", (int64_t)smoltcp_tcp_size(), SMOLTCP_TCP_SIZE);
    want("null", smoltcp_tcp_close(NULL), SMOLTCP_ERROR_NULL);
    want("no buffer", smoltcp_tcp_init(&a, NULL, ROOM, a_tx, ROOM), SMOLTCP_ERROR_NULL);
    want("too long", smoltcp_tcp_init(&a, a_rx, (size_t)-1, a_tx, ROOM), SMOLTCP_ERROR_RANGE);
    want("init a", smoltcp_tcp_init(&a, a_rx, ROOM, a_tx, ROOM), SMOLTCP_OK);
    want("init b", smoltcp_tcp_init(&b, b_rx, ROOM, b_tx, ROOM), SMOLTCP_OK);
    want("closed", smoltcp_tcp_state(&a), SMOLTCP_CLOSED);
    want("capacity", smoltcp_tcp_recv_capacity(&a), ROOM);

    want("timeout a", smoltcp_tcp_set_timeout(&a, 60000000), SMOLTCP_OK);
    want("timeout b", smoltcp_tcp_set_timeout(&b, 60000000), SMOLTCP_OK);
    want("keep-alive b", smoltcp_tcp_set_keep_alive(&b, 15000000), SMOLTCP_OK);
    want("too long", smoltcp_tcp_set_keep_alive(&b, INT64_MAX), SMOLTCP_ERROR_RANGE);
    want("without end", smoltcp_tcp_set_keep_alive(&b, 0), SMOLTCP_ERROR_RANGE);
    want("ack delay", smoltcp_tcp_set_ack_delay(&b, -1), SMOLTCP_OK);
    want("nagle", smoltcp_tcp_set_nagle_enabled(&a, 0), SMOLTCP_OK);
    want("hop limit", smoltcp_tcp_set_hop_limit(&a, 32), SMOLTCP_OK);
    want("congestion control", smoltcp_tcp_set_congestion_control(&a, SMOLTCP_CONGESTION_NONE), SMOLTCP_OK);
    want("timestamps", smoltcp_tcp_set_timestamps(&a, 1) + smoltcp_tcp_set_timestamps(&b, 1), SMOLTCP_OK);
    settings();
    want("another kind", smoltcp_tcp_set_congestion_control(&a, 3), SMOLTCP_ERROR_RANGE);
    want("listen", smoltcp_tcp_listen(&b, &at_b), SMOLTCP_OK);
    want("connect", smoltcp_tcp_connect(&a, &of_a, &at_b, &at_a), SMOLTCP_OK);
    run();
    want("a", smoltcp_tcp_state(&a), SMOLTCP_ESTABLISHED);
    want("b", smoltcp_tcp_state(&b), SMOLTCP_ESTABLISHED);
    want("peer", smoltcp_tcp_remote_endpoint(&a, &end), 1);
    want("peer's port", end.port, 7);
    want("version", end.addr.version, 4);
    want("address", end.addr.v4[3], 2);
    want("own port", smoltcp_tcp_local_endpoint(&b, &end) == 1 && end.port == 7, 1);
    want("no peer", smoltcp_tcp_is_listening(&b), 0);
    want("open", smoltcp_tcp_is_open(&b) == 1 && smoltcp_tcp_is_active(&b) == 1, 1);
    want("both ways", smoltcp_tcp_may_send(&b) == 1 && smoltcp_tcp_may_recv(&b) == 1, 1);
    want("nothing to do", smoltcp_tcp_has_work(&b), 0);
    want("send", smoltcp_tcp_send(&a, line, sizeof line - 1), sizeof line - 1);
    run();
    want("can recv", smoltcp_tcp_can_recv(&b), 1);
    want("waiting", smoltcp_tcp_recv_queue(&b), sizeof line - 1);
    want("all there", smoltcp_tcp_send_queue(&a), 0);
    want("peek", smoltcp_tcp_peek_slice(&b, bytes, 3) == 3 && memcmp(bytes, line, 3) == 0, 1);
    n = smoltcp_tcp_recv(&b, bytes, sizeof bytes);
    want("recv", n, sizeof line - 1);
    printf("b reads: %.*s", (int)n, (const char *)bytes);
    want("echo", smoltcp_tcp_send(&b, bytes, (size_t)n), n);
    run();
    memset(bytes, 0, sizeof bytes);
    n = smoltcp_tcp_recv(&a, bytes, sizeof bytes);
    printf("a reads: %.*s", n > 0 ? (int)n : 0, (const char *)bytes);
    want("bytes", n == sizeof line - 1 && memcmp(bytes, line, (size_t)n) == 0, 1);
    without_copies();
    want("short", smoltcp_tcp_process(&a, &of_a, line, 1, reply, 1), SMOLTCP_ERROR_ROOM);
    want("no packet", smoltcp_tcp_process(&a, &of_a, line, 5, reply, sizeof reply), SMOLTCP_NOT_ACCEPTED);
    want("can send", smoltcp_tcp_can_send(&a), 1);
    want("close a", smoltcp_tcp_close(&a), SMOLTCP_OK);
    run();
    want("b", smoltcp_tcp_state(&b), SMOLTCP_CLOSE_WAIT);
    want("close b", smoltcp_tcp_close(&b), SMOLTCP_OK);
    run();
    want("b", smoltcp_tcp_state(&b), SMOLTCP_CLOSED);
    want("a", smoltcp_tcp_state(&a), SMOLTCP_TIME_WAIT);
    of_a.now = smoltcp_tcp_poll_at(&a, &of_a);
    run();
    want("a", smoltcp_tcp_state(&a), SMOLTCP_CLOSED);
    want("poll_at", smoltcp_tcp_poll_at(&a, &of_a), INT64_MAX);
    want("abort", smoltcp_tcp_abort(&b), SMOLTCP_OK);
    refused();
    datagrams();
    whole_packets();
    echoes();
    puts(failed ? "failed" : "ok");
    return failed;
}
