/* Two hosts in memory, whose packets are handed from one to the other: how they are made and let go of, and who gets a
 * packet. Expected values are what smoltcp_host.h says, and RFC 9293, 792 and 1122. With OWN_HEAP it has the three
 * functions of smoltcp_heap.h itself, and tries what becomes of a heap that refuses. */
#include <stdio.h>
#include <stdlib.h>
#include <string.h>

#include "smoltcp_heap.h"
#include "smoltcp_host.h"

enum { SOCKETS = 3, ROOM = 1000, BYTES = 5000, MTU = 1500, PLACES = 2, TIMES = 3 };

#define SECOND ((int64_t)1000000)

/* A side: its host, of the address 10.0.0.1 or 10.0.0.2, its own clock, and its sockets with their buffers. */
static struct side {
    struct smoltcp_host host;
    int64_t now;
    struct smoltcp_tcp tcp[SOCKETS];
    struct smoltcp_socket_id ids[SOCKETS];
    uint8_t rx[SOCKETS][ROOM], tx[SOCKETS][ROOM], sent[SOCKETS][BYTES], got[SOCKETS][BYTES];
    size_t sent_len[SOCKETS], got_len[SOCKETS];
} sides[2];

static struct smoltcp_key key;
static int serves, failed;

static void want(const char *what, int64_t is, int64_t wanted) {
    if (is == wanted) return;
    if (!failed) printf("%s: %lld, wanted %lld\n", what, (long long)is, (long long)wanted);
    failed = 1;
}

#ifdef OWN_HEAP
/* How many blocks are out, how many more there may be, and whether one may be taken or given back at all now. */
static int blocks, left = 1000, closed;
static uint8_t nowhere;

struct smoltcp_memory rattle_alloc(size_t n, size_t align) {
    struct smoltcp_memory memory = {0, &nowhere};
    void *p = left > 0 ? malloc(n ? n : 1) : NULL;
    want("nothing is allocated beside init", closed, 0);
    want("an alignment up to 16", align != 0 && 16 % align == 0, 1);
    if (!p) return memory;
    memory.ok = 1;
    memory.p = (uint8_t *)p;
    blocks++;
    left--;
    return memory;
}

struct smoltcp_memory rattle_realloc(uint8_t *p, size_t kept, size_t n, size_t align) {
    struct smoltcp_memory memory = rattle_alloc(n, align);
    if (memory.ok) {
        memcpy(memory.p, p, kept < n ? kept : n);
        rattle_dealloc(p);
    }
    return memory;
}

void rattle_dealloc(uint8_t *p) {
    want("nothing is given back beside release", closed, 0);
    blocks--;
    free(p);
}
#define CLOSED(is) (closed = (is))
#else
#define CLOSED(is) ((void)(is))
#endif

static struct smoltcp_cidr own(int last) {
    struct smoltcp_cidr cidr = {smoltcp_ipv4(10, 0, 0, (uint8_t)last), 24};
    return cidr;
}

static struct smoltcp_endpoint endpoint(int last, int port) {
    struct smoltcp_endpoint e = {smoltcp_ipv4(10, 0, 0, (uint8_t)last), (uint16_t)port};
    return e;
}

static struct smoltcp_tcp *tcp_at(struct side *side, int i) {
    struct smoltcp_tcp *s;
    want("lent", smoltcp_host_tcp(&side->host, &side->ids[i], &s), SMOLTCP_OK);
    return s;
}

/* A host of each side, on clocks that differ by an hour, with three sockets: the second side's listen at port 7. */
static void begin(void) {
    struct smoltcp_endpoint port = {{0, {0}, {0}}, 7};
    int i, n;
    for (i = 0; i < 2; i++) {
        struct side *side = &sides[i];
        struct smoltcp_cidr address = own(i + 1);
        memset(side, 0xa5, sizeof *side);
        side->now = i * 3600 * SECOND;
        key.bytes[0] = (uint8_t)(key.bytes[0] + 1);
        want("init", smoltcp_host_init(&side->host, SOCKETS, &address, 1, &key), SMOLTCP_OK);
        CLOSED(1);
        for (n = 0; n < SOCKETS; n++) {
            want("tcp", smoltcp_tcp_init(&side->tcp[n], side->rx[n], ROOM, side->tx[n], ROOM), SMOLTCP_OK);
            want("add", smoltcp_host_add_tcp(&side->host, &side->tcp[n], &side->ids[n]), SMOLTCP_OK);
            memset(&side->tcp[n], 0xa5, sizeof side->tcp[n]);
            if (i == 1) want("listen", smoltcp_tcp_listen(tcp_at(side, n), &port), SMOLTCP_OK);
            side->sent_len[n] = side->got_len[n] = 0;
        }
        CLOSED(0);
    }
}

/* Each host is let go of when its sockets are out of it. */
static void end(void) {
    uint8_t packet[MTU], *rx = NULL;
    int i, n;
    for (i = 0; i < 2; i++) {
        struct side *side = &sides[i];
        for (n = 0; n < SOCKETS; n++) {
            want("with sockets in it", smoltcp_host_release(&side->host), SMOLTCP_ERROR_STATE);
            smoltcp_tcp_abort(tcp_at(side, n));
            while (smoltcp_host_emit(&side->host, side->now, packet, sizeof packet) > 0) continue;
            want("remove", smoltcp_host_remove_tcp(&side->host, &side->ids[n], &side->tcp[n]), SMOLTCP_OK);
            want("release", smoltcp_tcp_release(&side->tcp[n], &rx, NULL), SMOLTCP_OK);
            want("its buffer", rx == side->rx[n], 1);
        }
        want("a host is let go of", smoltcp_host_release(&side->host), SMOLTCP_OK);
    }
}

/* Hands a packet to a side, what answers it to the other, and so on. */
static void hand(int to, const uint8_t *packet, int64_t len) {
    static uint8_t bytes[2][MTU];
    int turn = 0;
    memcpy(bytes[0], packet, (size_t)len);
    for (; len > 0; to = 1 - to, turn = 1 - turn) {
        struct side *side = &sides[to];
        len = smoltcp_host_receive(&side->host, side->now, bytes[turn], (size_t)len, bytes[1 - turn], MTU);
        want("an answer or none", len >= 0, 1);
    }
}

/* The second side sends back what came to the sockets that were touched, and closes behind a peer that has closed. */
static void serve_touched(void) {
    struct side *side = &sides[1];
    struct smoltcp_socket_id id;
    struct smoltcp_tcp *s;
    uint8_t bytes[ROOM];
    size_t place, from = 0;
    for (; smoltcp_host_touched(&side->host, from, &place) == 1; from = place + 1) {
        int64_t n, room;
        if (smoltcp_host_at(&side->host, place, &id) != 1) continue;
        want("a touched one is lent", smoltcp_host_tcp(&side->host, &id, &s), SMOLTCP_OK);
        room = smoltcp_tcp_send_capacity(s) - smoltcp_tcp_send_queue(s);
        n = smoltcp_tcp_recv(s, bytes, (size_t)room);
        if (n > 0) want("sent back", smoltcp_tcp_send(s, bytes, (size_t)n), n);
        if (n == SMOLTCP_ERROR_FINISHED) smoltcp_tcp_close(s);
    }
}

/* Hands over what both have to send, until neither has anything at its moment; the second side serves first. */
static void exchange(void) {
    uint8_t packet[MTU];
    int64_t len;
    int i, quiet = 0;
    for (i = 0; quiet < 2; i = 1 - i) {
        struct side *side = &sides[i];
        if (i == 1 && serves) serve_touched();
        for (quiet++; (len = smoltcp_host_emit(&side->host, side->now, packet, MTU)) > 0; quiet = 1) {
            hand(1 - i, packet, len);
        }
        want("emit", len, 0);
        want("then nothing is due yet", smoltcp_host_poll_at(&side->host) > side->now, 1);
    }
}

static void pass_time(int64_t micros) {
    sides[0].now += micros;
    sides[1].now += micros;
    exchange();
}

/* The first side's socket connects to port 7 of the second. */
static void connect_one(int i, int port) {
    struct smoltcp_endpoint peer = endpoint(2, 7), from = {{0, {0}, {0}}, 0};
    struct smoltcp_context cx;
    from.port = (uint16_t)port;
    want("context", smoltcp_host_context(&sides[0].host, &peer.addr, &cx), SMOLTCP_OK);
    want("connect", smoltcp_tcp_connect(tcp_at(&sides[0], i), &cx, &peer, &from), SMOLTCP_OK);
}

/* Sends what is left to send of a client's bytes, and takes what came back. */
static void go_on(struct side *side, int i) {
    struct smoltcp_tcp *s = tcp_at(side, i);
    int64_t n = smoltcp_tcp_send(s, side->sent[i] + side->sent_len[i], BYTES - side->sent_len[i]);
    if (n > 0) side->sent_len[i] += (size_t)n;
    n = smoltcp_tcp_recv(s, side->got[i] + side->got_len[i], BYTES - side->got_len[i]);
    if (n > 0) side->got_len[i] += (size_t)n;
    if (side->got_len[i] == BYTES) smoltcp_tcp_close(s);
}

/* Some KB through three connections at once, whose buffers hold less, and back. */
static void three_connections(void) {
    struct side *side = &sides[0];
    int i, round;
    size_t k;
    begin();
    serves = 1;
    CLOSED(1);
    for (i = 0; i < SOCKETS; i++) {
        for (k = 0; k < BYTES; k++) side->sent[i][k] = (uint8_t)(k * 7 + (size_t)i * 31 + k / 256);
        connect_one(i, 50000 + i);
    }
    for (round = 0; round < 200; round++) {
        pass_time(SECOND / 1000);
        for (i = 0; i < SOCKETS; i++) go_on(side, i);
        exchange();
    }
    for (i = 0; i < SOCKETS; i++) {
        want("all came back", (int64_t)side->got_len[i], BYTES);
        want("the same bytes", memcmp(side->sent[i], side->got[i], BYTES), 0);
    }
    pass_time(11 * SECOND);
    for (i = 0; i < SOCKETS; i++) {
        want("a client ends", smoltcp_tcp_ended(tcp_at(side, i)), SMOLTCP_END_FINISHED);
        want("a server ends", smoltcp_tcp_ended(tcp_at(&sides[1], i)), SMOLTCP_END_FINISHED);
    }
    CLOSED(0);
    serves = 0;
    end();
}

/* Who was touched: nobody after an emit that answered 0, and then the listener that took a SYN. A handshake that the
 * client does not go on with is given up after 30 seconds, without an RST. A packet that was cut is counted. */
static void touched(void) {
    struct side *server = &sides[1];
    uint8_t packet[MTU], reply[MTU];
    struct smoltcp_counters counters;
    struct smoltcp_socket_id nobody = {0, 0};
    uint64_t opened;
    size_t place = 77;
    int64_t len, n;
    begin();
    exchange();
    want("nobody", smoltcp_host_touched(&server->host, 0, &place), 0);
    want("out as it was", (int64_t)place, 77);
    connect_one(0, 50000);
    len = smoltcp_host_emit(&sides[0].host, sides[0].now, packet, MTU);
    want("a SYN", len > 0, 1);
    n = smoltcp_host_receive(&server->host, server->now, packet, (size_t)len, reply, MTU);
    if (n == 0) n = smoltcp_host_emit(&server->host, server->now, reply, 10);
    want("too short for a SYN|ACK", n, SMOLTCP_ERROR_ROOM);
    want("touched", smoltcp_host_touched(&server->host, 0, &place), 1);
    want("the first", (int64_t)place, 0);
    want("none behind it", smoltcp_host_touched(&server->host, 1, &place), 0);
    want("a handshake", smoltcp_tcp_state(tcp_at(server, 0)), SMOLTCP_SYN_RECEIVED);
    for (n = 0; n < 31; n++) {
        server->now += SECOND;
        while ((len = smoltcp_host_emit(&server->host, server->now, reply, MTU)) > 0) {
            want("no RST", reply[20 + 13] & 4, 0);
        }
    }
    want("ended", smoltcp_host_ended(&server->host, 0, &place), 1);
    want("the first", (int64_t)place, 0);
    want("none ended behind it", smoltcp_host_ended(&server->host, 1, &place), 0);
    want("opened", smoltcp_host_opened(&server->host, &server->ids[0], &opened), SMOLTCP_OK);
    want("once", (int64_t)opened, 1);
    want("it listens again", smoltcp_tcp_state(tcp_at(server, 0)), SMOLTCP_LISTEN);
    want("told once", smoltcp_host_ended(&server->host, 0, &place), 0);
    want("nobody's name", smoltcp_host_opened(&server->host, &nobody, &opened), SMOLTCP_ERROR_SOCKET);
    n = smoltcp_host_receive(&server->host, server->now, packet, 40, reply, MTU);
    want("a cut packet", n, 0);
    want("counters", smoltcp_host_counters(&server->host, &counters), SMOLTCP_OK);
    want("malformed", (int64_t)counters.malformed, 1);
    end();
}

/* With SYN cookies and no socket before the kept ones, a SYN takes none, and its acknowledgement does. */
static void cookies(void) {
    struct side *server = &sides[1];
    struct smoltcp_counters counters;
    uint8_t packet[MTU], reply[MTU];
    int64_t len;
    size_t place;
    begin();
    exchange();
    want("cookies", smoltcp_host_set_syn_cookies(&server->host, &key, 0), SMOLTCP_OK);
    connect_one(0, 50000);
    len = smoltcp_host_emit(&sides[0].host, sides[0].now, packet, MTU);
    len = smoltcp_host_receive(&server->host, server->now, packet, (size_t)len, reply, MTU);
    want("a SYN|ACK", len > 0, 1);
    want("of no socket", smoltcp_host_touched(&server->host, 0, &place), 0);
    hand(0, reply, len);
    exchange();
    smoltcp_host_counters(&server->host, &counters);
    want("one was sent", (int64_t)counters.cookies_sent, 1);
    want("one was taken", (int64_t)counters.cookies_taken, 1);
    want("a connection", smoltcp_tcp_state(tcp_at(server, 0)), SMOLTCP_ESTABLISHED);
    want("no more", smoltcp_host_stop_syn_cookies(&server->host), SMOLTCP_OK);
    connect_one(1, 50001);
    exchange();
    want("as before", smoltcp_tcp_state(tcp_at(server, 1)), SMOLTCP_ESTABLISHED);
    smoltcp_host_counters(&server->host, &counters);
    want("none more", (int64_t)counters.cookies_sent, 1);
    end();
}

/* A source has no more connections than are set, and other hosts do not care. */
static void most_of_source(void) {
    struct side *server = &sides[1];
    struct smoltcp_counters counters;
    begin();
    exchange();
    want("most", smoltcp_host_set_most_of_source(&server->host, 1), SMOLTCP_OK);
    want("key", smoltcp_host_set_answer_key(&server->host, 0x123456789abcdef), SMOLTCP_OK);
    connect_one(0, 50000);
    exchange();
    want("one connection", smoltcp_tcp_state(tcp_at(server, 0)), SMOLTCP_ESTABLISHED);
    connect_one(1, 50001);
    exchange();
    want("no second one", smoltcp_tcp_state(tcp_at(server, 1)), SMOLTCP_LISTEN);
    smoltcp_host_counters(&server->host, &counters);
    want("counted", (int64_t)counters.too_many, 1);
    want("any number", smoltcp_host_set_most_of_source(&server->host, 0), SMOLTCP_OK);
    pass_time(2000000);
    exchange();
    want("a second one", smoltcp_tcp_state(tcp_at(server, 1)), SMOLTCP_ESTABLISHED);
    end();
}

/* Where the heap refuses sooner or later, what was taken is given back. */
static void heap_refuses(const struct smoltcp_cidr *address) {
#ifdef OWN_HEAP
    struct smoltcp_host host;
    int most = 0;
    for (left = most; smoltcp_host_init(&host, SOCKETS, address, 1, &key) == SMOLTCP_ERROR_MEMORY; left = ++most) {
        want("all is given back", blocks, 0);
    }
    want("some are taken", most > 3 && blocks > 3, 1);
    want("release", smoltcp_host_release(&host), SMOLTCP_OK);
    want("all are given back", blocks, 0);
    left = 1000;
#else
    (void)address;
#endif
}

/* Hosts that are not made, and one without room for sockets. */
static void inits(void) {
    struct smoltcp_host host;
    struct smoltcp_cidr address = own(1), none = {{5, {0}, {0}}, 0}, two[2];
    struct smoltcp_socket_id id = {77, 77};
    static uint8_t rx[ROOM], tx[ROOM];
    struct smoltcp_tcp tcp;
    two[0] = address;
    two[1] = none;
    want("size", (int64_t)smoltcp_host_size(), sizeof host);
    want("no address", smoltcp_host_init(&host, SOCKETS, &none, 1, &key), SMOLTCP_ERROR_ADDRESS);
    want("one is none", smoltcp_host_init(&host, SOCKETS, two, 2, &key), SMOLTCP_ERROR_ADDRESS);
    want("too many", smoltcp_host_init(&host, (size_t)-1, &address, 1, &key), SMOLTCP_ERROR_MEMORY);
    want("smaller", smoltcp_host_init_sized(&host, sizeof host - 8, 0, &address, 1, &key), SMOLTCP_ERROR_VERSION);
    heap_refuses(&address);
    want("by the symbol", (smoltcp_host_init)(&host, 0, &address, 1, &key), SMOLTCP_OK);
    want("tcp", smoltcp_tcp_init(&tcp, rx, ROOM, tx, ROOM), SMOLTCP_OK);
    want("no room", smoltcp_host_add_tcp(&host, &tcp, &id), SMOLTCP_ERROR_ROOM);
    want("no name", id.index == 77 && id.generation == 77, 1);
    want("the socket is there", smoltcp_tcp_release(&tcp, NULL, NULL), SMOLTCP_OK);
    want("nobody", smoltcp_host_at(&host, 0, &id), 0);
    want("nothing to do", smoltcp_host_poll_at(&host), INT64_MAX);
    want("release", smoltcp_host_release(&host), SMOLTCP_OK);
}

/* Sockets of the other kinds, in memory of their own. */
static struct smoltcp_udp udp[2];
static struct smoltcp_icmp icmp;
static struct smoltcp_raw raw;
static struct smoltcp_udp_place udp_places[4][PLACES];
static struct smoltcp_icmp_place icmp_places[2][PLACES];
static struct smoltcp_raw_place raw_places[2][PLACES];
static uint8_t bytes_of[8][ROOM];

static void make_others(void) {
    struct smoltcp_udp_buffer u[4];
    struct smoltcp_icmp_buffer i = {icmp_places[0], PLACES, bytes_of[4], ROOM};
    struct smoltcp_icmp_buffer j = {icmp_places[1], PLACES, bytes_of[5], ROOM};
    struct smoltcp_raw_buffer r = {raw_places[0], PLACES, bytes_of[6], ROOM};
    struct smoltcp_raw_buffer s = {raw_places[1], PLACES, bytes_of[7], ROOM};
    struct smoltcp_raw_filter datagrams = {4, 0, 17};
    int n;
    for (n = 0; n < 4; n++) {
        u[n].places = udp_places[n];
        u[n].count = PLACES;
        u[n].bytes = bytes_of[n];
        u[n].len = ROOM;
    }
    want("udp", smoltcp_udp_init(&udp[0], u[0], u[1]), SMOLTCP_OK);
    want("udp", smoltcp_udp_init(&udp[1], u[2], u[3]), SMOLTCP_OK);
    want("icmp", smoltcp_icmp_init(&icmp, i, j), SMOLTCP_OK);
    want("raw", smoltcp_raw_init(&raw, &datagrams, r, s), SMOLTCP_OK);
}

/* Two hosts, of which the first has a UDP, an ICMP and a raw socket, and the second a UDP socket, at ports 1000 and 9;
 * the names of the first's are written into ids. */
static void begin_others(struct smoltcp_socket_id ids[3], struct smoltcp_socket_id *of_second) {
    struct smoltcp_endpoint port = {{0, {0}, {0}}, 1000};
    struct smoltcp_icmp_endpoint echoes;
    struct smoltcp_cidr address;
    int i;
    memset(&echoes, 0, sizeof echoes);
    echoes.kind = SMOLTCP_ICMP_IDENT;
    echoes.ident = 0x1234;
    make_others();
    for (i = 0; i < 2; i++) {
        sides[i].now = 0;
        address = own(i + 1);
        key.bytes[0] = (uint8_t)(key.bytes[0] + 1);
        want("init", smoltcp_host_init(&sides[i].host, SOCKETS, &address, 1, &key), SMOLTCP_OK);
    }
    want("bind", smoltcp_udp_bind(&udp[0], &port), SMOLTCP_OK);
    port.port = 9;
    want("bind", smoltcp_udp_bind(&udp[1], &port), SMOLTCP_OK);
    want("bind", smoltcp_icmp_bind(&icmp, &echoes), SMOLTCP_OK);
    want("add", smoltcp_host_add_udp(&sides[0].host, &udp[0], &ids[0]), SMOLTCP_OK);
    want("add", smoltcp_host_add_icmp(&sides[0].host, &icmp, &ids[1]), SMOLTCP_OK);
    want("add", smoltcp_host_add_raw(&sides[0].host, &raw, &ids[2]), SMOLTCP_OK);
    want("add", smoltcp_host_add_udp(&sides[1].host, &udp[1], of_second), SMOLTCP_OK);
}

static void end_others(const struct smoltcp_socket_id ids[3], const struct smoltcp_socket_id *of_second) {
    want("remove", smoltcp_host_remove_udp(&sides[0].host, &ids[0], &udp[0]), SMOLTCP_OK);
    want("remove", smoltcp_host_remove_icmp(&sides[0].host, &ids[1], &icmp), SMOLTCP_OK);
    want("remove", smoltcp_host_remove_raw(&sides[0].host, &ids[2], &raw), SMOLTCP_OK);
    want("remove", smoltcp_host_remove_udp(&sides[1].host, of_second, &udp[1]), SMOLTCP_OK);
    want("release", smoltcp_udp_release(&udp[0], NULL, NULL), SMOLTCP_OK);
    want("release", smoltcp_udp_release(&udp[1], NULL, NULL), SMOLTCP_OK);
    want("release", smoltcp_icmp_release(&icmp, NULL, NULL), SMOLTCP_OK);
    want("release", smoltcp_raw_release(&raw, NULL, NULL), SMOLTCP_OK);
    want("release", smoltcp_host_release(&sides[0].host), SMOLTCP_OK);
    want("release", smoltcp_host_release(&sides[1].host), SMOLTCP_OK);
}

static void send_datagram(const struct smoltcp_socket_id *id, int port) {
    struct smoltcp_udp_metadata to;
    struct smoltcp_udp *s;
    memset(&to, 0, sizeof to);
    to.endpoint = endpoint(2, port);
    want("lent", smoltcp_host_udp(&sides[0].host, id, &s), SMOLTCP_OK);
    want("send", smoltcp_udp_send(s, &to, (const uint8_t *)"ask", 3), SMOLTCP_OK);
    exchange();
}

/* A datagram, one for nobody, a ping, and what a raw socket has copies of. */
static void datagrams_and_pings(void) {
    static const uint8_t ping[11] = {8, 0, 0, 0, 0x12, 0x34, 0, 1, 'p', 'i', 'n'};
    struct smoltcp_socket_id ids[3], of_second;
    struct smoltcp_udp_metadata from;
    struct smoltcp_counters counters;
    struct smoltcp_address peer = endpoint(2, 0).addr;
    struct smoltcp_udp *u;
    struct smoltcp_icmp *i;
    struct smoltcp_raw *r;
    uint8_t data[ROOM];
    begin_others(ids, &of_second);
    send_datagram(&ids[0], 9);
    want("lent", smoltcp_host_udp(&sides[1].host, &of_second, &u), SMOLTCP_OK);
    want("a datagram", smoltcp_udp_recv(u, &from, data, sizeof data), 3);
    want("its source", from.endpoint.port == 1000 && from.endpoint.addr.v4[3] == 1, 1);
    want("sent back", smoltcp_udp_send(u, &from, data, 3), SMOLTCP_OK);
    exchange();
    want("lent", smoltcp_host_raw(&sides[0].host, &ids[2], &r), SMOLTCP_OK);
    want("a copy of it", smoltcp_raw_recv(r, data, sizeof data), 20 + 8 + 3);
    want("lent", smoltcp_host_udp(&sides[0].host, &ids[0], &u), SMOLTCP_OK);
    want("an answer", smoltcp_udp_recv(u, &from, data, sizeof data), 3);
    send_datagram(&ids[0], 10);
    smoltcp_host_counters(&sides[1].host, &counters);
    want("for nobody", (int64_t)counters.nobody, 1);
    want("lent", smoltcp_host_icmp(&sides[0].host, &ids[1], &i), SMOLTCP_OK);
    want("a ping", smoltcp_icmp_send(i, &peer, ping, sizeof ping), SMOLTCP_OK);
    exchange();
    want("lent", smoltcp_host_icmp(&sides[0].host, &ids[1], &i), SMOLTCP_OK);
    want("its answer", smoltcp_icmp_recv(i, &peer, data, sizeof data), sizeof ping);
    want("of the same bytes", data[0] == 0 && memcmp(data + 4, ping + 4, sizeof ping - 4) == 0, 1);
    end_others(ids, &of_second);
}

int main(void) {
    int n;
    for (n = 0; n < TIMES; n++) {
        inits();
        three_connections();
        touched();
        cookies();
    most_of_source();
        datagrams_and_pings();
    }
#ifdef OWN_HEAP
    want("all is given back", blocks, 0);
#endif
    printf(failed ? "FAILED\n" : "hosts: passed\n");
    return failed;
}
