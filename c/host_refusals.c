/* What a refused call on a host leaves, how sockets are named, and its settings. Expected values are what
 * smoltcp_host.h says. */
#include <stdio.h>
#include <string.h>

#include "smoltcp_host.h"

enum { ROOM = 100, MTU = 1500 };

static struct smoltcp_host host;
static struct smoltcp_tcp tcp, tcp_was;
static struct smoltcp_udp udp;
static struct smoltcp_raw raw;
static struct smoltcp_icmp icmp;
static struct smoltcp_udp_place udp_places[2];
static struct smoltcp_raw_place raw_places[2];
static struct smoltcp_icmp_place icmp_places[2];
static uint8_t bytes[8][ROOM];
static struct smoltcp_key key = {{1, 2, 3}};
static int failed;

static void want(const char *what, int64_t is, int64_t wanted) {
    if (is == wanted) return;
    if (!failed) printf("%s: %lld, wanted %lld\n", what, (long long)is, (long long)wanted);
    failed = 1;
}

static void make_host(size_t capacity) {
    struct smoltcp_cidr address = {{4, {10, 0, 0, 1}, {0}}, 24};
    want("init", smoltcp_host_init(&host, capacity, &address, 1, &key), SMOLTCP_OK);
}

static void make_tcp(void) {
    want("tcp", smoltcp_tcp_init(&tcp, bytes[0], ROOM, bytes[1], ROOM), SMOLTCP_OK);
}

static void make_others(void) {
    struct smoltcp_udp_buffer u = {&udp_places[0], 1, bytes[2], ROOM}, v = {&udp_places[1], 1, bytes[3], ROOM};
    struct smoltcp_raw_buffer r = {&raw_places[0], 1, bytes[4], ROOM}, s = {&raw_places[1], 1, bytes[5], ROOM};
    struct smoltcp_icmp_buffer i = {&icmp_places[0], 1, bytes[6], ROOM}, j = {&icmp_places[1], 1, bytes[7], ROOM};
    struct smoltcp_raw_filter any = {0, 1, 0};
    want("udp", smoltcp_udp_init(&udp, u, v), SMOLTCP_OK);
    want("raw", smoltcp_raw_init(&raw, &any, r, s), SMOLTCP_OK);
    want("icmp", smoltcp_icmp_init(&icmp, i, j), SMOLTCP_OK);
}

/* No call of another kind, and none by a name that is no longer one, finds a socket, and each leaves its memory. */
static void finds_none(const struct smoltcp_socket_id *id, int is_tcp, int is_udp, int is_raw, int is_icmp) {
    struct smoltcp_tcp *t = &tcp;
    struct smoltcp_udp *u = &udp;
    struct smoltcp_raw *r = &raw;
    struct smoltcp_icmp *i = &icmp;
    if (!is_tcp) {
        memset(&tcp, 0xa5, sizeof tcp);
        tcp_was = tcp;
        want("another kind", smoltcp_host_tcp(&host, id, &t), SMOLTCP_ERROR_SOCKET);
        want("no pointer", t == NULL, 1);
        want("a call on it", smoltcp_tcp_state(t), SMOLTCP_ERROR_NULL);
        want("another kind", smoltcp_host_remove_tcp(&host, id, &tcp), SMOLTCP_ERROR_SOCKET);
        want("nothing is written", memcmp(&tcp, &tcp_was, sizeof tcp), 0);
    }
    if (!is_udp) want("another kind", smoltcp_host_udp(&host, id, &u), SMOLTCP_ERROR_SOCKET);
    if (!is_udp) want("another kind", smoltcp_host_remove_udp(&host, id, &udp), SMOLTCP_ERROR_SOCKET);
    if (!is_raw) want("another kind", smoltcp_host_raw(&host, id, &r), SMOLTCP_ERROR_SOCKET);
    if (!is_raw) want("another kind", smoltcp_host_remove_raw(&host, id, &raw), SMOLTCP_ERROR_SOCKET);
    if (!is_icmp) want("another kind", smoltcp_host_icmp(&host, id, &i), SMOLTCP_ERROR_SOCKET);
    if (!is_icmp) want("another kind", smoltcp_host_remove_icmp(&host, id, &icmp), SMOLTCP_ERROR_SOCKET);
}

/* A host with room for three has four: the fourth stays where it lies. */
static void names(void) {
    struct smoltcp_socket_id t, u, r, i = {77, 77}, again, none = {4, 0}, far_off = {(size_t)-1, 0};
    make_host(3);
    make_tcp();
    make_others();
    want("add", smoltcp_host_add_tcp(&host, &tcp, &t), SMOLTCP_OK);
    want("add", smoltcp_host_add_udp(&host, &udp, &u), SMOLTCP_OK);
    want("add", smoltcp_host_add_raw(&host, &raw, &r), SMOLTCP_OK);
    want("full", smoltcp_host_add_icmp(&host, &icmp, &i), SMOLTCP_ERROR_ROOM);
    want("no name", i.index == 77 && i.generation == 77, 1);
    want("it is there", smoltcp_icmp_is_open(&icmp), 0);
    want("places", t.index == 0 && u.index == 1 && r.index == 2, 1);
    finds_none(&t, 1, 0, 0, 0);
    finds_none(&u, 0, 1, 0, 0);
    finds_none(&r, 0, 0, 1, 0);
    finds_none(&none, 0, 0, 0, 0);
    finds_none(&far_off, 0, 0, 0, 0);
    make_others();
    want("remove", smoltcp_host_remove_udp(&host, &u, &udp), SMOLTCP_OK);
    finds_none(&u, 0, 0, 0, 0);
    want("nobody", smoltcp_host_at(&host, 1, &again), 0);
    want("in its place", smoltcp_host_add_icmp(&host, &icmp, &i), SMOLTCP_OK);
    want("another name", i.index == 1 && i.generation != u.generation, 1);
    want("by its place", smoltcp_host_at(&host, 1, &again), 1);
    want("that name", again.index == 1 && again.generation == i.generation, 1);
    finds_none(&i, 0, 0, 0, 1);
    finds_none(&u, 0, 0, 0, 0);
    want("no place", smoltcp_host_at(&host, 3, &again), 0);
    want("with sockets in it", smoltcp_host_release(&host), SMOLTCP_ERROR_STATE);
    want("remove", smoltcp_host_remove_tcp(&host, &t, &tcp), SMOLTCP_OK);
    want("remove", smoltcp_host_remove_raw(&host, &r, &raw), SMOLTCP_OK);
    want("with one in it", smoltcp_host_release(&host), SMOLTCP_ERROR_STATE);
    want("remove", smoltcp_host_remove_icmp(&host, &i, &icmp), SMOLTCP_OK);
    want("release", smoltcp_tcp_release(&tcp, NULL, NULL), SMOLTCP_OK);
    want("release", smoltcp_raw_release(&raw, NULL, NULL), SMOLTCP_OK);
    want("release", smoltcp_icmp_release(&icmp, NULL, NULL), SMOLTCP_OK);
    want("release", smoltcp_host_release(&host), SMOLTCP_OK);
}

/* The user timeout of a socket is the host's after an emit, unless that has none. */
static void guards(void) {
    struct smoltcp_guards ours = {-1, -1, -1, 7000000}, none = {-1, -1, -1, -1};
    struct smoltcp_socket_id id;
    struct smoltcp_tcp *s;
    uint8_t packet[MTU];
    make_host(1);
    make_tcp();
    want("add", smoltcp_host_add_tcp(&host, &tcp, &id), SMOLTCP_OK);
    want("emit", smoltcp_host_emit(&host, 1, packet, MTU), 0);
    want("lent", smoltcp_host_tcp(&host, &id, &s), SMOLTCP_OK);
    want("the usual timeout", smoltcp_tcp_timeout(s), 60000000);
    want("guards", smoltcp_host_set_guards(&host, &ours), SMOLTCP_OK);
    want("emit", smoltcp_host_emit(&host, 2, packet, MTU), 0);
    want("lent", smoltcp_host_tcp(&host, &id, &s), SMOLTCP_OK);
    want("ours", smoltcp_tcp_timeout(s), 7000000);
    want("set", smoltcp_tcp_set_timeout(s, 9000000), SMOLTCP_OK);
    want("guards", smoltcp_host_set_guards(&host, &none), SMOLTCP_OK);
    want("emit", smoltcp_host_emit(&host, 3, packet, MTU), 0);
    want("lent", smoltcp_host_tcp(&host, &id, &s), SMOLTCP_OK);
    want("its own", smoltcp_tcp_timeout(s), 9000000);
    want("remove", smoltcp_host_remove_tcp(&host, &id, &tcp), SMOLTCP_OK);
    want("release", smoltcp_host_release(&host), SMOLTCP_OK);
}

static void settings(void) {
    static const uint8_t link_local[16] = {0xfe, 0x80, [15] = 2};
    struct smoltcp_address v4 = smoltcp_ipv4(10, 0, 0, 9), v6 = smoltcp_ipv6(link_local), none = {0, {0}, {0}}, group;
    struct smoltcp_context one, two;
    uint8_t packet[MTU] = {0}, reply[MTU];
    int n;
    make_host(0);
    want("shorter than the MTU", smoltcp_host_receive(&host, 5, packet, 20, reply, MTU - 1), SMOLTCP_ERROR_ROOM);
    want("no packet", smoltcp_host_receive(&host, 6, packet, 0, reply, MTU), 0);
    want("MTU", smoltcp_host_set_mtu(&host, 9), SMOLTCP_OK);
    want("the shortest reply", smoltcp_host_receive(&host, 7, packet, 20, reply, SMOLTCP_REPLY_ROOM), 0);
    want("shorter", smoltcp_host_receive(&host, 8, packet, 20, reply, SMOLTCP_REPLY_ROOM - 1), SMOLTCP_ERROR_ROOM);
    want("context", smoltcp_host_context(&host, &v4, &one), SMOLTCP_OK);
    want("context", smoltcp_host_context(&host, &v6, &two), SMOLTCP_OK);
    want("the moment", one.now == 7 && two.now == 7, 1);
    want("the nearest MTU", one.ip_mtu, 68);
    want("the own address", one.v4[0] == 10 && one.v4[3] == 1, 1);
    want("none of that version", memcmp(two.v4, none.v4, 4) == 0 && memcmp(two.v6, none.v6, 16) == 0, 1);
    want("another word", one.word != two.word, 1);
    for (n = 1; n <= 5; n++) {
        group = smoltcp_ipv4(224, 0, 0, (uint8_t)n);
        want("join", smoltcp_host_join(&host, &group), n <= 4 ? SMOLTCP_OK : SMOLTCP_ERROR_ROOM);
    }
    want("no group", smoltcp_host_join(&host, &v4), SMOLTCP_ERROR_ADDRESS);
    want("no group", smoltcp_host_leave(&host, &v4), SMOLTCP_ERROR_ADDRESS);
    want("no address", smoltcp_host_join(&host, &none), SMOLTCP_ERROR_ADDRESS);
    want("never joined", smoltcp_host_leave(&host, &group), SMOLTCP_OK);
    group = smoltcp_ipv4(224, 0, 0, 1);
    want("leave", smoltcp_host_leave(&host, &group), SMOLTCP_OK);
    group = smoltcp_ipv4(224, 0, 0, 5);
    want("join in its place", smoltcp_host_join(&host, &group), SMOLTCP_OK);
    want("release", smoltcp_host_release(&host), SMOLTCP_OK);
}

/* A host chooses addresses and ports, and refuses what is in use (RFC 6056, section 3.3.1). */
static void connections(void) {
    static uint8_t more[2][ROOM];
    struct smoltcp_endpoint server = {{4, {10, 0, 0, 2}, {0}}, 80}, mine, own = {{0, {0}, {0}}, 0}, nobody = server;
    struct smoltcp_socket_id a, b, none = {2, 1};
    struct smoltcp_tcp *s, second;
    uint8_t packet[MTU];
    make_host(3);
    make_tcp();
    want("tcp", smoltcp_tcp_init(&second, more[0], ROOM, more[1], ROOM), SMOLTCP_OK);
    want("add", smoltcp_host_add_tcp(&host, &tcp, &a), SMOLTCP_OK);
    want("add", smoltcp_host_add_tcp(&host, &second, &b), SMOLTCP_OK);
    want("connect", smoltcp_host_connect(&host, &a, &server, NULL), SMOLTCP_OK);
    want("open", smoltcp_host_connect(&host, &a, &server, NULL), SMOLTCP_ERROR_STATE);
    want("lent", smoltcp_host_tcp(&host, &a, &s), SMOLTCP_OK);
    want("local", smoltcp_tcp_local_endpoint(s, &mine), 1);
    want("the own address", mine.addr.version == 4 && mine.addr.v4[3] == 1 && mine.port >= 49152, 1);
    want("in use", smoltcp_host_connect(&host, &b, &server, &mine), SMOLTCP_ERROR_IN_USE);
    nobody.port = 0;
    want("no port", smoltcp_host_connect(&host, &b, &nobody, NULL), SMOLTCP_ERROR_ADDRESS);
    own.addr = smoltcp_ipv4(10, 0, 0, 3);
    want("foreign", smoltcp_host_connect(&host, &b, &server, &own), SMOLTCP_ERROR_ADDRESS);
    nobody = server;
    nobody.addr.version = 6;
    want("no address of that version", smoltcp_host_connect(&host, &b, &nobody, NULL), SMOLTCP_ERROR_ADDRESS);
    want("no socket", smoltcp_host_connect(&host, &none, &server, NULL), SMOLTCP_ERROR_SOCKET);
    own.addr = smoltcp_ipv4(10, 0, 0, 1);
    own.port = mine.port == 50000 ? 50001 : 50000;
    want("a given one", smoltcp_host_connect(&host, &b, &server, &own), SMOLTCP_OK);
    want("a SYN", smoltcp_host_emit(&host, 1, packet, MTU) > 40 && packet[33] == 2, 1);
    want("a SYN", smoltcp_host_emit(&host, 1, packet, MTU) > 40 && packet[33] == 2, 1);
    want("drop", smoltcp_host_drop_tcp(&host, &a), SMOLTCP_OK);
    want("due", smoltcp_host_poll_at(&host) <= 1, 1);
    want("short", smoltcp_host_emit(&host, 1, packet, 39), SMOLTCP_ERROR_ROOM);
    want("an RST", smoltcp_host_emit(&host, 1, packet, MTU) == 40 && (packet[33] & 4) != 0, 1);
    want("from there", packet[20] * 256 + packet[21] == mine.port && packet[19] == 2, 1);
    want("once", smoltcp_host_emit(&host, 1, packet, MTU), 0);
    want("gone", smoltcp_host_drop_tcp(&host, &a), SMOLTCP_ERROR_SOCKET);
    want("drop", smoltcp_host_drop_tcp(&host, &b), SMOLTCP_OK);
    want("release", smoltcp_host_release(&host), SMOLTCP_OK);
}

static void bindings(void) {
    struct smoltcp_endpoint at = {{0, {0}, {0}}, 0};
    struct smoltcp_socket_id a, none = {1, 1};
    int64_t port;
    make_host(2);
    make_others();
    want("add", smoltcp_host_add_udp(&host, &udp, &a), SMOLTCP_OK);
    port = smoltcp_host_bind_udp(&host, &a, NULL);
    want("a port of programs", port >= 49152 && port <= 65535, 1);
    want("bound", smoltcp_host_bind_udp(&host, &a, NULL), SMOLTCP_ERROR_STATE);
    at.port = (uint16_t)port;
    want("in use", smoltcp_host_bind_udp(&host, &none, &at), SMOLTCP_ERROR_IN_USE);
    at.port = 7;
    want("no socket", smoltcp_host_bind_udp(&host, &none, &at), SMOLTCP_ERROR_SOCKET);
    want("remove", smoltcp_host_remove_udp(&host, &a, &udp), SMOLTCP_OK);
    want("release", smoltcp_udp_release(&udp, NULL, NULL), SMOLTCP_OK);
    want("release", smoltcp_host_release(&host), SMOLTCP_OK);
}

static void addresses(void) {
    struct smoltcp_cidr next = {{4, {10, 0, 0, 7}, {0}}, 24}, unset = {{0, {0}, {0}}, 0};
    struct smoltcp_address peer = smoltcp_ipv4(10, 0, 0, 2);
    struct smoltcp_context cx;
    size_t slots = 0;
    make_host(2);
    want("capacity", smoltcp_host_capacity(&host, &slots) == SMOLTCP_OK && slots == 2, 1);
    want("no address", smoltcp_host_set_addresses(&host, &unset, 1), SMOLTCP_ERROR_ADDRESS);
    want("context", smoltcp_host_context(&host, &peer, &cx) == SMOLTCP_OK && cx.v4[3] == 1, 1);
    want("another", smoltcp_host_set_addresses(&host, &next, 1), SMOLTCP_OK);
    want("context", smoltcp_host_context(&host, &peer, &cx) == SMOLTCP_OK && cx.v4[3] == 7, 1);
    want("none", smoltcp_host_set_addresses(&host, NULL, 0), SMOLTCP_OK);
    want("context", smoltcp_host_context(&host, &peer, &cx) == SMOLTCP_OK && cx.v4[0] == 0, 1);
    want("release", smoltcp_host_release(&host), SMOLTCP_OK);
}

#define NULLS(call) want(#call, call, SMOLTCP_ERROR_NULL)

/* Of each call, every pointer in turn. */
static void nulls(void) {
    struct smoltcp_cidr address = {{4, {10, 0, 0, 1}, {0}}, 24};
    struct smoltcp_socket_id id = {0, 0};
    struct smoltcp_guards limits = {0, 0, 0, 0};
    struct smoltcp_counters counters;
    struct smoltcp_context cx;
    struct smoltcp_endpoint at = {{0, {0}, {0}}, 80};
    uint8_t packet[MTU];
    uint64_t opened;
    size_t place;
    NULLS(smoltcp_host_init((struct smoltcp_host *)NULL, 1, &address, 1, &key));
    NULLS(smoltcp_host_init(&host, 1, NULL, 1, &key));
    NULLS(smoltcp_host_init(&host, 1, &address, 1, NULL));
    NULLS((smoltcp_host_init)(NULL, 1, &address, 1, &key));
    make_host(1);
    NULLS(smoltcp_host_release(NULL));
    NULLS(smoltcp_host_set_mtu(NULL, MTU));
    NULLS(smoltcp_host_set_guards(NULL, &limits));
    NULLS(smoltcp_host_set_guards(&host, NULL));
    NULLS(smoltcp_host_set_syn_cookies(NULL, &key, 0));
    NULLS(smoltcp_host_set_syn_cookies(&host, NULL, 0));
    NULLS(smoltcp_host_stop_syn_cookies(NULL));
    NULLS(smoltcp_host_set_most_of_source(NULL, 1));
    NULLS(smoltcp_host_set_answer_key(NULL, 1));
    NULLS(smoltcp_host_join(NULL, &address.address));
    NULLS(smoltcp_host_join(&host, NULL));
    NULLS(smoltcp_host_leave(NULL, &address.address));
    NULLS(smoltcp_host_leave(&host, NULL));
    NULLS(smoltcp_host_counters(NULL, &counters));
    NULLS(smoltcp_host_counters(&host, NULL));
    NULLS(smoltcp_host_receive(NULL, 0, packet, 0, packet, MTU));
    NULLS(smoltcp_host_receive(&host, 0, NULL, 1, packet, MTU));
    NULLS(smoltcp_host_receive(&host, 0, packet, 0, NULL, MTU));
    NULLS(smoltcp_host_emit(NULL, 0, packet, MTU));
    NULLS(smoltcp_host_emit(&host, 0, NULL, MTU));
    want("poll_at", smoltcp_host_poll_at(NULL), INT64_MIN);
    NULLS(smoltcp_host_context(NULL, &address.address, &cx));
    NULLS(smoltcp_host_context(&host, NULL, &cx));
    NULLS(smoltcp_host_context(&host, &address.address, NULL));
    NULLS(smoltcp_host_connect(NULL, &id, &at, NULL));
    NULLS(smoltcp_host_connect(&host, NULL, &at, NULL));
    NULLS(smoltcp_host_connect(&host, &id, NULL, NULL));
    NULLS(smoltcp_host_bind_udp(NULL, &id, NULL));
    NULLS(smoltcp_host_bind_udp(&host, NULL, NULL));
    NULLS(smoltcp_host_drop_tcp(NULL, &id));
    NULLS(smoltcp_host_drop_tcp(&host, NULL));
    NULLS(smoltcp_host_set_addresses(NULL, &address, 1));
    NULLS(smoltcp_host_set_addresses(&host, NULL, 1));
    NULLS(smoltcp_host_capacity(NULL, &place));
    NULLS(smoltcp_host_capacity(&host, NULL));
    NULLS(smoltcp_host_at(NULL, 0, &id));
    NULLS(smoltcp_host_at(&host, 0, NULL));
    NULLS(smoltcp_host_touched(NULL, 0, &place));
    NULLS(smoltcp_host_touched(&host, 0, NULL));
    NULLS(smoltcp_host_ended(NULL, 0, &place));
    NULLS(smoltcp_host_ended(&host, 0, NULL));
    NULLS(smoltcp_host_opened(NULL, &id, &opened));
    NULLS(smoltcp_host_opened(&host, NULL, &opened));
    NULLS(smoltcp_host_opened(&host, &id, NULL));
    want("release", smoltcp_host_release(&host), SMOLTCP_OK);
}

#define NULLS_OF(kind, s)                                                 \
    do {                                                                  \
        struct smoltcp_##kind *lent;                                      \
        NULLS(smoltcp_host_add_##kind(NULL, s, &id));                     \
        NULLS(smoltcp_host_add_##kind(&host, NULL, &id));                 \
        NULLS(smoltcp_host_add_##kind(&host, s, NULL));                   \
        NULLS(smoltcp_host_remove_##kind(NULL, &id, s));                  \
        NULLS(smoltcp_host_remove_##kind(&host, NULL, s));                \
        NULLS(smoltcp_host_remove_##kind(&host, &id, NULL));              \
        NULLS(smoltcp_host_##kind(NULL, &id, &lent));                     \
        NULLS(smoltcp_host_##kind(&host, NULL, &lent));                   \
        NULLS(smoltcp_host_##kind(&host, &id, NULL));                     \
    } while (0)

static void nulls_of_sockets(void) {
    struct smoltcp_socket_id id = {0, 0};
    make_host(1);
    make_tcp();
    make_others();
    NULLS_OF(tcp, &tcp);
    NULLS_OF(udp, &udp);
    NULLS_OF(raw, &raw);
    NULLS_OF(icmp, &icmp);
    want("nobody", smoltcp_host_at(&host, 0, &id), 0);
    want("words", strcmp(smoltcp_strerror(SMOLTCP_ERROR_SOCKET), "the host has no socket of this name and kind"), 0);
    want("words", strcmp(smoltcp_strerror(SMOLTCP_ERROR_MEMORY), "the heap has too little memory"), 0);
    want("release", smoltcp_host_release(&host), SMOLTCP_OK);
}

int main(void) {
    int n;
    for (n = 0; n < 3; n++) {
        names();
        guards();
        settings();
        connections();
        bindings();
        addresses();
        nulls();
        nulls_of_sockets();
    }
    printf(failed ? "FAILED\n" : "host_refusals: passed\n");
    return failed;
}
