/* Why a connection ended, what was agreed, bytes past the end of a ring, and when memory is the program's again, on two
 * sockets whose packets are handed from one to the other. Expected values are RFC 9293's, 7323's and 2018's. */
#include <stdio.h>
#include <stdlib.h>
#include <string.h>

#include "smoltcp_socket.h"

enum { ROOM = 100, MTU = 1500 };

static struct smoltcp_context cx[2];
static struct smoltcp_tcp s[2];
static uint8_t rx[2][ROOM], tx[2][ROOM];
static int failed;

static void want(const char *what, int64_t is, int64_t wanted) {
    if (is == wanted) return;
    printf("%s: %lld, wanted %lld\n", what, (long long)is, (long long)wanted);
    failed = 1;
}

static struct smoltcp_endpoint endpoint(int last, int port) {
    struct smoltcp_endpoint e = {smoltcp_ipv4(10, 0, 0, (uint8_t)last), (uint16_t)port};
    return e;
}

/* The moment of both sides, in seconds. */
static void at(int64_t seconds) { cx[0].now = cx[1].now = seconds * 1000000; }

/* Ends what a socket does, so that its memory may be used anew. */
static void let_go(int i) {
    uint8_t packet[MTU];
    smoltcp_tcp_abort(&s[i]);
    smoltcp_tcp_dispatch(&s[i], &cx[i], packet, sizeof packet);
    want("let go", smoltcp_tcp_release(&s[i], NULL, NULL), SMOLTCP_OK);
}

/* Two closed sockets, a client and a server. */
static void begin(void) {
    static int begun;
    int i;
    for (i = 0; i < 2 && begun; i++) let_go(i);
    begun = 1;
    for (i = 0; i < 2; i++) {
        struct smoltcp_address own = smoltcp_ipv4(10, 0, 0, (uint8_t)(i + 1));
        memset(&cx[i], 0, sizeof cx[i]);
        cx[i].ip_mtu = MTU;
        cx[i].word = 1000u + (uint32_t)i;
        memcpy(cx[i].v4, own.v4, 4);
        want("init", smoltcp_tcp_init(&s[i], rx[i], ROOM, tx[i], ROOM), SMOLTCP_OK);
    }
}

static void connect_from(struct smoltcp_tcp *client) {
    struct smoltcp_endpoint peer = endpoint(2, 80), own = endpoint(1, 50000);
    want("connect", smoltcp_tcp_connect(client, &cx[0], &peer, &own), SMOLTCP_OK);
}

static void connect_to_80(void) { connect_from(&s[0]); }

static void listen_at_80(void) {
    struct smoltcp_endpoint own = endpoint(2, 80);
    want("listen", smoltcp_tcp_listen(&s[1], &own), SMOLTCP_OK);
}

/* Hands packets over between a client and a server, in both directions, until none is due. */
static void exchange_with(struct smoltcp_tcp *client, struct smoltcp_tcp *server) {
    struct smoltcp_tcp *side[2];
    uint8_t packet[MTU], reply[SMOLTCP_REPLY_ROOM];
    int rounds, i;
    side[0] = client;
    side[1] = server;
    for (rounds = 0; rounds < 20; rounds++) {
        for (i = 0; i < 2; i++) {
            int64_t len = smoltcp_tcp_dispatch(side[i], &cx[i], packet, sizeof packet);
            if (len <= 0) continue;
            len = smoltcp_tcp_process(side[1 - i], &cx[1 - i], packet, (size_t)len, reply, sizeof reply);
            if (len > 0) smoltcp_tcp_process(side[i], &cx[i], reply, (size_t)len, packet, sizeof packet);
        }
    }
}

static void exchange(void) { exchange_with(&s[0], &s[1]); }

static void open_both(void) {
    begin();
    at(1);
    listen_at_80();
    connect_to_80();
    exchange();
    want("open", smoltcp_tcp_state(&s[0]), SMOLTCP_ESTABLISHED);
}

/* Both SYNs have MSS 1460 (an MTU of 1500 less two headers of 20), a scale of 0 and SACK permitted, and no timestamp.
 */
static void agreed(void) {
    struct smoltcp_negotiated n;
    begin();
    at(1);
    connect_to_80();
    want("nothing is agreed in SYN-SENT", smoltcp_tcp_negotiated(&s[0], &n), 0);
    open_both();
    want("agreed", smoltcp_tcp_negotiated(&s[0], &n), 1);
    want("MSS", (int64_t)n.remote_mss, 1460);
    want("window", (int64_t)n.remote_window, ROOM);
    want("scales", n.win_scale * 100 + n.remote_win_scale * 10 + n.local_win_scale, 100);
    want("timestamps", n.timestamps, 0);
    want("SACK", n.sack, 1);
}

static void ends(void) {
    uint8_t packet[MTU], reply[SMOLTCP_REPLY_ROOM], byte;
    int64_t len;
    open_both();
    want("not ended", smoltcp_tcp_ended(&s[0]), SMOLTCP_END_NONE);
    smoltcp_tcp_close(&s[0]);
    exchange();
    smoltcp_tcp_close(&s[1]);
    exchange();
    want("the second to close", smoltcp_tcp_ended(&s[1]), SMOLTCP_END_FINISHED);
    want("TIME-WAIT", smoltcp_tcp_ended(&s[0]), SMOLTCP_END_NONE);
    at(12);
    exchange();
    want("the first to close", smoltcp_tcp_ended(&s[0]), SMOLTCP_END_FINISHED);
    begin();
    connect_to_80();
    want("not yet", smoltcp_tcp_recv(&s[0], &byte, 1), SMOLTCP_ERROR_STATE);
    want("a wait has not ended", smoltcp_tcp_ended(&s[0]), SMOLTCP_END_NONE);
    len = smoltcp_tcp_dispatch(&s[0], &cx[0], packet, sizeof packet);
    len = smoltcp_tcp_reset(packet, (size_t)len, reply, sizeof reply);
    smoltcp_tcp_process(&s[0], &cx[0], reply, (size_t)len, packet, sizeof packet);
    want("refused", smoltcp_tcp_ended(&s[0]), SMOLTCP_END_REFUSED);
    want("no bytes come", smoltcp_tcp_recv(&s[0], &byte, 1), SMOLTCP_ERROR_STATE);
    open_both();
    smoltcp_tcp_abort(&s[0]);
    want("aborted", smoltcp_tcp_ended(&s[0]), SMOLTCP_END_ABORTED);
    exchange();
    want("reset", smoltcp_tcp_ended(&s[1]), SMOLTCP_END_RESET);
    listen_at_80();
    want("begun anew", smoltcp_tcp_ended(&s[1]), SMOLTCP_END_NONE);
    smoltcp_tcp_close(&s[1]);
    want("closed while it waits", smoltcp_tcp_ended(&s[1]), SMOLTCP_END_ABORTED);
    begin();
    smoltcp_tcp_set_timeout(&s[0], 1000000);
    connect_to_80();
    smoltcp_tcp_dispatch(&s[0], &cx[0], packet, sizeof packet);
    at(20);
    smoltcp_tcp_dispatch(&s[0], &cx[0], packet, sizeof packet);
    want("timed out", smoltcp_tcp_ended(&s[0]), SMOLTCP_END_TIMED_OUT);
    open_both();
    memset(cx[0].v4, 0, 4);
    smoltcp_tcp_dispatch(&s[0], &cx[0], packet, sizeof packet);
    want("address gone", smoltcp_tcp_ended(&s[0]), SMOLTCP_END_ADDRESS);
    want("a name of an end", strcmp(smoltcp_end_name(SMOLTCP_END_RESET), "reset by the peer"), 0);
}

/* 80 bytes are read, so that 90 more lie over the end of the ring: 20 at its end and 70 at its beginning. */
static void past_the_end(void) {
    uint8_t bytes[90], back[90];
    const uint8_t *lent;
    int i;
    for (i = 0; i < 90; i++) bytes[i] = (uint8_t)i;
    open_both();
    smoltcp_tcp_send(&s[0], bytes, 80);
    exchange();
    want("read", smoltcp_tcp_recv(&s[1], back, 80), 80);
    exchange();
    smoltcp_tcp_send(&s[0], bytes, 90);
    exchange();
    want("queued", smoltcp_tcp_recv_queue(&s[1]), 90);
    want("one piece", smoltcp_tcp_peek(&s[1], 90, &lent), 20);
    want("more than is there", smoltcp_tcp_consume(&s[1], 91), SMOLTCP_ERROR_RANGE);
    want("past the end", smoltcp_tcp_consume(&s[1], 50), 50);
    want("the rest", smoltcp_tcp_recv(&s[1], back, 90), 40);
    want("its bytes", memcmp(back, bytes + 50, 40), 0);
}

/* A socket in memory of the heap: where it may be let go of, what its memory and its buffers serve for then, and that
 * nothing is written there any more. */
static void released(void) {
    struct smoltcp_tcp *client = malloc(sizeof *client);
    uint8_t *in = malloc(ROOM), *out = malloc(ROOM), *lent_in = NULL, *lent_out = NULL, byte = 7;
    int i, same = 1;
    if (!client || !in || !out) exit(1);
    begin();
    at(1);
    want("init", smoltcp_tcp_init(client, in, ROOM, out, ROOM), SMOLTCP_OK);
    listen_at_80();
    want("a listener is released", smoltcp_tcp_release(&s[1], &lent_in, NULL), SMOLTCP_ERROR_STATE);
    want("nothing is told", lent_in == NULL, 1);
    connect_from(client);
    exchange_with(client, &s[1]);
    want("an open socket is released", smoltcp_tcp_release(client, NULL, NULL), SMOLTCP_ERROR_STATE);
    want("it is open", smoltcp_tcp_state(client), SMOLTCP_ESTABLISHED);
    smoltcp_tcp_abort(client);
    want("an RST is due", smoltcp_tcp_release(client, NULL, NULL), SMOLTCP_ERROR_STATE);
    exchange_with(client, &s[1]);
    want("the peer was told", smoltcp_tcp_ended(&s[1]), SMOLTCP_END_RESET);
    want("the peer is released", smoltcp_tcp_release(&s[1], &lent_in, NULL), SMOLTCP_OK);
    want("its buffer", lent_in == rx[1], 1);
    want("an aborted socket is released", smoltcp_tcp_release(client, &lent_in, &lent_out), SMOLTCP_OK);
    want("its buffers", lent_in == in && lent_out == out, 1);

    want("made anew", smoltcp_tcp_init(client, lent_out, ROOM, lent_in, ROOM), SMOLTCP_OK);
    want("init", smoltcp_tcp_init(&s[1], rx[1], ROOM, tx[1], ROOM), SMOLTCP_OK);
    listen_at_80();
    cx[0].word += 70000;
    connect_from(client);
    exchange_with(client, &s[1]);
    want("send", smoltcp_tcp_send(client, &byte, 1), 1);
    smoltcp_tcp_close(client);
    exchange_with(client, &s[1]);
    byte = 0;
    want("recv", smoltcp_tcp_recv(&s[1], &byte, 1), 1);
    want("the byte", byte, 7);
    smoltcp_tcp_close(&s[1]);
    exchange_with(client, &s[1]);
    want("TIME-WAIT is released", smoltcp_tcp_release(client, NULL, NULL), SMOLTCP_ERROR_STATE);
    at(12);
    exchange_with(client, &s[1]);
    want("released", smoltcp_tcp_release(client, NULL, NULL), SMOLTCP_OK);
    memset(client, 0xa5, sizeof *client);
    memset(in, 0xa5, ROOM);
    memset(out, 0xa5, ROOM);
    connect_to_80();
    listen_at_80();
    exchange();
    for (i = 0; i < ROOM; i++) same &= in[i] == 0xa5 && out[i] == 0xa5;
    want("nothing is written there", same, 1);
    free(client);
    free(in);
    free(out);
    want("no socket", smoltcp_tcp_release(NULL, NULL, NULL), SMOLTCP_ERROR_NULL);
}

#define WANT_BACK(back, was) \
    want("a buffer comes back", (back).places == (was).places && (back).count == (was).count \
                                && (back).bytes == (was).bytes && (back).len == (was).len, 1)

/* UDP, raw and ICMP sockets are let go of in any state, and their buffers, here of the heap, serve again. */
static void udp_released(void) {
    struct smoltcp_udp_place *places = malloc(2 * sizeof *places);
    uint8_t *bytes = malloc(2 * ROOM);
    struct smoltcp_udp_buffer rx = {places, 1, bytes, ROOM}, tx = {NULL, 1, NULL, ROOM}, rx_back, tx_back;
    struct smoltcp_udp_metadata meta;
    struct smoltcp_endpoint own = endpoint(1, 5353);
    struct smoltcp_udp socket;
    if (!places || !bytes) exit(1);
    tx.places = places + 1;
    tx.bytes = bytes + ROOM;
    memset(&meta, 0, sizeof meta);
    meta.endpoint = endpoint(2, 53);
    want("init", smoltcp_udp_init(&socket, rx, tx), SMOLTCP_OK);
    want("bind", smoltcp_udp_bind(&socket, &own), SMOLTCP_OK);
    want("send", smoltcp_udp_send(&socket, &meta, (const uint8_t *)"ask", 3), SMOLTCP_OK);
    want("released", smoltcp_udp_release(&socket, &rx_back, &tx_back), SMOLTCP_OK);
    WANT_BACK(rx_back, rx);
    WANT_BACK(tx_back, tx);
    memset(&socket, 0xa5, sizeof socket);
    want("made anew", smoltcp_udp_init(&socket, tx_back, rx_back), SMOLTCP_OK);
    want("bound to nothing", smoltcp_udp_is_open(&socket), 0);
    want("nothing waits", smoltcp_udp_send_queue(&socket), 0);
    want("bind", smoltcp_udp_bind(&socket, &own), SMOLTCP_OK);
    want("released", smoltcp_udp_release(&socket, NULL, NULL), SMOLTCP_OK);
    free(places);
    free(bytes);
    want("no socket", smoltcp_udp_release(NULL, NULL, NULL), SMOLTCP_ERROR_NULL);
}

static void raw_released(void) {
    struct smoltcp_raw_place places[3];
    uint8_t bytes[2][ROOM];
    struct smoltcp_raw_buffer rx = {NULL, 1, NULL, ROOM}, tx = {NULL, 2, NULL, ROOM}, rx_back, tx_back;
    struct smoltcp_raw_filter udp = {4, 0, 17}, any = {0, 1, 0};
    struct smoltcp_raw socket;
    rx.places = places;
    rx.bytes = bytes[0];
    tx.places = places + 1;
    tx.bytes = bytes[1];
    want("init", smoltcp_raw_init(&socket, &udp, rx, tx), SMOLTCP_OK);
    want("released", smoltcp_raw_release(&socket, &rx_back, &tx_back), SMOLTCP_OK);
    WANT_BACK(rx_back, rx);
    WANT_BACK(tx_back, tx);
    want("made anew", smoltcp_raw_init(&socket, &any, rx_back, tx_back), SMOLTCP_OK);
    want("another filter", smoltcp_raw_ip_protocol(&socket), SMOLTCP_RAW_ANY);
    want("no socket", smoltcp_raw_release(NULL, NULL, NULL), SMOLTCP_ERROR_NULL);
}

static void icmp_released(void) {
    struct smoltcp_icmp_place places[3];
    uint8_t bytes[2][ROOM];
    struct smoltcp_icmp_buffer rx = {NULL, 2, NULL, ROOM}, tx = {NULL, 1, NULL, ROOM}, rx_back, tx_back;
    struct smoltcp_icmp_endpoint echoes;
    struct smoltcp_icmp socket;
    memset(&echoes, 0, sizeof echoes);
    echoes.kind = SMOLTCP_ICMP_IDENT;
    echoes.ident = 7;
    rx.places = places;
    rx.bytes = bytes[0];
    tx.places = places + 2;
    tx.bytes = bytes[1];
    want("init", smoltcp_icmp_init(&socket, rx, tx), SMOLTCP_OK);
    want("bind", smoltcp_icmp_bind(&socket, &echoes), SMOLTCP_OK);
    want("released", smoltcp_icmp_release(&socket, &rx_back, &tx_back), SMOLTCP_OK);
    WANT_BACK(rx_back, rx);
    WANT_BACK(tx_back, tx);
    want("made anew", smoltcp_icmp_init(&socket, rx_back, tx_back), SMOLTCP_OK);
    want("bound anew", smoltcp_icmp_bind(&socket, &echoes), SMOLTCP_OK);
    want("no socket", smoltcp_icmp_release(NULL, NULL, NULL), SMOLTCP_ERROR_NULL);
}

/* Memory of another size, as a program would have that was compiled with another header. */
static void another_size(void) {
    struct smoltcp_tcp socket;
    want("a smaller socket", smoltcp_tcp_init_sized(&socket, sizeof socket - 8, rx[0], ROOM, tx[0], ROOM),
         SMOLTCP_ERROR_VERSION);
    want("no socket", smoltcp_tcp_init_sized(NULL, sizeof socket, rx[0], ROOM, tx[0], ROOM), SMOLTCP_ERROR_NULL);
    want("no socket, by the symbol", (smoltcp_tcp_init)(NULL, rx[0], ROOM, tx[0], ROOM), SMOLTCP_ERROR_NULL);
    want("version", strcmp(smoltcp_version(), SMOLTCP_VERSION), 0);
    want("build", strncmp(smoltcp_build(), "commit ", 7), 0);
}

int main(void) {
    agreed();
    ends();
    past_the_end();
    released();
    udp_released();
    raw_released();
    icmp_released();
    another_size();
    printf(failed ? "FAILED\n" : "ends: passed\n");
    return failed;
}
