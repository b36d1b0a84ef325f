/* 200,000 RSTs and SYNs of a stranger who knows the addresses and ports of a connection, and not its numbers, on a
 * socket with the RFCs' rules: it lives, the challenges keep to one a second (RFC 5961, sections 3, 4 and 7), and bytes
 * still come. */
#include <stdio.h>
#include <string.h>

#include "smoltcp_socket.h"

enum { ROOM = 65536, MTU = 1500, PACKETS = 200000, HEADERS = 40, RST = 4, SYN = 2 };

static struct smoltcp_context cx[2];
static struct smoltcp_tcp s[2];
static uint8_t rx[2][ROOM], tx[2][ROOM];
static uint32_t words = 1;
static int failed;

static void want(const char *what, int64_t is, int64_t wanted) {
    if (is == wanted) return;
    printf("%s: %lld, wanted %lld\n", what, (long long)is, (long long)wanted);
    failed = 1;
}

static struct smoltcp_endpoint endpoint(int last, int port) {
    struct smoltcp_endpoint e = {smoltcp_ipv4(10, 0, 0, (uint8_t)last), (uint16_t)port};
    return e;
}

static uint32_t word(void) {
    words = words * 1664525u + 1013904223u;
    return words >> 16 | words << 16;
}

static uint16_t sum(const uint8_t *bytes, size_t count, uint32_t start) {
    size_t i;
    for (i = 0; i + 1 < count; i += 2) start += (uint32_t)bytes[i] << 8 | bytes[i + 1];
    while (start >> 16) start = (start & 0xffff) + (start >> 16);
    return (uint16_t)~start;
}

static void put(uint8_t *at, uint32_t number, int count) {
    while (count-- > 0) {
        at[count] = (uint8_t)number;
        number >>= 8;
    }
}

/* A segment from 10.0.0.1:50000 to 10.0.0.2:80, without bytes. */
static void forge(uint8_t *packet, uint8_t control, uint32_t number) {
    uint8_t *tcp = packet + 20;
    memset(packet, 0, HEADERS);
    packet[0] = 0x45;
    put(packet + 2, HEADERS, 2);
    packet[8] = 64;
    packet[9] = 6;
    put(packet + 12, 0x0a000001, 4);
    put(packet + 16, 0x0a000002, 4);
    put(packet + 10, sum(packet, 20, 0), 2);
    put(tcp, 50000, 2);
    put(tcp + 2, 80, 2);
    put(tcp + 4, number, 4);
    tcp[12] = 0x50;
    tcp[13] = control;
    put(tcp + 14, 1000, 2);
    put(tcp + 16, sum(tcp, 20, 0x0a00 + 1 + 0x0a00 + 2 + 6 + 20), 2);
}

/* Hands packets over between the two, until none is due. */
static void exchange(void) {
    uint8_t packet[MTU], reply[SMOLTCP_REPLY_ROOM];
    int rounds, i;
    for (rounds = 0; rounds < 20; rounds++) {
        for (i = 0; i < 2; i++) {
            int64_t len = smoltcp_tcp_dispatch(&s[i], &cx[i], packet, sizeof packet);
            if (len <= 0) continue;
            len = smoltcp_tcp_process(&s[1 - i], &cx[1 - i], packet, (size_t)len, reply, sizeof reply);
            if (len > 0) smoltcp_tcp_process(&s[i], &cx[i], reply, (size_t)len, packet, sizeof packet);
        }
    }
}

/* A client and a server, connected. */
static void open_both(int rules) {
    struct smoltcp_endpoint peer = endpoint(2, 80), own = endpoint(1, 50000);
    int i;
    for (i = 0; i < 2; i++) {
        struct smoltcp_address addr = smoltcp_ipv4(10, 0, 0, (uint8_t)(i + 1));
        memset(&cx[i], 0, sizeof cx[i]);
        cx[i].ip_mtu = MTU;
        cx[i].now = 1000000;
        cx[i].word = word();
        memcpy(cx[i].v4, addr.v4, 4);
        want("init", smoltcp_tcp_init(&s[i], rx[i], ROOM, tx[i], ROOM), SMOLTCP_OK);
        want("rules", smoltcp_tcp_set_rules(&s[i], (uint8_t)rules), SMOLTCP_OK);
    }
    want("listen", smoltcp_tcp_listen(&s[1], &peer), SMOLTCP_OK);
    want("connect", smoltcp_tcp_connect(&s[0], &cx[0], &peer, &own), SMOLTCP_OK);
    exchange();
    want("open", smoltcp_tcp_state(&s[1]), SMOLTCP_ESTABLISHED);
}

/* A packet each 10 microseconds: RSTs and SYNs by turns with numbers at random, or RSTs alone, two in each 65,536
 * numbers. How many were answered. */
static int attack(int syns) {
    uint8_t packet[HEADERS], reply[SMOLTCP_REPLY_ROOM];
    int i, answers = 0;
    for (i = 0; i < PACKETS && smoltcp_tcp_state(&s[1]) == SMOLTCP_ESTABLISHED; i++) {
        uint32_t number = syns ? word() : (uint32_t)i * 32768u;
        cx[0].now = cx[1].now = 1000000 + 10 * (int64_t)i;
        forge(packet, syns && i % 2 ? SYN : RST, number);
        answers += smoltcp_tcp_process(&s[1], &cx[1], packet, HEADERS, reply, sizeof reply) > 0;
    }
    return answers;
}

int main(void) {
    uint8_t bytes[100];
    int answers;
    open_both(SMOLTCP_RULES_RFC);
    answers = attack(1);
    want("alive", smoltcp_tcp_state(&s[1]), SMOLTCP_ESTABLISHED);
    want("no more than a challenge a second, and the first", answers <= 3, 1);
    want("some challenge", answers > 0, 1);
    attack(0);
    want("alive after each window", smoltcp_tcp_state(&s[1]), SMOLTCP_ESTABLISHED);
    memset(bytes, 'b', sizeof bytes);
    want("send", smoltcp_tcp_send(&s[0], bytes, sizeof bytes), sizeof bytes);
    exchange();
    want("recv", smoltcp_tcp_recv(&s[1], bytes, sizeof bytes), sizeof bytes);
    puts(failed ? "blind: failed" : "blind: passed");
    return failed;
}
