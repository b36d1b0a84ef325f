/* An echo (port 7, TCP and UDP) and a page (port 80) at 10.9.0.2 on a TUN device of Linux, by a host of many sockets.
 *
 *     echo DEVICE SECONDS
 *
 * makes the device, which then has to be given the address 10.9.0.1/24 and set up, and ends after so many seconds. */
#define _DEFAULT_SOURCE
#include <fcntl.h>
#include <linux/if_tun.h>
#include <net/if.h>
#include <poll.h>
#include <stdio.h>
#include <stdlib.h>
#include <string.h>
#include <sys/ioctl.h>
#include <sys/random.h>
#include <time.h>
#include <unistd.h>

#include "smoltcp_host.h"

/* Every other socket listens at port 7, and the others at port 80; the last quarter is kept for peers that answer a SYN
 * cookie, so that a flood of SYNs does not take all of them. */
enum { SOCKETS = 16, KEPT_FROM = 12, ROOM = 65536, KEPT = 4 * ROOM, MTU = 1500, TURN = 64, MICROS = 1000000 };

/* A connection: its socket's name and buffers, and what was read and is not answered yet. Its place is the host's. */
static struct connection {
    struct smoltcp_socket_id id;
    uint8_t rx[ROOM], tx[ROOM], kept[KEPT];
    size_t begin, end;
    uint16_t port;
} connections[SOCKETS];

static struct smoltcp_host host;
static struct smoltcp_address own;
static struct smoltcp_socket_id datagrams;
static struct smoltcp_udp_place rx_places[TURN], tx_places[TURN];
static uint8_t datagrams_rx[ROOM], datagrams_tx[ROOM];
static int64_t moment;
static int device;

static int64_t now(void) {
    struct timespec t;
    clock_gettime(CLOCK_MONOTONIC, &t);
    return (int64_t)t.tv_sec * MICROS + t.tv_nsec / 1000;
}

static int open_device(const char *name) {
    struct ifreq request;
    memset(&request, 0, sizeof request);
    request.ifr_flags = IFF_TUN | IFF_NO_PI;
    strncpy(request.ifr_name, name, IFNAMSIZ - 1);
    device = open("/dev/net/tun", O_RDWR | O_NONBLOCK);
    return device >= 0 && ioctl(device, TUNSETIFF, &request) == 0;
}

/* This port at any address. */
static struct smoltcp_endpoint any(uint16_t port) {
    struct smoltcp_endpoint at;
    memset(&at, 0, sizeof at);
    at.port = port;
    return at;
}

/* A socket listens; bytes of an earlier connection are gone. */
static void listen_at(struct connection *c, struct smoltcp_tcp *s) {
    struct smoltcp_endpoint at = any(c->port);
    c->begin = c->end = 0;
    smoltcp_tcp_listen(s, &at);
}

/* Sends what is kept, as far as there is room. */
static void send_kept(struct connection *c, struct smoltcp_tcp *s) {
    int64_t n = smoltcp_tcp_send(s, c->kept + c->begin, c->end - c->begin);
    if (n > 0) c->begin += (size_t)n;
    if (c->begin == c->end) c->begin = c->end = 0;
}

/* Keeps what has come, as far as there is room, and answers what the read answered. It is read also while nothing can
 * be sent: a receive window of 0 stops the acknowledgements of a peer that counts the byte of its probes. */
static int64_t keep(struct connection *c, struct smoltcp_tcp *s) {
    int64_t n;
    if (c->end == KEPT && c->begin > 0) {
        memmove(c->kept, c->kept + c->begin, c->end - c->begin);
        c->end -= c->begin;
        c->begin = 0;
    }
    n = smoltcp_tcp_recv(s, c->kept + c->end, KEPT - c->end);
    if (n > 0) c->end += (size_t)n;
    return n;
}

/* Closes behind the last byte. */
static void serve_echo(struct connection *c, struct smoltcp_tcp *s) {
    int64_t n = 1;
    while (n > 0) {
        send_kept(c, s);
        n = keep(c, s);
    }
    send_kept(c, s);
    if (n == SMOLTCP_ERROR_FINISHED && c->end == 0) smoltcp_tcp_close(s);
}

/* Reads on behind the page too, and drops it. */
static void serve_page(struct connection *c, struct smoltcp_tcp *s) {
    static const char page[] = "HTTP/1.1 200 OK\r\nContent-Type: text/plain\r\nContent-Length: 32\r\n"
                               "Connection: close\r\n\r\nProved TCP sockets, out of a C.\n";
    int64_t n = keep(c, s);
    if (smoltcp_tcp_may_send(s) == 0) c->end = 0;
    if (n == SMOLTCP_ERROR_FINISHED) smoltcp_tcp_close(s);
    if (c->end < 4 || memcmp(c->kept + c->end - 4, "\r\n\r\n", 4) != 0) {
        if (c->end == KEPT) smoltcp_tcp_abort(s);
        return;
    }
    smoltcp_tcp_send(s, (const uint8_t *)page, sizeof page - 1);
    smoltcp_tcp_close(s);
    c->end = 0;
}

static void serve(struct connection *c) {
    struct smoltcp_tcp *s;
    if (smoltcp_host_tcp(&host, &c->id, &s) != SMOLTCP_OK) return;
    if (c->port == 7) serve_echo(c, s); else serve_page(c, s);
    if (smoltcp_tcp_state(s) == SMOLTCP_CLOSED) listen_at(c, s);
}

/* Serves the connections that took a segment. Once in a second it looks at all, as some end by a timer, which touches
 * none. */
static void serve_touched(void) {
    static int64_t next;
    size_t place, from;
    for (place = 0; place < SOCKETS && moment >= next; place++) serve(&connections[place]);
    if (moment >= next) next = moment + MICROS;
    for (from = 0; smoltcp_host_touched(&host, from, &place) == 1 && place < SOCKETS; from = place + 1) {
        serve(&connections[place]);
    }
}

/* Sends the datagrams that came to this address alone back to where they came from, unless that is an echo too, or a
 * source of characters (RFC 864): two of them would answer each other for ever. */
static void echo_datagrams(void) {
    uint8_t data[MTU];
    struct smoltcp_udp_metadata meta;
    struct smoltcp_udp *s;
    int64_t n;
    if (smoltcp_host_udp(&host, &datagrams, &s) != SMOLTCP_OK) return;
    while ((n = smoltcp_udp_recv(s, &meta, data, sizeof data)) >= 0) {
        if (meta.endpoint.port == 7 || meta.endpoint.port == 19) continue;
        if (memcmp(meta.local_address.v4, own.v4, sizeof own.v4) == 0) smoltcp_udp_send(s, &meta, data, (size_t)n);
    }
}

/* Makes a socket in memory that serves for the next one, and moves it into the host. */
static int add_connection(struct connection *c, uint16_t port) {
    struct smoltcp_tcp s;
    if (smoltcp_tcp_init(&s, c->rx, ROOM, c->tx, ROOM) != SMOLTCP_OK) return 0;
    c->port = port;
    smoltcp_tcp_set_keep_alive(&s, 15 * (int64_t)MICROS);
    smoltcp_tcp_set_rules(&s, SMOLTCP_RULES_RFC); /* for peers that are not smoltcp, and a wire that loses */
    listen_at(c, &s);
    return smoltcp_host_add_tcp(&host, &s, &c->id) == SMOLTCP_OK;
}

static int add_datagrams(void) {
    struct smoltcp_endpoint at = any(7);
    struct smoltcp_udp_buffer rx = {rx_places, TURN, datagrams_rx, ROOM}, tx = {tx_places, TURN, datagrams_tx, ROOM};
    struct smoltcp_udp s;
    return smoltcp_udp_init(&s, rx, tx) == SMOLTCP_OK && smoltcp_udp_bind(&s, &at) == SMOLTCP_OK
           && smoltcp_host_add_udp(&host, &s, &datagrams) == SMOLTCP_OK;
}

static int make_host(void) {
    struct smoltcp_cidr address = {{0, {0}, {0}}, 24};
    struct smoltcp_key keys[2];
    uint64_t answers;
    size_t i;
    address.address = own = smoltcp_ipv4(10, 9, 0, 2);
    if (getrandom(keys, sizeof keys, 0) != sizeof keys) return 0;
    if (getrandom(&answers, sizeof answers, 0) != sizeof answers) return 0;
    if (smoltcp_host_init(&host, SOCKETS + 1, &address, 1, &keys[0]) != SMOLTCP_OK) return 0;
    smoltcp_host_set_syn_cookies(&host, &keys[1], KEPT_FROM);
    smoltcp_host_set_answer_key(&host, answers);
    for (i = 0; i < SOCKETS; i++) {
        if (!add_connection(&connections[i], i % 2 == 0 ? 7 : 80)) return 0;
    }
    return add_datagrams();
}

static void send_packet(const uint8_t *packet, int64_t len) {
    if (len > 0 && write(device, packet, (size_t)len) < 0) perror("write");
}

/* Takes the packets that have come, serves whom they touched, and sends what is due. */
static void work(void) {
    uint8_t packet[MTU], reply[MTU];
    int64_t n;
    int turn;
    for (turn = 0; turn < TURN && (n = read(device, packet, sizeof packet)) > 0; turn++) {
        send_packet(reply, smoltcp_host_receive(&host, moment, packet, (size_t)n, reply, sizeof reply));
    }
    serve_touched();
    echo_datagrams();
    while ((n = smoltcp_host_emit(&host, moment, packet, sizeof packet)) > 0) send_packet(packet, n);
}

/* Waits for a packet, or until a socket has something to do; at most a second. */
static void wait_for_work(void) {
    struct pollfd fd = {0, POLLIN, 0};
    int64_t at = smoltcp_host_poll_at(&host);
    fd.fd = device;
    if (at > moment + MICROS) at = moment + MICROS;
    poll(&fd, 1, (int)((at - moment + 999) / 1000));
}

int main(int argc, char **argv) {
    int64_t end;
    if (argc != 3) return fprintf(stderr, "usage: echo DEVICE SECONDS\n"), 1;
    if (!open_device(argv[1])) return perror(argv[1]), 2;
    if (!make_host()) return fprintf(stderr, "echo: no host\n"), 2;
    end = now() + atoi(argv[2]) * (int64_t)MICROS;
    while ((moment = now()) < end) {
        work();
        wait_for_work();
    }
    return 0;
}
