/* Asks a name server for the addresses of a name (RFC 1035), by one UDP socket in a host on a TUN device of Linux, and
 * by an ICMP socket that hears when nobody serves the port.
 *
 *     resolve DEVICE OWN SERVER NAME [A|AAAA]
 *
 * The device is up, OWN is an address that Linux routes to it, and SERVER one of the same version of IP. Prints an
 * address a line. Exit status 0 when the server answered, 1 when it did not or said that there is no such name. */
#define _DEFAULT_SOURCE
#include "tun.h"

enum { PLACES = 4, ROOM = 4096, TRIES = 5, A = 1, AAAA = 28 };

static struct tun tun;
static struct smoltcp_socket_id id, errors_id;
static struct smoltcp_udp_place rx_places[PLACES], tx_places[PLACES];
static struct smoltcp_icmp_place error_places[PLACES];
static uint8_t rx[ROOM], tx[ROOM], errors_rx[ROOM];

/* A socket at a port that the host chooses, which is written into at. */
static int add_socket(struct smoltcp_endpoint *at) {
    struct smoltcp_udp_buffer in = {rx_places, PLACES, rx, ROOM}, out = {tx_places, PLACES, tx, ROOM};
    struct smoltcp_udp s;
    int64_t port;
    if (smoltcp_udp_init(&s, in, out) != SMOLTCP_OK) return 0;
    if (smoltcp_host_add_udp(&tun.host, &s, &id) != SMOLTCP_OK) return 0;
    port = smoltcp_host_bind_udp(&tun.host, &id, NULL);
    *at = smoltcp_any((uint16_t)port);
    return port > 0;
}

/* A socket for the ICMP errors about what is sent by UDP from this port; it sends nothing. */
static int add_errors(const struct smoltcp_endpoint *at) {
    struct smoltcp_icmp_endpoint about = {SMOLTCP_ICMP_UDP, 0, {{0, {0}, {0}}, 0}};
    struct smoltcp_icmp_buffer in = {error_places, PLACES, errors_rx, ROOM}, out = {error_places, 0, errors_rx, 0};
    struct smoltcp_icmp s;
    about.endpoint = *at;
    return smoltcp_icmp_init(&s, in, out) == SMOLTCP_OK && smoltcp_icmp_bind(&s, &about) == SMOLTCP_OK
           && smoltcp_host_add_icmp(&tun.host, &s, &errors_id) == SMOLTCP_OK;
}

/* 1 when an ICMP error has come about what was asked, else 0. */
static int is_refused(void) {
    struct smoltcp_icmp *s;
    return smoltcp_host_icmp(&tun.host, &errors_id, &s) == SMOLTCP_OK && smoltcp_icmp_can_recv(s) == 1;
}

/* Writes a query of 12 bytes of header, the name as labels, and two numbers; its length, or 0 if the name is none. */
static size_t query(uint8_t out[300], uint16_t number, const char *name, uint16_t type) {
    const uint8_t head[12] = {(uint8_t)(number >> 8), (uint8_t)number, 1, 0, 0, 1};
    size_t at = 12, label;
    memcpy(out, head, sizeof head);
    while (*name != 0) {
        label = strcspn(name, ".");
        if (label == 0 || label > 63 || at + label + 6 > 12 + 255) return 0;
        out[at++] = (uint8_t)label;
        memcpy(out + at, name, label);
        at += label;
        name += label + (name[label] == '.');
    }
    out[at++] = 0;
    out[at++] = (uint8_t)(type >> 8);
    out[at++] = (uint8_t)type;
    out[at++] = 0;
    out[at++] = 1;
    return at;
}

/* Behind a name of a message: labels up to an empty one or to a pointer, or len if it does not end within. */
static size_t behind_name(const uint8_t *m, size_t at, size_t len) {
    while (at < len && m[at] != 0) {
        if (m[at] >= 192) return at + 2;
        at += 1 + (size_t)m[at];
    }
    return at + 1;
}

static unsigned word(const uint8_t *m, size_t at) {
    return (unsigned)m[at] << 8 | m[at + 1];
}

/* Prints the addresses of an answer to this query; 0, 1 if it is none or says that there is nothing. */
static int print_answer(const uint8_t *m, size_t len, const uint8_t *asked, size_t asked_len) {
    size_t at = asked_len, n;
    int found = 0;
    if (len < asked_len || word(m, 4) != 1 || memcmp(m + 12, asked + 12, asked_len - 12) != 0) return 1;
    if ((m[3] & 15) != 0) return fprintf(stderr, "resolve: error %d of RFC 1035, section 4.1.1\n", m[3] & 15), 1;
    for (n = word(m, 6); n > 0; n--) {
        char text[SMOLTCP_TEXT_ROOM];
        struct smoltcp_address a = {0, {0}, {0}};
        at = behind_name(m, at, len);
        if (at + 10 > len || at + 10 + word(m, at + 8) > len) return 1;
        if (word(m, at) == A && word(m, at + 8) == 4) a = smoltcp_ipv4(m[at + 10], m[at + 11], m[at + 12], m[at + 13]);
        if (word(m, at) == AAAA && word(m, at + 8) == 16) a = smoltcp_ipv6(m + at + 10);
        if (a.version != 0) found = puts(smoltcp_address_text(&a, text)) >= 0;
        at += 10 + word(m, at + 8);
    }
    return !found;
}

static void ask(const struct smoltcp_endpoint *server, const uint8_t *data, size_t len) {
    struct smoltcp_udp_metadata to;
    struct smoltcp_udp *s;
    int64_t answer = smoltcp_host_udp(&tun.host, &id, &s);
    to.endpoint = *server;
    to.local_address = smoltcp_any(0).addr;
    if (answer == SMOLTCP_OK) answer = smoltcp_udp_send(s, &to, data, len);
    if (answer != SMOLTCP_OK) exit(fprintf(stderr, "resolve: %s\n", smoltcp_strerror(answer)) > 0 ? 1 : 2);
}

/* The length of the answer of that server with that number, or 0 if none has come. */
static size_t answered(const struct smoltcp_endpoint *server, const uint8_t *asked, uint8_t *data, size_t cap) {
    struct smoltcp_udp_metadata from;
    struct smoltcp_udp *s;
    int64_t n;
    if (smoltcp_host_udp(&tun.host, &id, &s) != SMOLTCP_OK) return 0;
    while ((n = smoltcp_udp_recv(s, &from, data, cap)) >= 0) {
        if (n >= 12 && from.endpoint.port == server->port && smoltcp_same_address(&from.endpoint.addr, &server->addr)
            && memcmp(data, asked, 2) == 0 && (data[2] & 128) != 0) return (size_t)n;
    }
    return 0;
}

int main(int argc, char **argv) {
    uint8_t asked[300], data[TUN_MTU];
    struct smoltcp_endpoint server, own;
    size_t len, n = 0;
    int attempt;
    if (argc != 5 && argc != 6) return fprintf(stderr, "usage: resolve DEVICE OWN SERVER NAME [A|AAAA]\n"), 2;
    len = query(asked, (uint16_t)tun_random(), argv[4], argc == 6 && strcmp(argv[5], "AAAA") == 0 ? AAAA : A);
    server.port = 53;
    if (len == 0 || smoltcp_address_from(argv[3], &server.addr) != SMOLTCP_OK) return fputs("resolve: ?\n", stderr), 2;
    if (!tun_open(&tun, argv[1], argv[2], 2)) return perror(argv[1]), 2;
    if (!add_socket(&own) || !add_errors(&own)) return 2;
    for (attempt = 0; attempt < TRIES && n == 0; attempt++) {
        int64_t until = tun_clock() + SECOND;
        ask(&server, asked, len);
        while (n == 0 && tun.now < until) {
            tun_round(&tun, until);
            n = answered(&server, asked, data, sizeof data);
            if (is_refused()) return fprintf(stderr, "resolve: nobody serves the port\n"), 1;
        }
    }
    if (n == 0) return fprintf(stderr, "resolve: no answer\n"), 1;
    return print_answer(data, n, asked, len);
}
