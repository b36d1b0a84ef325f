/* Sends echoes to a host (RFC 792, RFC 4443) and tells how long each took, by one ICMP socket in a host on a TUN device
 * of Linux.
 *
 *     ping DEVICE OWN HOST [COUNT]
 *
 * The device is up, OWN is an address that Linux routes to it, and HOST one of the same version of IP. Exit status 0
 * when at least one reply came, 1 when none did. */
#define _DEFAULT_SOURCE
#include "tun.h"

enum { PLACES = 4, ROOM = 4096, LEN = 64, V4_REQUEST = 8, V4_REPLY = 0, V6_REQUEST = 128, V6_REPLY = 129 };

static struct tun tun;
static struct smoltcp_socket_id id;
static struct smoltcp_icmp_place rx_places[PLACES], tx_places[PLACES];
static uint8_t rx[ROOM], tx[ROOM];

/* A socket that takes the echo replies of this identifier. */
static int add_socket(uint16_t ident) {
    struct smoltcp_icmp_endpoint at = {SMOLTCP_ICMP_IDENT, 0, {{0, {0}, {0}}, 0}};
    struct smoltcp_icmp_buffer in = {rx_places, PLACES, rx, ROOM}, out = {tx_places, PLACES, tx, ROOM};
    struct smoltcp_icmp s;
    at.ident = ident;
    return smoltcp_icmp_init(&s, in, out) == SMOLTCP_OK && smoltcp_icmp_bind(&s, &at) == SMOLTCP_OK
           && smoltcp_host_add_icmp(&tun.host, &s, &id) == SMOLTCP_OK;
}

/* An echo: type, code, checksum (the library's to fill), identifier, sequence, and data. */
static int64_t send_echo(const struct smoltcp_address *to, uint16_t ident, uint16_t sequence) {
    uint8_t message[LEN] = {0};
    struct smoltcp_icmp *s;
    size_t i;
    message[0] = to->version == 4 ? V4_REQUEST : V6_REQUEST;
    message[4] = (uint8_t)(ident >> 8);
    message[5] = (uint8_t)ident;
    message[6] = (uint8_t)(sequence >> 8);
    message[7] = (uint8_t)sequence;
    for (i = 8; i < LEN; i++) message[i] = (uint8_t)i;
    if (smoltcp_host_icmp(&tun.host, &id, &s) != SMOLTCP_OK) return SMOLTCP_ERROR_SOCKET;
    return smoltcp_icmp_send(s, to, message, sizeof message);
}

/* 1 when the reply to this sequence number has come, else 0. */
static int replied(const struct smoltcp_address *to, uint16_t sequence) {
    uint8_t message[TUN_MTU];
    struct smoltcp_address from;
    struct smoltcp_icmp *s;
    int64_t n;
    if (smoltcp_host_icmp(&tun.host, &id, &s) != SMOLTCP_OK) return 0;
    while ((n = smoltcp_icmp_recv(s, &from, message, sizeof message)) >= 0) {
        if (n == LEN && message[0] == (to->version == 4 ? V4_REPLY : V6_REPLY)
            && (message[6] << 8 | message[7]) == sequence && smoltcp_same_address(&from, to)) return 1;
    }
    return 0;
}

/* Sends one echo and waits a second for its reply; then until the second is over. */
static int one(const struct smoltcp_address *to, uint16_t ident, uint16_t sequence, int last) {
    char text[SMOLTCP_TEXT_ROOM];
    int64_t sent = tun_clock();
    int came = 0;
    if (send_echo(to, ident, sequence) != SMOLTCP_OK) return 0;
    tun.now = sent;
    while (tun.now < sent + SECOND && !(came && last)) {
        tun_round(&tun, sent + SECOND);
        if (came || !replied(to, sequence)) continue;
        came = 1;
        printf("%d bytes from %s: sequence %d, %ld us\n", LEN, smoltcp_address_text(to, text), sequence,
               (long)(tun.now - sent));
        fflush(stdout);
    }
    return came;
}

int main(int argc, char **argv) {
    struct smoltcp_address to;
    uint16_t ident = (uint16_t)tun_random();
    int count = argc == 5 ? atoi(argv[4]) : 4, came = 0, i;
    if (argc != 4 && argc != 5) return fprintf(stderr, "usage: ping DEVICE OWN HOST [COUNT]\n"), 2;
    if (smoltcp_address_from(argv[3], &to) != SMOLTCP_OK) return fprintf(stderr, "ping: %s?\n", argv[3]), 2;
    if (!tun_open(&tun, argv[1], argv[2], 1)) return perror(argv[1]), 2;
    if (!add_socket(ident)) return 2;
    for (i = 1; i <= count; i++) came += one(&to, ident, (uint16_t)i, i == count);
    printf("%d sent, %d came back\n", count, came);
    return came == 0;
}
