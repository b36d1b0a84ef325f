/* Fetches a page over HTTP by one TCP socket in a host on a TUN device of Linux, and writes it to the standard output:
 * a client.
 *
 *     get DEVICE OWN SERVER PORT PATH
 *
 * The device is up, OWN is an address that Linux routes to it, and SERVER one of the same version of IP. Exit status 0
 * when all of the answer came and the server closed, 1 when the connection ended otherwise, 2 when nothing began. */
#define _DEFAULT_SOURCE
#include "tun.h"

enum { ROOM = 262144 };

static struct tun tun;
static struct smoltcp_socket_id id;
static uint8_t rx[ROOM], tx[4096];

/* Adds a socket, and opens a connection from an address and a port that the host chooses. */
static int64_t open_connection(const struct smoltcp_endpoint *server) {
    struct smoltcp_tcp s;
    int64_t answer = smoltcp_tcp_init(&s, rx, sizeof rx, tx, sizeof tx);
    if (answer != SMOLTCP_OK) return answer;
    smoltcp_tcp_set_rules(&s, SMOLTCP_RULES_RFC); /* for peers that are not smoltcp, and paths that lose */
    smoltcp_tcp_set_keep_alive(&s, 15 * (int64_t)SECOND);
    answer = smoltcp_host_add_tcp(&tun.host, &s, &id);
    return answer == SMOLTCP_OK ? smoltcp_host_connect(&tun.host, &id, server, NULL) : answer;
}

/* Sends the request once the connection is open. */
static int ask(struct smoltcp_tcp *s, const char *server, const char *path) {
    char line[1024];
    int len = snprintf(line, sizeof line, "GET %s HTTP/1.0\r\nHost: %s\r\n\r\n", path, server);
    if (!smoltcp_tcp_may_send(s)) return 0;
    if (len < 0 || (size_t)len >= sizeof line) exit(2);
    return smoltcp_tcp_send(s, (const uint8_t *)line, (size_t)len) == len;
}

/* Hands on the bytes that came, without a copy, those of the page alone; returns why no more come, or 0. `seen` counts
 * how much of the empty line in front of the page has come. */
static int64_t read_page(struct smoltcp_tcp *s, int *seen) {
    static const char end[] = "\r\n\r\n";
    const uint8_t *at;
    int64_t n, i;
    while ((n = smoltcp_tcp_peek(s, ROOM, &at)) > 0) {
        for (i = 0; i < n && *seen < 4; i++) *seen = at[i] == end[*seen] ? *seen + 1 : at[i] == '\r';
        fwrite(at + i, 1, (size_t)(n - i), stdout);
        smoltcp_tcp_consume(s, (size_t)n);
    }
    return n;
}

/* Goes on until the server has closed, or the connection has ended. */
static int fetch(const char *server, const char *path) {
    int asked = 0, seen = 0;
    struct smoltcp_tcp *s;
    int64_t why = 0;
    while (why != SMOLTCP_ERROR_FINISHED) {
        tun_round(&tun, INT64_MAX);
        if (smoltcp_host_tcp(&tun.host, &id, &s) != SMOLTCP_OK) return 1;
        if (!asked) asked = ask(s, server, path);
        why = read_page(s, &seen);
        if (why == SMOLTCP_ERROR_STATE && smoltcp_tcp_ended(s) != SMOLTCP_END_NONE) {
            return fprintf(stderr, "get: %s\n", smoltcp_end_name(smoltcp_tcp_ended(s))), 1;
        }
    }
    smoltcp_tcp_close(s);
    return 0;
}

/* Closes this half too, so that the server hears of it: until nothing is left to send. */
static void say_goodbye(void) {
    struct smoltcp_tcp *s;
    int64_t until = tun.now + 5 * (int64_t)SECOND;
    while (tun.now < until && smoltcp_host_tcp(&tun.host, &id, &s) == SMOLTCP_OK && smoltcp_tcp_has_work(s)) {
        tun_round(&tun, until);
    }
}

int main(int argc, char **argv) {
    struct smoltcp_endpoint server;
    int64_t answer;
    int status;
    if (argc != 6) return fprintf(stderr, "usage: get DEVICE OWN SERVER PORT PATH\n"), 2;
    server.port = (uint16_t)atoi(argv[4]);
    if (smoltcp_address_from(argv[3], &server.addr) != SMOLTCP_OK) return fprintf(stderr, "get: %s?\n", argv[3]), 2;
    if (!tun_open(&tun, argv[1], argv[2], 1)) return perror(argv[1]), 2;
    answer = open_connection(&server);
    if (answer != SMOLTCP_OK) return fprintf(stderr, "get: %s\n", smoltcp_strerror(answer)), 2;
    status = fetch(argv[3], argv[5]);
    say_goodbye();
    return status;
}
