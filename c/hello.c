/* Greets each caller on port 7777 by its address, with four sockets in a host on a TUN device of Linux: a server.
 *
 *     hello DEVICE OWN
 *
 * The device is up, and OWN is an address that Linux routes to it. */
#define _DEFAULT_SOURCE
#include "tun.h"

enum { CALLERS = 4, ROOM = 4096 };
static struct tun tun;
static struct smoltcp_socket_id ids[CALLERS];
static uint8_t rx[CALLERS][ROOM], tx[CALLERS][ROOM];

/* Listens, greets a caller, closes behind the greeting, and listens again once the connection has ended. */
static void serve(size_t i) {
    struct smoltcp_endpoint at = smoltcp_any(7777), caller;
    char text[SMOLTCP_TEXT_ROOM], line[80];
    struct smoltcp_tcp *s;
    if (smoltcp_host_tcp(&tun.host, &ids[i], &s) != SMOLTCP_OK) return;
    if (smoltcp_tcp_state(s) == SMOLTCP_CLOSED) smoltcp_tcp_listen(s, &at);
    if (!smoltcp_tcp_may_send(s) || smoltcp_tcp_remote_endpoint(s, &caller) != 1) return;
    snprintf(line, sizeof line, "hello, %s\n", smoltcp_address_text(&caller.addr, text));
    smoltcp_tcp_send(s, (const uint8_t *)line, strlen(line));
    smoltcp_tcp_close(s);
}

int main(int argc, char **argv) {
    struct smoltcp_tcp s;
    size_t i;
    if (argc != 3 || !tun_open(&tun, argv[1], argv[2], CALLERS)) return 2;
    for (i = 0; i < CALLERS; i++) {
        if (smoltcp_tcp_init(&s, rx[i], ROOM, tx[i], ROOM) != SMOLTCP_OK) return 2;
        smoltcp_tcp_set_rules(&s, SMOLTCP_RULES_RFC); /* for peers that are not smoltcp, and paths that lose */
        if (smoltcp_host_add_tcp(&tun.host, &s, &ids[i]) != SMOLTCP_OK) return 2;
    }
    for (;;) {
        for (i = 0; i < CALLERS; i++) serve(i);
        tun_round(&tun, INT64_MAX);
    }
}
