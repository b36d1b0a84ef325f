/* A page by HTTP, in one process: a client asks for a path, and a server answers with a page and closes. Packets pass
 * from the one to the other in memory; a program with a device reads and writes them there.
 *
 *     cc page.c $(pkg-config --cflags --libs smoltcp-proved) -o page && ./page /hello */
#include <stdio.h>
#include <string.h>

#include "smoltcp_socket.h"

enum { ROOM = 2048, MTU = 1500, MILLISECOND = 1000, LONGEST = 20000 };

struct host {
    struct smoltcp_tcp socket;
    struct smoltcp_context context;
    uint8_t rx[ROOM], tx[ROOM];
};

static struct smoltcp_endpoint endpoint(uint8_t last, uint16_t port) {
    struct smoltcp_endpoint e = {smoltcp_ipv4(10, 0, 0, last), port};
    return e;
}

static int start(struct host *h, uint8_t last, uint32_t word) {
    h->context.ip_mtu = MTU;
    h->context.v4[0] = 10;
    h->context.v4[3] = last;
    h->context.word = word; /* of a source of random words, in a program on a network */
    return smoltcp_tcp_init(&h->socket, h->rx, ROOM, h->tx, ROOM) == SMOLTCP_OK
           && smoltcp_tcp_set_timeout(&h->socket, 60000 * (int64_t)MILLISECOND) == SMOLTCP_OK;
}

/* What the one has to send goes to the other, and what that answers comes back. */
static void pass(struct host *from, struct host *to) {
    uint8_t packet[MTU], reply[MTU];
    int64_t len = smoltcp_tcp_dispatch(&from->socket, &from->context, packet, sizeof packet);
    if (len <= 0) return;
    len = smoltcp_tcp_process(&to->socket, &to->context, packet, (size_t)len, reply, sizeof reply);
    if (len > 0) smoltcp_tcp_process(&from->socket, &from->context, reply, (size_t)len, packet, sizeof packet);
}

/* Reads the request until its empty line, answers it, and closes. */
static void serve(struct host *server) {
    static char request[ROOM];
    static size_t have;
    char page[ROOM], path[64] = "";
    int64_t len = smoltcp_tcp_recv(&server->socket, (uint8_t *)request + have, sizeof request - 1 - have);
    if (len <= 0) return;
    have += (size_t)len;
    request[have] = 0;
    if (!strstr(request, "\r\n\r\n")) return;
    sscanf(request, "GET %63s ", path);
    len = snprintf(page, sizeof page, "HTTP/1.0 200 OK\r\nContent-Type: text/plain\r\n\r\nYou asked for %s\n", path);
    smoltcp_tcp_send(&server->socket, (const uint8_t *)page, (size_t)len);
    smoltcp_tcp_close(&server->socket);
}

/* Writes what has come to standard output. Answers whether that is all: the server has closed. */
static int show(struct host *client) {
    uint8_t bytes[256];
    int64_t len;
    while ((len = smoltcp_tcp_recv(&client->socket, bytes, sizeof bytes)) > 0) fwrite(bytes, 1, (size_t)len, stdout);
    if (len != SMOLTCP_ERROR_FINISHED) return 0;
    smoltcp_tcp_close(&client->socket);
    return 1;
}

int main(int argc, char **argv) {
    static struct host client, server;
    struct smoltcp_endpoint here = endpoint(1, 49152), there = endpoint(2, 80);
    char request[128];
    int asked = 0, now, len = snprintf(request, sizeof request, "GET %.64s HTTP/1.0\r\n\r\n", argc > 1 ? argv[1] : "/");
    int64_t answer;
    if (!start(&client, 1, 1000) || !start(&server, 2, 5000)) {
        fputs("a socket was refused\n", stderr);
        return 1;
    }
    answer = smoltcp_tcp_listen(&server.socket, &there);
    if (answer == SMOLTCP_OK) answer = smoltcp_tcp_connect(&client.socket, &client.context, &there, &here);
    if (answer != SMOLTCP_OK) {
        fprintf(stderr, "%s\n", smoltcp_strerror(answer));
        return 1;
    }
    for (now = 0; now < LONGEST; now++) {
        client.context.now = server.context.now = now * (int64_t)MILLISECOND;
        if (!asked) asked = smoltcp_tcp_send(&client.socket, (const uint8_t *)request, (size_t)len) == len;
        pass(&client, &server);
        serve(&server);
        pass(&server, &client);
        if (show(&client)) return 0;
    }
    fputs("the page did not come\n", stderr);
    return 1;
}
