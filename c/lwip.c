/* A socket of the library beside lwIP in one process, in virtual time: lwIP echoes what the socket sends over a link
 * that loses, repeats and reorders packets, and each byte that comes back is looked at. `lwip SEED`, over Debian's
 * liblwip-dev. The socket has the RFCs' rules. live/lwip runs many seeds. */
#include <stdio.h>
#include <stdlib.h>
#include <string.h>

#include "lwip/init.h"
#include "lwip/ip.h"
#include "lwip/netif.h"
#include "lwip/pbuf.h"
#include "lwip/priv/tcp_priv.h"
#include "lwip/tcp.h"
#include "smoltcp_socket.h"

enum { ROOM = 32768, MTU = 1500, WAITING = 4096, TICK = 250000, PORT = 7, OURS = 0, LWIPS = 1 };

static const int64_t longest = 3600000000LL; /* microseconds */
static int64_t now = 1000000;
static uint64_t words;

/* ---- the link */

struct packet { int64_t at; int to; size_t len; uint8_t bytes[MTU]; };

static struct packet waiting[WAITING];
static int count, lost, repeated, late;

static uint32_t below(uint32_t limit) {
    words = words * 6364136223846793005ULL + 1442695040888963407ULL;
    return (uint32_t)(words >> 33) % limit;
}

static void put_one(int to, const uint8_t *bytes, size_t len, int64_t delay) {
    if (count == WAITING || len > MTU) return;
    waiting[count].at = now + delay;
    waiting[count].to = to;
    waiting[count].len = len;
    memcpy(waiting[count].bytes, bytes, len);
    count++;
}

static void put(int to, const uint8_t *bytes, size_t len) {
    if ((int)below(1000) < lost) return;
    if ((int)below(1000) < repeated) put_one(to, bytes, len, 5000);
    put_one(to, bytes, len, 5000 + ((int)below(1000) < late ? below(20000) : 0));
}

/* The packet that arrives first; -1 where none waits. */
static int first(void) {
    int i, found = -1;
    for (i = 0; i < count; i++)
        if (found < 0 || waiting[i].at < waiting[found].at) found = i;
    return found;
}

/* ---- lwIP, an echo */

static struct netif netif;
static struct pbuf *queue;
static int peer_closed;

u32_t sys_now(void) { return (u32_t)(now / 1000); }

static err_t lwip_out(struct netif *n, struct pbuf *p, const ip4_addr_t *addr) {
    uint8_t bytes[MTU];
    (void)n;
    (void)addr;
    if (p->tot_len > MTU) return ERR_VAL;
    pbuf_copy_partial(p, bytes, p->tot_len, 0);
    put(OURS, bytes, p->tot_len);
    return ERR_OK;
}

static err_t lwip_up(struct netif *n) {
    n->name[0] = 'l';
    n->name[1] = 'w';
    n->output = lwip_out;
    n->mtu = MTU;
    return ERR_OK;
}

/* From memory of its own: the pool of Debian's library has shorter pieces than it says. */
static void lwip_take(const uint8_t *bytes, size_t len) {
    struct pbuf *p = pbuf_alloc(PBUF_RAW, (u16_t)len, PBUF_RAM);
    if (!p) return;
    pbuf_take(p, bytes, (u16_t)len);
    if (netif.input(p, &netif) != ERR_OK) pbuf_free(p);
}

/* Sends back as much as there is room for, and closes behind the last byte. */
static err_t lwip_echo(struct tcp_pcb *pcb) {
    while (queue) {
        struct pbuf *head = queue;
        if (head->len > tcp_sndbuf(pcb)) break;
        if (tcp_write(pcb, head->payload, head->len, TCP_WRITE_FLAG_COPY) != ERR_OK) break;
        tcp_recved(pcb, head->len);
        queue = head->next;
        if (queue) pbuf_ref(queue);
        pbuf_free(head);
    }
    tcp_output(pcb);
    if (!queue && peer_closed == 1) {
        peer_closed = 2;
        return tcp_close(pcb);
    }
    return ERR_OK;
}

static err_t lwip_got(void *arg, struct tcp_pcb *pcb, struct pbuf *p, err_t err) {
    (void)arg;
    (void)err;
    if (!p) peer_closed = 1;
    else if (queue) pbuf_cat(queue, p);
    else queue = p;
    return lwip_echo(pcb);
}

static err_t lwip_sent(void *arg, struct tcp_pcb *pcb, u16_t len) {
    (void)arg;
    (void)len;
    return lwip_echo(pcb);
}

static err_t lwip_accept(void *arg, struct tcp_pcb *pcb, err_t err) {
    (void)arg;
    (void)err;
    tcp_recv(pcb, lwip_got);
    tcp_sent(pcb, lwip_sent);
    return ERR_OK;
}

static void lwip_begin(void) {
    ip4_addr_t own, mask, gateway;
    struct tcp_pcb *pcb;
    lwip_init();
    IP4_ADDR(&own, 10, 0, 0, 2);
    IP4_ADDR(&mask, 255, 255, 255, 0);
    IP4_ADDR(&gateway, 10, 0, 0, 1);
    netif_add(&netif, &own, &mask, &gateway, NULL, lwip_up, ip_input);
    netif_set_default(&netif);
    netif_set_link_up(&netif);
    netif_set_up(&netif);
    pcb = tcp_new();
    tcp_bind(pcb, IP_ADDR_ANY, PORT);
    pcb = tcp_listen(pcb);
    tcp_accept(pcb, lwip_accept);
}

/* ---- the socket */

static struct smoltcp_tcp s;
static struct smoltcp_context cx;
static uint8_t rx[ROOM], tx[ROOM];
static size_t total, sent, got;

static uint8_t byte_at(size_t place) { return (uint8_t)(place % 251 + place / 65536); }

static void fail(const char *what) {
    printf("%s at %.3f s: sent %zu, got %zu of %zu, %s\n", what, (double)now / 1e6, sent, got, total,
           smoltcp_state_name(smoltcp_tcp_state(&s)));
    exit(1);
}

/* Writes, closes behind the last byte, and reads; whether the stream has ended. */
static int use(void) {
    uint8_t bytes[4096];
    int64_t n;
    size_t i;
    for (;;) {
        size_t most = total - sent < sizeof bytes ? total - sent : sizeof bytes;
        for (i = 0; i < most; i++) bytes[i] = byte_at(sent + i);
        n = most ? smoltcp_tcp_send(&s, bytes, most) : 0;
        if (n <= 0) break;
        sent += (size_t)n;
    }
    if (sent == total) smoltcp_tcp_close(&s);
    while ((n = smoltcp_tcp_recv(&s, bytes, sizeof bytes)) > 0) {
        for (i = 0; i < (size_t)n; i++)
            if (bytes[i] != byte_at(got + i)) fail("a wrong byte");
        got += (size_t)n;
    }
    if (n == SMOLTCP_ERROR_FINISHED && got != total) fail("finished too soon");
    return n == SMOLTCP_ERROR_FINISHED;
}

static void emit(void) {
    uint8_t packet[MTU];
    int turns;
    for (turns = 0; turns < 64 && smoltcp_tcp_poll_at(&s, &cx) <= now; turns++) {
        int64_t len = smoltcp_tcp_dispatch(&s, &cx, packet, sizeof packet);
        if (len < 0) fail("a dispatch that fails");
        if (len > 0) put(LWIPS, packet, (size_t)len);
    }
}

static void take(const uint8_t *bytes, size_t len) {
    uint8_t reply[SMOLTCP_REPLY_ROOM];
    int64_t answer = smoltcp_tcp_process(&s, &cx, bytes, len, reply, sizeof reply);
    if (answer > 0) put(LWIPS, reply, (size_t)answer);
}

static void socket_begin(void) {
    struct smoltcp_address own = smoltcp_ipv4(10, 0, 0, 1);
    struct smoltcp_endpoint peer = {smoltcp_ipv4(10, 0, 0, 2), PORT}, from = {{0, {0}, {0}}, 50000};
    from.addr = own;
    memcpy(cx.v4, own.v4, 4);
    cx.ip_mtu = MTU;
    cx.now = now;
    cx.word = below(0x7fffffff);
    if (smoltcp_tcp_init(&s, rx, ROOM, tx, ROOM) || smoltcp_tcp_set_rules(&s, SMOLTCP_RULES_RFC) ||
        smoltcp_tcp_connect(&s, &cx, &peer, &from)) fail("a connection that does not begin");
}

int main(int argc, char **argv) {
    int64_t tick = now + TICK;
    if (argc != 2) return 2;
    words = strtoull(argv[1], NULL, 10) * 2654435761ULL + 1;
    lost = (int)below(60);
    repeated = (int)below(30);
    late = (int)below(100);
    total = 1 + below(200000);
    lwip_begin();
    socket_begin();
    while (!use()) {
        int next;
        int64_t at;
        emit();
        next = first();
        at = smoltcp_tcp_poll_at(&s, &cx);
        if (at <= now) at = now + 1;
        if (tick < at) at = tick;
        if (next >= 0 && waiting[next].at < at) at = waiting[next].at;
        if (at > now) now = at;
        if (now > longest) fail("too long");
        cx.now = now;
        if (now >= tick) {
            tcp_tmr();
            tick = now + TICK;
        }
        if (next >= 0 && waiting[next].at <= now) {
            static struct packet packet;
            packet = waiting[next];
            waiting[next] = waiting[--count];
            if (packet.to == OURS) take(packet.bytes, packet.len);
            else lwip_take(packet.bytes, packet.len);
        }
    }
    printf("%zu bytes there and back in %.3f s\n", got, (double)now / 1e6);
    return 0;
}
