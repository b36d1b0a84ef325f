/* Packets as bytes over a library that takes segments and datagrams as values, as smoltcp's sockets do: checksums are
 * summed and tested, and options read and written, as by smoltcp's interface layer. IPv4 alone. README.md says how to
 * link it. */
#include <stdlib.h>
#include <string.h>

#include "side.h"

enum { HAS_ACK = 1, HAS_MSS = 2, HAS_SCALE = 4, SACK_PERMITTED = 8, MTU = 1500 };
enum { NONE, PSH, SYN, FIN, RST };

/* A segment with what its IP header tells, and what a call is told of the interface. */
struct segment {
    uint32_t src, dst, seq, ack, tsval, tsecr, sack[6], payload_len, ip_payload_len;
    uint16_t src_port, dst_port, window, mss;
    uint8_t control, flags, scale, hop_limit;
};
struct interface { int64_t now; uint32_t word, ip_mtu; uint8_t has_address; };

void *peer_tcp_new(uint32_t addr, size_t rx, size_t tx);
void peer_tcp_set(void *s, uint32_t what, int64_t value);
int64_t peer_tcp_listen(void *s, uint32_t addr, uint16_t port);
int64_t peer_tcp_connect(void *s, const struct interface *, uint32_t raddr, uint16_t rport, uint32_t laddr,
                         uint16_t lport);
int64_t peer_tcp_send_slice(void *s, const uint8_t *, size_t);
int64_t peer_tcp_recv_slice(void *s, uint8_t *, size_t);
int32_t peer_tcp_process(void *s, const struct interface *, const struct segment *, const uint8_t *payload, size_t,
                         struct segment *reply);
int32_t peer_tcp_dispatch(void *s, const struct interface *, uint8_t fail, struct segment *, uint8_t *out, size_t cap);
int64_t peer_tcp_poll_at(void *s, const struct interface *);
void *peer_udp_new(uint32_t addr, size_t places, size_t bytes);
int64_t peer_udp_bind(void *s, uint32_t addr, uint16_t port);
int64_t peer_udp_send_slice(void *s, const uint8_t *, size_t, uint32_t raddr, uint16_t rport);
int64_t peer_udp_recv_slice(void *s, uint8_t *, size_t, uint32_t *raddr, uint16_t *rport);
int32_t peer_udp_process(void *s, const struct interface *, uint32_t saddr, uint16_t sport, uint32_t daddr,
                         uint16_t dport, const uint8_t *payload, size_t);
int64_t peer_udp_dispatch(void *s, const struct interface *, uint8_t fail, uint32_t *raddr, uint16_t *rport,
                          uint8_t *out, size_t cap);

struct other { void *tcp; struct interface interface; uint32_t addr; };

static uint32_t be16(const uint8_t *p) { return (uint32_t)p[0] << 8 | p[1]; }
static uint32_t be32(const uint8_t *p) { return be16(p) << 16 | be16(p + 2); }
static void put16(uint8_t *p, uint32_t n) { p[0] = (uint8_t)(n >> 8); p[1] = (uint8_t)n; }
static void put32(uint8_t *p, uint32_t n) { put16(p, n >> 16); put16(p + 2, n); }

/* The sum of 16-bit words, by 32 bits at a time, not yet folded. */
static uint64_t sum(const uint8_t *p, size_t len) {
    uint64_t total = 0;
    uint32_t word;
    for (; len >= 4; p += 4, len -= 4) {
        memcpy(&word, p, 4);
        total += word;
    }
    word = 0;
    memcpy(&word, p, len);
    return total + word;
}

/* Folded and complemented, as it stands in memory. */
static uint16_t folded(uint64_t total) {
    while (total >> 16) total = (total & 0xffff) + (total >> 16);
    return (uint16_t)~total;
}

static uint64_t pseudo(const uint8_t *ip, size_t len) {
    uint8_t rest[4] = {0, ip[9], (uint8_t)(len >> 8), (uint8_t)len};
    return sum(ip + 12, 8) + sum(rest, 4);
}

static int read_options(const uint8_t *p, const uint8_t *end, struct segment *s) {
    while (p < end && *p != 0) {
        if (*p == 1) { p++; continue; }
        if (end - p < 2 || p[1] < 2 || p[1] > end - p) return 0;
        if (*p == 2 && p[1] == 4) { s->flags |= HAS_MSS; s->mss = (uint16_t)be16(p + 2); }
        if (*p == 3 && p[1] == 3) { s->flags |= HAS_SCALE; s->scale = p[2] > 14 ? 14 : p[2]; }
        if (*p == 4 && p[1] == 2) s->flags |= SACK_PERMITTED;
        p += p[1];
    }
    return 1;
}

/* The length of an IPv4 header before so many bytes of the protocol, and of the packet; 0 where it is broken. */
static size_t parse_ip(const uint8_t *p, size_t len, uint8_t protocol, size_t least, size_t *total) {
    size_t head;
    if (len < 20 || p[0] >> 4 != 4) return 0;
    head = (size_t)(p[0] & 15) * 4;
    *total = be16(p + 2);
    if (head < 20 || *total > len || head + least > *total || p[9] != protocol || (be16(p + 6) & 0x3fff)) return 0;
    return folded(sum(p, head)) == 0 ? head : 0;
}

/* The segment that a packet carries; 0 where it is broken. */
static int parse(const uint8_t *p, size_t len, struct segment *s, const uint8_t **payload) {
    size_t total, tcp_head, head = parse_ip(p, len, 6, 20, &total);
    const uint8_t *tcp = p + head;
    uint8_t bits;
    if (head == 0) return 0;
    tcp_head = (size_t)(tcp[12] >> 4) * 4;
    if (tcp_head < 20 || head + tcp_head > total || be16(tcp) == 0 || be16(tcp + 2) == 0) return 0;
    if (folded(pseudo(p, total - head) + sum(tcp, total - head)) != 0) return 0;
    memset(s, 0, sizeof *s);
    s->src = be32(p + 12); s->dst = be32(p + 16);
    s->hop_limit = p[8];
    s->ip_payload_len = (uint32_t)(total - head);
    s->src_port = (uint16_t)be16(tcp); s->dst_port = (uint16_t)be16(tcp + 2);
    s->seq = be32(tcp + 4); s->window = (uint16_t)be16(tcp + 14);
    bits = tcp[13];
    if (bits & 16) { s->flags |= HAS_ACK; s->ack = be32(tcp + 8); }
    s->control = bits & 2 ? SYN : bits & 1 ? FIN : bits & 4 ? RST : bits & 8 ? PSH : NONE;
    s->payload_len = (uint32_t)(total - head - tcp_head);
    *payload = tcp + tcp_head;
    return read_options(tcp + 20, tcp + tcp_head, s);
}

static void emit_ip(uint8_t *out, size_t total, uint8_t hop_limit, uint8_t protocol, uint32_t src, uint32_t dst) {
    uint16_t check;
    memset(out, 0, 20);
    out[0] = 0x45; put16(out + 2, (uint32_t)total); out[6] = 0x40; out[8] = hop_limit; out[9] = protocol;
    put32(out + 12, src); put32(out + 16, dst);
    check = folded(sum(out, 20));
    memcpy(out + 10, &check, 2);
}

/* Writes the packet around a payload that stands at out + 40 already, where there are no options. */
static int64_t emit(const struct segment *s, uint8_t *out, size_t cap) {
    static const uint8_t bits[] = {0, 8, 2, 1, 4};
    uint8_t options[12];
    size_t n = 0, total;
    uint16_t check;
    if (s->flags & HAS_MSS) { options[0] = 2; options[1] = 4; put16(options + 2, s->mss); n = 4; }
    if (s->flags & HAS_SCALE) { put16(options + n, 0x303); options[n + 2] = s->scale; options[n + 3] = 1; n += 4; }
    if (s->flags & SACK_PERMITTED) { options[n] = 4; options[n + 1] = 2; options[n + 2] = options[n + 3] = 1; n += 4; }
    total = 40 + n + s->payload_len;
    if (total > cap) return -6;
    if (n) memmove(out + 40 + n, out + 40, s->payload_len);
    memcpy(out + 40, options, n);
    memset(out + 20, 0, 20);
    emit_ip(out, total, s->hop_limit, 6, s->src, s->dst);
    put16(out + 20, s->src_port); put16(out + 22, s->dst_port); put32(out + 24, s->seq);
    if (s->flags & HAS_ACK) put32(out + 28, s->ack);
    out[32] = (uint8_t)((20 + n) << 2);
    out[33] = (uint8_t)(bits[s->control] | (s->flags & HAS_ACK ? 16 : 0));
    put16(out + 34, s->window);
    check = folded(pseudo(out, total - 20) + sum(out + 20, total - 20));
    memcpy(out + 36, &check, 2);
    return (int64_t)total;
}

static void *make(int host, size_t buffer) {
    struct other *o = calloc(1, sizeof *o);
    o->addr = 0x0a000000u + (uint32_t)host;
    o->interface.ip_mtu = MTU;
    o->interface.has_address = 1;
    o->tcp = peer_tcp_new(o->addr, buffer, buffer);
    peer_tcp_set(o->tcp, 1, -1);
    peer_tcp_set(o->tcp, 5, 0);
    return o;
}

static int64_t other_listen(void *p, int port) {
    return peer_tcp_listen(((struct other *)p)->tcp, 0, (uint16_t)port);
}

static int64_t other_connect(void *p, int64_t now, int remote_host, int remote_port, int local_port) {
    struct other *o = p;
    o->interface.now = now;
    return peer_tcp_connect(o->tcp, &o->interface, 0x0a000000u + (uint32_t)remote_host, (uint16_t)remote_port, o->addr,
                            (uint16_t)local_port);
}

static int64_t other_process(void *p, int64_t now, const uint8_t *packet, size_t len, uint8_t *reply, size_t cap) {
    struct other *o = p;
    struct segment s, r;
    const uint8_t *payload;
    int32_t answer;
    o->interface.now = now;
    if (!parse(packet, len, &s, &payload)) return -8;
    answer = peer_tcp_process(o->tcp, &o->interface, &s, payload, s.payload_len, &r);
    if (answer < 0) return -8;
    return answer ? emit(&r, reply, cap) : 0;
}

static int64_t other_dispatch(void *p, int64_t now, uint8_t *out, size_t cap) {
    struct other *o = p;
    struct segment s;
    o->interface.now = now;
    if (peer_tcp_dispatch(o->tcp, &o->interface, 0, &s, out + 40, cap - 40) != 1) return 0;
    return emit(&s, out, cap);
}

static int64_t other_poll_at(void *p, int64_t now) {
    struct other *o = p;
    o->interface.now = now;
    return peer_tcp_poll_at(o->tcp, &o->interface);
}

static int64_t other_send(void *p, const uint8_t *data, size_t len) {
    return peer_tcp_send_slice(((struct other *)p)->tcp, data, len);
}

static int64_t other_recv(void *p, uint8_t *data, size_t len) {
    return peer_tcp_recv_slice(((struct other *)p)->tcp, data, len);
}

struct other_udp { void *udp; struct interface interface; uint32_t addr; uint16_t port; };

static void *udp_make(int host, int port) {
    struct other_udp *o = calloc(1, sizeof *o);
    o->addr = 0x0a000000u + (uint32_t)host;
    o->port = (uint16_t)port;
    o->interface.ip_mtu = MTU;
    o->interface.has_address = 1;
    o->udp = peer_udp_new(o->addr, UDP_PLACES, UDP_BYTES);
    peer_udp_bind(o->udp, 0, o->port);
    return o;
}

static int64_t udp_send(void *p, int remote_host, int remote_port, const uint8_t *data, size_t len) {
    uint32_t addr = 0x0a000000u + (uint32_t)remote_host;
    return peer_udp_send_slice(((struct other_udp *)p)->udp, data, len, addr, (uint16_t)remote_port);
}

static int64_t udp_recv(void *p, uint8_t *data, size_t cap) {
    uint32_t addr;
    uint16_t port;
    return peer_udp_recv_slice(((struct other_udp *)p)->udp, data, cap, &addr, &port);
}

static int64_t udp_process(void *p, int64_t now, const uint8_t *packet, size_t len) {
    struct other_udp *o = p;
    size_t total, count, head = parse_ip(packet, len, 17, 8, &total);
    const uint8_t *udp = packet + head;
    if (head == 0) return -8;
    count = be16(udp + 4);
    if (count < 8 || head + count > total || be16(udp + 2) == 0) return -8;
    if (be16(udp + 6) != 0 && folded(pseudo(packet, count) + sum(udp, count)) != 0) return -8;
    o->interface.now = now;
    return peer_udp_process(o->udp, &o->interface, be32(packet + 12), (uint16_t)be16(udp), be32(packet + 16),
                            (uint16_t)be16(udp + 2), udp + 8, count - 8) == 0 ? 0 : -8;
}

static int64_t udp_dispatch(void *p, int64_t now, uint8_t *out, size_t cap) {
    struct other_udp *o = p;
    uint32_t addr;
    uint16_t port, check;
    int64_t n;
    size_t count;
    o->interface.now = now;
    n = peer_udp_dispatch(o->udp, &o->interface, 0, &addr, &port, out + 28, cap - 28);
    if (n < 0) return 0;
    count = (size_t)n + 8;
    emit_ip(out, count + 20, 64, 17, o->addr, addr);
    put16(out + 20, o->port); put16(out + 22, port); put16(out + 24, (uint32_t)count); put16(out + 26, 0);
    check = folded(pseudo(out, count) + sum(out + 20, count));
    if (check == 0) check = 0xffff;
    memcpy(out + 26, &check, 2);
    return (int64_t)count + 20;
}

const struct side other_side = {
    "smoltcp", make, other_listen, other_connect, other_process, other_dispatch, other_poll_at, other_send, other_recv,
    udp_make, udp_send, udp_recv, udp_process, udp_dispatch,
};
