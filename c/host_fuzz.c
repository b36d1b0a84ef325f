/* Random calls on two hosts that hear each other, and on sockets of each kind that go into them and out again. Packets
 * are lost, repeated, cut, changed and made up.
 *
 *     host_fuzz CALLS SEED
 *
 * It checks that each answer is one that the headers name, that no packet is longer than its buffer, that a handle of a
 * socket that is gone names none, that emit comes to an end at one moment, and that buffers of a socket that was
 * released or dropped may be freed. With SMOLTCP_CHECK it makes no call that this would end. */
#define _DEFAULT_SOURCE
#include <stdio.h>
#include <stdlib.h>
#include <string.h>

#include "smoltcp_host.h"
#include "smoltcp_helpers.h"

enum { MTU = 1500, SLOTS = 5, SOCKETS = 12, KEPT = 16, PLACES = 4, LONGEST = 3000, TURNS = 64 * SLOTS + 8 };
enum kind { TCP, UDP, RAW, ICMP, KINDS };

/* A socket: nowhere, in memory of its own, or in a host. */
struct record {
    enum { NOWHERE, HERE, THERE } where;
    enum kind kind;
    struct smoltcp_tcp tcp;
    struct smoltcp_udp udp;
    struct smoltcp_raw raw;
    struct smoltcp_icmp icmp;
    void *places[2];
    uint8_t *buffers[2];
    struct smoltcp_socket_id id;
};

struct end {
    struct smoltcp_host host;
    struct record records[SOCKETS];
    uint8_t packets[KEPT][MTU];
    size_t lengths[KEPT], kept;
};

static struct end ends[2];
static uint64_t state;
static int64_t now;
static long calls, opened, moved, dropped;

static uint32_t draw(uint32_t below) {
    state = state * 6364136223846793005u + 1442695040888963407u;
    return (uint32_t)(state >> 33) % below;
}

static void fail(const char *what, int64_t answer) {
    printf("call %ld: %s answered %lld\n", calls, what, (long long)answer);
    exit(1);
}

/* The answer, which is one of the headers' and at most so much. */
static int64_t named(const char *what, int64_t answer, int64_t most) {
    calls++;
    if (answer > most || answer < SMOLTCP_ERROR_IN_USE || answer == -10) fail(what, answer);
    return answer;
}

static void done(const char *what, int64_t answer) {
    if (named(what, answer, 0) != SMOLTCP_OK) fail(what, answer);
}

static struct smoltcp_address own(int which, int version) {
    uint8_t six[16] = {0xfd, 0, 0, 0, 0, 0, 0, 0, 0, 0, 0, 0, 0, 0, 0, 0};
    six[15] = (uint8_t)(which + 1);
    return version == 4 ? smoltcp_ipv4(10, 0, 0, (uint8_t)(which + 1)) : smoltcp_ipv6(six);
}

static struct smoltcp_endpoint somewhere(int which) {
    static const uint16_t ports[] = {80, 81, 7, 0, 49152};
    struct smoltcp_endpoint at = smoltcp_any(ports[draw(5)]);
    if (draw(8)) at.addr = own(which, draw(3) ? 4 : 6);
    return at;
}

static void *room(size_t len) {
    void *at = malloc(len ? len : 1);
    if (!at) exit(2);
    return at;
}

static void let_go(struct record *r) {
    int i;
    for (i = 0; i < 2; i++) free(r->places[i]), free(r->buffers[i]);
    r->where = NOWHERE;
}

static void make(struct record *r) {
    size_t len[2] = {draw(LONGEST), draw(LONGEST)}, count[2] = {draw(PLACES + 1), draw(PLACES + 1)};
    int i;
    r->kind = (enum kind)(draw(2) ? 0 : draw(KINDS));
    for (i = 0; i < 2; i++) r->buffers[i] = (uint8_t *)room(len[i]), r->places[i] = room(PLACES * 48);
    if (r->kind == TCP) {
        done("tcp_init", smoltcp_tcp_init(&r->tcp, r->buffers[0], len[0], r->buffers[1], len[1]));
        if (draw(2)) done("rules", smoltcp_tcp_set_rules(&r->tcp, draw(2)));
        if (draw(4) == 0) done("keep_alive", smoltcp_tcp_set_keep_alive(&r->tcp, 1 + draw(2000000)));
    } else if (r->kind == UDP) {
        struct smoltcp_udp_buffer in = {(struct smoltcp_udp_place *)r->places[0], count[0], r->buffers[0], len[0]};
        struct smoltcp_udp_buffer out = {(struct smoltcp_udp_place *)r->places[1], count[1], r->buffers[1], len[1]};
        done("udp_init", smoltcp_udp_init(&r->udp, in, out));
    } else if (r->kind == RAW) {
        struct smoltcp_raw_filter filter = {(uint8_t)(draw(2) ? 4 : 6), (uint8_t)draw(2), 253};
        struct smoltcp_raw_buffer in = {(struct smoltcp_raw_place *)r->places[0], count[0], r->buffers[0], len[0]};
        struct smoltcp_raw_buffer out = {(struct smoltcp_raw_place *)r->places[1], count[1], r->buffers[1], len[1]};
        done("raw_init", smoltcp_raw_init(&r->raw, &filter, in, out));
    } else {
        struct smoltcp_icmp_buffer in = {(struct smoltcp_icmp_place *)r->places[0], count[0], r->buffers[0], len[0]};
        struct smoltcp_icmp_buffer out = {(struct smoltcp_icmp_place *)r->places[1], count[1], r->buffers[1], len[1]};
        done("icmp_init", smoltcp_icmp_init(&r->icmp, in, out));
    }
    r->where = HERE;
}

static int64_t add(struct end *e, struct record *r) {
    switch (r->kind) {
    case TCP: return smoltcp_host_add_tcp(&e->host, &r->tcp, &r->id);
    case UDP: return smoltcp_host_add_udp(&e->host, &r->udp, &r->id);
    case RAW: return smoltcp_host_add_raw(&e->host, &r->raw, &r->id);
    default: return smoltcp_host_add_icmp(&e->host, &r->icmp, &r->id);
    }
}

static int64_t take_out(struct end *e, struct record *r) {
    switch (r->kind) {
    case TCP: return smoltcp_host_remove_tcp(&e->host, &r->id, &r->tcp);
    case UDP: return smoltcp_host_remove_udp(&e->host, &r->id, &r->udp);
    case RAW: return smoltcp_host_remove_raw(&e->host, &r->id, &r->raw);
    default: return smoltcp_host_remove_icmp(&e->host, &r->id, &r->icmp);
    }
}

static int64_t release(struct record *r) {
    switch (r->kind) {
    case TCP: return smoltcp_tcp_release(&r->tcp, NULL, NULL);
    case UDP: return smoltcp_udp_release(&r->udp, NULL, NULL);
    case RAW: return smoltcp_raw_release(&r->raw, NULL, NULL);
    default: return smoltcp_icmp_release(&r->icmp, NULL, NULL);
    }
}

/* Moves a socket between nowhere, memory of its own, and the host. */
static void move(struct end *e, struct record *r) {
    struct smoltcp_socket_id old = r->id;
    if (r->where == NOWHERE) {
        make(r);
    } else if (r->where == HERE && draw(2)) {
        int64_t answer = named("add", add(e, r), 0);
        if (answer != SMOLTCP_OK && answer != SMOLTCP_ERROR_ROOM) fail("add", answer);
        if (answer == SMOLTCP_OK) r->where = THERE, moved++;
    } else if (r->where == HERE) {
        if (named("release", release(r), 0) == SMOLTCP_OK) {
            if (release(r) != SMOLTCP_ERROR_STATE) fail("release again", 0);
            let_go(r);
        }
    } else if (draw(2) && r->kind == TCP) {
        done("drop", smoltcp_host_drop_tcp(&e->host, &r->id));
        if (smoltcp_host_drop_tcp(&e->host, &old) != SMOLTCP_ERROR_SOCKET) fail("drop again", 0);
        let_go(r);
        dropped++;
    } else {
        done("remove", take_out(e, r));
        if (take_out(e, r) != SMOLTCP_ERROR_SOCKET) fail("remove again", 0);
        r->where = HERE;
    }
}

static void use_tcp(struct end *e, struct record *r, int which) {
    uint8_t data[LONGEST];
    struct smoltcp_endpoint remote = somewhere(!which), local = somewhere(which);
    struct smoltcp_tcp *s;
    const uint8_t *at;
    int64_t n;
    if (draw(4) == 0) {
        n = smoltcp_host_connect(&e->host, &r->id, &remote, draw(2) ? &local : NULL);
        if (named("connect", n, 0) == SMOLTCP_OK) opened++;
        return;
    }
    done("host_tcp", smoltcp_host_tcp(&e->host, &r->id, &s));
    memset(data, (int)draw(256), sizeof data);
    switch (draw(10)) {
    case 0: named("listen", smoltcp_tcp_listen(s, &local), 0); break;
    case 1: done("close", smoltcp_tcp_close(s)); break;
    case 2: if (draw(8) == 0) done("abort", smoltcp_tcp_abort(s)); break;
    case 3: named("recv", smoltcp_tcp_recv(s, data, draw(LONGEST)), LONGEST); break;
    case 4:
        n = named("peek", smoltcp_tcp_peek(s, LONGEST, &at), LONGEST);
        if (n > 0) named("consume", smoltcp_tcp_consume(s, draw((uint32_t)n + 2)), LONGEST);
        break;
    case 5: done("set_min_rto", smoltcp_tcp_set_min_rto(s, draw(2000000))); break;
    default: named("send", smoltcp_tcp_send(s, draw(4) ? data : NULL, 0), 0);
        named("send", smoltcp_tcp_send(s, data, draw(LONGEST)), LONGEST);
    }
    named("state", smoltcp_tcp_state(s), SMOLTCP_TIME_WAIT);
    named("ended", smoltcp_tcp_ended(s), SMOLTCP_END_ADDRESS);
}

static void use_datagrams(struct end *e, struct record *r, int which) {
    struct smoltcp_udp_metadata meta;
    struct smoltcp_icmp_endpoint about;
    struct smoltcp_endpoint local = somewhere(which);
    struct smoltcp_udp *udp;
    struct smoltcp_raw *raw;
    struct smoltcp_icmp *icmp;
    uint8_t data[LONGEST] = {0x45, 0, 0, 40, 0, 0, 0, 0, 64, 253, 0, 0, 10, 0, 0, 1, 10, 0, 0, 2};
    size_t len = draw(LONGEST);
    memset(&meta, 0, sizeof meta);
    memset(&about, 0, sizeof about);
    meta.endpoint = somewhere(!which);
    if (r->kind == UDP) {
        if (draw(4) == 0) named("bind_udp", smoltcp_host_bind_udp(&e->host, &r->id, draw(2) ? &local : NULL), 65535);
        done("host_udp", smoltcp_host_udp(&e->host, &r->id, &udp));
        named("udp_send", smoltcp_udp_send(udp, &meta, data, len), 0);
        named("udp_recv", smoltcp_udp_recv(udp, &meta, data, sizeof data), LONGEST);
    } else if (r->kind == RAW) {
        done("host_raw", smoltcp_host_raw(&e->host, &r->id, &raw));
        named("raw_send", smoltcp_raw_send(raw, data, draw(2) ? 40 : len), 0);
        named("raw_recv", smoltcp_raw_recv(raw, data, sizeof data), LONGEST);
    } else {
        done("host_icmp", smoltcp_host_icmp(&e->host, &r->id, &icmp));
        about.kind = (uint8_t)(1 + draw(3));
        about.ident = (uint16_t)draw(3);
        about.endpoint = local;
        named("icmp_bind", smoltcp_icmp_bind(icmp, &about), 0);
        data[0] = (uint8_t)(draw(2) ? 8 : 128);
        named("icmp_send", smoltcp_icmp_send(icmp, &meta.endpoint.addr, data, draw(2) ? 64 : len), 0);
        named("icmp_recv", smoltcp_icmp_recv(icmp, &meta.endpoint.addr, data, sizeof data), LONGEST);
    }
}

static void keep(struct end *e, const uint8_t *packet, size_t len) {
    size_t at = e->kept < KEPT ? e->kept++ : draw(KEPT);
    memcpy(e->packets[at], packet, len);
    e->lengths[at] = len;
}

static void emit(struct end *e) {
    uint8_t packet[MTU];
    size_t cap = draw(16) ? MTU : draw(MTU);
    int64_t n;
    int turn = 0;
    while ((n = named("emit", smoltcp_host_emit(&e->host, now, cap ? packet : NULL, cap), (int64_t)cap)) > 0) {
        if (draw(10)) keep(e, packet, (size_t)n);
        if (turn++ > TURNS) fail("emit without end", n);
    }
    if (n != 0 && n != SMOLTCP_ERROR_ROOM) fail("emit", n);
    if (n == 0 && smoltcp_host_poll_at(&e->host) <= now) fail("poll_at behind emit", smoltcp_host_poll_at(&e->host));
}

/* A packet that the other end sent, maybe changed, or one that nobody did. */
static void receive(struct end *e, struct end *other) {
    uint8_t packet[MTU], reply[MTU];
    size_t len = draw(MTU), i, cap = draw(32) ? MTU : draw(MTU);
    int64_t n;
    if (other->kept && draw(16)) {
        i = draw((uint32_t)other->kept);
        len = other->lengths[i];
        memcpy(packet, other->packets[i], len);
        if (draw(4)) {
            other->kept--;
            memcpy(other->packets[i], other->packets[other->kept], MTU);
            other->lengths[i] = other->lengths[other->kept];
        }
        if (draw(32) == 0 && len) packet[draw((uint32_t)len)] ^= (uint8_t)(1 << draw(8));
        if (draw(64) == 0) len = draw((uint32_t)len + 1);
    } else {
        for (i = 0; i < len; i++) packet[i] = (uint8_t)draw(256);
        if (len) packet[0] = draw(2) ? 0x45 : 0x60;
    }
    n = smoltcp_host_receive(&e->host, now, len ? packet : NULL, len, reply, cap);
    if (named("receive", n, (int64_t)cap) > 0) keep(e, reply, (size_t)n);
}

static void set(struct end *e, int which) {
    struct smoltcp_cidr addresses[2];
    struct smoltcp_guards guards = {draw(60) * 1000000, draw(60) * 1000000, draw(120) * 1000000, draw(60) * 1000000};
    struct smoltcp_address group = smoltcp_ipv4(224, 0, 0, (uint8_t)draw(8));
    struct smoltcp_counters counters;
    struct smoltcp_context cx;
    struct smoltcp_key key;
    struct smoltcp_socket_id id = {draw(SLOTS + 1), draw(3)};
    uint64_t opened;
    size_t place, i;
    memset(&key, (int)draw(256), sizeof key);
    switch (draw(12)) {
    case 10: done("set_most", smoltcp_host_set_most_of_source(&e->host, draw(SLOTS + 1))); break;
    case 11: done("set_answer_key", smoltcp_host_set_answer_key(&e->host, (uint64_t)draw(1000))); break;
    case 0: done("set_mtu", smoltcp_host_set_mtu(&e->host, draw(4) ? MTU : draw(MTU))); break;
    case 1: done("set_guards", smoltcp_host_set_guards(&e->host, &guards)); break;
    case 2: done("cookies", smoltcp_host_set_syn_cookies(&e->host, &key, draw(SLOTS + 1))); break;
    case 3: done("stop_cookies", smoltcp_host_stop_syn_cookies(&e->host)); break;
    case 4: named("join", smoltcp_host_join(&e->host, &group), 0); break;
    case 5: named("leave", smoltcp_host_leave(&e->host, &group), 0); break;
    case 6:
        for (i = 0; i < 2; i++) addresses[i].address = own(which, i ? 6 : 4), addresses[i].prefix_len = i ? 64 : 24;
        done("set_addresses", smoltcp_host_set_addresses(&e->host, draw(8) ? addresses : NULL, 0));
        done("set_addresses", smoltcp_host_set_addresses(&e->host, addresses, draw(8) ? 2 : draw(3)));
        break;
    case 7: done("counters", smoltcp_host_counters(&e->host, &counters)); break;
    case 8: done("context", smoltcp_host_context(&e->host, &group, &cx)); break;
    default:
        named("at", smoltcp_host_at(&e->host, draw(SLOTS + 1), &id), 1);
        named("touched", smoltcp_host_touched(&e->host, draw(SLOTS + 1), &place), 1);
        named("ended", smoltcp_host_ended(&e->host, draw(SLOTS + 1), &place), 1);
        named("opened", smoltcp_host_opened(&e->host, &id, &opened), 0);
        named("free", smoltcp_host_free_slots(&e->host), SLOTS);
    }
}

static void step(int which) {
    struct end *e = &ends[which];
    struct record *r = &e->records[draw(SOCKETS)];
    switch (draw(16)) {
    case 0: set(e, which); break;
    case 1: move(e, r); break;
    case 2: case 3: case 4: emit(e); break;
    case 5: now += draw(4) ? draw(300000) : draw(20000000); break;
    case 6: case 7: case 8: case 9: receive(e, &ends[!which]); break;
    default:
        if (r->where != THERE) move(e, r);
        else if (r->kind == TCP) use_tcp(e, r, which);
        else use_datagrams(e, r, which);
    }
}

/* Everything goes: each socket out of its host, to CLOSED, and away. */
static void end(struct end *e) {
    struct smoltcp_context none = {0, 0, 0, MTU, {0}, {0}};
    uint8_t packet[MTU];
    int i;
    for (i = 0; i < SOCKETS; i++) {
        struct record *r = &e->records[i];
        if (r->where == NOWHERE) continue;
        if (r->where == THERE) done("remove", take_out(e, r));
        if (r->kind == TCP) {
            smoltcp_tcp_abort(&r->tcp);
            smoltcp_tcp_dispatch(&r->tcp, &none, packet, sizeof packet); /* has no address: nothing goes out */
        }
        done("release", release(r));
        let_go(r);
    }
    done("host_release", smoltcp_host_release(&e->host));
    if (smoltcp_host_release(&e->host) != SMOLTCP_ERROR_STATE) fail("release of a host again", 0);
}

int main(int argc, char **argv) {
    long most = argc > 1 ? atol(argv[1]) : 100000;
    struct smoltcp_cidr addresses[2];
    struct smoltcp_key key;
    int which, i;
    state = argc > 2 ? strtoull(argv[2], NULL, 10) : 1;
    while (calls < most) {
        now = draw(1000000);
        for (which = 0; which < 2; which++) {
            memset(&key, which + 1, sizeof key);
            for (i = 0; i < 2; i++) addresses[i].address = own(which, i ? 6 : 4), addresses[i].prefix_len = i ? 64 : 24;
            done("host_init", smoltcp_host_init(&ends[which].host, SLOTS, addresses, 2, &key));
            ends[which].kept = 0;
        }
        for (i = 0; i < 20000 && calls < most; i++) step((int)draw(2));
        for (which = 0; which < 2; which++) end(&ends[which]);
    }
    printf("%ld calls: %ld connections opened, %ld sockets moved, %ld dropped\n", calls, opened, moved, dropped);
    return 0;
}
