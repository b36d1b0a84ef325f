/* Nanoseconds a call of the library, and of another one where it is linked (README.md): each in turns, the lower
 * quartile of the turns, and the median of the turns' ratios. */
#define _DEFAULT_SOURCE
#include <stdio.h>
#include <stdlib.h>
#include <string.h>
#include <time.h>

#include "../smoltcp_socket.h"
#include "side.h"

enum { MTU = 1500, SEGMENT = 1460, BUFFER = 65536, LONG = 1 << 20, BATCH = 32, ROUNDS = 60, TURNS = 80 };
enum { CALLS = 9, SHORT_STREAM = CALLS, LONG_STREAM, SHORT_UDP, LONG_UDP, ROWS };

static const char *const rows[ROWS] = {
    "`process` of 1,460 bytes", "`dispatch` of 1,460 bytes", "`process` of an acknowledgement that releases bytes",
    "`dispatch` of an acknowledgement", "`process` of 1,460 bytes for another socket", "`dispatch` of nothing",
    "`send` of 1,460 bytes", "`recv` of 1,460 bytes", "`poll_at`",
    "a stream of 64 KB, in microseconds", "a stream of 1 MB, in microseconds",
    "UDP: `send`, `dispatch`, `process`, `recv` of 64 bytes", "the same of 1,460 bytes",
};

/* ---- the library */

struct ours { struct smoltcp_tcp tcp; struct smoltcp_context cx; };

static void *ours_make(int host, size_t buffer) {
    struct ours *s = calloc(1, sizeof *s);
    s->cx.ip_mtu = MTU;
    s->cx.v4[0] = 10;
    s->cx.v4[3] = (uint8_t)host;
    smoltcp_tcp_init(&s->tcp, calloc(1, buffer), buffer, calloc(1, buffer), buffer);
    smoltcp_tcp_set_rules(&s->tcp, SMOLTCP_RULES_SMOLTCP); /* what it is measured beside has these */
    smoltcp_tcp_set_ack_delay(&s->tcp, -1);
    smoltcp_tcp_set_congestion_control(&s->tcp, SMOLTCP_CONGESTION_NONE);
    return s;
}

static struct smoltcp_endpoint endpoint(int host, int port) {
    struct smoltcp_endpoint e;
    memset(&e, 0, sizeof e);
    e.addr.version = host ? 4 : 0;
    e.addr.v4[0] = 10;
    e.addr.v4[3] = (uint8_t)host;
    e.port = (uint16_t)port;
    return e;
}

static int64_t ours_listen(void *p, int port) {
    struct ours *s = p;
    struct smoltcp_endpoint e = endpoint(0, port);
    return smoltcp_tcp_listen(&s->tcp, &e);
}

static int64_t ours_connect(void *p, int64_t now, int remote_host, int remote_port, int local_port) {
    struct ours *s = p;
    struct smoltcp_endpoint remote = endpoint(remote_host, remote_port), local = endpoint(0, local_port);
    s->cx.now = now;
    return smoltcp_tcp_connect(&s->tcp, &s->cx, &remote, &local);
}

static int64_t ours_process(void *p, int64_t now, const uint8_t *packet, size_t len, uint8_t *reply, size_t cap) {
    struct ours *s = p;
    s->cx.now = now;
    return smoltcp_tcp_process(&s->tcp, &s->cx, packet, len, reply, cap);
}

static int64_t ours_dispatch(void *p, int64_t now, uint8_t *out, size_t cap) {
    struct ours *s = p;
    s->cx.now = now;
    return smoltcp_tcp_dispatch(&s->tcp, &s->cx, out, cap);
}

static int64_t ours_poll_at(void *p, int64_t now) {
    struct ours *s = p;
    s->cx.now = now;
    return smoltcp_tcp_poll_at(&s->tcp, &s->cx);
}

static int64_t ours_send(void *p, const uint8_t *data, size_t len) {
    return smoltcp_tcp_send(&((struct ours *)p)->tcp, data, len);
}

static int64_t ours_recv(void *p, uint8_t *data, size_t len) {
    return smoltcp_tcp_recv(&((struct ours *)p)->tcp, data, len);
}

struct our_udp { struct smoltcp_udp udp; struct smoltcp_context cx; };

static struct smoltcp_udp_buffer udp_buffer(void) {
    struct smoltcp_udp_buffer b = {calloc(UDP_PLACES, sizeof *b.places), UDP_PLACES, calloc(1, UDP_BYTES), UDP_BYTES};
    return b;
}

static void *ours_udp_make(int host, int port) {
    struct our_udp *s = calloc(1, sizeof *s);
    struct smoltcp_endpoint e = endpoint(0, port);
    s->cx.ip_mtu = MTU;
    s->cx.v4[0] = 10;
    s->cx.v4[3] = (uint8_t)host;
    smoltcp_udp_init(&s->udp, udp_buffer(), udp_buffer());
    smoltcp_udp_bind(&s->udp, &e);
    return s;
}

static int64_t ours_udp_send(void *p, int remote_host, int remote_port, const uint8_t *data, size_t len) {
    struct smoltcp_udp_metadata meta;
    memset(&meta, 0, sizeof meta);
    meta.endpoint = endpoint(remote_host, remote_port);
    return smoltcp_udp_send(&((struct our_udp *)p)->udp, &meta, data, len);
}

static int64_t ours_udp_recv(void *p, uint8_t *data, size_t cap) {
    struct smoltcp_udp_metadata meta;
    return smoltcp_udp_recv(&((struct our_udp *)p)->udp, &meta, data, cap);
}

static int64_t ours_udp_process(void *p, int64_t now, const uint8_t *packet, size_t len) {
    struct our_udp *s = p;
    s->cx.now = now;
    return smoltcp_udp_process(&s->udp, &s->cx, packet, len);
}

static int64_t ours_udp_dispatch(void *p, int64_t now, uint8_t *out, size_t cap) {
    struct our_udp *s = p;
    s->cx.now = now;
    return smoltcp_udp_dispatch(&s->udp, &s->cx, out, cap);
}

static const struct side our_side = {
    "smoltcp_c", ours_make, ours_listen, ours_connect, ours_process, ours_dispatch, ours_poll_at, ours_send, ours_recv,
    ours_udp_make, ours_udp_send, ours_udp_recv, ours_udp_process, ours_udp_dispatch,
};

/* ---- the driver */

struct pair { const struct side *side; void *a, *b, *foreign; int64_t now; };

/* What one side is driven with. */
struct bench { struct pair calls, streams[2]; void *udp_a, *udp_b; };

static double nanoseconds(void) {
    struct timespec t;
    clock_gettime(CLOCK_MONOTONIC, &t);
    return 1e9 * (double)t.tv_sec + (double)t.tv_nsec;
}

static void must(int good, const char *what) {
    if (good) return;
    printf("%s\n", what);
    exit(1);
}

/* Carries what `from` has to say to `to`, and answers to it back. */
static void carry(struct pair *p, void *from, void *to) {
    static uint8_t packet[MTU], reply[MTU], last[MTU];
    int64_t n, answer;
    while ((n = p->side->dispatch(from, p->now, packet, sizeof packet)) > 0) {
        answer = p->side->process(to, p->now, packet, (size_t)n, reply, sizeof reply);
        if (answer > 0) p->side->process(from, p->now, reply, (size_t)answer, last, sizeof last);
    }
}

static void open_pair(struct pair *p, const struct side *side, size_t buffer) {
    int turn;
    p->side = side;
    p->now = 1000000;
    p->a = side->make(1, buffer);
    p->b = side->make(2, buffer);
    p->foreign = side->make(2, BUFFER);
    must(side->listen(p->b, 7) == 0 && side->listen(p->foreign, 8) == 0, "listen");
    must(side->connect(p->a, p->now, 2, 7, 49152) == 0, "connect");
    for (turn = 0; turn < 4; turn++) {
        carry(p, p->a, p->b);
        carry(p, p->b, p->a);
    }
}

/* So many bytes from a to b, in microseconds: as many at once as the buffers and the window let through. */
static double stream(struct pair *p, size_t total) {
    static uint8_t data[BUFFER];
    size_t sent = 0, received = 0;
    double begin = nanoseconds();
    while (received < total) {
        size_t before = received;
        int64_t n = 1;
        p->now += 100;
        while (sent < total && n > 0) {
            n = p->side->send(p->a, data, total - sent < BUFFER ? total - sent : BUFFER);
            must(n >= 0, "send");
            sent += (size_t)n;
        }
        carry(p, p->a, p->b);
        while ((n = p->side->recv(p->b, data, BUFFER)) > 0) received += (size_t)n;
        carry(p, p->b, p->a);
        must(received > before, "a stream that goes on");
    }
    return (nanoseconds() - begin) / 1000;
}

/* Datagrams of so many bytes from a to b, one after the other: nanoseconds for each. */
static double datagrams(struct bench *b, size_t len) {
    static uint8_t data[SEGMENT], packet[MTU];
    const struct side *side = b->calls.side;
    double begin = nanoseconds();
    int64_t now = b->calls.now;
    int i;
    for (i = 0; i < ROUNDS * BATCH; i++) {
        int64_t n;
        must(side->udp_send(b->udp_a, 2, 7, data, len) == 0, "send of a datagram");
        n = side->udp_dispatch(b->udp_a, now, packet, sizeof packet);
        must(n == (int64_t)len + 28, "a datagram");
        must(side->udp_process(b->udp_b, now, packet, (size_t)n) == 0, "process of a datagram");
        must(side->udp_recv(b->udp_b, data, sizeof data) == (int64_t)len, "recv of a datagram");
    }
    return (nanoseconds() - begin) / (ROUNDS * BATCH);
}

/* Some segments from a to b, each row's time a call added up. */
static void round_of(struct pair *p, double *spent) {
    static uint8_t packets[BATCH][MTU], acks[BATCH][MTU], data[SEGMENT], reply[MTU];
    int64_t lengths[BATCH], ack_lengths[BATCH];
    const struct side *side = p->side;
    double t[CALLS + 2];
    int i, emitted = 0;
    p->now += 10000;
    t[0] = nanoseconds();
    for (i = 0; i < BATCH; i++) must(side->send(p->a, data, SEGMENT) == SEGMENT, "send");
    t[1] = nanoseconds();
    for (i = 0; i < BATCH && (lengths[i] = side->dispatch(p->a, p->now, packets[i], MTU)) > 0; i++) emitted++;
    t[2] = nanoseconds();
    for (i = 0; i < emitted; i++) side->process(p->foreign, p->now, packets[i], (size_t)lengths[i], reply, MTU);
    t[3] = nanoseconds();
    for (i = 0; i < BATCH; i++) must(side->dispatch(p->foreign, p->now, reply, MTU) == 0, "dispatch of nothing");
    t[4] = nanoseconds();
    for (i = 0; i < emitted; i++) side->process(p->b, p->now, packets[i], (size_t)lengths[i], reply, MTU);
    t[5] = nanoseconds();
    must(emitted == BATCH, "a segment for each dispatch");
    for (i = 0; i < BATCH; i++) must(side->recv(p->b, data, SEGMENT) == SEGMENT, "recv");
    t[6] = nanoseconds();
    for (i = 0; i < BATCH; i++) must(side->poll_at(p->foreign, p->now) > p->now, "poll_at");
    t[7] = nanoseconds();
    spent[6] += t[1] - t[0];
    spent[1] += t[2] - t[1];
    spent[4] += t[3] - t[2];
    spent[5] += t[4] - t[3];
    spent[0] += t[5] - t[4];
    spent[7] += t[6] - t[5];
    spent[8] += t[7] - t[6];
    /* what b acknowledges, and then segment after segment with its acknowledgement */
    ack_lengths[0] = side->dispatch(p->b, p->now, acks[0], MTU);
    must(ack_lengths[0] > 0, "an acknowledgement");
    side->process(p->a, p->now, acks[0], (size_t)ack_lengths[0], reply, MTU);
    for (i = 0; i < BATCH; i++) {
        double begin;
        int64_t n;
        must(side->send(p->a, data, SEGMENT) == SEGMENT, "send");
        n = side->dispatch(p->a, p->now, packets[0], MTU);
        side->process(p->b, p->now, packets[0], (size_t)n, reply, MTU);
        side->recv(p->b, data, SEGMENT);
        begin = nanoseconds();
        n = side->dispatch(p->b, p->now, acks[0], MTU);
        t[8] = nanoseconds();
        must(n > 0, "an acknowledgement for each segment");
        side->process(p->a, p->now, acks[0], (size_t)n, reply, MTU);
        t[9] = nanoseconds();
        t[10] = nanoseconds();
        spent[3] += t[8] - begin - (t[10] - t[9]);
        spent[2] += t[9] - t[8] - (t[10] - t[9]);
    }
}

static int ascending(const void *a, const void *b) {
    double x = *(const double *)a, y = *(const double *)b;
    return x < y ? -1 : x > y;
}

static double at(double *values, int count, int which) {
    qsort(values, (size_t)count, sizeof *values, ascending);
    return values[which];
}

static void open_bench(struct bench *b, const struct side *side) {
    open_pair(&b->calls, side, BUFFER);
    open_pair(&b->streams[0], side, BUFFER);
    open_pair(&b->streams[1], side, LONG);
    b->udp_a = side->udp_make(1, 49152);
    b->udp_b = side->udp_make(2, 7);
}

/* One turn of a side: each row's time. */
static void turn_of(struct bench *b, double *took) {
    double spent[CALLS] = {0};
    int r, row;
    for (r = 0; r < ROUNDS; r++) round_of(&b->calls, spent);
    for (row = 0; row < CALLS; row++) took[row] = spent[row] / (ROUNDS * BATCH);
    took[SHORT_STREAM] = 0;
    for (r = 0; r < 16; r++) took[SHORT_STREAM] += stream(&b->streams[0], BUFFER) / 16;
    took[LONG_STREAM] = stream(&b->streams[1], LONG);
    took[SHORT_UDP] = datagrams(b, 64);
    took[LONG_UDP] = datagrams(b, SEGMENT);
}

int main(void) {
    static double times[2][ROWS][TURNS], ratios[ROWS][TURNS], took[ROWS];
    static struct bench benches[2];
    const struct side *sides[2] = {&our_side, NULL};
    int turn, side, row;
#ifdef OTHER
    sides[1] = &other_side;
#endif
    for (side = 0; side < 2 && sides[side]; side++) open_bench(&benches[side], sides[side]);
    for (turn = 0; turn < TURNS; turn++) {
        for (side = 0; side < 2 && sides[side]; side++) {
            turn_of(&benches[side], took);
            for (row = 0; row < ROWS; row++) times[side][row][turn] = took[row];
        }
        for (row = 0; row < ROWS && sides[1]; row++) ratios[row][turn] = times[0][row][turn] / times[1][row][turn];
    }
    printf("| | %s | `smoltcp_c` | Ratio |\n|---|---|---|---|\n", sides[1] ? sides[1]->name : "-");
    for (row = 0; row < ROWS; row++) {
        double mine = at(times[0][row], TURNS, TURNS / 4), there = sides[1] ? at(times[1][row], TURNS, TURNS / 4) : 0;
        double ratio = sides[1] ? at(ratios[row], TURNS, TURNS / 2) : 0;
        printf("| %s | %.0f | %.0f | %.2f |\n", rows[row], there, mine, ratio);
    }
    return 0;
}
