/* Round trips of 100 bytes among many connections: two hosts of the library, and two of lwIP's, in one process and in
 * virtual time.
 *
 *     bench/hosts [-s STEP] [-d DELAY] [-l LIBRARY] [-r ROUNDS] [-t TURNS] [-o] [COUNT..]
 *
 * For each count of connections, 10, 100, 1,000 and 10,000 where none is named: a client asks, the packets of its host
 * are carried to the server's, whose application sends back what it read, and the client compares. The same client asks
 * each time, or a random one. README.md says what is measured, and what the options change. */
#define _GNU_SOURCE
#include <dlfcn.h>
#include <link.h>
#include <stdio.h>
#include <stdlib.h>
#include <string.h>
#include <sys/mman.h>
#include <sys/wait.h>
#include <time.h>
#include <unistd.h>

#include "../smoltcp_host.h"
#include "lwip/init.h"
#include "lwip/ip.h"
#include "lwip/netif.h"
#include "lwip/pbuf.h"
#include "lwip/tcp.h"
#include "lwip/timeouts.h"

enum { CLIENT, SERVER, HOSTS };
enum { MTU = 1500, MESSAGE = 100, WIRE = 1 << 21, PORT = 7, FIRST_PORT = 10000, MOST = 50000, MOST_TURNS = 99 };

static int64_t now, step = 100, delay; /* microseconds; each stack has a clock of its own, which stands meanwhile */
static int rounds = 10000, turns = 9, alone;
static const char *library = "liblwip.so.0";

static void must(int good, const char *what) {
    if (good) return;
    printf("%s, at %.6f s\n", what, (double)now / 1e6);
    exit(1);
}

/* ---- the wire: what each host has yet to take, packet behind packet, each behind its length */

struct inbox { size_t first, end; uint8_t bytes[WIRE]; };

static struct inbox inboxes[HOSTS];
static uint64_t packets;

static uint8_t *room_for(int to) {
    must(inboxes[to].end + sizeof(size_t) + MTU <= WIRE, "a full wire");
    return inboxes[to].bytes + inboxes[to].end + sizeof(size_t);
}

/* The packet in the room goes out. */
static void put(int to, size_t len) {
    memcpy(inboxes[to].bytes + inboxes[to].end, &len, sizeof len);
    inboxes[to].end += sizeof len + (len + 7) / 8 * 8;
    packets++;
}

static const uint8_t *take(int to, size_t *len) {
    struct inbox *in = &inboxes[to];
    const uint8_t *packet = in->bytes + in->first + sizeof *len;
    if (in->first == in->end) {
        in->first = in->end = 0;
        return NULL;
    }
    memcpy(len, in->bytes + in->first, sizeof *len);
    in->first += sizeof *len + (*len + 7) / 8 * 8;
    return packet;
}

/* ---- the applications: one question is under way at a time */

static uint8_t question[MESSAGE], answer[MESSAGE];
static size_t answered;
static int asking;

struct stack {
    void (*open)(int count);  /* two hosts, and connections between them */
    void (*ask)(int which);   /* the client writes the question */
    void (*turn)(int host);   /* a host takes what has come, its application acts, and it speaks */
    int64_t *clock;
};

/* Until nobody has anything to say. */
static void carry(const struct stack *stack) {
    while (inboxes[CLIENT].end || inboxes[SERVER].end) {
        if (inboxes[SERVER].end) stack->turn(SERVER);
        if (inboxes[CLIENT].end) stack->turn(CLIENT);
    }
}

static void round_trip(const struct stack *stack, int which) {
    static uint64_t asked;
    int i;
    now += step;
    asked++;
    for (i = 0; i + (int)sizeof asked <= MESSAGE; i += (int)sizeof asked) memcpy(question + i, &asked, sizeof asked);
    answered = 0;
    asking = which;
    stack->ask(which);
    stack->turn(CLIENT);
    carry(stack);
    must(answered == MESSAGE && memcmp(question, answer, MESSAGE) == 0, "another answer than was asked for");
}

/* ---- the library: two hosts, with a socket for each connection */

static struct smoltcp_host ours[HOSTS];
static struct smoltcp_socket_id ids[MOST];

static struct smoltcp_tcp *lent(int host, const struct smoltcp_socket_id *id) {
    struct smoltcp_tcp *s = NULL;
    must(smoltcp_host_tcp(&ours[host], id, &s) == 0, "a socket that is not there");
    return s;
}

static void ours_ask(int which) {
    must(smoltcp_tcp_send(lent(CLIENT, &ids[which]), question, MESSAGE) == MESSAGE, "a question that is not taken");
}

/* The client looks at the socket whose answer it waits for. */
static void ours_client(void) {
    int64_t n;
    if (answered == MESSAGE) return;
    n = smoltcp_tcp_recv(lent(CLIENT, &ids[asking]), answer + answered, MESSAGE - answered);
    if (n > 0) answered += (size_t)n;
}

/* The server looks at the sockets that may have changed, and sends back what was read. */
static void ours_server(void) {
    struct smoltcp_host *host = &ours[SERVER];
    struct smoltcp_socket_id id;
    uint8_t bytes[4 * MESSAGE];
    size_t place;
    for (place = 0; smoltcp_host_touched(host, place, &place) == 1; place++) {
        struct smoltcp_tcp *s;
        int64_t n;
        if (smoltcp_host_at(host, place, &id) != 1) continue;
        s = lent(SERVER, &id);
        n = smoltcp_tcp_recv(s, bytes, sizeof bytes);
        if (n > 0) must(smoltcp_tcp_send(s, bytes, (size_t)n) == n, "an answer that is not taken");
    }
}

/* As a program does that sleeps until the next packet or the next moment. */
static void ours_turn(int host) {
    const uint8_t *packet;
    size_t len, heard = 0;
    int64_t n;
    for (; (packet = take(host, &len)); heard++) {
        n = smoltcp_host_receive(&ours[host], now, packet, len, room_for(!host), MTU);
        must(n >= 0, "a packet that is refused");
        if (n > 0) put(!host, (size_t)n);
    }
    if (heard && host == SERVER) ours_server();
    if (heard && host == CLIENT) ours_client();
    while ((n = smoltcp_host_emit(&ours[host], now, room_for(!host), MTU)) > 0) put(!host, (size_t)n);
    must(n == 0 && smoltcp_host_poll_at(&ours[host]) > now, "a host that does not come to rest");
}

static struct smoltcp_socket_id ours_socket(int host, uint16_t listens) {
    struct smoltcp_endpoint endpoint = {{0, {0}, {0}}, 0};
    struct smoltcp_socket_id id = {0, 0};
    struct smoltcp_tcp s;
    must(smoltcp_tcp_init(&s, malloc(TCP_WND), TCP_WND, malloc(TCP_SND_BUF), TCP_SND_BUF) == 0, "no socket");
    endpoint.port = listens;
    if (delay) must(smoltcp_tcp_set_ack_delay(&s, delay) == 0, "no delay");
    if (listens) must(smoltcp_tcp_listen(&s, &endpoint) == 0, "a socket that does not listen");
    must(smoltcp_host_add_tcp(&ours[host], &s, &id) == 0, "a host without room");
    return id;
}

static const struct stack our_stack;

static void ours_open(int count) {
    struct smoltcp_cidr own = {{4, {10, 0, 0, 1}, {0}}, 24};
    struct smoltcp_guards guards = {30000000, 60000000, 120000000, -1}; /* lwIP ends no connection that is idle */
    struct smoltcp_key key = {{0}};
    struct smoltcp_endpoint local = {{0, {0}, {0}}, 0}, remote = {{4, {10, 0, 0, 2}, {0}}, PORT};
    struct smoltcp_context cx;
    int host, i;
    for (host = 0; host < HOSTS; host++) {
        own.address.v4[3] = (uint8_t)(1 + host);
        key.bytes[0] = (uint8_t)(1 + host);
        must(smoltcp_host_init(&ours[host], (size_t)count, &own, 1, &key) == 0, "no host");
        must(smoltcp_host_set_guards(&ours[host], &guards) == 0, "no guards");
    }
    for (i = 0; i < count; i++) ours_socket(SERVER, PORT);
    for (i = 0; i < count; i++) {
        now += step;
        ids[i] = ours_socket(CLIENT, 0);
        local.port = (uint16_t)(FIRST_PORT + i);
        must(smoltcp_host_context(&ours[CLIENT], &remote.addr, &cx) == 0, "no context");
        must(smoltcp_tcp_connect(lent(CLIENT, &ids[i]), &cx, &remote, &local) == 0, "no connection");
        our_stack.turn(CLIENT);
        carry(&our_stack);
        must(smoltcp_tcp_state(lent(CLIENT, &ids[i])) == SMOLTCP_ESTABLISHED, "a connection that does not open");
    }
}

static int64_t our_clock = 1000000;
static const struct stack our_stack = {ours_open, ours_ask, ours_turn, &our_clock};

/* ---- lwIP: each host has a copy of the library, and so its own lists of connections and timers */

#define CALLS(X) X(lwip_init) X(netif_add) X(netif_set_default) X(netif_set_link_up) X(netif_set_up) X(ip_input) \
    X(sys_check_timeouts) X(sys_timeouts_sleeptime) X(pbuf_alloc) X(pbuf_take) X(pbuf_copy_partial) X(pbuf_free) \
    X(tcp_new) X(tcp_bind) X(tcp_listen_with_backlog) X(tcp_accept) X(tcp_arg) X(tcp_recv) X(tcp_connect) \
    X(tcp_write) X(tcp_output) X(tcp_recved)
#define MEMBER(name) __typeof__(name) *name;
#define LOAD(name) \
    at = dlsym(handle, #name); \
    must(at != NULL, "a library without " #name); \
    memcpy(&me->name, &at, sizeof at);

static struct lwip { CALLS(MEMBER) struct netif netif; struct tcp_pcb *pcbs[MOST]; } lwips[HOSTS];

u32_t sys_now(void) { return (u32_t)(now / 1000); }

/* The library, and for the second host another one of the same bytes. */
static void *lwip_library(int host) {
    static struct link_map *first;
    static char bytes[1 << 20], name[64];
    void *handle;
    FILE *from;
    size_t len;
    int copy = memfd_create("lwip", 0);
    if (host == CLIENT) {
        handle = dlopen(library, RTLD_NOW | RTLD_LOCAL);
        must(handle != NULL && dlinfo(handle, RTLD_DI_LINKMAP, &first) == 0, "no lwIP");
        return handle;
    }
    from = fopen(first->l_name, "rb");
    must(from != NULL && copy >= 0, "no copy of lwIP");
    while ((len = fread(bytes, 1, sizeof bytes, from)) > 0)
        must(write(copy, bytes, len) == (ssize_t)len, "no copy of lwIP");
    fclose(from);
    snprintf(name, sizeof name, "/proc/self/fd/%d", copy);
    return dlopen(name, RTLD_NOW | RTLD_LOCAL);
}

static err_t lwip_out(struct netif *n, struct pbuf *p, const ip4_addr_t *addr) {
    struct lwip *me = n->state;
    int to = me == &lwips[CLIENT] ? SERVER : CLIENT;
    (void)addr;
    must(p->tot_len <= MTU, "a packet that is too long");
    me->pbuf_copy_partial(p, room_for(to), p->tot_len, 0);
    put(to, p->tot_len);
    return ERR_OK;
}

static err_t lwip_up(struct netif *n) {
    n->name[0] = 'l';
    n->name[1] = 'w';
    n->output = lwip_out;
    n->mtu = MTU;
    return ERR_OK;
}

static void lwip_ask(int which) {
    struct lwip *me = &lwips[CLIENT];
    must(me->tcp_write(me->pcbs[which], question, MESSAGE, TCP_WRITE_FLAG_COPY) == ERR_OK, "a question not taken");
    me->tcp_output(me->pcbs[which]);
}

/* What the client is told of an answer. */
static err_t lwip_client(void *arg, struct tcp_pcb *pcb, struct pbuf *p, err_t err) {
    struct lwip *me = arg;
    must(p && err == ERR_OK && p->tot_len <= MESSAGE - answered, "an answer that is too long");
    answered += me->pbuf_copy_partial(p, answer + answered, p->tot_len, 0);
    me->tcp_recved(pcb, p->tot_len);
    me->pbuf_free(p);
    return ERR_OK;
}

/* What the server is told of a question, which it sends back: tcp_input puts it out behind this. */
static err_t lwip_server(void *arg, struct tcp_pcb *pcb, struct pbuf *p, err_t err) {
    struct lwip *me = arg;
    must(p && err == ERR_OK && !p->next, "a question in pieces");
    must(me->tcp_write(pcb, p->payload, p->len, TCP_WRITE_FLAG_COPY) == ERR_OK, "an answer that is not taken");
    me->tcp_recved(pcb, p->tot_len);
    me->pbuf_free(p);
    return ERR_OK;
}

static err_t lwip_accept(void *arg, struct tcp_pcb *pcb, err_t err) {
    struct lwip *me = arg;
    must(pcb && err == ERR_OK, "a connection that is not accepted");
    me->tcp_arg(pcb, me);
    me->tcp_recv(pcb, lwip_server);
    return ERR_OK;
}

/* As lwIP's own driver of a TAP device, but from memory of its own: the pool of Debian's library has shorter pieces
 * than it says. */
static void lwip_turn(int host) {
    struct lwip *me = &lwips[host];
    const uint8_t *packet;
    size_t len;
    while ((packet = take(host, &len))) {
        struct pbuf *p = me->pbuf_alloc(PBUF_RAW, (u16_t)len, PBUF_RAM);
        must(p && me->pbuf_take(p, packet, (u16_t)len) == ERR_OK, "no pbuf");
        must(me->netif.input(p, &me->netif) == ERR_OK, "a packet that is refused");
    }
    me->sys_check_timeouts();
    must(me->sys_timeouts_sleeptime() > 0, "a host that does not come to rest");
}

static void lwip_host(int host) {
    struct lwip *me = &lwips[host];
    void *at, *handle = lwip_library(host);
    ip4_addr_t own, mask, gateway;
    must(handle != NULL, "no second lwIP");
    CALLS(LOAD)
    me->lwip_init();
    IP4_ADDR(&own, 10, 0, 0, 1 + host);
    IP4_ADDR(&mask, 255, 255, 255, 0);
    IP4_ADDR(&gateway, 10, 0, 0, 2 - host);
    must(me->netif_add(&me->netif, &own, &mask, &gateway, me, lwip_up, me->ip_input) != NULL, "no interface");
    me->netif_set_default(&me->netif);
    me->netif_set_link_up(&me->netif);
    me->netif_set_up(&me->netif);
}

static err_t lwip_connected(void *arg, struct tcp_pcb *pcb, err_t err) {
    (void)arg;
    (void)pcb;
    return err;
}

static const struct stack lwip_stack;

static void lwip_open(int count) {
    struct lwip *client = &lwips[CLIENT], *server = &lwips[SERVER];
    struct tcp_pcb *listening;
    ip_addr_t any = IPADDR4_INIT(IPADDR_ANY), remote = IPADDR4_INIT_BYTES(10, 0, 0, 2);
    int i;
    lwip_host(CLIENT);
    lwip_host(SERVER);
    must((listening = server->tcp_new()) != NULL, "no PCB");
    must(server->tcp_bind(listening, &any, PORT) == ERR_OK, "a port that is taken");
    listening = server->tcp_listen_with_backlog(listening, TCP_DEFAULT_LISTEN_BACKLOG);
    server->tcp_arg(listening, server);
    server->tcp_accept(listening, lwip_accept);
    for (i = 0; i < count; i++) {
        struct tcp_pcb *pcb = client->tcp_new();
        now += step;
        must(pcb && client->tcp_bind(pcb, &any, (u16_t)(FIRST_PORT + i)) == ERR_OK, "no PCB");
        client->pcbs[i] = pcb;
        client->tcp_arg(pcb, client);
        client->tcp_recv(pcb, lwip_client);
        must(client->tcp_connect(pcb, &remote, PORT, lwip_connected) == ERR_OK, "no connection");
        lwip_stack.turn(CLIENT);
        carry(&lwip_stack);
        must(pcb->state == ESTABLISHED, "a connection that does not open");
    }
}

static int64_t lwip_clock = 1000000;
static const struct stack lwip_stack = {lwip_open, lwip_ask, lwip_turn, &lwip_clock};

/* ---- turns */

/* Of the processor, so that what else the machine does counts less. */
static double nanoseconds(void) {
    struct timespec t;
    clock_gettime(CLOCK_PROCESS_CPUTIME_ID, &t);
    return 1e9 * (double)t.tv_sec + (double)t.tv_nsec;
}

/* Nanoseconds a round trip, of the first connection or of random ones, which are the same for each stack. */
static double turn_of(const struct stack *stack, int count, int random, uint64_t words) {
    double begin = nanoseconds();
    int i;
    now = *stack->clock;
    for (i = 0; i < rounds; i++) {
        words = words * 6364136223846793005ULL + 1442695040888963407ULL;
        round_trip(stack, random ? (int)((words >> 33) % (unsigned)count) : 0);
    }
    *stack->clock = now;
    return (nanoseconds() - begin) / rounds;
}

static int ascending(const void *a, const void *b) {
    double x = *(const double *)a, y = *(const double *)b;
    return x < y ? -1 : x > y;
}

static double at(double *values, int which) {
    qsort(values, (size_t)turns, sizeof *values, ascending);
    return values[which];
}

/* A line of the table: the lower quartile of the turns, the median of the turns' ratios, and packets a round trip. */
static void row(int count, int random) {
    static const struct stack *const stacks[2] = {&our_stack, &lwip_stack};
    double times[2][MOST_TURNS] = {{0}}, ratios[MOST_TURNS] = {0}, sent[2] = {0};
    int side, turn;
    for (turn = 0; turn < turns; turn++) {
        for (side = 0; side < 2 - alone; side++) {
            packets = 0;
            times[side][turn] = turn_of(stacks[side], count, random, (uint64_t)turn + 1);
            sent[side] += (double)packets / rounds / turns;
        }
        if (!alone) ratios[turn] = times[0][turn] / times[1][turn];
    }
    printf("| %d | %s | %.0f | %.0f | %.2f | %.2f | %.2f |\n", count, random ? "random" : "the same",
           at(times[0], turns / 4), at(times[1], turns / 4), at(ratios, turns / 2), sent[0], sent[1]);
    fflush(stdout);
}

static void open_stack(const struct stack *stack, int count) {
    now = *stack->clock;
    stack->open(count);
    *stack->clock = now;
}

/* All turns of a count, in a process of its own. */
static void measure(int count) {
    int status;
    pid_t child = fork();
    must(child >= 0, "no process");
    if (child == 0) {
        open_stack(&our_stack, count);
        if (!alone) open_stack(&lwip_stack, count);
        row(count, 0);
        row(count, 1);
        exit(0);
    }
    if (waitpid(child, &status, 0) != child || status != 0) exit(1);
}

int main(int argc, char **argv) {
    static const int counts[] = {10, 100, 1000, 10000};
    int option;
    size_t i;
    while ((option = getopt(argc, argv, "s:d:l:r:t:o")) != -1) {
        if (option == 's') step = atoi(optarg);
        else if (option == 'd') delay = atoi(optarg);
        else if (option == 'l') library = optarg;
        else if (option == 'r') rounds = atoi(optarg);
        else if (option == 't') turns = atoi(optarg);
        else if (option == 'o') alone = 1;
        else return 2;
    }
    must(step >= 0 && delay >= 0 && rounds > 0 && turns > 0 && turns <= MOST_TURNS, "a number out of its range");
    printf("| Connections | Who asks | `smoltcp_host` | lwIP | Ratio | Packets | lwIP |\n");
    printf("|---|---|---|---|---|---|---|\n");
    fflush(stdout);
    for (i = 0; optind == argc && i < sizeof counts / sizeof *counts; i++) measure(counts[i]);
    for (; optind < argc; optind++) {
        must(atoi(argv[optind]) > 0 && atoi(argv[optind]) <= MOST, "a number out of its range");
        measure(atoi(argv[optind]));
    }
    return 0;
}
