/* What the clients among the examples share: a TUN device of Linux, its clock, and one round of a host over it. Part of
 * the examples, not of the library. */
#ifndef TUN_H
#define TUN_H

#include <fcntl.h>
#include <linux/if_tun.h>
#include <net/if.h>
#include <poll.h>
#include <stdio.h>
#include <stdlib.h>
#include <string.h>
#include <sys/ioctl.h>
#include <sys/random.h>
#include <time.h>
#include <unistd.h>

#include "smoltcp_host.h"
#include "smoltcp_helpers.h"

enum { TUN_MTU = 1500, TUN_TURN = 64, SECOND = 1000000 };

/* A host on a device, and the clock of its last round in microseconds. */
struct tun { struct smoltcp_host host; int device; int64_t now; };

static inline int64_t tun_clock(void) {
    struct timespec t;
    clock_gettime(CLOCK_MONOTONIC, &t);
    return (int64_t)t.tv_sec * SECOND + t.tv_nsec / 1000;
}

static inline uint32_t tun_random(void) {
    uint32_t word = 0;
    if (getrandom(&word, sizeof word, 0) != sizeof word) exit(2);
    return word;
}

/* Opens the device, which has to be up, and makes a host of this address and of so many sockets. */
static inline int tun_open(struct tun *t, const char *name, const char *own, size_t sockets) {
    struct smoltcp_cidr address;
    struct smoltcp_key key;
    uint64_t answers;
    struct ifreq request;
    memset(&request, 0, sizeof request);
    request.ifr_flags = IFF_TUN | IFF_NO_PI;
    strncpy(request.ifr_name, name, IFNAMSIZ - 1);
    t->device = open("/dev/net/tun", O_RDWR | O_NONBLOCK);
    t->now = tun_clock();
    return t->device >= 0 && ioctl(t->device, TUNSETIFF, &request) == 0
           && smoltcp_address_from(own, &address.address) == SMOLTCP_OK
           && (address.prefix_len = address.address.version == 4 ? 24 : 64) > 0
           && getrandom(&key, sizeof key, 0) == sizeof key
           && getrandom(&answers, sizeof answers, 0) == sizeof answers
           && smoltcp_host_init(&t->host, sockets, &address, 1, &key) == SMOLTCP_OK
           && smoltcp_host_set_answer_key(&t->host, answers) == SMOLTCP_OK;
}

static inline void tun_write(struct tun *t, const uint8_t *packet, int64_t len) {
    if (len > 0 && write(t->device, packet, (size_t)len) < 0) perror("write");
}

/* Sends what is due, waits for a packet, for what the host has to do, or until so late, and processes what came. */
static inline void tun_round(struct tun *t, int64_t until) {
    uint8_t packet[TUN_MTU], reply[TUN_MTU];
    struct pollfd fd = {0, POLLIN, 0};
    int64_t n, at;
    int turn;
    t->now = tun_clock();
    while ((n = smoltcp_host_emit(&t->host, t->now, packet, sizeof packet)) > 0) tun_write(t, packet, n);
    at = smoltcp_host_poll_at(&t->host);
    if (at > until) at = until;
    if (at > t->now + SECOND) at = t->now + SECOND;
    fd.fd = t->device;
    poll(&fd, 1, at > t->now ? (int)((at - t->now + 999) / 1000) : 0);
    t->now = tun_clock();
    for (turn = 0; turn < TUN_TURN && (n = read(t->device, packet, sizeof packet)) > 0; turn++) {
        tun_write(t, reply, smoltcp_host_receive(&t->host, t->now, packet, (size_t)n, reply, sizeof reply));
    }
}

#endif
