/* A link that loses and delays packets, between two TUN devices that it makes: for live/rate. It says `up` when both
 * are there, and ends after SECONDS.
 *     link DEVICE DEVICE LOST DELAY SEED SECONDS
 * LOST of a thousand packets are lost each way, whatever they carry; each other one arrives DELAY microseconds later,
 * in its order. */
#define _GNU_SOURCE
#include <fcntl.h>
#include <linux/if_tun.h>
#include <net/if.h>
#include <poll.h>
#include <stdint.h>
#include <stdio.h>
#include <stdlib.h>
#include <string.h>
#include <sys/ioctl.h>
#include <time.h>
#include <unistd.h>

enum { MTU = 1500, WAITING = 32768, BURST = 64 };

enum { PAUSE = 50, LONGEST_PAUSE = 50000 }; /* microseconds */

struct packet { int64_t at; ssize_t len; uint8_t bytes[MTU]; };

/* What is on its way to one device: places `first` up to `next`, modulo WAITING. */
struct way { int device; unsigned first, next; struct packet packets[WAITING]; };

static struct way ways[2];
static uint64_t words;

static int64_t micros(void) {
    struct timespec moment;
    clock_gettime(CLOCK_MONOTONIC, &moment);
    return moment.tv_sec * 1000000LL + moment.tv_nsec / 1000;
}

static unsigned below(unsigned limit) {
    words = words * 6364136223846793005ULL + 1442695040888963407ULL;
    return (unsigned)(words >> 33) % limit;
}

static int device(const char *name) {
    struct ifreq request;
    int tun = open("/dev/net/tun", O_RDWR | O_NONBLOCK);
    memset(&request, 0, sizeof request);
    request.ifr_flags = IFF_TUN | IFF_NO_PI;
    strncpy(request.ifr_name, name, IFNAMSIZ - 1);
    if (tun < 0 || ioctl(tun, TUNSETIFF, &request)) {
        perror(name);
        exit(1);
    }
    return tun;
}

/* Takes what a device sends, at most BURST packets, on the way to the other one. */
static int take(int from, struct way *way, unsigned lost, int64_t arrival) {
    int taken = 0;
    for (; taken < BURST && way->next - way->first < WAITING; taken++) {
        struct packet *packet = &way->packets[way->next % WAITING];
        packet->len = read(from, packet->bytes, sizeof packet->bytes);
        if (packet->len <= 0) break;
        if (below(1000) < lost) continue;
        packet->at = arrival;
        way->next++;
    }
    return taken;
}

/* Hands on what has arrived. */
static int hand_on(struct way *way, int64_t now) {
    int written = 0;
    for (; way->first != way->next; way->first++, written++) {
        const struct packet *packet = &way->packets[way->first % WAITING];
        if (packet->at > now || write(way->device, packet->bytes, (size_t)packet->len) < 0) break;
    }
    return written;
}

/* Microseconds until the next packet arrives. One that its device did not take is tried again after a short pause. */
static int64_t until_next(int64_t now) {
    int64_t least = LONGEST_PAUSE;
    int i;
    for (i = 0; i < 2; i++) {
        int64_t left = ways[i].packets[ways[i].first % WAITING].at - now;
        if (ways[i].first == ways[i].next) continue;
        if (left <= 0) left = PAUSE;
        if (left < least) least = left;
    }
    return least;
}

int main(int count, char **words_of) {
    unsigned lost;
    int64_t delay, end;
    if (count != 7) {
        fprintf(stderr, "link DEVICE DEVICE LOST DELAY SEED SECONDS\n");
        return 2;
    }
    ways[1].device = device(words_of[1]);
    ways[0].device = device(words_of[2]);
    lost = (unsigned)atoi(words_of[3]);
    delay = atoll(words_of[4]);
    words = (uint64_t)atoll(words_of[5]) * 2654435761ULL + 1;
    end = micros() + atoll(words_of[6]) * 1000000LL;
    printf("up\n");
    fflush(stdout);
    while (micros() < end) {
        int64_t now = micros();
        int work = 0, i;
        for (i = 0; i < 2; i++) {
            work += take(ways[1 - i].device, &ways[i], lost, now + delay);
            work += hand_on(&ways[i], now);
        }
        if (!work) {
            struct pollfd ready[2] = {{ways[0].device, POLLIN, 0}, {ways[1].device, POLLIN, 0}};
            struct timespec pause = {0, until_next(now) * 1000};
            ppoll(ready, 2, &pause, NULL);
        }
    }
    return 0;
}
