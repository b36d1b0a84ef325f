/* Hands packets on between a TUN device and a host that speaks pcap on its input and output: for live/bridge, which
 * makes the device and starts the host.
 *     bridge TUN INPUT OUTPUT SECONDS
 * The first three are open descriptors: the device, the host's input and the host's output. It ends after SECONDS, at
 * SIGINT or SIGTERM, or when the host ends, and closes the host's input then. */
#define _GNU_SOURCE
#include <fcntl.h>
#include <poll.h>
#include <signal.h>
#include <stdint.h>
#include <stdlib.h>
#include <string.h>
#include <sys/wait.h>
#include <time.h>
#include <unistd.h>

enum {
    HEADER = 24,      /* of a pcap stream */
    RECORD = 16,      /* before each packet */
    LONGEST = 65535,
    ROOM = 1 << 20,   /* for what one side has not taken yet */
    BURST = 256,      /* packets of the device before the host has its turn */
    TICK = 10000,     /* microseconds: the host is told the time at least so often, */
    FINE = 1000,      /* and so often while packets come or go, and for a second after that */
    BUSY = 1000000
};

struct bytes { size_t len; uint8_t at[ROOM]; };

static struct bytes to_host, from_host;
static size_t skipped; /* of the header of what the host writes */
static volatile sig_atomic_t over;
static int64_t since; /* when the monotonic clock began, by the date: no stamp goes back where that is set */

static void end(int number) {
    (void)number;
    over = 1;
}

static int64_t micros(clockid_t clock) {
    struct timespec moment;
    clock_gettime(clock, &moment);
    return moment.tv_sec * 1000000LL + moment.tv_nsec / 1000;
}

/* Writes the head of a record of the present moment; one of no bytes tells the time alone. */
static void put_head(uint8_t *at, uint32_t len) {
    int64_t now = since + micros(CLOCK_MONOTONIC);
    uint32_t head[4] = {(uint32_t)(now / 1000000), (uint32_t)(now % 1000000), len, len};
    memcpy(at, head, sizeof head);
}

static void tick(void) {
    put_head(to_host.at + to_host.len, 0);
    to_host.len += RECORD;
}

static int has_room(void) {
    return to_host.len + LONGEST + 2 * RECORD <= ROOM;
}

/* The packets that the device has, for the host. */
static int take(int tun) {
    int count = 0;
    for (; count < BURST && has_room(); count++) {
        ssize_t len = read(tun, to_host.at + to_host.len + RECORD, LONGEST);
        if (len <= 0) break;
        put_head(to_host.at + to_host.len, (uint32_t)len);
        to_host.len += RECORD + (size_t)len;
    }
    return count;
}

static int drop_first(struct bytes *bytes, ssize_t count) {
    if (count <= 0) return 0;
    bytes->len -= (size_t)count;
    memmove(bytes->at, bytes->at + count, bytes->len);
    return 1;
}

/* The whole packets of what the host wrote, to the device: one whose queue is full loses them, as any network does. */
static int give(int tun) {
    size_t at = skipped < HEADER ? HEADER - skipped : 0;
    int count = 0;
    if (from_host.len < at) return 0;
    skipped = HEADER;
    while (from_host.len >= at + RECORD) {
        const uint8_t *head = from_host.at + at;
        size_t len = (size_t)head[8] << 24 | (size_t)head[9] << 16 | (size_t)head[10] << 8 | head[11];
        if (len > LONGEST) return -1;
        if (from_host.len < at + RECORD + len) break;
        if (write(tun, head + RECORD, len) >= 0) count++;
        at += RECORD + len;
    }
    drop_first(&from_host, (ssize_t)at);
    return count;
}

/* How many packets went either way; less than 0 where the host has ended. */
static int exchange(int tun, int input, int output, int64_t wait) {
    struct pollfd ready[3] = {{has_room() ? tun : -1, POLLIN, 0}, {output, POLLIN, 0},
                              {to_host.len ? input : -1, POLLOUT, 0}};
    struct timespec pause = {0, wait * 1000};
    int count = 0, given = 0;
    if (ppoll(ready, 3, &pause, NULL) < 0) return over ? -1 : 0;
    if (ready[1].revents) {
        ssize_t len = read(output, from_host.at + from_host.len, ROOM - from_host.len);
        if (len == 0) return -1;
        if (len > 0) from_host.len += (size_t)len;
        given = give(tun);
        if (given < 0) return -1;
    }
    if (ready[0].revents) {
        count = take(tun);
        if (count) tick();
    }
    if (to_host.len) drop_first(&to_host, write(input, to_host.at, to_host.len));
    return count + given;
}

/* The host ends once its input has: what it still writes is read, so that it does not wait for that, for ten seconds at
 * most. */
static void wait_for(int output) {
    struct pollfd ready = {output, POLLIN, 0};
    while (poll(&ready, 1, 10000) > 0 && read(output, from_host.at, ROOM) > 0) continue;
    close(output);
    wait(NULL);
}

int main(int count, char **words) {
    struct sigaction action = {0};
    int tun, input, output;
    int64_t begun = micros(CLOCK_MONOTONIC), now = begun, last = 0, told = 0, seconds;
    if (count != 5) return 2;
    since = micros(CLOCK_REALTIME) - begun;
    tun = atoi(words[1]), input = atoi(words[2]), output = atoi(words[3]), seconds = (int64_t)atof(words[4]);
    action.sa_handler = end;
    sigaction(SIGINT, &action, NULL);
    sigaction(SIGTERM, &action, NULL);
    signal(SIGPIPE, SIG_IGN);
    static const uint32_t header[] = {0xa1b2c3d4, 0x00040002, 0, 0, 65535, 101};
    memcpy(to_host.at, header, sizeof header);
    to_host.len = sizeof header;
    while (!over && now - begun < seconds * 1000000) {
        int64_t each = now - last < BUSY ? FINE : TICK;
        int passed = exchange(tun, input, output, each);
        if (passed < 0) break;
        now = micros(CLOCK_MONOTONIC);
        if (passed) last = now;
        if (now - told >= each && has_room()) {
            tick();
            told = now;
        }
    }
    close(input);
    wait_for(output);
    return 0;
}
