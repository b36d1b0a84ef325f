/* Small things that programs write again and again: endpoints, addresses from text and to text, free room of a socket,
 * and, of a host, a pointer for each socket.
 *
 * All of it is C, in this header, over the calls of smoltcp_socket.h: tested by c/helpers.c, not proved. A program that
 * wants none of it leaves this header out. */
#ifndef SMOLTCP_HELPERS_H
#define SMOLTCP_HELPERS_H

#include "smoltcp_socket.h"

#ifdef __cplusplus
extern "C" {
#endif

/* Room for each text that smoltcp_address_text writes, its final zero included. */
enum { SMOLTCP_TEXT_ROOM = 46 };

/* This port at any own address, to listen or to bind. */
static inline struct smoltcp_endpoint smoltcp_any(uint16_t port) {
    struct smoltcp_endpoint at = {{0, {0}, {0}}, 0};
    at.port = port;
    return at;
}

/* This port at this address. */
static inline struct smoltcp_endpoint smoltcp_endpoint_of(struct smoltcp_address addr, uint16_t port) {
    struct smoltcp_endpoint at = {{0, {0}, {0}}, 0};
    at.addr = addr;
    at.port = port;
    return at;
}

/* 1 where both are of one version and have the same octets, or both are none, else 0. */
static inline int smoltcp_same_address(const struct smoltcp_address *a, const struct smoltcp_address *b) {
    size_t i;
    if (a->version != b->version) return 0;
    for (i = 0; i < 4 && a->version == 4; i++) if (a->v4[i] != b->v4[i]) return 0;
    for (i = 0; i < 16 && a->version == 6; i++) if (a->v6[i] != b->v6[i]) return 0;
    return 1;
}

/* How many bytes smoltcp_tcp_send takes now, if the state lets it: what the transmit buffer holds less what waits in
 * it. */
static inline int64_t smoltcp_tcp_send_room(const struct smoltcp_tcp *s) {
    int64_t all = smoltcp_tcp_send_capacity(s);
    return all < 0 ? all : all - smoltcp_tcp_send_queue(s);
}

/* The number of base 10 or 16 at *text, of at most so many digits, or -1; *text stands behind it. */
static inline long smoltcp_number(const char **text, int base, int digits) {
    long n = 0;
    int i;
    for (i = 0; i < digits; i++, (*text)++) {
        char c = **text;
        int d = c >= '0' && c <= '9' ? c - '0' : c >= 'a' && c <= 'f' ? c - 'a' + 10
                : c >= 'A' && c <= 'F' ? c - 'A' + 10 : 99;
        if (d >= base) break;
        n = n * base + d;
    }
    return i == 0 ? -1 : n;
}

/* Reads four numbers with points between them, with no zero in front; *text stands behind them. */
static inline int smoltcp_read_v4(const char **text, uint8_t octets[4]) {
    int i;
    for (i = 0; i < 4; i++) {
        const char *from;
        long n;
        if (i > 0 && *(*text)++ != '.') return 0;
        from = *text;
        n = smoltcp_number(text, 10, 3);
        if (n < 0 || n > 255 || (*from == '0' && *text != from + 1)) return 0;
        octets[i] = (uint8_t)n;
    }
    return 1;
}

/* Reads an IPv6 address (RFC 4291, section 2.2) without a zone, up to the end of the text. */
static inline int smoltcp_read_v6(const char *text, uint8_t octets[16]) {
    uint8_t found[16] = {0};
    int at = 0, gap = -1, i;
    if (text[0] == ':' && text[1] != ':') return 0;
    while (*text != 0) {
        const char *from = text;
        long n;
        if (text[0] == ':' && text[1] == ':') {
            if (gap >= 0) return 0;
            gap = at;
            text += 2;
            if (*text == ':') return 0;
            continue;
        }
        if (*text == ':') from = ++text;
        n = smoltcp_number(&text, 16, 4);
        if (n < 0 || at > 14) return 0;
        if (*text == '.') {
            text = from;
            if (at > 12 || !smoltcp_read_v4(&text, found + at) || *text != 0) return 0;
            at += 4;
            break;
        }
        found[at++] = (uint8_t)(n >> 8);
        found[at++] = (uint8_t)(n & 255);
        if (*text != 0 && *text != ':') return 0;
    }
    if (gap < 0 ? at != 16 : at > 14) return 0;
    if (gap < 0) gap = at;
    for (i = 0; i < 16; i++) octets[i] = i < gap ? found[i] : i < gap + 16 - at ? 0 : found[i - 16 + at];
    return 1;
}

/* Reads an address from text: a.b.c.d, or one of IPv6 (RFC 4291, section 2.2) without a zone.
 *
 * Errors: SMOLTCP_ERROR_ADDRESS where the text is no address, SMOLTCP_ERROR_NULL; out is none then. */
static inline int64_t smoltcp_address_from(const char *text, struct smoltcp_address *out) {
    struct smoltcp_address made = {0, {0}, {0}};
    const char *at = text;
    if (text == 0 || out == 0) return SMOLTCP_ERROR_NULL;
    if (smoltcp_read_v4(&at, made.v4) && *at == 0) {
        made.version = 4;
    } else {
        made = smoltcp_any(0).addr;
        if (smoltcp_read_v6(text, made.v6)) made.version = 6;
    }
    *out = made;
    return made.version == 0 ? SMOLTCP_ERROR_ADDRESS : SMOLTCP_OK;
}

/* Writes a number of base 10 or 16 behind at, and returns where it ends. */
static inline char *smoltcp_write_number(char *at, unsigned n, unsigned base) {
    if (n >= base) at = smoltcp_write_number(at, n / base, base);
    *at = "0123456789abcdef"[n % base];
    return at + 1;
}

/* Writes an address as text: a.b.c.d, IPv6 in the form of RFC 5952, "-" for none. Returns text. */
static inline char *smoltcp_address_text(const struct smoltcp_address *addr, char text[SMOLTCP_TEXT_ROOM]) {
    char *at = text;
    int i, n, gap = -1, longest = 1;
    uint16_t w[8] = {0};
    if (addr->version == 4) {
        for (i = 0; i < 4; i++) {
            if (i > 0) *at++ = '.';
            at = smoltcp_write_number(at, addr->v4[i], 10);
        }
    } else if (addr->version == 6) {
        for (i = 0; i < 8; i++) w[i] = (uint16_t)(addr->v6[2 * i] << 8 | addr->v6[2 * i + 1]);
        for (i = 0; i < 8; i++) {
            for (n = 0; i + n < 8 && w[i + n] == 0; n++) { }
            if (n > longest) gap = i, longest = n;
        }
        for (i = 0; i < 8; i++) {
            if (i == gap) {
                *at++ = ':';
                i += longest - 1;
                if (i == 7) *at++ = ':';
                continue;
            }
            if (i > 0) *at++ = ':';
            at = smoltcp_write_number(at, w[i], 16);
        }
    } else {
        *at++ = '-';
    }
    *at = 0;
    return text;
}

/* For a program that includes smoltcp_host.h before this header. */
#ifdef SMOLTCP_HOST_H

/* A pointer of the program's for a socket of a host, in a table with an entry for each slot. It begins with zeros. */
struct smoltcp_user { uint64_t generation; void *pointer; };

/* Keeps a pointer for the socket of this name, in place of one for a socket that had the slot before. 1, or 0 where the
 * table has no entry for the slot. */
static inline int smoltcp_user_set(struct smoltcp_user *table, size_t count, const struct smoltcp_socket_id *id,
                                   void *pointer) {
    if (id->index >= count) return 0;
    table[id->index].generation = id->generation;
    table[id->index].pointer = pointer;
    return 1;
}

/* The pointer that was kept for the socket of this name, or 0. */
static inline void *smoltcp_user_get(const struct smoltcp_user *table, size_t count,
                                     const struct smoltcp_socket_id *id) {
    if (id->index >= count || table[id->index].generation != id->generation) return 0;
    return table[id->index].pointer;
}

/* How many sockets the host has room for still. */
static inline int64_t smoltcp_host_free_slots(const struct smoltcp_host *host) {
    struct smoltcp_socket_id id;
    size_t slots = 0, i;
    int64_t left = 0, answer = smoltcp_host_capacity(host, &slots);
    if (answer != SMOLTCP_OK) return answer;
    for (i = 0; i < slots; i++) left += smoltcp_host_at(host, i, &id) == 0;
    return left;
}

#endif

#ifdef __cplusplus
}
#endif

#endif
