/* What the calls in C note of sockets and hosts in memory of a program, so that they find some calls that are wrong:
 * tested by c/misuse.c, not proved. */
#ifndef SMOLTCP_MARKS_H
#define SMOLTCP_MARKS_H

#include <stddef.h>
#include <stdint.h>

/* Where memory lies, as the library is told it: also of what a call only reads. */
#define SMOLTCP_AT(place) ((uint8_t *)(uintptr_t)(place))

/* Where bytes or structs lie: of none the pointer may be null, which the library is never handed. */
#define SMOLTCP_NONE(type) ((type *)(uintptr_t)8)
#define SMOLTCP_OR_NONE(type, items) ((items) ? (items) : SMOLTCP_NONE(type))

/* 1 where each of so many bytes is zero: the memory of a socket is so from its release, or its move into a host, on,
 * and never with a socket in it, as that has pointers to its buffers. */
static inline int smoltcp_is_empty(const void *memory, size_t size) {
    const unsigned char *bytes = (const unsigned char *)memory;
    size_t i;
    for (i = 0; i < size; i++) if (bytes[i]) return 0;
    return 1;
}

static inline void smoltcp_make_empty(void *memory, size_t size) {
    unsigned char *bytes = (unsigned char *)memory;
    size_t i;
    for (i = 0; i < size; i++) bytes[i] = 0;
}

/* What stands in a host at this address, and in no copy of it elsewhere. */
static inline uint64_t smoltcp_mark_at(const void *at) {
    return (uint64_t)(uintptr_t)at ^ UINT64_C(0x736d6f6c74637021);
}

#endif
