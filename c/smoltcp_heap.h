/* The heap of a host. libsmoltcp_host.a asks for these three functions: smoltcp_host_init takes memory by them, and
 * smoltcp_host_release gives it back. It has them over malloc, realloc and free, in a member of its own: a program that
 * defines all three gets its own instead. All three are of one allocator, call nothing of a host, and may run at once
 * where calls on different hosts do. */
#ifndef SMOLTCP_HEAP_H
#define SMOLTCP_HEAP_H

#include <stdbool.h>
#include <stddef.h>
#include <stdint.h>

#ifdef __cplusplus
extern "C" {
#endif

/* Whether there is memory, and where; where there is none, p leads to some byte that is always there, and is no null
 * pointer. */
struct smoltcp_memory { bool ok; uint8_t *p; };

/* New memory of n bytes, less than 2^63, at a multiple of align, which is 1, 2, 4, 8 or 16. Of 0 bytes too it is some
 * memory, which is given back. */
struct smoltcp_memory rattle_alloc(size_t n, size_t align);

/* Makes what lies at p n bytes long, with its first kept bytes as they were; it may move. Where it cannot, all is as it
 * was. */
struct smoltcp_memory rattle_realloc(uint8_t *p, size_t kept, size_t n, size_t align);

/* Takes memory back. */
void rattle_dealloc(uint8_t *p);

#ifdef __cplusplus
}
#endif

#endif
