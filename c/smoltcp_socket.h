/* Proved sockets for C: TCP, UDP, ICMP and raw. A socket lies in memory of the caller, with its two buffers; no call
 * allocates, keeps anything elsewhere or calls back. Calls on different sockets may run at once.
 *
 * Each call answers a number: 0 or more where it was done, and below 0 an error, with nothing changed, not a byte; but
 * see dispatch and recv of each kind.
 *
 * What the caller has to keep, which nothing tests: a socket is memory that its init made and that has not been moved,
 * copied or written since; of one socket one call runs at a time; its buffers are its own from init to release, and
 * overlap neither the socket, nor each other, nor what a call is given; a pointer leads to memory of the length given,
 * and a length is one: the (size_t)-1 of a failed read is none.
 *
 * A host looks at a packet before a socket sees it: it refuses a destination that is not its own (multicast and
 * broadcast too), and a source that is multicast, broadcast or its own; it offers a packet to the sockets that have a
 * connection first, and then to those that listen, else a repeated SYN opens a second socket. smoltcp_host.h, which is
 * not brought in here, has such a host, in a library that asks for a heap too.
 *
 * Each call is a symbol of the library. Where a compiler of the GNU kind optimises, its body is inlined, which looks
 * for null pointers and hands on to a call of smoltcp_nonnull.h; with SMOLTCP_NO_INLINE defined it is not.
 *
 * With SMOLTCP_CHECK defined before this header, for tests: calls on memory with no socket in it, on a socket of a host
 * that was borrowed too long ago, and over buffers that overlap end the program by abort, with a sentence on standard
 * error. What it knows of borrowed sockets, it knows in each file of a program for itself. */
#ifndef SMOLTCP_SOCKET_H
#define SMOLTCP_SOCKET_H

#include "smoltcp_types.h"
#include "smoltcp_tcp.h"
#include "smoltcp_udp.h"
#include "smoltcp_raw.h"
#include "smoltcp_icmp.h"

#if defined(__GNUC__) && defined(__OPTIMIZE__) && !defined(SMOLTCP_NO_INLINE)
#define SMOLTCP_INLINE extern inline __attribute__((gnu_inline))
#include "smoltcp_nonnull.h"
#ifdef __cplusplus
extern "C" {
#endif
#include "smoltcp_calls.h"
#include "smoltcp_inline.h"
#ifdef __cplusplus
}
#endif
#undef SMOLTCP_INLINE
#endif

#ifdef SMOLTCP_CHECK
#include "smoltcp_check.h"
#endif

#endif
