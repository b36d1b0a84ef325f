/* A host of many sockets: an interface with one or several addresses, and the sockets that it speaks for. A program
 * includes this header, which brings in smoltcp_socket.h, and links libsmoltcp_host.a in place of libsmoltcp_c.a.
 *
 * The host does what lies between sockets and a device that carries IP packets of version 4 and 6. It looks at each
 * packet that arrives, gives it to the socket that it is for, and answers it: pings, and segments and datagrams for
 * nobody. It lets the sockets speak in turn, tells when to look again, and keeps peers from holding sockets for ever.
 *
 * A socket of a host begins in memory of the program: its init makes it there over its buffers, and calls on it may set
 * it up. smoltcp_host_add_tcp moves it into the host and gives it a name; the memory is the program's again then, while
 * the buffers stay the socket's. smoltcp_host_tcp lends it for the calls of smoltcp_tcp.h, and smoltcp_host_remove_tcp
 * moves it back into such memory, where release gives the buffers back. It is alike for the other kinds.
 *
 * What a pointer that was lent may be used for, until the next call on the host, whichever it is: all calls of that
 * kind of socket but init, release, and those that the host makes itself: process, dispatch, poll_at and accepts. So
 * only one socket of a host is lent at a time.
 *
 * smoltcp_host_init takes the host's tables from the heap, by the three functions of smoltcp_heap.h, and
 * smoltcp_host_release gives them back; no other call uses the heap, keeps anything elsewhere, or calls back.
 *
 * What the caller has to keep beside what smoltcp_socket.h says, which nothing tests: a host is memory that
 * smoltcp_host_init made and that has not been moved, copied or written since; of one host one call runs at a time,
 * those on a socket that it lends among them; nothing moves, copies or writes what is lent; init and release are not
 * called by a handler of a signal, nor in a child that a process with threads has forked.
 *
 * Timestamps (RFC 7323) are better left off in a host: the clock of a socket stands there, as no context comes with a
 * packet, until smoltcp_tcp_set_tsval sets it. */
#ifndef SMOLTCP_HOST_H
#define SMOLTCP_HOST_H

#include "smoltcp_socket.h"

#ifdef __cplusplus
extern "C" {
#endif

/* Memory for a host, for these calls alone; from smoltcp_host_init on it stays where it is. It lies at a multiple of
 * 16, as the compiler and malloc put it, since the library has numbers of 128 bits in it. */
enum { SMOLTCP_HOST_SIZE = 1552, SMOLTCP_HOST_RESETS = 4 };
struct smoltcp_host {
    union { uint64_t opaque[SMOLTCP_HOST_SIZE / 8]; long double aligned; } memory;
    uint64_t mark; /* of a host that init made here */
    int64_t waiting_since;
    size_t waiting; /* RSTs of connections that were dropped */
    struct { uint8_t len, bytes[SMOLTCP_REPLY_ROOM + 3]; } resets[SMOLTCP_HOST_RESETS];
    uint64_t unused;
};
#if defined(__STDC_VERSION__) && __STDC_VERSION__ >= 201112L
_Static_assert(_Alignof(struct smoltcp_host) == 16, "a host lies at a multiple of 16");
#endif

/* An address, and how many of its first bits are those of its network: at most 32 of IPv4, and 128 of IPv6; more count
 * as so many. */
struct smoltcp_cidr { struct smoltcp_address address; uint8_t prefix_len; };

/* Secret bytes, drawn anew at each start of the program, from getrandom or the like. */
struct smoltcp_key { uint8_t bytes[32]; };

/* Names a socket of a host: its place, and how many sockets the place had before. So a socket that is put where another
 * was removed has another name. */
struct smoltcp_socket_id { size_t index; uint64_t generation; };

/* How long a peer may leave a TCP connection waiting, in microseconds; below 0, as long as it likes. More than 2^60
 * count as so many.
 *
 * handshake: until SYN-RECEIVED is left. It is given up without an RST, and the socket listens again.
 * closing: FIN-WAIT-2; and bytes or a FIN that wait in FIN-WAIT-1, CLOSING or LAST-ACK, with nothing newly
 *   acknowledged. The connection is aborted.
 * window: bytes that wait in ESTABLISHED or CLOSE-WAIT, with nothing newly acknowledged, whatever windows come
 *   meanwhile (RFC 6429; R2 of RFC 9293). It is aborted.
 * timeout: the user timeout that each socket is given (RFC 9293, section 3.9.1); below 0, each keeps its own. It ends
 * idle connections too, of which nothing is heard: set keep-alives of a shorter interval where they are to last. */
struct smoltcp_guards { int64_t handshake, closing, window, timeout; };

/* How many packets were dropped, by their reasons, and what became of SYN cookies. A number that is full begins anew.
 *
 * malformed: no IP packet, a wrong length or header checksum, or a fragment. source: from what no single other host
 * has. destination: to no address of the host, no broadcast and no group that it joined. protocol: of none that it
 * speaks. segment, datagram, message: of TCP, UDP, ICMP, with a wrong header, length or checksum. busy: a SYN for a
 * port that is served, while no socket is free. nobody: for no socket. full: a UDP datagram whose socket has no room
 * for it. Then SYNs that were answered without a socket, and acknowledgements of such answers that took a socket, or
 * that answered none. too_many: of a source that has as many connections as it may. too_long: packets of sockets that
 * were dropped, as they were longer than the MTU. unsent: what a UDP, ICMP or raw socket was to send, where no own
 * address has the destination's version, or it is no such packet. */
struct smoltcp_counters {
    uint64_t malformed, source, destination, protocol, segment, datagram, message, busy, nobody, full;
    uint64_t cookies_sent, cookies_taken, cookies_wrong, too_many, too_long, unsent;
};

/* The size of a host that the library has, in bytes. */
size_t smoltcp_host_size(void);

/* Makes a host in the memory, with count addresses and room for capacity sockets. Its tables take some 1,800 bytes of
 * the heap for one socket, and some 850 a socket for ten or more. Its moment is 0, its MTU 1500 bytes, and its guards
 * are 30 seconds for a handshake, a minute for closing and for timeout, and two minutes for window. The key is what
 * initial sequence numbers are made of (RFC 6528): no two hosts have the same. The key of answers is a constant: set a
 * random one by smoltcp_host_set_answer_key. SMOLTCP_ERROR_ADDRESS where an address is of no version,
 * SMOLTCP_ERROR_MEMORY where the heap has too little; nothing is kept then, and no host is there.
 * What lies in the memory is not looked at: a host that was not released loses its tables, which stay allocated.
 *
 * Errors: SMOLTCP_ERROR_ADDRESS, SMOLTCP_ERROR_MEMORY, SMOLTCP_ERROR_VERSION, SMOLTCP_ERROR_NULL. */
int64_t smoltcp_host_init(struct smoltcp_host *host, size_t capacity, const struct smoltcp_cidr *addresses,
                          size_t count, const struct smoltcp_key *key);

/* Makes a host as smoltcp_host_init does, which in C and C++ is a macro that passes the size of the memory.
 * SMOLTCP_ERROR_VERSION where that is not the library's, with nothing changed. */
int64_t smoltcp_host_init_sized(struct smoltcp_host *host, size_t size, size_t capacity,
                                const struct smoltcp_cidr *addresses, size_t count, const struct smoltcp_key *key);
#define smoltcp_host_init(host, ...) smoltcp_host_init_sized((host), sizeof *(host), __VA_ARGS__)

/* Lets go of the host: its tables go back to the heap, and its memory is the program's again. SMOLTCP_ERROR_STATE, with
 * nothing changed, where a socket is in it: remove each before; and where no host is at this address, as it was
 * released before, moved, or never made.
 *
 * Errors: SMOLTCP_ERROR_STATE, SMOLTCP_ERROR_NULL. */
int64_t smoltcp_host_release(struct smoltcp_host *host);

/* Sets the largest IP packet, in bytes: 68 to 65535, and the nearest of these for any other. Over IPv6 less than 576
 * counts as that.
 *
 * Errors: SMOLTCP_ERROR_NULL. */
int64_t smoltcp_host_set_mtu(struct smoltcp_host *host, size_t mtu);

/* Sets how long peers may leave TCP connections waiting, from the next emit on.
 *
 * Errors: SMOLTCP_ERROR_NULL. */
int64_t smoltcp_host_set_guards(struct smoltcp_host *host, const struct smoltcp_guards *guards);

/* From the next packet on a SYN may be answered without a socket, under this key, which is another than that of init
 * (RFC 4987, section 3.6): so a flood of SYNs takes no socket. The sockets from the place kept_from on are kept for
 * peers that answer: where none before it listens for a SYN, and one of these does, the SYN is answered so. What such a
 * connection has of window scale, SACK and timestamps stands in the answer's timestamp: it has none of them where the
 * peer or the listening socket sends no timestamps. Sockets that listen on one port have buffers of one size, then.
 *
 * Errors: SMOLTCP_ERROR_NULL. */
int64_t smoltcp_host_set_syn_cookies(struct smoltcp_host *host, const struct smoltcp_key *key, size_t kept_from);

/* No SYN is answered without a socket any more, as in a new host.
 *
 * Errors: SMOLTCP_ERROR_NULL. */
int64_t smoltcp_host_stop_syn_cookies(struct smoltcp_host *host);

/* From the next packet on one source has so many TCP connections at most: an address of IPv4, or 64 bits of one of IPv6
 * (in ::/64 each address); 0, as in a new host, allows any number. Those in TIME-WAIT and those that were opened here
 * count, too. A SYN that would begin one more is dropped, and counted as too_many.
 *
 * Errors: SMOLTCP_ERROR_NULL. */
int64_t smoltcp_host_set_most_of_source(struct smoltcp_host *host, size_t most);

/* Sets the key by which sources share the limits of RSTs and ICMP errors: a random number, which nobody can guess. In a
 * new host it is a constant.
 *
 * Errors: SMOLTCP_ERROR_NULL. */
int64_t smoltcp_host_set_answer_key(struct smoltcp_host *host, uint64_t key);

/* Joins a group: packets to it are taken then, for UDP and raw sockets. Nobody is told of it by IGMP or MLD.
 * SMOLTCP_ERROR_ADDRESS where the address is none of a group, SMOLTCP_ERROR_ROOM where four others were joined.
 *
 * Errors: SMOLTCP_ERROR_ADDRESS, SMOLTCP_ERROR_ROOM, SMOLTCP_ERROR_NULL. */
int64_t smoltcp_host_join(struct smoltcp_host *host, const struct smoltcp_address *group);

/* Leaves a group, if it was joined. SMOLTCP_ERROR_ADDRESS where the address is none of a group.
 *
 * Errors: SMOLTCP_ERROR_ADDRESS, SMOLTCP_ERROR_NULL. */
int64_t smoltcp_host_leave(struct smoltcp_host *host, const struct smoltcp_address *group);

/* Writes how many packets were dropped into out.
 *
 * Errors: SMOLTCP_ERROR_NULL. */
int64_t smoltcp_host_counters(const struct smoltcp_host *host, struct smoltcp_counters *out);

/* Takes an IP packet that arrives at this moment, in microseconds, within 2^60 of zero (one that is further away counts
 * as the nearest of these), of a clock that never goes back. The answer is the length of the packet that answers it,
 * which stands at the beginning of reply, or 0 for none. RSTs go out for segments, and ICMP errors for packets, that
 * nobody takes, of each at most a hundred to a source in a second. SMOLTCP_ERROR_ROOM where reply is shorter than the
 * MTU, or than SMOLTCP_REPLY_ROOM bytes; nothing happens then.
 *
 * Errors: SMOLTCP_ERROR_ROOM, SMOLTCP_ERROR_NULL. */
int64_t smoltcp_host_receive(struct smoltcp_host *host, int64_t now, const uint8_t *packet, size_t len, uint8_t *reply,
                             size_t cap);

/* The length of the next packet of a socket that is due at this moment, in out, or 0 where none is due. Call it until
 * it answers 0, with one moment: that comes, as no socket has more than 64 packets at a moment. The sockets have their
 * turns. A packet that is longer than the MTU, where less than 576 counts as that over IPv6, is dropped and counted as
 * too_long. SMOLTCP_ERROR_ROOM where out is too short for another: its socket offers it again. Of the MTU's length, and
 * of 576 bytes or more, it never is.
 *
 * Errors: SMOLTCP_ERROR_ROOM, SMOLTCP_ERROR_NULL. */
int64_t smoltcp_host_emit(struct smoltcp_host *host, int64_t now, uint8_t *out, size_t cap);

/* The moment at which emit next has something to do, in microseconds; INT64_MAX: none before a packet comes or a socket
 * is lent; INT64_MIN: an error. Ask after an emit that answered 0: the moment lies behind that emit's then.
 *
 * Errors: INT64_MIN, where a pointer is null. */
int64_t smoltcp_host_poll_at(const struct smoltcp_host *host);

/* Writes the context of smoltcp_tcp_connect to this address into out: the moment and the MTU of the host, a fresh
 * random word, and the own address from which packets go there, zeros where there is none. Ask anew for each connect,
 * before the socket is lent.
 *
 * Errors: SMOLTCP_ERROR_NULL. */
int64_t smoltcp_host_context(struct smoltcp_host *host, const struct smoltcp_address *remote,
                             struct smoltcp_context *out);

/* Opens a connection of the TCP socket of this name to remote, with a fresh initial sequence number. It comes from
 * local: NULL, or version 0 of its address, is the own address from which packets go to remote; port 0 is a port of
 * 49152 to 65535 that no socket of the host has toward remote, the first from a random one on (RFC 6056, section
 * 3.3.1). smoltcp_tcp_local_endpoint reports which they are. In this order: SMOLTCP_ERROR_ADDRESS where the address is
 * none of the host's, or none leads there; SMOLTCP_ERROR_IN_USE where another socket has this connection, or no port is
 * free; SMOLTCP_ERROR_SOCKET where the host has no TCP socket of this name; SMOLTCP_ERROR_STATE where it is open;
 * SMOLTCP_ERROR_ADDRESS where remote has port 0 or no address, or both are of different versions. Nothing changes then,
 * but that a random number was drawn. It looks at each socket of the host.
 *
 * Errors: SMOLTCP_ERROR_ADDRESS, SMOLTCP_ERROR_IN_USE, SMOLTCP_ERROR_SOCKET, SMOLTCP_ERROR_STATE,
 * SMOLTCP_ERROR_NULL. */
int64_t smoltcp_host_connect(struct smoltcp_host *host, const struct smoltcp_socket_id *id,
                             const struct smoltcp_endpoint *remote, const struct smoltcp_endpoint *local);

/* Binds the UDP socket of this name at local, and returns the port: NULL, or version 0 of its address, is any own
 * address; port 0 is a port of 49152 to 65535 to which no UDP socket of the host is bound, the first from a random one
 * on. In this order: SMOLTCP_ERROR_IN_USE where another UDP socket of the host is bound to the port, at whichever
 * address, or no port is free; SMOLTCP_ERROR_SOCKET where the host has no UDP socket of this name; SMOLTCP_ERROR_STATE
 * where it is bound. Nothing changes then. It looks at each socket of the host.
 *
 * Errors: SMOLTCP_ERROR_IN_USE, SMOLTCP_ERROR_SOCKET, SMOLTCP_ERROR_STATE, SMOLTCP_ERROR_NULL. */
int64_t smoltcp_host_bind_udp(struct smoltcp_host *host, const struct smoltcp_socket_id *id,
                              const struct smoltcp_endpoint *local);

/* Gives up the connection of the TCP socket of this name, and takes the socket out of the host: its name is gone, and
 * its buffers are the program's at once. Where the peer has to be told by an RST, the next emit returns it; at most
 * SMOLTCP_HOST_RESETS wait for it, and the peer of a further one gets an RST once it sends. This call and the RSTs that
 * wait are C over proved calls: tested, not proved. SMOLTCP_ERROR_SOCKET where the host has no TCP socket of this name.
 *
 * Errors: SMOLTCP_ERROR_SOCKET, SMOLTCP_ERROR_NULL. */
int64_t smoltcp_host_drop_tcp(struct smoltcp_host *host, const struct smoltcp_socket_id *id);

/* Sets the addresses of the host, count of them, from the next packet on: as after a lease of DHCP, or where one is
 * renewed with another address. A connection from an address that is gone ends, and nothing is sent for it; datagrams
 * that wait go out from an address that is there. The table is taken from the heap, and the former one given back.
 * SMOLTCP_ERROR_ADDRESS where an address is of no version, SMOLTCP_ERROR_MEMORY where the heap has too little; the
 * addresses are as before then.
 *
 * Errors: SMOLTCP_ERROR_ADDRESS, SMOLTCP_ERROR_MEMORY, SMOLTCP_ERROR_NULL. */
int64_t smoltcp_host_set_addresses(struct smoltcp_host *host, const struct smoltcp_cidr *addresses, size_t count);

/* Moves the socket out of the memory into the first free place of the host, and writes its name into out. The memory is
 * the program's again, and no call may be made on it before an init made a socket there anew; the buffers stay the
 * socket's. SMOLTCP_ERROR_ROOM where no place is free: the socket lies in the memory as before. SMOLTCP_ERROR_STATE
 * where no socket lies there, as it was released or moved into a host.
 *
 * Errors: SMOLTCP_ERROR_ROOM, SMOLTCP_ERROR_STATE, SMOLTCP_ERROR_NULL. */
int64_t smoltcp_host_add_tcp(struct smoltcp_host *host, struct smoltcp_tcp *s, struct smoltcp_socket_id *out);

/* Moves the UDP socket out of the memory into the first free slot of the host, and writes its name into out. The memory
 * is the program's again, the buffers stay the socket's. SMOLTCP_ERROR_ROOM where no slot is free: the socket lies in
 * the memory as before. SMOLTCP_ERROR_STATE where no socket lies there.
 *
 * Errors: SMOLTCP_ERROR_ROOM, SMOLTCP_ERROR_STATE, SMOLTCP_ERROR_NULL. */
int64_t smoltcp_host_add_udp(struct smoltcp_host *host, struct smoltcp_udp *s, struct smoltcp_socket_id *out);

/* Moves the raw socket out of the memory into the first free slot of the host, and writes its name into out. The memory
 * is the program's again, the buffers stay the socket's. SMOLTCP_ERROR_ROOM where no slot is free: the socket lies in
 * the memory as before. SMOLTCP_ERROR_STATE where no socket lies there.
 *
 * Errors: SMOLTCP_ERROR_ROOM, SMOLTCP_ERROR_STATE, SMOLTCP_ERROR_NULL. */
int64_t smoltcp_host_add_raw(struct smoltcp_host *host, struct smoltcp_raw *s, struct smoltcp_socket_id *out);

/* Moves the ICMP socket out of the memory into the first free slot of the host, and writes its name into out. The
 * memory is the program's again, the buffers stay the socket's. SMOLTCP_ERROR_ROOM where no slot is free: the socket
 * lies in the memory as before. SMOLTCP_ERROR_STATE where no socket lies there.
 *
 * Errors: SMOLTCP_ERROR_ROOM, SMOLTCP_ERROR_STATE, SMOLTCP_ERROR_NULL. */
int64_t smoltcp_host_add_icmp(struct smoltcp_host *host, struct smoltcp_icmp *s, struct smoltcp_socket_id *out);

/* Moves the socket of this name out of the host into the memory, in which no socket lies, in any state: what it has to
 * say yet, dispatch tells there. SMOLTCP_ERROR_SOCKET where the host has no TCP socket of this name, with nothing
 * changed, the memory neither.
 *
 * Errors: SMOLTCP_ERROR_SOCKET, SMOLTCP_ERROR_NULL. */
int64_t smoltcp_host_remove_tcp(struct smoltcp_host *host, const struct smoltcp_socket_id *id, struct smoltcp_tcp *s);

/* Moves the UDP socket of this name out of the host into the memory, in which no socket lies, with what is in its
 * queues. SMOLTCP_ERROR_SOCKET where the host has no UDP socket of this name, with nothing changed.
 *
 * Errors: SMOLTCP_ERROR_SOCKET, SMOLTCP_ERROR_NULL. */
int64_t smoltcp_host_remove_udp(struct smoltcp_host *host, const struct smoltcp_socket_id *id, struct smoltcp_udp *s);

/* Moves the raw socket of this name out of the host into the memory, in which no socket lies, with what is in its
 * queues. SMOLTCP_ERROR_SOCKET where the host has no raw socket of this name, with nothing changed.
 *
 * Errors: SMOLTCP_ERROR_SOCKET, SMOLTCP_ERROR_NULL. */
int64_t smoltcp_host_remove_raw(struct smoltcp_host *host, const struct smoltcp_socket_id *id, struct smoltcp_raw *s);

/* Moves the ICMP socket of this name out of the host into the memory, in which no socket lies, with what is in its
 * queues. SMOLTCP_ERROR_SOCKET where the host has no ICMP socket of this name, with nothing changed.
 *
 * Errors: SMOLTCP_ERROR_SOCKET, SMOLTCP_ERROR_NULL. */
int64_t smoltcp_host_remove_icmp(struct smoltcp_host *host, const struct smoltcp_socket_id *id,
                                 struct smoltcp_icmp *s);

/* Lends the socket of this name until the next call on the host: writes where it lies into out. A socket that was lent
 * is asked by the next emit, whatever was done to it: so lend those alone that something is to be done to.
 * SMOLTCP_ERROR_SOCKET where the host has no TCP socket of this name, and NULL in out, on which each call is refused.
 *
 * Errors: SMOLTCP_ERROR_SOCKET, SMOLTCP_ERROR_NULL. */
int64_t smoltcp_host_tcp(struct smoltcp_host *host, const struct smoltcp_socket_id *id, struct smoltcp_tcp **out);

/* Borrows the UDP socket of this name until the next call on the host: writes where it lies into out. The next emit
 * polls it, whatever was done to it. SMOLTCP_ERROR_SOCKET where the host has no UDP socket of this name, and NULL in
 * out, on which each call is refused.
 *
 * Errors: SMOLTCP_ERROR_SOCKET, SMOLTCP_ERROR_NULL. */
int64_t smoltcp_host_udp(struct smoltcp_host *host, const struct smoltcp_socket_id *id, struct smoltcp_udp **out);

/* Borrows the raw socket of this name until the next call on the host: writes where it lies into out. The next emit
 * polls it, whatever was done to it. SMOLTCP_ERROR_SOCKET where the host has no raw socket of this name, and NULL in
 * out, on which each call is refused.
 *
 * Errors: SMOLTCP_ERROR_SOCKET, SMOLTCP_ERROR_NULL. */
int64_t smoltcp_host_raw(struct smoltcp_host *host, const struct smoltcp_socket_id *id, struct smoltcp_raw **out);

/* Borrows the ICMP socket of this name until the next call on the host: writes where it lies into out. The next emit
 * polls it, whatever was done to it. SMOLTCP_ERROR_SOCKET where the host has no ICMP socket of this name, and NULL in
 * out, on which each call is refused.
 *
 * Errors: SMOLTCP_ERROR_SOCKET, SMOLTCP_ERROR_NULL. */
int64_t smoltcp_host_icmp(struct smoltcp_host *host, const struct smoltcp_socket_id *id, struct smoltcp_icmp **out);

/* Writes into out for how many sockets the host has room.
 *
 * Errors: SMOLTCP_ERROR_NULL. */
int64_t smoltcp_host_capacity(const struct smoltcp_host *host, size_t *out);

/* Writes the name of the socket at this place of the host into out, and answers 1; 0 where none is there, with out as
 * it was.
 *
 * Errors: SMOLTCP_ERROR_NULL. */
int64_t smoltcp_host_at(const struct smoltcp_host *host, size_t index, struct smoltcp_socket_id *out);

/* Writes the first place from one on whose socket may have changed since emit last asked it into out, and answers 1: it
 * took a packet, or was lent or put in. 0 where there is none, with out as it was. So between receive and emit a
 * program need not look at each of its sockets. All places of a new host are marked, as is one whose socket was
 * removed, until an emit that answers 0.
 *
 * Errors: SMOLTCP_ERROR_NULL. */
int64_t smoltcp_host_touched(const struct smoltcp_host *host, size_t from, size_t *out);

/* Writes the first place from one on whose TCP connection ended within emit since it was lent last into out, and
 * answers 1: by a timer, its guard or an own address that was lost. 0 where there is none, with out as it was. A
 * connection that a packet ends is touched.
 *
 * Errors: SMOLTCP_ERROR_NULL. */
int64_t smoltcp_host_ended(const struct smoltcp_host *host, size_t from, size_t *out);

/* Writes how many SYNs have opened the socket of this name since it was added into out. Each is a connection of its
 * own: where the number has grown, the one before is over. SMOLTCP_ERROR_SOCKET where the host has no socket of this
 * name, with out as it was.
 *
 * Errors: SMOLTCP_ERROR_SOCKET, SMOLTCP_ERROR_NULL. */
int64_t smoltcp_host_opened(const struct smoltcp_host *host, const struct smoltcp_socket_id *id, uint64_t *out);

#ifdef __cplusplus
}
#endif

#if defined(__GNUC__) && defined(__OPTIMIZE__) && !defined(SMOLTCP_NO_INLINE)
#define SMOLTCP_INLINE extern inline __attribute__((gnu_inline))
#include "smoltcp_host_nonnull.h"
#ifdef __cplusplus
extern "C" {
#endif
#include "smoltcp_host_calls.h"
#include "smoltcp_host_inline.h"
#ifdef __cplusplus
}
#endif
#undef SMOLTCP_INLINE
#endif

#ifdef SMOLTCP_CHECK
#include "smoltcp_host_check.h"
#endif

#endif
