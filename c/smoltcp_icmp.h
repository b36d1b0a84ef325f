/* ICMP sockets (RFC 792, RFC 4443). Part of smoltcp_socket.h, which says what holds of every call. */
#ifndef SMOLTCP_ICMP_H
#define SMOLTCP_ICMP_H

#include "smoltcp_types.h"

#ifdef __cplusplus
extern "C" {
#endif

/* Returns what a socket reports for one of the numbers SMOLTCP_ASK_CAN_SEND and so on; SMOLTCP_ERROR_RANGE for a number
 * that this kind does not have.
 *
 * Errors: SMOLTCP_ERROR_RANGE, SMOLTCP_ERROR_NULL. */
int64_t smoltcp_icmp_ask(const struct smoltcp_icmp *s, uint32_t what);

/* Makes an ICMP socket that is not open in the memory, over the two buffers, of at most 2^30 places and 2^30 bytes each
 * (else SMOLTCP_ERROR_RANGE, with nothing changed). All of it is the socket's until smoltcp_icmp_release.
 *
 * Errors: SMOLTCP_ERROR_RANGE, SMOLTCP_ERROR_VERSION, SMOLTCP_ERROR_NULL. */
int64_t smoltcp_icmp_init(struct smoltcp_icmp *s, struct smoltcp_icmp_buffer rx, struct smoltcp_icmp_buffer tx);

/* Makes an ICMP socket as smoltcp_icmp_init does, which in C and C++ is a macro that passes the size of the memory.
 * SMOLTCP_ERROR_VERSION where that is not the library's, with nothing changed. */
int64_t smoltcp_icmp_init_sized(struct smoltcp_icmp *s, size_t size, struct smoltcp_icmp_buffer rx,
                                struct smoltcp_icmp_buffer tx);
#define smoltcp_icmp_init(s, ...) smoltcp_icmp_init_sized((s), sizeof *(s), __VA_ARGS__)

/* Lets go of the socket in any state: its memory and its buffers are the program's again, as with smoltcp_tcp_release.
 * Where the buffers lie is written into rx and tx, of which each may be NULL. The messages in its queues are gone. The
 * memory has zeros afterwards. SMOLTCP_ERROR_STATE where no socket lies there, as it was released before, or moved into
 * a host.
 *
 * Errors: SMOLTCP_ERROR_STATE, SMOLTCP_ERROR_NULL. */
int64_t smoltcp_icmp_release(struct smoltcp_icmp *s, struct smoltcp_icmp_buffer *rx, struct smoltcp_icmp_buffer *tx);

/* Opens an ICMP socket for these messages. SMOLTCP_ERROR_ADDRESS where there are none or a port is missing, else
 * SMOLTCP_ERROR_STATE where it is open. It stays open.
 *
 * Errors: SMOLTCP_ERROR_ADDRESS, SMOLTCP_ERROR_STATE, SMOLTCP_ERROR_NULL. */
int64_t smoltcp_icmp_bind(struct smoltcp_icmp *s, const struct smoltcp_icmp_endpoint *endpoint);

/* 1 where the socket is bound, else 0.
 *
 * Errors: SMOLTCP_ERROR_NULL. */
int64_t smoltcp_icmp_is_open(const struct smoltcp_icmp *s);

/* 1 where the transmit queue has a free place, else 0.
 *
 * Errors: SMOLTCP_ERROR_NULL. */
int64_t smoltcp_icmp_can_send(const struct smoltcp_icmp *s);

/* 1 where a place of the receive queue is taken, else 0.
 *
 * Errors: SMOLTCP_ERROR_NULL. */
int64_t smoltcp_icmp_can_recv(const struct smoltcp_icmp *s);

/* How many messages the transmit queue has places for.
 *
 * Errors: SMOLTCP_ERROR_NULL. */
int64_t smoltcp_icmp_packet_send_capacity(const struct smoltcp_icmp *s);

/* How many messages the receive queue has places for.
 *
 * Errors: SMOLTCP_ERROR_NULL. */
int64_t smoltcp_icmp_packet_recv_capacity(const struct smoltcp_icmp *s);

/* How many bytes the transmit queue holds.
 *
 * Errors: SMOLTCP_ERROR_NULL. */
int64_t smoltcp_icmp_payload_send_capacity(const struct smoltcp_icmp *s);

/* How many bytes the receive queue holds.
 *
 * Errors: SMOLTCP_ERROR_NULL. */
int64_t smoltcp_icmp_payload_recv_capacity(const struct smoltcp_icmp *s);

/* How many bytes of the transmit queue are taken, padding included.
 *
 * Errors: SMOLTCP_ERROR_NULL. */
int64_t smoltcp_icmp_send_queue(const struct smoltcp_icmp *s);

/* How many bytes of the receive queue are taken, padding included.
 *
 * Errors: SMOLTCP_ERROR_NULL. */
int64_t smoltcp_icmp_recv_queue(const struct smoltcp_icmp *s);

/* The hop limit of what is sent, or 0 where none is set, for 64.
 *
 * Errors: SMOLTCP_ERROR_NULL. */
int64_t smoltcp_icmp_hop_limit(const struct smoltcp_icmp *s);

/* Sets the hop limit of what is sent; 0 for 64.
 *
 * Errors: SMOLTCP_ERROR_NULL. */
int64_t smoltcp_icmp_set_hop_limit(struct smoltcp_icmp *s, uint8_t hop_limit);

/* Puts an ICMP message to remote into the transmit queue, its checksum computed. SMOLTCP_ERROR_ADDRESS where remote is
 * unspecified, SMOLTCP_ERROR_ROOM where the queue has no room for it, or it has more than 65495 bytes. Nothing changes
 * then. One that is no echo and no error of its version is dropped by dispatch, as is one for which the interface has
 * no address. The socket need not be open.
 *
 * Errors: SMOLTCP_ERROR_ADDRESS, SMOLTCP_ERROR_ROOM, SMOLTCP_ERROR_NULL. */
int64_t smoltcp_icmp_send(struct smoltcp_icmp *s, const struct smoltcp_address *remote, const uint8_t *data,
                          size_t len);

/* Takes the first message of the receive queue: its length, it stands in data, and its source in remote.
 * SMOLTCP_ERROR_EMPTY where none waits. SMOLTCP_ERROR_ROOM where data is too short: the message is lost then.
 *
 * Errors: SMOLTCP_ERROR_EMPTY, SMOLTCP_ERROR_ROOM, SMOLTCP_ERROR_NULL. */
int64_t smoltcp_icmp_recv(struct smoltcp_icmp *s, struct smoltcp_address *remote, uint8_t *data, size_t cap);

/* Puts a message of size bytes into the transmit queue, and lends them where they lie, without a copy: where in at.
 * They may be written until the next call on the socket: what stands there then is the message. Refused as send.
 *
 * Errors: SMOLTCP_ERROR_ADDRESS, SMOLTCP_ERROR_ROOM, SMOLTCP_ERROR_NULL. */
int64_t smoltcp_icmp_send_place(struct smoltcp_icmp *s, const struct smoltcp_address *remote, size_t size,
                                uint8_t **at);

/* Takes the first message of the receive queue, and lends it where it lies, without a copy: the answer is its length,
 * where it lies stands in at, and its source in remote. It may be read until the next call on the socket.
 *
 * Errors: SMOLTCP_ERROR_EMPTY, SMOLTCP_ERROR_NULL. */
int64_t smoltcp_icmp_recv_place(struct smoltcp_icmp *s, struct smoltcp_address *remote, const uint8_t **at);

/* 1 where the IP packet carries a whole message for the socket, so that process takes it, else 0.
 *
 * Errors: SMOLTCP_ERROR_CONTEXT, SMOLTCP_ERROR_NULL. */
int64_t smoltcp_icmp_accepts(const struct smoltcp_icmp *s, const struct smoltcp_context *cx, const uint8_t *packet,
                             size_t len);

/* Takes an IP packet: the message that it carries comes behind the receive queue, or is dropped where there is no room
 * for it. SMOLTCP_NOT_ACCEPTED where it carries no whole message or is not for this socket.
 *
 * Errors: SMOLTCP_ERROR_CONTEXT, SMOLTCP_NOT_ACCEPTED, SMOLTCP_ERROR_NULL. */
int64_t smoltcp_icmp_process(struct smoltcp_icmp *s, const struct smoltcp_context *cx, const uint8_t *packet,
                             size_t len);

/* The length of the packet of the first message of the transmit queue, in out. 0 where none waits, or the first is no
 * echo and no error of its version: it leaves the queue too. SMOLTCP_ERROR_ADDRESS where the interface has no address
 * of its version: it has left the queue. SMOLTCP_ERROR_ROOM where out is too short for it: it stays the first.
 *
 * Errors: SMOLTCP_ERROR_CONTEXT, SMOLTCP_ERROR_ADDRESS, SMOLTCP_ERROR_ROOM, SMOLTCP_ERROR_NULL. */
int64_t smoltcp_icmp_dispatch(struct smoltcp_icmp *s, const struct smoltcp_context *cx, uint8_t *out, size_t cap);

/* The moment of the next dispatch in microseconds: now where a place of the transmit queue is taken, else INT64_MAX;
 * INT64_MIN: an error.
 *
 * Errors: INT64_MIN, where the context's moment or its MTU is out of range, or a pointer is null. */
int64_t smoltcp_icmp_poll_at(const struct smoltcp_icmp *s, const struct smoltcp_context *cx);

#ifdef __cplusplus
}
#endif

#endif
