/* UDP sockets (RFC 768). Part of smoltcp_socket.h, which says what holds of every call. */
#ifndef SMOLTCP_UDP_H
#define SMOLTCP_UDP_H

#include "smoltcp_types.h"

#ifdef __cplusplus
extern "C" {
#endif

/* Returns what a socket reports for one of the numbers SMOLTCP_ASK_CAN_SEND and so on; SMOLTCP_ERROR_RANGE for a number
 * that this kind does not have.
 *
 * Errors: SMOLTCP_ERROR_RANGE, SMOLTCP_ERROR_NULL. */
int64_t smoltcp_udp_ask(const struct smoltcp_udp *s, uint32_t what);

/* Makes a UDP socket that is not open in the memory, over the two buffers, of at most 2^30 places and 2^30 bytes each
 * (else SMOLTCP_ERROR_RANGE, with nothing changed). All of it is the socket's until smoltcp_udp_release.
 *
 * Errors: SMOLTCP_ERROR_RANGE, SMOLTCP_ERROR_VERSION, SMOLTCP_ERROR_NULL. */
int64_t smoltcp_udp_init(struct smoltcp_udp *s, struct smoltcp_udp_buffer rx, struct smoltcp_udp_buffer tx);

/* Makes a UDP socket as smoltcp_udp_init does, which in C and C++ is a macro that passes the size of the memory.
 * SMOLTCP_ERROR_VERSION where that is not the library's, with nothing changed. */
int64_t smoltcp_udp_init_sized(struct smoltcp_udp *s, size_t size, struct smoltcp_udp_buffer rx,
                               struct smoltcp_udp_buffer tx);
#define smoltcp_udp_init(s, ...) smoltcp_udp_init_sized((s), sizeof *(s), __VA_ARGS__)

/* Lets go of the socket in any state: its memory and its buffers are the program's again, as with smoltcp_tcp_release.
 * Where the buffers lie is written into rx and tx, of which each may be NULL. The datagrams in its queues are gone. The
 * memory has zeros afterwards. SMOLTCP_ERROR_STATE where no socket lies there, as it was released before, or moved into
 * a host.
 *
 * Errors: SMOLTCP_ERROR_STATE, SMOLTCP_ERROR_NULL. */
int64_t smoltcp_udp_release(struct smoltcp_udp *s, struct smoltcp_udp_buffer *rx, struct smoltcp_udp_buffer *tx);

/* Opens a UDP socket for datagrams to this port, and to this address where one is given. SMOLTCP_ERROR_ADDRESS where
 * the port is 0, else SMOLTCP_ERROR_STATE where it is open.
 *
 * Errors: SMOLTCP_ERROR_ADDRESS, SMOLTCP_ERROR_STATE, SMOLTCP_ERROR_NULL. */
int64_t smoltcp_udp_bind(struct smoltcp_udp *s, const struct smoltcp_endpoint *endpoint);

/* Binds it to nothing, and empties both queues.
 *
 * Errors: SMOLTCP_ERROR_NULL. */
int64_t smoltcp_udp_close(struct smoltcp_udp *s);

/* Writes what the socket is bound to into out: port 0 where it is not open, version 0 where it has no address.
 *
 * Errors: SMOLTCP_ERROR_NULL. */
int64_t smoltcp_udp_endpoint(const struct smoltcp_udp *s, struct smoltcp_endpoint *out);

/* 1 where the socket is bound, else 0.
 *
 * Errors: SMOLTCP_ERROR_NULL. */
int64_t smoltcp_udp_is_open(const struct smoltcp_udp *s);

/* 1 where the transmit queue has a free place, else 0.
 *
 * Errors: SMOLTCP_ERROR_NULL. */
int64_t smoltcp_udp_can_send(const struct smoltcp_udp *s);

/* 1 where a place of the receive queue is taken, else 0.
 *
 * Errors: SMOLTCP_ERROR_NULL. */
int64_t smoltcp_udp_can_recv(const struct smoltcp_udp *s);

/* How many datagrams the transmit queue has places for.
 *
 * Errors: SMOLTCP_ERROR_NULL. */
int64_t smoltcp_udp_packet_send_capacity(const struct smoltcp_udp *s);

/* How many datagrams the receive queue has places for.
 *
 * Errors: SMOLTCP_ERROR_NULL. */
int64_t smoltcp_udp_packet_recv_capacity(const struct smoltcp_udp *s);

/* How many payload bytes the transmit queue holds.
 *
 * Errors: SMOLTCP_ERROR_NULL. */
int64_t smoltcp_udp_payload_send_capacity(const struct smoltcp_udp *s);

/* How many payload bytes the receive queue holds.
 *
 * Errors: SMOLTCP_ERROR_NULL. */
int64_t smoltcp_udp_payload_recv_capacity(const struct smoltcp_udp *s);

/* How many payload bytes of the transmit queue are taken, padding included.
 *
 * Errors: SMOLTCP_ERROR_NULL. */
int64_t smoltcp_udp_send_queue(const struct smoltcp_udp *s);

/* How many payload bytes of the receive queue are taken, padding included.
 *
 * Errors: SMOLTCP_ERROR_NULL. */
int64_t smoltcp_udp_recv_queue(const struct smoltcp_udp *s);

/* The hop limit of what is sent, or 0 where none is set, for 64.
 *
 * Errors: SMOLTCP_ERROR_NULL. */
int64_t smoltcp_udp_hop_limit(const struct smoltcp_udp *s);

/* Sets the hop limit of what is sent; 0 for 64.
 *
 * Errors: SMOLTCP_ERROR_NULL. */
int64_t smoltcp_udp_set_hop_limit(struct smoltcp_udp *s, uint8_t hop_limit);

/* Puts a datagram of these bytes into the transmit queue. SMOLTCP_ERROR_ADDRESS where the socket is not open, the
 * destination has no address or port, or the source is of another version of IP; SMOLTCP_ERROR_ROOM where the queue has
 * no room for it, or its packet would have more than 65535 bytes. Nothing changes then. Whether the packet fits the MTU
 * is the caller's to see, and whether the interface has an address of the version is dispatch's, which is told.
 *
 * Errors: SMOLTCP_ERROR_ADDRESS, SMOLTCP_ERROR_ROOM, SMOLTCP_ERROR_NULL. */
int64_t smoltcp_udp_send(struct smoltcp_udp *s, const struct smoltcp_udp_metadata *meta, const uint8_t *data,
                         size_t len);

/* Takes the first datagram of the receive queue: the length of its payload, which then stands in data, and where it
 * came from in meta. SMOLTCP_ERROR_EMPTY where none waits. SMOLTCP_ERROR_ROOM where data is too short: the datagram is
 * lost then, so that data should have the longest payload's length.
 *
 * Errors: SMOLTCP_ERROR_EMPTY, SMOLTCP_ERROR_ROOM, SMOLTCP_ERROR_NULL. */
int64_t smoltcp_udp_recv(struct smoltcp_udp *s, struct smoltcp_udp_metadata *meta, uint8_t *data, size_t cap);

/* Copies the payload of the first datagram of the receive queue into data, and returns its length, with where it came
 * from in meta; the datagram stays in the queue. SMOLTCP_ERROR_EMPTY where none waits, SMOLTCP_ERROR_ROOM where data is
 * too short.
 *
 * Errors: SMOLTCP_ERROR_EMPTY, SMOLTCP_ERROR_ROOM, SMOLTCP_ERROR_NULL. */
int64_t smoltcp_udp_peek(struct smoltcp_udp *s, struct smoltcp_udp_metadata *meta, uint8_t *data, size_t cap);

/* Puts a datagram of size bytes into the transmit queue, and lends them where they lie, without a copy: where in at.
 * They may be written until the next call on the socket: what stands there then is the payload. Refused as send.
 *
 * Errors: SMOLTCP_ERROR_ADDRESS, SMOLTCP_ERROR_ROOM, SMOLTCP_ERROR_NULL. */
int64_t smoltcp_udp_send_place(struct smoltcp_udp *s, const struct smoltcp_udp_metadata *meta, size_t size,
                               uint8_t **at);

/* Takes the first datagram of the receive queue, and lends its payload where it lies, without a copy: the answer is its
 * length, where it lies stands in at, and where it came from in meta. It may be read until the next call on the socket.
 *
 * Errors: SMOLTCP_ERROR_EMPTY, SMOLTCP_ERROR_NULL. */
int64_t smoltcp_udp_recv_place(struct smoltcp_udp *s, struct smoltcp_udp_metadata *meta, const uint8_t **at);

/* Writes where the payload of the first datagram of the receive queue lies into at, and where it came from into meta,
 * and returns its length; the datagram stays in the queue. It may be read until the next call on the socket.
 *
 * Errors: SMOLTCP_ERROR_EMPTY, SMOLTCP_ERROR_NULL. */
int64_t smoltcp_udp_peek_place(struct smoltcp_udp *s, struct smoltcp_udp_metadata *meta, const uint8_t **at);

/* 1 where the IP packet carries a whole datagram (RFC 768) for the socket, so that process takes it, else 0.
 *
 * Errors: SMOLTCP_ERROR_CONTEXT, SMOLTCP_ERROR_NULL. */
int64_t smoltcp_udp_accepts(const struct smoltcp_udp *s, const struct smoltcp_context *cx, const uint8_t *packet,
                            size_t len);

/* Takes an IP packet: the datagram that it carries comes behind the receive queue, or is dropped where there is no room
 * for it. SMOLTCP_NOT_ACCEPTED where it carries no whole datagram (RFC 768) or is not for this socket.
 *
 * Errors: SMOLTCP_ERROR_CONTEXT, SMOLTCP_NOT_ACCEPTED, SMOLTCP_ERROR_NULL. */
int64_t smoltcp_udp_process(struct smoltcp_udp *s, const struct smoltcp_context *cx, const uint8_t *packet, size_t len);

/* The length of the packet of the first datagram of the transmit queue, in out, or 0 for none. A call takes one
 * datagram from the queue, so that at most as many have something to emit as were sent. SMOLTCP_ERROR_ADDRESS where it
 * has no source: none was given or bound, and the interface has no address of its version; it has left the queue.
 * SMOLTCP_ERROR_ROOM where out is too short for it: it stays the first.
 *
 * Errors: SMOLTCP_ERROR_CONTEXT, SMOLTCP_ERROR_ADDRESS, SMOLTCP_ERROR_ROOM, SMOLTCP_ERROR_NULL. */
int64_t smoltcp_udp_dispatch(struct smoltcp_udp *s, const struct smoltcp_context *cx, uint8_t *out, size_t cap);

/* The moment of the next dispatch in microseconds: now where a place of the transmit queue is taken, else INT64_MAX;
 * INT64_MIN: an error.
 *
 * Errors: INT64_MIN, where the context's moment or its MTU is out of range, or a pointer is null. */
int64_t smoltcp_udp_poll_at(const struct smoltcp_udp *s, const struct smoltcp_context *cx);

#ifdef __cplusplus
}
#endif

#endif
