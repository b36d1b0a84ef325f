/* Raw sockets, whose queues hold whole IP packets. Part of smoltcp_socket.h, which says what holds of every call. */
#ifndef SMOLTCP_RAW_H
#define SMOLTCP_RAW_H

#include "smoltcp_types.h"

#ifdef __cplusplus
extern "C" {
#endif

/* Returns what a socket reports for one of the numbers SMOLTCP_ASK_CAN_SEND and so on; SMOLTCP_ERROR_RANGE for a number
 * that this kind does not have.
 *
 * Errors: SMOLTCP_ERROR_RANGE, SMOLTCP_ERROR_NULL. */
int64_t smoltcp_raw_ask(const struct smoltcp_raw *s, uint32_t what);

/* Makes a raw socket in the memory, for the packets of the filter, over the two buffers, of at most 2^30 places and
 * 2^30 bytes each (else SMOLTCP_ERROR_RANGE, as for a version that is not 0, 4 or 6, with nothing changed). All of it
 * is the socket's until smoltcp_raw_release.
 *
 * Errors: SMOLTCP_ERROR_RANGE, SMOLTCP_ERROR_VERSION, SMOLTCP_ERROR_NULL. */
int64_t smoltcp_raw_init(struct smoltcp_raw *s, const struct smoltcp_raw_filter *filter, struct smoltcp_raw_buffer rx,
                         struct smoltcp_raw_buffer tx);

/* Makes a raw socket as smoltcp_raw_init does, which in C and C++ is a macro that passes the size of the memory.
 * SMOLTCP_ERROR_VERSION where that is not the library's, with nothing changed. */
int64_t smoltcp_raw_init_sized(struct smoltcp_raw *s, size_t size, const struct smoltcp_raw_filter *filter,
                               struct smoltcp_raw_buffer rx, struct smoltcp_raw_buffer tx);
#define smoltcp_raw_init(s, ...) smoltcp_raw_init_sized((s), sizeof *(s), __VA_ARGS__)

/* Lets go of the socket in any state: its memory and its buffers are the program's again, as with smoltcp_tcp_release.
 * Where the buffers lie is written into rx and tx, of which each may be NULL. The packets in its queues are gone. The
 * memory has zeros afterwards. SMOLTCP_ERROR_STATE where no socket lies there, as it was released before, or moved into
 * a host.
 *
 * Errors: SMOLTCP_ERROR_STATE, SMOLTCP_ERROR_NULL. */
int64_t smoltcp_raw_release(struct smoltcp_raw *s, struct smoltcp_raw_buffer *rx, struct smoltcp_raw_buffer *tx);

/* The version of IP of the socket's packets: 4, 6, or 0 for both.
 *
 * Errors: SMOLTCP_ERROR_NULL. */
int64_t smoltcp_raw_ip_version(const struct smoltcp_raw *s);

/* The number of the protocol of the socket's packets, or SMOLTCP_RAW_ANY for any.
 *
 * Errors: SMOLTCP_ERROR_NULL. */
int64_t smoltcp_raw_ip_protocol(const struct smoltcp_raw *s);

/* 1 where the transmit queue has a free place, else 0.
 *
 * Errors: SMOLTCP_ERROR_NULL. */
int64_t smoltcp_raw_can_send(const struct smoltcp_raw *s);

/* 1 where a place of the receive queue is taken, else 0.
 *
 * Errors: SMOLTCP_ERROR_NULL. */
int64_t smoltcp_raw_can_recv(const struct smoltcp_raw *s);

/* How many packets the transmit queue has places for.
 *
 * Errors: SMOLTCP_ERROR_NULL. */
int64_t smoltcp_raw_packet_send_capacity(const struct smoltcp_raw *s);

/* How many packets the receive queue has places for.
 *
 * Errors: SMOLTCP_ERROR_NULL. */
int64_t smoltcp_raw_packet_recv_capacity(const struct smoltcp_raw *s);

/* How many bytes of packets the transmit queue holds.
 *
 * Errors: SMOLTCP_ERROR_NULL. */
int64_t smoltcp_raw_payload_send_capacity(const struct smoltcp_raw *s);

/* How many bytes of packets the receive queue holds.
 *
 * Errors: SMOLTCP_ERROR_NULL. */
int64_t smoltcp_raw_payload_recv_capacity(const struct smoltcp_raw *s);

/* How many bytes of the transmit queue are taken, padding included.
 *
 * Errors: SMOLTCP_ERROR_NULL. */
int64_t smoltcp_raw_send_queue(const struct smoltcp_raw *s);

/* How many bytes of the receive queue are taken, padding included.
 *
 * Errors: SMOLTCP_ERROR_NULL. */
int64_t smoltcp_raw_recv_queue(const struct smoltcp_raw *s);

/* Puts a packet of these bytes, its IP header first, into the transmit queue. SMOLTCP_ERROR_ROOM where the queue has no
 * room for it, or it has more than 65535 bytes. Nothing changes then. Its source is the one that its header names.
 *
 * Errors: SMOLTCP_ERROR_ROOM, SMOLTCP_ERROR_NULL. */
int64_t smoltcp_raw_send(struct smoltcp_raw *s, const uint8_t *data, size_t len);

/* Takes the first packet of the receive queue: its length, and it stands in data. SMOLTCP_ERROR_EMPTY where none waits.
 * SMOLTCP_ERROR_ROOM where data is too short: the packet is lost then.
 *
 * Errors: SMOLTCP_ERROR_EMPTY, SMOLTCP_ERROR_ROOM, SMOLTCP_ERROR_NULL. */
int64_t smoltcp_raw_recv(struct smoltcp_raw *s, uint8_t *data, size_t cap);

/* Copies the first packet of the receive queue into data, and returns its length; the packet stays in the queue.
 * SMOLTCP_ERROR_EMPTY where none waits, SMOLTCP_ERROR_ROOM where data is too short.
 *
 * Errors: SMOLTCP_ERROR_EMPTY, SMOLTCP_ERROR_ROOM, SMOLTCP_ERROR_NULL. */
int64_t smoltcp_raw_peek(struct smoltcp_raw *s, uint8_t *data, size_t cap);

/* Puts a packet of size bytes into the transmit queue, and lends them where they lie, without a copy: where in at. They
 * may be written until the next call on the socket: what stands there then is the packet. Refused as send.
 *
 * Errors: SMOLTCP_ERROR_ROOM, SMOLTCP_ERROR_NULL. */
int64_t smoltcp_raw_send_place(struct smoltcp_raw *s, size_t size, uint8_t **at);

/* Takes the first packet of the receive queue, and lends it where it lies, without a copy: the answer is its length,
 * and where it lies stands in at. It may be read until the next call on the socket.
 *
 * Errors: SMOLTCP_ERROR_EMPTY, SMOLTCP_ERROR_NULL. */
int64_t smoltcp_raw_recv_place(struct smoltcp_raw *s, const uint8_t **at);

/* Writes where the first packet of the receive queue lies into at, and returns its length; the packet stays in the
 * queue. It may be read until the next call on the socket.
 *
 * Errors: SMOLTCP_ERROR_EMPTY, SMOLTCP_ERROR_NULL. */
int64_t smoltcp_raw_peek_place(struct smoltcp_raw *s, const uint8_t **at);

/* 1 where the IP packet is whole and for the socket, so that process takes it, else 0.
 *
 * Errors: SMOLTCP_ERROR_NULL. */
int64_t smoltcp_raw_accepts(const struct smoltcp_raw *s, const uint8_t *packet, size_t len);

/* Takes an IP packet: it comes behind the receive queue, without the options of an IPv4 header, or is dropped where
 * there is no room for it. SMOLTCP_NOT_ACCEPTED where it is not whole or not for this socket.
 *
 * Errors: SMOLTCP_ERROR_CONTEXT, SMOLTCP_NOT_ACCEPTED, SMOLTCP_ERROR_NULL. */
int64_t smoltcp_raw_process(struct smoltcp_raw *s, const struct smoltcp_context *cx, const uint8_t *packet, size_t len);

/* The length of the first packet of the transmit queue, in out, the checksum of an IPv4 header computed, or 0 for none.
 * A call takes one packet from the queue; one that is malformed, or not of the socket's version and protocol, is
 * dropped. SMOLTCP_ERROR_ROOM where out is too short for it: it stays the first.
 *
 * Errors: SMOLTCP_ERROR_CONTEXT, SMOLTCP_ERROR_ROOM, SMOLTCP_ERROR_NULL. */
int64_t smoltcp_raw_dispatch(struct smoltcp_raw *s, const struct smoltcp_context *cx, uint8_t *out, size_t cap);

/* The moment of the next dispatch in microseconds: now where a place of the transmit queue is taken, else INT64_MAX;
 * INT64_MIN: an error.
 *
 * Errors: INT64_MIN, where the context's moment or its MTU is out of range, or a pointer is null. */
int64_t smoltcp_raw_poll_at(const struct smoltcp_raw *s, const struct smoltcp_context *cx);

#ifdef __cplusplus
}
#endif

#endif
