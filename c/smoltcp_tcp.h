/* TCP sockets (RFC 9293). Part of smoltcp_socket.h, which says what holds of every call. */
#ifndef SMOLTCP_TCP_H
#define SMOLTCP_TCP_H

#include "smoltcp_types.h"

#ifdef __cplusplus
extern "C" {
#endif

/* What a socket answers to one of the numbers SMOLTCP_ASK_CAN_SEND and so on.
 *
 * Errors: SMOLTCP_ERROR_RANGE, SMOLTCP_ERROR_NULL. */
int64_t smoltcp_tcp_ask(const struct smoltcp_tcp *s, uint32_t what);

/* Makes a closed socket with SMOLTCP_RULES_RFC in the memory, over the two buffers, of at most 2^30 bytes each (else
 * SMOLTCP_ERROR_RANGE, with nothing changed). The memory and the buffers are the socket's until smoltcp_tcp_release
 * has returned SMOLTCP_OK.
 *
 * Errors: SMOLTCP_ERROR_RANGE, SMOLTCP_ERROR_VERSION, SMOLTCP_ERROR_NULL. */
int64_t smoltcp_tcp_init(struct smoltcp_tcp *s, uint8_t *rx, size_t rx_len, uint8_t *tx, size_t tx_len);

/* Makes a closed socket as smoltcp_tcp_init does, which in C and C++ is a macro that passes the size of the memory.
 * SMOLTCP_ERROR_VERSION where that is not the library's, with nothing changed. */
int64_t smoltcp_tcp_init_sized(struct smoltcp_tcp *s, size_t size, uint8_t *rx, size_t rx_len, uint8_t *tx,
                               size_t tx_len);
#define smoltcp_tcp_init(s, ...) smoltcp_tcp_init_sized((s), sizeof *(s), __VA_ARGS__)

/* Lets go of the socket: its memory and its buffers are the program's again, to be freed, or used for anything. Where
 * the buffers lie is written into rx and tx, of which each may be NULL. No call may be made on the socket then before
 * smoltcp_tcp_init made one there anew. Bytes that came and were not read are gone. SMOLTCP_ERROR_STATE, with nothing
 * changed, where it is in any state but CLOSED, as in TIME-WAIT, or a peer has yet to be told by an RST: after
 * smoltcp_tcp_abort the next smoltcp_tcp_dispatch emits that; and where no socket lies there, as it was released
 * before, or moved into a host. The memory has zeros afterwards.
 *
 * Errors: SMOLTCP_ERROR_STATE, SMOLTCP_ERROR_NULL. */
int64_t smoltcp_tcp_release(struct smoltcp_tcp *s, uint8_t **rx, uint8_t **tx);

/* Waits for a peer on this endpoint, whose address may be none. SMOLTCP_ERROR_ADDRESS where the port is 0, else
 * SMOLTCP_ERROR_STATE where the socket is open and does not listen there.
 *
 * Errors: SMOLTCP_ERROR_ADDRESS, SMOLTCP_ERROR_STATE, SMOLTCP_ERROR_NULL. */
int64_t smoltcp_tcp_listen(struct smoltcp_tcp *s, const struct smoltcp_endpoint *endpoint);

/* Opens a connection to remote, from local, whose address may be none: then the interface's is taken. The word of the
 * context is its initial sequence number. SMOLTCP_ERROR_STATE where the socket is open, SMOLTCP_ERROR_ADDRESS where a
 * port is 0, an address is unspecified, the two are of different versions, or the interface has none of the version.
 *
 * Errors: SMOLTCP_ERROR_CONTEXT, SMOLTCP_ERROR_STATE, SMOLTCP_ERROR_ADDRESS, SMOLTCP_ERROR_NULL. */
int64_t smoltcp_tcp_connect(struct smoltcp_tcp *s, const struct smoltcp_context *cx,
                            const struct smoltcp_endpoint *remote, const struct smoltcp_endpoint *local);

/* Closes the transmit half: a FIN follows what was sent.
 *
 * Errors: SMOLTCP_ERROR_NULL. */
int64_t smoltcp_tcp_close(struct smoltcp_tcp *s);

/* Ends the connection at once, by an RST in the next dispatch.
 *
 * Errors: SMOLTCP_ERROR_NULL. */
int64_t smoltcp_tcp_abort(struct smoltcp_tcp *s);

/* Why the last connection ended, or the wait for one, by what the calls since the last listen or connect did that was
 * not refused: one of SMOLTCP_END_NONE and the names behind it. So SMOLTCP_ERROR_STATE of recv means: not yet, where
 * this is SMOLTCP_END_NONE, and else the end that this tells.
 *
 * Errors: SMOLTCP_ERROR_NULL. */
int64_t smoltcp_tcp_ended(const struct smoltcp_tcp *s);

/* Writes what was agreed into out, and answers 1; 0 in CLOSED, LISTEN and SYN-SENT, with out as it was.
 *
 * Errors: SMOLTCP_ERROR_NULL. */
int64_t smoltcp_tcp_negotiated(const struct smoltcp_tcp *s, struct smoltcp_negotiated *out);

/* Takes as many of the bytes as fit, and answers how many. SMOLTCP_ERROR_STATE where smoltcp_tcp_may_send is 0.
 *
 * Errors: SMOLTCP_ERROR_STATE, SMOLTCP_ERROR_NULL. */
int64_t smoltcp_tcp_send(struct smoltcp_tcp *s, const uint8_t *data, size_t len);

/* Copies as many bytes as are queued and fit, removes them, and returns how many: 0 where none is queued yet. Where
 * smoltcp_tcp_may_recv is 0, SMOLTCP_ERROR_FINISHED if the peer has closed and all was read (the 0 of BSD's recv), else
 * SMOLTCP_ERROR_STATE. Queued bytes can still be read after an RST, until the next listen or connect. When TIME-WAIT
 * ends, ten seconds behind both FINs, bytes that were not read are gone, unless the socket has SMOLTCP_RULES_RFC: read
 * them before.
 *
 * Errors: SMOLTCP_ERROR_FINISHED, SMOLTCP_ERROR_STATE, SMOLTCP_ERROR_NULL. */
int64_t smoltcp_tcp_recv(struct smoltcp_tcp *s, uint8_t *data, size_t len);

/* Copies as many bytes as are there and fit, and returns how many; they stay in the queue. Where smoltcp_tcp_may_recv
 * is 0, SMOLTCP_ERROR_FINISHED if the peer has closed, else SMOLTCP_ERROR_STATE.
 *
 * Errors: SMOLTCP_ERROR_FINISHED, SMOLTCP_ERROR_STATE, SMOLTCP_ERROR_NULL. */
int64_t smoltcp_tcp_peek_slice(const struct smoltcp_tcp *s, uint8_t *data, size_t len);

/* Lends the receive queue as far as it lies in one piece, but at most size bytes of it: where they lie in at, and how
 * many they are as the answer. They may be read until the next call on the socket. Refused as recv.
 *
 * Errors: SMOLTCP_ERROR_FINISHED, SMOLTCP_ERROR_STATE, SMOLTCP_ERROR_NULL. */
int64_t smoltcp_tcp_peek(const struct smoltcp_tcp *s, size_t size, const uint8_t **at);

/* Removes count bytes from the front of the receive queue, also past the piece that peek returned, and returns count,
 * not SMOLTCP_OK. SMOLTCP_ERROR_RANGE where the queue has fewer, with nothing removed.
 *
 * Errors: SMOLTCP_ERROR_FINISHED, SMOLTCP_ERROR_STATE, SMOLTCP_ERROR_RANGE, SMOLTCP_ERROR_NULL. */
int64_t smoltcp_tcp_consume(struct smoltcp_tcp *s, size_t count);

/* Lends the free places behind the transmit queue that lie in one piece: where they lie in at, and how many they are as
 * the answer. They may be written until the next call on the socket, which should be commit. Refused as send.
 *
 * Errors: SMOLTCP_ERROR_STATE, SMOLTCP_ERROR_NULL. */
int64_t smoltcp_tcp_reserve(struct smoltcp_tcp *s, uint8_t **at);

/* Appends the first count of these bytes to the transmit queue, as they stand there, and returns count, not SMOLTCP_OK.
 * SMOLTCP_ERROR_RANGE where reserve hands out fewer, with nothing appended.
 *
 * Errors: SMOLTCP_ERROR_STATE, SMOLTCP_ERROR_RANGE, SMOLTCP_ERROR_NULL. */
int64_t smoltcp_tcp_commit(struct smoltcp_tcp *s, size_t count);

/* The state, as above.
 *
 * Errors: SMOLTCP_ERROR_NULL. */
int64_t smoltcp_tcp_state(const struct smoltcp_tcp *s);

/* 1 where the socket waits for a peer, else 0.
 *
 * Errors: SMOLTCP_ERROR_NULL. */
int64_t smoltcp_tcp_is_listening(const struct smoltcp_tcp *s);

/* 1 where it is in any state but CLOSED and TIME-WAIT, else 0.
 *
 * Errors: SMOLTCP_ERROR_NULL. */
int64_t smoltcp_tcp_is_open(const struct smoltcp_tcp *s);

/* 1 where it is open and has a peer, else 0.
 *
 * Errors: SMOLTCP_ERROR_NULL. */
int64_t smoltcp_tcp_is_active(const struct smoltcp_tcp *s);

/* 1 where the connection has something left to do, as bytes to send, else 0.
 *
 * Errors: SMOLTCP_ERROR_NULL. */
int64_t smoltcp_tcp_has_work(const struct smoltcp_tcp *s);

/* 1 where the state lets bytes be sent, else 0.
 *
 * Errors: SMOLTCP_ERROR_NULL. */
int64_t smoltcp_tcp_may_send(const struct smoltcp_tcp *s);

/* 1 where bytes may come or are there, else 0.
 *
 * Errors: SMOLTCP_ERROR_NULL. */
int64_t smoltcp_tcp_may_recv(const struct smoltcp_tcp *s);

/* 1 where send would take at least one byte, else 0.
 *
 * Errors: SMOLTCP_ERROR_NULL. */
int64_t smoltcp_tcp_can_send(const struct smoltcp_tcp *s);

/* 1 where recv would give at least one byte, else 0.
 *
 * Errors: SMOLTCP_ERROR_NULL. */
int64_t smoltcp_tcp_can_recv(const struct smoltcp_tcp *s);

/* How many bytes send, or commit, accepted and the peer has not acknowledged, whether they were transmitted or not. The
 * free room is smoltcp_tcp_send_capacity less this.
 *
 * Errors: SMOLTCP_ERROR_NULL. */
int64_t smoltcp_tcp_send_queue(const struct smoltcp_tcp *s);

/* How many bytes came and were not read.
 *
 * Errors: SMOLTCP_ERROR_NULL. */
int64_t smoltcp_tcp_recv_queue(const struct smoltcp_tcp *s);

/* How many bytes the transmit buffer holds.
 *
 * Errors: SMOLTCP_ERROR_NULL. */
int64_t smoltcp_tcp_send_capacity(const struct smoltcp_tcp *s);

/* How many bytes the receive buffer holds.
 *
 * Errors: SMOLTCP_ERROR_NULL. */
int64_t smoltcp_tcp_recv_capacity(const struct smoltcp_tcp *s);

/* Writes the own endpoint into out, and answers 1; 0 where there is no peer.
 *
 * Errors: SMOLTCP_ERROR_NULL. */
int64_t smoltcp_tcp_local_endpoint(const struct smoltcp_tcp *s, struct smoltcp_endpoint *out);

/* Writes the peer's endpoint into out, and answers 1; 0 where there is no peer.
 *
 * Errors: SMOLTCP_ERROR_NULL. */
int64_t smoltcp_tcp_remote_endpoint(const struct smoltcp_tcp *s, struct smoltcp_endpoint *out);

/* Writes the endpoint on which the socket listens, or listened last, into out: port 0 where there is none.
 *
 * Errors: SMOLTCP_ERROR_NULL. */
int64_t smoltcp_tcp_listen_endpoint(const struct smoltcp_tcp *s, struct smoltcp_endpoint *out);

/* Ends a connection from which nothing was heard for so long, in microseconds, at most 2^61; below 0: never. Five
 * minutes in a new socket (RFC 9293, section 3.9.1.1). By the RFCs' rules it runs while something is not acknowledged
 * (RFC 5482), and where a keep-alive is not answered; by smoltcp's also while a connection is idle. Without a timeout a
 * connection can wait for ever: docs/STALLS.md.
 *
 * Errors: SMOLTCP_ERROR_RANGE, SMOLTCP_ERROR_NULL. */
int64_t smoltcp_tcp_set_timeout(struct smoltcp_tcp *s, int64_t micros);

/* The lowest retransmission timeout in microseconds, in whole milliseconds: less than one counts as one, more than a
 * minute as a minute. A second in a new socket (RFC 6298, section 2.4); Linux has 200,000.
 *
 * Errors: SMOLTCP_ERROR_RANGE, below 0 and above 2^61, SMOLTCP_ERROR_NULL. */
int64_t smoltcp_tcp_set_min_rto(struct smoltcp_tcp *s, int64_t micros);

/* Asks an idle peer whether it is there every so many microseconds, at most 2^61; below 0: never, as in a new socket
 * (RFC 9293, section 3.8.4). Shorter than the timeout, by a factor of four, say. SMOLTCP_ERROR_RANGE for 0 too, with
 * nothing changed.
 *
 * Errors: SMOLTCP_ERROR_RANGE, SMOLTCP_ERROR_NULL. */
int64_t smoltcp_tcp_set_keep_alive(struct smoltcp_tcp *s, int64_t micros);

/* How long an acknowledgement may wait for data to go with, in microseconds, at most 2^61; below 0: not at all. 10,000
 * in a new socket.
 *
 * Errors: SMOLTCP_ERROR_RANGE, SMOLTCP_ERROR_NULL. */
int64_t smoltcp_tcp_set_ack_delay(struct smoltcp_tcp *s, int64_t micros);

/* Whether small segments wait while bytes are in flight (RFC 9293, section 3.7.4), as they do in a new socket.
 *
 * Errors: SMOLTCP_ERROR_NULL. */
int64_t smoltcp_tcp_set_nagle_enabled(struct smoltcp_tcp *s, uint8_t enabled);

/* The hop limit of what is sent; 0: 64, as in a new socket.
 *
 * Errors: SMOLTCP_ERROR_NULL. */
int64_t smoltcp_tcp_set_hop_limit(struct smoltcp_tcp *s, uint8_t hop_limit);

/* Tells the path MTU, as an ICMP error does (RFC 1191, RFC 8201): the length in bytes, IP header and all, of the longest
 * packet that reaches the peer. Less than 576 counts as 576 over IPv4, less than 1280 as 1280 over IPv6. Segments only
 * get shorter by it, until the connection ends; bytes in flight go out again at once then. A host hears such errors
 * itself.
 *
 * Errors: SMOLTCP_ERROR_CONTEXT, SMOLTCP_ERROR_NULL. */
int64_t smoltcp_tcp_set_path_mtu(struct smoltcp_tcp *s, const struct smoltcp_context *cx, uint32_t mtu);

/* Lets a SYN|ACK wait, or go out.
 *
 * Errors: SMOLTCP_ERROR_NULL. */
int64_t smoltcp_tcp_pause_synack(struct smoltcp_tcp *s, uint8_t pause);

/* Puts in a new controller of this kind, also where there is one of the kind: SMOLTCP_CONGESTION_NONE,
 * SMOLTCP_CONGESTION_RENO, which a new socket has, or SMOLTCP_CONGESTION_CUBIC.
 *
 * Errors: SMOLTCP_ERROR_RANGE, SMOLTCP_ERROR_NULL. */
int64_t smoltcp_tcp_set_congestion_control(struct smoltcp_tcp *s, uint32_t kind);

/* Chooses the rules of a socket that is not open: a new one has SMOLTCP_RULES_RFC; SMOLTCP_RULES_SMOLTCP does what
 * smoltcp does, to the letter. SMOLTCP_ERROR_STATE where it is open.
 *
 * Errors: SMOLTCP_ERROR_RANGE, SMOLTCP_ERROR_STATE, SMOLTCP_ERROR_NULL. */
int64_t smoltcp_tcp_set_rules(struct smoltcp_tcp *s, uint32_t rules);

/* Whether timestamps are sent (RFC 7323), at the clock of each call's context; not in a new socket. Set it while the
 * socket is closed.
 *
 * Errors: SMOLTCP_ERROR_NULL. */
int64_t smoltcp_tcp_set_timestamps(struct smoltcp_tcp *s, uint8_t enabled);

/* Sets the clock of timestamps, where the socket sends them, as the tsval of a context does in process and dispatch:
 * for a socket of a host (smoltcp_host.h), whose packets come with no context. Set it often enough that it ticks.
 *
 * Errors: SMOLTCP_ERROR_NULL. */
int64_t smoltcp_tcp_set_tsval(struct smoltcp_tcp *s, uint32_t tsval);

/* The user timeout in microseconds, or -1 for none.
 *
 * Errors: SMOLTCP_ERROR_NULL. */
int64_t smoltcp_tcp_timeout(const struct smoltcp_tcp *s);

/* The lowest retransmission timeout in microseconds.
 *
 * Errors: SMOLTCP_ERROR_NULL. */
int64_t smoltcp_tcp_min_rto(const struct smoltcp_tcp *s);

/* The interval of keep-alives in microseconds, or -1 for none.
 *
 * Errors: SMOLTCP_ERROR_NULL. */
int64_t smoltcp_tcp_keep_alive(const struct smoltcp_tcp *s);

/* How long an acknowledgement may wait in microseconds, or -1.
 *
 * Errors: SMOLTCP_ERROR_NULL. */
int64_t smoltcp_tcp_ack_delay(const struct smoltcp_tcp *s);

/* 1 where small segments wait, else 0.
 *
 * Errors: SMOLTCP_ERROR_NULL. */
int64_t smoltcp_tcp_nagle_enabled(const struct smoltcp_tcp *s);

/* The hop limit, or 0 where none is set, for 64.
 *
 * Errors: SMOLTCP_ERROR_NULL. */
int64_t smoltcp_tcp_hop_limit(const struct smoltcp_tcp *s);

/* The kind of congestion control.
 *
 * Errors: SMOLTCP_ERROR_NULL. */
int64_t smoltcp_tcp_congestion_control(const struct smoltcp_tcp *s);

/* The rules.
 *
 * Errors: SMOLTCP_ERROR_NULL. */
int64_t smoltcp_tcp_rules(const struct smoltcp_tcp *s);

/* 1 where timestamps are sent, else 0.
 *
 * Errors: SMOLTCP_ERROR_NULL. */
int64_t smoltcp_tcp_timestamp_enabled(const struct smoltcp_tcp *s);

/* Takes an IP packet. The length of the packet that answers it, in reply, or 0; SMOLTCP_NOT_ACCEPTED where it is no
 * whole TCP segment or is not for this socket. reply has SMOLTCP_REPLY_ROOM bytes or more, else SMOLTCP_ERROR_ROOM.
 *
 * Errors: SMOLTCP_ERROR_CONTEXT, SMOLTCP_ERROR_ROOM, SMOLTCP_NOT_ACCEPTED, SMOLTCP_ERROR_NULL. */
int64_t smoltcp_tcp_process(struct smoltcp_tcp *s, const struct smoltcp_context *cx, const uint8_t *packet, size_t len,
                            uint8_t *reply, size_t cap);

/* In which row of its tables smoltcp_tcp_process finds this packet now, asked for beforehand: one of
 * SMOLTCP_ROW_NOT_ACCEPTED and the names behind it. Nothing changes. SMOLTCP_NOT_ACCEPTED where it is no whole TCP
 * segment.
 *
 * Errors: SMOLTCP_ERROR_CONTEXT, SMOLTCP_NOT_ACCEPTED, SMOLTCP_ERROR_NULL. */
int64_t smoltcp_tcp_explain(const struct smoltcp_tcp *s, const struct smoltcp_context *cx, const uint8_t *packet,
                            size_t len);

/* The length of the packet that is due, in out, or 0 for none. SMOLTCP_ERROR_ROOM where out is too short for it: what
 * the timers ask for is done then, and the next call gives the packet again.
 *
 * Call it a limited number of times a round, 64 say: a peer that acknowledges a FIN with a window of 0 while a probe is
 * due makes FIN-WAIT-2 emit an acknowledgement at every dispatch, and poll_at answers a moment that has passed. Wait at
 * least a millisecond between rounds that only such sockets asked for, and abort one that stays in FIN-WAIT-2 for long,
 * a minute say. A host of smoltcp_host.h does that.
 *
 * Errors: SMOLTCP_ERROR_CONTEXT, SMOLTCP_ERROR_ROOM, SMOLTCP_ERROR_NULL. */
int64_t smoltcp_tcp_dispatch(struct smoltcp_tcp *s, const struct smoltcp_context *cx, uint8_t *out, size_t cap);

/* The moment of the next dispatch in microseconds; INT64_MAX: none before a packet comes; INT64_MIN: an error.
 *
 * Errors: INT64_MIN, where the context's moment or its MTU is out of range, or a pointer is null. */
int64_t smoltcp_tcp_poll_at(const struct smoltcp_tcp *s, const struct smoltcp_context *cx);

/* Answers a TCP segment that no socket takes: the length of an RST, in reply; 0 for an RST, which has no answer;
 * SMOLTCP_NOT_ACCEPTED where the packet is no whole TCP segment. reply has SMOLTCP_REPLY_ROOM bytes or more, else
 * SMOLTCP_ERROR_ROOM.
 *
 * Errors: SMOLTCP_ERROR_ROOM, SMOLTCP_NOT_ACCEPTED, SMOLTCP_ERROR_NULL. */
int64_t smoltcp_tcp_reset(const uint8_t *packet, size_t len, uint8_t *reply, size_t cap);

#ifdef __cplusplus
}
#endif

#endif
