/* Structs, numbers and words of the sockets. Part of smoltcp_socket.h, which says what holds of every call. */
#ifndef SMOLTCP_TYPES_H
#define SMOLTCP_TYPES_H

#include <stddef.h>
#include <stdint.h>

#ifdef __cplusplus
extern "C" {
#endif

/* The version of these headers; smoltcp_version tells the library's. */
#define SMOLTCP_VERSION_MAJOR 0
#define SMOLTCP_VERSION_MINOR 1
#define SMOLTCP_VERSION_PATCH 0
#define SMOLTCP_VERSION "0.1.0"

/* What calls answer; smoltcp_strerror has their texts. No call returns -10. */
enum {
    SMOLTCP_OK = 0,
    SMOLTCP_ERROR_STATE = -1,    /* the state of the socket does not allow the call */
    SMOLTCP_ERROR_ADDRESS = -2,  /* a port or an address is missing or of another version, also the interface's */
    SMOLTCP_ERROR_FINISHED = -3, /* the peer has closed, and all that it sent was read */
    SMOLTCP_ERROR_VERSION = -4,  /* the program was compiled with a header of another size of socket or host */
    SMOLTCP_ERROR_CONTEXT = -5,  /* the context's moment or its MTU is out of range */
    SMOLTCP_ERROR_ROOM = -6,     /* a buffer or a queue has too little room for a packet */
    SMOLTCP_ERROR_NULL = -7,     /* a pointer is null */
    SMOLTCP_NOT_ACCEPTED = -8,   /* the packet is not for this socket */
    SMOLTCP_ERROR_RANGE = -9,    /* a number is out of its range */
    SMOLTCP_ERROR_EMPTY = -11,   /* no packet waits */
    SMOLTCP_ERROR_MEMORY = -12,  /* the heap has too little memory */
    SMOLTCP_ERROR_SOCKET = -13,  /* the host has no socket of this name and kind */
    SMOLTCP_ERROR_IN_USE = -14   /* another socket of the host has the connection or the port, or no port is free */
};

/* States, as in RFC 9293. */
enum {
    SMOLTCP_CLOSED, SMOLTCP_LISTEN, SMOLTCP_SYN_SENT, SMOLTCP_SYN_RECEIVED, SMOLTCP_ESTABLISHED, SMOLTCP_FIN_WAIT_1,
    SMOLTCP_FIN_WAIT_2, SMOLTCP_CLOSE_WAIT, SMOLTCP_CLOSING, SMOLTCP_LAST_ACK, SMOLTCP_TIME_WAIT
};

/* Why a TCP connection ended, as smoltcp_tcp_ended tells: not yet, or never begun; both sides closed, and the own FIN
 * was acknowledged; the peer answered the SYN by an RST; the peer sent an RST; the user timeout was over; abort, or
 * close before there was a peer; the interface has the own address no longer. */
enum {
    SMOLTCP_END_NONE, SMOLTCP_END_FINISHED, SMOLTCP_END_REFUSED, SMOLTCP_END_RESET, SMOLTCP_END_TIMED_OUT,
    SMOLTCP_END_ABORTED, SMOLTCP_END_ADDRESS
};

/* What smoltcp_tcp_explain answers: in which row of the tables of smoltcp_tcp_process a segment falls (RFC 9293,
 * section 3.10.7). smoltcp_row_name has the rows in words; `Row` of the crate sock_tcp says what becomes of each. */
enum {
    SMOLTCP_ROW_NOT_ACCEPTED, SMOLTCP_ROW_NO_SYN, SMOLTCP_ROW_RESET_UNACCEPTABLE, SMOLTCP_ROW_RESET_IN_TIME_WAIT,
    SMOLTCP_ROW_RESET_OUTSIDE, SMOLTCP_ROW_NO_ACK, SMOLTCP_ROW_OLD_ACK, SMOLTCP_ROW_ACK_UNACCEPTABLE,
    SMOLTCP_ROW_ACK_UNSENT, SMOLTCP_ROW_RESET_CHALLENGED, SMOLTCP_ROW_SYN_CHALLENGED, SMOLTCP_ROW_OLD_TIMESTAMP,
    SMOLTCP_ROW_OLD_DUPLICATE, SMOLTCP_ROW_BEYOND_WINDOW, SMOLTCP_ROW_HEARD_OUTSIDE, SMOLTCP_ROW_OPENS,
    SMOLTCP_ROW_RESET, SMOLTCP_ROW_IGNORED, SMOLTCP_ROW_FIN, SMOLTCP_ROW_IN_ORDER, SMOLTCP_ROW_BEHIND_GAP,
    SMOLTCP_ROW_NOTHING_NEW, SMOLTCP_ROW_BARE_ACK
};

/* Kinds of congestion control: none, Reno (RFC 5681), or CUBIC (RFC 9438). */
enum { SMOLTCP_CONGESTION_NONE = 0, SMOLTCP_CONGESTION_RENO = 1, SMOLTCP_CONGESTION_CUBIC = 2 };

/* Rules of a TCP socket: smoltcp's, or the RFCs' where they differ (docs/RULES.md). By these the FIN of a peer is taken
 * that sends old bytes with it, a peer is heard that counts the byte of its probe, losses of one window cost a round
 * trip and not a second, by SACK where the peer tells, and RSTs and SYNs that a stranger may have sent are challenged.
 */
enum { SMOLTCP_RULES_SMOLTCP = 0, SMOLTCP_RULES_RFC = 1 };

/* An address: none where version is 0, v4 where it is 4, v6 where it is 6. In network order. */
struct smoltcp_address { uint8_t version; uint8_t v4[4]; uint8_t v6[16]; };

struct smoltcp_endpoint { struct smoltcp_address addr; uint16_t port; };

/* What the two SYNs of a connection agreed on: the longest payload of a segment that the peer takes, in bytes, options
 * included (RFC 9293, section 3.7.1); whether window fields are shifted, and by how many bits the peer's and the own
 * are (RFC 7323, section 2); whether segments carry timestamps (its section 3); whether the peer permits SACK (RFC
 * 2018). Beside that the peer's window, in bytes. Flags are 1 or 0. */
struct smoltcp_negotiated {
    size_t remote_mss, remote_window;
    uint8_t win_scale, remote_win_scale, local_win_scale, timestamps, sack;
};

/* Room for a reply of smoltcp_tcp_process or smoltcp_tcp_reset, in bytes: none is longer. */
enum { SMOLTCP_REPLY_ROOM = 100 };

/* What a call is told of the interface.
 *
 * The word is the initial sequence number of a connection that the call opens: by connect, or by process of a SYN that
 * a listening socket takes. A word is never used twice: draw one before each connect and before each packet that a
 * listening socket is offered, from a source that nobody off the path can guess, as RFC 6528 asks (getrandom, or a
 * keyed hash of addresses and ports beside a clock of 4 microseconds). Two connections of one word begin with one
 * number, and who sees the one can put segments into the other.
 *
 * An address of zeros was never set, and is none: nothing is sent from it. smoltcp_tcp_connect to that version of IP
 * answers SMOLTCP_ERROR_ADDRESS, and so does the dispatch of a UDP datagram that has no source of its own and of an
 * ICMP message; a TCP connection from it is reset, as where an address is gone. */
struct smoltcp_context {
    int64_t now;     /* the moment in microseconds, within 2^61 of zero */
    uint32_t word;   /* a random word, never used twice */
    uint32_t tsval;  /* the clock of timestamps (RFC 7323, section 5.4), for a socket that sends them: one that ticks
                      * once in 1 to 1,000 milliseconds, milliseconds say, from any number on, and wraps */
    uint32_t ip_mtu; /* the largest IP packet, from 68 to 65535 bytes; over IPv6 less than 576 counts as that, and its
                      * links have 1280 (RFC 8200, section 5) */
    uint8_t v4[4];   /* the interface's addresses; zeros where it has none of the version */
    uint8_t v6[16];
};

/* Memory for a TCP socket, for these calls alone. It may lie in an array, in another struct or on the stack; from
 * smoltcp_tcp_init on it stays where it is. */
enum { SMOLTCP_TCP_SIZE = 584 };
struct smoltcp_tcp { uint64_t opaque[SMOLTCP_TCP_SIZE / 8]; };

/* The size of each kind of socket, and of a place of its queues, in bytes. */
struct smoltcp_sizes { size_t tcp, udp, udp_place, raw, raw_place, icmp, icmp_place; };

/* What smoltcp_tcp_ask, smoltcp_udp_ask and so on are asked; for each there is a call of its name too. What a kind of
 * socket is not asked is answered by SMOLTCP_ERROR_RANGE: of TCP also 0 and 1, which have calls of their own. */
enum {
    SMOLTCP_ASK_CAN_SEND = 0, SMOLTCP_ASK_CAN_RECV = 1, SMOLTCP_ASK_SEND_QUEUE = 2, SMOLTCP_ASK_RECV_QUEUE = 3,
    SMOLTCP_ASK_IS_OPEN = 4, SMOLTCP_ASK_HOP_LIMIT = 5,
    SMOLTCP_ASK_PACKET_SEND_CAPACITY = 6, SMOLTCP_ASK_PACKET_RECV_CAPACITY = 7,
    SMOLTCP_ASK_PAYLOAD_SEND_CAPACITY = 8, SMOLTCP_ASK_PAYLOAD_RECV_CAPACITY = 9,
    SMOLTCP_ASK_IP_VERSION = 10, SMOLTCP_ASK_IP_PROTOCOL = 11,
    SMOLTCP_ASK_IS_LISTENING = 12, SMOLTCP_ASK_IS_ACTIVE = 13, SMOLTCP_ASK_HAS_WORK = 14, SMOLTCP_ASK_MAY_RECV = 15,
    SMOLTCP_ASK_SEND_CAPACITY = 16, SMOLTCP_ASK_RECV_CAPACITY = 17,
    SMOLTCP_ASK_TIMEOUT = 18, SMOLTCP_ASK_KEEP_ALIVE = 19, SMOLTCP_ASK_ACK_DELAY = 20,
    SMOLTCP_ASK_NAGLE_ENABLED = 21, SMOLTCP_ASK_CONGESTION_CONTROL = 22, SMOLTCP_ASK_TIMESTAMP_ENABLED = 23,
    SMOLTCP_ASK_RULES = 24, SMOLTCP_ASK_MIN_RTO = 25
};

/* The longest buffer, in bytes. */
#define SMOLTCP_LONGEST_BUFFER ((size_t)1 << 30)

/* Memory for a UDP socket, and for a place of its queues, as that for a TCP socket. */
enum { SMOLTCP_UDP_SIZE = 160, SMOLTCP_UDP_PLACE_SIZE = 48 };
struct smoltcp_udp { uint64_t opaque[SMOLTCP_UDP_SIZE / 8]; };
struct smoltcp_udp_place { uint64_t opaque[SMOLTCP_UDP_PLACE_SIZE / 8]; };

/* What a queue of a UDP socket lies in: a place for each datagram, and bytes for the payloads, at most 2^30 of both. */
struct smoltcp_udp_buffer { struct smoltcp_udp_place *places; size_t count; uint8_t *bytes; size_t len; };

/* Memory for a raw socket, and for a place of its queues of whole IP packets; and what such a queue lies in. */
enum { SMOLTCP_RAW_SIZE = 136, SMOLTCP_RAW_PLACE_SIZE = 16 };
struct smoltcp_raw { uint64_t opaque[SMOLTCP_RAW_SIZE / 8]; };
struct smoltcp_raw_place { uint64_t opaque[SMOLTCP_RAW_PLACE_SIZE / 8]; };
struct smoltcp_raw_buffer { struct smoltcp_raw_place *places; size_t count; uint8_t *bytes; size_t len; };

/* Which packets a raw socket takes: of IP version 4 or 6 (0: both), and of the protocol with this number, or of any
 * where any_protocol is not 0. */
struct smoltcp_raw_filter { uint8_t version, any_protocol, protocol; };
enum { SMOLTCP_RAW_ANY = 256 };

/* Where a datagram came from or goes to, and the own address: that to which it came, or from which it is sent (none:
 * the bound one, or else the interface's). */
struct smoltcp_udp_metadata { struct smoltcp_endpoint endpoint; struct smoltcp_address local_address; };

/* Which ICMP messages a socket takes: echoes with the identifier, or errors about what was sent by TCP or by UDP from
 * the endpoint, whose address may be none. */
enum { SMOLTCP_ICMP_NONE = 0, SMOLTCP_ICMP_IDENT = 1, SMOLTCP_ICMP_TCP = 2, SMOLTCP_ICMP_UDP = 3 };
struct smoltcp_icmp_endpoint { uint8_t kind; uint16_t ident; struct smoltcp_endpoint endpoint; };

/* Memory for an ICMP socket (RFC 792, RFC 4443), and what its queues lie in, as of UDP. */
enum { SMOLTCP_ICMP_SIZE = 160, SMOLTCP_ICMP_PLACE_SIZE = 32 };
struct smoltcp_icmp { uint64_t opaque[SMOLTCP_ICMP_SIZE / 8]; };
struct smoltcp_icmp_place { uint64_t opaque[SMOLTCP_ICMP_PLACE_SIZE / 8]; };
struct smoltcp_icmp_buffer { struct smoltcp_icmp_place *places; size_t count; uint8_t *bytes; size_t len; };

/* The library's version, as SMOLTCP_VERSION writes it. */
const char *smoltcp_version(void);

/* Where the library comes from: the commit and the prover's kit, as "commit 1a80906 kit rattle-kit-13f logic ..", each
 * "unknown" where the build could not tell. */
const char *smoltcp_build(void);

/* The address a.b.c.d. */
struct smoltcp_address smoltcp_ipv4(uint8_t a, uint8_t b, uint8_t c, uint8_t d);

/* The address of these sixteen octets. */
struct smoltcp_address smoltcp_ipv6(const uint8_t octets[16]);

/* What the answer of a call means, in a few words: "done" of 0 and above. */
const char *smoltcp_strerror(int64_t answer);

/* The name of a state, as smoltcp_tcp_state answers it, in the words of RFC 9293; "UNKNOWN" of another number. */
const char *smoltcp_state_name(int64_t state);

/* Why a connection ended, as smoltcp_tcp_ended answers it, in a few words; "unknown" of another number. */
const char *smoltcp_end_name(int64_t end);

/* The name of a row, as smoltcp_tcp_explain answers it, in a few words; "unknown" of another number. */
const char *smoltcp_row_name(int64_t row);

/* The sizes that the library has. */
struct smoltcp_sizes smoltcp_library_sizes(void);
size_t smoltcp_tcp_size(void);
size_t smoltcp_udp_size(void);
size_t smoltcp_udp_place_size(void);
size_t smoltcp_raw_size(void);
size_t smoltcp_raw_place_size(void);
size_t smoltcp_icmp_size(void);
size_t smoltcp_icmp_place_size(void);

#ifdef __cplusplus
}
#endif

#endif
