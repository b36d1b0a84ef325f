/* A library of TCP and UDP sockets, as the bench drives it: sockets with packets as bytes. A call answers as the call
 * of smoltcp_socket.h that has its name. */
#ifndef SIDE_H
#define SIDE_H

#include <stddef.h>
#include <stdint.h>

enum { UDP_PLACES = 16, UDP_BYTES = 65536 };

struct side {
    const char *name;
    /* a closed socket of the host 10.0.0.HOST over new buffers of so many bytes, that acknowledges at once
     * and has no congestion control */
    void *(*make)(int host, size_t buffer);
    int64_t (*listen)(void *s, int port);
    int64_t (*connect)(void *s, int64_t now, int remote_host, int remote_port, int local_port);
    int64_t (*process)(void *s, int64_t now, const uint8_t *packet, size_t len, uint8_t *reply, size_t cap);
    int64_t (*dispatch)(void *s, int64_t now, uint8_t *out, size_t cap);
    int64_t (*poll_at)(void *s, int64_t now);
    int64_t (*send)(void *s, const uint8_t *data, size_t len);
    int64_t (*recv)(void *s, uint8_t *data, size_t len);
    /* a UDP socket of the host 10.0.0.HOST that is bound to a port of any address */
    void *(*udp_make)(int host, int port);
    int64_t (*udp_send)(void *s, int remote_host, int remote_port, const uint8_t *data, size_t len);
    int64_t (*udp_recv)(void *s, uint8_t *data, size_t cap);
    int64_t (*udp_process)(void *s, int64_t now, const uint8_t *packet, size_t len);
    int64_t (*udp_dispatch)(void *s, int64_t now, uint8_t *out, size_t cap);
};

/* Another library, where one is linked. */
#ifdef OTHER
extern const struct side other_side;
#endif

#endif
