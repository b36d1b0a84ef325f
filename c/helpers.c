/* What smoltcp_helpers.h reads and writes, beside the C library's inet_pton and inet_ntop: the forms of RFC 4291 and
 * RFC 5952, texts that are no address, and texts drawn by a seed. Ends with "ok". */
#define _DEFAULT_SOURCE
#include <arpa/inet.h>
#include <stdio.h>
#include <string.h>

#include "smoltcp_helpers.h"

static int failed;

static void fault(const char *what, const char *text) {
    fprintf(stderr, "%s: %s\n", what, text);
    failed = 1;
}

/* Both read the same, or both refuse. */
static void reads(const char *text) {
    uint8_t octets[16];
    struct smoltcp_address a;
    int64_t answer = smoltcp_address_from(text, &a);
    int v4 = inet_pton(AF_INET, text, octets) == 1;
    if (v4 != (a.version == 4) || (v4 && memcmp(octets, a.v4, 4) != 0)) fault("IPv4", text);
    if (!v4) {
        int v6 = inet_pton(AF_INET6, text, octets) == 1;
        if (v6 != (a.version == 6) || (v6 && memcmp(octets, a.v6, 16) != 0)) fault("IPv6", text);
    }
    if (answer != (a.version == 0 ? SMOLTCP_ERROR_ADDRESS : SMOLTCP_OK)) fault("answer", text);
}

/* What is written is read again; of IPv6, but for those that embed IPv4, it is what inet_ntop writes. */
static void writes(const struct smoltcp_address *a) {
    char text[SMOLTCP_TEXT_ROOM], wanted[64];
    struct smoltcp_address again;
    smoltcp_address_text(a, text);
    if (smoltcp_address_from(text, &again) != SMOLTCP_OK || !smoltcp_same_address(a, &again)) fault("again", text);
    inet_ntop(a->version == 4 ? AF_INET : AF_INET6, a->version == 4 ? a->v4 : a->v6, wanted, sizeof wanted);
    if ((a->version == 4 || strchr(wanted, '.') == 0) && strcmp(text, wanted) != 0) fault(wanted, text);
}

static uint32_t drawn(uint32_t *seed) {
    *seed = *seed * 1664525u + 1013904223u;
    return *seed >> 8;
}

int main(void) {
    static const char *const texts[] = {
        "10.9.0.2", "255.255.255.255", "256.1.1.1", "1.2.3", "1.2.3.4.5", "1.2.3.04", "01.2.3.4", "0.0.0.0", "1..2.3",
        "", " 1.2.3.4", "1.2.3.4 ", "::", "::1", "1::", "fd00::a09:2", "1:2:3:4:5:6:7:8", "1:2:3:4:5:6:7::",
        "::2:3:4:5:6:7:8", "1:2:3:4:5:6:7", "1:2:3:4:5:6:7:8:9", "1::2::3", ":::", ":1", "1:", "12345::", "g::",
        "::ffff:10.9.0.2", "1:2:3:4:5:6:10.9.0.2", "1:2:3:4:5:6:7:10.9.0.2", "::10.9.0", "::10.9.0.256",
        "2001:DB8::A", "fe80::1%eth0", "1:::2"};
    static const char some[] = "0123456789abcf:::..g";
    struct smoltcp_address a;
    char text[24];
    uint32_t seed = 1;
    size_t i, n, k;
    for (i = 0; i < sizeof texts / sizeof *texts; i++) reads(texts[i]);
    for (n = 0; n < 300000; n++) {
        size_t len = drawn(&seed) % sizeof text;
        for (k = 0; k < len; k++) text[k] = some[drawn(&seed) % (sizeof some - 1)];
        text[len] = 0;
        reads(text);
        memset(&a, 0, sizeof a);
        a.version = n % 2 ? 4 : 6;
        for (k = 0; k < 16; k++) {
            uint8_t octet = drawn(&seed) % 3 ? 0 : (uint8_t)drawn(&seed);
            if (a.version == 6) a.v6[k] = octet; else if (k < 4) a.v4[k] = octet;
        }
        writes(&a);
    }
    if (smoltcp_any(7).port != 7 || smoltcp_any(7).addr.version != 0) fault("any", "7");
    if (!failed) puts("ok");
    return failed;
}
