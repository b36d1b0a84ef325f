/* The heap of smoltcp_heap.h over the C library's, whose malloc and realloc align to 16 bytes on x86-64 and AArch64, as
 * far as the size does: more is never asked for. */
#include "smoltcp_heap.h"

/* As stdlib.h declares them, which is not there where this is compiled for another machine. */
void *malloc(size_t n);
void *realloc(void *p, size_t n);
void free(void *p);

static uint8_t nowhere;

static struct smoltcp_memory tried(void *p) {
    struct smoltcp_memory memory = {p != NULL, p ? (uint8_t *)p : &nowhere};
    return memory;
}

struct smoltcp_memory rattle_alloc(size_t n, size_t align) {
    (void)align;
    return tried(malloc(n ? n : 1));
}

struct smoltcp_memory rattle_realloc(uint8_t *p, size_t kept, size_t n, size_t align) {
    (void)kept;
    (void)align;
    return tried(realloc(p, n ? n : 1));
}

void rattle_dealloc(uint8_t *p) {
    free(p);
}
