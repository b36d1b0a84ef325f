/* The calls of smoltcp_socket.h as symbols of the library: their bodies are those that a program may inline. */
#define SMOLTCP_NO_INLINE
#define SMOLTCP_LIBRARY
#undef SMOLTCP_CHECK
#include "smoltcp_socket.h"
#include "smoltcp_nonnull.h"

#ifndef SMOLTCP_BUILD
#define SMOLTCP_BUILD "commit unknown kit unknown"
#endif

const char *smoltcp_version(void) { return SMOLTCP_VERSION; }

const char *smoltcp_build(void) { return SMOLTCP_BUILD; }

#define SMOLTCP_INLINE
#include "smoltcp_calls.h"
#include "smoltcp_inline.h"
