/* The calls of smoltcp_host.h as symbols of the library: their bodies are those that a program may inline. */
#define SMOLTCP_NO_INLINE
#define SMOLTCP_LIBRARY
#undef SMOLTCP_CHECK
#include "smoltcp_host.h"
#include "smoltcp_host_nonnull.h"

#define SMOLTCP_INLINE
#include "smoltcp_host_calls.h"
#include "smoltcp_host_inline.h"
