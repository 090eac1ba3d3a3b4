/* The kit has a C library for x86-64 and no headers: these four, over tools/host/libc.h, stand in for the standard ones. */
#include "libc.h"
#define offsetof(type, field) __builtin_offsetof(type, field)
