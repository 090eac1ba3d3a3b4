#include "libc.h"
typedef int int32_t;
