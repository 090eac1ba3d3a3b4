/* splitmix64 (Steele, Lea and Flood 2014): 64 bits from a state that moves on, for programs that draw calls. */
#include <stdint.h>

static uint64_t splitmix64(uint64_t *state) {
    uint64_t x = *state += 0x9E3779B97F4A7C15u;
    x = (x ^ x >> 30) * 0xBF58476D1CE4E5B9u;
    x = (x ^ x >> 27) * 0x94D049BB133111EBu;
    return x ^ x >> 31;
}
