/* Numbers from a seed. */
#include "guarded.h"

static uint64_t state = 1;

/* Starts over from a seed. */
void seed_numbers(uint64_t seed) {
    state = seed * 2654435761u + 0x9E3779B97F4A7C15u;
}

/* The next number. */
uint64_t any_number(void) {
    state ^= state >> 12;
    state ^= state << 25;
    state ^= state >> 27;
    return state * 0x2545F4914F6CDD1Du;
}

/* A number below n, which is not 0. */
size_t below(size_t n) {
    return (size_t)((any_number() >> 20) % n);
}

/* True once in n times. */
bool one_in(size_t n) {
    return below(n) == 0;
}
