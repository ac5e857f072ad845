/* random.h: reproducible random numbers (splitmix64). */
#ifndef RANDOM_H
#define RANDOM_H

#include <stdbool.h>
#include <stdint.h>

struct random {
    uint64_t state;
};

static inline uint64_t random_word(struct random *r)
{
    uint64_t z = r->state += UINT64_C(0x9e3779b97f4a7c15);
    z = (z ^ z >> 30) * UINT64_C(0xbf58476d1ce4e5b9);
    z = (z ^ z >> 27) * UINT64_C(0x94d049bb133111eb);
    return z ^ z >> 31;
}

/* A number from 0 to n - 1. */
static inline int below(struct random *r, int n)
{
    return (int)(random_word(r) % (uint64_t)n);
}

/* A number from low to high. */
static inline int between(struct random *r, int low, int high)
{
    return low + below(r, high - low + 1);
}

/* Yes in one of n. */
static inline bool one_in(struct random *r, int n)
{
    return below(r, n) == 0;
}

#endif
