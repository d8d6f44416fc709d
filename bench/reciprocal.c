/* The hand-written planner with the library's division: one product with a reciprocal that is made once. */
#include <stdint.h>

__extension__ typedef unsigned __int128 wide;

/* A divisor, 2^83 over it to the nearest whole number, and 1 where that is below, else 0. */
struct divisor {
    uint64_t by, inverse, more;
};

static inline struct divisor divisor_of(uint64_t by)
{
    wide most = ((wide)1 << 83) - 1;
    uint64_t inverse = (uint64_t)(most / by), left = (uint64_t)(most % by);

    if (2 * (left + 1) <= by)
        return (struct divisor){by, inverse, 1};
    return (struct divisor){by, inverse + 1, 0};
}

/* Exact for n up to 16 * 10^18 and divisors up to 1,200,000: inverse * by lies at most by / 2 from 2^83, and n times
 * that stays below 2^83. */
static inline uint64_t divide(uint64_t n, struct divisor d)
{
    return (uint64_t)((wide)(n + d.more) * d.inverse >> 83);
}

#define NAME(call) reciprocal_##call
#include "planner.inc"
