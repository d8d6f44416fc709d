/* The hand-written planner with C's own division. */
#include <stdint.h>

struct divisor {
    uint64_t by;
};

static inline struct divisor divisor_of(uint64_t by)
{
    return (struct divisor){by};
}

static inline uint64_t divide(uint64_t n, struct divisor d)
{
    return n / d.by;
}

#define NAME(call) plain_##call
#include "planner.inc"
