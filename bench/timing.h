/* How long a call takes, of the library and of the two C planners. */
#ifndef TIMING_H
#define TIMING_H

#include "compare.h"

enum { ROUNDS = 51 };

/* Nanoseconds of one call of each planner. */
struct times {
    double of[PLANNERS];
};

/* The medians of ROUNDS rounds in which the planners take turns; each round is begun by the next of them. The
 * call is compared before, and must be accepted. */
struct times times_of(const struct call *call);

#endif
