/* The two hand-written planners: plain_ divides as C does, reciprocal_ as the library does. */
#ifndef PLANNERS_H
#define PLANNERS_H

#include <stddef.h>
#include <stdint.h>

/* The four calls, each with the parameters and the answer that nimovalsa.h gives it. */
#define PLANNER(prefix)                                                                                   \
    uint64_t prefix##check(const uint8_t *sheet, size_t length);                                          \
    uint64_t prefix##cost(const uint8_t *sheet, size_t length, uint64_t option, uint64_t start,           \
                          uint64_t end);                                                                  \
    uint64_t prefix##price(const uint8_t *sheet, size_t sheet_length, const uint8_t *plan,                \
                           size_t plan_length);                                                           \
    uint64_t prefix##plan(const uint8_t *sheet, size_t sheet_length, uint8_t *plan, size_t plan_length,   \
                          uint64_t *words, size_t words_count);

PLANNER(plain_)
PLANNER(reciprocal_)

#endif
