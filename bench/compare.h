/* One call made of the library and of the two C planners, whose answers and writings must be the same. */
#ifndef COMPARE_H
#define COMPARE_H

#include "sheets.h"

enum { LIBRARY, PLAIN, RECIPROCAL, PLANNERS };

struct planner {
    const char *name;
    uint64_t (*check)(const uint8_t *sheet, size_t length);
    uint64_t (*cost)(const uint8_t *sheet, size_t length, uint64_t option, uint64_t start, uint64_t end);
    uint64_t (*price)(const uint8_t *sheet, size_t sheet_length, const uint8_t *plan, size_t plan_length);
    uint64_t (*plan)(const uint8_t *sheet, size_t sheet_length, uint8_t *plan, size_t plan_length,
                     uint64_t *words, size_t words_count);
};

extern const struct planner planners[PLANNERS];

enum kind { CHECK, COST, PRICE, PLAN };

/* The name of each kind. */
extern const char *const kinds[PLAN + 1];

struct arc {
    uint64_t option, start, end;
};

/* A call, and what it reads and is lent. */
struct call {
    enum kind kind;
    struct bytes sheet;
    struct arc arc;                  /* of COST */
    struct bytes plan;               /* of PRICE */
    size_t plan_length, words_count; /* of PLAN */
};

struct call checking_of(struct bytes sheet);
struct call costing_of(struct bytes sheet, struct arc arc);
struct call pricing_of(struct bytes sheet, struct bytes plan);
struct call planning_of(struct bytes sheet, size_t plan_length, size_t words_count);

/* How many calls were compared so far, and how many of them answered a number and an option. */
extern unsigned long compared, answered[15][4];

/* Names what is compared now; the name is printed with a difference. */
void name_case(const char *format, ...) __attribute__((format(printf, 1, 2)));

/* Says on standard error what is wrong with the case, and ends the program with status 1. */
_Noreturn void stop(const char *format, ...) __attribute__((format(printf, 1, 2)));

/* Makes the call of all three, and stops at a difference: in the answer, in a byte of the plan or in a word,
 * those that are left included. The answer; a plan that is written also goes to `written`, unless NULL. */
uint64_t compare(const struct call *call, uint8_t *written);

#endif
