/* How long a call takes. */
#include "timing.h"

#include <stdlib.h>
#include <time.h>

enum { ROUND_NANOSECONDS = 1000000 };

/* The processor time of this program: what others do on the machine meanwhile is not counted. */
static double now(void)
{
    struct timespec time;

    clock_gettime(CLOCK_PROCESS_CPUTIME_ID, &time);
    return 1e9 * (double)time.tv_sec + (double)time.tv_nsec;
}

/* Nanoseconds of so many calls. Each goes through a pointer to a function of another file, and its answer to
 * a volatile place: none is left out. */
static double time_calls(const struct planner *by, const struct call *call, unsigned long count)
{
    static uint8_t plan[LONGEST_PLAN];
    static uint64_t words[NIMOVALSA_PLAN_WORDS];
    static volatile uint64_t answer;
    struct bytes sheet = call->sheet;
    double begin = now();

    switch (call->kind) {
    case CHECK:
        for (unsigned long k = 0; k < count; k++)
            answer = by->check(sheet.at, sheet.length);
        break;
    case COST:
        for (unsigned long k = 0; k < count; k++)
            answer = by->cost(sheet.at, sheet.length, call->arc.option, call->arc.start, call->arc.end);
        break;
    case PRICE:
        for (unsigned long k = 0; k < count; k++)
            answer = by->price(sheet.at, sheet.length, call->plan.at, call->plan.length);
        break;
    case PLAN:
        for (unsigned long k = 0; k < count; k++)
            answer = by->plan(sheet.at, sheet.length, plan, call->plan_length, words, call->words_count);
        break;
    }
    (void)answer;
    return now() - begin;
}

/* So many that no planner's round is shorter than ROUND_NANOSECONDS. */
static unsigned long calls_in_round(const struct call *call)
{
    unsigned long count = 1;

    for (size_t p = 0; p < PLANNERS; p++)
        while (time_calls(&planners[p], call, count) < ROUND_NANOSECONDS)
            count *= 2;
    return count;
}

static int by_size(const void *left, const void *right)
{
    double a = *(const double *)left, b = *(const double *)right;

    return (a > b) - (a < b);
}

struct times times_of(const struct call *call)
{
    static double rounds[PLANNERS][ROUNDS];
    struct times medians;
    unsigned long count;

    if (nimovalsa_number(compare(call, NULL)) != 0)
        stop("the call is refused");
    count = calls_in_round(call);
    for (size_t round = 0; round < ROUNDS; round++)
        for (size_t turn = 0; turn < PLANNERS; turn++) {
            size_t p = (round + turn) % PLANNERS;

            rounds[p][round] = time_calls(&planners[p], call, count) / (double)count;
        }
    for (size_t p = 0; p < PLANNERS; p++) {
        qsort(rounds[p], ROUNDS, sizeof rounds[p][0], by_size);
        medians.of[p] = rounds[p][ROUNDS / 2];
    }
    return medians;
}
