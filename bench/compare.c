/* One call made of the library and of the two C planners. */
#include "compare.h"

#include "planners.h"

#include <inttypes.h>
#include <stdarg.h>
#include <stdio.h>
#include <stdlib.h>
#include <string.h>

#define CALLS(prefix) prefix##check, prefix##cost, prefix##price, prefix##plan

const struct planner planners[PLANNERS] = {
    [LIBRARY] = {"library", CALLS(nimovalsa_)},
    [PLAIN] = {"plain C", CALLS(plain_)},
    [RECIPROCAL] = {"C, recip.", CALLS(reciprocal_)},
};

const char *const kinds[PLAN + 1] = {[CHECK] = "check", [COST] = "cost", [PRICE] = "price", [PLAN] = "plan"};

unsigned long compared, answered[15][4];

static char case_name[100];

struct call checking_of(struct bytes sheet)
{
    return (struct call){.kind = CHECK, .sheet = sheet};
}

struct call costing_of(struct bytes sheet, struct arc arc)
{
    return (struct call){.kind = COST, .sheet = sheet, .arc = arc};
}

struct call pricing_of(struct bytes sheet, struct bytes plan)
{
    return (struct call){.kind = PRICE, .sheet = sheet, .plan = plan};
}

struct call planning_of(struct bytes sheet, size_t plan_length, size_t words_count)
{
    return (struct call){
        .kind = PLAN, .sheet = sheet, .plan_length = plan_length, .words_count = words_count};
}

void name_case(const char *format, ...)
{
    va_list rest;

    va_start(rest, format);
    vsnprintf(case_name, sizeof case_name, format, rest);
    va_end(rest);
}

void stop(const char *format, ...)
{
    va_list rest;

    fprintf(stderr, "bench: %s: ", case_name);
    va_start(rest, format);
    vfprintf(stderr, format, rest);
    va_end(rest);
    fputc('\n', stderr);
    exit(1);
}

/* What one planner answers and leaves. The buffers are as long as the call says, so that a tool that
 * watches the heap sees what is read or written outside. */
struct outcome {
    uint64_t answer;
    uint8_t *plan;
    uint64_t *words;
};

static void *allocated(size_t bytes)
{
    void *block = malloc(bytes);

    if (block == NULL && bytes > 0)
        stop("no memory");
    return block;
}

/* Noise, the same for every planner. */
static void fill_buffers(struct outcome *outcome, const struct call *call)
{
    for (size_t k = 0; k < call->plan_length; k++)
        outcome->plan[k] = (uint8_t)(37 * k + 101);
    for (size_t k = 0; k < call->words_count; k++)
        outcome->words[k] = (k + 1) * UINT64_C(0x9E3779B97F4A7C15);
}

static struct outcome outcome_of(const struct planner *by, const struct call *call)
{
    struct bytes sheet = call->sheet, plan = call->plan;
    struct outcome outcome = {0, NULL, NULL};

    switch (call->kind) {
    case CHECK:
        outcome.answer = by->check(sheet.at, sheet.length);
        break;
    case COST:
        outcome.answer = by->cost(sheet.at, sheet.length, call->arc.option, call->arc.start, call->arc.end);
        break;
    case PRICE:
        outcome.answer = by->price(sheet.at, sheet.length, plan.at, plan.length);
        break;
    case PLAN:
        outcome.plan = allocated(call->plan_length);
        outcome.words = allocated(call->words_count * sizeof *outcome.words);
        fill_buffers(&outcome, call);
        outcome.answer = by->plan(sheet.at, sheet.length, outcome.plan, call->plan_length, outcome.words,
                                  call->words_count);
        break;
    }
    return outcome;
}

/* One value of the library's outcome and of another's. */
static void expect_same(const char *kind, const char *what, size_t place, uint64_t library, uint64_t other,
                        size_t planner)
{
    if (library != other)
        stop("%s, %s %zu: library %" PRIu64 ", %s %" PRIu64, kind, what, place, library,
             planners[planner].name, other);
}

static void expect_same_outcome(const struct call *call, const struct outcome *library,
                                const struct outcome *other, size_t planner)
{
    const char *kind = kinds[call->kind];
    uint64_t a = library->answer, b = other->answer;

    if (a != b)
        stop("%s: library number %u option %u total %" PRIu64 ", %s number %u option %u total %" PRIu64, kind,
             nimovalsa_number(a), nimovalsa_option(a), nimovalsa_total(a), planners[planner].name,
             nimovalsa_number(b), nimovalsa_option(b), nimovalsa_total(b));
    for (size_t k = 0; k < call->plan_length; k++)
        expect_same(kind, "plan byte", k, library->plan[k], other->plan[k], planner);
    for (size_t k = 0; k < call->words_count; k++)
        expect_same(kind, "word", k, library->words[k], other->words[k], planner);
}

uint64_t compare(const struct call *call, uint8_t *written)
{
    struct outcome outcomes[PLANNERS];
    uint64_t answer;

    for (size_t p = 0; p < PLANNERS; p++)
        outcomes[p] = outcome_of(&planners[p], call);
    for (size_t p = 1; p < PLANNERS; p++)
        expect_same_outcome(call, &outcomes[LIBRARY], &outcomes[p], p);
    answer = outcomes[LIBRARY].answer;
    if (nimovalsa_number(answer) >= COUNT(answered))
        stop("%s: number %u", kinds[call->kind], nimovalsa_number(answer));
    if (written != NULL && call->kind == PLAN)
        memcpy(written, outcomes[LIBRARY].plan, call->plan_length);
    for (size_t p = 0; p < PLANNERS; p++) {
        free(outcomes[p].plan);
        free(outcomes[p].words);
    }
    compared++;
    answered[nimovalsa_number(answer)][nimovalsa_option(answer)]++;
    return answer;
}
