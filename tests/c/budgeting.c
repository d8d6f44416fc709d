/*
 * nimovalsa_budget by its refusals and buffers: in what order the refusals
 * come, lists of every length, where the buffers lie, and what is only read. On
 * sheets of both versions.
 */
#include "boundary.h"

#include <inttypes.h>
#include <string.h>

static uint8_t sheet[LONGER_SHEET];
static uint8_t plan[LONGEST_LENT_PLAN];

static const struct bytes no_bytes = {NULL, 0};

/* Of the cases without removals every other one is of version 2. */
static const struct removal *removals_of(const struct budget_case *of)
{
    return of->removals != NULL ? of->removals
                                : unpaid[(of - budget_cases) % VERSIONS];
}

/* The case in lists that are just long enough. */
static struct asked ask(const struct budget_case *of)
{
    struct input input = put_budget_case(of, removals_of(of), sheet, plan);

    return (struct asked){input, of->general, units_needed(of->ledger.horizon),
                          cents_needed(of->ledger.horizon)};
}

/* ---- on every sheet of the check ---- */

/* Feasible on the middle sheet. */
static const struct chain middle_chain = {2, 10, 2, {20, 30}};

/* Feasible on no sheet, as i is above j. */
static const struct chain faulty_chain = {2, 1, 2, {20, 30}};

void expect_budgeting(struct bytes on, uint64_t answer)
{
    static uint8_t right[64], wrong[64];
    struct bytes right_plan = put_plan(right, &middle_chain);
    struct bytes wrong_plan = put_plan(wrong, &faulty_chain);
    uint64_t refused = answer == ACCEPTED ? REFUSED_PLAN : answer;
    struct asked lent = {{on, wrong_plan}, 50000, 301, 16};
    struct asked not_lent = {{on, wrong_plan}, UINT64_MAX, 0, 0};

    expect_budget(lent, refused, NULL);
    expect_budget(not_lent, refused, NULL);
    if (answer != ACCEPTED) {
        lent.input.plan = not_lent.input.plan = right_plan;
        expect_budget(lent, answer, NULL);
        expect_budget(not_lent, answer, NULL);
    }
}

/* ---- the order of the refusals ---- */

/* Each fault as a bit, in the order in which they are looked for; the last two
 * are one. */
enum {
    FAULTY_SHEET = 1,
    FAULTY_PLAN = 2,
    HIGH_GENERAL = 4,
    FEW_UNITS = 8,
    FEW_CENTS = 16,
    ALL_FAULTS = 31
};

static uint64_t first_refusal(unsigned faults)
{
    if (faults & FAULTY_SHEET)
        return 5 * 4 + 1;
    if (faults & FAULTY_PLAN)
        return REFUSED_PLAN;
    return faults & HIGH_GENERAL ? REFUSED_GENERAL : REFUSED_LISTS;
}

static struct asked ask_with(const struct budget_case *of, unsigned faults)
{
    struct asked asked = ask(of);

    if (faults & FAULTY_SHEET)
        put_lives(record_in(sheet, asked.input.sheet.length, 1), 1, 121);
    if (faults & FAULTY_PLAN)
        asked.input.plan.length--;
    if (faults & HIGH_GENERAL)
        asked.general = 50001;
    if (faults & FEW_UNITS)
        asked.units_count--;
    if (faults & FEW_CENTS)
        asked.cents_count--;
    return asked;
}

static void test_order(void)
{
    for (size_t n = 0; n < budget_case_count; n++)
        for (unsigned faults = 1; faults <= ALL_FAULTS; faults++) {
            struct asked asked = ask_with(&budget_cases[n], faults);

            name_case("budget of %s, faults %u", budget_cases[n].name, faults);
            expect_budget(asked, first_refusal(faults), NULL);
        }
}

/* In some the low bits are those of a rate that is accepted. */
static void test_high_generals(const struct budget_case *of)
{
    static const uint64_t generals[] = {
        50001,
        UINT64_C(1) << 16,
        UINT64_C(1) << 31,
        UINT64_C(1) << 32,
        (UINT64_C(1) << 32) + 50000,
        (UINT64_C(1) << 48) + 1000,
        UINT64_C(1) << 63,
        (UINT64_C(1) << 63) + 1,
        UINT64_MAX - 999999,
        UINT64_MAX,
    };
    struct asked asked = ask(of);

    for (size_t n = 0; n < COUNT(generals); n++) {
        name_case("general %" PRIu64, generals[n]);
        asked.general = generals[n];
        expect_budget(asked, REFUSED_GENERAL, NULL);
    }
}

/* ---- every length of the lists ---- */

static void test_lists(const struct budget_case *of, size_t units_count,
                       size_t cents_count)
{
    struct asked asked = ask(of);
    int enough =
        units_count >= asked.units_count && cents_count >= asked.cents_count;

    name_case("budget of %s, %zu units, %zu cents", of->name, units_count,
              cents_count);
    asked.units_count = units_count;
    asked.cents_count = cents_count;
    expect_budget(asked, enough ? answer_of(&of->ledger) : REFUSED_LISTS,
                  enough ? &of->ledger : NULL);
}

/* Every case with lists around the limits. */
static void test_lists_of_cases(void)
{
    for (size_t n = 0; n < budget_case_count; n++) {
        const struct budget_case *of = &budget_cases[n];
        size_t units = units_needed(of->ledger.horizon);
        size_t cents = cents_needed(of->ledger.horizon);
        const size_t units_counts[] = {0,         units - 1, units,
                                       units + 1, 301,       MOST_LENT_WORDS};
        const size_t cents_counts[] = {
            0, 1, cents - 1, cents, cents + 1, 16, 17, 301, MOST_LENT_WORDS};

        for (size_t k = 0; k < COUNT(units_counts); k++)
            for (size_t l = 0; l < COUNT(cents_counts); l++)
                test_lists(of, units_counts[k], cents_counts[l]);
    }
}

/* Every pair of lengths up to three beyond those that are needed. */
static void test_every_length(const struct budget_case *of)
{
    size_t units = units_needed(of->ledger.horizon);
    size_t cents = cents_needed(of->ledger.horizon);

    for (size_t k = 0; k <= units + 3; k++)
        for (size_t l = 0; l <= cents + 3; l++)
            test_lists(of, k, l);
}

/* ---- the memory ---- */

static void test_null(const struct budget_case *of)
{
    struct asked asked = ask(of);

    name_case("NULL with length 0 for both lists");
    asked.units_count = asked.cents_count = 0;
    expect_budget_with_null(asked, REFUSED_LISTS, NULL);
    name_case("NULL with length 0 for the units");
    asked = ask(of);
    asked.units_count = 0;
    expect_budget_with_null(asked, REFUSED_LISTS, NULL);
    name_case("NULL with length 0 for the cents");
    asked = ask(of);
    asked.cents_count = 0;
    expect_budget_with_null(asked, REFUSED_LISTS, NULL);
    name_case("NULL with length 0 for the plan");
    asked.input.plan = no_bytes;
    expect_budget_with_null(asked, REFUSED_PLAN, NULL);
    name_case("NULL with length 0 for sheet, plan and lists");
    asked.input.sheet = no_bytes;
    asked.units_count = 0;
    expect_budget_with_null(asked, REFUSED_LENGTH, NULL);
}

static void test_alignments(const struct budget_case *of)
{
    struct asked asked = ask(of);

    for (size_t of_sheet = 0; of_sheet < 8; of_sheet++)
        for (size_t of_plan = 0; of_plan < 8; of_plan++) {
            name_case("budgeting, sheet at %zu, plan at %zu modulo 8", of_sheet,
                      of_plan);
            expect_budget_at(asked, of_sheet, of_plan, answer_of(&of->ledger),
                             &of->ledger);
        }
}

/* Sheet and plan stand in memory that may be written. */
static void test_unchanged(const struct budget_case *of)
{
    static uint8_t sheet_before[sizeof sheet], plan_before[sizeof plan];

    for (unsigned faults = 0; faults <= ALL_FAULTS; faults++) {
        struct asked asked = ask_with(of, faults);

        name_case("sheet and plan unchanged by budgeting, faults %u", faults);
        memcpy(sheet_before, sheet, sizeof sheet);
        memcpy(plan_before, plan, sizeof plan);
        expect_budget_with_null(
            asked, faults == 0 ? answer_of(&of->ledger) : first_refusal(faults),
            faults == 0 ? &of->ledger : NULL);
        stop_unless(memcmp(sheet_before, sheet, sizeof sheet) == 0,
                    "comparison of the sheet");
        stop_unless(memcmp(plan_before, plan, sizeof plan) == 0,
                    "comparison of the plan");
    }
}

/* The plan is 19 bytes of the sheet's first record, from its maintenance on:
 * i 0, j 59, m 0. Renovate is offered for 59 years, at 1. */
static void test_overlap(const struct removal *removals)
{
    static const struct ledger ledger = {59, {10000}, {100}};
    uint8_t *maintain = record_of(sheet, 0), *renovate = record_of(sheet, 1);
    struct bytes inside = {maintain + MAINTENANCE, 19};
    struct asked asked = {{{NULL, 0}, inside}, 50000, 60, 16};

    name_case("budgeting, the plan inside the sheet");
    put_head(sheet, 59, 0);
    put32(maintain + MAINTENANCE, 0x01504352);
    put32(maintain + ELECTRICITY, INT64_C(59) << 24);
    put_lives(renovate, 59, 59);
    put32(renovate + INVESTMENT, 1);
    asked.input.sheet = put_removals(sheet, removals);
    expect_budget_with_null(asked, PRICED(10000), &ledger);
}

/* Calls leave nothing behind: all cases in turn, each twice, and after each a
 * refused one. */
static void test_in_turn(void)
{
    for (size_t call = 0; call < 2 * budget_case_count; call++) {
        const struct budget_case *of = &budget_cases[call % budget_case_count];
        struct asked asked = ask(of);

        name_case("budgets in turn, call %zu", call);
        expect_budget(asked, answer_of(&of->ledger), &of->ledger);
        expect_budget(asked, answer_of(&of->ledger), &of->ledger);
        asked.general = UINT64_MAX;
        expect_budget(asked, REFUSED_GENERAL, NULL);
    }
}

void test_budgeting(void)
{
    test_order();
    test_lists_of_cases();
    for (size_t n = 0; n < budget_case_count; n++)
        if (budget_cases[n].ledger.horizon <= 17)
            test_every_length(&budget_cases[n]);
    for (size_t n = 0; n < VERSIONS; n++) {
        test_high_generals(&budget_cases[n]);
        test_null(&budget_cases[n]);
        test_alignments(&budget_cases[n]);
        test_unchanged(&budget_cases[n]);
        test_overlap(unpaid[n]);
    }
    test_in_turn();
}
