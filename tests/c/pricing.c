/*
 * nimovalsa_price by the plan's bytes: their number, each bit of them, where
 * they lie, and that they are only read. On sheets of both versions.
 */
#include "boundary.h"

#include <inttypes.h>
#include <string.h>

static uint8_t sheet[LONGER_SHEET];
static uint8_t plan[LONGEST_PLAN];

/* The removals of the version that is tested now, and the sheet that was made
 * with them. */
static const struct removal *removals;
static struct bytes this_sheet;

static void expect(struct bytes bytes, uint64_t answer)
{
    expect_answer(&pricing, (struct input){this_sheet, bytes}, answer);
}

/* ---- on every sheet of the check ---- */

/* Feasible on the middle sheet. */
static const struct chain middle_chain = {2, 10, 2, {20, 30}};

/* Feasible on no sheet, as i is above j. */
static const struct chain faulty_chain = {2, 1, 2, {20, 30}};

static void expect_refused(struct bytes on, struct bytes bytes, uint64_t answer)
{
    expect_answer(&pricing, (struct input){on, bytes},
                  answer == ACCEPTED ? REFUSED_PLAN : answer);
}

void expect_pricing(struct bytes on, uint64_t answer)
{
    static uint8_t right[64], wrong[64];
    struct bytes right_plan = put_plan(right, &middle_chain);
    struct bytes wrong_mark;

    expect_refused(on, put_plan(wrong, &faulty_chain), answer);
    expect_refused(on, (struct bytes){right, 0}, answer);
    expect_refused(on, (struct bytes){right, 18}, answer);
    expect_refused(on, (struct bytes){right, right_plan.length - 1}, answer);
    wrong_mark = put_plan(wrong, &middle_chain);
    wrong[MARK + 2] = 'S';
    expect_refused(on, wrong_mark, answer);
    if (answer != ACCEPTED)
        expect_answer(&pricing, (struct input){on, right_plan}, answer);
}

/* ---- the length ---- */

/* T 300, r 0; m replacements cost m investments and 300 years, each 1. */
static void make_plain_sheet(int64_t shortest, int64_t longest)
{
    uint8_t *record = record_of(sheet, 2);

    put_head(sheet, 300, 0);
    put_lives(record, shortest, longest);
    put32(record + INVESTMENT, 1);
    put32(record + MAINTENANCE, 1);
    this_sheet = put_removals(sheet, removals);
}

/* One chain is feasible: five replacements of 60 years. */
static void make_one_chain_sheet(void)
{
    make_plain_sheet(60, 60);
}

#define ONE_CHAIN PRICED(3050000)

static struct bytes one_chain_plan(void)
{
    return put_even_plan(plan, 60, 5);
}

/* The bytes of a right plan in every length up to three beyond its own. */
static void test_lengths_of(const char *name, struct bytes right,
                            uint64_t answer)
{
    memset(plan + right.length, 0, 3);
    for (size_t length = 0; length <= right.length + 3; length++) {
        name_case("%s, plan of %zu bytes", name, length);
        expect((struct bytes){plan, length},
               length == right.length ? answer : REFUSED_PLAN);
    }
}

static void test_lengths(void)
{
    static const struct chain renovated = {0, 30, 0, {0}};

    make_one_chain_sheet();
    test_lengths_of("five replacements", one_chain_plan(), ONE_CHAIN);
    make_plain_sheet(1, 120);
    test_lengths_of("300 replacements", put_even_plan(plan, 1, 300),
                    PRICED(6000000));
    put16(sheet + HORIZON, 30);
    put_lives(record_in(sheet, this_sheet.length, 1), 30, 30);
    test_lengths_of("no replacement", put_plan(plan, &renovated), ACCEPTED);
}

/* The bytes of a right plan with another m, in its own length and in that of
 * m; behind the five ends are zero bytes. */
static void test_other_counts(void)
{
    static const uint16_t counts[] = {0,   1,     4,     6,     255,  256,
                                      261, 32767, 32768, 32773, 65535};

    make_one_chain_sheet();
    for (size_t n = 0; n < COUNT(counts); n++) {
        struct bytes right;

        name_case("five ends and m %u", counts[n]);
        memset(plan, 0, sizeof plan);
        right = one_chain_plan();
        put16(plan + REPLACEMENTS, counts[n]);
        expect(right, REFUSED_PLAN);
        expect((struct bytes){plan, NIMOVALSA_PLAN_BYTES(counts[n])},
               REFUSED_PLAN);
    }
}

/* m 65,535: all its ends rise by a year; or they stay at T once they are
 * there. Both are longer than any chain. Then lengths beside the right one. */
static void test_most_ends(void)
{
    struct bytes whole = put_even_plan(plan, 1, MOST_ENDS);

    make_plain_sheet(1, 120);
    name_case("ends 1 to 65,535");
    expect(whole, REFUSED_PLAN);
    name_case("ends 1 to 300, then 300");
    for (unsigned entry = 300; entry < MOST_ENDS; entry++)
        put16(plan + END(entry), 300);
    expect(whole, REFUSED_PLAN);
    for (size_t length = whole.length - 3; length <= whole.length + 3;
         length++) {
        name_case("m 65,535, plan of %zu bytes", length);
        expect((struct bytes){plan, length}, REFUSED_PLAN);
    }
    name_case("m 65,535 and 300 ends");
    expect((struct bytes){plan, NIMOVALSA_PLAN_BYTES(300)}, REFUSED_PLAN);
    name_case("the first 300 of them");
    put16(plan + REPLACEMENTS, 300);
    expect((struct bytes){plan, NIMOVALSA_PLAN_BYTES(300)}, PRICED(6000000));
}

/* ---- the content ---- */

static int is_total(size_t at)
{
    return at >= PLAN_TOTAL && at < MAINTAINED;
}

/* There is one feasible chain, so a bit changes the answer unless it is of
 * the total. */
static void test_each_bit(void)
{
    struct bytes whole = one_chain_plan();

    make_one_chain_sheet();
    for (size_t at = 0; at < whole.length; at++)
        for (unsigned bit = 0; bit < 8; bit++) {
            name_case("plan byte %zu, bit %u", at, bit);
            plan[at] ^= (uint8_t)(1u << bit);
            expect(whole, is_total(at) ? ONE_CHAIN : REFUSED_PLAN);
            plan[at] ^= (uint8_t)(1u << bit);
        }
}

static void test_mark_and_version(void)
{
    static const char *const marks[] = {"RCS", "PCR", "RPC", "rcp", "\0\0\0"};
    static const uint16_t versions[] = {0, 2, 256, 257, 65535};
    struct bytes whole = one_chain_plan();

    make_one_chain_sheet();
    for (size_t n = 0; n < COUNT(marks); n++) {
        name_case("plan with mark %zu of the table", n);
        memcpy(plan + MARK, marks[n], 3);
        expect(whole, REFUSED_PLAN);
    }
    memcpy(plan + MARK, "RCP", 3);
    for (size_t n = 0; n < COUNT(versions); n++) {
        name_case("plan with version %u", versions[n]);
        put16(plan + VERSION, versions[n]);
        expect(whole, REFUSED_PLAN);
    }
}

static void test_total_field(void)
{
    static const uint64_t totals[] = {
        0,        1,         3050000,           3050001,    3049999,
        30500000, ONE_CHAIN, UINT64_C(1) << 56, UINT64_MAX, INT64_MAX,
    };
    struct bytes whole = one_chain_plan();

    make_one_chain_sheet();
    for (size_t n = 0; n < COUNT(totals); n++) {
        name_case("plan with total %" PRIu64, totals[n]);
        put(plan + PLAN_TOTAL, 8, (int64_t)totals[n]);
        expect(whole, ONE_CHAIN);
    }
}

/* ---- the memory ---- */

static void test_null(void)
{
    struct bytes nothing = {NULL, 0};
    struct bytes whole = one_chain_plan();

    make_one_chain_sheet();
    name_case("NULL with length 0 for sheet and plan");
    expect_answer_here(&pricing, (struct input){nothing, nothing},
                       REFUSED_LENGTH);
    name_case("NULL with length 0 for the sheet");
    expect_answer_here(&pricing, (struct input){nothing, whole},
                       REFUSED_LENGTH);
    name_case("NULL with length 0 for the plan");
    expect_answer_here(&pricing, (struct input){this_sheet, nothing},
                       REFUSED_PLAN);
}

static void test_alignments(void)
{
    struct input input;

    make_one_chain_sheet();
    input = (struct input){this_sheet, one_chain_plan()};
    for (size_t of_sheet = 0; of_sheet < 8; of_sheet++)
        for (size_t of_plan = 0; of_plan < 8; of_plan++) {
            name_case("sheet at %zu, plan at %zu modulo 8", of_sheet, of_plan);
            expect_answer_at(&pricing, input, of_sheet, of_plan, ONE_CHAIN);
        }
}

/* Sheet and plan stand in memory that may be written. */
static void test_unchanged(void)
{
    static uint8_t sheet_before[sizeof sheet], plan_before[sizeof plan];
    struct bytes whole = put_even_plan(plan, 1, 300);

    name_case("sheet and plan unchanged by pricing");
    make_plain_sheet(1, 120);
    for (unsigned end = 300; end <= 301; end++) {
        put16(plan + END(299), end);
        memcpy(sheet_before, sheet, sizeof sheet);
        memcpy(plan_before, plan, sizeof plan);
        expect_answer_here(&pricing, (struct input){this_sheet, whole},
                           end == 300 ? PRICED(6000000) : REFUSED_PLAN);
        stop_unless(memcmp(sheet_before, sheet, sizeof sheet) == 0,
                    "comparison of the sheet");
        stop_unless(memcmp(plan_before, plan, sizeof plan) == 0,
                    "comparison of the plan");
    }
}

/* The plan is the sheet; then it is 19 bytes of the sheet's first record, from
 * its maintenance on: i 0, j 59, m 0. Renovate is offered for 59 years, at 1.
 */
static void test_overlap(void)
{
    uint8_t *maintain = record_of(sheet, 0), *renovate = record_of(sheet, 1);
    struct input input;

    put_head(sheet, 59, 0);
    put32(maintain + MAINTENANCE, 0x01504352);
    put32(maintain + ELECTRICITY, INT64_C(59) << 24);
    put_lives(renovate, 59, 59);
    put32(renovate + INVESTMENT, 1);
    this_sheet = put_removals(sheet, removals);
    name_case("the sheet as the plan");
    input = (struct input){this_sheet, this_sheet};
    expect_answer_here(&pricing, input, REFUSED_PLAN);
    name_case("the plan inside the sheet");
    input.plan = (struct bytes){maintain + MAINTENANCE, 19};
    expect_answer_here(&pricing, input, PRICED(10000));
}

/* Calls leave nothing behind: two plans in turn. */
static void test_in_turn(void)
{
    static uint8_t other[LONGEST_PLAN];
    struct bytes five = put_even_plan(plan, 60, 5);
    struct bytes yearly = put_even_plan(other, 1, 300);

    make_plain_sheet(1, 120);
    name_case("two plans in turn");
    for (unsigned turn = 0; turn < 3; turn++) {
        expect(five, ONE_CHAIN);
        expect(yearly, PRICED(6000000));
        expect((struct bytes){other, 19}, REFUSED_PLAN);
    }
}

static void test_version(void)
{
    test_lengths();
    test_other_counts();
    test_most_ends();
    test_each_bit();
    test_mark_and_version();
    test_total_field();
    test_null();
    test_alignments();
    test_unchanged();
    test_overlap();
    test_in_turn();
}

void test_pricing(void)
{
    for (size_t n = 0; n < VERSIONS; n++) {
        removals = unpaid[n];
        test_version();
    }
}
