/*
 * nimovalsa_cost on arcs with and without fault, of sheets of both versions.
 * Each answer is compared with the refusal table and the costs of document 01,
 * steps rounded up, motors kept by renovating and removal paid at the end as
 * document 02 asks.
 */
#include "boundary.h"

#include <inttypes.h>
#include <string.h>

struct arc {
    uint64_t option, start, end;
};

/* The arc that is costed now. */
static struct arc arc;

static uint64_t cost_arc(struct input input)
{
    return nimovalsa_cost(input.sheet.at, input.sheet.length, arc.option,
                          arc.start, arc.end);
}

struct subject costing = {"nimovalsa_cost", cost_arc, NIMOVALSA_COST_STACK, 0};

static void expect(struct arc now, struct bytes sheet, uint64_t answer)
{
    arc = now;
    expect_answer(&costing, (struct input){.sheet = sheet}, answer);
}

/* Every accepted sheet has this arc, at cost 0. */
static const struct arc empty_arc = {1, 0, 0};

/* No sheet has these: each meets one condition of refusal 13, in its order. */
static const struct arc faulty_arcs[] = {
    {3, 0, 0}, {1, UINT64_MAX, UINT64_MAX}, {1, 1, 0}, {0, 1, 1}, {2, 0, 0},
};

void expect_costing(struct bytes sheet, uint64_t answer)
{
    expect(empty_arc, sheet, answer);
    for (size_t i = 0; i < COUNT(faulty_arcs); i++)
        expect(faulty_arcs[i], sheet,
               answer == ACCEPTED ? REFUSED_ARC : answer);
}

/* Cases 6 to 8 of document 01: only replace is offered. */
static void make_case_sheet(uint8_t *sheet)
{
    uint8_t *record = record_of(sheet, 2);

    put_head(sheet, 3, 40000);
    put_lives(record, 1, 2);
    put32(record + INVESTMENT, 1);
    put32(record + MAINTENANCE, 1);
}

static void make_case_sheet_with_overhaul(uint8_t *sheet)
{
    uint8_t *record = record_of(sheet, 2);

    make_case_sheet(sheet);
    put(record + OVERHAUL_COUNT, 1, 1);
    put_overhaul(record, 0, 1, 1);
}

/* Each option has one payment of 1. One division of its first step has a small
 * rest: the discount in service, that of a plain step, the ageing. */
static void make_rests_sheet(uint8_t *sheet)
{
    uint8_t *maintain = record_of(sheet, 0);
    uint8_t *renovate = record_of(sheet, 1);
    uint8_t *replace = record_of(sheet, 2);

    put_head(sheet, 2, 200000);
    put_lives(maintain, 1, 1);
    put32(maintain + ELECTRICITY, 1);
    put32(maintain + ELECTRICITY_INFLATION, -99999);
    put_lives(renovate, 1, 1);
    put32(renovate + INVESTMENT, 1);
    put32(renovate + INVESTMENT_INFLATION, -99999);
    put_lives(replace, 1, 1);
    put32(replace + MAINTENANCE, 1);
    put32(replace + MAINTENANCE_INFLATION, -100000);
    put32(replace + MAINTENANCE_AGEING, 20001);
}

/* Renovating and replacing have electricity of 1 that ages by 2 per cent;
 * maintaining has none. */
static void make_ageing_sheet(uint8_t *sheet)
{
    static const struct yearly electricity = {1, 0, 20000};

    put_head(sheet, 3, 40000);
    for (unsigned option = 1; option < OPTIONS; option++) {
        put_lives(record_of(sheet, option), 1, 2);
        put_yearly(record_of(sheet, option), ELECTRICITY, &electricity);
    }
}

static void make_ageing_sheet_with_maintenance(uint8_t *sheet)
{
    static const struct yearly maintenance = {1, 0, 20000};

    make_ageing_sheet(sheet);
    for (unsigned option = 1; option < OPTIONS; option++)
        put_yearly(record_of(sheet, option), MAINTENANCE, &maintenance);
}

/* What costing answers. The costs follow from the rules and were not taken
 * from the library. */
struct arc_case {
    struct arc arc;
    uint64_t answer;
};

/* Case 6; then what the case sheet does not offer. */
static const struct arc_case case_arcs[] = {
    {{2, 1, 3}, 7105283},
    {{0, 0, 1}, REFUSED_ARC},
    {{1, 1, 2}, REFUSED_ARC},
    {{2, 0, 3}, REFUSED_ARC},
};

/* Cases 7 and 8. */
static const struct arc_case overhaul_arcs[] = {
    {{2, 1, 3}, 9472515},
    {{2, 1, 2}, 4828931},
};

/* On the middle sheet: T 30, lives 2 to 20, overhauls at 5, 10 and 15. */
static const struct arc_case middle_arcs[] = {
    {{0, 0, 2}, 16179882243},
    {{0, 0, 5}, 20777668867},
    {{0, 0, 6}, 22404327683},
    {{0, 0, 20}, 38136653571},
    {{1, 3, 5}, 14383858435},
    {{1, 10, 30}, 25763800579},
    {{2, 10, 25}, 22483131139},
    {{2, 28, 30}, 5395636739},

    /* length 0 */
    {{0, 0, 0}, ACCEPTED},
    {{1, 5, 5}, ACCEPTED},
    {{1, 30, 30}, ACCEPTED},
    {{2, 0, 0}, REFUSED_ARC},
    {{2, 30, 30}, REFUSED_ARC},

    /* option above 2; in some the low bits are those of an option */
    {{3, 0, 2}, REFUSED_ARC},
    {{4, 0, 2}, REFUSED_ARC},
    {{255, 0, 2}, REFUSED_ARC},
    {{256, 0, 2}, REFUSED_ARC},
    {{257, 5, 5}, REFUSED_ARC},
    {{258, 28, 30}, REFUSED_ARC},
    {{BIT(16), 0, 2}, REFUSED_ARC},
    {{BIT(32), 0, 2}, REFUSED_ARC},
    {{BIT(32) + 2, 28, 30}, REFUSED_ARC},
    {{BIT(63), 0, 2}, REFUSED_ARC},
    {{UINT64_MAX, 0, 2}, REFUSED_ARC},

    /* end above T */
    {{1, 31, 31}, REFUSED_ARC},
    {{2, 29, 31}, REFUSED_ARC},
    {{1, 0, BIT(8) + 2}, REFUSED_ARC},
    {{2, 0, BIT(16) + 2}, REFUSED_ARC},
    {{2, 0, BIT(32) + 2}, REFUSED_ARC},
    {{2, BIT(32), BIT(32) + 2}, REFUSED_ARC},
    {{1, BIT(63), BIT(63)}, REFUSED_ARC},
    {{2, BIT(63), BIT(63) + 2}, REFUSED_ARC},
    {{0, 0, UINT64_MAX}, REFUSED_ARC},
    {{2, UINT64_MAX - 2, UINT64_MAX}, REFUSED_ARC},
    {{1, UINT64_MAX, UINT64_MAX}, REFUSED_ARC},

    /* end before start; modulo 2^64, end - start is offered in some */
    {{2, 3, 2}, REFUSED_ARC},
    {{1, 30, 0}, REFUSED_ARC},
    {{2, UINT64_MAX, 1}, REFUSED_ARC},
    {{2, UINT64_MAX - 1, 0}, REFUSED_ARC},
    {{1, BIT(63) + 2, 2}, REFUSED_ARC},
    {{1, BIT(32) + 28, 30}, REFUSED_ARC},
    {{2, BIT(16) + 28, 30}, REFUSED_ARC},

    /* maintain not from 0 */
    {{0, 1, 3}, REFUSED_ARC},
    {{0, 5, 5}, REFUSED_ARC},
    {{0, 10, 30}, REFUSED_ARC},

    /* lengths beside the lives */
    {{0, 0, 1}, REFUSED_ARC},
    {{1, 29, 30}, REFUSED_ARC},
    {{2, 5, 6}, REFUSED_ARC},
    {{0, 0, 21}, REFUSED_ARC},
    {{1, 9, 30}, REFUSED_ARC},
    {{2, 0, 21}, REFUSED_ARC},
};

/* On the limit sheet: T 300, lives 1 to 120, overhauls at 112 to 119. */
static const struct arc_case limit_arcs[] = {
    {{0, 0, 120}, 213150517517393411},  {{1, 0, 1}, 7552000000000003},
    {{1, 100, 212}, 10033116529978627}, {{2, 100, 213}, 5120000000347139},
    {{1, 180, 300}, 24037256727085315}, {{2, 180, 300}, 23040000000184323},
    {{1, 299, 300}, 2561287136712451},  {{2, 299, 300}, 2560000000001539},
    {{1, 300, 300}, ACCEPTED},          {{2, 300, 300}, REFUSED_ARC},
    {{1, 181, 301}, REFUSED_ARC},       {{2, 181, 301}, REFUSED_ARC},
    {{1, 179, 300}, REFUSED_ARC},       {{2, 179, 300}, REFUSED_ARC},
};

/* In service without ageing, and plain: 7,500.008 is 7,501. Aged, 10,200.01 is
 * 10,201, which the discount makes 7,650.75; from 10,200 it would be 7,650. */
static const struct arc_case rests_arcs[] = {
    {{0, 0, 1}, PRICED(7501)},
    {{1, 1, 2}, PRICED(7501)},
    {{2, 0, 1}, PRICED(7651)},
};

/* Renovated, the motors are those of year 0: from 1 to 2 electricity takes two
 * steps in service. Replaced they are new: it takes a plain step, then one in
 * service. */
static const struct arc_case ageing_arcs[] = {
    {{1, 0, 1}, PRICED(9808)}, {{1, 0, 2}, PRICED(19429)},
    {{1, 1, 2}, PRICED(9621)}, {{1, 1, 3}, PRICED(19058)},
    {{1, 2, 3}, PRICED(9437)}, {{1, 3, 3}, ACCEPTED},
    {{2, 0, 1}, PRICED(9808)}, {{2, 0, 2}, PRICED(19429)},
    {{2, 1, 2}, PRICED(9432)}, {{2, 1, 3}, PRICED(18683)},
    {{2, 2, 3}, PRICED(9070)},
};

/* Maintenance ages from the start, also by renovating. */
static const struct arc_case maintained_arcs[] = {
    {{1, 0, 2}, PRICED(38858)}, {{1, 1, 2}, PRICED(19053)},
    {{1, 1, 3}, PRICED(37741)}, {{1, 2, 3}, PRICED(18507)},
    {{2, 1, 2}, PRICED(18864)}, {{2, 1, 3}, PRICED(37366)},
    {{2, 2, 3}, PRICED(18140)},
};

/* On the empty sheet: T 1, no option is offered. */
static const struct arc_case empty_arcs[] = {
    {{0, 0, 0}, ACCEPTED},    {{0, 0, 1}, REFUSED_ARC},
    {{0, 1, 1}, REFUSED_ARC}, {{1, 0, 0}, ACCEPTED},
    {{1, 0, 1}, REFUSED_ARC}, {{1, 1, 1}, ACCEPTED},
    {{2, 0, 0}, REFUSED_ARC}, {{2, 0, 1}, REFUSED_ARC},
};

/* On case 12's sheet with request 6's removal: a year costs 11, two 12 and
 * three 28, and 3 more before year 4. */
static const struct arc_case case_12_arcs[] = {
    {{2, 0, 1}, PRICED(140000)}, {{2, 0, 2}, PRICED(150000)},
    {{2, 0, 3}, PRICED(310000)}, {{2, 1, 2}, PRICED(140000)},
    {{2, 1, 3}, PRICED(150000)}, {{2, 1, 4}, PRICED(280000)},
    {{2, 2, 3}, PRICED(140000)}, {{2, 2, 4}, PRICED(120000)},
    {{2, 3, 4}, PRICED(110000)}, {{2, 0, 4}, REFUSED_ARC},
};

/* On the free four years, with request 6's removals. */
static const struct arc_case four_year_arcs[] = {
    {{0, 0, 0}, ACCEPTED},      {{0, 0, 1}, ACCEPTED},
    {{0, 0, 2}, ACCEPTED},      {{1, 0, 1}, PRICED(9712)},
    {{1, 0, 2}, PRICED(9432)},  {{1, 1, 2}, PRICED(9432)},
    {{1, 1, 3}, PRICED(9160)},  {{1, 2, 3}, PRICED(9160)},
    {{1, 2, 4}, ACCEPTED},      {{1, 3, 4}, ACCEPTED},
    {{1, 0, 0}, ACCEPTED},      {{1, 1, 1}, ACCEPTED},
    {{1, 3, 3}, ACCEPTED},      {{1, 4, 4}, ACCEPTED},
    {{2, 0, 1}, PRICED(19039)}, {{2, 0, 2}, PRICED(18124)},
    {{2, 1, 2}, PRICED(18124)}, {{2, 1, 3}, PRICED(17253)},
    {{2, 2, 3}, PRICED(17253)}, {{2, 2, 4}, ACCEPTED},
    {{2, 3, 4}, ACCEPTED},      {{2, 1, 1}, REFUSED_ARC},
};

/* Without a removal of their own they are free, whatever the bytes behind
 * a record of version 1 are. */
static const struct arc_case free_arcs[] = {
    {{0, 0, 1}, ACCEPTED}, {{0, 0, 2}, ACCEPTED}, {{1, 0, 1}, ACCEPTED},
    {{1, 1, 2}, ACCEPTED}, {{1, 1, 3}, ACCEPTED}, {{1, 2, 4}, ACCEPTED},
    {{2, 0, 1}, ACCEPTED}, {{2, 1, 3}, ACCEPTED}, {{2, 2, 4}, ACCEPTED},
};

/* On the dear sheet: payments of 10^13 units, removals too. 249 in 120 years
 * (an investment, eight overhauls, 240 yearly ones), and one before T. */
static const struct arc_case dear_arcs[] = {
    {{0, 0, 120}, PRICED(2490000000000000)},
    {{1, 179, 299}, PRICED(2500000000000000)},
    {{1, 180, 300}, PRICED(2490000000000000)},
    {{2, 179, 299}, PRICED(2500000000000000)},
    {{2, 180, 300}, PRICED(2490000000000000)},
    {{2, 298, 299}, PRICED(40000000000000)},
    {{2, 299, 300}, PRICED(30000000000000)},
};

static void expect_named(const char *name, struct arc now, struct bytes sheet,
                         uint64_t answer)
{
    name_case("%s, option %" PRIu64 " from %" PRIu64 " to %" PRIu64, name,
              now.option, now.start, now.end);
    expect(now, sheet, answer);
}

static void test_removed_arcs(make_sheet *make, const struct removal *removals,
                              const char *name, const struct arc_case *cases,
                              size_t count)
{
    uint8_t sheet[LONGER_SHEET];
    struct bytes whole = put_sheet(sheet, make, removals);

    for (size_t i = 0; i < count; i++)
        expect_named(name, cases[i].arc, whole, cases[i].answer);
}

/* In both versions. */
static void test_arcs(make_sheet *make, const char *name,
                      const struct arc_case *cases, size_t count)
{
    for (size_t n = 0; n < VERSIONS; n++)
        test_removed_arcs(make, unpaid[n], name, cases, count);
}

/* The paper's case study: what its five replacements cost in units, and in the
 * paper's Table 5 in euros, from which each lies less than a euro. */
static void test_paper_arcs(const struct removal *removals)
{
    static const struct {
        uint64_t units, euros;
    } arcs[] = {
        {32376325834, 3237632}, {5476429609, 547643}, {936951814, 93695},
        {161521417, 16152},     {27986885, 2798},
    };
    uint8_t sheet[LONGER_SHEET];
    struct bytes whole = put_sheet(sheet, make_paper_sheet, removals);

    for (size_t n = 0; n < COUNT(arcs); n++) {
        uint64_t units = arcs[n].units, paper = arcs[n].euros * 10000;

        name_case("paper, replacement %zu", n);
        expect((struct arc){2, 60 * n, 60 * n + 60}, whole, PRICED(units));
        stop_unless(units < paper + 10000 && paper < units + 10000,
                    "comparison with Table 5");
    }
}

/* ---- every start ---- */

/* T 300, lives 1 to 120; every option has the same two payments. */
struct terms {
    const char *name;
    int64_t rate;
    struct yearly maintenance, electricity;
};

static struct bytes put_terms(uint8_t *sheet, const struct terms *of,
                              const struct removal *removals)
{
    put_head(sheet, 300, of->rate);
    for (unsigned option = 0; option < OPTIONS; option++) {
        uint8_t *record = record_of(sheet, option);

        put_lives(record, 1, 120);
        put_yearly(record, MAINTENANCE, &of->maintenance);
        put_yearly(record, ELECTRICITY, &of->electricity);
    }
    return put_removals(sheet, removals);
}

/* What an arc costs by steps.c, but for removal. */
static uint64_t stepped_cost(const struct terms *of, struct arc now)
{
    unsigned option = (unsigned)now.option, start = (unsigned)now.start;
    uint64_t rate = (uint64_t)of->rate, cost = 0;

    for (unsigned year = start + 1; year <= now.end; year++) {
        cost += units_in(&of->maintenance, year,
                         new_in(option, MAINTENANCE, start), rate);
        cost += units_in(&of->electricity, year,
                         new_in(option, ELECTRICITY, start), rate);
    }
    return cost;
}

static uint64_t stepped_removal(const struct terms *of,
                                const struct removal *removals, struct arc now)
{
    unsigned option = (unsigned)now.option, end = (unsigned)now.end;

    if (removals == NULL || !is_removed(option, (unsigned)now.start, end, 300))
        return 0;
    return removal_units(&removals[option], end, (uint64_t)of->rate);
}

static void test_starts_of(const struct terms *of,
                           const struct removal *removals, uint64_t length)
{
    uint8_t sheet[LONGER_SHEET];
    struct bytes whole = put_terms(sheet, of, removals);

    for (uint64_t start = 0; start + length <= 300; start++)
        for (uint64_t option = start == 0 ? 0 : 1; option < OPTIONS; option++) {
            struct arc now = {option, start, start + length};

            expect_named(of->name, now, whole,
                         PRICED(stepped_cost(of, now) +
                                stepped_removal(of, removals, now)));
        }
}

/* The ageing sheet's rates; rates that all differ; ageings at their limits: 30
 * per cent, and what the inflation leaves of the discount. In version 2 with
 * removals, the largest kept level where r is 30,000. */
static void test_starts(void)
{
    static const struct terms terms[] = {
        {"ageing", 40000, {1, 0, 20000}, {1, 0, 20000}},
        {"usual", 40000, {35000, 8500, 10000}, {15000, 2000, 20000}},
        {"steep",
         200000,
         {1000000000, -100000, 300000},
         {1000000000, -100000, 300000}},
        {"full", 30000, {999999999, 0, 30000}, {1000000000, -50000, 84210}},
    };
    static const struct removal removals[OPTIONS] = {
        {999, 100}, {1000000000, 30000}, {7, -2000}};

    for (size_t n = 0; n < COUNT(terms); n++) {
        test_starts_of(&terms[n], NULL, 1);
        test_starts_of(&terms[n], NULL, 17);
        test_starts_of(&terms[n], removals, 1);
        test_starts_of(&terms[n], removals, 17);
    }
}

/* ---- steps in service, counted ---- */

/* Electricity whose ageing makes good the inflation and the discount: a step in
 * service adds its rounding alone, and a plain one takes from it. Renovated
 * from any year, in year y it has taken y steps in service. */
struct level {
    struct terms terms;
    uint64_t rounding;
};

static uint64_t level_cost(const struct level *of, struct arc now)
{
    uint64_t units = of->terms.electricity.amount * 10000, cost = 0;

    for (uint64_t year = now.start + 1; year <= now.end; year++)
        cost += units + of->rounding * year;
    return cost;
}

static void test_level(const struct level *of, const struct removal *removals)
{
    static const uint64_t lengths[] = {0, 1, 2, 119, 120};
    uint8_t sheet[LONGER_SHEET];
    struct bytes whole = put_terms(sheet, &of->terms, removals);

    for (size_t n = 0; n < COUNT(lengths); n++)
        for (uint64_t start = 0; start + lengths[n] <= 300; start++) {
            struct arc now = {1, start, start + lengths[n]};

            expect_named(of->terms.name, now, whole,
                         PRICED(level_cost(of, now)));
        }
}

/* At 4.0001 per cent only a multiple of 10^6 units ages to a whole number, and
 * the discount takes back less than the rounding. 0.9 * 1.3 is 1.17, which
 * leaves no rest. */
static void test_levels(void)
{
    static const struct level levels[] = {
        {{"1 kept level", 40001, {0, 0, 0}, {1, 0, 40001}}, 1},
        {{"10^9 - 1 kept level", 40001, {0, 0, 0}, {999999999, 0, 40001}}, 1},
        {{"10^9 kept level", 40001, {0, 0, 0}, {1000000000, 0, 40001}}, 0},
        {{"10^9 kept level by ageing at its limit",
          170000,
          {0, 0, 0},
          {1000000000, -100000, 300000}},
         0},
    };

    for (size_t n = 0; n < COUNT(levels); n++) {
        test_level(&levels[n], unpaid[0]);
        test_level(&levels[n], unpaid[1]);
    }
}

/* ---- the memory ---- */

static void test_null(void)
{
    name_case("NULL with length 0");
    arc = empty_arc;
    expect_answer_here(&costing, (struct input){.sheet = {NULL, 0}},
                       REFUSED_LENGTH);
}

/* The sheet stands in memory that may be written. */
static void test_sheet_unchanged(const struct removal *removals)
{
    const struct arc_case *longest = &limit_arcs[0];
    uint8_t sheet[LONGER_SHEET], before[LONGER_SHEET];
    struct bytes whole = put_sheet(sheet, make_limit_sheet, removals);

    name_case("sheet unchanged by costing");
    memcpy(before, sheet, whole.length);
    arc = longest->arc;
    expect_answer_here(&costing, (struct input){.sheet = whole},
                       longest->answer);
    stop_unless(memcmp(before, sheet, whole.length) == 0, "comparison");
}

static void test_removed(void)
{
    test_removed_arcs(make_case_12_sheet, case_12_removals, "case 12, removed",
                      case_12_arcs, COUNT(case_12_arcs));
    test_removed_arcs(make_free_four_year_sheet, four_year_removals,
                      "four years, removed", four_year_arcs,
                      COUNT(four_year_arcs));
    test_removed_arcs(make_dear_sheet, dear_removals, "dear sheet, removed",
                      dear_arcs, COUNT(dear_arcs));
}

void test_costing(void)
{
    test_arcs(make_case_sheet, "case sheet", case_arcs, COUNT(case_arcs));
    test_arcs(make_case_sheet_with_overhaul, "case sheet with an overhaul",
              overhaul_arcs, COUNT(overhaul_arcs));
    test_arcs(make_middle_sheet, "middle sheet", middle_arcs,
              COUNT(middle_arcs));
    test_arcs(make_limit_sheet, "limit sheet", limit_arcs, COUNT(limit_arcs));
    test_arcs(make_rests_sheet, "rests sheet", rests_arcs, COUNT(rests_arcs));
    test_arcs(make_ageing_sheet, "ageing sheet", ageing_arcs,
              COUNT(ageing_arcs));
    test_arcs(make_ageing_sheet_with_maintenance,
              "ageing sheet with maintenance", maintained_arcs,
              COUNT(maintained_arcs));
    test_arcs(make_empty_sheet, "empty sheet", empty_arcs, COUNT(empty_arcs));
    test_arcs(make_free_four_year_sheet, "free four years", free_arcs,
              COUNT(free_arcs));
    test_removed();
    test_starts();
    test_levels();
    test_null();
    for (size_t n = 0; n < VERSIONS; n++) {
        test_paper_arcs(unpaid[n]);
        test_sheet_unchanged(unpaid[n]);
    }
}
