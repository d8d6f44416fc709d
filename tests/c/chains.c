/*
 * nimovalsa_price by the plan's chain: feasible ones with the totals that
 * document 01's rules give them, steps rounded up, motors kept by renovating
 * and removal paid at the end as document 02 asks, and ones that each break a
 * single rule. On sheets of both versions.
 */
#include "boundary.h"

#include <string.h>

static uint64_t price_plan(struct input input)
{
    return nimovalsa_price(input.sheet.at, input.sheet.length, input.plan.at,
                           input.plan.length);
}

struct subject pricing = {"nimovalsa_price", price_plan, NIMOVALSA_PRICE_STACK,
                          0};

/* ---- plans by field ---- */

static struct bytes put_plan_head(uint8_t *plan, uint16_t i, uint16_t j,
                                  uint16_t m)
{
    size_t length = NIMOVALSA_PLAN_BYTES(m);

    memset(plan, 0, length);
    memcpy(plan + MARK, "RCP", 3);
    put16(plan + VERSION, 1);
    put(plan + PLAN_TOTAL, 8, 77);
    put16(plan + MAINTAINED, i);
    put16(plan + RENOVATED, j);
    put16(plan + REPLACEMENTS, m);
    return (struct bytes){plan, length};
}

struct bytes put_plan(uint8_t *plan, const struct chain *chain)
{
    struct bytes whole = put_plan_head(plan, chain->i, chain->j, chain->m);

    for (unsigned entry = 0; entry < chain->m; entry++)
        put16(plan + END(entry), chain->ends[entry]);
    return whole;
}

struct bytes put_even_plan(uint8_t *plan, uint16_t years, uint16_t m)
{
    struct bytes whole = put_plan_head(plan, 0, 0, m);

    for (unsigned entry = 0; entry < m; entry++)
        put16(plan + END(entry), (int64_t)years * (entry + 1));
    return whole;
}

/* ---- the chains ---- */

struct chain_case {
    struct chain chain;
    uint64_t answer;
};

/* A year of service costs 1, so every feasible chain costs 3. */
static const struct chain_case case_11_chains[] = {
    {{0, 0, 2, {2, 3}}, PRICED(30000)},    {{0, 0, 2, {1, 3}}, PRICED(30000)},
    {{0, 0, 3, {1, 2, 3}}, PRICED(30000)},

    {{0, 0, 1, {3}}, REFUSED_PLAN},        {{1, 1, 1, {3}}, REFUSED_PLAN},
    {{0, 1, 1, {3}}, REFUSED_PLAN},        {{3, 3, 0, {0}}, REFUSED_PLAN},
    {{0, 3, 0, {0}}, REFUSED_PLAN},
};

/* One year costs 10 + 1 = 11; two cost 10 + 2 = 12, as the overhaul is not of
 * an age below 2; three cost 10 + 3 + 15 = 28. */
static const struct chain_case case_12_chains[] = {
    {{0, 0, 2, {2, 4}}, PRICED(240000)},
    {{0, 0, 4, {1, 2, 3, 4}}, PRICED(440000)},
    {{0, 0, 3, {1, 2, 4}}, PRICED(340000)},
    {{0, 0, 3, {1, 3, 4}}, PRICED(340000)},
    {{0, 0, 3, {2, 3, 4}}, PRICED(340000)},
    {{0, 0, 2, {1, 4}}, PRICED(390000)},
    {{0, 0, 2, {3, 4}}, PRICED(390000)},

    {{0, 0, 1, {4}}, REFUSED_PLAN},
    {{0, 0, 1, {2}}, REFUSED_PLAN},
    {{0, 0, 0, {0}}, REFUSED_PLAN},
    {{0, 0, 3, {1, 2, 3}}, REFUSED_PLAN},
    {{0, 0, 3, {2, 2, 4}}, REFUSED_PLAN},
    {{0, 0, 3, {2, 4, 4}}, REFUSED_PLAN},
    {{0, 0, 4, {2, 1, 2, 4}}, REFUSED_PLAN},
    {{0, 0, 2, {2, 5}}, REFUSED_PLAN},
    {{0, 0, 3, {2, 4, 5}}, REFUSED_PLAN},
    {{0, 0, 3, {2, 5, 4}}, REFUSED_PLAN},
};

/* With request 6's removal: 3 more for each end but the last. */
static const struct chain_case case_12_removed_chains[] = {
    {{0, 0, 2, {2, 4}}, PRICED(270000)},
    {{0, 0, 4, {1, 2, 3, 4}}, PRICED(530000)},
    {{0, 0, 3, {1, 2, 4}}, PRICED(400000)},
    {{0, 0, 3, {1, 3, 4}}, PRICED(400000)},
    {{0, 0, 3, {2, 3, 4}}, PRICED(400000)},
    {{0, 0, 2, {1, 4}}, PRICED(420000)},
    {{0, 0, 2, {3, 4}}, PRICED(420000)},

    {{0, 0, 1, {4}}, REFUSED_PLAN},
    {{0, 0, 2, {2, 5}}, REFUSED_PLAN},
};

/* Nothing but request 6's removals is paid. */
static const struct chain_case four_year_chains[] = {
    {{0, 0, 2, {2, 4}}, PRICED(18124)},
    /* 19,039 + 18,124 + 17,253 */
    {{0, 0, 4, {1, 2, 3, 4}}, PRICED(54416)},
    /* 9,712 + 18,124 */
    {{0, 1, 2, {2, 4}}, PRICED(27836)},
    /* 9,712 + 17,253 */
    {{0, 1, 2, {3, 4}}, PRICED(26965)},
    {{0, 2, 1, {4}}, PRICED(9432)},
    {{1, 2, 1, {4}}, PRICED(9432)},
    {{1, 3, 1, {4}}, PRICED(9160)},
    {{1, 1, 2, {2, 4}}, PRICED(18124)},
    {{1, 1, 2, {3, 4}}, PRICED(17253)},
    {{2, 2, 1, {4}}, ACCEPTED},
    {{2, 4, 0, {0}}, ACCEPTED},
};

/* In year t a tenth of the value is gone t times, which is written 0.9^t:
 *   maintain 0 to n   1 + 10 n
 *   renovate, n       100 * 0.9^t + 1,000 n
 *   replace, n        1,000,000 * 0.9^t + 10,000 n
 * 0.9^2 is 0.81, 0.9^3 is 0.729, 0.9^4 is 0.6561. */
static const struct chain_case six_year_chains[] = {
    /* 1,020,000 + 830,000 + 676,100 */
    {{0, 0, 3, {2, 4, 6}}, PRICED(25261000000)},
    /* 1,030,000 + 759,000 */
    {{0, 0, 2, {3, 6}}, PRICED(17890000000)},
    /* 2,100 + 830,000 + 676,100 */
    {{0, 2, 2, {4, 6}}, PRICED(15082000000)},
    /* 11 + 930,000 + 676,100 */
    {{1, 1, 2, {4, 6}}, PRICED(16061110000)},
    /* 11 + 920,000 + 759,000 */
    {{1, 1, 2, {3, 6}}, PRICED(16790110000)},
    /* 11 + 2,090 + 759,000 */
    {{1, 3, 1, {6}}, PRICED(7611010000)},
    /* 21 + 2,081 + 676,100 */
    {{2, 4, 1, {6}}, PRICED(6782020000)},
    /* 31 + 759,000 */
    {{3, 3, 1, {6}}, PRICED(7590310000)},
    /* 31 + 1,072.9 + 676,100 */
    {{3, 4, 1, {6}}, PRICED(6772039000)},

    /* stop before T */
    {{0, 0, 0, {0}}, REFUSED_PLAN},
    {{0, 0, 1, {3}}, REFUSED_PLAN},
    {{0, 0, 2, {2, 4}}, REFUSED_PLAN},
    {{0, 0, 2, {2, 5}}, REFUSED_PLAN},
    {{3, 3, 0, {0}}, REFUSED_PLAN},
    {{3, 5, 0, {0}}, REFUSED_PLAN},

    /* go past T */
    {{0, 0, 2, {3, 8}}, REFUSED_PLAN},
    {{0, 0, 3, {2, 4, 7}}, REFUSED_PLAN},
    {{0, 0, 3, {3, 6, 8}}, REFUSED_PLAN},
    {{0, 0, 4, {2, 4, 7, 6}}, REFUSED_PLAN},

    /* equal ends, a replacement of length 0 */
    {{0, 0, 3, {0, 3, 6}}, REFUSED_PLAN},
    {{0, 0, 3, {3, 3, 6}}, REFUSED_PLAN},
    {{0, 0, 3, {3, 6, 6}}, REFUSED_PLAN},
    {{3, 3, 2, {3, 6}}, REFUSED_PLAN},

    /* ends that fall, by lengths that are offered */
    {{0, 0, 4, {3, 1, 3, 6}}, REFUSED_PLAN},
    {{0, 0, 4, {3, 6, 4, 6}}, REFUSED_PLAN},
    {{0, 0, 3, {6, 4, 6}}, REFUSED_PLAN},
    {{3, 3, 3, {1, 3, 6}}, REFUSED_PLAN},
    {{0, 0, 2, {6, 3}}, REFUSED_PLAN},

    /* i above j, by lengths that are offered */
    {{1, 0, 2, {3, 6}}, REFUSED_PLAN},
    {{2, 0, 2, {3, 6}}, REFUSED_PLAN},
    {{3, 1, 2, {3, 6}}, REFUSED_PLAN},

    /* lengths beside the lives: 3 of maintain, 2 of renovate, 2 and 3 of
     * replace are the last that are offered */
    {{4, 4, 1, {6}}, REFUSED_PLAN},
    {{0, 3, 1, {6}}, REFUSED_PLAN},
    {{1, 4, 1, {6}}, REFUSED_PLAN},
    {{0, 0, 2, {4, 6}}, REFUSED_PLAN},
    {{0, 0, 2, {2, 6}}, REFUSED_PLAN},
    {{0, 0, 3, {1, 3, 6}}, REFUSED_PLAN},
    {{0, 0, 3, {3, 4, 6}}, REFUSED_PLAN},
    {{0, 0, 3, {3, 5, 6}}, REFUSED_PLAN},

    /* years with an upper byte */
    {{0, 0, 2, {259, 6}}, REFUSED_PLAN},
    {{0, 0, 2, {3, 262}}, REFUSED_PLAN},
    {{256, 256, 2, {259, 262}}, REFUSED_PLAN},
    {{259, 259, 1, {6}}, REFUSED_PLAN},
    {{3, 259, 1, {6}}, REFUSED_PLAN},
    {{65535, 65535, 0, {0}}, REFUSED_PLAN},
    {{65535, 3, 1, {6}}, REFUSED_PLAN},
    {{3, 65535, 1, {6}}, REFUSED_PLAN},
    {{0, 0, 2, {3, 65535}}, REFUSED_PLAN},
    {{0, 0, 3, {65533, 3, 6}}, REFUSED_PLAN},
};

/* With removals: a renovation that ends in year u before T pays 10,000,000 *
 * 0.9^u more, a replacement 100,000,000. */
static const struct chain_case six_year_removed_chains[] = {
    /* 2,526,100 + 200,000,000 */
    {{0, 0, 3, {2, 4, 6}}, PRICED(2025261000000)},
    /* 1,789,000 + 100,000,000 */
    {{0, 0, 2, {3, 6}}, PRICED(1017890000000)},
    /* 1,508,200 + 8,100,000 + 100,000,000 */
    {{0, 2, 2, {4, 6}}, PRICED(1096082000000)},
    /* 1,606,111 + 100,000,000 */
    {{1, 1, 2, {4, 6}}, PRICED(1016061110000)},
    /* 761,101 + 7,290,000 */
    {{1, 3, 1, {6}}, PRICED(80511010000)},
    /* 678,202 + 6,561,000 */
    {{2, 4, 1, {6}}, PRICED(72392020000)},
    /* 677,203.9 + 6,561,000 */
    {{3, 4, 1, {6}}, PRICED(72382039000)},
    {{3, 3, 1, {6}}, PRICED(7590310000)},

    {{3, 5, 0, {0}}, REFUSED_PLAN},
    {{0, 0, 2, {2, 6}}, REFUSED_PLAN},
};

/* Each year electricity, 1,000 in every option, keeps 0.9 of its value, and
 * 0.99 in service; so does the maintenance of renovating, 10. A renovation
 * costs 100 and keeps the motors of year 0; a replacement costs 200. */
static const struct chain_case motors_chains[] = {
    /* 990; 100 + 8.91 + 980.1; 200 + 801.9 + 793.881 */
    {{1, 2, 1, {4}}, PRICED(38747910)},
    /* 990; 100 + 8.91 + 8.8209 + 980.1 + 970.299; 200 + 721.71 */
    {{1, 3, 1, {4}}, PRICED(39798399)},
    /* 990; 2068.1299 as before and, rounded up, 8.732691 + 960.59601 */
    {{1, 4, 0, {0}}, PRICED(40274587)},
    /* 100 + 9.9 + 9.801 + 990 + 980.1; 200 + 801.9 + 793.881 */
    {{0, 2, 1, {4}}, PRICED(38855820)},
    /* 990; 200 + 891; 200 + 801.9 + 793.881 */
    {{1, 1, 2, {2, 4}}, PRICED(38767810)},
};

/* Chains without replacements: j is T. No removal is paid, as maintaining pays
 * none and every other activity ends at T. */
static const struct chain_case three_year_chains[] = {
    /* 31; 21 + 1,081; 11 + 2,090 */
    {{3, 3, 0, {0}}, PRICED(310000)},   {{2, 3, 0, {0}}, PRICED(11020000)},
    {{1, 3, 0, {0}}, PRICED(21010000)}, {{0, 0, 1, {3}}, PRICED(10300000000)},

    {{0, 3, 0, {0}}, REFUSED_PLAN},     {{3, 2, 0, {0}}, REFUSED_PLAN},
    {{2, 2, 0, {0}}, REFUSED_PLAN},     {{3, 4, 0, {0}}, REFUSED_PLAN},
    {{3, 3, 1, {3}}, REFUSED_PLAN},     {{3, 3, 1, {5}}, REFUSED_PLAN},
};

/* T 30, lives 2 to 20. These totals follow from the rules and were not taken
 * from the library. */
static const struct chain_case middle_chains[] = {
    {{0, 0, 2, {20, 30}}, PRICED(198077882)},
    {{20, 30, 0, {0}}, PRICED(198077882)},
    {{0, 10, 1, {30}}, PRICED(208238094)},
    {{10, 10, 2, {12, 30}}, PRICED(239272297)},
    {{2, 4, 2, {24, 30}}, PRICED(283120787)},
    {{2, 22, 4, {24, 26, 28, 30}}, PRICED(296133806)},

    /* one year, which no option offers */
    {{1, 1, 2, {21, 30}}, REFUSED_PLAN},
    {{0, 1, 2, {21, 30}}, REFUSED_PLAN},
    {{2, 3, 2, {23, 30}}, REFUSED_PLAN},
    {{0, 0, 3, {1, 20, 30}}, REFUSED_PLAN},
    {{0, 0, 3, {20, 29, 30}}, REFUSED_PLAN},

    /* 21 years */
    {{21, 21, 1, {30}}, REFUSED_PLAN},
    {{0, 21, 1, {30}}, REFUSED_PLAN},
    {{0, 0, 2, {21, 30}}, REFUSED_PLAN},
    {{0, 0, 2, {9, 30}}, REFUSED_PLAN},
};

/* T 1, nothing is offered. */
static const struct chain_case empty_chains[] = {
    {{0, 0, 0, {0}}, REFUSED_PLAN},    {{1, 1, 0, {0}}, REFUSED_PLAN},
    {{0, 1, 0, {0}}, REFUSED_PLAN},    {{0, 0, 1, {1}}, REFUSED_PLAN},
    {{0, 0, 2, {0, 1}}, REFUSED_PLAN},
};

/* T 300. As on the middle sheet. */
static const struct chain_case limit_chains[] = {
    {{0, 0, 3, {120, 240, 300}}, PRICED(932619209053398)},
    {{120, 240, 1, {300}}, PRICED(950413884319224)},
    {{1, 2, 3, {122, 242, 300}}, PRICED(664042055095406)},
    {{121, 240, 1, {300}}, REFUSED_PLAN},
    {{120, 241, 1, {300}}, REFUSED_PLAN},
    {{0, 0, 3, {120, 240, 301}}, REFUSED_PLAN},
    {{0, 0, 3, {120, 240, 44}}, REFUSED_PLAN},
    {{0, 0, 1, {44}}, REFUSED_PLAN},
};

/* Payments of 10^13 units: 249 in 120 years (an investment, eight overhauls,
 * 240 yearly ones), 129 in 60 years. */
static const struct chain_case dear_chains[] = {
    {{120, 240, 1, {300}}, PRICED(6270000000000000)},
    {{0, 0, 5, {60, 120, 180, 240, 300}}, PRICED(6450000000000000)},
};

/* With removals of 10^13 units: one for each end but the last, and none for
 * maintaining. */
static const struct chain_case dear_removed_chains[] = {
    {{120, 240, 1, {300}}, PRICED(6280000000000000)},
    {{0, 0, 5, {60, 120, 180, 240, 300}}, PRICED(6490000000000000)},
};

/* The paper's case study; its Table 5 has the first chain, and costing.c its
 * arcs. */
static const struct chain_case paper_chains[] = {
    {{0, 0, 5, {60, 120, 180, 240, 300}}, PRICED(38979215559)},
    {{15, 45, 5, {105, 165, 225, 285, 300}}, PRICED(40118408505)},
    {{10, 20, 5, {80, 140, 200, 260, 300}}, PRICED(43555935382)},
    {{16, 45, 5, {105, 165, 225, 285, 300}}, REFUSED_PLAN},
    {{14, 45, 5, {105, 165, 225, 285, 300}}, REFUSED_PLAN},
    {{0, 0, 5, {61, 120, 180, 240, 300}}, REFUSED_PLAN},
};

/* ---- the cases ---- */

static void test_removed_chains_of(make_sheet *make,
                                   const struct removal *removals,
                                   const char *name,
                                   const struct chain_case *cases, size_t count)
{
    static uint8_t sheet[LONGER_SHEET], plan[LONGEST_PLAN];
    struct bytes whole = put_sheet(sheet, make, removals);

    for (size_t n = 0; n < count; n++) {
        const struct chain *chain = &cases[n].chain;
        struct input input = {whole, put_plan(plan, chain)};

        name_case("%s, chain %zu: i %u, j %u, m %u, first end %u", name, n,
                  chain->i, chain->j, chain->m, chain->ends[0]);
        expect_answer(&pricing, input, cases[n].answer);
    }
}

/* In both versions. */
static void test_chains_of(make_sheet *make, const char *name,
                           const struct chain_case *cases, size_t count)
{
    for (size_t n = 0; n < VERSIONS; n++)
        test_removed_chains_of(make, unpaid[n], name, cases, count);
}

/* But for rounding, no total is larger in its version: three payments of 10^13
 * units in each of 300 years, an investment and two yearly ones; and as many
 * removals as there are ends before T. */
static void test_largest_totals(void)
{
    static uint8_t sheet[LONGER_SHEET], plan[LONGEST_PLAN];
    struct bytes yearly = put_even_plan(plan, 1, 300);

    name_case("largest total");
    expect_answer(
        &pricing,
        (struct input){put_sheet(sheet, make_dear_sheet, NULL), yearly},
        PRICED(9000000000000000));
    expect_answer(&pricing,
                  (struct input){
                      put_sheet(sheet, make_dear_sheet, dear_removals), yearly},
                  PRICED(11990000000000000));
}

#define TEST_CHAINS(name, cases)                                               \
    test_chains_of(make_##name##_sheet, #name, cases, COUNT(cases))

#define TEST_REMOVED_CHAINS(name, removals, cases)                             \
    test_removed_chains_of(make_##name##_sheet, removals, #name ", removed",   \
                           cases, COUNT(cases))

void test_chains(void)
{
    TEST_CHAINS(case_11, case_11_chains);
    TEST_CHAINS(case_12, case_12_chains);
    TEST_CHAINS(six_year, six_year_chains);
    TEST_CHAINS(three_year, three_year_chains);
    TEST_CHAINS(motors, motors_chains);
    TEST_CHAINS(middle, middle_chains);
    TEST_CHAINS(empty, empty_chains);
    TEST_CHAINS(limit, limit_chains);
    TEST_CHAINS(dear, dear_chains);
    TEST_CHAINS(paper, paper_chains);
    TEST_REMOVED_CHAINS(case_12, case_12_removals, case_12_removed_chains);
    TEST_REMOVED_CHAINS(free_four_year, four_year_removals, four_year_chains);
    TEST_REMOVED_CHAINS(six_year, digits_removals, six_year_removed_chains);
    TEST_REMOVED_CHAINS(three_year, digits_removals, three_year_chains);
    TEST_REMOVED_CHAINS(dear, dear_removals, dear_removed_chains);
    test_largest_totals();
}
