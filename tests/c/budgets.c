/*
 * nimovalsa_budget by what its lists hold: the payments of each year, in units
 * and in cents, and that the units add up to the price. On sheets of both
 * versions.
 */
#include "boundary.h"

#include <inttypes.h>

static uint8_t sheet[LONGER_SHEET];
static uint8_t plan[LONGEST_LENT_PLAN];

uint64_t answer_of(const struct ledger *ledger)
{
    uint64_t total = 0;

    for (unsigned year = 0; year <= ledger->horizon; year++)
        total += ledger->units[year];
    return PRICED(total);
}

/* In lists that are just long enough, and in longer ones. */
static void expect_ledger(struct input input, uint64_t general,
                          const struct ledger *ledger)
{
    struct asked asked = {input, general, units_needed(ledger->horizon),
                          cents_needed(ledger->horizon)};

    expect_answer(&pricing, input, answer_of(ledger));
    expect_budget(asked, answer_of(ledger), ledger);
    asked.units_count += 3;
    asked.cents_count += 2;
    expect_budget(asked, answer_of(ledger), ledger);
}

/* ---- cases ---- */

/* Only replace is offered. */
static void make_two_year_sheet(uint8_t *at)
{
    uint8_t *record = record_of(at, 2);

    put_head(at, 2, 40000);
    put_lives(record, 1, 1);
    put32(record + INVESTMENT, 1);
    put32(record + INVESTMENT_INFLATION, 10000);
    put32(record + MAINTENANCE, 7);
    put32(record + MAINTENANCE_INFLATION, 10000);
    put32(record + MAINTENANCE_AGEING, 7000);
}

/* A payment of 10^9 that grows as fast as the discount, by its ageing. */
static void make_steep_sheet(uint8_t *at)
{
    uint8_t *record = record_of(at, 2);

    put_head(at, 15, 200000);
    put_lives(record, 1, 15);
    put32(record + MAINTENANCE, 1000000000);
    put32(record + MAINTENANCE_INFLATION, -40000);
    put32(record + MAINTENANCE_AGEING, 250000);
}

/* r 40,000, lives 1 to 20, for every T; no two payments have the same amount
 * or the same rates. */
static void make_rated_sheet(uint8_t *at)
{
    /* From the investment to the overhaul inflation. */
    static const int64_t fields[OPTIONS][9] = {
        {150, 10300, 70, 8500, 15000, 15, 2000, 3000, -12000},
        {1125, -7000, 35, 9100, 10000, 17, -4000, 20000, 6000},
        {2500, 5300, 11, -8500, 5000, 13, 12000, 7000, 10700},
    };
    /* The ages and amounts of two overhauls. */
    static const int64_t overhauls[OPTIONS][4] = {
        {2, 31, 4, 47}, {1, 53, 3, 59}, {3, 61, 5, 67}};

    put_head(at, 1, 40000);
    for (unsigned option = 0; option < OPTIONS; option++) {
        uint8_t *record = record_of(at, option);
        const int64_t *of = overhauls[option];

        put_lives(record, 1, 20);
        for (size_t n = 0; n < COUNT(fields[option]); n++)
            put32(record + INVESTMENT + 4 * n, fields[option][n]);
        put(record + OVERHAUL_COUNT, 1, 2);
        put_overhaul(record, 0, of[0], of[1]);
        put_overhaul(record, 1, of[2], of[3]);
    }
}

/* r 0, lives 1 to 120; amounts in few years, and in year 15 an overhaul. */
static void make_sparse_sheet(uint8_t *at)
{
    put_head(at, 300, 0);
    for (unsigned option = 0; option < OPTIONS; option++) {
        uint8_t *record = record_of(at, option);

        put_lives(record, 1, 120);
        put32(record + INVESTMENT, 1 + option);
        put(record + OVERHAUL_COUNT, 1, 1);
        put_overhaul(record, 0, 15, 10 + option);
    }
}

/* After a rate of 1 per cent 9,901 are 1,000,001 cents, and a rate of a
 * millionth adds 1.000001 cents, which count as two. */
static void make_rest_sheet(uint8_t *at, size_t amount, size_t rate,
                            int64_t millionths)
{
    uint8_t *record = record_of(at, 2);

    put_head(at, 2, 10000);
    put_lives(record, 1, 1);
    put32(record + amount, 9901);
    put32(record + rate, millionths);
}

/* The rest is that of general inflation, after ageing. */
static void make_general_rest_sheet(uint8_t *at)
{
    make_rest_sheet(at, MAINTENANCE, MAINTENANCE_AGEING, 10000);
}

/* That of the payment's own inflation, after general inflation. */
static void make_own_rest_sheet(uint8_t *at)
{
    make_rest_sheet(at, INVESTMENT, INVESTMENT_INFLATION, 1);
}

/* That of ageing, after a year with general inflation. */
static void make_ageing_rest_sheet(uint8_t *at)
{
    make_rest_sheet(at, ELECTRICITY, ELECTRICITY_AGEING, 1);
}

/* Those of the rated sheet and of the sparse one. */
static const struct removal rated_removals[OPTIONS] = {
    {900, 1000}, {333, -9000}, {444, 31000}};
static const struct removal sparse_removals[OPTIONS] = {
    {100, 0}, {200, 0}, {300, 0}};

/* In case 12, in the six years and in the units of the first motors nothing is
 * rounded, and chains.c has what their arcs cost. The other words follow from
 * the rules. None was taken from the library. */
const struct budget_case budget_cases[] = {
    {make_two_year_sheet,
     NULL,
     "two years",
     {0, 0, 2, {1, 2}},
     1000,
     {2, {10000, 78169, 66483}, {100, 817, 723}}},
    {make_two_year_sheet,
     NULL,
     "two years without inflation",
     {0, 0, 2, {1, 2}},
     0,
     {2, {10000, 78169, 66483}, {100, 814, 720}}},
    {make_general_rest_sheet,
     NULL,
     "a rest of general inflation",
     {0, 0, 1, {1}},
     1,
     {1, {0, 99010000}, {0, 1000003}}},
    {make_own_rest_sheet,
     NULL,
     "a rest of own inflation",
     {0, 0, 2, {1, 2}},
     10000,
     {2, {99010000, 98029801, 0}, {990100, 1000003, 0}}},
    {make_ageing_rest_sheet,
     NULL,
     "a rest of ageing",
     {0, 0, 2, {1, 2}},
     10000,
     {2, {0, 98029802, 97059210}, {0, 1000003, 1010004}}},
    {make_case_12_sheet,
     NULL,
     "case 12",
     {0, 0, 2, {2, 4}},
     0,
     {4, {100000, 10000, 110000, 10000, 10000}, {1000, 100, 1100, 100, 100}}},
    {make_case_12_sheet,
     NULL,
     "case 12 with its overhaul",
     {0, 0, 2, {1, 4}},
     0,
     {4, {100000, 110000, 10000, 160000, 10000}, {1000, 1100, 100, 1600, 100}}},
    {make_six_year_sheet,
     NULL,
     "six years",
     {3, 4, 1, {6}},
     0,
     {6,
      {10000, 100000, 100000, 829000, 6571000000, 100000000, 100000000},
      {100, 1000, 1000, 8290, 65710000, 1000000, 1000000}}},
    {make_six_year_sheet,
     NULL,
     "six years, renovated earlier",
     {1, 3, 1, {6}},
     0,
     {6,
      {10000, 1000000, 10000000, 7300000000, 100000000, 100000000, 100000000},
      {100, 10000, 100000, 73000000, 1000000, 1000000, 1000000}}},
    {make_motors_sheet,
     NULL,
     "motors, renovated for a year",
     {1, 2, 1, {4}},
     0,
     {4,
      {0, 10900000, 11890100, 8019000, 7938810},
      {0, 109000, 118901, 80190, 79389}}},
    {make_motors_sheet,
     NULL,
     "motors, renovated to the end",
     {1, 4, 0, {0}},
     20000,
     {4,
      {0, 10900000, 9890100, 9791199, 9693288},
      {0, 111180, 102898, 103908, 104928}}},
    {make_steep_sheet,
     NULL,
     "steep",
     {0, 0, 1, {15}},
     50000,
     {15,
      {0, 10000000000000, 10000000000000, 10000000000000, 10000000000000,
       10000000000000, 10000000000000, 10000000000000, 10000000000000,
       10000000000000, 10000000000000, 10000000000000, 10000000000000,
       10000000000000, 10000000000000, 10000000000000},
      {0, 126000000000, 158760000000, 200037600000, 252047376000, 317579693760,
       400150414138, 504189521815, 635278797488, 800451284835, 1008568618894,
       1270796459808, 1601203539359, 2017516459593, 2542070739089,
       3203009131254}}},
    {make_rated_sheet,
     NULL,
     "1 year",
     {0, 0, 1, {1}},
     20000,
     {1, {25000000, 232781}, {250000, 2474}}},
    {make_rated_sheet,
     NULL,
     "14 years",
     {5, 9, 1, {14}},
     20000,
     {14,
      {1500000, 833934, 1097986, 802825, 1170584, 9700571, 876875, 433376,
       876497, 18835814, 168223, 163349, 591551, 154077, 149668},
      {15000, 8850, 12364, 9593, 14840, 130325, 12515, 6571, 14089, 320433,
       3055, 3151, 12051, 3350, 3455}}},
    {make_rated_sheet,
     NULL,
     "15 years",
     {5, 9, 1, {15}},
     20000,
     {15,
      {1500000, 833934, 1097986, 802825, 1170584, 9700571, 876875, 433376,
       876497, 18835814, 168223, 163349, 591551, 154077, 598749, 145403},
      {15000, 8850, 12364, 9593, 14840, 130325, 12515, 6571, 14089, 320433,
       3055, 3151, 12051, 3350, 13733, 3563}}},
    {make_rated_sheet,
     NULL,
     "16 years",
     {5, 9, 2, {15, 16}},
     20000,
     {16,
      {1500000, 833934, 1097986, 802825, 1170584, 9700571, 876875, 433376,
       876497, 18835814, 168223, 163349, 591551, 154077, 598749, 15172509,
       136094},
      {15000, 8850, 12364, 9593, 14840, 130325, 12515, 6571, 14089, 320433,
       3055, 3151, 12051, 3350, 13733, 367814}}},
    {make_rated_sheet,
     NULL,
     "17 years",
     {5, 9, 2, {15, 17}},
     20000,
     {17,
      {1500000, 833934, 1097986, 802825, 1170584, 9700571, 876875, 433376,
       876497, 18835814, 168223, 163349, 591551, 154077, 598749, 15172509,
       136094, 132239},
      {15000, 8850, 12364, 9593, 14840, 130325, 12515, 6571, 14089, 320433,
       3055, 3151, 12051, 3350, 13733, 367814}}},
    {make_sparse_sheet,
     NULL,
     "300 years",
     {120, 240, 1, {300}},
     50000,
     {300,
      {[0] = 10000,
       [15] = 100000,
       [120] = 20000,
       [135] = 110000,
       [240] = 30000,
       [255] = 120000},
      {[0] = 100, [15] = 2088}}},

    /* 3 in year 2; in year 1 */
    {make_case_12_sheet,
     case_12_removals,
     "case 12, removed",
     {0, 0, 2, {2, 4}},
     0,
     {4, {100000, 10000, 140000, 10000, 10000}, {1000, 100, 1400, 100, 100}}},
    {make_case_12_sheet,
     case_12_removals,
     "case 12 with its overhaul, removed",
     {0, 0, 2, {1, 4}},
     0,
     {4, {100000, 140000, 10000, 160000, 10000}, {1000, 1400, 100, 1600, 100}}},
    /* renovated in year 1, replaced in year 2; and renovated in year 3 */
    {make_free_four_year_sheet,
     four_year_removals,
     "four years, removed",
     {0, 1, 2, {2, 4}},
     20000,
     {4, {0, 9712, 18124, 0, 0}, {0, 104, 205, 0, 0}}},
    {make_free_four_year_sheet,
     four_year_removals,
     "four years, renovated longer",
     {1, 3, 1, {4}},
     20000,
     {4, {0, 0, 0, 9160, 0}, {0, 0, 0, 114, 0}}},
    /* in year 9, and none at T */
    {make_rated_sheet,
     rated_removals,
     "15 years, removed",
     {5, 9, 1, {15}},
     20000,
     {15,
      {1500000, 833934, 1097986, 802825, 1170584, 9700571, 876875, 433376,
       876497, 20992603, 168223, 163349, 591551, 154077, 598749, 145403},
      {15000, 8850, 12364, 9593, 14840, 130325, 12515, 6571, 14089, 357128,
       3055, 3151, 12051, 3350, 13733, 3563}}},
    /* in years 9 and 15 */
    {make_rated_sheet,
     rated_removals,
     "16 years, removed",
     {5, 9, 2, {15, 16}},
     20000,
     {16,
      {1500000, 833934, 1097986, 802825, 1170584, 9700571, 876875, 433376,
       876497, 20992603, 168223, 163349, 591551, 154077, 598749, 19069806,
       136094},
      {15000, 8850, 12364, 9593, 14840, 130325, 12515, 6571, 14089, 357128,
       3055, 3151, 12051, 3350, 13733, 462299}}},
    /* in year 16, which has no cents */
    {make_rated_sheet,
     rated_removals,
     "17 years, renovated longer",
     {2, 16, 1, {17}},
     20000,
     {17,
      {1500000, 833934, 11074361, 961086, 471256, 961005, 451637, 442138,
       432840, 423738, 414829, 406108, 397571, 389215, 381035, 373028, 16429386,
       131416},
      {15000, 8850, 124627, 11482, 5977, 12930, 6453, 6705, 6966, 7237, 7519,
       7810, 8113, 8428, 8756, 9096}}},
    /* 200 in year 135 and 300 in year 240; none in year 15, as maintaining pays
     * none */
    {make_sparse_sheet,
     sparse_removals,
     "300 years, removed",
     {15, 135, 2, {240, 300}},
     50000,
     {300,
      {[0] = 10000,
       [15] = 20000,
       [30] = 110000,
       [135] = 2030000,
       [150] = 120000,
       [240] = 3030000,
       [255] = 120000},
      {[0] = 100, [15] = 426}}},
};

const size_t budget_case_count = COUNT(budget_cases);

struct input put_budget_case(const struct budget_case *of,
                             const struct removal *removals, uint8_t *at,
                             uint8_t *plan_at)
{
    struct bytes whole = put_sheet(at, of->make, removals);

    put16(at + HORIZON, of->ledger.horizon);
    return (struct input){whole, put_plan(plan_at, &of->chain)};
}

static void test_case(const struct budget_case *of,
                      const struct removal *removals)
{
    name_case("budget of %s", of->name);
    expect_ledger(put_budget_case(of, removals, sheet, plan), of->general,
                  &of->ledger);
}

static void test_cases(void)
{
    for (size_t n = 0; n < budget_case_count; n++) {
        const struct budget_case *of = &budget_cases[n];

        if (of->removals != NULL)
            test_case(of, of->removals);
        else
            for (size_t k = 0; k < VERSIONS; k++)
                test_case(of, unpaid[k]);
    }
}

/* ---- general inflation ---- */

/* An investment of 10^9 in years 0 and 1, of which a millionth is 100,000
 * cents; and, in year 1, a removal of as much or of none. */
static void test_generals(const struct removal *removals, uint64_t removed)
{
    static const uint64_t generals[] = {0, 1, 2, 999, 32768, 49999, 50000};
    uint8_t *record = record_of(sheet, 2);
    struct input input;

    put_head(sheet, 2, 0);
    put_lives(record, 1, 1);
    put32(record + INVESTMENT, 1000000000);
    input = (struct input){put_removals(sheet, removals),
                           put_even_plan(plan, 1, 2)};
    for (size_t n = 0; n < COUNT(generals); n++) {
        const uint64_t units = 10000000000000;
        const uint64_t cents = 100000000000 + 100000 * generals[n];
        const struct ledger ledger = {2,
                                      {units, (1 + removed) * units, 0},
                                      {100000000000, (1 + removed) * cents, 0}};

        name_case("two investments, general %" PRIu64, generals[n]);
        expect_ledger(input, generals[n], &ledger);
    }
}

/* ---- each payment by itself ---- */

/* Maintain from 0 to i, renovate from i to j, one replacement from j to the
 * horizon; an activity of length 0 pays nothing. */
struct span {
    unsigned i, j, horizon;
};

static const struct span spans[] = {
    {1, 1, 1},    {0, 1, 1},    {0, 0, 1},       {14, 14, 14}, {0, 14, 14},
    {0, 0, 14},   {4, 9, 14},   {15, 15, 15},    {0, 15, 15},  {0, 0, 15},
    {14, 14, 15}, {13, 14, 15}, {16, 16, 16},    {0, 16, 16},  {0, 0, 16},
    {15, 15, 16}, {14, 15, 16}, {1, 15, 16},     {1, 1, 16},   {15, 16, 16},
    {2, 14, 17},  {14, 16, 17}, {120, 240, 300}, {15, 30, 120}};

/* Eight overhauls of 1 stand for one payment. */
static const unsigned ages[] = {1, 2, 12, 13, 14, 15, 16, 59};

/* The field of an amount; OVERHAULS for all the overhauls. */
static const size_t payments[] = {INVESTMENT, MAINTENANCE, ELECTRICITY,
                                  OVERHAULS, REMOVAL};

/* An amount of 1, at r 0 and without inflation. */
static void pay(struct ledger *ledger, unsigned year)
{
    ledger->units[year] += 10000;
    if (year <= LAST_OF_CENTS)
        ledger->cents[year] += 100;
}

/* What an activity pays that has this payment alone. */
static void pay_all(struct ledger *ledger, size_t payment, unsigned option,
                    unsigned start, unsigned end)
{
    if (payment == INVESTMENT && start < end)
        pay(ledger, start);
    if (payment == REMOVAL && is_removed(option, start, end, ledger->horizon))
        pay(ledger, end);
    for (size_t n = 0; payment == OVERHAULS && n < COUNT(ages); n++)
        if (start + ages[n] < end)
            pay(ledger, start + ages[n]);
    if (payment == MAINTENANCE || payment == ELECTRICITY)
        for (unsigned year = start + 1; year <= end; year++)
            pay(ledger, year);
}

/* Every option is offered; one has this payment. Removal is put later. */
static void make_paying_sheet(unsigned horizon, unsigned option, size_t payment)
{
    uint8_t *record = record_of(sheet, option);

    put_head(sheet, horizon, 0);
    for (unsigned each = 0; each < OPTIONS; each++)
        put_lives(record_of(sheet, each), 1, 120);
    if (payment == OVERHAULS) {
        put(record + OVERHAUL_COUNT, 1, COUNT(ages));
        for (size_t n = 0; n < COUNT(ages); n++)
            put_overhaul(record, n, ages[n], 1);
    } else if (payment != REMOVAL) {
        put32(record + payment, 1);
    }
}

static struct bytes put_span(struct span span)
{
    struct chain chain = {(uint16_t)span.i,
                          (uint16_t)span.j,
                          span.j < span.horizon,
                          {(uint16_t)span.horizon}};

    return put_plan(plan, &chain);
}

static void test_payment(struct span span, unsigned option, size_t payment,
                         const struct removal *removals)
{
    const unsigned years[] = {0, span.i, span.j, span.horizon};
    struct ledger ledger = {.horizon = span.horizon};

    name_case("payment %zu of option %u, i %u, j %u, T %u", payment, option,
              span.i, span.j, span.horizon);
    make_paying_sheet(span.horizon, option, payment);
    pay_all(&ledger, payment, option, years[option], years[option + 1]);
    expect_ledger((struct input){put_removals(sheet, removals), put_span(span)},
                  0, &ledger);
}

/* Removal is of version 2 alone. */
static void test_payment_of(struct span span, unsigned option, size_t payment)
{
    struct removal removals[OPTIONS] = {{0, 0}};

    if (payment == REMOVAL) {
        removals[option].amount = 1;
        test_payment(span, option, payment, removals);
    } else {
        for (size_t n = 0; n < VERSIONS; n++)
            test_payment(span, option, payment, unpaid[n]);
    }
}

static void test_payments(void)
{
    for (size_t n = 0; n < COUNT(spans); n++)
        for (unsigned option = 0; option < OPTIONS; option++)
            for (size_t k = 0; k < COUNT(payments); k++)
                test_payment_of(spans[n], option, payments[k]);
}

/* ---- each yearly payment by itself, with rates ---- */

struct rated {
    const char *name;
    int64_t rate, general;
    struct yearly payment;
};

/* What an activity pays, by steps.c. */
static void pay_rated(struct ledger *ledger, const struct rated *of,
                      unsigned since, unsigned start, unsigned end)
{
    for (unsigned year = start + 1; year <= end; year++) {
        ledger->units[year] =
            units_in(&of->payment, year, since, (uint64_t)of->rate);
        if (year <= LAST_OF_CENTS)
            ledger->cents[year] =
                cents_in(&of->payment, year, since, of->general);
    }
}

static void test_rated_payment(const struct rated *of, struct span span,
                               unsigned option, size_t payment,
                               const struct removal *removals)
{
    const unsigned years[] = {0, span.i, span.j, span.horizon};
    unsigned start = years[option], end = years[option + 1];
    struct ledger ledger = {.horizon = span.horizon};

    name_case("%s payment %zu of option %u, i %u, j %u, T %u", of->name,
              payment, option, span.i, span.j, span.horizon);
    make_paying_sheet(span.horizon, option, payment);
    put32(sheet + RATE, of->rate);
    put_yearly(record_of(sheet, option), payment, &of->payment);
    pay_rated(&ledger, of, new_in(option, payment, start), start, end);
    expect_ledger((struct input){put_removals(sheet, removals), put_span(span)},
                  (uint64_t)of->general, &ledger);
}

/* Each version has half of the payments, and of each one half of the spans. */
static void test_rated_payments(const struct rated *of)
{
    for (size_t n = 0; n < COUNT(spans); n++)
        for (unsigned option = 0; option < OPTIONS; option++) {
            test_rated_payment(of, spans[n], option, MAINTENANCE,
                               unpaid[n % VERSIONS]);
            test_rated_payment(of, spans[n], option, ELECTRICITY,
                               unpaid[(n + 1) % VERSIONS]);
        }
}

/* The second is that of the steep sheet. */
static void test_rates(void)
{
    static const struct rated usual = {
        "usual", 40000, 20000, {1700, -4000, 20000}};
    static const struct rated steep = {
        "steep", 200000, 50000, {1000000000, -40000, 250000}};

    test_rated_payments(&usual);
    test_rated_payments(&steep);
}

/* ---- removals by themselves, with rates ---- */

/* Renovated to a year, then replaced in every so many years up to the horizon,
 * which is the last end. */
struct ends {
    unsigned renovated, years, count;
};

static unsigned last_of(struct ends ends)
{
    return ends.renovated + ends.years * ends.count;
}

static void pay_removal(struct ledger *ledger, const struct removal *of,
                        unsigned end, int64_t rate, int64_t general)
{
    ledger->units[end] += removal_units(of, end, (uint64_t)rate);
    if (end <= LAST_OF_CENTS)
        ledger->cents[end] += removal_cents(of, end, general);
}

/* An even plan of which every end is later by the renovation. */
static struct bytes put_ends(struct ends ends)
{
    struct bytes whole =
        put_even_plan(plan, (uint16_t)ends.years, (uint16_t)ends.count);

    put16(plan + RENOVATED, ends.renovated);
    for (unsigned entry = 0; entry < ends.count; entry++)
        put16(plan + END(entry), ends.renovated + ends.years * (entry + 1));
    return whole;
}

static void test_removals(struct ends ends, const struct removal *removals,
                          int64_t rate, int64_t general)
{
    struct ledger ledger = {.horizon = last_of(ends)};
    unsigned start = 0, end = ends.renovated;

    name_case("removals at %" PRId64 ": renovated to %u, replaced %u times in "
              "%u years",
              rate, ends.renovated, ends.count, ends.years);
    make_paying_sheet(ledger.horizon, 1, REMOVAL);
    put32(sheet + RATE, rate);
    for (unsigned n = 0; n <= ends.count; n++) {
        unsigned option = n == 0 ? 1 : 2;

        if (is_removed(option, start, end, ledger.horizon))
            pay_removal(&ledger, &removals[option], end, rate, general);
        start = end;
        end += ends.years;
    }
    expect_ledger((struct input){put_removals(sheet, removals), put_ends(ends)},
                  (uint64_t)general, &ledger);
}

/* In every year; around year 15, the last with cents; and up to T 300. */
static void test_removals_by_year(void)
{
    static const struct ends ends[] = {
        {0, 1, 300}, {1, 1, 299},  {0, 1, 2},   {0, 2, 1},   {3, 3, 4},
        {14, 1, 1},  {14, 1, 2},   {15, 1, 1},  {15, 15, 1}, {16, 15, 2},
        {0, 15, 1},  {0, 15, 2},   {0, 16, 2},  {0, 5, 3},   {7, 8, 2},
        {120, 1, 1}, {120, 90, 2}, {0, 100, 3}, {15, 0, 0},  {100, 0, 0}};
    static const struct removal usual[OPTIONS] = {
        {77, 0}, {1700, -4000}, {2300, 31000}};
    static const struct removal steep[OPTIONS] = {
        {1000000000, 200000}, {1000000000, 200000}, {999999999, -100000}};

    for (size_t n = 0; n < COUNT(ends); n++) {
        test_removals(ends[n], usual, 40000, 20000);
        test_removals(ends[n], steep, 200000, 50000);
    }
}

/* ---- 300 replacements ---- */

/* An investment of 10^9 every year, which is a tenth less than that of the year
 * before; in cents general inflation adds a twentieth first. */
static void test_falling_investments(const struct removal *removals)
{
    uint8_t *record = record_of(sheet, 2);
    struct ledger ledger = {300, {10000000000000}, {100000000000}};

    name_case("300 investments that fall");
    put_head(sheet, 300, 0);
    put_lives(record, 1, 1);
    put32(record + INVESTMENT, 1000000000);
    put32(record + INVESTMENT_INFLATION, -100000);
    for (unsigned year = 1; year < 300; year++)
        ledger.units[year] = up(ledger.units[year - 1] * 9, 10);
    for (unsigned year = 1; year <= LAST_OF_CENTS; year++)
        ledger.cents[year] = up(up(ledger.cents[year - 1] * 21, 20) * 9, 10);
    expect_ledger((struct input){put_removals(sheet, removals),
                                 put_even_plan(plan, 1, 300)},
                  50000, &ledger);
}

/* Payments of 10^13 units in each year, as in chains.c: three, and with removal
 * four; those of year 0 and of year 300 are one and two. In cents they grow by
 * 26 per cent a year. */
static void test_largest_words(const struct removal *removals,
                               unsigned payments_a_year)
{
    static const uint64_t cents[] = {
        100000000000,  126000000000,  158760000000,  200037600000,
        252047376000,  317579693760,  400150414138,  504189521814,
        635278797486,  800451284834,  1008568618892, 1270796459805,
        1601203539356, 2017516459589, 2542070739083, 3203009131246};
    struct ledger ledger = {300, {10000000000000}, {cents[0]}};

    name_case("largest words");
    for (unsigned year = 1; year < 300; year++)
        ledger.units[year] = payments_a_year * UINT64_C(10000000000000);
    for (unsigned year = 1; year <= LAST_OF_CENTS; year++)
        ledger.cents[year] = payments_a_year * cents[year];
    ledger.units[300] = 20000000000000;
    expect_ledger((struct input){put_sheet(sheet, make_dear_sheet, removals),
                                 put_even_plan(plan, 1, 300)},
                  50000, &ledger);
}

void test_budgets(void)
{
    static const struct removal as_invested[OPTIONS] = {[2] = {1000000000, 0}};

    test_cases();
    test_generals(as_invested, 1);
    test_payments();
    test_rates();
    test_removals_by_year();
    for (size_t n = 0; n < VERSIONS; n++) {
        test_generals(unpaid[n], 0);
        test_falling_investments(unpaid[n]);
        test_largest_words(unpaid[n], 3);
    }
    test_largest_words(dear_removals, 4);
}
