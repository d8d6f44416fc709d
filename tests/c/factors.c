/*
 * nimovalsa_factor at the rates of its table and at others, in every year, and
 * with numbers that are refused. Each answer is compared with the factor that
 * the steps of document 02 give, which are taken here apart from the library.
 */
#include "boundary.h"

#include <inttypes.h>

enum {
    MILLION = 1000000,
    HIGHEST_RATE = 200000,

    /* two numbers that have a second meaning here */
    REFUSED_RATE = 4 * 4 + NO_OPTION,
    REFUSED_YEAR = 13 * 4 + NO_OPTION
};

/* The factor of year 0. */
#define AT_ONCE UINT64_C(1000000000000)

/* Whose factor is asked for now. */
static struct {
    uint64_t rate, year;
} wanted;

static uint64_t give_factor(struct input input)
{
    (void)input;
    return nimovalsa_factor(wanted.rate, wanted.year);
}

struct subject factoring = {"nimovalsa_factor", give_factor,
                            NIMOVALSA_FACTOR_STACK, 0};

/* The call reads no buffer. */
static const struct input nothing = {.sheet = {NULL, 0}};

static void ask(uint64_t rate, uint64_t year)
{
    wanted.rate = rate;
    wanted.year = year;
    name_case("rate %" PRIu64 ", year %" PRIu64, rate, year);
}

static void expect(uint64_t rate, uint64_t year, uint64_t answer)
{
    ask(rate, year);
    expect_answer_here(&factoring, nothing, answer);
}

/* On a stack of either paint: a call that looks up uses the most of it. */
static void expect_looked_up(uint64_t rate, uint64_t year, uint64_t answer)
{
    ask(rate, year);
    expect_answer(&factoring, nothing, answer);
}

/* ---- factors ---- */

/* Those of document 02 for 4 per cent, and others by hand. At 20 per cent the
 * third step gives 578,703,703,704.17; without the roundings before it there
 * would be 578,703,703,703.70. */
static void test_figures(void)
{
    static const struct {
        uint64_t rate, year, factor;
    } figures[] = {
        {40000, 1, 961538461539},  {40000, 2, 924556213019},
        {40000, 3, 888996358673},  {40000, 300, 7762452},
        {20000, 1, 980392156863},  {30000, 1, 970873786408},
        {50000, 1, 952380952381},  {1, 1, 999999000001},
        {200000, 1, 833333333334}, {200000, 2, 694444444445},
        {200000, 3, 578703703705},
    };

    for (size_t n = 0; n < COUNT(figures); n++)
        expect(figures[n].rate, figures[n].year, PRICED(figures[n].factor));
}

/* Nothing is discounted in year 0, nor ever at rate 0. */
static void test_undiscounted(void)
{
    for (uint64_t rate = 0; rate <= HIGHEST_RATE; rate += 1000)
        expect(rate, 0, PRICED(AT_ONCE));
    for (uint64_t year = 0; year <= MOST_YEARS; year++)
        expect(0, year, PRICED(AT_ONCE));
}

/* After a plain step without inflation for each year. Before the division it is
 * 10^18 at most. */
static uint64_t factor_of(uint64_t rate, uint64_t year)
{
    uint64_t factor = AT_ONCE;

    for (uint64_t now = 1; now <= year; now++)
        factor = up(factor * MILLION, MILLION + rate);
    return factor;
}

typedef void expectation(uint64_t rate, uint64_t year, uint64_t answer);

static void test_years(uint64_t rate, expectation *expect_factor)
{
    for (uint64_t year = 0; year <= MOST_YEARS; year++)
        expect_factor(rate, year, PRICED(factor_of(rate, year)));
}

static void test_table(void)
{
    static const uint64_t rates[] = {20000, 30000, 40000, 50000};

    for (size_t n = 0; n < COUNT(rates); n++)
        test_years(rates[n], expect_looked_up);
}

/* The limits, the rates beside those of the table, and rates between. In the
 * last four the low 16 bits are a rate of the table. */
static void test_stepped(void)
{
    static const uint64_t rates[] = {
        0,      1,      2,      10000, 60000,  199999, 200000, 19999,  20001,
        29999,  30001,  39999,  40001, 49999,  50001,  7,      256,    5000,
        25000,  35000,  45000,  65535, 65536,  72500,  99999,  100000, 123457,
        131072, 150001, 187500, 85536, 105536, 161072, 171072,
    };

    for (size_t n = 0; n < COUNT(rates); n++)
        test_years(rates[n], expect);
}

/* Rates up to the highest, with the years from 1 to 300 in turn. The painted
 * stack costs too much time for every rate; tests/peer has them all. */
static void test_rates(void)
{
    uint64_t year = 0;

    for (uint64_t rate = 0; rate <= HIGHEST_RATE; rate += 23) {
        year = year % MOST_YEARS + 1;
        expect(rate, year, PRICED(factor_of(rate, year)));
    }
}

/* ---- refusals ---- */

static const uint64_t good_rates[] = {0,     1,     20000, 30000, 40000,
                                      40001, 50000, 60000, 200000};
static const uint64_t good_years[] = {0, 1, 5, 150, 300};

/* In most the low bits are those of a good rate. With 2^64 - 1,000,000 a step
 * would divide by 0. */
static const uint64_t high_rates[] = {
    200001,          200002,
    250000,          BIT(16) * 4 + 40000,
    BIT(24) + 60000, BIT(31) + 20000,
    BIT(32) - 1,     BIT(32),
    BIT(32) + 40000, BIT(33) + 200000,
    BIT(48) + 30000, BIT(63),
    BIT(63) + 50000, UINT64_MAX - 999999,
    UINT64_MAX - 1,  UINT64_MAX,
};

/* In most the low bits are those of a good year. */
static const uint64_t late_years[] = {
    301,         302,           BIT(9),        BIT(9) + 5,
    BIT(16) - 1, BIT(16),       BIT(16) + 5,   BIT(16) + 300,
    BIT(24) + 1, BIT(31) + 150, BIT(32) - 1,   BIT(32),
    BIT(32) + 5, BIT(63),       BIT(63) + 300, UINT64_MAX,
};

static void expect_each(const uint64_t *rates, size_t rate_count,
                        const uint64_t *years, size_t year_count,
                        uint64_t answer)
{
    for (size_t n = 0; n < rate_count; n++)
        for (size_t m = 0; m < year_count; m++)
            expect(rates[n], years[m], answer);
}

/* The rate is looked at first. */
static void test_refused(void)
{
    expect_each(high_rates, COUNT(high_rates), good_years, COUNT(good_years),
                REFUSED_RATE);
    expect_each(good_rates, COUNT(good_rates), late_years, COUNT(late_years),
                REFUSED_YEAR);
    expect_each(high_rates, COUNT(high_rates), late_years, COUNT(late_years),
                REFUSED_RATE);
}

/* Good numbers with one bit more. 2^17 and 2^8 are good numbers themselves. */
static void test_upper_bits(void)
{
    for (unsigned bit = 18; bit < 64; bit++)
        for (size_t n = 0; n < COUNT(good_rates); n++)
            expect(BIT(bit) + good_rates[n], 5, REFUSED_RATE);
    for (unsigned bit = 9; bit < 64; bit++)
        for (size_t n = 0; n < COUNT(good_years); n++) {
            expect(40000, BIT(bit) + good_years[n], REFUSED_YEAR);
            expect(60000, BIT(bit) + good_years[n], REFUSED_YEAR);
        }
}

void test_factors(void)
{
    test_figures();
    test_undiscounted();
    test_table();
    test_stepped();
    test_rates();
    test_refused();
    test_upper_bits();
}
