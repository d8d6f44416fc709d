/*
 * nimovalsa_plan: which chain is taken, which words are written, and in what
 * order its refusals come, for sheets of both versions and buffers of every
 * length.
 */
#include "boundary.h"

#include <string.h>

static uint8_t sheet[LONGER_SHEET];
static uint8_t plan[LONGEST_LENT_PLAN];
static struct tails tails;

/* The sheet that was made last. */
static struct bytes this_sheet;

/* ---- outcomes ---- */

static struct outcome left(uint64_t answer)
{
    return (struct outcome){answer, NULL, {NULL, 0}};
}

static struct outcome words_written(uint64_t answer)
{
    return (struct outcome){answer, &tails, {NULL, 0}};
}

static struct outcome all_written(struct bytes whole, uint64_t total)
{
    put(plan + PLAN_TOTAL, 8, (int64_t)total);
    return (struct outcome){PRICED(total), &tails, whole};
}

/* Takes a first replacement from a year to an end if it is cheaper. */
static void try_end(unsigned year, unsigned end)
{
    uint64_t cost = nimovalsa_cost(sheet, this_sheet.length, 2, year, end);
    uint64_t total;

    if (nimovalsa_number(cost) != 0 || tails.totals[end] == UINT64_MAX)
        return;
    total = nimovalsa_total(cost) + tails.totals[end];
    if (total < tails.totals[year])
        tails.totals[year] = total;
}

/* The words of this sheet by their definition. The costs are those that
 * nimovalsa_cost answers, which costing.c tests. */
static void compute_tails(void)
{
    unsigned horizon = sheet[HORIZON] + 256u * sheet[HORIZON + 1];

    tails.horizon = horizon;
    tails.totals[horizon] = 0;
    for (unsigned year = horizon; year-- > 0;) {
        tails.totals[year] = UINT64_MAX;
        for (unsigned end = year + 1; end <= horizon; end++)
            try_end(year, end);
    }
}

static void prepare(make_sheet *make, const struct removal *removals)
{
    this_sheet = put_sheet(sheet, make, removals);
    compute_tails();
}

/* ---- on every sheet of the check ---- */

void expect_planning(struct bytes on, uint64_t answer)
{
    uint64_t refused = answer == ACCEPTED ? REFUSED_WORDS : answer;

    expect_outcome(on, (struct lent){0, 0}, left(refused));
    expect_outcome(on, (struct lent){NIMOVALSA_PLAN_BYTES(300), 300},
                   left(refused));
    if (answer != ACCEPTED) {
        expect_outcome(on, (struct lent){0, 301}, left(answer));
        expect_outcome(on, (struct lent){NIMOVALSA_PLAN_BYTES(300), 301},
                       left(answer));
    }
}

/* ---- every length of the buffers ---- */

static void test_plan_length(size_t length, struct outcome full)
{
    expect_outcome(this_sheet, (struct lent){length, NIMOVALSA_PLAN_WORDS},
                   length < full.plan.length ? words_written(REFUSED_SHORT_PLAN)
                                             : full);
}

/* The sheet's chain in every plan length up to three beyond its own, and in
 * longer ones. */
static void test_plan_lengths(const char *name, struct outcome full)
{
    static const size_t longer[] = {619, 620, LONGEST_LENT_PLAN};

    for (size_t length = 0; length <= full.plan.length + 3; length++) {
        name_case("%s, plan buffer of %zu bytes", name, length);
        test_plan_length(length, full);
    }
    for (size_t n = 0; n < COUNT(longer); n++) {
        name_case("%s, plan buffer of %zu bytes", name, longer[n]);
        test_plan_length(longer[n], full);
    }
}

/* The outcome if the words are enough, else refusal 10. */
static void test_word_count(struct lent lent, struct outcome enough)
{
    expect_outcome(this_sheet, lent,
                   lent.words_count < NIMOVALSA_PLAN_WORDS ? left(REFUSED_WORDS)
                                                           : enough);
}

static const size_t word_counts[] = {
    0, 1, 300, 301, 302, 600, 601, 602, 603, 700, MOST_LENT_WORDS};

/* With a plan buffer that is long enough and with none. */
static void test_word_counts(const char *name, struct outcome full)
{
    for (size_t n = 0; n < COUNT(word_counts); n++) {
        size_t count = word_counts[n];

        name_case("%s, %zu words", name, count);
        test_word_count((struct lent){full.plan.length, count}, full);
        test_word_count((struct lent){0, count},
                        words_written(REFUSED_SHORT_PLAN));
    }
}

/* ---- sheets with a chain ---- */

/* All amounts 0: maintain for 1 to 3 years, renovate for 2, replace for 1 to
 * 2, T 7. */
static void make_free_sheet(uint8_t *at)
{
    put_head(at, 7, 0);
    put_lives(record_of(at, 0), 1, 3);
    put_lives(record_of(at, 1), 2, 2);
    put_lives(record_of(at, 2), 1, 2);
}

static void make_short_maintain_sheet(uint8_t *at)
{
    make_free_sheet(at);
    put_lives(record_of(at, 0), 1, 1);
}

static void make_dear_renovate_sheet(uint8_t *at)
{
    make_short_maintain_sheet(at);
    put32(record_of(at, 1) + INVESTMENT, 1);
}

static void make_free_replace_sheet(uint8_t *at)
{
    make_dear_renovate_sheet(at);
    put32(record_of(at, 0) + INVESTMENT, 1);
}

/* The first of ten years is maintained at 7, the rest renovated at 5. */
static void make_renovated_sheet(uint8_t *at)
{
    put_head(at, 10, 0);
    put_lives(record_of(at, 0), 1, 1);
    put32(record_of(at, 0) + INVESTMENT, 7);
    put_lives(record_of(at, 1), 9, 9);
    put32(record_of(at, 1) + INVESTMENT, 5);
}

/* Ten years are 4 of maintain, at 9, and 6 of replace; or 1 of renovate, at 8,
 * and 9 of replace, which is free. */
static void make_either_sheet(uint8_t *at)
{
    put_head(at, 10, 0);
    put_lives(record_of(at, 0), 4, 4);
    put32(record_of(at, 0) + INVESTMENT, 9);
    put_lives(record_of(at, 1), 1, 1);
    put32(record_of(at, 1) + INVESTMENT, 8);
    put_lives(record_of(at, 2), 3, 3);
}

/* Lives 1 to 3, T 7. A replacement costs 1,000 in year 0 and loses a tenth each
 * year; keeping it for three years costs an overhaul of 500. Lives 3, 2 and 2
 * cost 1,000 + 729 + 590.49 + 500; lives 3, 3 and 1 have two overhauls, and
 * lives of at most 2 have four replacements. */
static void make_unequal_lives_sheet(uint8_t *at)
{
    uint8_t *record = record_of(at, 2);

    put_head(at, 7, 0);
    put_lives(record, 1, 3);
    put32(record + INVESTMENT, 1000);
    put32(record + INVESTMENT_INFLATION, -100000);
    put(record + OVERHAUL_COUNT, 1, 1);
    put_overhaul(record, 0, 2, 500);
}

/* Three years are renovated, at 5, or the first of them is maintained, at 100.
 * Electricity keeps 0.9 of its 100 each year, and 0.99 in service. Maintaining
 * saves the 99 of year 1, and no more, as the motors are kept; if renovating
 * brought new ones it would also save 17.7309, and be taken. */
static void make_at_once_sheet(uint8_t *at)
{
    static const struct yearly electricity = {100, -100000, 100000};

    put_head(at, 3, 0);
    put_lives(record_of(at, 0), 1, 1);
    put32(record_of(at, 0) + MAINTENANCE, 100);
    put_lives(record_of(at, 1), 1, 3);
    put32(record_of(at, 1) + INVESTMENT, 5);
    put_yearly(record_of(at, 1), ELECTRICITY, &electricity);
}

/* A replacement costs 1,000 in every year, so 120 years are maintained and 120
 * renovated. Electricity is that of renovating alone, kept level as in
 * costing.c: in year y it is y units above 10,000. */
static void make_late_motors_sheet(uint8_t *at)
{
    static const struct yearly electricity = {1, 0, 40001};

    put_head(at, 300, 40001);
    put_lives(record_of(at, 0), 120, 120);
    put_lives(record_of(at, 1), 120, 120);
    put_yearly(record_of(at, 1), ELECTRICITY, &electricity);
    put_lives(record_of(at, 2), 60, 60);
    put32(record_of(at, 2) + INVESTMENT, 1000);
    put32(record_of(at, 2) + INVESTMENT_INFLATION, 40001);
}

/* T 4, replace for 2 years, at 100 in year 0 and 81 in year 2. Renovate costs
 * 50; kept for more than 2 years it costs an overhaul of 85. */
static void make_either_end_sheet(uint8_t *at)
{
    put_head(at, 4, 0);
    put_lives(record_of(at, 1), 2, 4);
    put32(record_of(at, 1) + INVESTMENT, 50);
    put(record_of(at, 1) + OVERHAUL_COUNT, 1, 1);
    put_overhaul(record_of(at, 1), 0, 2, 85);
    put_lives(record_of(at, 2), 2, 2);
    put32(record_of(at, 2) + INVESTMENT, 100);
    put32(record_of(at, 2) + INVESTMENT_INFLATION, -100000);
}

/* T 3, replace for 1 to 2 years, at 5,000. Maintenance keeps 0.9 of its 10,000
 * each year, and 0.99 in service. Of two replacements, replacing in year 1
 * costs 9,900 + 8,910 + 8,820.9 and in year 2 it costs 9,900 + 9,801 + 8,019,
 * which is 89.1 more. */
static void make_early_replacement_sheet(uint8_t *at)
{
    static const struct yearly maintenance = {10000, -100000, 100000};

    put_head(at, 3, 0);
    put_lives(record_of(at, 2), 1, 2);
    put32(record_of(at, 2) + INVESTMENT, 5000);
    put_yearly(record_of(at, 2), MAINTENANCE, &maintenance);
}

/* Replace for 1 to 100 years, at 7 and 1 for each year. */
static void put_hundred_year_sheet(uint8_t *at, unsigned horizon)
{
    uint8_t *record = record_of(at, 2);

    put_head(at, horizon, 0);
    put_lives(record, 1, 100);
    put32(record + INVESTMENT, 7);
    put32(record + MAINTENANCE, 1);
}

static void make_one_year_sheet(uint8_t *at)
{
    put_hundred_year_sheet(at, 1);
}

static void make_odd_years_sheet(uint8_t *at)
{
    put_hundred_year_sheet(at, 299);
}

struct plan_case {
    make_sheet *make;
    const char *name;
    struct chain chain;
    uint64_t total;
};

/* Where totals tie, the chain is the one that document 01 takes. The totals of
 * cases 10 to 12 are document 01's, and the paper's case study has the chain of
 * its Tables 5 and 6. chains.c derives some of the others and the rest follow
 * from the rules; none was taken from the library. If renovating brought new
 * motors, three chains would be others: renovated from 1 to 4, at 37628227, in
 * "motors"; from 1 to 3, at 2823090, in "at once"; and in "limit" from 2 to 5,
 * where now the first replacement is, at the same total. */
static const struct plan_case plan_cases[] = {
    {make_case_10_sheet, "case 10", {0, 0, 2, {4, 7}}, 0},
    {make_case_11_sheet, "case 11", {0, 0, 2, {2, 3}}, 30000},
    {make_case_12_sheet, "case 12", {0, 0, 2, {2, 4}}, 240000},
    {make_paper_sheet,
     "paper",
     {0, 0, 5, {60, 120, 180, 240, 300}},
     38979215559},
    {make_six_year_sheet, "six years", {3, 4, 1, {6}}, 6772039000},
    {make_three_year_sheet, "three years", {3, 3, 0, {0}}, 310000},
    {make_dear_sheet, "dear", {120, 240, 1, {300}}, 6270000000000000},
    {make_middle_sheet, "middle", {20, 30, 0, {0}}, 198077882},
    {make_limit_sheet,
     "limit",
     {2, 2, 6, {5, 9, 17, 76, 188, 300}},
     173714832058362},
    {make_motors_sheet, "motors", {1, 2, 1, {4}}, 38747910},
    {make_at_once_sheet, "at once", {0, 3, 0, {0}}, 2990399},
    {make_late_motors_sheet, "late motors", {120, 240, 1, {300}}, 11221660},

    {make_free_sheet, "free", {3, 5, 1, {7}}, 0},
    {make_short_maintain_sheet, "short maintain", {1, 3, 2, {5, 7}}, 0},
    {make_dear_renovate_sheet, "dear renovate", {1, 1, 3, {3, 5, 7}}, 0},
    {make_free_replace_sheet, "free replace", {0, 0, 4, {2, 4, 6, 7}}, 0},
    {make_renovated_sheet, "renovated", {1, 10, 0, {0}}, 120000},
    {make_unequal_lives_sheet, "unequal lives", {0, 0, 3, {3, 5, 7}}, 28194900},
    {make_either_sheet, "either", {0, 1, 3, {4, 7, 10}}, 80000},
    {make_either_end_sheet, "either end", {0, 2, 1, {4}}, 1310000},
    {make_early_replacement_sheet, "early", {0, 0, 2, {1, 3}}, 376309000},
    {make_one_year_sheet, "one year", {0, 0, 1, {1}}, 80000},
    {make_odd_years_sheet, "299 years", {0, 0, 3, {100, 200, 299}}, 3200000},
};

/* Their places in the table. */
enum { CASE_12 = 2, PAPER = 3, SIX_YEARS = 4 };

static struct outcome outcome_of(const struct plan_case *of,
                                 const struct removal *removals)
{
    prepare(of->make, removals);
    return all_written(put_plan(plan, &of->chain), of->total);
}

static void test_plan_case(const struct plan_case *of,
                           const struct removal *removals)
{
    struct outcome full = outcome_of(of, removals);

    test_plan_lengths(of->name, full);
    test_word_counts(of->name, full);
    name_case("%s, the plan priced", of->name);
    expect_answer(&pricing, (struct input){this_sheet, full.plan}, full.answer);
}

static void test_plan_cases(void)
{
    for (size_t n = 0; n < COUNT(plan_cases); n++)
        for (size_t k = 0; k < VERSIONS; k++)
            test_plan_case(&plan_cases[n], unpaid[k]);
}

/* ---- removals ---- */

/* Without removals the paper, the limit sheet, the six years, the motors of
 * which the renovation is removed, and those named for 4 and 990 take other
 * chains, which plan_cases has. */
static const struct removal renovated_for_2[OPTIONS] = {[1] = {2, 0}};
static const struct removal renovated_for_3[OPTIONS] = {{7, 0}, {3, 0}, {1, 0}};
static const struct removal renovated_for_4[OPTIONS] = {{7, 0}, {4, 0}, {1, 0}};
static const struct removal replaced_for_2[OPTIONS] = {[2] = {2, 0}};
static const struct removal renovated_for_less[OPTIONS] = {
    {9, 0}, {2, -100000}, {2, 0}};
static const struct removal late_removals[OPTIONS] = {
    {0, 0}, {1000, -3000}, {1000, 0}};
static const struct removal replaced_for_989[OPTIONS] = {
    {7, 0}, {1, 0}, {989, -100000}};
static const struct removal replaced_for_990[OPTIONS] = {
    {7, 0}, {1, 0}, {990, -100000}};
static const struct removal paper_removals[OPTIONS] = {
    {100000, 10300}, {400000, 10300}, {500000, 10300}};
static const struct removal limit_removals[OPTIONS] = {
    {1000000000, 200000}, {1000000000, -100000}, {1000000000, 0}};

struct removed_case {
    struct plan_case of;
    const struct removal *removals;
};

/* Motors: renovating to year 2 saves 1.99 beside a replacement to year 2, less
 * than a removal of 2; one that loses a tenth each year is 1.62 then. Late
 * motors: in year 240 the removal is 410 units. Either end: to renovate to year
 * 2 and then replace is 4 cheaper than to renovate to T, but for the removal.
 * Early: removing in year 2 is cheaper than in year 1 by 0.09 of the removal,
 * which for 989 is 89.01 and for 990 is 89.1. So with 4 and with 990 there is a
 * tie. No total was taken from the library. */
static const struct removed_case removed_cases[] = {
    {{make_case_12_sheet, "case 12, removed", {0, 0, 2, {2, 4}}, 270000},
     case_12_removals},
    {{make_free_four_year_sheet, "four years, removed", {2, 4, 0, {0}}, 0},
     four_year_removals},
    {{make_six_year_sheet, "six years, removed", {3, 3, 1, {6}}, 7590310000},
     digits_removals},
    {{make_three_year_sheet, "three years, removed", {3, 3, 0, {0}}, 310000},
     digits_removals},
    {{make_motors_sheet,
      "motors, renovated for 2",
      {1, 1, 2, {2, 4}},
      38767810},
     renovated_for_2},
    {{make_motors_sheet, "motors, replaced for 2", {1, 2, 1, {4}}, 38747910},
     replaced_for_2},
    {{make_motors_sheet, "motors, both for 2", {1, 2, 1, {4}}, 38764110},
     renovated_for_less},
    {{make_late_motors_sheet,
      "late motors, removed",
      {120, 240, 1, {300}},
      11222070},
     late_removals},
    {{make_either_end_sheet, "either end, 3", {0, 2, 1, {4}}, 1340000},
     renovated_for_3},
    {{make_either_end_sheet, "either end, 4", {0, 4, 0, {0}}, 1350000},
     renovated_for_4},
    {{make_early_replacement_sheet, "early, 989", {0, 0, 2, {1, 3}}, 385210000},
     replaced_for_989},
    {{make_early_replacement_sheet, "early, 990", {0, 0, 2, {2, 3}}, 385219000},
     replaced_for_990},
    {{make_dear_sheet, "dear, removed", {120, 240, 1, {300}}, 6280000000000000},
     dear_removals},
    {{make_paper_sheet,
      "paper, removed",
      {5, 5, 5, {65, 125, 185, 245, 300}},
      40034241348},
     paper_removals},
    {{make_limit_sheet,
      "limit, removed",
      {3, 3, 5, {7, 16, 76, 188, 300}},
      179395755520346},
     limit_removals},
};

static void test_removed_cases(void)
{
    for (size_t n = 0; n < COUNT(removed_cases); n++)
        test_plan_case(&removed_cases[n].of, removed_cases[n].removals);
}

/* ---- the longest plan, the largest totals ---- */

/* T 300, a replacement every year: the longest plan. */
static void make_yearly_sheet(uint8_t *at)
{
    put_head(at, 300, 0);
    put_lives(record_of(at, 2), 1, 1);
    put32(record_of(at, 2) + INVESTMENT, 3);
}

static void test_longest_plan(void)
{
    for (size_t n = 0; n < VERSIONS; n++) {
        prepare(make_yearly_sheet, unpaid[n]);
        test_plan_lengths("300 replacements",
                          all_written(put_even_plan(plan, 1, 300), 9000000));
    }
}

/* The dear sheet with a replacement every year. But for rounding, no total is
 * larger in its version. */
static void make_largest_sheet(uint8_t *at)
{
    make_dear_sheet(at);
    put_lives(record_of(at, 0), 0, 0);
    put_lives(record_of(at, 1), 0, 0);
    put_lives(record_of(at, 2), 1, 1);
}

static void test_largest_total(const struct removal *removals, uint64_t total)
{
    prepare(make_largest_sheet, removals);
    name_case("largest total");
    expect_outcome(this_sheet, (struct lent){NIMOVALSA_PLAN_BYTES(300), 301},
                   all_written(put_even_plan(plan, 1, 300), total));
}

/* ---- sheets without a chain ---- */

/* Maintain ends in year 4, and replace cannot fill the 3 years that are left;
 * nor can it fill all 7. */
static void make_gap_sheet(uint8_t *at)
{
    put_head(at, 7, 0);
    put_lives(record_of(at, 0), 4, 4);
    put_lives(record_of(at, 2), 2, 2);
}

/* The longest lives stop a year before T. */
static void make_early_end_sheet(uint8_t *at)
{
    put_head(at, 241, 0);
    put_lives(record_of(at, 0), 1, 120);
    put_lives(record_of(at, 1), 1, 120);
}

static void make_even_lives_sheet(uint8_t *at)
{
    put_head(at, 299, 0);
    put_lives(record_of(at, 2), 100, 100);
}

/* Every word is written, the last one for the last year. */
static void make_uneven_lives_sheet(uint8_t *at)
{
    put_head(at, 300, 0);
    put_lives(record_of(at, 2), 7, 7);
    put32(record_of(at, 2) + INVESTMENT, 1);
}

struct no_chain_case {
    make_sheet *make;
    const char *name;
};

static const struct no_chain_case no_chain_cases[] = {
    {make_case_9_sheet, "case 9"},
    {make_empty_sheet, "empty sheet"},
    {make_gap_sheet, "gap"},
    {make_early_end_sheet, "early end"},
    {make_even_lives_sheet, "even lives"},
    {make_uneven_lives_sheet, "uneven lives"},
};

/* With any plan buffer, an empty one included: 11 comes before 12, and 10
 * before both. */
static void test_no_chain_of(const struct no_chain_case *of,
                             const struct removal *removals)
{
    static const size_t lengths[] = {0,  1,   18,  19,  20,
                                     21, 618, 619, 620, LONGEST_LENT_PLAN};

    prepare(of->make, removals);
    for (size_t k = 0; k < COUNT(lengths); k++)
        for (size_t n = 0; n < COUNT(word_counts); n++) {
            name_case("%s, plan buffer of %zu bytes, %zu words", of->name,
                      lengths[k], word_counts[n]);
            test_word_count((struct lent){lengths[k], word_counts[n]},
                            words_written(REFUSED_NO_CHAIN));
        }
}

static void test_no_chain(void)
{
    for (size_t n = 0; n < COUNT(no_chain_cases); n++)
        for (size_t k = 0; k < VERSIONS; k++)
            test_no_chain_of(&no_chain_cases[n], unpaid[k]);
}

/* ---- the words ---- */

/* By hand, without the help of costing. */
static void test_words_of_case_9(const struct removal *removals)
{
    static const struct tails by_hand = {
        5, {UINT64_MAX, 0, 0, UINT64_MAX, UINT64_MAX, 0}};

    this_sheet = put_sheet(sheet, make_case_9_sheet, removals);
    name_case("words of case 9");
    expect_outcome(this_sheet, (struct lent){19, 301},
                   (struct outcome){REFUSED_NO_CHAIN, &by_hand, {NULL, 0}});
}

static void test_words_of_case_12(const struct removal *removals,
                                  const struct tails *by_hand)
{
    static const struct chain chain = {0, 0, 2, {2, 4}};
    struct bytes whole = put_plan(plan, &chain);
    uint64_t total = by_hand->totals[0];

    this_sheet = put_sheet(sheet, make_case_12_sheet, removals);
    put(plan + PLAN_TOTAL, 8, (int64_t)total);
    name_case("words of case 12");
    expect_outcome(this_sheet, (struct lent){whole.length, 301},
                   (struct outcome){PRICED(total), by_hand, whole});
}

static void make_maintained_sheet(uint8_t *at)
{
    put_head(at, 2, 0);
    put_lives(record_of(at, 0), 2, 2);
}

/* Replace alone cannot fill any of the years; the chain has none. */
static void test_words_without_replacements(const struct removal *removals)
{
    static const struct tails by_hand = {2, {UINT64_MAX, UINT64_MAX, 0}};
    static const struct chain chain = {2, 2, 0, {0}};

    this_sheet = put_sheet(sheet, make_maintained_sheet, removals);
    name_case("words without replacements");
    expect_outcome(
        this_sheet, (struct lent){19, 301},
        (struct outcome){ACCEPTED, &by_hand,
                         all_written(put_plan(plan, &chain), 0).plan});
}

/* In case 12 one year costs 11, two 12, three 28; 3 more if removed. */
static void test_words(void)
{
    static const struct tails kept = {4, {240000, 230000, 120000, 110000, 0}};
    static const struct tails removed = {4,
                                         {270000, 260000, 120000, 110000, 0}};

    for (size_t n = 0; n < VERSIONS; n++) {
        test_words_of_case_9(unpaid[n]);
        test_words_of_case_12(unpaid[n], &kept);
        test_words_without_replacements(unpaid[n]);
    }
    test_words_of_case_12(case_12_removals, &removed);
}

/* Every count of words, to beyond twice the least that is accepted: on 0, 12
 * and 11. */
static void test_every_word_count(const struct removal *removals)
{
    struct outcome full = outcome_of(&plan_cases[CASE_12], removals);

    for (size_t count = 0; count <= 605; count++) {
        name_case("case 12, %zu words", count);
        test_word_count((struct lent){full.plan.length, count}, full);
        test_word_count((struct lent){full.plan.length - 1, count},
                        words_written(REFUSED_SHORT_PLAN));
    }
    prepare(make_case_9_sheet, removals);
    for (size_t count = 0; count <= 605; count++) {
        name_case("case 9, %zu words", count);
        test_word_count((struct lent){full.plan.length, count},
                        words_written(REFUSED_NO_CHAIN));
    }
}

/* ---- every horizon, by hand ---- */

/* Also with the words from T + 1 on out of reach. */
static void expect_in_words(size_t plan_length, struct outcome outcome)
{
    expect_outcome(this_sheet, (struct lent){plan_length, 301}, outcome);
    expect_outcome_of_years(this_sheet, (struct lent){plan_length, 301},
                            outcome);
    expect_outcome_of_years(this_sheet, (struct lent){plan_length, 602},
                            outcome);
}

static void expect_full_and_short(struct outcome full)
{
    expect_in_words(full.plan.length, full);
    expect_in_words(full.plan.length - 1, words_written(REFUSED_SHORT_PLAN));
}

/* What so many replacements up to T pay for removal, each but the last. */
static uint64_t removed(unsigned count, const struct removal *removals)
{
    if (removals == NULL || count == 0)
        return 0;
    return (count - 1) * (uint64_t)removals[2].amount;
}

/* The fewest replacements cost the least; the last one is the short one. */
static void test_hundred_years(unsigned horizon, const struct removal *removals)
{
    struct chain chain = {0, 0, 0, {0}};

    name_case("replace for up to 100 years, T %u", horizon);
    put_hundred_year_sheet(sheet, horizon);
    this_sheet = put_removals(sheet, removals);
    tails.horizon = horizon;
    for (unsigned years = 0; years <= horizon; years++) {
        unsigned count = (years + 99) / 100;

        tails.totals[horizon - years] =
            10000 * (7 * count + years + removed(count, removals));
    }
    for (unsigned end = 100; end < horizon; end += 100)
        chain.ends[chain.m++] = (uint16_t)end;
    chain.ends[chain.m++] = (uint16_t)horizon;
    expect_full_and_short(all_written(put_plan(plan, &chain), tails.totals[0]));
}

/* Replace for 2 years, at 3: no chain if T is odd. */
static void test_two_years(unsigned horizon, const struct removal *removals)
{
    name_case("replace for 2 years, T %u", horizon);
    put_head(sheet, horizon, 0);
    put_lives(record_of(sheet, 2), 2, 2);
    put32(record_of(sheet, 2) + INVESTMENT, 3);
    this_sheet = put_removals(sheet, removals);
    tails.horizon = horizon;
    for (unsigned years = 0; years <= horizon; years++) {
        unsigned count = years / 2;

        tails.totals[horizon - years] =
            years % 2 == 0 ? 10000 * (3 * count + removed(count, removals))
                           : UINT64_MAX;
    }
    if (horizon % 2 == 0)
        expect_full_and_short(all_written(
            put_even_plan(plan, 2, (uint16_t)(horizon / 2)), tails.totals[0]));
    else
        expect_in_words(0, words_written(REFUSED_NO_CHAIN));
}

/* Replace for a year costs 10, for two years 25. */
static void put_one_or_two_sheet(unsigned horizon,
                                 const struct removal *removals)
{
    uint8_t *record = record_of(sheet, 2);

    put_head(sheet, horizon, 0);
    put_lives(record, 1, 2);
    put32(record + INVESTMENT, 10);
    put(record + OVERHAUL_COUNT, 1, 1);
    put_overhaul(record, 0, 1, 15);
    this_sheet = put_removals(sheet, removals);
    tails.horizon = horizon;
}

/* Two years one by one cost 20, and are the cheaper. */
static void test_one_by_one(unsigned horizon, const struct removal *removals)
{
    name_case("replace every year, T %u", horizon);
    put_one_or_two_sheet(horizon, removals);
    for (unsigned years = 0; years <= horizon; years++)
        tails.totals[horizon - years] = 100000 * years;
    expect_full_and_short(all_written(put_even_plan(plan, 1, (uint16_t)horizon),
                                      tails.totals[0]));
}

/* A removal of 6 makes them 26, and two years are taken together; the last year
 * stands alone if T is odd. */
static void test_two_by_two(unsigned horizon)
{
    static const struct removal removals[OPTIONS] = {[2] = {6, 0}};
    uint16_t m = (uint16_t)((horizon + 1) / 2);
    struct bytes whole = put_even_plan(plan, 2, m);

    name_case("replace every two years, T %u", horizon);
    put16(plan + END(m - 1), horizon);
    put_one_or_two_sheet(horizon, removals);
    for (unsigned years = 0; years <= horizon; years++) {
        unsigned pairs = years / 2, single = years % 2;

        tails.totals[horizon - years] =
            10000 *
            (25 * pairs + 10 * single + removed(pairs + single, removals));
    }
    expect_full_and_short(all_written(whole, tails.totals[0]));
}

static void test_every_horizon(void)
{
    static const struct removal removals[OPTIONS] = {{1, 0}, {2, 0}, {5, 0}};

    for (unsigned horizon = 1; horizon <= MOST_YEARS; horizon++) {
        test_hundred_years(horizon, NULL);
        test_hundred_years(horizon, removals);
        test_two_years(horizon, NULL);
        test_two_years(horizon, removals);
        test_one_by_one(horizon, unpaid[horizon % VERSIONS]);
        test_two_by_two(horizon);
    }
}

/* ---- the memory ---- */

static void test_null(const struct removal *removals)
{
    struct bytes no_sheet = {NULL, 0};

    prepare(make_case_12_sheet, removals);
    name_case("NULL with length 0 for sheet, plan and words");
    expect_outcome_with_null(no_sheet, (struct lent){0, 0},
                             left(REFUSED_LENGTH));
    name_case("NULL with length 0 for the sheet");
    expect_outcome_with_null(no_sheet, (struct lent){30, 301},
                             left(REFUSED_LENGTH));
    name_case("NULL with length 0 for plan and words");
    expect_outcome_with_null(this_sheet, (struct lent){0, 0},
                             left(REFUSED_WORDS));
    name_case("NULL with length 0 for the words");
    expect_outcome_with_null(this_sheet, (struct lent){30, 0},
                             left(REFUSED_WORDS));
    name_case("NULL with length 0 for the plan");
    expect_outcome_with_null(this_sheet, (struct lent){0, 301},
                             words_written(REFUSED_SHORT_PLAN));
    prepare(make_case_9_sheet, removals);
    name_case("NULL with length 0 for the plan, no chain");
    expect_outcome_with_null(this_sheet, (struct lent){0, 301},
                             words_written(REFUSED_NO_CHAIN));
}

static void test_alignments(const struct removal *removals)
{
    struct outcome full = outcome_of(&plan_cases[CASE_12], removals);
    struct lent lent = {full.plan.length, NIMOVALSA_PLAN_WORDS};

    for (size_t of_sheet = 0; of_sheet < 8; of_sheet++)
        for (size_t of_plan = 0; of_plan < 8; of_plan++) {
            name_case("planning, sheet at %zu, plan at %zu modulo 8", of_sheet,
                      of_plan);
            expect_outcome_at(this_sheet, lent, of_sheet, of_plan, full);
        }
}

/* The sheet stands in memory that may be written. */
static void test_sheet_unchanged(const struct removal *removals)
{
    uint8_t before[sizeof sheet];
    struct outcome full = outcome_of(&plan_cases[PAPER], removals);

    name_case("sheet unchanged by planning");
    memcpy(before, sheet, sizeof sheet);
    expect_outcome_with_null(this_sheet, (struct lent){full.plan.length, 301},
                             full);
    stop_unless(memcmp(before, sheet, sizeof sheet) == 0, "comparison");
}

/* Calls leave nothing behind: two sheets in turn, and one of them with and
 * without its removal, each twice. */
static void test_in_turn(void)
{
    const struct removed_case in_turn[] = {
        {plan_cases[CASE_12], NULL},
        {plan_cases[SIX_YEARS], NULL},
        removed_cases[0],
    };

    for (unsigned call = 0; call < 3 * COUNT(in_turn); call++) {
        const struct removed_case *now = &in_turn[call % COUNT(in_turn)];
        struct outcome full = outcome_of(&now->of, now->removals);
        struct lent lent = {full.plan.length, NIMOVALSA_PLAN_WORDS};

        name_case("sheets in turn, call %u", call);
        expect_outcome(this_sheet, lent, full);
        expect_outcome(this_sheet, lent, full);
    }
}

void test_planning(void)
{
    test_plan_cases();
    test_removed_cases();
    test_longest_plan();
    test_largest_total(NULL, UINT64_C(9000000000000000));
    test_largest_total(dear_removals, UINT64_C(11990000000000000));
    test_no_chain();
    test_words();
    test_every_horizon();
    for (size_t n = 0; n < VERSIONS; n++) {
        test_every_word_count(unpaid[n]);
        test_null(unpaid[n]);
        test_alignments(unpaid[n]);
        test_sheet_unchanged(unpaid[n]);
    }
    test_in_turn();
}
