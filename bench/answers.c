/* The answers of the library and of the two C planners, on the benchmark's sheets and on generated ones. */
#include "answers.h"

#include "draw.h"

#include <stdio.h>
#include <stdlib.h>
#include <string.h>

enum { DAMAGED_SHEETS = 6000, ARCS = 12, PLANS = 4, DAMAGED_PLANS = 8 };

static const struct {
    struct shape shape;
    unsigned sheets;
} shapes[] = {
    {{"small", 12, 6, MOST_AMOUNT, -100000, 200000, 0}, 2000},
    {{"middle", 60, 30, MOST_AMOUNT, -100000, 200000, 0}, 1000},
    {{"large", MOST_YEARS, MOST_LIFE, MOST_AMOUNT, -100000, 200000, 0}, 400},
    {{"free", 30, 12, 0, -100000, 200000, 0}, 500},
    {{"equal totals", 30, 12, 2, 0, 0, 0}, 1500},
    {{"ageing, small", 12, 6, MOST_AMOUNT, -100000, 200000, 1}, 1000},
    {{"ageing, large", MOST_YEARS, MOST_LIFE, MOST_AMOUNT, -100000, 200000, 1}, 100},
};

/* The counts of words: none; one too few, enough, and one more; and around twice as many as are enough. */
static const size_t word_counts[] = {0, 300, 301, 302, 601, 602};

/* By kind of call: how many figures would be others if the motors of renovations were new. */
static unsigned long with_old_motors[PLAN + 1];

/* How many would be others without removals; of plans, how many chains. */
static unsigned long with_removals[PLAN + 1];

/* Counts the figure of a call if its renovation costs another one than a replacement with the same record,
 * whose motors are new. */
static void count_motors(enum kind kind, struct bytes sheet, struct arc arc)
{
    const struct planner *by = &planners[PLAIN];
    uint8_t same[NIMOVALSA_SHEET_2_BYTES];
    uint8_t *renovate = record_in(same, sheet.length, RENOVATE);
    uint8_t *replace = record_in(same, sheet.length, REPLACE);
    uint64_t old, new;

    if (arc.option != RENOVATE || arc.start == arc.end)
        return;
    memcpy(same, sheet.at, sheet.length);
    memcpy(replace, renovate, (size_t)(replace - renovate));
    old = by->cost(same, sheet.length, RENOVATE, arc.start, arc.end);
    new = by->cost(same, sheet.length, REPLACE, arc.start, arc.end);
    if (old != new)
        with_old_motors[kind]++;
}

/* The same of the figure of a plan. */
static void count_motors_of_plan(enum kind kind, struct bytes sheet, const uint8_t *plan)
{
    uint64_t i = (uint64_t)get16(plan + MAINTAINED), j = (uint64_t)get16(plan + RENOVATED);

    count_motors(kind, sheet, (struct arc){RENOVATE, i, j});
}

/* The same call on its sheet of version 2 without removals: the answer; a plan also goes to `written`. */
static uint64_t compare_without_removals(struct call call, uint8_t *written)
{
    uint8_t sheet[NIMOVALSA_SHEET_2_BYTES];

    memcpy(sheet, call.sheet.at, sizeof sheet);
    for (size_t option = 0; option < OPTIONS; option++)
        put_removal(sheet, option, 0, 0);
    call.sheet.at = sheet;
    return compare(&call, written);
}

/* Counts the cost or the price if it would be another one without removals. */
static void count_removals(const struct call *call, uint64_t answer)
{
    if (call->sheet.length == NIMOVALSA_SHEET_2_BYTES && compare_without_removals(*call, NULL) != answer)
        with_removals[call->kind]++;
}

/* Counts the plan if it would have another chain without removals. */
static void count_removals_of_plan(const struct call *call, const uint8_t *plan)
{
    size_t chain = NIMOVALSA_PLAN_BYTES(get16(plan + REPLACEMENTS)) - MAINTAINED;
    uint8_t other[LONGEST_PLAN];

    if (call->sheet.length != NIMOVALSA_SHEET_2_BYTES)
        return;
    compare_without_removals(*call, other);
    if (memcmp(plan + MAINTAINED, other + MAINTAINED, chain) != 0)
        with_removals[PLAN]++;
}

/* A copy on the heap that ends where the bytes do. */
static struct bytes copied(const uint8_t *bytes, size_t length)
{
    uint8_t *copy = malloc(length);

    if (copy == NULL && length > 0)
        stop("no memory");
    if (length > 0)
        memcpy(copy, bytes, length);
    return (struct bytes){copy, length};
}

static void dispose(struct bytes bytes)
{
    free((void *)bytes.at);
}

static uint64_t compare_price(struct bytes sheet, const uint8_t *plan, size_t length)
{
    struct bytes copy = copied(plan, length);
    struct call call = pricing_of(sheet, copy);
    uint64_t answer = compare(&call, NULL);

    if (nimovalsa_number(answer) == 0) {
        count_motors_of_plan(PRICE, sheet, plan);
        count_removals(&call, answer);
    }
    dispose(copy);
    return answer;
}

/* The plan, and the plan damaged in several ways. */
static void compare_prices(struct random *random, struct bytes sheet, const uint8_t *plan, size_t length)
{
    compare_price(sheet, plan, length);
    for (size_t k = 0; k < DAMAGED_PLANS; k++) {
        uint8_t damaged[LONGEST_PLAN + 2];

        memcpy(damaged, plan, length);
        compare_price(sheet, damaged, damage_plan(random, damaged, length));
    }
}

/* Plans with each count of words. */
static void compare_word_counts(struct bytes sheet, size_t plan_length)
{
    for (size_t k = 0; k < COUNT(word_counts); k++) {
        struct call call = planning_of(sheet, plan_length, word_counts[k]);

        compare(&call, NULL);
    }
}

/* Plans with buffers long enough, and with shorter ones; the length of the plan, or 0 if there is none. */
static size_t compare_plans(struct bytes sheet, uint8_t *plan)
{
    size_t years = (size_t)get16(sheet.at + HORIZON), length;
    struct call ample = planning_of(sheet, NIMOVALSA_PLAN_BYTES(years), NIMOVALSA_PLAN_WORDS);
    uint64_t answer = compare(&ample, plan);

    compare_word_counts(sheet, ample.plan_length);
    if (nimovalsa_number(answer) != 0)
        return 0;

    count_motors_of_plan(PLAN, sheet, plan);
    count_removals_of_plan(&ample, plan);
    length = NIMOVALSA_PLAN_BYTES(get16(plan + REPLACEMENTS));
    compare_word_counts(sheet, length);
    compare_word_counts(sheet, length - 1);
    if (compare_price(sheet, plan, length) != answer)
        stop("the plan is not priced at its total");
    return length;
}

/* Every call on a sheet that passes the checks. */
static void compare_sheet(struct random *random, uint8_t *bytes)
{
    struct bytes sheet = copied(bytes, length_of(bytes));
    struct call check = checking_of(sheet);
    uint8_t plan[LONGEST_PLAN];
    size_t length;

    if (nimovalsa_number(compare(&check, NULL)) != 0)
        stop("the sheet is refused");
    length = compare_plans(sheet, plan);
    if (length > 0)
        compare_prices(random, sheet, plan, length);
    for (size_t k = 0; k < PLANS; k++)
        compare_prices(random, sheet, plan, draw_plan(random, plan, bytes));
    for (size_t k = 0; k < ARCS; k++) {
        struct call cost = costing_of(sheet, draw_arc(random, bytes));
        uint64_t answer = compare(&cost, NULL);

        if (nimovalsa_number(answer) == 0) {
            count_motors(COST, sheet, cost.arc);
            count_removals(&cost, answer);
        }
    }
    dispose(sheet);
}

/* Every call on bytes that may be refused. */
static void compare_damaged(struct random *random, uint8_t *bytes)
{
    struct bytes sheet = copied(bytes, damage_sheet(random, bytes));
    uint8_t plan[LONGEST_PLAN];
    struct bytes yearly = {plan, put_yearly_plan(plan, within(random, 1, MOST_YEARS))};
    const struct call calls[] = {
        checking_of(sheet),
        costing_of(sheet, (struct arc){REPLACE, 0, (uint64_t)within(random, 0, MOST_LIFE)}),
        pricing_of(sheet, yearly),
        planning_of(sheet, LONGEST_PLAN, NIMOVALSA_PLAN_WORDS),
    };

    for (size_t k = 0; k < COUNT(calls); k++)
        compare(&calls[k], NULL);
    dispose(sheet);
}

static void compare_own_sheets(struct random *random)
{
    static const int64_t horizons[] = {75, 150, 225, 300}, lives[] = {15, 30, 60, 90, 120};
    uint8_t sheet[NIMOVALSA_SHEET_2_BYTES];

    name_case("the paper's sheet");
    make_paper_sheet(sheet);
    compare_sheet(random, sheet);
    for (size_t h = 0; h < COUNT(horizons); h++)
        for (size_t l = 0; l < COUNT(lives); l++) {
            name_case("full sheet, T = %d, lives up to %d", (int)horizons[h], (int)lives[l]);
            make_full_sheet(sheet, horizons[h], lives[l]);
            compare_sheet(random, sheet);
            name_case("the same with removals, T = %d, lives up to %d", (int)horizons[h], (int)lives[l]);
            make_removal_sheet(sheet, horizons[h], lives[l]);
            compare_sheet(random, sheet);
        }
}

/* Each number of document 01's table was answered, 5 to 9 with each option. */
static void expect_every_number(void)
{
    name_case("all calls");
    for (unsigned number = 0; number <= 14; number++)
        for (unsigned option = 0; option <= 3; option++)
            if ((option < 3) == (5 <= number && number <= 9) && answered[number][option] == 0)
                stop("none answered number %u option %u", number, option);
}

/* Some figures of each kind of call would be others if renovating renewed the motors. */
static void expect_old_motors(void)
{
    name_case("all calls");
    for (enum kind kind = COST; kind <= PLAN; kind++)
        if (with_old_motors[kind] == 0)
            stop("no %s tells old motors from new ones", kinds[kind]);
}

/* Some figures of each kind of call, and some chains that are planned, would be others without removals. */
static void expect_removals(void)
{
    name_case("all calls");
    for (enum kind kind = COST; kind <= PLAN; kind++)
        if (with_removals[kind] == 0)
            stop("no %s tells removals from none", kinds[kind]);
}

/* Of the generated sheets, those of each version. */
static unsigned long drawn[3];

static void draw_counted(struct random *random, uint8_t *sheet, const struct shape *shape)
{
    draw_sheet(random, sheet, shape);
    drawn[get16(sheet + VERSION)]++;
}

static void compare_generated_sheets(struct random *random)
{
    uint8_t sheet[LONGEST_SHEET] = {0};

    for (size_t k = 0; k < COUNT(shapes); k++)
        for (unsigned count = 0; count < shapes[k].sheets; count++) {
            name_case("sheet %u of shape %s", count, shapes[k].shape.name);
            draw_counted(random, sheet, &shapes[k].shape);
            compare_sheet(random, sheet);
        }
    for (unsigned count = 0; count < DAMAGED_SHEETS; count++) {
        name_case("damaged sheet %u", count);
        draw_counted(random, sheet, &shapes[count % 2].shape);
        compare_damaged(random, sheet);
    }
}

/* The versions are drawn half and half. */
static void expect_both_versions(void)
{
    unsigned long all = drawn[1] + drawn[2];

    name_case("all calls");
    if (10 * drawn[1] < 4 * all || 10 * drawn[2] < 4 * all)
        stop("%lu sheets of version 1 are drawn and %lu of version 2", drawn[1], drawn[2]);
}

/* What is expected of the calls is expected of those on generated sheets. */
void compare_answers(void)
{
    struct random random = {20180301};

    compare_generated_sheets(&random);
    expect_both_versions();
    expect_every_number();
    expect_old_motors();
    expect_removals();
    compare_own_sheets(&random);
    printf("bench: %lu answers of the library and two C planners compared; "
           "%lu costs, %lu prices and %lu plans would be others if renovating renewed the motors, "
           "%lu costs, %lu prices and %lu plans without removals\n",
           compared, with_old_motors[COST], with_old_motors[PRICE], with_old_motors[PLAN],
           with_removals[COST], with_removals[PRICE], with_removals[PLAN]);
}
