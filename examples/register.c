/*
 * An asset register that plans with Nimovalsa.
 *
 * For each asset it prints the chain of activities of least present value, an
 * activity a line; the budget of its first years for the ledger, a year a line,
 * in money of that year and as present value; and what the planner's habit
 * would cost. The pumping station has the figures of the paper's case study;
 * the lock, the bridges, general inflation and all habits are made up.
 *
 * A refusal of an asset's figures, of general inflation or of a habit is
 * printed, and what comes behind it follows: the register has one of the first
 * and one of the last, to show it. The status is 1 if something else goes
 * wrong, among it arcs or years that do not add up to the total of their plan.
 */
#include <nimovalsa.h>
#include <nimovalsa_sheet.h>

#include <inttypes.h>
#include <stdbool.h>
#include <stdio.h>

enum { PLAN_BYTES = NIMOVALSA_PLAN_BYTES(NIMOVALSA_LONGEST_HORIZON) };

/* In millionths a year; the same for all assets. */
enum { GENERAL_INFLATION = 20000 };

/*
 * What the register holds of an option, in euros of year 0, years and
 * millionths a year. It may be kept for any number of years up to its life. An
 * overhaul is due after every period; with period 0 there are none. Removal is
 * paid where a renovation or a replacement ends before the horizon.
 */
struct option {
    uint16_t life;
    uint32_t investment, maintenance, ageing, electricity, overhaul;
    uint16_t period;
    uint32_t removal;
};

/* How many years the planner keeps each; replacements go on to the horizon. */
struct habit {
    uint16_t maintain, renovate, replace;
};

/* The inflations, beyond general inflation, are those of all three options. */
struct asset {
    const char *name;
    uint16_t horizon;
    uint32_t rate;
    int32_t investment_inflation, maintenance_inflation, electricity_inflation;
    struct option maintain, renovate, replace;
    struct habit habit;
};

static const struct asset assets[] = {
    {.name = "pumping station",
     .horizon = 300,
     .rate = 40000,
     .investment_inflation = 10300,
     .maintenance_inflation = 8500,
     .electricity_inflation = 2000,
     .maintain = {.life = 15, .investment = 150000, .maintenance = 70000,
                  .ageing = 15000, .electricity = 15000, .overhaul = 150000,
                  .period = 5},
     .renovate = {.life = 30, .investment = 1125000, .maintenance = 35000,
                  .ageing = 10000, .electricity = 15000, .overhaul = 150000,
                  .period = 10},
     .replace = {.life = 60, .investment = 2500000, .maintenance = 10000,
                 .ageing = 5000, .electricity = 10000, .overhaul = 150000,
                 .period = 15},
     .habit = {.maintain = 15, .renovate = 30, .replace = 51}},
    /* The estimates list removal, of the renovated lock and of a new one. */
    {.name = "lock, narrow chamber",
     .horizon = 200,
     .rate = 30000,
     .investment_inflation = 5000,
     .maintenance_inflation = 5000,
     .electricity_inflation = 2000,
     .maintain = {.life = 20, .investment = 100000, .maintenance = 110000,
                  .ageing = 20000, .electricity = 8000, .overhaul = 600000,
                  .period = 8},
     .renovate = {.life = 40, .investment = 2500000, .maintenance = 60000,
                  .ageing = 15000, .electricity = 8000, .overhaul = 500000,
                  .period = 15, .removal = 800000},
     .replace = {.life = 100, .investment = 9000000, .maintenance = 40000,
                 .ageing = 5000, .electricity = 6000, .overhaul = 400000,
                 .period = 20, .removal = 1500000},
     .habit = {.maintain = 20, .renovate = 30, .replace = 75}},
    /* The habit is refused: the bridge cannot be maintained for 30 years. */
    {.name = "bridge, fixed span",
     .horizon = 150,
     .rate = 25000,
     .investment_inflation = 4000,
     .maintenance_inflation = 3000,
     .maintain = {.life = 25, .maintenance = 12000, .ageing = 20000,
                  .overhaul = 60000, .period = 10},
     .renovate = {.life = 50, .investment = 600000, .maintenance = 8000,
                  .ageing = 10000, .overhaul = 80000, .period = 15},
     .replace = {.life = 80, .investment = 1800000, .maintenance = 5000,
                 .ageing = 5000, .overhaul = 100000, .period = 20},
     .habit = {.maintain = 30, .renovate = 40, .replace = 80}},
    /* Refused: renovated, its maintenance outgrows the discount rate. */
    {.name = "bridge, swing span",
     .horizon = 150,
     .rate = 25000,
     .investment_inflation = 4000,
     .maintenance_inflation = 6000,
     .electricity_inflation = 2000,
     .maintain = {.life = 20, .investment = 50000, .maintenance = 30000,
                  .ageing = 15000, .electricity = 4000, .overhaul = 90000,
                  .period = 10},
     .renovate = {.life = 40, .investment = 900000, .maintenance = 20000,
                  .ageing = 20000, .electricity = 4000, .overhaul = 120000,
                  .period = 10},
     .replace = {.life = 80, .investment = 3500000, .maintenance = 12000,
                 .ageing = 5000, .electricity = 3000, .overhaul = 150000,
                 .period = 20},
     .habit = {.maintain = 10, .renovate = 40, .replace = 50}},
};

static const char *const options[] = {"maintain", "renovate", "replace"};

/* What a refusal says, by its number. */
static const char *const refusals[] = {
    [1] = "the sheet is neither 278 nor 302 bytes long",
    [2] = "the sheet's mark is wrong, or its version for its length",
    [3] = "the horizon is not from 1 to 300 years",
    [4] = "the discount rate is above 20 per cent",
    [5] = "the lives are not in order, or above 120 years",
    [6] = "an amount is above 10^9",
    [7] = "an inflation is below -10 per cent, or above the discount rate",
    [8] = "an ageing is above 30 per cent, or with its inflation above the "
          "discount rate",
    [9] = "there are more than 8 overhauls, or one is out of order or of range",
    [10] = "too few words are lent",
    [11] = "no chain of activities leads to the horizon",
    [12] = "the buffer is too short for the plan",
    [13] = "the option is not offered from that year to that year",
    [14] = "the chain is not feasible",
    [15] = "general inflation is above 5 per cent",
    [16] = "too few words are lent for the years",
};

/*
 * The overhauls due before the end of the life. They are all counted, so the
 * check refuses an option that has more of them than a sheet can hold.
 */
static void put_overhauls(struct nimovalsa_record *record,
                          const struct option *of)
{
    for (unsigned age = of->period; age > 0 && age < of->life;
         age += of->period) {
        unsigned entry = record->overhaul_count++;

        if (entry < NIMOVALSA_OVERHAULS) {
            record->overhauls[entry].age = (uint16_t)age;
            record->overhauls[entry].amount = of->overhaul;
        }
    }
}

static struct nimovalsa_record record_of(const struct asset *asset,
                                         const struct option *of)
{
    struct nimovalsa_record record = {
        .shortest_life = 1,
        .longest_life = of->life,
        .investment = of->investment,
        .investment_inflation = asset->investment_inflation,
        .maintenance = of->maintenance,
        .maintenance_inflation = asset->maintenance_inflation,
        .maintenance_ageing = of->ageing,
        .electricity = of->electricity,
        .electricity_inflation = asset->electricity_inflation,
        .overhaul_inflation = asset->investment_inflation,
        .removal = of->removal,
        .removal_inflation = asset->investment_inflation,
    };

    put_overhauls(&record, of);
    return record;
}

/* Version 2 has a place for removals; with none it plans as version 1 does. */
static void put_sheet(const struct asset *asset,
                      uint8_t bytes[NIMOVALSA_SHEET_2_BYTES])
{
    struct nimovalsa_sheet sheet = {
        .version = 2,
        .horizon = asset->horizon,
        .rate = asset->rate,
        .options = {
            [NIMOVALSA_MAINTAIN] = record_of(asset, &asset->maintain),
            [NIMOVALSA_RENOVATE] = record_of(asset, &asset->renovate),
            [NIMOVALSA_REPLACE] = record_of(asset, &asset->replace),
        },
    };

    nimovalsa_sheet_encode(&sheet, bytes);
}

static bool refused(uint64_t answer)
{
    return nimovalsa_number(answer) != 0;
}

/* Refusals 5 to 9 concern one option; the others come with option 3. */
static void print_refusal(const char *what, uint64_t answer)
{
    unsigned number = nimovalsa_number(answer);
    unsigned option = nimovalsa_option(answer);

    printf("  %s refused, number %u, option %u%s%s: %s\n", what, number, option,
           option < NIMOVALSA_OPTIONS ? ", " : "",
           option < NIMOVALSA_OPTIONS ? options[option] : "", refusals[number]);
}

/* What must not happen; answers false. */
static bool fault(const char *what)
{
    fprintf(stderr, "register: %s\n", what);
    return false;
}

static void print_cents(uint64_t cents)
{
    printf("%10" PRIu64 ".%02" PRIu64 " euros", cents / 100, cents % 100);
}

/* Units in cents, rounded up, so that none is understated; 100 to a cent. */
static void print_euros(uint64_t units)
{
    print_cents((units + 99) / 100);
}

static void print_amount(const char *what, uint64_t units)
{
    printf("  %-26s", what);
    print_euros(units);
}

static void print_arc(unsigned option, uint16_t start, uint16_t end,
                      uint64_t units)
{
    printf("  %-9s year %3u to %3u ", options[option], start, end);
    print_euros(units);
    putchar('\n');
}

/* Arc k of a chain runs from border k to border k + 1. */
static uint16_t border(const struct nimovalsa_chain *chain, unsigned k)
{
    if (k < 3) {
        const uint16_t first[] = {0, chain->i, chain->j};

        return first[k];
    }
    return chain->ends[k - 3];
}

/*
 * Prints the arcs of a chain, but those of no years, which cost nothing, and
 * its total. Each line is rounded up to cents by itself; in units the arcs
 * must add up to the total.
 */
static bool show_chain(const uint8_t *sheet,
                       const struct nimovalsa_chain *chain)
{
    uint64_t sum = 0;

    for (unsigned k = 0; k < chain->count + 2u; k++) {
        unsigned option = k < NIMOVALSA_REPLACE ? k : NIMOVALSA_REPLACE;
        uint16_t start = border(chain, k), end = border(chain, k + 1);
        uint64_t answer =
            nimovalsa_cost(sheet, NIMOVALSA_SHEET_2_BYTES, option, start, end);

        if (refused(answer)) {
            print_refusal("arc", answer);
            return fault("an arc of a plan is refused");
        }
        if (start < end)
            print_arc(option, start, end, nimovalsa_total(answer));
        sum += nimovalsa_total(answer);
    }
    print_amount("least total", chain->total);
    putchar('\n');
    return sum == chain->total || fault("the arcs do not add up to the total");
}

/*
 * Prints what is paid in each of the first years. The left column is money of
 * that year, the right one present value: one is never added to the other.
 */
static void print_years(const uint64_t *units, const uint64_t *cents,
                        unsigned last)
{
    printf("  budget, with general inflation of %.1f per cent a year\n",
           GENERAL_INFLATION / 10000.0);
    printf("           %19s   %19s\n", "money of the year", "present value");
    for (unsigned year = 0; year <= last; year++) {
        printf("  year %3u ", year);
        print_cents(cents[year]);
        printf("   ");
        print_euros(units[year]);
        putchar('\n');
    }
}

/*
 * Prints the sum of the present values, in their column. Each line is rounded
 * up to cents by itself; in units the years must add up to the total.
 */
static bool add_years(const uint64_t *units, unsigned horizon, uint64_t total)
{
    uint64_t sum = 0;

    for (unsigned year = 0; year <= horizon; year++)
        sum += units[year];
    printf("  years 0 to %-20u", horizon);
    print_euros(sum);
    putchar('\n');
    return sum == total || fault("the years do not add up to the total");
}

/* The budget of a plan; general inflation may be refused, with 15. */
static bool show_budget(const uint8_t *sheet, const uint8_t *plan,
                        unsigned horizon, const struct nimovalsa_chain *chain)
{
    uint64_t units[NIMOVALSA_BUDGET_UNITS], cents[NIMOVALSA_BUDGET_CENTS];
    unsigned last = NIMOVALSA_BUDGET_CENTS - 1;
    uint64_t answer = nimovalsa_budget(
        sheet, NIMOVALSA_SHEET_2_BYTES, plan,
        NIMOVALSA_PLAN_BYTES(chain->count), GENERAL_INFLATION, units,
        NIMOVALSA_BUDGET_UNITS, cents, NIMOVALSA_BUDGET_CENTS);

    if (refused(answer)) {
        print_refusal("budget", answer);
        return nimovalsa_number(answer) == 15 || fault("a budget is refused");
    }
    print_years(units, cents, horizon < last ? horizon : last);
    return add_years(units, horizon, chain->total);
}

/* The last replacement is given up at the horizon, however young it is. */
static struct nimovalsa_chain chain_of(const struct habit *habit,
                                       uint16_t horizon)
{
    struct nimovalsa_chain chain = {
        .i = habit->maintain,
        .j = (uint16_t)(habit->maintain + habit->renovate),
    };
    unsigned end = chain.j;

    while (end < horizon && chain.count < NIMOVALSA_LONGEST_HORIZON) {
        end += habit->replace;
        if (end > horizon)
            end = horizon;
        chain.ends[chain.count++] = (uint16_t)end;
    }
    return chain;
}

/* What a habit costs more than the plan; it cannot cost less. */
static bool compare(uint64_t total, uint64_t least)
{
    uint64_t above = total - least;

    print_amount("total", total);
    putchar('\n');
    if (total < least)
        return fault("a habit costs less than the least total");
    print_amount("above the least total", above);
    if (least > 0)
        printf(", %.1f per cent", 100.0 * (double)above / (double)least);
    putchar('\n');
    return true;
}

/* Prices the habit beside the least total; a chain may be refused, with 14. */
static bool show_habit(const uint8_t *sheet, const struct asset *asset,
                       uint64_t least)
{
    const struct habit *habit = &asset->habit;
    struct nimovalsa_chain chain = chain_of(habit, asset->horizon);
    uint8_t bytes[PLAN_BYTES];
    size_t length = nimovalsa_plan_encode(&chain, bytes, sizeof bytes);
    uint64_t answer =
        nimovalsa_price(sheet, NIMOVALSA_SHEET_2_BYTES, bytes, length);

    printf("  habit: maintain %u years, renovate %u, replace every %u\n",
           habit->maintain, habit->renovate, habit->replace);
    if (!refused(answer))
        return compare(nimovalsa_total(answer), least);
    print_refusal("habit", answer);
    return nimovalsa_number(answer) == 14 || fault("a sheet is refused late");
}

/* Plans a sheet that passes its check; there may be no chain, refusal 11. */
static bool show_plan(const uint8_t *sheet, const struct asset *asset)
{
    uint64_t words[NIMOVALSA_PLAN_WORDS];
    uint8_t bytes[PLAN_BYTES];
    struct nimovalsa_chain chain;
    uint64_t answer =
        nimovalsa_plan(sheet, NIMOVALSA_SHEET_2_BYTES, bytes, sizeof bytes,
                       words, NIMOVALSA_PLAN_WORDS);

    if (refused(answer)) {
        print_refusal("planning", answer);
        return nimovalsa_number(answer) == 11 || fault("planning is refused");
    }
    if (!nimovalsa_plan_decode(bytes, sizeof bytes, &chain))
        return fault("a plan cannot be read");
    return show_chain(sheet, &chain) &&
           show_budget(sheet, bytes, asset->horizon, &chain) &&
           show_habit(sheet, asset, chain.total);
}

static bool show_asset(const struct asset *asset)
{
    uint8_t sheet[NIMOVALSA_SHEET_2_BYTES];
    uint64_t answer;

    printf("%s, %u years\n", asset->name, asset->horizon);
    put_sheet(asset, sheet);
    answer = nimovalsa_check(sheet, sizeof sheet);
    if (!refused(answer))
        return show_plan(sheet, asset);
    print_refusal("sheet", answer);
    return true;
}

int main(void)
{
    bool good = true;

    for (size_t k = 0; k < sizeof assets / sizeof *assets; k++)
        good = show_asset(&assets[k]) && good;
    if (fflush(stdout) != 0)
        good = fault("the output cannot be written");
    return good ? 0 : 1;
}
