/* The tables of times. */
#include "tables.h"

#include "timing.h"

#include <stdio.h>

/* The compiler's flags, for the head of the tables. */
#ifndef FLAGS
#define FLAGS "with flags not named"
#endif

/* ---- the head ---- */

static void print_processor(void)
{
    char line[300], name[200] = "unknown";
    FILE *file = fopen("/proc/cpuinfo", "r");

    while (file != NULL && fgets(line, sizeof line, file) != NULL)
        if (sscanf(line, "model name : %199[^\n]", name) == 1)
            break;
    if (file != NULL)
        fclose(file);
    printf("Processor  %s\n", name);
}

static void print_head(void)
{
    print_processor();
    printf("library    target/staticlib/libnimovalsa.a, made by rt lib\n"
           "plain C    the same method in C, dividing by /; gcc %s %s\n"
           "C, recip.  the same text, dividing as the library does\n\n"
           "Processor time of one call: the median of %d rounds in which the three take turns, each round\n"
           "at least 1 ms of calls. A ratio is the library's time over that of the C planner.\n",
           __VERSION__, FLAGS, ROUNDS);
}

/* ---- the calls ---- */

static uint8_t paper_bytes[NIMOVALSA_SHEET_BYTES], full_bytes[NIMOVALSA_SHEET_BYTES];
static uint8_t removal_bytes[NIMOVALSA_SHEET_2_BYTES];
static const struct bytes paper = {paper_bytes, sizeof paper_bytes}, full = {full_bytes, sizeof full_bytes},
                          removal = {removal_bytes, sizeof removal_bytes};

static struct call ample_planning_of(struct bytes sheet)
{
    size_t years = (size_t)get16(sheet.at + HORIZON);

    return planning_of(sheet, NIMOVALSA_PLAN_BYTES(years), NIMOVALSA_PLAN_WORDS);
}

static void print_time(double nanoseconds, int in_microseconds)
{
    double time = in_microseconds ? nanoseconds / 1000 : nanoseconds;

    printf("%9.*f %s", time < 100 ? 2 : 1, time, in_microseconds ? "µs" : "ns");
}

static void print_row(const char *name, struct call call)
{
    struct times times;

    name_case("%s", name);
    times = times_of(&call);
    printf("%-42s", name);
    for (size_t p = 0; p < PLANNERS; p++)
        print_time(times.of[p], times.of[LIBRARY] >= 1000);
    printf("%10.2f%11.2f\n", times.of[LIBRARY] / times.of[PLAIN], times.of[LIBRARY] / times.of[RECIPROCAL]);
    fflush(stdout);
}

static void print_plan_rows(void)
{
    print_row("plan (a), the paper's case study", ample_planning_of(paper));
    make_full_sheet(full_bytes, 300, 120);
    print_row("plan (b), T = 300, lives 1 to 120", ample_planning_of(full));
    make_full_sheet(full_bytes, 150, 120);
    print_row("plan (c), the same with T = 150", ample_planning_of(full));
    make_full_sheet(full_bytes, 75, 120);
    print_row("plan (c), the same with T = 75", ample_planning_of(full));
    print_row("plan (d), (b) with removals, version 2", ample_planning_of(removal));
}

static void print_cost_rows(void)
{
    make_full_sheet(full_bytes, 300, 120);
    print_row("cost on (a), maintain from 0 to 15", costing_of(paper, (struct arc){MAINTAIN, 0, 15}));
    print_row("cost on (a), replace from 0 to 60", costing_of(paper, (struct arc){REPLACE, 0, 60}));
    print_row("cost on (a), replace from 240 to 300", costing_of(paper, (struct arc){REPLACE, 240, 300}));
    print_row("cost on (b), renovate from 180 to 300", costing_of(full, (struct arc){RENOVATE, 180, 300}));
    print_row("cost on (b), replace from 180 to 300", costing_of(full, (struct arc){REPLACE, 180, 300}));
    print_row("cost on (b), replace from 0 to 1", costing_of(full, (struct arc){REPLACE, 0, 1}));
}

static void print_price_rows(void)
{
    uint8_t plan[LONGEST_PLAN];
    struct bytes priced = {plan, 0};
    const struct {
        const char *name;
        struct bytes sheet;
    } planned[] = {{"price of the plan of (a)", paper},
                   {"price of the plan of (b)", full},
                   {"price of the plan of (d)", removal}};

    for (size_t k = 0; k < COUNT(planned); k++) {
        struct call call = ample_planning_of(planned[k].sheet);

        compare(&call, plan);
        priced.length = NIMOVALSA_PLAN_BYTES(get16(plan + REPLACEMENTS));
        print_row(planned[k].name, pricing_of(planned[k].sheet, priced));
    }
    priced.length = put_yearly_plan(plan, 300);
    print_row("price on (b) of 300 yearly replacements", pricing_of(full, priced));
}

static void print_calls(void)
{
    printf("\n%-42s%12s%12s%12s%10s%11s\n", "", planners[LIBRARY].name, planners[PLAIN].name,
           planners[RECIPROCAL].name, "/ plain", "/ recip.");
    print_plan_rows();
    print_cost_rows();
    print_price_rows();
    print_row("check of (a)", checking_of(paper));
    print_row("check of (b)", checking_of(full));
}

/* ---- the growth ---- */

struct growth {
    double arcs, time;
};

/* A line of the table; `before` is what the line above has, no arcs if there is none. */
static struct growth print_growth_row(int horizon, int longest, struct growth before)
{
    struct growth growth;
    struct times times;
    struct call call;

    name_case("plan, T = %d, lives 1 to %d", horizon, longest);
    make_full_sheet(full_bytes, horizon, longest);
    call = ample_planning_of(full);
    times = times_of(&call);
    growth = (struct growth){(double)arcs_offered(full_bytes), times.of[LIBRARY]};
    printf("%4d%9d%9.0f", horizon, longest, growth.arcs);
    print_time(growth.time, 1);
    for (size_t p = 0; p < PLANNERS; p++)
        printf("%12.2f", times.of[p] / growth.arcs);
    if (before.arcs > 0)
        printf("%16.2f", (growth.time - before.time) / (growth.arcs - before.arcs));
    putchar('\n');
    fflush(stdout);
    return growth;
}

static void print_growth(void)
{
    static const int horizons[] = {75, 150, 225, 300}, lives[] = {15, 30, 60, 90, 120};
    static const struct growth none = {0, 0};
    struct growth growth = none;

    printf("\nGrowth of plan with the arcs that a sheet offers, on sheets as in (b)\n\n"
           "%4s%9s%9s%12s%36s%16s\n%4s%9s%9s%12s%12s%12s%12s%16s\n",
           "", "", "", "", "ns an arc", "ns an arc more", "T", "longest", "arcs", planners[LIBRARY].name,
           planners[LIBRARY].name, planners[PLAIN].name, planners[RECIPROCAL].name, planners[LIBRARY].name);
    for (size_t k = 0; k < COUNT(horizons); k++)
        growth = print_growth_row(horizons[k], MOST_LIFE, growth);
    putchar('\n');
    growth = none;
    for (size_t k = 0; k < COUNT(lives); k++)
        growth = print_growth_row(MOST_YEARS, lives[k], growth);
}

void print_tables(void)
{
    make_paper_sheet(paper_bytes);
    make_removal_sheet(removal_bytes, MOST_YEARS, MOST_LIFE);
    print_head();
    print_calls();
    print_growth();
}
