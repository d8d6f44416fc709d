/*
 * What the files of this folder share: calls of the library between
 * unreadable pages and on a measured stack (harness.c), sheets by field
 * (fields.c, sheets.c), payments by the rules (steps.c), and the tests of each
 * call.
 */
#ifndef BOUNDARY_H
#define BOUNDARY_H

#include "fields.h"

enum {
    NO_OPTION = 3,

    /* answers without a total */
    ACCEPTED = 0 * 4 + NO_OPTION,
    REFUSED_LENGTH = 1 * 4 + NO_OPTION,
    REFUSED_WORDS = 10 * 4 + NO_OPTION,
    REFUSED_NO_CHAIN = 11 * 4 + NO_OPTION,
    REFUSED_SHORT_PLAN = 12 * 4 + NO_OPTION,
    REFUSED_ARC = 13 * 4 + NO_OPTION,
    REFUSED_PLAN = 14 * 4 + NO_OPTION,
    REFUSED_GENERAL = 15 * 4 + NO_OPTION,
    REFUSED_LISTS = 16 * 4 + NO_OPTION,

    LONGEST_SHEET = 4096,
    MOST_ENDS = 65535,
    LONGEST_PLAN = 19 + 2 * MOST_ENDS + 3
};

#define BIT(n) (UINT64_C(1) << (n))

/* ---- harness.c: failure ---- */

/* Names the case that runs now; it is printed with a failure. */
void name_case(const char *format, ...) __attribute__((format(printf, 1, 2)));

void stop_unless(int done, const char *what);

/* ---- harness.c: memory ---- */

/* Memory between two unreadable pages. */
struct room {
    unsigned char *begin;
    size_t bytes; /* a multiple of the page */
};

/* A room of at least so many bytes that may be read and written. */
struct room make_open_room(size_t least);

/* Fills an open room, each time with other noise, and copies what it holds. */
void fill_with_noise(struct room room, unsigned char *copy);

/* ---- harness.c: calls ---- */

/* What a call reads; calls that read no plan get an empty one. */
struct input {
    struct bytes sheet, plan;
};

typedef uint64_t library_call(struct input input);

struct subject {
    const char *name;
    library_call *call;
    size_t stack_named; /* by the header */
    size_t stack_used;  /* the most seen */
};

extern unsigned long calls;

/* Before every other call. */
void start_harness(void);

/* The answer with sheet and plan ending where an unreadable page begins. */
void expect_answer_at_end(struct subject *subject, struct input input,
                          uint64_t answer);

/* The answer with both beginning where an unreadable page ends. */
void expect_answer_at_start(struct subject *subject, struct input input,
                            uint64_t answer);

/* Both of these. */
void expect_answer(struct subject *subject, struct input input,
                   uint64_t answer);

/* The answer with sheet and plan at these distances from their page. */
void expect_answer_at(struct subject *subject, struct input input,
                      size_t sheet_offset, size_t plan_offset, uint64_t answer);

/* The answer with sheet and plan where they are. */
void expect_answer_here(struct subject *subject, struct input input,
                        uint64_t answer);

void test_stack(const struct subject *subject);

/* ---- sheets.c ---- */

/* Makes a sheet of version 1, where there is room for one of version 2. */
typedef void make_sheet(uint8_t *sheet);

/* An option's; the inflation is in millionths a year. */
struct removal {
    int64_t amount, inflation;
};

/* A sheet of version 1 becomes one of version 2 with the removals of the three
 * options; where they are NULL it stays what it is. */
struct bytes put_removals(uint8_t *sheet, const struct removal *removals);

/* The same of a sheet that is made first. */
struct bytes put_sheet(uint8_t *sheet, make_sheet *make,
                       const struct removal *removals);

enum { VERSIONS = 2, LONGER_SHEET = NIMOVALSA_SHEET_2_BYTES };

/* For each version removals with which a sheet pays what version 1 pays: none;
 * and that of maintaining, which is never paid. */
extern const struct removal *const unpaid[VERSIONS];

make_sheet make_middle_sheet, make_limit_sheet, make_empty_sheet,
    make_case_9_sheet, make_case_10_sheet, make_case_11_sheet,
    make_case_12_sheet, make_six_year_sheet, make_three_year_sheet,
    make_dear_sheet, make_motors_sheet, make_free_four_year_sheet;

/* Those of request 6's cases, on case 12 and on the free four years; of the six
 * and the three years, with digits of their own; and of the dear sheet, as
 * large as its payments. */
extern const struct removal case_12_removals[OPTIONS],
    four_year_removals[OPTIONS], digits_removals[OPTIONS],
    dear_removals[OPTIONS];

/* ---- steps.c: payments by the rules ---- */

/* Maintenance or electricity; the rates are in millionths a year. */
struct yearly {
    uint64_t amount;
    int64_t inflation, ageing;
};

/* A quotient rounded up. */
uint64_t up(uint64_t dividend, uint64_t divisor);

/* What is paid in a year for what was new in year since: a step for each year,
 * those after since in service. */
uint64_t units_in(const struct yearly *of, unsigned year, unsigned since,
                  uint64_t rate);
uint64_t cents_in(const struct yearly *of, unsigned year, unsigned since,
                  int64_t general);

/* When what a payment is for was new: renovating keeps the motors of year 0. */
unsigned new_in(unsigned option, size_t payment, unsigned start);

/* Whether an activity pays removal, which it does in its end year. */
int is_removed(unsigned option, unsigned start, unsigned end, unsigned horizon);

/* What it then is: a plain step for each year. */
uint64_t removal_units(const struct removal *of, unsigned year, uint64_t rate);
uint64_t removal_cents(const struct removal *of, unsigned year,
                       int64_t general);

/* The payment is the field of its amount, MAINTENANCE or ELECTRICITY. */
void put_yearly(uint8_t *record, size_t payment, const struct yearly *of);

/* ---- lending.c: planning in watched buffers ---- */

enum { MOST_YEARS = 300, LONGEST_LENT_PLAN = 1024, MOST_LENT_WORDS = 1024 };

/* The words of the years from 0 to a sheet's horizon. */
struct tails {
    unsigned horizon;
    uint64_t totals[MOST_YEARS + 1];
};

/* What a planning call answers and writes. */
struct outcome {
    uint64_t answer;
    const struct tails *tails; /* NULL if the words are left */
    struct bytes plan;         /* empty if the plan is left */
};

/* How long the buffers are that are lent. */
struct lent {
    size_t plan_length, words_count;
};

/* Before every other call of lending.c. */
void start_lending(void);

/* The outcome with sheet, plan and words each ending where an unreadable page
 * begins, and with each beginning where an unreadable page ends. */
void expect_outcome(struct bytes sheet, struct lent lent,
                    struct outcome outcome);

/* The outcome, one that has words, with sheet, plan and the words from 0 to T
 * ending where an unreadable page begins. The other words are lent too, but lie
 * on that page. */
void expect_outcome_of_years(struct bytes sheet, struct lent lent,
                             struct outcome outcome);

/* The outcome with sheet and plan at these distances from their page. */
void expect_outcome_at(struct bytes sheet, struct lent lent,
                       size_t sheet_offset, size_t plan_offset,
                       struct outcome outcome);

/* The outcome with the sheet where it is, and NULL for buffers of length 0. */
void expect_outcome_with_null(struct bytes sheet, struct lent lent,
                              struct outcome outcome);

/* ---- ledgers.c: budgeting in watched lists ---- */

/* The last year that has a word of cents. */
enum { LAST_OF_CENTS = 15 };

/* What the lists hold after an accepted call, in the words that are written. */
struct ledger {
    unsigned horizon;
    uint64_t units[MOST_YEARS + 1], cents[LAST_OF_CENTS + 1];
};

/* What budgeting is given. */
struct asked {
    struct input input;
    uint64_t general;
    size_t units_count, cents_count;
};

/* Before every other call of ledgers.c. */
void start_ledgers(void);

/* How many words are written of each list. */
size_t units_needed(unsigned horizon);
size_t cents_needed(unsigned horizon);

/* The answer, and both lists as the ledger has them, or as they were if it is
 * NULL; with sheet, plan and lists each ending where an unreadable page begins,
 * and with each beginning where an unreadable page ends. */
void expect_budget(struct asked asked, uint64_t answer,
                   const struct ledger *ledger);

/* The same with sheet and plan at these distances from their page. */
void expect_budget_at(struct asked asked, size_t sheet_offset,
                      size_t plan_offset, uint64_t answer,
                      const struct ledger *ledger);

/* The same with sheet and plan where they are, and NULL for empty lists. */
void expect_budget_with_null(struct asked asked, uint64_t answer,
                             const struct ledger *ledger);

/* ---- the tests of each call ---- */

extern struct subject checking, costing, pricing, planning, budgeting,
    factoring;

void test_checking(void);
void test_costing(void);
void test_chains(void);  /* pricing, by the plan's chain */
void test_pricing(void); /* pricing, by the plan's bytes */
void test_planning(void);
void test_budgets(void);   /* budgeting, by what the lists hold */
void test_budgeting(void); /* budgeting, by its refusals and buffers */
void test_factors(void);

/* On a sheet where checking answers this, the other calls answer the same if
 * it is a refusal, whatever the arc, plan or buffers. On an accepted sheet the
 * empty arc costs 0; a faulty arc or plan, or too few words, are refused. */
void expect_costing(struct bytes sheet, uint64_t answer);
void expect_pricing(struct bytes sheet, uint64_t answer);
void expect_planning(struct bytes sheet, uint64_t answer);
void expect_budgeting(struct bytes sheet, uint64_t answer);

/* ---- chains.c ---- */

struct chain {
    uint16_t i, j, m;
    uint16_t ends[6];
};

enum {
    /* a plan; its mark and version are where the sheet has them */
    PLAN_TOTAL = 5,
    MAINTAINED = 13,
    RENOVATED = 15,
    REPLACEMENTS = 17,
    ENDS = 19
};

/* An accepted answer. */
#define PRICED(units) (UINT64_C(256) * (units) + ACCEPTED)

#define END(entry) (ENDS + 2 * (entry))

/* The plan of a chain; its total field holds 77, which is no chain's total. */
struct bytes put_plan(uint8_t *plan, const struct chain *chain);

/* The same of m replacements from year 0 on, of that many years each. */
struct bytes put_even_plan(uint8_t *plan, uint16_t years, uint16_t m);

/* ---- budgets.c ---- */

/* A chain on a sheet whose horizon is that of the ledger. Without removals the
 * ledger is that of both versions. */
struct budget_case {
    make_sheet *make;
    const struct removal *removals;
    const char *name;
    struct chain chain;
    uint64_t general;
    struct ledger ledger;
};

extern const struct budget_case budget_cases[];
extern const size_t budget_case_count;

/* Makes the plan of a case, and its sheet with these removals. */
struct input put_budget_case(const struct budget_case *of,
                             const struct removal *removals, uint8_t *sheet,
                             uint8_t *plan);

/* An accepted answer: the total is what the units add up to. */
uint64_t answer_of(const struct ledger *ledger);

#endif
