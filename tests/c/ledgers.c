/*
 * nimovalsa_budget with the lists it may write. Units and cents stand in two
 * rooms between unreadable pages; they end where the room ends, or begin where
 * it begins. Both rooms are filled with noise before the call and compared
 * whole after it: every word is that of the ledger, or as it was.
 */
#include "boundary.h"

#include <string.h>

struct list {
    struct room room;
    uint64_t *words;
    size_t count;
    unsigned char after[MOST_LENT_WORDS * 8]; /* what the room is to hold */
};

static struct list units, cents;
static uint64_t general;

static uint64_t budget_plan(struct input input)
{
    return nimovalsa_budget(input.sheet.at, input.sheet.length, input.plan.at,
                            input.plan.length, general, units.words,
                            units.count, cents.words, cents.count);
}

struct subject budgeting = {"nimovalsa_budget", budget_plan,
                            NIMOVALSA_BUDGET_STACK, 0};

static void make_list(struct list *list)
{
    list->room = make_open_room(sizeof list->after);
    stop_unless(list->room.bytes == sizeof list->after, "size of a list room");
}

void start_ledgers(void)
{
    make_list(&units);
    make_list(&cents);
}

size_t units_needed(unsigned horizon)
{
    return horizon + 1;
}

size_t cents_needed(unsigned horizon)
{
    return (horizon < LAST_OF_CENTS ? horizon : LAST_OF_CENTS) + 1;
}

/* ---- one call ---- */

enum side { AT_START, AT_END };

static void lend(struct list *list, size_t count, enum side side)
{
    size_t rest = sizeof list->after - 8 * count;

    stop_unless(count <= MOST_LENT_WORDS, "lending");
    fill_with_noise(list->room, list->after);
    list->words =
        (uint64_t *)(void *)(list->room.begin + (side == AT_END ? rest : 0));
    list->count = count;
}

static void expect_words(struct list *list, const uint64_t *words, size_t count)
{
    size_t at = (size_t)((unsigned char *)list->words - list->room.begin);

    stop_unless(count <= list->count, "an expectation of more words than lent");
    memcpy(list->after + at, words, 8 * count);
}

static void prepare(const struct asked *asked, enum side side,
                    const struct ledger *ledger)
{
    general = asked->general;
    lend(&units, asked->units_count, side);
    lend(&cents, asked->cents_count, side);
    if (ledger != NULL) {
        expect_words(&units, ledger->units, units_needed(ledger->horizon));
        expect_words(&cents, ledger->cents, cents_needed(ledger->horizon));
    }
}

static void compare(const struct list *list, const char *what)
{
    stop_unless(memcmp(list->room.begin, list->after, list->room.bytes) == 0,
                what);
}

static void compare_lists(void)
{
    compare(&units, "comparison of the units and what is around them");
    compare(&cents, "comparison of the cents and what is around them");
}

void expect_budget(struct asked asked, uint64_t answer,
                   const struct ledger *ledger)
{
    prepare(&asked, AT_END, ledger);
    expect_answer_at_end(&budgeting, asked.input, answer);
    compare_lists();

    prepare(&asked, AT_START, ledger);
    expect_answer_at_start(&budgeting, asked.input, answer);
    compare_lists();
}

void expect_budget_at(struct asked asked, size_t sheet_offset,
                      size_t plan_offset, uint64_t answer,
                      const struct ledger *ledger)
{
    prepare(&asked, AT_START, ledger);
    expect_answer_at(&budgeting, asked.input, sheet_offset, plan_offset,
                     answer);
    compare_lists();
}

void expect_budget_with_null(struct asked asked, uint64_t answer,
                             const struct ledger *ledger)
{
    prepare(&asked, AT_START, ledger);
    if (units.count == 0)
        units.words = NULL;
    if (cents.count == 0)
        cents.words = NULL;
    expect_answer_here(&budgeting, asked.input, answer);
    compare_lists();
}
