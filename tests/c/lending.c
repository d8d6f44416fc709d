/*
 * nimovalsa_plan with the buffers it may write. Plan and words stand in two
 * rooms between unreadable pages; they end where the room ends, or begin where
 * it begins. Both rooms are filled with noise before the call and compared
 * whole after it: every byte is as the outcome says, or as it was. Each call
 * meets other noise.
 */
#include "boundary.h"

#include <string.h>

static struct room plan_room, words_room;

/* What the rooms are to hold after the call. */
static unsigned char plan_after[LONGEST_LENT_PLAN * 4];
static unsigned char words_after[MOST_LENT_WORDS * 8];

/* The buffers of the call that is made now. */
static struct {
    uint8_t *plan;
    size_t plan_length;
    uint64_t *words;
    size_t words_count;
} now;

static uint64_t plan_chain(struct input input)
{
    return nimovalsa_plan(input.sheet.at, input.sheet.length, now.plan,
                          now.plan_length, now.words, now.words_count);
}

struct subject planning = {"nimovalsa_plan", plan_chain, NIMOVALSA_PLAN_STACK,
                           0};

void start_lending(void)
{
    plan_room = make_open_room(sizeof plan_after);
    words_room = make_open_room(sizeof words_after);
    stop_unless(plan_room.bytes == sizeof plan_after, "size of the plan room");
    stop_unless(words_room.bytes == sizeof words_after,
                "size of the words room");
}

/* ---- one call ---- */

/* Distances from the beginning of the rooms, in bytes. */
struct place {
    size_t plan, words;
};

static void lend(struct lent lent, struct place place)
{
    stop_unless(place.plan + lent.plan_length <= plan_room.bytes &&
                    place.words + 8 * lent.words_count <= words_room.bytes,
                "lending");
    fill_with_noise(plan_room, plan_after);
    fill_with_noise(words_room, words_after);
    now.plan = plan_room.begin + place.plan;
    now.plan_length = lent.plan_length;
    now.words = (uint64_t *)(void *)(words_room.begin + place.words);
    now.words_count = lent.words_count;
}

/* Writes into what is expected; the rooms are left. */
static void write_expected(struct place place, struct outcome outcome)
{
    const struct tails *tails = outcome.tails;

    if (outcome.plan.length > 0)
        memcpy(plan_after + place.plan, outcome.plan.at, outcome.plan.length);
    if (tails != NULL)
        memcpy(words_after + place.words, tails->totals,
               8 * (tails->horizon + 1));
}

static void compare_rooms(void)
{
    stop_unless(memcmp(plan_room.begin, plan_after, plan_room.bytes) == 0,
                "comparison of the plan buffer and what is around it");
    stop_unless(memcmp(words_room.begin, words_after, words_room.bytes) == 0,
                "comparison of the words and what is around them");
}

static struct place at_end(struct lent lent)
{
    return (struct place){plan_room.bytes - lent.plan_length,
                          words_room.bytes - 8 * lent.words_count};
}

void expect_outcome(struct bytes sheet, struct lent lent,
                    struct outcome outcome)
{
    struct input input = {.sheet = sheet};
    struct place start = {0, 0}, end = at_end(lent);

    lend(lent, end);
    write_expected(end, outcome);
    expect_answer_at_end(&planning, input, outcome.answer);
    compare_rooms();

    lend(lent, start);
    write_expected(start, outcome);
    expect_answer_at_start(&planning, input, outcome.answer);
    compare_rooms();
}

void expect_outcome_of_years(struct bytes sheet, struct lent lent,
                             struct outcome outcome)
{
    struct lent there = {lent.plan_length, outcome.tails->horizon + 1};
    struct place end = at_end(there);

    lend(there, end);
    now.words_count = lent.words_count;
    write_expected(end, outcome);
    expect_answer_at_end(&planning, (struct input){.sheet = sheet},
                         outcome.answer);
    compare_rooms();
}

void expect_outcome_at(struct bytes sheet, struct lent lent,
                       size_t sheet_offset, size_t plan_offset,
                       struct outcome outcome)
{
    struct place place = {plan_offset, 0};

    lend(lent, place);
    write_expected(place, outcome);
    expect_answer_at(&planning, (struct input){.sheet = sheet}, sheet_offset, 0,
                     outcome.answer);
    compare_rooms();
}

void expect_outcome_with_null(struct bytes sheet, struct lent lent,
                              struct outcome outcome)
{
    struct place place = {0, 0};

    lend(lent, place);
    if (lent.plan_length == 0)
        now.plan = NULL;
    if (lent.words_count == 0)
        now.words = NULL;
    write_expected(place, outcome);
    expect_answer_here(&planning, (struct input){.sheet = sheet},
                       outcome.answer);
    compare_rooms();
}
