/* Arcs and plans drawn by a generator. */
#include "draw.h"

/* ---- arcs ---- */

/* A length that an option offers, mostly; or one beside it. */
static int64_t draw_length(struct random *random, uint8_t *sheet, size_t option)
{
    const uint8_t *record = record_in(sheet, length_of(sheet), option);

    switch (within(random, 0, 7)) {
    case 0:
        return 0;
    case 1:
        return get16(record + SHORTEST) - 1;
    case 2:
        return get16(record + LONGEST) + 1;
    default:
        return near_an_end(random, get16(record + SHORTEST), get16(record + LONGEST));
    }
}

struct arc draw_arc(struct random *random, uint8_t *sheet)
{
    int64_t horizon = get16(sheet + HORIZON), option = within(random, 0, OPTIONS - 1);
    int64_t years = draw_length(random, sheet, (size_t)option);
    int64_t start = option == MAINTAIN && within(random, 0, 3) ? 0 : near_an_end(random, 0, horizon);
    struct arc arc = {(uint64_t)option, (uint64_t)start, (uint64_t)(start + years)};

    switch (within(random, 0, 15)) {
    case 0:
        arc.option = next(random);
        break;
    case 1:
        arc.start = next(random);
        break;
    case 2:
        arc.end = next(random);
        break;
    case 3:
        arc.start = UINT64_MAX - (uint64_t)within(random, 0, 200);
        break;
    }
    return arc;
}

/* ---- plans ---- */

/* A length between an option's lives; 0 where it is not offered. */
static int64_t draw_life(struct random *random, uint8_t *sheet, size_t option)
{
    const uint8_t *record = record_in(sheet, length_of(sheet), option);

    return near_an_end(random, get16(record + SHORTEST), get16(record + LONGEST));
}

size_t draw_plan(struct random *random, uint8_t *plan, uint8_t *sheet)
{
    int64_t horizon = get16(sheet + HORIZON), count = 0;
    int64_t i = within(random, 0, 1) ? 0 : draw_life(random, sheet, MAINTAIN);
    int64_t j = within(random, 0, 1) ? i : i + draw_life(random, sheet, RENOVATE);

    put_yearly_plan(plan, 0);
    put(plan + PLAN_TOTAL, 8, (int64_t)next(random));
    put16(plan + MAINTAINED, i);
    put16(plan + RENOVATED, j);
    for (int64_t year = j; year < horizon; count++) {
        int64_t life = draw_life(random, sheet, REPLACE);

        year = life > 0 && year + life < horizon ? year + life : horizon;
        put16(plan + END(count), year);
    }
    put16(plan + REPLACEMENTS, count);
    return NIMOVALSA_PLAN_BYTES(count);
}

size_t damage_plan(struct random *random, uint8_t *plan, size_t length)
{
    static const size_t years[] = {MAINTAINED, RENOVATED, REPLACEMENTS};
    int64_t count = (int64_t)(length - ENDS) / 2, by = within(random, 0, 1) ? 1 : -1;
    uint8_t *at;

    switch (within(random, 0, 7)) {
    case 0:
        return (size_t)within(random, 0, ENDS - 1);
    case 1:
        put16(plan + length, 0);
        return length + (size_t)within(random, 1, 2);
    case 2:
        return length - 1;
    case 3:
        plan[within(random, 0, PLAN_TOTAL - 1)] ^= (uint8_t)(1 << within(random, 0, 7));
        return length;
    case 4:
        plan[within(random, PLAN_TOTAL, MAINTAINED - 1)] ^= (uint8_t)(1 << within(random, 0, 7));
        return length;
    case 5:
        at = plan + years[within(random, 0, COUNT(years) - 1)];
        break;
    default:
        at = plan + (count > 0 ? END(within(random, 0, count - 1)) : RENOVATED);
    }
    put16(at, get16(at) + by);
    return length;
}
