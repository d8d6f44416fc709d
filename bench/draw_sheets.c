/* Sheets drawn by a generator. */
#include "draw.h"

uint64_t next(struct random *random)
{
    uint64_t mixed = random->state += UINT64_C(0x9E3779B97F4A7C15);

    mixed = (mixed ^ mixed >> 30) * UINT64_C(0xBF58476D1CE4E5B9);
    mixed = (mixed ^ mixed >> 27) * UINT64_C(0x94D049BB133111EB);
    return mixed ^ mixed >> 31;
}

int64_t within(struct random *random, int64_t low, int64_t high)
{
    return low + (int64_t)(next(random) % (uint64_t)(high - low + 1));
}

int64_t near_an_end(struct random *random, int64_t low, int64_t high)
{
    switch (within(random, 0, 7)) {
    case 0:
        return low;
    case 1:
        return low < high ? low + 1 : high;
    case 2:
        return low < high ? high - 1 : low;
    case 3:
        return high;
    default:
        return within(random, low, high);
    }
}

static const size_t amounts[] = {INVESTMENT, MAINTENANCE, ELECTRICITY};

static const size_t inflations[] = {INVESTMENT_INFLATION, MAINTENANCE_INFLATION, ELECTRICITY_INFLATION,
                                    OVERHAUL_INFLATION};

static const struct {
    size_t inflation, ageing;
} flows[] = {{MAINTENANCE_INFLATION, MAINTENANCE_AGEING}, {ELECTRICITY_INFLATION, ELECTRICITY_AGEING}};

/* The largest ageing g with (10^6 + f)(10^6 + g) at most 10^6 (10^6 + r), and at most 300,000. */
static int64_t most_ageing(int64_t rate, int64_t inflation)
{
    int64_t most = (int64_t)MILLION * (MILLION + rate) / (MILLION + inflation) - MILLION;

    return most < 300000 ? most : 300000;
}

/* The ages rise and leave room for those that follow. */
static void draw_overhauls(struct random *random, uint8_t *record, const struct shape *shape)
{
    int64_t count = within(random, 0, MOST_OVERHAULS), age = 0;
    int64_t oldest = shape->most_life < MOST_LIFE / 2 ? shape->most_life + MOST_OVERHAULS : MOST_LIFE - 1;

    put(record + OVERHAUL_COUNT, 1, count);
    for (int64_t entry = 0; entry < count; entry++) {
        age = near_an_end(random, age + 1, oldest - (count - entry - 1));
        put_overhaul(record, (size_t)entry, age, near_an_end(random, 0, shape->most_amount));
    }
}

static void draw_record(struct random *random, uint8_t *record, const struct shape *shape, int64_t rate)
{
    if (within(random, 0, 3) > 0) {
        int64_t shortest = within(random, 0, 1) ? 1 : near_an_end(random, 1, shape->most_life);

        put_lives(record, shortest, near_an_end(random, shortest, shape->most_life));
    }
    for (size_t k = 0; k < COUNT(amounts); k++)
        put32(record + amounts[k], near_an_end(random, 0, shape->most_amount));
    for (size_t k = 0; k < COUNT(inflations); k++)
        put32(record + inflations[k], near_an_end(random, shape->least_inflation, rate));
    for (size_t k = 0; k < COUNT(flows); k++) {
        int64_t most = most_ageing(rate, (int32_t)get32(record + flows[k].inflation));
        int64_t least = shape->ages_fast && most > 0 ? most - 1 : 0;

        put32(record + flows[k].ageing, near_an_end(random, least, most));
    }
    draw_overhauls(random, record, shape);
}

/* The sheet becomes one of version 2. */
static void draw_removals(struct random *random, uint8_t *sheet, const struct shape *shape, int64_t rate)
{
    lengthen(sheet);
    for (size_t option = 0; option < OPTIONS; option++) {
        int64_t amount = near_an_end(random, 0, shape->most_amount);

        put_removal(sheet, option, amount, near_an_end(random, shape->least_inflation, rate));
    }
}

void draw_sheet(struct random *random, uint8_t *sheet, const struct shape *shape)
{
    int64_t rate = near_an_end(random, 0, shape->most_rate);

    put_head(sheet, near_an_end(random, 1, shape->most_years), rate);
    for (size_t option = 0; option < OPTIONS; option++)
        draw_record(random, record_of(sheet, option), shape, rate);
    if (within(random, 0, 1))
        draw_removals(random, sheet, shape, rate);
}

struct edit {
    size_t at, bytes;
    int64_t value;
};

static const struct edit head_edits[] = {
    {MARK, 1, 'r'},    {MARK + 1, 1, 'c'},  {MARK + 2, 1, 'P'}, {VERSION, 2, 0},   {VERSION, 2, 1},
    {VERSION, 2, 2},   {VERSION, 2, 3},     {VERSION, 2, 257},  {VERSION, 2, 258}, {HORIZON, 2, 0},
    {HORIZON, 2, 301}, {HORIZON, 2, 65535}, {HORIZON, 2, 300},  {RATE, 4, 200000}, {RATE, 4, 200001},
    {RATE, 4, -1},
};

static const struct edit record_edits[] = {
    {SHORTEST, 2, 0},
    {SHORTEST, 2, 121},
    {LONGEST, 2, 0},
    {LONGEST, 2, 120},
    {LONGEST, 2, 121},
    {INVESTMENT, 4, MOST_AMOUNT + 1},
    {MAINTENANCE, 4, MOST_AMOUNT + 1},
    {ELECTRICITY, 4, -1},
    {INVESTMENT_INFLATION, 4, -100001},
    {MAINTENANCE_INFLATION, 4, -100001},
    {ELECTRICITY_INFLATION, 4, INT32_MIN},
    {OVERHAUL_INFLATION, 4, INT32_MAX},
    {MAINTENANCE_AGEING, 4, 300001},
    {ELECTRICITY_AGEING, 4, -1},
    {OVERHAUL_COUNT, 1, 0},
    {OVERHAUL_COUNT, 1, 8},
    {OVERHAUL_COUNT, 1, 9},
    {OVERHAUL(0) + AGE, 2, 0},
    {OVERHAUL(0) + AGE, 2, 119},
    {OVERHAUL(0) + AMOUNT, 4, MOST_AMOUNT + 1},
    {OVERHAUL(1) + AGE, 2, 1},
    {OVERHAUL(7) + AGE, 2, 120},
    {OVERHAUL(7) + AMOUNT, 4, 1},
};

/* Of a record of version 2. */
static const struct edit removal_edits[] = {
    {REMOVAL, 4, MOST_AMOUNT},
    {REMOVAL, 4, MOST_AMOUNT + 1},
    {REMOVAL, 4, -1},
    {REMOVAL_INFLATION, 4, -100000},
    {REMOVAL_INFLATION, 4, -100001},
    {REMOVAL_INFLATION, 4, INT32_MIN},
};

static void apply(uint8_t *at, struct edit edit)
{
    put(at + edit.at, edit.bytes, edit.value);
}

/* An inflation or an ageing at its limit or one above it. */
static void edit_rate(struct random *random, uint8_t *sheet, uint8_t *record)
{
    int64_t rate = get32(sheet + RATE), above = within(random, 0, 1);

    if (within(random, 0, 1)) {
        put32(record + inflations[within(random, 0, COUNT(inflations) - 1)], rate + above);
    } else {
        size_t k = (size_t)within(random, 0, COUNT(flows) - 1);
        int64_t inflation = (int32_t)get32(record + flows[k].inflation);

        put32(record + flows[k].ageing, inflation > -MILLION ? most_ageing(rate, inflation) + above : 0);
    }
}

/* A removal or its inflation at its limit or beyond. */
static void edit_removal(struct random *random, uint8_t *sheet, uint8_t *record)
{
    if (within(random, 0, 1))
        apply(record, removal_edits[within(random, 0, COUNT(removal_edits) - 1)]);
    else
        put32(record + REMOVAL_INFLATION, get32(sheet + RATE) + within(random, 0, 1));
}

static void edit_sheet(struct random *random, uint8_t *sheet, size_t length)
{
    uint8_t *record = record_in(sheet, length, (size_t)within(random, 0, OPTIONS - 1));

    if (length == NIMOVALSA_SHEET_2_BYTES && within(random, 0, 4) == 0) {
        edit_removal(random, sheet, record);
        return;
    }
    switch (within(random, 0, 9)) {
    case 0:
        apply(sheet, head_edits[within(random, 0, COUNT(head_edits) - 1)]);
        break;
    case 1:
    case 2:
        edit_rate(random, sheet, record);
        break;
    case 3:
        sheet[within(random, 0, (int64_t)length - 1)] ^= (uint8_t)(1 << within(random, 0, 7));
        break;
    default:
        apply(record, record_edits[within(random, 0, COUNT(record_edits) - 1)]);
    }
}

/* Mostly the same length; or one of the two, or one beside it; or any. */
static size_t damage_length(struct random *random, size_t length)
{
    int64_t near = within(random, 0, 1) ? NIMOVALSA_SHEET_BYTES : NIMOVALSA_SHEET_2_BYTES;

    if (within(random, 0, 19) > 0)
        return length;
    if (within(random, 0, 1))
        return (size_t)within(random, near - 1, near + 1);
    return (size_t)within(random, 0, LONGEST_SHEET);
}

size_t damage_sheet(struct random *random, uint8_t *sheet)
{
    size_t length = length_of(sheet);

    for (int64_t left = within(random, 1, 3); left > 0; left--)
        edit_sheet(random, sheet, length);
    return damage_length(random, length);
}
