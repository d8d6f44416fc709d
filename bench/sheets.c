/* The sheets and plans of the benchmark. */
#include "sheets.h"

#include <string.h>

int64_t get16(const uint8_t *at)
{
    return at[0] + 256 * at[1];
}

int64_t get32(const uint8_t *at)
{
    return get16(at) + 65536 * get16(at + 2);
}

size_t length_of(const uint8_t *sheet)
{
    return get16(sheet + VERSION) == 2 ? NIMOVALSA_SHEET_2_BYTES : NIMOVALSA_SHEET_BYTES;
}

void make_full_sheet(uint8_t *sheet, int64_t horizon, int64_t longest)
{
    static const size_t amounts[] = {INVESTMENT, MAINTENANCE, ELECTRICITY};
    static const size_t rates[] = {INVESTMENT_INFLATION,  MAINTENANCE_INFLATION, MAINTENANCE_AGEING,
                                   ELECTRICITY_INFLATION, ELECTRICITY_AGEING,    OVERHAUL_INFLATION};

    put_head(sheet, horizon, 40000);
    for (size_t option = 0; option < OPTIONS; option++) {
        uint8_t *record = record_of(sheet, option);

        put_lives(record, 1, longest);
        for (size_t k = 0; k < COUNT(amounts); k++)
            put32(record + amounts[k], MOST_AMOUNT);
        for (size_t k = 0; k < COUNT(rates); k++)
            put32(record + rates[k], 10000);
        put(record + OVERHAUL_COUNT, 1, MOST_OVERHAULS);
        for (size_t entry = 0; entry < MOST_OVERHAULS; entry++)
            put_overhaul(record, entry, 14 + 15 * (int64_t)entry, MOST_AMOUNT);
    }
}

void make_removal_sheet(uint8_t *sheet, int64_t horizon, int64_t longest)
{
    make_full_sheet(sheet, horizon, longest);
    lengthen(sheet);
    put_removal(sheet, RENOVATE, MOST_AMOUNT, 10000);
    put_removal(sheet, REPLACE, MOST_AMOUNT, 10000);
}

/* How many lengths from 1 on an option offers from a year. */
static int64_t lengths_offered(const uint8_t *sheet, size_t option, int64_t year)
{
    const uint8_t *record = sheet + RECORDS + RECORD_BYTES * option;
    int64_t shortest = get16(record + SHORTEST), longest = get16(record + LONGEST);
    int64_t left = get16(sheet + HORIZON) - year;
    int64_t top = longest < left ? longest : left;

    return shortest == 0 || top < shortest ? 0 : top - shortest + 1;
}

uint64_t arcs_offered(const uint8_t *sheet)
{
    int64_t horizon = get16(sheet + HORIZON), maintained = lengths_offered(sheet, MAINTAIN, 0);
    int64_t shortest = get16(sheet + RECORDS + SHORTEST);
    int64_t arcs = (1 + maintained) + (1 + lengths_offered(sheet, RENOVATE, 0));

    for (int64_t i = shortest; i < shortest + maintained; i++)
        arcs += 1 + lengths_offered(sheet, RENOVATE, i);
    for (int64_t y = 0; y < horizon; y++)
        arcs += lengths_offered(sheet, REPLACE, y);
    return (uint64_t)arcs;
}

size_t put_yearly_plan(uint8_t *plan, int64_t horizon)
{
    memset(plan, 0, ENDS);
    memcpy(plan + MARK, "RCP", 3);
    put16(plan + VERSION, 1);
    put16(plan + REPLACEMENTS, horizon);
    for (int64_t k = 0; k < horizon; k++)
        put16(plan + END(k), k + 1);
    return NIMOVALSA_PLAN_BYTES(horizon);
}
