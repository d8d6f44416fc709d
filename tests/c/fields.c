/* Sheets written by field. */
#include "fields.h"

#include <string.h>

void put(uint8_t *at, size_t bytes, int64_t value)
{
    uint64_t rest = (uint64_t)value;

    for (size_t i = 0; i < bytes; i++) {
        at[i] = (uint8_t)(rest % 256);
        rest /= 256;
    }
}

void put16(uint8_t *at, int64_t value)
{
    put(at, 2, value);
}

void put32(uint8_t *at, int64_t value)
{
    put(at, 4, value);
}

uint8_t *record_in(uint8_t *sheet, size_t length, size_t option)
{
    size_t bytes =
        length == NIMOVALSA_SHEET_2_BYTES ? LONG_RECORD_BYTES : RECORD_BYTES;

    return sheet + RECORDS + bytes * option;
}

uint8_t *record_of(uint8_t *sheet, size_t option)
{
    return record_in(sheet, NIMOVALSA_SHEET_BYTES, option);
}

void put_head(uint8_t *sheet, int64_t horizon, int64_t rate)
{
    memset(sheet, 0, NIMOVALSA_SHEET_BYTES);
    memcpy(sheet + MARK, "RCS", 3);
    put16(sheet + VERSION, 1);
    put16(sheet + HORIZON, horizon);
    put32(sheet + RATE, rate);
}

void put_lives(uint8_t *record, int64_t shortest, int64_t longest)
{
    put16(record + SHORTEST, shortest);
    put16(record + LONGEST, longest);
}

void put_overhaul(uint8_t *record, size_t entry, int64_t age, int64_t amount)
{
    put16(record + OVERHAUL(entry) + AGE, age);
    put32(record + OVERHAUL(entry) + AMOUNT, amount);
}

/* From the last record on, since each moves over the next one's old place. */
void lengthen(uint8_t *sheet)
{
    for (size_t option = OPTIONS; option-- > 0;) {
        uint8_t *longer = record_in(sheet, NIMOVALSA_SHEET_2_BYTES, option);

        memmove(longer, record_of(sheet, option), RECORD_BYTES);
        memset(longer + RECORD_BYTES, 0, LONG_RECORD_BYTES - RECORD_BYTES);
    }
    put16(sheet + VERSION, 2);
}

void put_removal(uint8_t *sheet, size_t option, int64_t amount,
                 int64_t inflation)
{
    uint8_t *record = record_in(sheet, NIMOVALSA_SHEET_2_BYTES, option);

    put32(record + REMOVAL, amount);
    put32(record + REMOVAL_INFLATION, inflation);
}

/* What differs from option to option in the paper's Table 1. */
struct figures {
    int64_t longest, investment, maintenance, ageing, electricity;
    unsigned overhauls;
    int64_t years_between;
};

void make_paper_sheet(uint8_t *sheet)
{
    static const struct figures table[OPTIONS] = {
        {15, 150000, 70000, 15000, 15000, 2, 5},
        {30, 1125000, 35000, 10000, 15000, 2, 10},
        {60, 2500000, 10000, 5000, 10000, 3, 15},
    };

    put_head(sheet, 300, 40000);
    for (unsigned option = 0; option < OPTIONS; option++) {
        const struct figures *of = &table[option];
        uint8_t *record = record_of(sheet, option);

        put_lives(record, 1, of->longest);
        put32(record + INVESTMENT, of->investment);
        put32(record + INVESTMENT_INFLATION, 10300);
        put32(record + MAINTENANCE, of->maintenance);
        put32(record + MAINTENANCE_INFLATION, 8500);
        put32(record + MAINTENANCE_AGEING, of->ageing);
        put32(record + ELECTRICITY, of->electricity);
        put32(record + ELECTRICITY_INFLATION, 2000);
        put32(record + OVERHAUL_INFLATION, 10300);
        put(record + OVERHAUL_COUNT, 1, of->overhauls);
        for (unsigned entry = 0; entry < of->overhauls; entry++)
            put_overhaul(record, entry, of->years_between * (entry + 1),
                         150000);
    }
}
