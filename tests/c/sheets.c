/* Sheets by field, and their removals. */
#include "boundary.h"

static const struct removal of_maintaining[OPTIONS] = {
    {1000000000, -100000}, {0, -100000}, {0, 0}};

const struct removal *const unpaid[VERSIONS] = {NULL, of_maintaining};

struct bytes put_removals(uint8_t *sheet, const struct removal *removals)
{
    if (removals == NULL)
        return (struct bytes){sheet, NIMOVALSA_SHEET_BYTES};
    lengthen(sheet);
    for (size_t option = 0; option < OPTIONS; option++)
        put_removal(sheet, option, removals[option].amount,
                    removals[option].inflation);
    return (struct bytes){sheet, LONGER_SHEET};
}

struct bytes put_sheet(uint8_t *sheet, make_sheet *make,
                       const struct removal *removals)
{
    make(sheet);
    return put_removals(sheet, removals);
}

/* r 40,000, every f and g 0, three overhauls: far from most limits. */
void make_middle_sheet(uint8_t *sheet)
{
    put_head(sheet, 30, 40000);
    for (unsigned option = 0; option < OPTIONS; option++) {
        uint8_t *record = record_of(sheet, option);

        put_lives(record, 2, 20);
        put32(record + INVESTMENT, 5000);
        put32(record + MAINTENANCE, 300);
        put32(record + ELECTRICITY, 400);
        put(record + OVERHAUL_COUNT, 1, 3);
        put_overhaul(record, 0, 5, 100);
        put_overhaul(record, 1, 10, 200);
        put_overhaul(record, 2, 15, 300);
    }
}

/* Every field at a limit: T, r, lives, amounts, rates, eight overhauls. */
void make_limit_sheet(uint8_t *sheet)
{
    put_head(sheet, 300, 200000);
    for (unsigned option = 0; option < OPTIONS; option++) {
        uint8_t *record = record_of(sheet, option);

        put_lives(record, 1, 120);
        put32(record + INVESTMENT, 1000000000);
        put32(record + INVESTMENT_INFLATION, 200000);
        put32(record + MAINTENANCE, 1000000000);
        put32(record + MAINTENANCE_INFLATION, -100000);
        put32(record + MAINTENANCE_AGEING, 300000);
        put32(record + ELECTRICITY, 1000000000);
        put32(record + ELECTRICITY_INFLATION, -100000);
        put32(record + ELECTRICITY_AGEING, 300000);
        put32(record + OVERHAUL_INFLATION, 200000);
        put(record + OVERHAUL_COUNT, 1, 8);
        for (unsigned entry = 0; entry < 8; entry++)
            put_overhaul(record, entry, 112 + entry, 1000000000);
    }
}

/* Only the head is not zero; no option is offered. */
void make_empty_sheet(uint8_t *sheet)
{
    put_head(sheet, 1, 0);
}

/* Cases 9 and 10 of document 01: only replace is offered, at no cost. */
void make_case_9_sheet(uint8_t *sheet)
{
    put_head(sheet, 5, 0);
    put_lives(record_of(sheet, 2), 3, 4);
}

void make_case_10_sheet(uint8_t *sheet)
{
    make_case_9_sheet(sheet);
    put16(sheet + HORIZON, 7);
}

/* Case 11: only replace is offered. */
void make_case_11_sheet(uint8_t *sheet)
{
    uint8_t *record = record_of(sheet, 2);

    put_head(sheet, 3, 0);
    put_lives(record, 1, 2);
    put32(record + MAINTENANCE, 1);
}

/* Case 12: only replace is offered. */
void make_case_12_sheet(uint8_t *sheet)
{
    uint8_t *record = record_of(sheet, 2);

    put_head(sheet, 4, 0);
    put_lives(record, 1, 3);
    put32(record + INVESTMENT, 10);
    put32(record + MAINTENANCE, 1);
    put(record + OVERHAUL_COUNT, 1, 1);
    put_overhaul(record, 0, 2, 15);
}

const struct removal case_12_removals[OPTIONS] = {[2] = {3, 0}};

/* T 4, r 40,000, every option offered for 1 to 2 years, all amounts 0. As
 * version 1 the record behind that of renovating begins with bytes that could
 * be a removal. */
void make_free_four_year_sheet(uint8_t *sheet)
{
    put_head(sheet, 4, 40000);
    for (unsigned option = 0; option < OPTIONS; option++)
        put_lives(record_of(sheet, option), 1, 2);
}

/* Renovating pays 9,712 units in year 1, 9,432 in year 2 and 9,160 in year 3;
 * replacing 19,039, 18,124 and 17,253. */
const struct removal four_year_removals[OPTIONS] = {
    {5, 0}, {1, 10000}, {2, -10000}};

/* Every option is offered, and every payment has digits of its own. Some
 * lose a tenth of their value each year; nothing is rounded. */
static void make_digits_sheet(uint8_t *sheet, int64_t horizon)
{
    uint8_t *maintain = record_of(sheet, 0);
    uint8_t *renovate = record_of(sheet, 1);
    uint8_t *replace = record_of(sheet, 2);

    put_head(sheet, horizon, 0);
    put_lives(maintain, 1, 3);
    put32(maintain + INVESTMENT, 1);
    put32(maintain + MAINTENANCE, 10);
    put_lives(renovate, 1, 2);
    put32(renovate + INVESTMENT, 100);
    put32(renovate + INVESTMENT_INFLATION, -100000);
    put32(renovate + ELECTRICITY, 1000);
    put_lives(replace, 2, 3);
    put32(replace + INVESTMENT, 1000000);
    put32(replace + INVESTMENT_INFLATION, -100000);
    put32(replace + MAINTENANCE, 10000);
}

/* That of renovating loses a tenth each year. */
const struct removal digits_removals[OPTIONS] = {
    {1000000000, 0}, {10000000, -100000}, {100000000, 0}};

void make_six_year_sheet(uint8_t *sheet)
{
    make_digits_sheet(sheet, 6);
}

void make_three_year_sheet(uint8_t *sheet)
{
    make_digits_sheet(sheet, 3);
}

/* Amounts 10^9 whose growth is the discount: each payment is 10^13 units in
 * every year. Lives 1 to 120, T 300, overhauls at ages 1 to 8. */
void make_dear_sheet(uint8_t *sheet)
{
    static const unsigned inflations[] = {
        INVESTMENT_INFLATION, MAINTENANCE_INFLATION, ELECTRICITY_INFLATION,
        OVERHAUL_INFLATION};

    make_limit_sheet(sheet);
    for (unsigned option = 0; option < OPTIONS; option++) {
        uint8_t *record = record_of(sheet, option);

        for (size_t i = 0; i < COUNT(inflations); i++)
            put32(record + inflations[i], 200000);
        put32(record + MAINTENANCE_AGEING, 0);
        put32(record + ELECTRICITY_AGEING, 0);
        for (unsigned entry = 0; entry < 8; entry++)
            put_overhaul(record, entry, 1 + entry, 1000000000);
    }
}

/* 10^13 units in every year too. */
const struct removal dear_removals[OPTIONS] = {
    {1000000000, 200000}, {1000000000, 200000}, {1000000000, 200000}};

/* T 4, every option offered. Each year electricity keeps 0.9 of its value, and
 * 0.99 in service; so does the maintenance of renovating. */
void make_motors_sheet(uint8_t *sheet)
{
    static const struct yearly electricity = {1000, -100000, 100000};
    static const struct yearly maintenance = {10, -100000, 100000};
    uint8_t *maintain = record_of(sheet, 0);
    uint8_t *renovate = record_of(sheet, 1);
    uint8_t *replace = record_of(sheet, 2);

    put_head(sheet, 4, 0);
    put_lives(maintain, 1, 1);
    put_yearly(maintain, ELECTRICITY, &electricity);
    put_lives(renovate, 1, 3);
    put32(renovate + INVESTMENT, 100);
    put_yearly(renovate, MAINTENANCE, &maintenance);
    put_yearly(renovate, ELECTRICITY, &electricity);
    put_lives(replace, 1, 2);
    put32(replace + INVESTMENT, 200);
    put_yearly(replace, ELECTRICITY, &electricity);
}
