/*
 * What a yearly payment is in a year, and a removal in the year in which it is
 * paid, step by step as documents 01 and 02 have it and apart from the library:
 * in units and in cents.
 */
#include "boundary.h"

enum { MILLION = 1000000, MAINTAIN = 0, RENOVATE = 1 };

uint64_t up(uint64_t dividend, uint64_t divisor)
{
    return (dividend + divisor - 1) / divisor;
}

/* An amount times 1,000,000 + a rate, by a divisor. */
static uint64_t moved(uint64_t amount, int64_t rate, uint64_t divisor)
{
    return up(amount * (uint64_t)(MILLION + rate), divisor);
}

uint64_t units_in(const struct yearly *of, unsigned year, unsigned since,
                  uint64_t rate)
{
    uint64_t units = of->amount * 10000;

    for (unsigned now = 1; now <= year; now++) {
        if (now > since)
            units = moved(units, of->ageing, MILLION);
        units = moved(units, of->inflation, MILLION + rate);
    }
    return units;
}

uint64_t cents_in(const struct yearly *of, unsigned year, unsigned since,
                  int64_t general)
{
    uint64_t cents = of->amount * 100;

    for (unsigned now = 1; now <= year; now++) {
        if (now > since)
            cents = moved(cents, of->ageing, MILLION);
        cents = moved(cents, general, MILLION);
        cents = moved(cents, of->inflation, MILLION);
    }
    return cents;
}

unsigned new_in(unsigned option, size_t payment, unsigned start)
{
    return option == RENOVATE && payment == ELECTRICITY ? 0 : start;
}

int is_removed(unsigned option, unsigned start, unsigned end, unsigned horizon)
{
    return option != MAINTAIN && start < end && end < horizon;
}

/* A removal as a payment that is never in service. */
static struct yearly unaged(const struct removal *of)
{
    return (struct yearly){(uint64_t)of->amount, of->inflation, 0};
}

uint64_t removal_units(const struct removal *of, unsigned year, uint64_t rate)
{
    struct yearly payment = unaged(of);

    return units_in(&payment, year, year, rate);
}

uint64_t removal_cents(const struct removal *of, unsigned year, int64_t general)
{
    struct yearly payment = unaged(of);

    return cents_in(&payment, year, year, general);
}

void put_yearly(uint8_t *record, size_t payment, const struct yearly *of)
{
    put32(record + payment, (int64_t)of->amount);
    put32(record + payment + 4, of->inflation);
    put32(record + payment + 8, of->ageing);
}
