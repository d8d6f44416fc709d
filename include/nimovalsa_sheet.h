/*
 * nimovalsa_sheet.h: planning sheets and plans by named fields, for C and C++.
 *
 * nimovalsa.h says what the bytes are and what the library's calls answer.
 * Here a sheet is a struct whose encoder writes those bytes, and a chain is a
 * struct with an encoder to the bytes of its plan and a decoder from them. The
 * functions use no heap, keep nothing and call no other code.
 */
#ifndef NIMOVALSA_SHEET_H
#define NIMOVALSA_SHEET_H

#include "nimovalsa.h"

/* The options, by their place in a sheet and their number in every call. */
enum {
    NIMOVALSA_MAINTAIN,
    NIMOVALSA_RENOVATE,
    NIMOVALSA_REPLACE,
    NIMOVALSA_OPTIONS
};

#define NIMOVALSA_OVERHAULS 8

/* In years; a feasible chain has no more replacements than this either. */
#define NIMOVALSA_LONGEST_HORIZON 300

/*
 * Ages and lives are in years, amounts in whole currency units at the price
 * level of year 0, inflations and ageings in millionths a year: 40,000 is 4 per
 * cent. Maintenance and electricity are amounts a year. An inflation is the
 * differential one, beyond general inflation. An ageing counts from the year in
 * which the option starts, that of renovate's electricity from year 0, as
 * renovating keeps the motors. The removal is paid where a renovation or a
 * replacement ends before the horizon; that of maintain never is.
 */
struct nimovalsa_overhaul {
    uint16_t age;
    uint32_t amount;
};

struct nimovalsa_record {
    uint16_t shortest_life;
    uint16_t longest_life;
    uint32_t investment;
    int32_t investment_inflation;
    uint32_t maintenance;
    int32_t maintenance_inflation;
    uint32_t maintenance_ageing;
    uint32_t electricity;
    int32_t electricity_inflation;
    uint32_t electricity_ageing;
    int32_t overhaul_inflation;
    uint8_t overhaul_count;
    struct nimovalsa_overhaul overhauls[NIMOVALSA_OVERHAULS];
    uint32_t removal;
    int32_t removal_inflation;
};

/*
 * The rate is the real discount rate, in millionths a year. The version is 1 or
 * 2, and 0 stands for 1; only a sheet of version 2 has a place for removals.
 */
struct nimovalsa_sheet {
    uint16_t horizon;
    uint32_t rate;
    struct nimovalsa_record options[NIMOVALSA_OPTIONS];
    uint16_t version;
};

/*
 * A chain of activities and its total in units, 10,000 to a currency unit:
 * maintain from year 0 to i, renovate from i to j, then count replacements, the
 * first from j to ends[0], each later one from the end before it to its own.
 */
struct nimovalsa_chain {
    uint64_t total;
    uint16_t i;
    uint16_t j;
    uint16_t count;
    uint16_t ends[NIMOVALSA_LONGEST_HORIZON];
};

/*
 * What serves the functions below. The heads are mark and version, the first
 * five bytes of a sheet and of a plan, as one number.
 */
#define NIMOVALSA_HEAD_BYTES 5
#define NIMOVALSA_SHEET_HEAD 0x01534352   /* "RCS", 1 */
#define NIMOVALSA_SHEET_2_HEAD 0x02534352 /* "RCS", 2 */
#define NIMOVALSA_PLAN_HEAD 0x01504352    /* "RCP", 1 */

/* Writes the low bytes of value, the lowest first; answers the place behind. */
static inline uint8_t *nimovalsa_put(uint8_t *at, size_t bytes, uint64_t value)
{
    size_t k;

    for (k = 0; k < bytes; k++)
        at[k] = (uint8_t)(value >> (8 * k) & 255);
    return at + bytes;
}

/* The number that so many bytes hold, at most eight of them. */
static inline uint64_t nimovalsa_get(const uint8_t *at, size_t bytes)
{
    uint64_t value = 0;
    size_t k;

    for (k = 0; k < bytes; k++)
        value |= (uint64_t)at[k] << (8 * k);
    return value;
}

static inline uint16_t nimovalsa_get16(const uint8_t *at)
{
    return (uint16_t)nimovalsa_get(at, 2);
}

/* Writes a negative number in two's complement, as the sheet wants it. */
static inline uint8_t *nimovalsa_put_rate(uint8_t *at, int32_t rate)
{
    return nimovalsa_put(at, 4, (uint32_t)rate);
}

/* The 89 bytes that a record has in both versions. */
static inline uint8_t *nimovalsa_put_record(uint8_t *at,
                                            const struct nimovalsa_record *of)
{
    size_t k;

    at = nimovalsa_put(at, 2, of->shortest_life);
    at = nimovalsa_put(at, 2, of->longest_life);
    at = nimovalsa_put(at, 4, of->investment);
    at = nimovalsa_put_rate(at, of->investment_inflation);
    at = nimovalsa_put(at, 4, of->maintenance);
    at = nimovalsa_put_rate(at, of->maintenance_inflation);
    at = nimovalsa_put(at, 4, of->maintenance_ageing);
    at = nimovalsa_put(at, 4, of->electricity);
    at = nimovalsa_put_rate(at, of->electricity_inflation);
    at = nimovalsa_put(at, 4, of->electricity_ageing);
    at = nimovalsa_put_rate(at, of->overhaul_inflation);
    at = nimovalsa_put(at, 1, of->overhaul_count);
    for (k = 0; k < NIMOVALSA_OVERHAULS; k++) {
        at = nimovalsa_put(at, 2, of->overhauls[k].age);
        at = nimovalsa_put(at, 4, of->overhauls[k].amount);
    }
    return at;
}

/* The eight bytes that version 2 has behind them. */
static inline uint8_t *nimovalsa_put_removal(uint8_t *at,
                                             const struct nimovalsa_record *of)
{
    at = nimovalsa_put(at, 4, of->removal);
    return nimovalsa_put_rate(at, of->removal_inflation);
}

/* Whether the version has a place for what the fields hold. */
static inline int nimovalsa_sheet_fits(const struct nimovalsa_sheet *sheet)
{
    size_t k;

    for (k = 0; k < NIMOVALSA_OPTIONS; k++)
        if (sheet->version < 2 && (sheet->options[k].removal != 0 ||
                                   sheet->options[k].removal_inflation != 0))
            return 0;
    return sheet->version <= 2;
}

/*
 * Writes all bytes of a sheet and answers how many they are, the length that
 * every call wants: NIMOVALSA_SHEET_2_BYTES in version 2, else
 * NIMOVALSA_SHEET_BYTES. It answers 0 and writes nothing if the version is
 * above 2; or if it is not 2 and a removal or its inflation is not 0, as
 * version 1 has no place for them and a plan without them would understate.
 *
 * It writes what the fields hold and refuses nothing else: nimovalsa_check
 * does, and so does every other call. That goes for overhauls at or past the
 * count too: they are written as they are, and one that is not zero is refused
 * with number 9. So fill a struct from zeros.
 */
static inline size_t nimovalsa_sheet_encode(const struct nimovalsa_sheet *sheet,
                                            uint8_t *bytes)
{
    const int removals = sheet->version == 2;
    uint8_t *at = bytes;
    size_t k;

    if (!nimovalsa_sheet_fits(sheet))
        return 0;
    at = nimovalsa_put(at, NIMOVALSA_HEAD_BYTES,
                       removals ? NIMOVALSA_SHEET_2_HEAD
                                : NIMOVALSA_SHEET_HEAD);
    at = nimovalsa_put(at, 2, sheet->horizon);
    at = nimovalsa_put(at, 4, sheet->rate);
    for (k = 0; k < NIMOVALSA_OPTIONS; k++) {
        at = nimovalsa_put_record(at, &sheet->options[k]);
        if (removals)
            at = nimovalsa_put_removal(at, &sheet->options[k]);
    }
    return (size_t)(at - bytes);
}

/*
 * Writes the plan of a chain and answers how many bytes it has, 19 + 2 count,
 * the plan_length that nimovalsa_price wants. It answers 0 and writes nothing
 * if count is above NIMOVALSA_LONGEST_HORIZON or length, that of the buffer, is
 * too short. Whether the chain is feasible is not looked at: nimovalsa_price
 * refuses one that is not. The bytes behind the plan keep their content.
 */
static inline size_t nimovalsa_plan_encode(const struct nimovalsa_chain *chain,
                                           uint8_t *bytes, size_t length)
{
    uint8_t *at = bytes;
    size_t k;

    if (chain->count > NIMOVALSA_LONGEST_HORIZON ||
        length < NIMOVALSA_PLAN_BYTES(chain->count))
        return 0;
    at = nimovalsa_put(at, NIMOVALSA_HEAD_BYTES, NIMOVALSA_PLAN_HEAD);
    at = nimovalsa_put(at, 8, chain->total);
    at = nimovalsa_put(at, 2, chain->i);
    at = nimovalsa_put(at, 2, chain->j);
    at = nimovalsa_put(at, 2, chain->count);
    for (k = 0; k < chain->count; k++)
        at = nimovalsa_put(at, 2, chain->ends[k]);
    return NIMOVALSA_PLAN_BYTES(chain->count);
}

/*
 * Reads the chain of the plan at the front of length bytes, and answers 1.
 * There may be bytes behind it, as in the buffer that nimovalsa_plan was given;
 * they are not read. It answers 0 and leaves the struct if the mark or version
 * is wrong, the count is above NIMOVALSA_LONGEST_HORIZON, or the bytes end
 * before the plan does. As in encoding, the chain need not be feasible. The
 * ends at or past the count keep their content.
 */
static inline int nimovalsa_plan_decode(const uint8_t *bytes, size_t length,
                                        struct nimovalsa_chain *chain)
{
    uint16_t count;
    size_t k;

    if (length < NIMOVALSA_PLAN_BYTES(0) ||
        nimovalsa_get(bytes, NIMOVALSA_HEAD_BYTES) != NIMOVALSA_PLAN_HEAD)
        return 0;
    count = nimovalsa_get16(bytes + 17);
    if (count > NIMOVALSA_LONGEST_HORIZON ||
        length < NIMOVALSA_PLAN_BYTES(count))
        return 0;
    chain->total = nimovalsa_get(bytes + 5, 8);
    chain->i = nimovalsa_get16(bytes + 13);
    chain->j = nimovalsa_get16(bytes + 15);
    chain->count = count;
    for (k = 0; k < count; k++)
        chain->ends[k] = nimovalsa_get16(bytes + NIMOVALSA_PLAN_BYTES(k));
    return 1;
}

#endif
