/*
 * What include/nimovalsa_sheet.h writes and reads: sheets of both versions,
 * against the fields of tests/c, and what no version has a place for; plans,
 * encoded and decoded at every length, and with wrong bytes.
 */
#include "c/fields.h"

#include <nimovalsa_sheet.h>

#include <stdio.h>
#include <stdlib.h>
#include <string.h>

enum {
    PLAN_BYTES = NIMOVALSA_PLAN_BYTES(NIMOVALSA_LONGEST_HORIZON),

    /* what stands in a chain's struct before its ends, and with all of them */
    CHAIN_FRONT = offsetof(struct nimovalsa_chain, ends),
    CHAIN_FIELDS = CHAIN_FRONT + NIMOVALSA_LONGEST_HORIZON * sizeof(uint16_t)
};

static unsigned long passed;

static void expect(int holds, const char *what)
{
    if (!holds) {
        fprintf(stderr, "sheet header: %s\n", what);
        exit(1);
    }
    passed++;
}

/* So many bytes are written, and those behind them are left. */
static void expect_sheet(const struct nimovalsa_sheet *sheet,
                         const uint8_t *bytes, size_t length, const char *what)
{
    uint8_t encoded[NIMOVALSA_SHEET_2_BYTES + 1], want[sizeof encoded];

    memset(encoded, 0xEE, sizeof encoded);
    memset(want, 0xEE, sizeof want);
    memcpy(want, bytes, length);
    expect(nimovalsa_sheet_encode(sheet, encoded) == length,
           "the length of a sheet is wrong");
    expect(memcmp(encoded, want, sizeof encoded) == 0, what);
}

/*
 * The paper's Table 1, in the order of the struct's fields. Removals and
 * version are left out, as in a program that does not know of them.
 */
#pragma GCC diagnostic push
#pragma GCC diagnostic ignored "-Wmissing-field-initializers"
static void encode_paper(void)
{
    struct nimovalsa_sheet paper = {
        .horizon = 300,
        .rate = 40000,
        .options = {
            [NIMOVALSA_MAINTAIN] = {
                1, 15, 150000, 10300, 70000, 8500, 15000, 15000, 2000, 0, 10300,
                2, {{5, 150000}, {10, 150000}},
            },
            [NIMOVALSA_RENOVATE] = {
                1, 30, 1125000, 10300, 35000, 8500, 10000, 15000, 2000, 0,
                10300, 2, {{10, 150000}, {20, 150000}},
            },
            [NIMOVALSA_REPLACE] = {
                1, 60, 2500000, 10300, 10000, 8500, 5000, 10000, 2000, 0, 10300,
                3, {{15, 150000}, {30, 150000}, {45, 150000}},
            },
        },
    };
    uint8_t bytes[NIMOVALSA_SHEET_2_BYTES];

    make_paper_sheet(bytes);
    expect_sheet(&paper, bytes, NIMOVALSA_SHEET_BYTES,
                 "the paper's sheet has other bytes");
    paper.version = 1;
    expect_sheet(&paper, bytes, NIMOVALSA_SHEET_BYTES,
                 "the paper's sheet has other bytes in version 1");
    paper.version = 2;
    lengthen(bytes);
    expect_sheet(&paper, bytes, NIMOVALSA_SHEET_2_BYTES,
                 "the paper's sheet has other bytes in version 2");
}
#pragma GCC diagnostic pop

/*
 * Fields that all differ, so that no two can be exchanged unseen. The encoder
 * writes what it is given: the inflations are negative, and all eight overhauls
 * are filled though the count is 1.
 */
static struct nimovalsa_record unlike_record(uint16_t option)
{
    const int32_t base = 0x01020300 * (option + 1);
    struct nimovalsa_record record = {
        .shortest_life = (uint16_t)(0x1100 + option),
        .longest_life = (uint16_t)(0x2200 + option),
        .investment = (uint32_t)base + 1,
        .investment_inflation = -base - 2,
        .maintenance = (uint32_t)base + 3,
        .maintenance_inflation = -base - 4,
        .maintenance_ageing = (uint32_t)base + 5,
        .electricity = (uint32_t)base + 6,
        .electricity_inflation = -base - 7,
        .electricity_ageing = (uint32_t)base + 8,
        .overhaul_inflation = -base - 9,
        .overhaul_count = 1,
        .removal = (uint32_t)base + 10,
        .removal_inflation = -base - 11,
    };

    for (unsigned entry = 0; entry < NIMOVALSA_OVERHAULS; entry++) {
        record.overhauls[entry].age = (uint16_t)(0x3300 + 16 * option + entry);
        record.overhauls[entry].amount = (uint32_t)base + 16 + entry;
    }
    return record;
}

/* Writes the places that fields.h has for the fields of both versions. */
static void put_record(uint8_t *at, const struct nimovalsa_record *record)
{
    put_lives(at, record->shortest_life, record->longest_life);
    put32(at + INVESTMENT, record->investment);
    put32(at + INVESTMENT_INFLATION, record->investment_inflation);
    put32(at + MAINTENANCE, record->maintenance);
    put32(at + MAINTENANCE_INFLATION, record->maintenance_inflation);
    put32(at + MAINTENANCE_AGEING, record->maintenance_ageing);
    put32(at + ELECTRICITY, record->electricity);
    put32(at + ELECTRICITY_INFLATION, record->electricity_inflation);
    put32(at + ELECTRICITY_AGEING, record->electricity_ageing);
    put32(at + OVERHAUL_INFLATION, record->overhaul_inflation);
    put(at + OVERHAUL_COUNT, 1, record->overhaul_count);
    for (size_t entry = 0; entry < NIMOVALSA_OVERHAULS; entry++)
        put_overhaul(at, entry, record->overhauls[entry].age,
                     record->overhauls[entry].amount);
}

static struct nimovalsa_sheet unlike_sheet(void)
{
    struct nimovalsa_sheet sheet = {
        .horizon = 0xABCD, .rate = 0xFEDCBA98, .version = 2};

    for (uint16_t option = 0; option < OPTIONS; option++)
        sheet.options[option] = unlike_record(option);
    return sheet;
}

/* The same of another version, without removals. */
static struct nimovalsa_sheet without_removals(uint16_t version)
{
    struct nimovalsa_sheet sheet = unlike_sheet();

    sheet.version = version;
    for (size_t option = 0; option < OPTIONS; option++) {
        sheet.options[option].removal = 0;
        sheet.options[option].removal_inflation = 0;
    }
    return sheet;
}

static void encode_unlike_fields(void)
{
    const struct nimovalsa_sheet sheet = unlike_sheet();
    const struct nimovalsa_sheet shorter = without_removals(1);
    uint8_t bytes[NIMOVALSA_SHEET_2_BYTES];

    put_head(bytes, sheet.horizon, sheet.rate);
    for (size_t option = 0; option < OPTIONS; option++)
        put_record(record_of(bytes, option), &sheet.options[option]);
    expect_sheet(&shorter, bytes, NIMOVALSA_SHEET_BYTES,
                 "a field is written elsewhere");
    lengthen(bytes);
    for (size_t option = 0; option < OPTIONS; option++)
        put_removal(bytes, option, sheet.options[option].removal,
                    sheet.options[option].removal_inflation);
    expect_sheet(&sheet, bytes, NIMOVALSA_SHEET_2_BYTES,
                 "a field is written elsewhere in version 2");
}

/* Nothing is written, and 0 answered. */
static void expect_no_sheet(const struct nimovalsa_sheet *sheet,
                            const char *what)
{
    uint8_t encoded[NIMOVALSA_SHEET_2_BYTES], untouched[sizeof encoded];

    memset(encoded, 0xEE, sizeof encoded);
    memset(untouched, 0xEE, sizeof untouched);
    expect(nimovalsa_sheet_encode(sheet, encoded) == 0, what);
    expect(memcmp(encoded, untouched, sizeof encoded) == 0, what);
}

/* Versions 0 and 1 have no place for a removal or its inflation. */
static void refuse_removals(uint16_t version)
{
    for (size_t option = 0; option < OPTIONS; option++) {
        struct nimovalsa_sheet sheet = without_removals(version);

        sheet.options[option].removal = 1;
        expect_no_sheet(&sheet, "a removal is left out");
        sheet.options[option].removal = 0;
        sheet.options[option].removal_inflation = -1;
        expect_no_sheet(&sheet, "the inflation of a removal is left out");
    }
}

/* There is no version above 2, also not without removals. */
static void refuse_versions(void)
{
    static const uint16_t versions[] = {3, 256, 257, 258, 65535};

    for (size_t k = 0; k < COUNT(versions); k++) {
        const struct nimovalsa_sheet sheet = without_removals(versions[k]);

        expect_no_sheet(&sheet, "a wrong version is encoded");
    }
}

static struct nimovalsa_chain chain_of(uint16_t count)
{
    struct nimovalsa_chain chain = {
        .total = 0x1122334455667788, .i = 0x0102, .j = 0x0304, .count = count};

    for (unsigned k = 0; k < NIMOVALSA_LONGEST_HORIZON; k++)
        chain.ends[k] = (uint16_t)(0x0506 + 3 * k);
    return chain;
}

/* What is written, byte by byte, and what is left behind it. */
static void encode_plan(void)
{
    static const uint8_t want[] = {
        'R',  'C',  'P',  1,    0,    0x88, 0x77, 0x66, 0x55, 0x44, 0x33, 0x22,
        0x11, 0x02, 0x01, 0x04, 0x03, 2,    0,    0x06, 0x05, 0x09, 0x05, 0xEE,
    };
    const struct nimovalsa_chain chain = chain_of(2);
    uint8_t bytes[sizeof want];

    memset(bytes, 0xEE, sizeof bytes);
    expect(nimovalsa_plan_encode(&chain, bytes, sizeof bytes) == 23,
           "the length of a plan is wrong");
    expect(memcmp(bytes, want, sizeof bytes) == 0, "a plan has other bytes");
}

/* Into a buffer of length bytes: the whole plan, or nothing if it is short. */
static void try_encode(const struct nimovalsa_chain *chain,
                       const uint8_t *whole, size_t length)
{
    const size_t full = NIMOVALSA_PLAN_BYTES(chain->count);
    const size_t written = length < full ? 0 : full;
    uint8_t bytes[PLAN_BYTES + 1], want[PLAN_BYTES + 1];

    memset(bytes, 0xEE, sizeof bytes);
    memset(want, 0xEE, sizeof want);
    memcpy(want, whole, written);
    expect(nimovalsa_plan_encode(chain, bytes, length) == written,
           "a plan is encoded at another length");
    expect(memcmp(bytes, want, sizeof want) == 0,
           "a plan is written otherwise");
}

/*
 * From the first length bytes: the plan, or nothing if they end before it. They
 * are the end of a heap block, so that valgrind sees whether more is read.
 */
static void try_decode(const struct nimovalsa_chain *chain,
                       const uint8_t *whole, size_t length)
{
    const int there = length >= NIMOVALSA_PLAN_BYTES(chain->count);
    struct nimovalsa_chain read, want;
    uint8_t *block = malloc(1 + length);

    expect(block != NULL, "no memory");
    memcpy(block + 1, whole, length);
    memset(&read, 0xEE, sizeof read);
    memset(&want, 0xEE, sizeof want);
    if (there)
        memcpy(&want, chain, CHAIN_FRONT + chain->count * sizeof *chain->ends);
    expect(nimovalsa_plan_decode(block + 1, length, &read) == there,
           "a plan is decoded at another length");
    expect(memcmp(&read, &want, CHAIN_FIELDS) == 0, "a plan is read otherwise");
    free(block);
}

static void try_lengths(uint16_t count)
{
    const struct nimovalsa_chain chain = chain_of(count);
    uint8_t whole[PLAN_BYTES + 1] = {0};

    nimovalsa_plan_encode(&chain, whole, sizeof whole);
    for (size_t length = 0; length <= NIMOVALSA_PLAN_BYTES(count) + 1;
         length++) {
        try_encode(&chain, whole, length);
        try_decode(&chain, whole, length);
    }
}

/* Each byte of mark and version, and a count of more than there is room for. */
static void refuse_wrong_bytes(void)
{
    struct nimovalsa_chain chain = chain_of(NIMOVALSA_LONGEST_HORIZON);
    uint8_t bytes[2 * PLAN_BYTES] = {0};

    nimovalsa_plan_encode(&chain, bytes, sizeof bytes);
    for (size_t k = 0; k < NIMOVALSA_HEAD_BYTES; k++) {
        bytes[k] ^= 4;
        expect(!nimovalsa_plan_decode(bytes, sizeof bytes, &chain),
               "a wrong mark or version is decoded");
        bytes[k] ^= 4;
    }
    put16(bytes + 17, NIMOVALSA_LONGEST_HORIZON + 1);
    expect(!nimovalsa_plan_decode(bytes, sizeof bytes, &chain),
           "a count above the longest horizon is decoded");
    chain.count = NIMOVALSA_LONGEST_HORIZON + 1;
    expect(nimovalsa_plan_encode(&chain, bytes, sizeof bytes) == 0,
           "a count above the longest horizon is encoded");
}

int main(void)
{
    encode_paper();
    encode_unlike_fields();
    refuse_removals(0);
    refuse_removals(1);
    refuse_versions();
    encode_plan();
    for (uint16_t count = 0; count <= 3; count++)
        try_lengths(count);
    try_lengths(NIMOVALSA_LONGEST_HORIZON);
    refuse_wrong_bytes();
    printf("sheet header: %lu comparisons passed\n", passed);
    return 0;
}
