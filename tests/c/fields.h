/*
 * The fields of a sheet, and sheets written by field. The tests of this folder
 * and the benchmark (bench/) share it.
 */
#ifndef FIELDS_H
#define FIELDS_H

#include <nimovalsa.h>

#include <stddef.h>
#include <stdint.h>

enum {
    OPTIONS = 3,

    /* the sheet's head */
    MARK = 0,
    VERSION = 3,
    HORIZON = 5,
    RATE = 7,
    RECORDS = 11,

    /* an option record, from its own beginning */
    SHORTEST = 0,
    LONGEST = 2,
    INVESTMENT = 4,
    INVESTMENT_INFLATION = 8,
    MAINTENANCE = 12,
    MAINTENANCE_INFLATION = 16,
    MAINTENANCE_AGEING = 20,
    ELECTRICITY = 24,
    ELECTRICITY_INFLATION = 28,
    ELECTRICITY_AGEING = 32,
    OVERHAUL_INFLATION = 36,
    OVERHAUL_COUNT = 40,
    OVERHAULS = 41,
    RECORD_BYTES = 89,

    /* at the end of a record of version 2 */
    REMOVAL = 89,
    REMOVAL_INFLATION = 93,
    LONG_RECORD_BYTES = 97,

    /* an overhaul, from its own beginning */
    AGE = 0,
    AMOUNT = 2,
    OVERHAUL_BYTES = 6
};

#define OVERHAUL(entry) (OVERHAULS + OVERHAUL_BYTES * (entry))
#define COUNT(table) (sizeof(table) / sizeof *(table))

struct bytes {
    const uint8_t *at;
    size_t length;
};

/* The low bytes of a value, the lowest first. */
void put(uint8_t *at, size_t bytes, int64_t value);
void put16(uint8_t *at, int64_t value);
void put32(uint8_t *at, int64_t value);

/* The record of an option: in a sheet of this length, and of version 1. */
uint8_t *record_in(uint8_t *sheet, size_t length, size_t option);
uint8_t *record_of(uint8_t *sheet, size_t option);

/* The head of version 1; all but the head becomes zero. */
void put_head(uint8_t *sheet, int64_t horizon, int64_t rate);
void put_lives(uint8_t *record, int64_t shortest, int64_t longest);
void put_overhaul(uint8_t *record, size_t entry, int64_t age, int64_t amount);

/* A sheet of version 1 becomes the same of version 2, each removal 0; it stands
 * in NIMOVALSA_SHEET_2_BYTES bytes. */
void lengthen(uint8_t *sheet);

/* In a sheet of version 2. */
void put_removal(uint8_t *sheet, size_t option, int64_t amount,
                 int64_t inflation);

/* The paper's case study, version 1: T 300, lives up to 15, 30 and 60. */
void make_paper_sheet(uint8_t *sheet);

#endif
