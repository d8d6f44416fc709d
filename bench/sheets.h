/* The sheets and plans of the benchmark; fields.h is that of tests/c. */
#ifndef SHEETS_H
#define SHEETS_H

#include "fields.h"

enum {
    MAINTAIN,
    RENOVATE,
    REPLACE,

    MOST_YEARS = 300,
    MOST_LIFE = 120,
    MOST_AMOUNT = 1000000000,
    MOST_OVERHAULS = 8,
    MILLION = 1000000,

    /* a plan; its mark and version are where the sheet has them */
    PLAN_TOTAL = 5,
    MAINTAINED = 13,
    RENOVATED = 15,
    REPLACEMENTS = 17,
    ENDS = 19,
    LONGEST_PLAN = ENDS + 2 * MOST_YEARS
};

#define END(entry) (ENDS + 2 * (entry))

int64_t get16(const uint8_t *at);
int64_t get32(const uint8_t *at);

/* The length that goes with the version of a sheet. */
size_t length_of(const uint8_t *sheet);

/* Version 1, every option alike: lives from 1, all amounts 10^9, eight overhauls. */
void make_full_sheet(uint8_t *sheet, int64_t horizon, int64_t longest);

/* The same in version 2, with removals of 10^9 at renovate and replace as well. */
void make_removal_sheet(uint8_t *sheet, int64_t horizon, int64_t longest);

/* How many arcs a sheet of version 1 that passes the checks offers to planning: maintain from year 0, renovate
 * from each end of these, both with length 0 as well, and replace from each year below T. */
uint64_t arcs_offered(const uint8_t *sheet);

/* The plan of a replacement in every year up to T; its length. */
size_t put_yearly_plan(uint8_t *plan, int64_t horizon);

#endif
