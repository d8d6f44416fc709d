/* Sheets, arcs and plans drawn by a generator: equal seeds give equal ones. */
#ifndef DRAW_H
#define DRAW_H

#include "compare.h"

/* The splitmix64 generator. */
struct random {
    uint64_t state;
};

uint64_t next(struct random *random);
int64_t within(struct random *random, int64_t low, int64_t high);

/* The same, half of the time at an end or one away from it. */
int64_t near_an_end(struct random *random, int64_t low, int64_t high);

/* From which values the fields of a sheet are drawn. */
struct shape {
    const char *name;
    int64_t most_years, most_life, most_amount, least_inflation, most_rate;
    int ages_fast; /* every ageing is the largest that passes, or one less */
};

enum { LONGEST_SHEET = 400 };

/* A sheet of either version that passes the checks, its fields often at a limit. Some options are not offered. */
void draw_sheet(struct random *random, uint8_t *sheet, const struct shape *shape);

/* Edits a sheet, mostly so that a check fails, and answers its new length, LONGEST_SHEET at most. */
size_t damage_sheet(struct random *random, uint8_t *sheet);

/* An arc near what a sheet offers, or with a number far from it. */
struct arc draw_arc(struct random *random, uint8_t *sheet);

/* A plan that follows the lives of a sheet up to T, LONGEST_PLAN bytes at most; its length. */
size_t draw_plan(struct random *random, uint8_t *plan, uint8_t *sheet);

/* Edits a plan of that length, and answers its new length, which is at most two more. */
size_t damage_plan(struct random *random, uint8_t *plan, size_t length);

#endif
