/*
 * nimovalsa.h: the C calls of libnimovalsa.a.
 *
 * The planning sheet has NIMOVALSA_SHEET_BYTES bytes in version 1 and
 * NIMOVALSA_SHEET_2_BYTES in version 2, in this order; multi-byte fields are
 * little-endian, rates are in millionths a year:
 *
 *   mark "RCS"; version u16; horizon T u16, in years;
 *   real discount rate r u32;
 *   three records of 89 bytes in version 1 and 97 in version 2: maintain
 *   (option 0), renovate (1), replace (2). A record:
 *     shortest life u16, longest life u16, in years;
 *     investment u32, its inflation i32;
 *     maintenance u32, its inflation i32, its ageing u32;
 *     electricity u32, its inflation i32, its ageing u32;
 *     overhaul inflation i32, overhaul count u8;
 *     eight overhauls, each age u16 and amount u32;
 *     in version 2 alone: removal u32, its inflation i32.
 *
 * Both lives 0: the option is not offered; its record is checked all the
 * same. An overhaul at or past the count is all zero bytes. A sheet of
 * version 1 is read with removal 0 and removal inflation 0.
 *
 * A plan says which chain of activities is taken, in 19 + 2m bytes, in this
 * order, likewise little-endian:
 *
 *   mark "RCP"; version u16, which is 1; total u64;
 *   year i u16; year j u16; number of replacements m u16;
 *   m end years, each u16.
 *
 * Maintain runs from year 0 to i, renovate from i to j, the first replacement
 * from j to the first end year, each later one from the end year before it to
 * its own.
 *
 * Every call returns one number, its answer:
 *
 *   total * 256 + number * 4 + option
 *
 *   number   0 if the call accepts, else the number of the refusal
 *   option   0, 1 or 2 with refusals 5 to 9; 3 with every other number, 0
 *            included
 *   total    the total, cost or factor; 0 with a refusal, and 0 from a call
 *            that answers none of them
 *
 * The calls use no heap and keep nothing. Of other code the archive calls
 * memcpy and memset alone.
 */
#ifndef NIMOVALSA_H
#define NIMOVALSA_H

#include <stddef.h>
#include <stdint.h>

#ifdef __cplusplus
extern "C" {
#endif

/* The length of a sheet of version 1, and of one of version 2. */
#define NIMOVALSA_SHEET_BYTES 278
#define NIMOVALSA_SHEET_2_BYTES 302

/* The length of a plan with m replacements. */
#define NIMOVALSA_PLAN_BYTES(m) (19 + 2 * (size_t)(m))

/* The three parts of an answer. */
static inline uint64_t nimovalsa_total(uint64_t answer)
{
    return answer / 256;
}

static inline unsigned nimovalsa_number(uint64_t answer)
{
    return (unsigned)(answer % 256 / 4);
}

static inline unsigned nimovalsa_option(uint64_t answer)
{
    return (unsigned)(answer % 4);
}

/*
 * Checks a sheet. The total is always 0. The number is that of the first
 * fault, or 0 if there is none. Faults are looked for in the order 1 to 4,
 * then 5 to 9 in maintain, 5 to 9 in renovate, 5 to 9 in replace:
 *
 *   1  length neither 278 nor 302
 *   2  mark wrong; or version not 1 with 278 bytes, or not 2 with 302
 *   3  T not from 1 to 300
 *   4  r above 200,000
 *   5  lives neither both 0 nor 1 <= shortest <= longest <= 120
 *   6  investment, maintenance, electricity or removal above 10^9
 *   7  one of the five inflations not from -100,000 to r
 *   8  an ageing g above 300,000; or, with the inflation f of the same
 *      payment, (10^6 + f)(10^6 + g) above 10^6 (10^6 + r), for maintenance
 *      or electricity
 *   9  overhaul count above 8; or the age of a used overhaul not from 1 to
 *      119 or not above the age before it; or its amount above 10^9; or an
 *      unused overhaul not all zero bytes
 *
 * Buffers: the sheet is only read. Nothing is written, whatever the answer,
 * and nothing is kept between calls, so calls may share a sheet, also from
 * several threads at once.
 *
 * Duties of the caller, which the call cannot check:
 *   - sheet points to length readable bytes, at any alignment. With length 0
 *     it may be any pointer, also NULL.
 *   - nothing changes those bytes during the call.
 *   - NIMOVALSA_CHECK_STACK bytes of stack are free. The call was measured
 *     to use 113 bytes; tests/c measures it again and fails above the figure
 *     here. It is not proved.
 */
#define NIMOVALSA_CHECK_STACK 2048

uint64_t nimovalsa_check(const uint8_t *sheet, size_t length);

/*
 * Costs an arc: an option kept from year start to year end. The total is the
 * arc's cost in units, 10,000 to a currency unit. The number is that of the
 * first fault, or 0 if there is none. Faults are looked for in the order 1 to
 * 9, as nimovalsa_check answers them, then:
 *
 *  13  option above 2; or end above T or before start; or maintain (option 0)
 *      not from year 0; or length not offered
 *
 * The length is end - start. Length 0 is offered for maintain, from 0 to 0,
 * and for renovate, in any year up to T, also where both lives are 0. A
 * length of 1 or more is offered from the option's shortest to its longest
 * life. option, start and end may be any numbers.
 *
 * Length 0 costs 0. A longer arc costs the sum of the investment in year
 * start, each overhaul of an age less than the length in year start + age,
 * maintenance and electricity in every year from start + 1 to end, and, of
 * renovate and replace with an end before T, the removal in year end.
 * Maintaining pays no removal, nor does an arc that ends at T. Each of
 * these payments is its amount moved forward from year 0 to its year, a year
 * at a time, by (10^6 + f) / (10^6 + r), rounded up to a whole unit; in the
 * years after start, maintenance and electricity first move by
 * (10^6 + g) / 10^6, rounded up likewise.
 *
 * The electricity of renovate (option 1) does so in every year, also in those
 * up to start: renovating renews the building, while the motors go on ageing.
 * Here the library follows the owner's request and not the 2018 paper, in which
 * electricity ages from start.
 *
 * A cost is never below its exact value, the same sum without rounding, and for
 * an arc from year t to year u at most (A(u) - A(t)) / 2 units above it, where
 * A(y) is 6y^2 + 4y for y below T, and A(T) is 6T^2 + 2T.
 *
 * Buffers: as with nimovalsa_check, the sheet is only read, nothing is
 * written, and nothing is kept between calls.
 *
 * Duties of the caller: those of nimovalsa_check, with NIMOVALSA_COST_STACK
 * bytes of stack. The call was measured to use 880; tests/c measures it again
 * and fails above the figure here. It is not proved.
 */
#define NIMOVALSA_COST_STACK 8192

uint64_t nimovalsa_cost(const uint8_t *sheet, size_t length, uint64_t option,
                        uint64_t start, uint64_t end);

/*
 * Prices a plan: the total is the sum of what the arcs of its chain cost, in
 * units, each as nimovalsa_cost answers it. The number is that of the first
 * fault, or 0 if there is none. Faults are looked for in the order 1 to 9, as
 * nimovalsa_check answers them, then:
 *
 *  14  plan_length below 19 or not 19 + 2m; or the plan's mark or version
 *      wrong; or not a feasible chain
 *
 * A chain is feasible if i <= j, the end years rise and the first is above j;
 * if no year is above T, and the last activity ends at T: the last end year is
 * T, or j is T where m is 0; and if each length lies between its option's
 * shortest and longest life. Maintain and renovate may also have length 0,
 * which costs 0, also where both lives are 0.
 *
 * The total is never below the exact value of the chain, and at most 3T^2 + T
 * units above it. The chain need not be one of least total. The plan's total
 * field is not looked at: whatever it holds, the answer is the same.
 *
 * Buffers: sheet and plan are only read, nothing is written, and nothing is
 * kept between calls. They may overlap.
 *
 * Duties of the caller, which the call cannot check:
 *   - sheet points to sheet_length readable bytes and plan to plan_length, each
 *     at any alignment. With length 0 it may be any pointer, also NULL.
 *   - nothing changes those bytes during the call.
 *   - NIMOVALSA_PRICE_STACK bytes of stack are free. The call was measured
 *     to use 1,824 bytes; tests/c measures it again and fails above the figure
 *     here. It is not proved.
 */
#define NIMOVALSA_PRICE_STACK 8192

uint64_t nimovalsa_price(const uint8_t *sheet, size_t sheet_length,
                         const uint8_t *plan, size_t plan_length);

/*
 * Plans: writes the plan of a feasible chain of least total, which is also the
 * total of the answer, in units. nimovalsa_price says which chains are feasible
 * and what their total is. Of chains with equal least totals the one with the
 * largest i is taken; of those the one with the largest j; of those the one
 * that has the later end year at the first replacement where they differ. No
 * feasible chain's exact value is more than 3T^2 + T units below that of the
 * chain written.
 *
 * The number is that of the first fault, or 0 if there is none. Faults are
 * looked for in the order 1 to 9, as nimovalsa_check answers them, then:
 *
 *  10  words_count below NIMOVALSA_PLAN_WORDS
 *  11  no chain is feasible
 *  12  plan_length below 19 + 2m, m being that of the chain chosen
 *
 * Buffers: the sheet is only read. What is written depends on the number:
 *
 *   0         the words, and the first 19 + 2m bytes of the plan
 *   11, 12    the words
 *   other     nothing
 *
 * The words are written for each year y from 0 to T:
 *
 *   words[y]  the least total of replacements alone from year y to T, their
 *             removals included; 0 for y = T; 2^64 - 1 if no replacements lead
 *             to T
 *
 * All other words, those from T + 1 on, are not touched, and neither are the
 * plan's bytes behind the first 19 + 2m. NIMOVALSA_PLAN_WORDS words are enough
 * for every sheet, and a plan_length of 19 + 2T for every chain. What the
 * buffers hold before the call does not matter, and nothing is kept between
 * calls.
 *
 * Duties of the caller, which the call cannot check:
 *   - sheet points to sheet_length readable bytes and plan to plan_length
 *     writable ones, each at any alignment; words points to words_count
 *     writable words, at the alignment of uint64_t. With length or count 0 it
 *     may be any pointer, also NULL.
 *   - neither plan nor words overlaps another of the three.
 *   - nothing else reads or changes plan and words during the call, and nothing
 *     changes the sheet.
 *   - NIMOVALSA_PLAN_STACK bytes of stack are free. The call was measured to
 *     use 45,024 bytes; tests/c measures it again and fails above the figure
 *     here. It is not proved.
 */
#define NIMOVALSA_PLAN_WORDS 301
#define NIMOVALSA_PLAN_STACK 65536

uint64_t nimovalsa_plan(const uint8_t *sheet, size_t sheet_length,
                        uint8_t *plan, size_t plan_length, uint64_t *words,
                        size_t words_count);

/*
 * Budgets a plan: writes what its chain pays in each year, as two lists of
 * words. The total of the answer is that of nimovalsa_price. general is the
 * general inflation, in millionths a year; it may be any number.
 *
 * The number is that of the first fault, or 0 if there is none. Faults are
 * looked for in the order 1 to 9, as nimovalsa_check answers them, 14, as
 * nimovalsa_price answers it, then:
 *
 *  15  general above 50,000
 *  16  units_count below T + 1; or cents_count below both T + 1 and 16
 *
 * Buffers: sheet and plan are only read. With number 0 these words are written,
 * with every other number none:
 *
 *   units[y]  for each year y from 0 to T: the sum of the payments of year y,
 *             each with the value that it has in the total, in units
 *   cents[y]  for each year y from 0 to 15, or to T if that is sooner: the sum
 *             of the same payments in money of year y, in cents, 100 to a
 *             currency unit
 *
 * nimovalsa_cost says which payments an arc has and in which years. In the year
 * in which one arc ends and the next one starts, the last maintenance and
 * electricity and the removal of the first and the investment of the second are
 * payments of the same year. The words of units add up to the total.
 *
 * In cents a payment starts at its amount * 100 and moves forward from year 0
 * to its year, a year at a time, by (10^6 + general) / 10^6 and then by
 * (10^6 + f) / 10^6; in the years after the start of the arc, maintenance and
 * electricity first move by (10^6 + g) / 10^6, and the electricity of renovate
 * does so in every year. After each of these the result is rounded up to a
 * whole cent. Nothing is discounted.
 *
 * Units are present values, and cents are money of their own year: a word of
 * one list is never to be added to a word of the other.
 *
 * All other words keep their content. NIMOVALSA_BUDGET_UNITS and
 * NIMOVALSA_BUDGET_CENTS words are enough for every sheet. What the lists hold
 * before the call does not matter, and nothing is kept between calls.
 *
 * Duties of the caller, which the call cannot check:
 *   - sheet points to sheet_length readable bytes and plan to plan_length, each
 *     at any alignment; units points to units_count writable words and cents to
 *     cents_count, each at the alignment of uint64_t. With length or count 0 it
 *     may be any pointer, also NULL.
 *   - neither units nor cents overlaps another of the four. Sheet and plan may
 *     overlap each other.
 *   - nothing else reads or changes units and cents during the call, and
 *     nothing changes sheet and plan.
 *   - NIMOVALSA_BUDGET_STACK bytes of stack are free. The call was measured to
 *     use 2,752 bytes; tests/c measures it again and fails above the figure
 *     here. It is not proved.
 */
#define NIMOVALSA_BUDGET_UNITS 301
#define NIMOVALSA_BUDGET_CENTS 16
#define NIMOVALSA_BUDGET_STACK 8192

uint64_t nimovalsa_budget(const uint8_t *sheet, size_t sheet_length,
                          const uint8_t *plan, size_t plan_length,
                          uint64_t general, uint64_t *units, size_t units_count,
                          uint64_t *cents, size_t cents_count);

/*
 * Gives a present-worth factor: what 1 paid in a year is worth in year 0. rate
 * is in millionths a year. The total is the factor in units of 10^-12, so that
 * 10^12 stands for 1. rate and year may be any numbers.
 *
 * The number is that of the first fault, or 0 if there is none. Two numbers
 * that nimovalsa_check and nimovalsa_cost answer have a second meaning here;
 * the option is 3 with both:
 *
 *   4  rate above 200,000
 *  13  year above 300
 *
 * A factor is 10^12 moved forward from year 0 to its year, a year at a time, by
 * 10^6 / (10^6 + rate), rounded up to a whole number: the steps that a payment
 * without inflation takes, so that 10^8 currency units paid once in that year
 * have the factor as their present value in units. It is never below its exact
 * value, 10^12 * (10^6 / (10^6 + rate))^year, and at most year above it.
 *
 * Rates of 20,000, 30,000, 40,000 and 50,000 (2, 3, 4 and 5 per cent) are
 * looked up in a table of 1,204 numbers, every other rate is stepped; both give
 * the same factors. The compiler keeps the table as data, so that a lookup takes
 * the same time in every year. It was measured to take 4 ns, and a step 3 ns.
 *
 * Buffers: none. Nothing is kept between calls.
 *
 * Duties of the caller, which the call cannot check:
 *   - NIMOVALSA_FACTOR_STACK bytes of stack are free. The call was measured to
 *     use none, where an older toolchain's used 9,696 bytes for the table;
 *     tests/c measures it again and fails above the figure here. It is not
 *     proved.
 */
#define NIMOVALSA_FACTOR_STACK 16384

uint64_t nimovalsa_factor(uint64_t rate, uint64_t year);

#ifdef __cplusplus
}
#endif

#endif
