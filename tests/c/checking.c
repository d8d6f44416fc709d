/*
 * nimovalsa_check on good, damaged, short and long sheets of both versions.
 * Each answer is compared with the refusal table of document 01 and what
 * request 6 of document 02 makes of it. The other calls answer the same
 * refusals, so each sheet is passed to them too.
 */
#include "boundary.h"

#include <string.h>

static uint64_t check_sheet(struct input input)
{
    return nimovalsa_check(input.sheet.at, input.sheet.length);
}

struct subject checking = {"nimovalsa_check", check_sheet,
                           NIMOVALSA_CHECK_STACK, 0};

static void expect(struct bytes sheet, unsigned number, unsigned option)
{
    uint64_t answer = number * 4 + option;

    expect_answer(&checking, (struct input){.sheet = sheet}, answer);
    expect_costing(sheet, answer);
    expect_pricing(sheet, answer);
    expect_planning(sheet, answer);
    expect_budgeting(sheet, answer);
}

/* The number that is expected after one field of a good sheet got a value. */
struct change {
    unsigned number;
    size_t at;
    size_t bytes;
    int64_t value;
    const char *name;
};

static const struct change head_changes[] = {
    {2, MARK, 1, 'S', "mark, first byte"},
    {2, MARK + 1, 1, 'c', "mark, second byte"},
    {2, MARK + 2, 1, 0, "mark, third byte"},
    {3, HORIZON, 2, 0, "T 0"},
    {0, HORIZON, 2, 1, "T 1"},
    {0, HORIZON, 2, 300, "T 300"},
    {3, HORIZON, 2, 301, "T 301"},
    {3, HORIZON, 2, 65535, "T 65,535"},
    {0, RATE, 4, 200000, "r 200,000"},
    {4, RATE, 4, 200001, "r 200,001"},
    {4, RATE, 4, 4294967295, "r 2^32 - 1"},
};

/* In a record of the middle sheet. */
static const struct change middle_changes[] = {
    {5, LONGEST, 2, 121, "longest 121"},
    {0, LONGEST, 2, 120, "longest 120"},
    {5, LONGEST, 2, 0, "longest 0"},
    {5, LONGEST, 2, 1, "longest below shortest"},
    {0, LONGEST, 2, 2, "longest equal to shortest"},
    {5, SHORTEST, 2, 0, "shortest 0"},
    {0, SHORTEST, 2, 1, "shortest 1"},
    {0, SHORTEST, 2, 20, "shortest equal to longest"},
    {5, SHORTEST, 2, 21, "shortest above longest"},

    {6, INVESTMENT, 4, 1000000001, "investment 10^9 + 1"},
    {0, INVESTMENT, 4, 1000000000, "investment 10^9"},
    {6, INVESTMENT, 4, 4294967295, "investment 2^32 - 1"},
    {6, MAINTENANCE, 4, 1000000001, "maintenance 10^9 + 1"},
    {0, MAINTENANCE, 4, 1000000000, "maintenance 10^9"},
    {6, ELECTRICITY, 4, 1000000001, "electricity 10^9 + 1"},
    {0, ELECTRICITY, 4, 1000000000, "electricity 10^9"},

    {7, INVESTMENT_INFLATION, 4, 40001, "investment inflation r + 1"},
    {0, INVESTMENT_INFLATION, 4, 40000, "investment inflation r"},
    {7, INVESTMENT_INFLATION, 4, -100001, "investment inflation -100,001"},
    {0, INVESTMENT_INFLATION, 4, -100000, "investment inflation -100,000"},
    {7, INVESTMENT_INFLATION, 4, INT32_MIN, "investment inflation -2^31"},
    {7, INVESTMENT_INFLATION, 4, INT32_MAX, "investment inflation 2^31 - 1"},
    {7, MAINTENANCE_INFLATION, 4, 40001, "maintenance inflation r + 1"},
    {0, MAINTENANCE_INFLATION, 4, 40000, "maintenance inflation r"},
    {7, MAINTENANCE_INFLATION, 4, -100001, "maintenance inflation -100,001"},
    {0, MAINTENANCE_INFLATION, 4, -100000, "maintenance inflation -100,000"},
    {7, ELECTRICITY_INFLATION, 4, 40001, "electricity inflation r + 1"},
    {0, ELECTRICITY_INFLATION, 4, 40000, "electricity inflation r"},
    {7, ELECTRICITY_INFLATION, 4, -100001, "electricity inflation -100,001"},
    {0, ELECTRICITY_INFLATION, 4, -100000, "electricity inflation -100,000"},
    {7, OVERHAUL_INFLATION, 4, 40001, "overhaul inflation r + 1"},
    {0, OVERHAUL_INFLATION, 4, 40000, "overhaul inflation r"},
    {7, OVERHAUL_INFLATION, 4, -100001, "overhaul inflation -100,001"},
    {0, OVERHAUL_INFLATION, 4, -100000, "overhaul inflation -100,000"},

    {8, MAINTENANCE_AGEING, 4, 40001, "maintenance ageing r + 1"},
    {0, MAINTENANCE_AGEING, 4, 40000, "maintenance ageing r"},
    {8, MAINTENANCE_AGEING, 4, 4294967295, "maintenance ageing 2^32 - 1"},
    {8, ELECTRICITY_AGEING, 4, 40001, "electricity ageing r + 1"},
    {0, ELECTRICITY_AGEING, 4, 40000, "electricity ageing r"},
    {8, ELECTRICITY_AGEING, 4, 4294967295, "electricity ageing 2^32 - 1"},

    {9, OVERHAUL_COUNT, 1, 9, "overhaul count 9"},
    {9, OVERHAUL_COUNT, 1, 255, "overhaul count 255"},
    {9, OVERHAUL_COUNT, 1, 4, "overhaul count above the entries"},
    {9, OVERHAUL_COUNT, 1, 2, "overhaul count below the entries"},
    {9, OVERHAUL(0) + AGE, 2, 0, "first age 0"},
    {0, OVERHAUL(0) + AGE, 2, 1, "first age 1"},
    {9, OVERHAUL(1) + AGE, 2, 5, "age equal to the one before"},
    {0, OVERHAUL(1) + AGE, 2, 6, "age one above the one before"},
    {9, OVERHAUL(1) + AGE, 2, 4, "age below the one before"},
    {9, OVERHAUL(2) + AGE, 2, 120, "last age 120"},
    {0, OVERHAUL(2) + AGE, 2, 119, "last age 119"},
    {9, OVERHAUL(0) + AMOUNT, 4, 1000000001, "overhaul amount 10^9 + 1"},
    {0, OVERHAUL(0) + AMOUNT, 4, 1000000000, "overhaul amount 10^9"},
    {9, OVERHAUL(3) + AGE, 2, 20, "unused overhaul with an age"},
    {9, OVERHAUL(3) + AMOUNT, 4, 1, "unused overhaul with an amount"},
    {9, OVERHAUL(7) + AMOUNT + 3, 1, 1, "last byte of the overhauls"},
};

/* The same as version 2. A removal is not an overhaul that is not used. */
static const struct change middle_removals[] = {
    {6, REMOVAL, 4, 1000000001, "removal 10^9 + 1"},
    {0, REMOVAL, 4, 1000000000, "removal 10^9"},
    {6, REMOVAL, 4, 2147483648, "removal 2^31"},
    {6, REMOVAL, 4, 4294967295, "removal 2^32 - 1"},
    {0, REMOVAL, 4, 1, "removal 1"},
    {0, REMOVAL + 3, 1, 1, "removal with a last byte"},

    {7, REMOVAL_INFLATION, 4, 40001, "removal inflation r + 1"},
    {0, REMOVAL_INFLATION, 4, 40000, "removal inflation r"},
    {7, REMOVAL_INFLATION, 4, -100001, "removal inflation -100,001"},
    {0, REMOVAL_INFLATION, 4, -100000, "removal inflation -100,000"},
    {7, REMOVAL_INFLATION, 4, INT32_MIN, "removal inflation -2^31"},
    {7, REMOVAL_INFLATION, 4, INT32_MAX, "removal inflation 2^31 - 1"},
};

/* In a record of the limit sheet. */
static const struct change limit_changes[] = {
    {8, MAINTENANCE_AGEING, 4, 300001, "maintenance ageing 300,001"},
    {8, ELECTRICITY_AGEING, 4, 300001, "electricity ageing 300,001"},
    {8, MAINTENANCE_INFLATION, 4, 0, "maintenance grows faster than r"},
    {8, ELECTRICITY_INFLATION, 4, 0, "electricity grows faster than r"},
    {9, OVERHAUL_COUNT, 1, 9, "overhaul count 9 with eight entries"},
    {9, OVERHAUL_COUNT, 1, 7, "overhaul count 7 with eight entries"},
    {9, OVERHAUL(7) + AGE, 2, 120, "eighth age 120"},
    {9, OVERHAUL(7) + AGE, 2, 118, "eighth age equal to the seventh"},
    {9, OVERHAUL(7) + AMOUNT, 4, 1000000001, "eighth amount 10^9 + 1"},
};

static const struct change limit_removals[] = {
    {6, REMOVAL, 4, 1000000001, "removal 10^9 + 1, all at their limits"},
    {7, REMOVAL_INFLATION, 4, 200001, "removal inflation 200,001"},
    {7, REMOVAL_INFLATION, 4, -100001, "removal inflation -100,001, r 200,000"},
};

/* In a record of the empty sheet: not offered, but checked all the same. */
static const struct change empty_changes[] = {
    {5, SHORTEST, 2, 1, "only shortest not 0"},
    {5, LONGEST, 2, 1, "only longest not 0"},
    {6, INVESTMENT, 4, 1000000001, "not offered, investment 10^9 + 1"},
    {7, OVERHAUL_INFLATION, 4, 1, "not offered, overhaul inflation r + 1"},
    {8, ELECTRICITY_AGEING, 4, 1, "not offered, electricity ageing r + 1"},
    {9, OVERHAUL_COUNT, 1, 1, "not offered, overhaul count 1, age 0"},
    {9, OVERHAUL(0) + AGE, 2, 1, "not offered, unused overhaul with an age"},
};

static const struct change empty_removals[] = {
    {6, REMOVAL, 4, 1000000001, "not offered, removal 10^9 + 1"},
    {0, REMOVAL, 4, 1000000000, "not offered, removal 10^9"},
    {7, REMOVAL_INFLATION, 4, 1, "not offered, removal inflation r + 1"},
    {7, REMOVAL_INFLATION, 4, -100001, "not offered, inflation -100,001"},
    {0, REMOVAL_INFLATION, 4, -100000, "not offered, inflation -100,000"},
};

/* Each removal, and its inflation, at its limits; r is 200,000. */
static const struct removal limit_of_removals[OPTIONS] = {
    {1000000000, 200000}, {1000000000, -100000}, {1000000000, 200000}};

static void apply(uint8_t *part, const struct change *change)
{
    put(part + change->at, change->bytes, change->value);
}

static unsigned option_of_answer(unsigned number, unsigned option)
{
    return number >= 5 && number <= 9 ? option : NO_OPTION;
}

static void test_good(make_sheet *make, const char *name,
                      const struct removal *removals)
{
    uint8_t sheet[LONGER_SHEET];

    name_case("%s", name);
    expect(put_sheet(sheet, make, removals), 0, NO_OPTION);
}

static void test_good_sheets(void)
{
    for (size_t n = 0; n < VERSIONS; n++) {
        test_good(make_middle_sheet, "middle sheet", unpaid[n]);
        test_good(make_limit_sheet, "limit sheet", unpaid[n]);
        test_good(make_empty_sheet, "empty sheet", unpaid[n]);
    }
    test_good(make_limit_sheet, "limit sheet, removals too", limit_of_removals);
}

/* ---- one fault ---- */

static void test_head_changes(const struct removal *removals)
{
    uint8_t sheet[LONGER_SHEET];

    for (size_t i = 0; i < COUNT(head_changes); i++) {
        const struct change *change = &head_changes[i];
        struct bytes whole = put_sheet(sheet, make_middle_sheet, removals);

        name_case("%s", change->name);
        apply(sheet, change);
        expect(whole, change->number, NO_OPTION);
    }
}

/* Version 1 goes with 278 bytes and version 2 with 302. */
static void test_versions(void)
{
    static const unsigned versions[] = {0,   1,   2,   3,   255,  256,
                                        257, 258, 512, 513, 65535};
    uint8_t sheet[LONGER_SHEET];

    for (size_t n = 0; n < VERSIONS; n++)
        for (size_t i = 0; i < COUNT(versions); i++) {
            struct bytes whole = put_sheet(sheet, make_middle_sheet, unpaid[n]);

            name_case("version %u", versions[i]);
            put16(sheet + VERSION, versions[i]);
            expect(whole, versions[i] == n + 1 ? 0 : 2, NO_OPTION);
        }
}

static void test_record_changes(make_sheet *make,
                                const struct removal *removals,
                                const struct change *changes, size_t count)
{
    uint8_t sheet[LONGER_SHEET];

    for (unsigned option = 0; option < OPTIONS; option++)
        for (size_t i = 0; i < count; i++) {
            const struct change *change = &changes[i];
            struct bytes whole = put_sheet(sheet, make, removals);

            name_case("option %u, %s", option, change->name);
            apply(record_in(sheet, whole.length, option), change);
            expect(whole, change->number,
                   option_of_answer(change->number, option));
        }
}

static void test_changes(void)
{
    for (size_t n = 0; n < VERSIONS; n++) {
        test_head_changes(unpaid[n]);
        test_record_changes(make_middle_sheet, unpaid[n], middle_changes,
                            COUNT(middle_changes));
        test_record_changes(make_limit_sheet, unpaid[n], limit_changes,
                            COUNT(limit_changes));
        test_record_changes(make_empty_sheet, unpaid[n], empty_changes,
                            COUNT(empty_changes));
    }
    test_record_changes(make_middle_sheet, unpaid[1], middle_removals,
                        COUNT(middle_removals));
    test_record_changes(make_limit_sheet, limit_of_removals, limit_removals,
                        COUNT(limit_removals));
    test_record_changes(make_empty_sheet, unpaid[1], empty_removals,
                        COUNT(empty_removals));
}

/* Eight overhauls of ages 1 to 8, and behind them a removal whose bytes could
 * be a ninth, of age 9 and amount 1. */
static void test_no_ninth_overhaul(unsigned option)
{
    uint8_t sheet[LONGER_SHEET];
    struct bytes whole = put_sheet(sheet, make_middle_sheet, unpaid[1]);
    uint8_t *record = record_in(sheet, whole.length, option);

    for (unsigned entry = 0; entry < 8; entry++)
        put_overhaul(record, entry, 1 + entry, 1);
    put_removal(sheet, option, 9 + 1 * 65536, 0);
    for (unsigned count = 7; count <= 9; count++) {
        name_case("option %u, a removal like an overhaul, count %u", option,
                  count);
        put(record + OVERHAUL_COUNT, 1, count);
        if (count == 8)
            expect(whole, 0, NO_OPTION);
        else
            expect(whole, 9, option);
    }
}

/* ---- two faults ---- */

/* A fault with this number, in an option from 5 on: the first that the tables
 * have, or the first of the removal's. */
struct fault {
    unsigned number, option;
    int of_removal;
};

static const struct change *change_of(const struct fault *fault)
{
    const struct change *changes = fault->of_removal   ? middle_removals
                                   : fault->number < 5 ? head_changes
                                                       : middle_changes;

    while (changes->number != fault->number)
        changes++;
    return changes;
}

static void damage(uint8_t *sheet, size_t length, const struct fault *fault)
{
    apply(fault->number < 5 ? sheet : record_in(sheet, length, fault->option),
          change_of(fault));
}

/* The answer is the one that comes first in the order. */
static void test_faults(const struct removal *removals, struct fault first,
                        struct fault second)
{
    uint8_t sheet[LONGER_SHEET];
    struct bytes whole = put_sheet(sheet, make_middle_sheet, removals);

    name_case("faults %u in option %u%s and %u in option %u%s", first.number,
              first.option, first.of_removal ? ", of removal," : "",
              second.number, second.option,
              second.of_removal ? ", of removal" : "");
    damage(sheet, whole.length, &second);
    damage(sheet, whole.length, &first);
    expect(whole, first.number, option_of_answer(first.number, first.option));
}

/* An amount or an inflation. */
static int may_be_of_removal(struct fault fault)
{
    return fault.number == 6 || fault.number == 7;
}

/* In both versions; in version 2 also with either one or both of removal. */
static void test_two_faults(struct fault first, struct fault second)
{
    for (size_t n = 0; n < VERSIONS; n++)
        test_faults(unpaid[n], first, second);
    for (int one = 0; one <= may_be_of_removal(first); one++)
        for (int other = 0; other <= may_be_of_removal(second); other++) {
            first.of_removal = one;
            second.of_removal = other;
            if (one || other)
                test_faults(unpaid[1], first, second);
        }
}

static void test_order(void)
{
    for (unsigned first = 2; first <= 4; first++)
        for (unsigned second = first + 1; second <= 9; second++)
            test_two_faults((struct fault){first, 0, 0},
                            (struct fault){second, 0, 0});

    for (unsigned option = 0; option < OPTIONS; option++)
        for (unsigned first = 5; first <= 9; first++)
            for (unsigned second = first + 1; second <= 9; second++)
                test_two_faults((struct fault){first, option, 0},
                                (struct fault){second, option, 0});

    for (unsigned option = 0; option < OPTIONS; option++)
        for (unsigned later = option + 1; later < OPTIONS; later++)
            for (unsigned first = 5; first <= 9; first++)
                for (unsigned second = 5; second <= 9; second++)
                    test_two_faults((struct fault){first, option, 0},
                                    (struct fault){second, later, 0});
}

/* ---- the length ---- */

/* The first bytes of a good sheet, and zero bytes behind it. The length of the
 * other version does not go with its own. */
static void test_length(const uint8_t *input, size_t right, size_t length)
{
    int is_known = length == NIMOVALSA_SHEET_BYTES || length == LONGER_SHEET;

    if (length == right)
        return;
    name_case("%zu bytes of a sheet of %zu", length, right);
    expect((struct bytes){input, length}, is_known ? 2 : 1, NO_OPTION);
}

static void test_lengths(void)
{
    static uint8_t input[LONGEST_SHEET];

    for (size_t n = 0; n < VERSIONS; n++) {
        struct bytes whole = put_sheet(input, make_middle_sheet, unpaid[n]);

        for (size_t length = 0; length <= LONGER_SHEET + 3; length++)
            test_length(input, whole.length, length);
        test_length(input, whole.length, LONGEST_SHEET);
    }
    name_case("NULL with length 0");
    expect_answer_here(&checking, (struct input){.sheet = {NULL, 0}},
                       REFUSED_LENGTH);
}

/* The sheet stands in memory that may be written. */
static void test_sheet_unchanged(const struct removal *removals)
{
    uint8_t sheet[LONGER_SHEET], before[LONGER_SHEET];
    struct bytes whole = put_sheet(sheet, make_limit_sheet, removals);

    name_case("sheet unchanged by checking");
    memcpy(before, sheet, whole.length);
    expect_answer_here(&checking, (struct input){.sheet = whole}, ACCEPTED);
    stop_unless(memcmp(before, sheet, whole.length) == 0, "comparison");
}

void test_checking(void)
{
    test_good_sheets();
    test_changes();
    test_versions();
    for (unsigned option = 0; option < OPTIONS; option++)
        test_no_ninth_overhaul(option);
    test_order();
    test_lengths();
    for (size_t n = 0; n < VERSIONS; n++)
        test_sheet_unchanged(unpaid[n]);
}
