"""Sheets for the checks, written field by field, apart from the tools."""

import random
import struct

# tests/c/fields.c, make_paper_sheet, prints these bytes: the paper's Table 1.
PAPER = bytes.fromhex(
    '524353 0100 2c01 409c0000'
    '0100 0f00 f0490200 3c280000 70110100 34210000 983a0000 983a0000 d0070000 00000000 3c280000'
    '02 0500f0490200 0a00f0490200' + '00' * 36 +
    '0100 1e00 882a1100 3c280000 b8880000 34210000 10270000 983a0000 d0070000 00000000 3c280000'
    '02 0a00f0490200 1400f0490200' + '00' * 36 +
    '0100 3c00 a0252600 3c280000 10270000 34210000 88130000 10270000 d0070000 00000000 3c280000'
    '03 0f00f0490200 1e00f0490200 2d00f0490200' + '00' * 30)

# Places of fields, from the beginning of the sheet and of a record.
VERSION, HORIZON, RATE = 3, 5, 7
RECORDS = {278: (11, 100, 189), 302: (11, 108, 205)}  # by the length of the sheet
SHORTEST, LONGEST, COUNT, OVERHAULS = 0, 2, 40, 41
INVESTMENT, MAINTENANCE, ELECTRICITY = 4, 12, 24
INVESTMENT_INFLATION, MAINTENANCE_INFLATION, ELECTRICITY_INFLATION, OVERHAUL_INFLATION = 8, 16, 28, 36
MAINTENANCE_AGEING, ELECTRICITY_AGEING = 20, 32
REMOVAL, REMOVAL_INFLATION = 89, 93  # of version 2; a record of version 1 ends here


def put(sheet, at, form, value):
    """The sheet with a field of this struct form at a place."""
    field = struct.pack('<' + form, value)
    return sheet[:at] + field + sheet[at + len(field):]


def put_option(sheet, option, at, form, value):
    return put(sheet, RECORDS[len(sheet)][option] + at, form, value)


def put_yearly(sheet, option, payment, amount, inflation, ageing):
    """The sheet with another payment of each year, MAINTENANCE or ELECTRICITY."""
    for at, form, value in ((payment, 'I', amount), (payment + 4, 'i', inflation), (payment + 8, 'I', ageing)):
        sheet = put_option(sheet, option, at, form, value)
    return sheet


def head(horizon, rate):
    return b'RCS' + struct.pack('<HHI', 1, horizon, rate)


def record(shortest=0, longest=0, investment=0, maintenance=0, overhauls=()):
    """A record whose rates and electricity are 0."""
    entries = b''.join(struct.pack('<HI', *overhaul) for overhaul in overhauls)
    once = struct.pack('<HHIiIiIIiIiB', shortest, longest, investment, 0, maintenance, 0, 0, 0, 0, 0, 0, len(overhauls))
    return once + entries.ljust(48, b'\0')


def only_replace(horizon, rate, *figures, **more):
    return head(horizon, rate) + 2 * record() + record(*figures, **more)


def removed(sheet, *removals):
    """A sheet of version 1 as one of version 2: each option with the amount of its removal and its inflation."""
    records = [sheet[at:at + REMOVAL] + struct.pack('<Ii', *removal) for at, removal in zip(RECORDS[278], removals)]
    return put(sheet[:RECORDS[278][0]], VERSION, 'H', 2) + b''.join(records)


# Document 01's case 12, and request 6's: the same with a removal of 3, and removals of all options, alone.
CASE_12 = only_replace(4, 0, 1, 3, investment=10, maintenance=1, overhauls=[(2, 15)])
CASE_12_REMOVED = removed(CASE_12, (0, 0), (0, 0), (3, 0))
UNREMOVED = head(4, 40_000) + 3 * record(1, 2)
REMOVALS = removed(UNREMOVED, (5, 0), (1, 10_000), (2, -10_000))


def random_sheet(source):
    """A sheet that passes the checks, of either version, often with figures at their limits."""
    rate = near(source, 0, 200_000)
    sheet = head(near(source, 1, 300), rate) + b''.join(random_record(source, rate) for _ in range(3))
    return sheet if source.random() < 0.5 else removed(sheet, *random_removals(source, rate))


def random_removals(source, rate, largest=10**9):
    """Amount and inflation for each option."""
    return [(near(source, 0, largest), near(source, -100_000, rate)) for _ in range(3)]


def random_record(source, rate, oldest=120, largest=10**9):
    if source.random() < 0.1:
        return record()
    longest = near(source, 1, oldest)
    lives = (0, 0) if source.random() < 0.2 else (near(source, 1, longest), longest)
    yearly = []
    for _ in range(2):
        inflation = near(source, -100_000, rate)
        highest = (10**6 * (10**6 + rate)) // (10**6 + inflation) - 10**6
        yearly += [near(source, 0, largest), inflation, near(source, 0, min(highest, 300_000))]
    ages = sorted(source.sample(range(1, oldest), source.randint(0, min(8, oldest - 1))))
    entries = b''.join(struct.pack('<HI', age, near(source, 0, largest)) for age in ages)
    return struct.pack('<HHIiIiIIiIiB', *lives, near(source, 0, largest), near(source, -100_000, rate), *yearly,
                       near(source, -100_000, rate), len(ages)) + entries.ljust(48, b'\0')


def near(source, least, most):
    """A number of the range, often one of its ends."""
    return source.choice([least, most, source.randint(least, most), source.randint(least, most)])


def random_sheets(count, seed):
    source = random.Random(seed)
    return [random_sheet(source) for _ in range(count)]


def small_pairs(count, seed):
    """Sheets with few chains, each without removals and with some that weigh as much as what else is paid."""
    source = random.Random(seed)
    for _ in range(count):
        rate = near(source, 0, 200_000)
        records = b''.join(random_record(source, rate, oldest=4, largest=30) for _ in range(3))
        sheet = head(source.randint(1, 7), rate) + records
        yield sheet, removed(sheet, *random_removals(source, rate, largest=30))
