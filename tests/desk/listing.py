"""Every payment of a chain and every chain of a sheet, from the words of documents 01 and 02, apart from the tools."""

import struct

from . import sheets

MILLION = 10**6
MAINTAIN, RENOVATE, REPLACE = range(3)


def horizon_of(sheet):
    return struct.unpack_from('<H', sheet, sheets.HORIZON)[0]


def rate_of(sheet):
    """The factor of the discount rate."""
    return MILLION + struct.unpack_from('<I', sheet, sheets.RATE)[0]


def listed(sheet, ends):
    """Every payment of a chain: amount, factors of inflation and ageing, plain steps, steps in service."""
    for place, (start, end) in enumerate(zip([0, *ends], ends)):
        if start < end:
            yield from listed_arc(sheet, min(place, REPLACE), start, end)


def listed_arc(sheet, option, start, end):
    record = sheets.RECORDS[len(sheet)][option]
    invested, f0, maintained, f1, g1, powered, f2, g2, f3, count = struct.unpack_from('<IiIiIIiIiB', sheet,
                                                                                      record + sheets.INVESTMENT)
    yield invested, MILLION + f0, MILLION, start, 0
    for entry in range(count):
        age, amount = struct.unpack_from('<HI', sheet, record + sheets.OVERHAULS + 6 * entry)
        if age < end - start:
            yield amount, MILLION + f3, MILLION, start + age, 0
    motors = 0 if option == RENOVATE else start  # renovating keeps them
    for year in range(start + 1, end + 1):
        yield maintained, MILLION + f1, MILLION + g1, start, year - start
        yield powered, MILLION + f2, MILLION + g2, motors, year - motors
    if len(sheet) == 302 and option in (RENOVATE, REPLACE) and end != horizon_of(sheet):
        amount, inflation = struct.unpack_from('<Ii', sheet, record + sheets.REMOVAL)
        yield amount, MILLION + inflation, MILLION, end, 0


def summed(paid, last, worth, factor):
    """What is paid in each year: the year of a payment is the number of its steps."""
    return [sum(worth(factor, *payment) for payment in paid if payment[3] + payment[4] == year)
            for year in range(last + 1)]


def units_of(rate, amount, inflation, ageing, plain, served):
    return moved(amount * 10_000, plain * [(inflation, rate)] + served * [(ageing, MILLION), (inflation, rate)])


def cents_of(general, amount, inflation, ageing, plain, served):
    step = [(general, MILLION), (inflation, MILLION)]
    return moved(amount * 100, plain * step + served * [(ageing, MILLION), *step])


def moved(amount, factors):
    for numerator, denominator in factors:
        amount = (amount * numerator + denominator - 1) // denominator
    return amount


def total_of(sheet, ends):
    return sum(units_of(rate_of(sheet), *payment) for payment in listed(sheet, ends))


def chosen(sheet):
    """The ends of the chain that planning takes, or None where there is none; all are listed, so of a small sheet."""
    return min(chains(sheet), key=lambda ends: (total_of(sheet, ends), [-end for end in ends]), default=None)


def chains(sheet):
    """The ends of every feasible chain."""
    for maintained in ends_of(sheet, MAINTAIN, 0):
        for renovated in ends_of(sheet, RENOVATE, maintained):
            for replaced in replacements(sheet, renovated):
                yield [maintained, renovated, *replaced]


def replacements(sheet, start):
    """The ends of replacements alone, up to the horizon."""
    if start == horizon_of(sheet):
        yield []
    for end in ends_of(sheet, REPLACE, start):
        for later in replacements(sheet, end):
            yield [end, *later]


def ends_of(sheet, option, start):
    """Where an activity from this year may end; maintaining and renovating may have length 0."""
    shortest, longest = struct.unpack_from('<HH', sheet, sheets.RECORDS[len(sheet)][option])
    lengths = [0] * (option != REPLACE) + [length for length in range(shortest, longest + 1) if length > 0]
    return [start + length for length in lengths if start + length <= horizon_of(sheet)]
