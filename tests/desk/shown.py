"""The sheets in crates/test_show/data, each made again from the words of documents 01 and 02."""

from .sheets import (CASE_12, CASE_12_REMOVED, COUNT, ELECTRICITY, ELECTRICITY_AGEING, ELECTRICITY_INFLATION, HORIZON,
                     INVESTMENT_INFLATION, LONGEST, MAINTENANCE_AGEING, MAINTENANCE_INFLATION, OVERHAULS,
                     OVERHAUL_INFLATION, PAPER, RATE, REMOVAL, REMOVALS, REMOVAL_INFLATION, SHORTEST, VERSION, head,
                     only_replace, put, put_option, record, removed)

MAINTAIN, RENOVATE, REPLACE = range(3)

ALL_THREE = head(7, 0) + record(1, 3) + record(2, 2) + record(1, 2)
PAPER_REMOVED = removed(PAPER, (1_000_000, 10_300), (50_000, 10_300), (1_000_000, 10_300))


def arc_sheet(overhauls=()):
    """Cases 6 to 8: replace, T = 3, lives 1 to 2, r 40,000, investment 1, maintenance 1."""
    return only_replace(3, 40_000, 1, 2, investment=1, maintenance=1, overhauls=overhauls)


def accepted():
    """What is planned, and case 9, which has no chain."""
    yield 'case-06', arc_sheet()
    yield 'case-07-and-08', arc_sheet(overhauls=[(1, 1)])
    yield 'case-09', only_replace(5, 0, 3, 4)
    yield 'case-10', only_replace(7, 0, 3, 4)
    yield 'case-11', only_replace(3, 0, 1, 2, maintenance=1)
    yield 'case-12', CASE_12
    yield 'pumping-station', PAPER
    # Nothing to pay: the largest i, then the largest j.
    yield 'all-three', ALL_THREE
    # Sums that need all 20 digits of a total are not reached; this is the largest horizon with the most replacements.
    yield 'every-year', only_replace(300, 0, 1, 1, investment=10**9)


def with_removal():
    """Version 2: what is paid at the ends."""
    yield 'case-12-removed', CASE_12_REMOVED
    # Maintaining pays none, and nothing is paid at the horizon: i is 2 and j is 4, for nothing.
    yield 'removals-unpaid', REMOVALS
    # The renovation's removal, 5 euros, is the only one paid.
    yield 'all-three-removed', removed(ALL_THREE, (4, 0), (5, 0), (6, 0))
    # Removals make the old station worth keeping: maintain to year 5, renovate to 35.
    yield 'pumping-station-removed', PAPER_REMOVED
    yield 'removals-at-their-limits', removed(PAPER, *3 * [(10**9, 40_000)])


def refused_by_the_header():
    yield 'refused-1-empty', b''
    yield 'refused-1-short', PAPER[:277]
    yield 'refused-1-long', PAPER + b'\0'
    yield 'refused-1-short-removed', PAPER_REMOVED[:301]
    yield 'refused-1-long-removed', PAPER_REMOVED + b'\0'
    yield 'refused-2-mark', put(PAPER, 2, 'B', ord('s'))
    yield 'refused-2-version', put(PAPER, VERSION, 'H', 2)
    yield 'refused-2-version-removed', put(PAPER_REMOVED, VERSION, 'H', 1)
    yield 'refused-3-none', put(PAPER, HORIZON, 'H', 0)
    yield 'refused-3-late', put(PAPER, HORIZON, 'H', 301)
    yield 'refused-4', put(PAPER, RATE, 'I', 200_001)


def refused_by_a_record():
    yield 'refused-5-maintain', put_option(PAPER, MAINTAIN, SHORTEST, 'H', 0)
    yield 'refused-5-replace', put_option(PAPER, REPLACE, LONGEST, 'H', 121)
    yield 'refused-6-renovate', put_option(PAPER, RENOVATE, ELECTRICITY, 'I', 10**9 + 1)
    yield 'refused-7-maintain', put_option(PAPER, MAINTAIN, INVESTMENT_INFLATION, 'i', -100_001)
    yield 'refused-7-replace', put_option(PAPER, REPLACE, OVERHAUL_INFLATION, 'i', 40_001)
    yield 'refused-8-renovate', put_option(PAPER, RENOVATE, MAINTENANCE_AGEING, 'I', 300_001)
    yield 'refused-8-replace', put_option(
        put_option(PAPER, REPLACE, ELECTRICITY_INFLATION, 'i', 0), REPLACE, ELECTRICITY_AGEING, 'I', 40_001)
    yield 'refused-9-maintain', put_option(PAPER, MAINTAIN, COUNT, 'B', 9)
    yield 'refused-9-renovate', put_option(PAPER, RENOVATE, OVERHAULS + 6, 'H', 10)
    yield 'refused-9-replace', put_option(PAPER, REPLACE, OVERHAULS + 18, 'H', 50)


def refused_by_a_removal():
    """Of maintaining, which never pays it and is not offered here, and of replacing."""
    yield 'refused-6-removal', put_option(CASE_12_REMOVED, MAINTAIN, REMOVAL, 'I', 10**9 + 1)
    yield 'refused-7-removal', put_option(PAPER_REMOVED, REPLACE, REMOVAL_INFLATION, 'i', 40_001)


def run_only():
    """Document 01's run-only cases that pass: f at r, g at r with f 0, T 300, which the paper's sheet has."""
    yield 'inflation-at-the-rate', put_option(PAPER, REPLACE, INVESTMENT_INFLATION, 'i', 40_000)
    aged = put_option(PAPER, REPLACE, MAINTENANCE_INFLATION, 'i', 0)
    yield 'ageing-at-the-rate', put_option(aged, REPLACE, MAINTENANCE_AGEING, 'I', 40_000)


def sheets():
    """The sheets by name, in the order in which `test_show` prints them."""
    for part in (accepted, run_only, with_removal, refused_by_the_header, refused_by_a_record, refused_by_a_removal):
        yield from part()
