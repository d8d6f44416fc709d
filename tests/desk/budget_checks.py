"""Checks of the budget by year: its rule, and its two charts in what tools/plot draws."""

import random
from xml.etree import ElementTree

from . import sheets
from .charts import OF_THE_YEAR, PRESENT, chart, charts_tell
from .listing import MILLION, cents_of, listed, rate_of, summed, units_of
from .pictures import drawn, laid_out, plan_bytes, texts


def two_years():
    """A replacement a year for two years: 1 euro, and 7 for maintenance, with inflation and ageing."""
    sheet = sheets.only_replace(2, 40_000, 1, 1, 1, 7)
    sheet = sheets.put_option(sheet, 2, sheets.INVESTMENT_INFLATION, 'i', 10_000)
    sheet = sheets.put_option(sheet, 2, sheets.MAINTENANCE_INFLATION, 'i', 10_000)
    return sheets.put_option(sheet, 2, sheets.MAINTENANCE_AGEING, 'I', 7_000)


TWO_YEARS = two_years()
TWO_YEARS_ENDS = [0, 0, 1, 2]
TWO_YEARS_UNITS = [10_000, 78_169, 66_483]
TWO_YEARS_CENTS = [100, 817, 723]  # general inflation of 0.1 %

# Five years without rates, by hand: maintain 0 to 2, renovate 2 to 3, replace 3 to 5. In a year in which one activity
# ends and the next starts both pay; an overhaul at the age at which the asset is given up is not paid.
BY_HAND = (sheets.head(5, 0) + sheets.record(1, 2, 100, 10, overhauls=[(1, 7), (2, 9)]) + sheets.record(1, 1, 200, 20)
           + sheets.record(1, 2, 300, 30, overhauls=[(1, 5)]))
BY_HAND_ENDS = [2, 3, 5]
BY_HAND_EUROS = [100, 7 + 10, 10 + 200, 20 + 300, 5 + 30, 30]
# The same at 5 % of general inflation, each payment rounded up to a cent each year.
BY_HAND_CENTS = [10_000, 735 + 1_050, 1_103 + 22_050, 2_316 + 34_729, 609 + 3_648, 3_831]


# With removals of 1,000, 40 and 50 euros: maintain 0 to 1, renovate 1 to 2, replace 2 to 4 and 4 to 5. Maintaining pays
# none, and none is paid at the horizon.
REMOVED = sheets.removed(BY_HAND, (1_000, 0), (40, 0), (50, 0))
REMOVED_ENDS = [1, 2, 4, 5]
REMOVED_EUROS = [100, 10 + 200, 20 + 40 + 300, 5 + 30, 30 + 50 + 300, 30]
REMOVED_CENTS = [10_000, 1_050 + 21_000, 2_205 + 4_410 + 33_075, 580 + 3_474, 3_648 + 6_079 + 36_466, 3_831]


def four_years():
    """Electricity, 1,000 euros, keeps 0.9 of its value a year, 0.99 in service; so does the renovation's maintenance."""
    sheet = sheets.head(4, 0) + sheets.record(1, 1) + sheets.record(1, 3, 100) + sheets.record(1, 2, 200)
    for option in range(3):
        sheet = sheets.put_yearly(sheet, option, sheets.ELECTRICITY, 1_000, -100_000, 100_000)
    return sheets.put_yearly(sheet, 1, sheets.MAINTENANCE, 10, -100_000, 100_000)


# Maintain 0 to 1, renovate 1 to 2, replace 2 to 4: the motors are those of year 0 to year 2.
OLD_MOTORS = four_years()
OLD_MOTORS_ENDS = [1, 2, 4]
OLD_MOTORS_UNITS = [0, 9_900_000 + 1_000_000, 89_100 + 9_801_000 + 2_000_000, 8_019_000, 7_938_810]
OLD_MOTORS_CENTS = [0, 99_000 + 10_000, 891 + 98_010 + 20_000, 80_190, 79_389]

HORIZONS = (1, 2, 14, 15, 16, 17, 40, 300)  # of chains from any hand
LONGEST = 60  # of their activities, in years


def run(bench):
    checked_figures(bench)
    by_hand(bench, BY_HAND, BY_HAND_ENDS, BY_HAND_EUROS, BY_HAND_CENTS)
    by_hand(bench, REMOVED, REMOVED_ENDS, REMOVED_EUROS, REMOVED_CENTS)
    removal_with_inflation(bench)
    old_motors(bench)
    year_15(bench)
    against_a_listing(bench)
    the_paper_by_year(bench)
    only_when_asked(bench)
    spikes(bench)
    nothing_paid(bench)
    general_inflation(bench)


def budget(sheet, ends, general=None):
    from nimovalsa.budget import budget_of
    from nimovalsa.plan import chain_of
    from nimovalsa.sheet import decode
    return budget_of(decode(sheet), chain_of(ends), general)


def checked_figures(bench):
    """Figures worked out apart from the tools; general inflation behind the own, or ageing last, gives other cents."""
    got = budget(TWO_YEARS, TWO_YEARS_ENDS, 1_000)
    bench.equal(got.units, TWO_YEARS_UNITS, 'the units of two years')
    bench.equal(got.cents, TWO_YEARS_CENTS, 'the cents of two years')
    bench.equal(budget(TWO_YEARS, TWO_YEARS_ENDS).cents, None, 'cents without general inflation')
    bench.put('two', TWO_YEARS)
    picture = drawn(bench, 'two', sum(TWO_YEARS_UNITS), TWO_YEARS_ENDS, '0.1%')
    charts_tell(bench, picture, TWO_YEARS_UNITS, TWO_YEARS_CENTS, 'two years')


def by_hand(bench, sheet, ends, euros, cents_at_5):
    """Five years without rates, at general inflations of 0 and 5 per cent."""
    units = [10_000 * amount for amount in euros]
    bench.put('five', sheet)
    for general, text, cents in ((0, '0%', [100 * amount for amount in euros]), (50_000, '5 %', cents_at_5)):
        bench.equal(budget(sheet, ends, general), (units, general, cents), f'five years, ends {ends}, at {text}')
        picture = drawn(bench, 'five', sum(units), ends, text)
        charts_tell(bench, picture, units, cents, f'five years, ends {ends}, at {text}')


def removal_with_inflation(bench):
    """A renovation's removal in year 2 and a replacement's in year 3, each by its own inflation."""
    bench.equal(budget(sheets.REMOVALS, [1, 2, 3, 4], 1_000),
                ([0, 0, 9_432, 17_253, 0], 1_000, [0, 0, 106, 198, 0]), 'removals with inflation')
    bench.equal(budget(sheets.REMOVALS, [1, 1, 2, 4]).units, [0, 0, 18_124, 0, 0],
                'no renovation, so no removal of one')


def old_motors(bench):
    """Renovated, the motors of year 0 go on ageing, in either kind of money; maintenance starts anew."""
    bench.equal(budget(OLD_MOTORS, OLD_MOTORS_ENDS, 0), (OLD_MOTORS_UNITS, 0, OLD_MOTORS_CENTS), 'old motors')
    bench.put('motors', OLD_MOTORS)
    picture = drawn(bench, 'motors', sum(OLD_MOTORS_UNITS), OLD_MOTORS_ENDS, '0%')
    charts_tell(bench, picture, OLD_MOTORS_UNITS, OLD_MOTORS_CENTS, 'old motors')


def year_15(bench):
    """The last year in money of the year has all that falls in it: one replacement ends, and the next starts."""
    sheet = sheets.only_replace(30, 0, 15, 15, 100, 1)
    got = budget(sheet, [0, 0, 15, 30], 0)
    bench.equal(got.cents, [10_000] + 14 * [100] + [10_100], 'a replacement in year 15')
    bench.equal(got.units[16:], 15 * [10_000], 'the years behind it')
    got = budget(sheets.removed(sheet, (0, 0), (0, 0), (7, 0)), [0, 0, 15, 30], 0)
    bench.equal(got.cents, [10_000] + 14 * [100] + [10_800], 'a removal in year 15')
    bench.equal(got.units[16:], 15 * [10_000], 'the years behind it, the horizon without a removal')
    sheet = sheets.removed(sheets.only_replace(30, 0, 14, 16, 100, 1), (0, 0), (0, 0), (7, 0))
    bench.equal(budget(sheet, [0, 0, 16, 30], 0).cents, [10_000] + 15 * [100], 'a removal in year 16')


def against_a_listing(bench):
    """Any sheets and chains, beside a list of all payments that is written from document 02's words."""
    source = random.Random(2)
    lengths = set()
    for horizon in HORIZONS:
        for general in (0, 1, 50_000):
            sheet = any_sheet(source, horizon)
            lengths.add(len(sheet))
            ends = any_ends(source, horizon)
            got = budget(sheet, ends, general)
            paid = list(listed(sheet, ends))
            bench.equal(got.units, summed(paid, horizon, units_of, rate_of(sheet)),
                        f'units, horizon {horizon}, ends {ends}')
            bench.equal(got.cents, summed(paid, min(15, horizon), cents_of, MILLION + general),
                        f'cents, horizon {horizon}, ends {ends}')
            bench.put('any', sheet)
            picture = drawn(bench, 'any', sum(got.units), ends, f'{general // 10_000}.{general % 10_000:04}%')
            charts_tell(bench, picture, got.units, got.cents, f'horizon {horizon}, ends {ends}')
    bench.equal(lengths, {278, 302}, 'the lengths of the sheets')


def any_sheet(source, horizon):
    """A sheet of this horizon whose options all have the lives from 1 to LONGEST years."""
    sheet = sheets.put(sheets.random_sheet(source), sheets.HORIZON, 'H', horizon)
    for option in range(3):
        sheet = sheets.put_option(sheet, option, sheets.SHORTEST, 'H', 1)
        sheet = sheets.put_option(sheet, option, sheets.LONGEST, 'H', LONGEST)
    return sheet


def any_ends(source, horizon):
    """The ends of a chain that such a sheet offers."""
    ends = [source.randint(0, min(LONGEST, horizon))]
    ends.append(source.randint(ends[0], min(ends[0] + LONGEST, horizon)))
    while ends[-1] < horizon:
        ends.append(min(ends[-1] + source.randint(1, LONGEST), horizon))
    return ends


def the_paper_by_year(bench):
    """The case study: a new station in year 0, overhauls every 15 years, another station every 60."""
    ends = [0, 0, 60, 120, 180, 240, 300]
    got = budget(sheets.PAPER, ends, 20_000)
    bench.equal(sum(got.units), 38_979_215_559, 'the years of the case study add up to its total')
    bench.equal((got.units[0], got.cents[0], len(got.units), len(got.cents)), (25_000_000_000, 250_000_000, 301, 16),
                'the first year of the case study')
    largest = sorted(range(301), key=lambda year: got.units[year])[-6:]
    bench.equal(sorted(largest), [0, 15, 30, 45, 60, 120], 'its years of largest present value')
    bench.put('paper', sheets.PAPER)
    picture = drawn(bench, 'paper', sum(got.units), ends, '2%')
    charts_tell(bench, picture, got.units, got.cents, 'the case study')
    bench.holds('2,500,000.00' in texts(chart(picture, OF_THE_YEAR)), 'the money of year 0')
    bench.holds('line' in texts(chart(picture, PRESENT))[1], 'bars too low to be seen are told of')


def only_when_asked(bench):
    """Money of the year is drawn where general inflation is given, be it 0, and changes nothing else."""
    total = sum(TWO_YEARS_UNITS)
    alone = drawn(bench, 'two', total, TWO_YEARS_ENDS)
    bench.holds(chart(alone, OF_THE_YEAR) is None and 'money of the year' not in ' '.join(texts(alone)),
                'no money of the year unless asked')
    bench.holds(chart(alone, PRESENT) is not None, 'present values are always drawn')
    laid_out(bench, alone, 'without money of the year')
    for general, shown in (('0%', '0 %'), ('5%', '5 %'), ('1.75 %', '1.75 %')):
        both = drawn(bench, 'two', total, TWO_YEARS_ENDS, general)
        money = chart(both, OF_THE_YEAR)
        titles = texts(money)[:2]
        bench.holds('money of the year, years 0 to 2' in titles[0] and f'inflation of {shown} a year' in titles[1]
                    and 'never to be added to a present value' in titles[1], f'the titles with {general}: {titles}')
        bench.holds('present value' in texts(chart(both, PRESENT))[0], 'the title of present values')
        both.remove(money)
        for name in ('height', 'viewBox'):
            both.set(name, alone.get(name))
        bench.equal(shapes(both), shapes(alone), f'what else is drawn with {general}')


def shapes(picture):
    return [(part.tag, sorted(part.items()), (part.text or '').strip()) for part in picture.iter()]


def spikes(bench):
    """One payment that dwarfs all others, at the beginning, between and at the end."""
    for year in (0, 7, 19):
        invested, overhauls = (0, [(year, 10**9)]) if year else (10**9, [])
        units = [0] + 20 * [10_000]
        units[year] += 10**13
        cents = [amount // 100 for amount in units[:16]]
        bench.put('spike', sheets.only_replace(20, 0, 1, 20, invested, 1, overhauls=overhauls))
        picture = drawn(bench, 'spike', sum(units), [0, 0, 20], '0%')
        charts_tell(bench, picture, units, cents, f'a spike in year {year}')


def nothing_paid(bench):
    bench.put('free', sheets.head(1, 0) + sheets.record(1, 1) + 2 * sheets.record())
    picture = drawn(bench, 'free', 0, [1, 1], '2%')
    charts_tell(bench, picture, [0, 0], [0, 0], 'a plan that costs nothing')
    bench.holds('nothing is paid' in texts(chart(picture, PRESENT))[1], 'it is said that nothing is paid')


def general_inflation(bench):
    """A rate as in a text sheet, from 0 % to 5 %; another is told of in one line, and nothing is written."""
    bench.put('plan', plan_bytes(sum(TWO_YEARS_UNITS), TWO_YEARS_ENDS))
    for text in ('', '2', '0.02', '2,5%', '2.00001%', '%', '2%%', '2 per cent', 'b.svg', '-', '--help', '+2%', '\n2%'):
        bench.fails('general inflation: cannot read ', 'plot', 'two', 'plan', 'never.svg', text, status=2)
    for text, shown in (('5.0001%', '5.0001 %'), ('-0.0001%', '-0.0001 %'), ('6 %', '6 %'), ('100%', '100 %')):
        bench.fails(f'general inflation is {shown}, must be from 0 % to 5 %', 'plot', 'two', 'plan', 'never.svg', text,
                    status=2)
    bench.fails('general inflation is 9 %', 'plot', 'none', 'none', 'never.svg', '9%', status=2)
    bench.fails('none: cannot be read: ', 'plot', 'two', 'none', 'never.svg', '2%')
    run = bench.program('plot', 'two', 'plan', '-', '2%')
    bench.equal((run.status, run.err), (0, ''), 'tools/plot with general inflation, as a program')
    bench.holds(chart(ElementTree.fromstring(run.out), OF_THE_YEAR) is not None, 'what it draws')
    bench.holds(b'tools/plot SHEET PLAN OUT.svg GENERAL' in bench.succeeds('plot', '--help'), 'GENERAL in --help')
