"""Checks of tools/plot."""

import re
from xml.etree import ElementTree

from . import sheets
from .pictures import SVG, bars, drawn, laid_out, plan_bytes, plan_lines, texts

# The paper's case study: its plan, and of each replacement the cost in units and the euros of the paper's Table 5.
PAPER_ENDS = [0, 0, 60, 120, 180, 240, 300]
PAPER_TOTAL = 38_979_215_559
PAPER_ARCS = [(32_376_325_834, 3_237_632), (5_476_429_609, 547_643), (936_951_814, 93_695), (161_521_417, 16_152),
              (27_986_885, 2_798)]

# What a picture has room for: costs and total to the nearest euro.
PAPER_EUROS = ['3,237,633', '547,643', '93,695', '16,152', '2,799', '3,897,922']

# The lines that planshow prints for document 01's case 12.
CASE_12_LINES = 'total 240000\nmaintain 0 0\nrenovate 0 0\nreplace 0 2\nreplace 2 4\n'

# A sheet without discount on which every option costs 1 euro a year and 10 at the start, for 1 to 120 years.
ALL_OFFERED = sheets.head(300, 0) + 3 * sheets.record(1, 120, 10, 1)
ALL_REMOVED = sheets.removed(ALL_OFFERED, (4, 0), (3, 0), (3, 0))  # and 3 euros at an end


def run(bench):
    steps_and_arcs(bench)
    old_motors(bench)
    removals(bench)
    bench.put('paper', sheets.PAPER)
    bench.put('case12', sheets.CASE_12)
    bench.put('removed12', sheets.CASE_12_REMOVED)
    bench.put('all', ALL_OFFERED)
    bench.put('removed', ALL_REMOVED)
    the_paper(bench)
    table_5(bench)
    small_plans(bench)
    removals_drawn(bench)
    many_layouts(bench)
    no_plan(bench)
    faulty_lines(bench)
    faulty_bytes(bench)
    infeasible_chains(bench)
    files_and_use(bench)


def steps_and_arcs(bench):
    """Document 01's cases 1 to 8, rounded up as document 02 asks, and steps with small rests."""
    from nimovalsa.money import PresentValue
    at_4 = PresentValue(40_000)
    bench.equal(at_4.plain(10_000, 0), 9_616, 'case 1')
    bench.equal(at_4.plain(9_616, 0), 9_247, 'case 2')
    bench.equal(PresentValue(0).plain(5, -100_000), 5, 'case 3')
    bench.equal(at_4.in_service(10_000, 0, 20_000), 9_808, 'case 4')
    bench.equal(at_4.in_service(10_000, 10_000, 20_000), 9_906, 'case 5')
    bench.equal(at_4.in_service(10_001, 0, 20_000), 9_810, 'an ageing to 10,201.02')
    bench.equal(PresentValue(200_000).plain(3, -100_000), 3, 'a plain step to 2.25')
    bench.equal(PresentValue(200_000).plain(4, -100_000), 3, 'a plain step without a rest')
    overhauled = sheets.only_replace(3, 40_000, 1, 2, 1, 1, overhauls=[(1, 1)])
    bench.equal(cost(sheets.only_replace(3, 40_000, 1, 2, 1, 1), 2, 1, 3), 27_755, 'case 6')
    bench.equal(cost(overhauled, 2, 1, 3), 37_002, 'case 7')
    bench.equal(cost(overhauled, 2, 1, 2), 18_863, 'case 8')


def cost(sheet, *activity):
    from nimovalsa.payments import arc_cost
    from nimovalsa.plan import Activity
    from nimovalsa.sheet import decode
    return arc_cost(decode(sheet), Activity(*activity))


def old_motors(bench):
    """Electricity of 1 euro that ages by 2 per cent a year: renovating keeps the motors of year 0."""
    sheet = sheets.head(3, 40_000) + 3 * sheets.record(1, 2)
    for option in range(3):
        sheet = sheets.put_yearly(sheet, option, sheets.ELECTRICITY, 1, 0, 20_000)
    for activity, units in (((0, 0, 2), 19_429), ((1, 0, 2), 19_429), ((1, 1, 2), 9_621), ((1, 1, 3), 19_058),
                            ((1, 2, 3), 9_437), ((1, 3, 3), 0), ((2, 0, 2), 19_429), ((2, 1, 2), 9_432),
                            ((2, 1, 3), 18_683), ((2, 2, 3), 9_070)):
        bench.equal(cost(sheet, *activity), units, f'old motors, activity {activity}')
    sheet = sheets.put_yearly(sheet, 1, sheets.MAINTENANCE, 1, 0, 20_000)
    bench.equal(cost(sheet, 1, 1, 2), 19_053, 'maintenance ages from the start of a renovation')


def removals(bench):
    """Renovating and replacing pay a removal where they end before the horizon, after a plain step for each year."""
    for activity, units in (((2, 0, 2), 150_000), ((2, 2, 4), 120_000), ((2, 0, 3), 310_000), ((2, 1, 4), 280_000)):
        bench.equal(cost(sheets.CASE_12_REMOVED, *activity), units, f'case 12 with removal, activity {activity}')
    for activity, units in (((0, 0, 1), 0), ((0, 0, 2), 0), ((0, 0, 0), 0), ((1, 1, 2), 9_432), ((1, 1, 3), 9_160),
                            ((1, 2, 4), 0), ((1, 1, 1), 0), ((1, 0, 1), 9_712), ((2, 1, 3), 17_253), ((2, 2, 4), 0),
                            ((2, 2, 3), 17_253), ((2, 0, 1), 19_039)):
        bench.equal(cost(sheets.REMOVALS, *activity), units, f'removal, activity {activity}')
        # Each record but the last is followed by one that begins with its lives.
        bench.equal(cost(sheets.UNREMOVED, *activity), 0, f'no removal in version 1, activity {activity}')
    ages = [(age, age) for age in range(1, 9)]
    full = sheets.removed(sheets.only_replace(20, 0, 1, 19, overhauls=ages), (0, 0), (0, 0), (9, 0))
    bench.equal(cost(full, 2, 0, 19), 450_000, 'a removal behind eight overhauls')


def the_paper(bench):
    picture = drawn(bench, 'paper', PAPER_TOTAL, PAPER_ENDS)
    bench.equal(picture.tag, f'{SVG}svg', 'the root')
    bench.equal(picture.get('font-family'), 'sans-serif', 'the font')
    bench.holds(re.fullmatch('0 0 [0-9]+ [0-9]+', picture.get('viewBox')), 'a view box')
    bench.equal(picture[0].tag, f'{SVG}title', 'a title first')
    bench.holds('3,897,921.5559' in picture.find(f'{SVG}desc').text, 'the exact total in the description')
    written = texts(picture)
    for text in ['maintain', 'renovate', 'replace', 'total', '0\u201360', '240\u2013300', '0', '300', *PAPER_EUROS]:
        bench.holds(text in written, f'{text} is written')
    bench.holds('Total present value 3,897,922 euros' in ' '.join(written), 'the total in euros')
    tell = bars(picture)
    for start in range(0, 300, 60):
        told = [bar for bar in tell if bar.startswith(f'replace {start} to {start + 60}: ')]
        bench.equal(len(told), 2, f'a bar on the time line and one in the table from {start}')
    bench.equal(len(tell), 10, 'bars')
    units = sum(int(re.sub('[^0-9]', '', bar.split(': ')[1])) for bar in tell)
    bench.equal(units, 2 * PAPER_TOTAL, 'the sum of what the bars tell')
    laid_out(bench, picture, 'the paper')


def table_5(bench):
    """Each replacement of the paper's case study costs less than a euro more or less than in the paper."""
    for start, (units, euros) in zip(range(0, 300, 60), PAPER_ARCS):
        bench.equal(cost(sheets.PAPER, 2, start, start + 60), units, f'the replacement from {start}')
        bench.holds(abs(units - 10_000 * euros) < 10_000, f'the replacement from {start} is a euro or more off the paper')
    bench.equal(sum(units for units, _ in PAPER_ARCS), PAPER_TOTAL, 'the sum of the replacements')


def small_plans(bench):
    bench.put('plan', CASE_12_LINES.encode())
    bench.succeeds('plot', 'case12', 'plan', 'out.svg')
    picture = drawn(bench, 'case12', 240_000, [0, 0, 2, 4])
    bench.equal(ElementTree.tostring(picture), ElementTree.tostring(ElementTree.fromstring(bench.get('out.svg'))),
                'the drawing of case 12')
    bench.equal(bars(picture), 2 * ['replace 0 to 2: 12.0000 euros', 'replace 2 to 4: 12.0000 euros'], 'case 12')
    bench.put('yearly', sheets.only_replace(3, 0, 1, 2, 0, 1))
    picture = drawn(bench, 'yearly', 30_000, [0, 0, 2, 3])
    bench.equal(bars(picture)[:2], ['replace 0 to 2: 2.0000 euros', 'replace 2 to 3: 1.0000 euros'], 'case 11')
    bench.put('one', sheets.head(1, 0) + sheets.record(1, 1) + 2 * sheets.record())
    picture = drawn(bench, 'one', 0, [1, 1])
    bench.equal(bars(picture), ['maintain 0 to 1: 0.0000 euros'], 'a plan of one year that costs nothing')


def removals_drawn(bench):
    """A removal counts in its activity, and the table says so; of a plan without it the total is refused."""
    picture = drawn(bench, 'removed12', 270_000, [0, 0, 2, 4])
    bench.equal(bars(picture), 2 * ['replace 0 to 2: 15.0000 euros', 'replace 2 to 4: 12.0000 euros'],
                'case 12 with removal')
    title = 'Present value of each activity'
    bench.holds(f'{title}, with removals before year 4' in texts(picture), 'the title of the table with removals')
    bench.holds(title in texts(drawn(bench, 'case12', 240_000, [0, 0, 2, 4])), 'the title of the table without')
    laid_out(bench, picture, 'case 12 with removal')
    for sheet, total, wanted in (('removed12', 240_000, 270_000), ('case12', 270_000, 240_000),
                                 ('removed12', 300_000, 270_000)):
        refuse(bench, sheet, plan_bytes(total, [0, 0, 2, 4]),
               f'plan: the total is {total} units, the activities cost {wanted}')


def many_layouts(bench):
    """Chains and horizons of all lengths, with both charts of the budget."""
    yearly = list(range(1, 301))
    picture = drawn(bench, 'all', 300 * 110_000, [0, 0, *yearly])
    bench.holds({'279 replacements', '21\u2013300', '3,069', '3,300'} <= set(texts(picture)),
                'of 300 replacements the last ones share a row')
    for ends in ([0, 0, *yearly], [0, 0, 120, 240, 300], [1, 2, *yearly[2:]], [120, 240, 300], [90, 91, 92, 180, 300],
                 [5, 35, 95, 155, 156, 215, 300], [0, 0, *range(12, 301, 12)], [0, 0, *range(13, 286, 13), 300],
                 [3, 3, 5, 100, 200, 300], [90, 90, 210, 299, 300]):
        spans = [(start, end) for start, end in zip([0, *ends], ends) if start < end]
        total = sum(10_000 * (10 + end - start) for start, end in spans)
        removed = sum(30_000 for _, end in spans if end not in (ends[0], 300))
        laid_out(bench, drawn(bench, 'all', total, ends, '2%'), f'ends {ends}')
        laid_out(bench, drawn(bench, 'removed', total + removed, ends, '2%'), f'ends {ends}, with removals')
    for horizon in (1, 2, 7, 16, 17, 99, 119, 120):
        bench.put('short', sheets.put(ALL_OFFERED, sheets.HORIZON, 'H', horizon))
        laid_out(bench, drawn(bench, 'short', 10_000 * (10 + horizon), [0, 0, horizon], '2%'), f'horizon {horizon}')
    renovated = [118, 120]
    bench.put('short', sheets.put(ALL_OFFERED, sheets.HORIZON, 'H', 120))
    laid_out(bench, drawn(bench, 'short', 10_000 * 140, renovated, '0%'), f'ends {renovated}')
    largest = sheets.head(300, 0) + 3 * sheets.record(1, 120, 10**9, 10**9)
    bench.put('largest', sheets.removed(largest, *3 * [(10**9, 0)]))
    laid_out(bench, drawn(bench, 'largest', 899 * 10**13, [0, 0, *yearly], '5%'), 'the largest amounts')


def refuse(bench, sheet, plan, says):
    """Holds if plot refuses a plan, as lines or bytes, and makes no file."""
    bench.put('plan', plan.encode() if isinstance(plan, str) else plan)
    bench.fails(says, 'plot', sheet, 'plan', 'never.svg')


def no_plan(bench):
    refuse(bench, 'case12', 'refused 11 3\n', 'plan: no plan, refused 11 3: the sheet has no feasible chain')
    refuse(bench, 'case12', 'refused 3 3', 'plan: no plan, refused 3 3')
    refuse(bench, 'case12', 'refused 12 4\n', 'plan:1: neither plan bytes nor a line total NUMBER')
    refuse(bench, 'case12', CASE_12_LINES.replace('240000', '240001'),
           'plan: the total is 240001 units, the activities cost 240000')
    refuse(bench, 'case12', plan_bytes(0, [0, 0, 2, 4]), 'plan: the total is 0 units')
    refuse(bench, 'paper', plan_bytes(PAPER_TOTAL - 1, PAPER_ENDS), f'plan: the total is {PAPER_TOTAL - 1} units')


def faulty_lines(bench):
    lines = CASE_12_LINES.splitlines()

    def changed(line, to):
        return '\n'.join(lines[:line - 1] + to + lines[line:]) + '\n'

    nor = 'neither plan bytes nor a line '
    refuse(bench, 'case12', '', 'plan:1: the line total NUMBER is missing')
    refuse(bench, 'case12', b'\xff\0\n', f'plan:1: {nor}total NUMBER')
    refuse(bench, 'case12', sheets.PAPER, f'plan:1: {nor}total NUMBER')
    refuse(bench, 'case12', changed(1, []), f'plan:1: {nor}total NUMBER')
    refuse(bench, 'case12', changed(1, ['total -1']), f'plan:1: {nor}total NUMBER')
    refuse(bench, 'case12', changed(1, ['total 24.0']), f'plan:1: {nor}total NUMBER')
    refuse(bench, 'case12', changed(2, []), f'plan:2: {nor}maintain NUMBER NUMBER')
    refuse(bench, 'case12', changed(3, ['replace 0 0']), f'plan:3: {nor}renovate NUMBER NUMBER')
    refuse(bench, 'case12', changed(4, ['replace 0']), f'plan:4: {nor}replace NUMBER NUMBER')
    refuse(bench, 'case12', changed(4, ['']), f'plan:4: {nor}replace NUMBER NUMBER')
    refuse(bench, 'case12', changed(5, ['maintain 2 4']), f'plan:5: {nor}replace NUMBER NUMBER')
    refuse(bench, 'case12', 'total 0\nmaintain 0 0\n', 'plan:2: the line renovate NUMBER NUMBER is missing')
    refuse(bench, 'case12', changed(2, ['maintain 1 1']), 'plan:2: maintain starts in year 1, must start in year 0')
    refuse(bench, 'case12', changed(5, ['replace 3 4']), 'plan:5: replace starts in year 3, must start in year 2')


def faulty_bytes(bench):
    plan = plan_bytes(240_000, [0, 0, 2, 4])
    refuse(bench, 'case12', plan[:18], 'plan: a plan has at least 19 bytes, this has 18')
    refuse(bench, 'case12', plan[:-1], 'plan: a plan with 2 replacements has 23 bytes, this has 22')
    refuse(bench, 'case12', plan + b'\0', 'plan: a plan with 2 replacements has 23 bytes, this has 24')
    refuse(bench, 'case12', plan[:3] + b'\2' + plan[4:], 'plan: the version is 2, must be 1')
    refuse(bench, 'case12', plan + bytes(2**18), 'plan: is longer than ')


def infeasible_chains(bench):
    bench.put('lives', sheets.head(30, 0) + sheets.record(2, 5) + sheets.record(3, 6) + sheets.record(4, 10))
    says = 'plan: not a feasible chain: '
    for ends, reason in (
            ([1, 1, 11, 21, 30], 'maintain 0 to 1 lasts 1 year, the sheet offers 2 to 5 years'),
            ([6, 6, 16, 26, 30], 'maintain 0 to 6 lasts 6 years'),
            ([0, 2, 10, 20, 30], 'renovate 0 to 2 lasts 2 years, the sheet offers 3 to 6 years'),
            ([0, 7, 10, 20, 30], 'renovate 0 to 7 lasts 7 years'),
            ([0, 0, 3, 10, 20, 30], 'replace 0 to 3 lasts 3 years, the sheet offers 4 to 10 years'),
            ([0, 0, 11, 20, 30], 'replace 0 to 11 lasts 11 years'),
            ([0, 0, 10, 10, 20, 30], 'replace 10 to 10 lasts 0 years'),
            ([5, 3, 10, 20, 30], 'renovate 5 to 3 ends before it starts'),
            ([0, 0, 10, 9, 20, 30], 'replace 10 to 9 ends before it starts'),
            ([0, 0, 10, 20, 29], 'it ends in year 29, the horizon is 30 years'),
            ([0, 0, 10, 20, 30, 40], 'replace 30 to 40 ends after the horizon, 30 years'),
            ([0, 0], 'it ends in year 0, the horizon is 30 years')):
        refuse(bench, 'lives', plan_bytes(0, ends), says + reason)
        refuse(bench, 'lives', plan_lines(0, ends), says + reason)
    no_offer = 'is an option that the sheet does not offer'
    refuse(bench, 'case12', plan_lines(0, [2, 2, 4]), f'{says}maintain 0 to 2 {no_offer}')
    refuse(bench, 'case12', plan_lines(0, [0, 2, 4]), f'{says}renovate 0 to 2 {no_offer}')


def files_and_use(bench):
    bench.put('plan', CASE_12_LINES.encode())
    bench.put('kept.svg', b'as it was')
    bench.fails('plan: refused 1 3: ', 'plot', 'plan', 'plan2', 'kept.svg')
    bench.put('faulty', sheets.put(sheets.CASE_12, sheets.HORIZON, 'H', 301))
    bench.fails('faulty: refused 3 3: horizon is 301 years', 'plot', 'faulty', 'plan', 'kept.svg')
    bench.fails('none: cannot be read: ', 'plot', 'none', 'plan', 'kept.svg')
    bench.fails('none: cannot be read: ', 'plot', 'case12', 'none', 'kept.svg')
    bench.fails('none/out.svg: cannot be written: ', 'plot', 'case12', 'plan', 'none/out.svg')
    bench.fails('standard input:1: ', 'plot', 'case12', '-', 'kept.svg')
    run = bench.program('plot', '-', 'plan', 'kept.svg', data=sheets.CASE_12)
    bench.equal((run.status, run.out, run.err), (0, b'', ''), 'tools/plot as a program')
    bench.equal(bench.get('kept.svg'), bench.succeeds('plot', 'case12', 'plan', '-'), 'a file and standard output')
    for arguments in ([], ['case12'], ['case12', 'plan'], ['case12', 'plan', 'a.svg', '2', '%'], ['-', '-', 'a.svg'],
                      ['-', '-', 'a.svg', '2%'], ['case12', 'plan', '--out'], ['case12', 'plan', ''],
                      ['--help', 'plan', 'a.svg'], ['--help', '2%'], ['-h']):
        bench.fails('tools/plot: use: ', 'plot', *arguments, status=2)
    bench.fails('plan: is given twice', 'plot', 'case12', 'plan', 'plan', status=2)
    bench.fails('case12: is given twice', 'plot', 'case12', 'plan', 'case12', status=2)
    bench.holds(b'tools/plot SHEET PLAN OUT.svg' in bench.succeeds('plot', '--help'), 'tools/plot --help')
