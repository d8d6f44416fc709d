"""Checks of tools/sheet."""

import itertools
import os
import resource
import subprocess

from . import sheets
from .harness import EXAMPLE, TOOLS

OPTIONS = ('maintain', 'renovate', 'replace')
PROGRAM = os.path.join(TOOLS, 'sheet')

# A text with one line for each field but those of a removal, and the sheet that it makes.
HEAD = ['horizon = 50 years', 'discount rate = 4 %']
OPTION = [
    'life = 1 to 20 years',
    'investment = 1,000 euros',
    'investment inflation = 1 %',
    'maintenance = 100 euros',
    'maintenance inflation = 0.5 %',
    'maintenance ageing = 2 %',
    'electricity = 10 euros',
    'electricity inflation = -0.25 %',
    'electricity ageing = 0 %',
    'overhaul inflation = 1 %',
    'overhaul = 5 years, 50 euros',
    'overhaul = 10 years, 60 euros',
]
TEXT = HEAD + [line for option in OPTIONS for line in [f'[{option}]', *OPTION]]
RECORD = ('0100 1400 e8030000 10270000 64000000 88130000 204e0000 0a000000 3cf6ffff 00000000 10270000'
          '02 050032000000 0a003c000000' + '00' * 36)
SHEET = bytes.fromhex('524353 0100 3200 409c0000' + 3 * RECORD)

# The same with a removal in each section, and its sheet of version 2.
REMOVAL = ['removal = 70 euros', 'removal inflation = -1.5 %']
REMOVED_TEXT = HEAD + [line for option in OPTIONS for line in [f'[{option}]', *OPTION, *REMOVAL]]
REMOVED = bytes.fromhex('524353 0200 3200 409c0000' + 3 * (RECORD + '46000000 68c5ffff'))

NOT_YEARS = ['', '50', '50 year s', '5.5 years', '5,0 years', '1e2 years', 'fifty years', '50 euros']
NOT_RATES = ['', '4', '0.04', '4%%', '1,03 %', '1.00001 %', '.5 %', '4. %', '+4 %', '- 4 %', '4 euros', '9' * 16 + ' %']
NOT_AMOUNTS = ['', '1000', '1.000 euros', '1,00 euros', '1,0000 euros', '10.50 euros', '1_000 euros', '1000 dollars',
               '9' * 5000 + ' euros', '\u0664 euros']
NOT_LIVES = ['', '20 years', '1 to 20', '1 - 20 years', '0 to 0 years', 'one to 20 years', '1.5 to 20 years',
             'not offered at all']
NOT_OVERHAULS = ['', '5 years', '50 euros', '5 years 50 euros', '5, 50', '5 years, 50', '5 years, 1.5 euros',
                 '50 euros, 5 years']

AMOUNT_LIMIT = 'must be from 0 euros to 1,000,000,000 euros'
INFLATION_LIMIT = 'must be from -10 % to the discount rate, 4 %'
AGEING_LIMIT = 'must be from 0 % to 30 %'
SUM_LIMIT = '(1 + inflation)(1 + ageing) must be at most 1 + rate'
LIFE_LIMIT = 'must be from 1 to 120 years'

# For each field what cannot be read, then what is out of range with the limit, then what is just within.
HEAD_CASES = {
    'horizon': (NOT_YEARS, [('0 years', 'must be from 1 year to 300 years'), ('301 years', 'to 300 years'),
                            ('-1 years', 'from 1 year'), ('1,000,000,000,000 years', 'to 300 years')],
                ['1 year', '300 years']),
    'discount rate': (NOT_RATES, [('20.0001 %', 'must be from 0 % to 20 %'), ('-0.0001 %', 'from 0 %')],
                      ['20 %', '2.6 %']),
}
AMOUNT = (NOT_AMOUNTS, [('1,000,000,001 euros', AMOUNT_LIMIT), ('-1 euros', AMOUNT_LIMIT)],
          ['1,000,000,000 euros', '0 euros', '1 euro'])
INFLATION = (NOT_RATES, [('4.0001 %', INFLATION_LIMIT), ('-10.0001 %', INFLATION_LIMIT)], ['1.9 %', '-10 %'])
OPTION_CASES = {
    'life': (NOT_LIVES, [(life, LIFE_LIMIT) for life in ('0 to 1 years', '2 to 1 years', '1 to 121 years',
                                                         '-1 to 1 years', '70,000 to 70,000 years')],
             ['1 to 1 years', '1 to 120 years', '120 to 120 years', 'not offered']),
    'investment': AMOUNT,
    'investment inflation': INFLATION,
    'maintenance': AMOUNT,
    'maintenance inflation': INFLATION,
    'maintenance ageing': (NOT_RATES, [('30.0001 %', AGEING_LIMIT), ('-0.0001 %', AGEING_LIMIT),
                                       ('3.4826 %', SUM_LIMIT)], ['3.4825 %', '0 %']),
    'electricity': AMOUNT,
    'electricity inflation': INFLATION,
    'electricity ageing': (NOT_RATES, [('30.0001 %', AGEING_LIMIT), ('-0.0001 %', AGEING_LIMIT),
                                       ('4.2607 %', SUM_LIMIT)], ['4.2606 %', '0 %']),
    'overhaul inflation': INFLATION,
    'overhaul': (NOT_OVERHAULS, [('0 years, 1 euro', 'must be from 1 year to 119 years'),
                                 ('120 years, 1 euro', 'to 119 years'),
                                 ('10 years, 1 euro', 'must be above the one before, 10 years'),
                                 ('5 years, 1,000,000,001 euros', AMOUNT_LIMIT), ('5 years, -1 euros', AMOUNT_LIMIT)],
                 ['1 year, 1,000,000,000 euros', '9 years, 0 euros']),
}
REMOVAL_CASES = {'removal': AMOUNT, 'removal inflation': INFLATION}


def run(bench):
    the_example(bench)
    round_trips(bench)
    ways_to_write(bench)
    fields(bench, TEXT, None, HEAD_CASES)
    for option in OPTIONS:
        fields(bench, TEXT, option, OPTION_CASES)
        fields(bench, REMOVED_TEXT, option, REMOVAL_CASES)
    lines(bench)
    overhauls(bench)
    first_fault(bench)
    not_offered(bench)
    removals(bench)
    lengths_and_versions(bench)
    for sheet in (SHEET, REMOVED):
        refusals(bench, sheet)
    removal_refusals(bench)
    streams_and_files(bench)
    wrong_use(bench)


def the_example(bench):
    bench.succeeds('sheet', 'make', EXAMPLE, 'paper')
    bench.equal(bench.get('paper'), sheets.PAPER, 'the sheet of examples/pumping-station.txt')


def round_trips(bench):
    """show and then make give the same bytes: whole runs for some sheets, the functions for many."""
    for sheet in sheets.random_sheets(10, seed=1):
        text = bench.succeeds('sheet', 'show', '-', data=sheet)
        bench.equal(bench.succeeds('sheet', 'make', '-', '-', data=text), sheet, 'make of show')
    from nimovalsa.sheet import decode, encode
    from nimovalsa.text import read_text, show_text
    drawn = sheets.random_sheets(2000, seed=2)
    bench.equal({len(sheet) for sheet in drawn}, {278, 302}, 'the lengths of the sheets')
    for sheet in drawn:
        text = show_text(decode(sheet))
        bench.equal(encode(read_text(text.encode(), 'text')), sheet, f'make of {text}')
        bench.equal(text.count('removal'), 0 if len(sheet) == 278 else 6, f'lines of a removal in {text}')


def make(bench, text):
    return bench.succeeds('sheet', 'make', '-', '-', data=text)


def joined(text):
    return ('\n'.join(text) + '\n').encode()


def ways_to_write(bench):
    """The same sheet in other ways of writing."""
    plain = joined(TEXT)
    reversed_sections = HEAD + [line for option in reversed(OPTIONS) for line in [f'[{option}]', *OPTION]]
    reversed_fields = HEAD + [line for option in OPTIONS for line in [f'[{option}]', *OPTION[9::-1], *OPTION[10:]]]
    ways = {
        'plain': plain,
        'no last line end': plain[:-1],
        'lines of Windows': b'\xef\xbb\xbf' + plain.replace(b'\n', b'\r\n'),
        'comments and blank lines': plain.replace(b'\n', b'  # \xe2\x82\xac = [x]\n\n # y\n'),
        'no blanks': plain.replace(b' = ', b'=').replace(b' %', b'%').replace(b' euros', b'euros'),
        'more blanks': plain.replace(b' ', b' \t ').replace(b'[', b' [ ').replace(b']', b' ] '),
        'digits alone': plain.replace(b'1,000', b'01000').replace(b'1 %', b'1.0000 %'),
        'sections in another order': joined(reversed_sections),
        'fields in another order': joined(reversed_fields),
    }
    for way, text in ways.items():
        bench.equal(make(bench, text), SHEET, way)


def line_of(option, field, text=TEXT):
    """The place of a field's first line in a text, from 0."""
    start = text.index(f'[{option}]') if option else 0
    return next(at for at in range(start, len(text)) if text[at].startswith(f'{field} = '))


def refuse(bench, text, line, says):
    """Holds if make refuses a text, given as lines, with what it says in a line; no sheet is made."""
    bench.put('text', joined(text))
    run = bench.tool('sheet', 'make', 'text', 'never')
    bench.holds(run.status == 1 and run.out == b'' and not os.path.exists('never')
                and run.err.startswith(f'text:{line}: ') and run.err.count('\n') == 1 and says in run.err,
                f'text:{line}: {says!r}: got {run}')


def fields(bench, text, option, cases):
    """Fields of the head or of an option: not readable, out of range, at a limit, twice and missing."""
    for field, (unreadable, outside, within) in cases.items():
        at = line_of(option, field, text)
        # The readers are the same in every option, so one option has all that cannot be read.
        for value in unreadable if option in (None, 'renovate') else unreadable[:1]:
            refuse(bench, changed(at, f'{field} = {value}', text), at + 1, f'{field}: cannot read ')
        for value, limit in outside:
            # The second overhaul has the age 10, so an age of 10 is refused in its line.
            line = at + 2 if value == '10 years, 1 euro' else at + 1
            refuse(bench, changed(at, f'{field} = {value}', text), line, limit)
        for value in within:
            made = make(bench, joined(changed(at, f'{field} = {value}', text)))
            bench.equal(bench.tool('sheet', 'show', '-', data=made).status, 0, f'show of {field} = {value}')
        if field != 'overhaul':
            twice = text[:at + 1] + ['# again', text[at]] + text[at + 1:]
            refuse(bench, twice, at + 3, f'{field} is given twice, first in line {at + 1}')
            where, line = (f'[{option}]', text.index(f'[{option}]') + 1) if option else ('the head', len(text) - 1)
            refuse(bench, text[:at] + text[at + 1:], line, f'{field} is missing in {where}')


def changed(at, line, text=TEXT):
    return text[:at] + [line] + text[at + 1:]


def lines(bench):
    """Lines and sections that are not of the format."""
    refuse(bench, changed(0, 'horizont = 50 years'), 1, "unknown field 'horizont' in the head, there are horizon, disc")
    refuse(bench, changed(0, 'life = 1 to 2 years'), 1, "unknown field 'life' in the head")
    refuse(bench, changed(3, 'horizon = 50 years'), 4, "unknown field 'horizon' in [maintain], there are life, inv")
    refuse(bench, changed(3, 'Life = 1 to 2 years'), 4, "unknown field 'Life'")
    refuse(bench, changed(3, '= 1'), 4, "unknown field ''")
    refuse(bench, changed(0, 'horizon 50 years'), 1, "cannot read 'horizon 50 years', write name = value")
    refuse(bench, changed(2, '[maintain'), 3, "cannot read '[maintain'")
    refuse(bench, changed(2, '[repair]'), 3, "unknown section 'repair', there are maintain, renovate, replace")
    refuse(bench, changed(15, '[maintain]'), 16, 'section [maintain] is given twice, first in line 3')
    refuse(bench, TEXT[:28], 28, 'section [replace] is missing')
    refuse(bench, ['# nothing', ''], 2, 'horizon is missing in the head')
    bench.fails('standard input:1: horizon is missing', 'sheet', 'make', '-', 'never')
    bench.fails('standard input:2: not a line of UTF-8 text', 'sheet', 'make', '-', 'never', data=b'# a\n# \xa4\n')
    bench.fails('standard input: is longer than', 'sheet', 'make', '-', 'never', data=b'#' * (2**20 + 1))
    bench.fails(r"standard input:1: unknown field 'a\x1b[31m'", 'sheet', 'make', '-', 'never', data=b'a\x1b[31m = 1')


def overhauls(bench):
    at = line_of('replace', 'overhaul')
    ages = [f'overhaul = {age} years, 1 euro' for age in range(1, 10)]
    eight = b''.join(bytes([age, 0, 1, 0, 0, 0]) for age in range(1, 9))
    bench.equal(make(bench, joined(TEXT[:at] + ages[:8]))[-49:], b'\x08' + eight, 'eight overhauls')
    refuse(bench, TEXT[:at] + ages, at + 9, 'replace: 9 overhauls, must be at most 8')
    refuse(bench, TEXT[:at] + ages[1::-1], at + 2, 'overhaul age is 1 year, must be above the one before, 2 years')
    bench.equal(make(bench, joined(TEXT[:at]))[-49:], bytes(49), 'no overhaul')


def first_fault(bench):
    """Of several faults the check's first is told: the head, then option by option, each field in its order."""
    text = [line.replace('= 1,000 e', '= 2,000,000,000 e').replace('-0.25 %', '-20 %') for line in TEXT]
    refuse(bench, text, line_of('maintain', 'investment') + 1, 'maintain: investment is 2,000,000,000 euros')
    text[line_of('maintain', 'investment')] = 'investment = 1 euro'
    refuse(bench, text, line_of('maintain', 'electricity inflation') + 1, 'maintain: electricity inflation is -20 %')
    text[0] = 'horizon = 0 years'
    refuse(bench, text, 1, 'horizon is 0 years')


def not_offered(bench):
    """An option that is not offered may leave out every other field; its figures are kept and checked."""
    short = HEAD + ['[maintain]', 'life = not offered', '[renovate]', 'life = not offered', '[replace]', *OPTION]
    bench.equal(make(bench, joined(short)), SHEET[:11] + bytes(178) + SHEET[189:], 'options not offered')
    text = bench.succeeds('sheet', 'show', '-', data=SHEET[:11] + bytes(178) + SHEET[189:])
    sections = '[maintain]\nlife = not offered\n\n[renovate]\nlife = not offered\n\n[replace]\nlife = 1 to 20 years\n'
    bench.holds(sections.encode() in text, 'show of options not offered')
    kept = HEAD + ['[maintain]', 'life = not offered', 'maintenance = 7 euros', 'overhaul = 3 years, 4 euros',
                   *TEXT[15:]]
    made = make(bench, joined(kept))
    bench.equal(made[11 + 12], 7, 'a figure of an option that is not offered')
    text = bench.succeeds('sheet', 'show', '-', data=made)
    bench.equal(make(bench, text), made, 'make of show of it')
    refuse(bench, kept[:4] + ['maintenance = 2,000,000,000 euros'] + kept[5:], 5, AMOUNT_LIMIT)


def removals(bench):
    """A sheet has version 2 exactly if a section has a removal, be it 0; it is then 0 in the others."""
    for given in itertools.product((False, True), repeat=3):
        text = HEAD + [line for option, removed in zip(OPTIONS, given)
                       for line in [f'[{option}]', *OPTION, *(REMOVAL if removed else [])]]
        figures = [(70, -15_000) if removed else (0, 0) for removed in given]
        bench.equal(make(bench, joined(text)), sheets.removed(SHEET, *figures) if any(given) else SHEET,
                    f'removals of {given}')
    bench.equal(make(bench, joined(REMOVED_TEXT)), REMOVED, 'a removal in each section')
    first = HEAD + [line for option in OPTIONS for line in [f'[{option}]', *REMOVAL[::-1], *OPTION]]
    bench.equal(make(bench, joined(first)), REMOVED, 'the lines of a removal first')
    for amount, inflation in ((0, 0), (0, -100_000), (10**9, 40_000), (1, 1)):
        sheet = sheets.removed(SHEET[:11] + bytes(267), (0, 0), (0, 0), (amount, inflation))
        text = bench.succeeds('sheet', 'show', '-', data=sheet)
        bench.equal(text.count(b'\nremoval = 0 euros\nremoval inflation = 0 %\n'), 3 if sheet[-8:] == bytes(8) else 2,
                    f'removals in the text of {amount}, {inflation}')
        bench.equal(make(bench, text), sheet, f'make of show of a removal of {amount}, {inflation} not offered')
    alone = HEAD + ['[maintain]', 'life = not offered', REMOVAL[1], *TEXT[15:]]
    refuse(bench, alone, 3, 'removal is missing in [maintain]')
    refuse(bench, changed(4, REMOVAL[0], alone), 3, 'removal inflation is missing in [maintain]')


def refused(bench, sheet, number, option, says=''):
    """Holds if show refuses a sheet with this number and option."""
    bench.put('sheet', sheet)
    bench.fails(f'sheet: refused {number} {option}: {says}', 'sheet', 'show', 'sheet')


def lengths_and_versions(bench):
    """278 bytes go with version 1, 302 with version 2, and nothing else passes."""
    for length in (0, 1, 10, 11, 277, 279, 289, 301):
        for sheet in (SHEET + bytes(24), REMOVED):
            refused(bench, sheet[:length], 1, 3, f'a sheet has 278 or 302 bytes, this has {length}\n')
    for more in (1, 24, 1000):
        refused(bench, REMOVED + bytes(more), 1, 3, 'a sheet has 278 or 302 bytes, this has more\n')
    for sheet, wanted in ((SHEET, 1), (REMOVED, 2), (SHEET + bytes(24), 2), (REMOVED[:278], 1)):
        for version in {0, 1, 2, 3, 256 + wanted, 2**16 - 1} - {wanted}:
            refused(bench, sheets.put(sheet, sheets.VERSION, 'H', version), 2, 3,
                    f'the version is {version}, must be {wanted} in a sheet of {len(sheet)} bytes\n')


def removal_refusals(bench):
    """A removal is checked in each option, offered or not: the amount with refusal 6, the inflation with 7."""
    idle = REMOVED
    for option in range(3):
        for life in (sheets.SHORTEST, sheets.LONGEST):
            idle = sheets.put_option(idle, option, life, 'H', 0)
    amounts, inflations = (10**9 + 1, 2**32 - 1), (40_001, -100_001, 2**31 - 1, -2**31)
    for option, sheet in itertools.product(range(3), (REMOVED, idle)):
        for amount in amounts:
            refused(bench, sheets.put_option(sheet, option, sheets.REMOVAL, 'I', amount), 6, option,
                    f'{OPTIONS[option]}: removal is {amount:,} euros, {AMOUNT_LIMIT}\n')
        for inflation in inflations:
            faulty = sheets.put_option(sheet, option, sheets.REMOVAL_INFLATION, 'i', inflation)
            refused(bench, faulty, 7, option, f'{OPTIONS[option]}: removal inflation is ')
            refused(bench, sheets.put_option(faulty, option, sheets.COUNT, 'B', 9), 7, option)
            refused(bench, sheets.put_option(faulty, option, sheets.REMOVAL, 'I', 10**9 + 1), 6, option)
            refused(bench, sheets.put_option(faulty, 0, sheets.SHORTEST, 'H', 21), 5, 0)
    later = sheets.put_option(REMOVED, 1, sheets.LONGEST, 'H', 121)
    refused(bench, sheets.put_option(later, 0, sheets.REMOVAL_INFLATION, 'i', 40_001), 7, 0)


def refusals(bench, sheet):
    """show of faulty sheets, each a change of this one: number and option of the first fault."""
    refused(bench, b'RCP' + sheet[3:], 2, 3, 'the first three bytes are not the mark RCS')
    refused(bench, sheets.put(sheet, sheets.HORIZON, 'H', 0), 3, 3,
            'horizon is 0 years, must be from 1 year to 300 years')
    refused(bench, sheets.put(sheet, sheets.HORIZON, 'H', 301), 3, 3)
    refused(bench, sheets.put(sheet, sheets.RATE, 'I', 200_001), 4, 3,
            'discount rate is 20.0001 %, must be from 0 % to 20 %')
    in_a_record = [
        (5, sheets.SHORTEST, 'H', 0), (5, sheets.SHORTEST, 'H', 21), (5, sheets.LONGEST, 'H', 121),
        (6, sheets.INVESTMENT, 'I', 10**9 + 1), (6, sheets.MAINTENANCE, 'I', 10**9 + 1),
        (6, sheets.ELECTRICITY, 'I', 2**32 - 1),
        (7, sheets.INVESTMENT_INFLATION, 'i', 40_001), (7, sheets.MAINTENANCE_INFLATION, 'i', -100_001),
        (7, sheets.ELECTRICITY_INFLATION, 'i', -2**31), (7, sheets.OVERHAUL_INFLATION, 'i', 40_001),
        (8, sheets.MAINTENANCE_AGEING, 'I', 34_826), (8, sheets.ELECTRICITY_AGEING, 'I', 300_001),
        (9, sheets.COUNT, 'B', 9), (9, sheets.COUNT, 'B', 1), (9, sheets.COUNT, 'B', 3),
        (9, sheets.OVERHAULS, 'H', 0), (9, sheets.OVERHAULS, 'H', 10), (9, sheets.OVERHAULS + 6, 'H', 120),
        (9, sheets.OVERHAULS + 2, 'I', 10**9 + 1), (9, sheets.OVERHAULS + 47, 'B', 1),
    ]
    for option, name in enumerate(OPTIONS):
        for number, at, form, value in in_a_record:
            refused(bench, sheets.put_option(sheet, option, at, form, value), number, option, f'{name}: ')
    both = sheets.put_option(sheet, 2, sheets.SHORTEST, 'H', 0)
    refused(bench, sheets.put_option(both, 1, sheets.COUNT, 'B', 9), 9, 1)
    both = sheets.put_option(sheet, 0, sheets.OVERHAUL_INFLATION, 'i', 40_001)
    refused(bench, sheets.put_option(both, 0, sheets.MAINTENANCE_AGEING, 'I', 300_001), 7, 0)
    refused(bench, sheets.put(both, sheets.RATE, 'I', 200_001), 4, 3)
    refused(bench, sheets.put(sheets.put(both, sheets.RATE, 'I', 200_001), sheets.HORIZON, 'H', 0), 3, 3)


def streams_and_files(bench):
    bench.put('text', joined(TEXT))
    bench.put('faulty', b'horizon = 0\n')
    bench.put('kept', b'as it was')
    bench.fails('faulty:1: ', 'sheet', 'make', 'faulty', 'kept')
    bench.succeeds('sheet', 'make', 'text', 'kept')
    bench.equal(bench.get('kept'), SHEET, 'a file that is written again')

    os.mkdir('folder')
    bench.fails('none: cannot be read: ', 'sheet', 'make', 'none', 'out')
    bench.fails('none: cannot be read: ', 'sheet', 'show', 'none')
    bench.fails('folder: cannot be read: ', 'sheet', 'make', 'folder', 'out')
    bench.fails('folder: cannot be read: ', 'sheet', 'show', 'folder')
    bench.fails('folder: cannot be written: ', 'sheet', 'make', 'text', 'folder')
    bench.fails('none/out: cannot be written: ', 'sheet', 'make', 'text', 'none/out')
    bench.fails('text/out: cannot be written: ', 'sheet', 'make', 'text', 'text/out')
    bench.fails("'no\\nne': cannot be read: ", 'sheet', 'show', 'no\nne')

    os.symlink('kept', 'link')
    bench.succeeds('sheet', 'make', EXAMPLE, 'link')
    bench.holds(os.path.islink('link') and bench.get('kept') == sheets.PAPER, 'a link is written through')
    os.mkfifo('pipe')
    reader = os.open('pipe', os.O_RDONLY | os.O_NONBLOCK)
    bench.succeeds('sheet', 'make', 'text', 'pipe')
    bench.equal(os.read(reader, 1000), SHEET, 'a named pipe is written to')
    os.close(reader)

    # Runs of their own, since these limits and streams are theirs.
    bench.fails('out: cannot be written: ', 'sheet', 'make', 'text', 'out', run=bench.program,
                preexec_fn=lambda: resource.setrlimit(resource.RLIMIT_FSIZE, (0, 0)))
    for arguments in (['show', 'kept'], ['make', 'text', '-'], ['--help']):
        reader, writer = os.pipe()
        os.close(reader)
        bench.fails('standard output: cannot be written: ', 'sheet', *arguments, run=bench.program, stdout=writer)
        os.close(writer)
    for closing, file, says in (('>&-', 'kept', 'standard output: cannot be written: it is closed\n'),
                                ('<&-', '-', 'standard input: is closed\n')):
        run = subprocess.run(['sh', '-c', f'exec "$0" "$@" {closing}', PROGRAM, 'show', file],
                             stdout=subprocess.PIPE, stderr=subprocess.PIPE)
        bench.equal((run.returncode, run.stderr.decode()), (1, says), f'show {file} {closing}')


def wrong_use(bench):
    use = 'tools/sheet: use: '
    for arguments in ([], ['make'], ['make', 'text'], ['make', 'text', 'out', 'more'], ['show'],
                      ['show', 'kept', 'out'], ['print', 'kept'], ['show', '-x'], ['show', ''],
                      ['make', '--help', 'out'], ['-h'], ['--help', 'kept']):
        bench.fails(use, 'sheet', *arguments, status=2)
    bench.fails('./text: is given twice', 'sheet', 'make', 'text', './text', status=2)
    described = bench.succeeds('sheet', '--help').decode()
    for line in ('tools/sheet make TEXT SHEET', *(f'{field} = ' for field in (*OPTION_CASES, *REMOVAL_CASES))):
        bench.holds(f'    {line}' in described, f'{line} in tools/sheet --help')
    run = subprocess.run([PROGRAM, 'show', '-'], input=SHEET, stdout=subprocess.PIPE)
    bench.holds(run.returncode == 0 and run.stdout.startswith(b'horizon = 50 years\n'), 'tools/sheet as a program')
