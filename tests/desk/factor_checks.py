"""Checks of tools/factors, and of the factors that it takes from the library.

It runs in a copy that is laid out as the repository, whose shared library these checks leave out, damage and make.
"""

import math
import os
import random
import shutil
import subprocess
from decimal import Decimal
from fractions import Fraction

from .harness import ARCHIVE, ROOT, TOOLS, Failed

LAST = 300
LARGEST = 200_000
LOOKED_UP = (20_000, 30_000, 40_000, 50_000)  # the library has a table for these and steps every other rate
EDGES = [0, 1, LARGEST - 1, LARGEST] + [rate + off for rate in LOOKED_UP for off in (-1, 1)]
DRAWN = 5_000

# 4 per cent, worked out apart from the library: years and factors.
AT_4 = {0: '1.000000000000', 1: '0.961538461539', 2: '0.924556213019', 3: '0.888996358673', 300: '0.000007762452'}

# Libraries without a factor, in C: one that lacks the call, and one that answers refusal 4, option 3.
NO_CALL = 'int nimovalsa_check(void) { return 3; }'
REFUSING = 'unsigned long long nimovalsa_factor(void) { return 4 * 4 + 3; }'

NOT_RATES = ['', '4', '0.04', '4,5%', '4.00001%', '%', '4%%', '.5%', '4.%', '+4%', '\n4%', '4 per cent', '9' * 16 + '%']


def run(bench):
    wrong_use(bench)
    copy = copied()
    library_at_fault(bench, copy)
    make_shared(copy)
    library = opened(copy)  # and from here on its file stays as it is
    answers(bench, library)
    columns(bench, library)
    drawn_pairs(bench, library)
    tables(bench, copy)
    ways_to_write(bench, copy)
    streams_and_folders(bench, copy)


def copied():
    """The path of a copy that has the tools, the Makefile and the archive."""
    copy = os.path.abspath('copy')
    shutil.copytree(TOOLS, os.path.join(copy, 'tools'), ignore=shutil.ignore_patterns('__pycache__'))
    shutil.copy(os.path.join(ROOT, 'Makefile'), copy)
    os.makedirs(os.path.join(copy, 'target', 'staticlib'))
    shutil.copy(ARCHIVE, os.path.join(copy, 'target', 'staticlib'))
    return copy


def shared(copy):
    return os.path.join(copy, 'target', 'shared', 'libnimovalsa.so')


def done(*words, **more):
    """Runs what the checks need; it must succeed."""
    got = subprocess.run(words, stdout=subprocess.PIPE, stderr=subprocess.STDOUT, **more)
    if got.returncode:
        raise Failed(f'{" ".join(words)}: status {got.returncode}, {got.stdout.decode()}')


def make_shared(copy):
    """make shared with the archive as it is; what an outer make was asked is no concern of this one."""
    kept = {name: value for name, value in os.environ.items() if name not in ('MAKEFLAGS', 'MAKELEVEL')}
    done('make', '-C', copy, '--assume-old=archive', 'shared', 'CC=gcc', env=kept)


def opened(copy):
    from nimovalsa.factors import open_library
    from nimovalsa.files import Wrong
    try:
        return open_library(shared(copy))
    except Wrong as wrong:
        raise Failed(str(wrong)) from None


def asked(library, rate, year):
    """The factor, or what is said where the library refuses it."""
    from nimovalsa.factors import factor
    from nimovalsa.files import Wrong
    try:
        return factor(library, rate, year)
    except Wrong as wrong:
        return str(wrong)


def stepped(rate, years):
    """The factors of years 0 to that one: 10^12, then each time 10^6 / (10^6 + rate) of it, rounded up."""
    factors = [10**12]
    for _ in range(years):
        factors.append(math.ceil(Fraction(factors[-1] * 10**6, 10**6 + rate)))
    return factors


def wrong_use(bench):
    """Told before the library is looked for: these runs are not in the copy."""
    for arguments in ([], ['-h'], ['-x', '4%'], ['4%', '--tabs'], ['--help', '4%'], ['4%', '--help'], ['-'], ['--']):
        bench.fails('tools/factors: use: RATE [RATE ...], or --help', 'factors', *arguments, status=2)
    for text in NOT_RATES:
        bench.fails('rate: cannot read ', 'factors', text, status=2)
        bench.fails('rate: cannot read ', 'factors', '4%', text, status=2)
    for text, told in (('20.0001%', '20.0001 %'), ('-0.0001%', '-0.0001 %'), ('21 %', '21 %'), ('-4%', '-4 %')):
        bench.fails(f'rate is {told}, must be from 0 % to 20 %', 'factors', '2%', text, status=2)
    for texts, told in ((['4%', '4%'], '4 %'), (['1.75%', '2%', '1.7500 %'], '1.75 %'), (['0%', '-0%'], '0 %')):
        bench.fails(f'rate {told} is given twice', 'factors', *texts, status=2)
    printed = bench.succeeds('factors', '--help')
    bench.holds(b'tools/factors RATE [RATE ...]' in printed and b'make shared' in printed, 'tools/factors --help')


def library_at_fault(bench, copy):
    """Missing, damaged, without the call, or refusing what the front lets through."""
    name = shared(copy)

    def fails(says):
        bench.fails(says, 'factors', '4%', run=bench.program, tools=os.path.join(copy, 'tools'))

    def cannot_be_loaded(why):
        fails(f'{name}: cannot be loaded, make it with `make shared`: {why}\n')

    cannot_be_loaded('cannot open shared object file: No such file or directory')
    os.mkdir(os.path.dirname(name))
    for damaged, why in ((b'', 'file too short'), (bytes(100_000), 'invalid ELF header')):
        bench.put(name, damaged)
        cannot_be_loaded(why)
    os.unlink(name)
    compile_shared(NO_CALL, name)
    cannot_be_loaded('undefined symbol: nimovalsa_factor')
    compile_shared(REFUSING, name)
    fails('the library has no factor of 4 % and year 0: refused 4 3\n')


def compile_shared(code, name):
    done('gcc', '-shared', '-fPIC', '-x', 'c', '-', '-o', name, input=code.encode())


def answers(bench, library):
    """What the call itself answers: total * 256 + number * 4 + 3."""
    call = library.nimovalsa_factor
    bench.equal(call(40_000, 1), 961_538_461_539 * 256 + 3, 'the answer for 4 per cent and year 1')
    for rate, year, number in ((LARGEST + 1, 0, 4), (2**32, 0, 4), (2**64 - 1, LAST, 4), (LARGEST + 1, LAST + 1, 4),
                               (0, LAST + 1, 13), (40_000, LAST + 1, 13), (0, 2**32, 13), (LARGEST, 2**64 - 1, 13)):
        bench.equal(call(rate, year), number * 4 + 3, f'the answer for rate {rate} and year {year}')
        got = asked(library, rate, year)
        bench.holds(str(got).endswith(f'year {year}: refused {number} 3'), f'rate {rate} and year {year} give {got}')


def columns(bench, library):
    """Every year of the rates that are looked up, of those beside them and of the smallest and largest."""
    for rate in (*LOOKED_UP, *EDGES):
        for year, wanted in enumerate(stepped(rate, LAST)):
            bench.equal(asked(library, rate, year), wanted, f'the factor of rate {rate} and year {year}')


def drawn_pairs(bench, library):
    pairs = random.Random(1).sample(range((LARGEST + 1) * (LAST + 1)), DRAWN)
    for rate, year in (divmod(pair, LAST + 1) for pair in pairs):
        bench.equal(asked(library, rate, year), stepped(rate, year)[-1], f'the factor of rate {rate} and year {year}')


def printed(bench, copy, *rates, **more):
    """The table that tools/factors prints in the copy, as rows of cells."""
    got = bench.program('factors', *rates, tools=os.path.join(copy, 'tools'), **more)
    bench.equal((got.status, got.err), (0, ''), f'tools/factors {rates}')
    bench.holds(got.out.endswith(b'\n'), f'tools/factors {rates}: the last line ends')
    return [line.split('\t') for line in got.out.decode('ascii')[:-1].split('\n')]


def table(heads, rates):
    """The rows of a table by the rule."""
    factors = zip(*(stepped(rate, LAST) for rate in rates))
    return [['year', *heads]] + [[str(year), *(f'{Decimal(factor).scaleb(-12):.12f}' for factor in row)]
                                 for year, row in enumerate(factors)]


def tables(bench, copy):
    heads = ['2%', '3%', '4%', '5%']
    rows = printed(bench, copy, *heads)
    for got, wanted in zip(rows, table(heads, LOOKED_UP)):
        bench.equal(got, wanted, f'the table of {heads}')
    bench.equal(len(rows), 302, f'the lines of the table of {heads}')
    for year, factor in AT_4.items():
        bench.equal(rows[1 + year][3], factor, f'4 per cent and year {year}')
    rows = printed(bench, copy, '20%', '0%')
    bench.equal(rows, table(['20%', '0%'], [LARGEST, 0]), 'the table of 20% and 0%')
    bench.equal(rows[1:], [[str(year), rows[1 + year][1], '1.000000000000'] for year in range(301)], 'a rate of 0')


def ways_to_write(bench, copy):
    """Over its column a rate stands in one way, however it was written; the columns are in the order of the rates."""
    rows = printed(bench, copy, '4.0 %', '1.7500%', '0.0001%', '007%', '-0%', '2%')
    heads = ['4%', '1.75%', '0.0001%', '7%', '0%', '2%']
    bench.equal(rows, table(heads, [40_000, 17_500, 1, 70_000, 0, 20_000]), f'the table of {heads}')


def streams_and_folders(bench, copy):
    """Runs of their own: from other folders, with a standard output that cannot be written."""
    wanted = table(['4%'], [40_000])
    for folder in ('/', os.path.join(copy, 'tools'), copy):
        bench.equal(printed(bench, copy, '4%', cwd=folder), wanted, f'tools/factors from {folder}')
    program = os.path.join(copy, 'tools', 'factors')
    run = subprocess.run([os.path.relpath(program, copy), '4%'], cwd=copy, stdout=subprocess.PIPE)
    lines = ''.join('\t'.join(row) + '\n' for row in wanted)
    bench.equal((run.returncode, run.stdout.decode()), (0, lines), 'tools/factors as a program')
    for argument in ('4%', '--help'):
        reader, writer = os.pipe()
        os.close(reader)
        bench.fails('standard output: cannot be written: ', 'factors', argument, run=bench.program,
                    tools=os.path.dirname(program), stdout=writer)
        os.close(writer)
    run = subprocess.run(['sh', '-c', 'exec "$0" "$@" >&-', program, '4%'], stderr=subprocess.PIPE)
    bench.equal((run.returncode, run.stderr.decode()), (1, 'standard output: cannot be written: it is closed\n'),
                'tools/factors with a closed standard output')
    bench.holds(not any('__pycache__' in folders for _, folders, _ in os.walk(copy)), 'tools/factors leaves no files')
