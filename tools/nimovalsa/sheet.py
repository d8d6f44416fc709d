"""The planning sheet: its bytes, its fields, and the check, which is document 01's refusals 1 to 9.

Document 02's sixth request has a second version, whose records end with a removal; the layout goes by the length.
"""

import struct
from dataclasses import dataclass, fields
from typing import NamedTuple

from .figures import euros, per_cent, years
from .files import Wrong, read_start

OPTIONS = ('maintain', 'renovate', 'replace')
NO_OPTION = 3  # goes with the refusals that concern no option

MARK = b'RCS'
PLAIN, WITH_REMOVAL = 1, 2  # the versions
ENTRIES = 8  # places for overhauls in a record

HEAD = struct.Struct('<3sHHI')  # mark, version, horizon, discount rate
RECORD = struct.Struct('<HHIiIiIIiIiB')  # the fields of Record up to the overhaul count
OVERHAUL = struct.Struct('<HI')  # age, amount
REMOVAL = struct.Struct('<Ii')  # amount, inflation
PLAIN_RECORD = RECORD.size + ENTRIES * OVERHAUL.size  # bytes; those of a removal stand behind them
RECORD_BYTES = {PLAIN: PLAIN_RECORD, WITH_REMOVAL: PLAIN_RECORD + REMOVAL.size}
VERSIONS = {HEAD.size + len(OPTIONS) * length: version for version, length in RECORD_BYTES.items()}  # by length
LONGEST_SHEET = max(VERSIONS)

LONGEST_HORIZON = 300
LONGEST_LIFE = 120
LAST_OVERHAUL = 119
LARGEST_AMOUNT = 10**9
MILLION = 10**6
LARGEST_RATE = 200_000
SMALLEST_INFLATION = -100_000
LARGEST_AGEING = 300_000


class Overhaul(NamedTuple):
    age: int
    amount: int


UNUSED = Overhaul(0, 0)


@dataclass
class Record:
    """What one option costs. `entries` has the overhauls and, at or past the count, the unused entries.

    A record of version 1 has a removal of 0.
    """

    shortest: int = 0
    longest: int = 0
    investment: int = 0
    investment_inflation: int = 0
    maintenance: int = 0
    maintenance_inflation: int = 0
    maintenance_ageing: int = 0
    electricity: int = 0
    electricity_inflation: int = 0
    electricity_ageing: int = 0
    overhaul_inflation: int = 0
    count: int = 0
    entries: tuple = ENTRIES * (UNUSED,)
    removal: int = 0
    removal_inflation: int = 0

    def is_offered(self):
        return (self.shortest, self.longest) != (0, 0)

    def overhauls(self):
        return self.entries[:self.count]


NAMES = [field.name for field in fields(Record)]
SCALARS = NAMES[:NAMES.index('entries')]


@dataclass
class Sheet:
    horizon: int
    discount_rate: int
    records: list  # by option
    version: int = PLAIN


class Fault(NamedTuple):
    """A refusal: its number and option, the field it concerns and what is wrong with it.

    Of overhauls `entry` is the one concerned, from 0.
    """

    number: int
    option: int
    field: str
    says: str
    entry: int = 0

    def __str__(self):
        return self.says if self.option == NO_OPTION else f'{OPTIONS[self.option]}: {self.says}'


class Refused(Exception):
    """A sheet that does not pass the checks, with its first fault."""

    def __init__(self, fault):
        super().__init__(f'refused {fault.number} {fault.option}: {fault}')
        self.fault = fault


def read_sheet(name):
    """The sheet of a file; a refusal is raised with the file's name."""
    try:
        return decode(read_start(name, LONGEST_SHEET + 1))
    except Refused as refused:
        raise Wrong(str(refused), name) from None


def decode(data):
    """The sheet that bytes hold, if it passes the checks."""
    if len(data) not in VERSIONS:
        lengths = ' or '.join(map(str, VERSIONS))
        length = len(data) if len(data) <= LONGEST_SHEET else 'more'
        raise Refused(Fault(1, NO_OPTION, 'length', f'a sheet has {lengths} bytes, this has {length}'))
    mark, version, horizon, rate = HEAD.unpack_from(data)
    if mark != MARK:
        raise Refused(Fault(2, NO_OPTION, 'mark', 'the first three bytes are not the mark RCS'))
    wanted = VERSIONS[len(data)]
    if version != wanted:
        says = f'the version is {version}, must be {wanted} in a sheet of {len(data)} bytes'
        raise Refused(Fault(2, NO_OPTION, 'version', says))
    length = RECORD_BYTES[version]
    records = [decode_record(data[start:start + length]) for start in range(HEAD.size, len(data), length)]
    return checked(Sheet(horizon, rate, records, version))


def decode_record(data):
    overhauls = OVERHAUL.iter_unpack(data[RECORD.size:PLAIN_RECORD])
    removal = REMOVAL.unpack_from(data, PLAIN_RECORD) if len(data) > PLAIN_RECORD else ()
    return Record(*RECORD.unpack_from(data), tuple(Overhaul(*overhaul) for overhaul in overhauls), *removal)


def encode(sheet):
    """The bytes of a sheet that passes the checks."""
    head = HEAD.pack(MARK, sheet.version, sheet.horizon, sheet.discount_rate)
    return head + b''.join(encode_record(record, sheet.version) for record in sheet.records)


def encode_record(record, version):
    scalars = RECORD.pack(*(getattr(record, name) for name in SCALARS))
    removal = REMOVAL.pack(record.removal, record.removal_inflation) if version == WITH_REMOVAL else b''
    return scalars + b''.join(OVERHAUL.pack(*entry) for entry in record.entries) + removal


def checked(sheet):
    """The same sheet, if none of refusals 3 to 9 holds for it."""
    for fault in faults(sheet):
        raise Refused(fault)
    return sheet


def faults(sheet):
    """The faults of a sheet in the order in which the check looks for them."""
    rate = sheet.discount_rate
    if not 1 <= sheet.horizon <= LONGEST_HORIZON:
        yield Fault(3, NO_OPTION, 'horizon', limits('horizon', years, sheet.horizon, 1, LONGEST_HORIZON))
    if not 0 <= rate <= LARGEST_RATE:
        yield Fault(4, NO_OPTION, 'discount rate', limits('discount rate', per_cent, rate, 0, LARGEST_RATE))
    for option, record in enumerate(sheet.records):
        for number, field, says, *entry in record_faults(record, rate):
            yield Fault(number, option, field, says, *entry)


def record_faults(record, rate):
    """Number, field and what is wrong, for refusals 5 to 9 in their order."""
    shortest, longest = record.shortest, record.longest
    if record.is_offered() and not 1 <= shortest <= longest <= LONGEST_LIFE:
        yield 5, 'life', (f'life is {shortest:,} to {years(longest)}, must be from 1 to {LONGEST_LIFE} years, '
                          'the shortest first')
    for field in ('investment', 'maintenance', 'electricity', 'removal'):
        amount = value(record, field)
        if not 0 <= amount <= LARGEST_AMOUNT:
            yield 6, field, limits(field, euros, amount, 0, LARGEST_AMOUNT)
    for payment in ('investment', 'maintenance', 'electricity', 'overhaul', 'removal'):
        inflation = value(record, f'{payment} inflation')
        if not SMALLEST_INFLATION <= inflation <= rate:
            yield 7, f'{payment} inflation', (f'{payment} inflation is {per_cent(inflation)}, must be from '
                                              f'{per_cent(SMALLEST_INFLATION)} to the discount rate, {per_cent(rate)}')
    for payment in ('maintenance', 'electricity'):
        yield from ageing_faults(record, payment, rate)
    yield from overhaul_faults(record)


def ageing_faults(record, payment, rate):
    field = f'{payment} ageing'
    ageing, inflation = value(record, field), value(record, f'{payment} inflation')
    if not 0 <= ageing <= LARGEST_AGEING:
        yield 8, field, limits(field, per_cent, ageing, 0, LARGEST_AGEING)
    elif (MILLION + inflation) * (MILLION + ageing) > MILLION * (MILLION + rate):
        yield 8, field, (f'{field} is {per_cent(ageing)}, with the inflation of {per_cent(inflation)} more than the '
                         f'discount rate, {per_cent(rate)}: (1 + inflation)(1 + ageing) must be at most 1 + rate')


def overhaul_faults(record):
    if record.count > ENTRIES:
        yield 9, 'overhaul', f'{record.count} overhauls, must be at most {ENTRIES}', ENTRIES
        return
    before = 0
    for entry, (age, amount) in enumerate(record.entries):
        if entry >= record.count:
            if (age, amount) != UNUSED:
                yield 9, 'overhaul', f'overhaul {entry + 1} is past the count, {record.count}, and not zero', entry
        elif not 1 <= age <= LAST_OVERHAUL:
            yield 9, 'overhaul', limits('overhaul age', years, age, 1, LAST_OVERHAUL), entry
        elif age <= before:
            yield 9, 'overhaul', f'overhaul age is {years(age)}, must be above the one before, {years(before)}', entry
        elif not 0 <= amount <= LARGEST_AMOUNT:
            yield 9, 'overhaul', limits('overhaul amount', euros, amount, 0, LARGEST_AMOUNT), entry
        before = age


def limits(field, shown, figure, least, most):
    return f'{field} is {shown(figure)}, must be from {shown(least)} to {shown(most)}'


def value(record, field):
    """The figure of a field by its name in words."""
    return getattr(record, field.replace(' ', '_'))
