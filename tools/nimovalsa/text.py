"""A sheet as readable text, in both directions; `tools/sheet --help` describes the format."""

import re
from typing import NamedTuple

from .figures import euros, per_cent, read_euros, read_per_cent, read_years, years
from .files import Wrong, WrongUse
from .sheet import (ENTRIES, OPTIONS, PLAIN, UNUSED, WITH_REMOVAL, Overhaul, Record, Refused, Sheet, checked, limits,
                    value)

NOT_OFFERED = 'not offered'
SHOWN = 40  # characters of a faulty value in a message


class Life(NamedTuple):
    shortest: int
    longest: int


def read_life(text):
    if text == NOT_OFFERED:
        return Life(0, 0)
    found = re.fullmatch(r'(.*?)\s*\bto\b\s*(.*)', text)
    lives = found and Life(read_years(f'{found[1]} years'), read_years(found[2]))
    # Two lives of 0 years mean an option that is not offered; the text says so in words.
    return None if not lives or None in lives or lives == (0, 0) else lives


def show_life(life):
    return NOT_OFFERED if life == (0, 0) else f'{life.shortest:,} to {life.longest:,} years'


def read_overhaul(text):
    found = re.fullmatch(r'(.*?years?)\s*,\s*(.*)', text)
    overhaul = found and Overhaul(read_years(found[1]), read_euros(found[2]))
    return None if not overhaul or None in overhaul else overhaul


def show_overhaul(overhaul):
    return f'{years(overhaul.age)}, {euros(overhaul.amount)}'


class Kind(NamedTuple):
    """How a field's value is read and shown, and what to write where it cannot be read."""

    read: object
    show: object
    advice: str


YEARS = Kind(read_years, years, 'write whole years such as 300 years')
RATE = Kind(read_per_cent, per_cent, 'write a rate such as 1.03 %, with at most 4 decimals')
AMOUNT = Kind(read_euros, euros, 'write whole euros such as 2,500,000 euros or 2500000 euros')
LIFE = Kind(read_life, show_life, f'write lives such as 1 to 60 years, or {NOT_OFFERED}')
OVERHAUL = Kind(read_overhaul, show_overhaul, 'write age and amount such as 15 years, 150,000 euros')

HEAD_FIELDS = {'horizon': YEARS, 'discount rate': RATE}
FIGURES = {
    'investment': AMOUNT,
    'investment inflation': RATE,
    'maintenance': AMOUNT,
    'maintenance inflation': RATE,
    'maintenance ageing': RATE,
    'electricity': AMOUNT,
    'electricity inflation': RATE,
    'electricity ageing': RATE,
    'overhaul inflation': RATE,
}
REMOVAL = {'removal': AMOUNT, 'removal inflation': RATE}
OPTION_FIELDS = {'life': LIFE, **FIGURES, 'overhaul': OVERHAUL, **REMOVAL}


class Section:
    """The fields of one section, each with the lines that give it; the head has no name."""

    def __init__(self, name, line):
        self.name = name
        self.line = line  # where a missing field is reported; 0, for the head, stands for the last line
        self.kinds = OPTION_FIELDS if name else HEAD_FIELDS
        self.values = {}
        self.lines = {}

    def get(self, field):
        return self.values[field][0] if field in self.values else None

    def has_removal(self):
        return any(field in self.values for field in REMOVAL)

    def needs(self, field):
        """Whether a field must be given: a removal has both of its fields, and an offered option its figures."""
        if field in REMOVAL:
            return self.has_removal()
        return field == 'life' or field != 'overhaul' and self.get('life') != (0, 0)

    def line_of(self, fault):
        return self.lines[fault.field][fault.entry]

    def title(self):
        return f'[{self.name}]' if self.name else 'the head'


class TextReader:
    """Reads a text line by line; what is wrong is raised with its line. `line` is the one that is read, from 1."""

    def __init__(self, name):
        self.name = name
        self.line = 0
        self.section = Section('', 0)
        self.sections = {'': self.section}

    def wrong(self, what, line=None):
        return Wrong(what, self.name, line or self.line)

    def sheet(self, data):
        for line in data.split(b'\n'):
            self.line += 1
            self.take(self.decoded(line).split('#')[0].strip())
        if data.endswith(b'\n'):  # nothing stands after the last line
            self.line -= 1
        return self.checked()

    def decoded(self, line):
        try:
            return line.decode('utf-8-sig' if self.line == 1 else 'utf-8')
        except UnicodeDecodeError:
            raise self.wrong('not a line of UTF-8 text') from None

    def take(self, line):
        name, equals, text = line.partition('=')
        if line.startswith('[') and line.endswith(']'):
            self.open_section(line[1:-1].strip())
        elif equals:
            self.take_field(' '.join(name.split()), text.strip())
        elif line:
            raise self.wrong(f'cannot read {short(line)}, write name = value, [section] or # comment')

    def open_section(self, name):
        if name not in OPTIONS:
            raise self.wrong(f'unknown section {short(name)}, there are {", ".join(OPTIONS)}')
        if name in self.sections:
            raise self.wrong(f'section [{name}] is given twice, first in line {self.sections[name].line}')
        self.section = self.sections[name] = Section(name, self.line)

    def take_field(self, field, text):
        section = self.section
        if field not in section.kinds:
            raise self.wrong(f'unknown field {short(field)} in {section.title()}, '
                             f'there are {", ".join(section.kinds)}')
        if field in section.lines and field != 'overhaul':
            raise self.wrong(f'{field} is given twice, first in line {section.lines[field][0]}')
        kind = section.kinds[field]
        figure = kind.read(text)
        if figure is None:
            raise self.wrong(f'{field}: cannot read {short(text)}, {kind.advice}')
        section.values.setdefault(field, []).append(figure)
        section.lines.setdefault(field, []).append(self.line)

    def checked(self):
        for name in ('', *OPTIONS):
            if name not in self.sections:
                raise self.wrong(f'section [{name}] is missing')
            self.refuse_missing(self.sections[name])
        head, *options = (self.sections[name] for name in ('', *OPTIONS))
        version = WITH_REMOVAL if any(option.has_removal() for option in options) else PLAIN
        records = [record_of(option) for option in options]
        sheet = Sheet(head.get('horizon'), head.get('discount rate'), records, version)
        try:
            return checked(sheet)
        except Refused as refused:
            fault = refused.fault
            section = head if fault.field in HEAD_FIELDS else options[fault.option]
            raise self.wrong(str(fault), section.line_of(fault)) from None

    def refuse_missing(self, section):
        for field in section.kinds:
            if section.needs(field) and field not in section.values:
                raise self.wrong(f'{field} is missing in {section.title()}', section.line)


def record_of(section):
    """An option's record; what may be left out is then 0."""
    figures = {field.replace(' ', '_'): section.get(field) or 0 for field in (*FIGURES, *REMOVAL)}
    overhauls = tuple(section.values.get('overhaul', ()))
    unused = (UNUSED,) * (ENTRIES - len(overhauls))
    return Record(*section.get('life'), **figures, count=len(overhauls), entries=overhauls + unused)


def short(text):
    """What was read, as one short line."""
    return repr(text if len(text) <= SHOWN else text[:SHOWN] + '...')


def rate_given(field, text, most):
    """A rate of a command line, from 0 to the most, in millionths a year; it is written as a rate of a text sheet."""
    rate = read_per_cent(text)
    if rate is None:
        raise WrongUse(f'{field}: cannot read {short(text)}, write a rate such as 2% or 1.75%')
    if not 0 <= rate <= most:
        raise WrongUse(limits(field, per_cent, rate, 0, most))
    return rate


def read_text(data, name):
    """The sheet of a text; what is wrong is raised with the name and the line."""
    return TextReader(name).sheet(data)


def show_text(sheet):
    """The text of a sheet; read again it gives the same sheet."""
    lines = [f'horizon = {years(sheet.horizon)}', f'discount rate = {per_cent(sheet.discount_rate)}']
    for name, record in zip(OPTIONS, sheet.records):
        lines += ['', f'[{name}]', *show_record(record, sheet.version)]
    return '\n'.join(lines) + '\n'


def show_record(record, version):
    """The lines of an option; of one that is not offered, those whose figure is not 0, and those of a removal."""
    yield f'life = {show_life(Life(record.shortest, record.longest))}'
    for field, kind in FIGURES.items():
        figure = value(record, field)
        if record.is_offered() or figure != 0:
            yield f'{field} = {kind.show(figure)}'
    for overhaul in record.overhauls():
        yield f'overhaul = {show_overhaul(overhaul)}'
    if version == WITH_REMOVAL:
        for field, kind in REMOVAL.items():
            yield f'{field} = {kind.show(value(record, field))}'
