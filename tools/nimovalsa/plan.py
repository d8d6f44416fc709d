"""Plans: their bytes, the lines that `planshow` prints, and whether a chain is feasible for a sheet."""

import re
import struct
from typing import NamedTuple

from .figures import years
from .files import Wrong
from .sheet import OPTIONS

MARK = b'RCP'
VERSION = 1
HEAD = struct.Struct('<3sHQHHH')  # mark, version, total, end of maintaining, end of renovating, replacements
END = struct.Struct('<H')

MAINTAIN, RENOVATE, REPLACE = range(len(OPTIONS))


class Activity(NamedTuple):
    """An option kept from a start to an end year."""

    option: int
    start: int
    end: int

    def length(self):
        return self.end - self.start

    def __str__(self):
        return f'{OPTIONS[self.option]} {self.start} to {self.end}'


class Plan(NamedTuple):
    """The total in units, and the chain: maintain, renovate, then the replacements."""

    total: int
    chain: list


def chain_of(ends):
    """The chain with these end years, each activity starting where the one before ends."""
    options = [MAINTAIN, RENOVATE] + [REPLACE] * (len(ends) - 2)
    return [Activity(*activity) for activity in zip(options, [0, *ends], ends)]


def read_plan(data, name):
    """The plan that bytes or lines hold; what is wrong is raised with the name."""
    return read_plan_bytes(data, name) if data.startswith(MARK) else read_plan_lines(data, name)


def read_plan_bytes(data, name):
    if len(data) < HEAD.size:
        raise Wrong(f'a plan has at least {HEAD.size} bytes, this has {len(data)}', name)
    _, version, total, maintained, renovated, count = HEAD.unpack_from(data)
    if version != VERSION:
        raise Wrong(f'the version is {version}, must be {VERSION}', name)
    length = HEAD.size + END.size * count
    if len(data) != length:
        raise Wrong(f'a plan with {count} replacements has {length} bytes, this has {len(data)}', name)
    ends = [end for end, in END.iter_unpack(data[HEAD.size:])]
    return Plan(total, chain_of([maintained, renovated, *ends]))


def read_plan_lines(data, name):
    lines = data.decode('ascii', 'replace').splitlines()
    if lines and re.fullmatch(r'refused [0-9]{1,2} [0-3]', lines[0]):
        meaning = ': the sheet has no feasible chain' if lines[0] == 'refused 11 3' else ''
        raise Wrong(f'no plan, {lines[0]}{meaning}', name)
    total, = read_line(lines, 1, 'total', 1, name)
    ends = []
    for line in range(2, max(len(lines), 3) + 1):
        word = OPTIONS[min(len(ends), REPLACE)]
        start, end = read_line(lines, line, word, 2, name)
        before = ends[-1] if ends else 0
        if start != before:
            raise Wrong(f'{word} starts in year {start}, must start in year {before}', name, line)
        ends.append(end)
    return Plan(total, chain_of(ends))


def read_line(lines, line, word, count, name):
    """The numbers of a line, which has a word and then so many of them."""
    wanted = f'{word}{" NUMBER" * count}'
    if line > len(lines):
        raise Wrong(f'the line {wanted} is missing', name, max(len(lines), 1))
    found = re.fullmatch(word + ' ([0-9]{1,20})' * count, lines[line - 1])
    if not found:
        raise Wrong(f'neither plan bytes nor a line {wanted}', name, line)
    return [int(number) for number in found.groups()]


def refuse_infeasible(sheet, chain, name):
    """Raises what makes a chain infeasible for a sheet, if anything does."""
    for activity in chain:
        what = misfit(sheet, activity)
        if what:
            raise Wrong(f'not a feasible chain: {activity} {what}', name)
    if chain[-1].end != sheet.horizon:
        raise Wrong(f'not a feasible chain: it ends in year {chain[-1].end}, the horizon is {years(sheet.horizon)}',
                    name)


def misfit(sheet, activity):
    """Why a sheet does not offer an activity, or None."""
    record = sheet.records[activity.option]
    length = activity.length()
    if length < 0:
        return 'ends before it starts'
    if activity.end > sheet.horizon:
        return f'ends after the horizon, {years(sheet.horizon)}'
    if length == 0 and activity.option != REPLACE:
        return None
    if not record.is_offered():
        return 'is an option that the sheet does not offer'
    if not record.shortest <= length <= record.longest:
        return f'lasts {years(length)}, the sheet offers {record.shortest} to {years(record.longest)}'
    return None
