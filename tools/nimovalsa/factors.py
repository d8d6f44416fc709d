"""Present-worth factors, as the library gives them: what 1 paid in a year is worth in year 0.

Each is asked of its C call nimovalsa_factor, in a shared library; none is computed here.
"""

import ctypes
import os

from .figures import per_cent
from .files import Wrong, WrongUse, reason
from .sheet import LARGEST_RATE, LONGEST_HORIZON
from .text import rate_given

ROOT = os.path.dirname(os.path.dirname(os.path.dirname(os.path.abspath(__file__))))
LIBRARY = os.path.join(ROOT, 'target', 'shared', 'libnimovalsa.so')
DECIMALS = 12  # a factor is in units of 10^-12


def rates_of(texts):
    """The rates of a table, each once, whichever way it is written."""
    rates = []
    for text in texts:
        rate = rate_given('rate', text, LARGEST_RATE)
        if rate in rates:
            raise WrongUse(f'rate {per_cent(rate)} is given twice')
        rates.append(rate)
    return rates


def open_library(name=LIBRARY):
    """The shared library, if it has the call."""
    try:
        library = ctypes.CDLL(name)
        call = library.nimovalsa_factor
    except (OSError, AttributeError) as error:
        why = reason(error).removeprefix(f'{name}: ')
        raise Wrong(f'cannot be loaded, make it with `make shared`: {why}', name) from None
    call.argtypes = ctypes.c_uint64, ctypes.c_uint64
    call.restype = ctypes.c_uint64
    return library


def factor(library, rate, year):
    """The factor of a rate and a year, in units of 10^-12."""
    total, rest = divmod(library.nimovalsa_factor(rate, year), 256)
    number, option = divmod(rest, 4)
    if number:
        raise Wrong(f'the library has no factor of {per_cent(rate)} and year {year}: refused {number} {option}')
    return total


def table(library, rates):
    """Years 0 to 300 down, a column for each rate; tabs between them, which a spreadsheet takes as columns."""
    rows = [['year', *map(head, rates)]]
    for year in range(LONGEST_HORIZON + 1):
        rows.append([str(year), *(decimal(factor(library, rate, year)) for rate in rates)])
    return ''.join('\t'.join(row) + '\n' for row in rows)


def head(rate):
    """A rate as it stands over a column: 4%."""
    return per_cent(rate).replace(' ', '')


def decimal(units):
    """A factor as a decimal number, with all its digits."""
    whole, part = divmod(units, 10**DECIMALS)
    return f'{whole}.{part:0{DECIMALS}}'
