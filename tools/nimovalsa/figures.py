"""Figures with their units as a planner writes them: years, rates in per cent, amounts in euros.

The reading functions give None for what they cannot read. Rates are held in millionths a year.
"""

import re

# Digits alone or with a comma before every three; no figure of a sheet has more than ten.
WHOLE = r'-?(?:[0-9]{1,15}|[0-9]{1,3}(?:,[0-9]{3}){1,4})'
DECIMALS = 4  # 0.0001 % is one millionth


def years(number):
    return f'{number:,} year' if number == 1 else f'{number:,} years'


def euros(amount):
    return f'{amount:,} euro' if amount == 1 else f'{amount:,} euros'


def per_cent(millionths):
    whole, part = divmod(abs(millionths), 10**DECIMALS)
    decimals = f'.{part:0{DECIMALS}}'.rstrip('0').rstrip('.')
    return f'{"-" if millionths < 0 else ""}{whole}{decimals} %'


def read_years(text):
    return read_whole(text, 'years?')


def read_euros(text):
    return read_whole(text, 'euros?')


def read_whole(text, unit):
    found = re.fullmatch(rf'({WHOLE})\s*{unit}', text)
    return found and int(found[1].replace(',', ''))


def read_per_cent(text):
    found = re.fullmatch(rf'(-?)([0-9]{{1,15}})(?:\.([0-9]{{1,{DECIMALS}}}))?\s*%', text)
    if not found:
        return None
    sign, whole, decimals = found.groups(default='')
    return int(sign + whole + decimals.ljust(DECIMALS, '0'))
