"""The budget by year as two bar charts: as present values, and in money of the year.

Each has its own heading, colour and scale, so that one is not taken for the other. No year in which something is paid
is without a bar: one that is too small to be seen is drawn as a line.
"""

from itertools import count
from typing import NamedTuple

from .figures import per_cent
from .money import CENTS, UNITS, divided
from .paper import (BELOW_HEADING, BELOW_TEXT, BESIDE, FAINT_INK, GRID, INK, MARGIN, RIGHT, YEARS_LEFT, add, baseline,
                    exact_euros, heading)
from .timeline import draw_year_axis, place_of

PRESENT = '#44546a'
OF_THE_YEAR = '#8a2f62'
LINE = 2  # a bar that can still be seen
MOST_STEPS = 5  # of a scale

# Present values: upright bars at the places that the years have on the time line.
HEIGHT = 160
WIDEST_BAR = 20
SHARE = 0.8  # of a bar in the room of its year

# Money of the year: a row for each year.
ROW = 20
BAR = 12
BARS_WIDTH = 620


class Scale(NamedTuple):
    """Amounts with a mark, in even steps from 0; none of what is drawn is above the last."""

    marks: list
    size: int  # how far the last mark is from 0
    parts: int  # of an amount, to a euro

    def length(self, amount):
        """How far an amount is from 0."""
        return self.size * amount / self.marks[-1] if amount > 0 else 0

    def bar(self, amount):
        return max(self.length(amount), LINE)

    def label(self, mark):
        return exact_euros(mark, self.parts).rstrip('0').rstrip('.')


def scale_of(amounts, size, parts):
    """A scale with steps of 1, 2 or 5 times a power of ten."""
    largest = max(amounts)
    step = next(step for power in count() for step in (10**power, 2 * 10**power, 5 * 10**power)
                if step * MOST_STEPS >= largest)
    return Scale([step * place for place in range(divided(largest, step) + 1)], size, parts)


def draw_present_values(picture, top, horizon, units):
    """The chart under the time line, with the same places for the years."""
    chart = add(picture, 'g', id='present-value-by-year')
    scale = scale_of(units, HEIGHT, UNITS)
    draw_titles(chart, top, 'Budget by year: present value',
                f'euros of today\u2019s value, discounted; {note_on(units, scale)}')
    axis = top + BELOW_TEXT + BELOW_HEADING + HEIGHT
    draw_amounts(chart, axis, scale)
    draw_year_axis(chart, horizon, axis, axis)
    width = min(WIDEST_BAR, SHARE * (RIGHT - YEARS_LEFT) / horizon)
    for year, amount in enumerate(units):
        if amount > 0:
            height = scale.bar(amount)
            bar = add(chart, 'rect', x=place_of(year, horizon) - width / 2, y=axis - height, width=width,
                      height=height, fill=PRESENT)
            add(bar, 'title', f'year {year}: present value {exact_euros(amount)} euros')
    return axis + BELOW_TEXT


def note_on(units, scale):
    if max(units) == 0:
        return 'nothing is paid'
    is_low = any(0 < amount and scale.length(amount) < LINE for amount in units)
    return f'all years together are the total{"; a bar too low to be seen is a line" if is_low else ""}'


def draw_amounts(chart, axis, scale):
    """The upright scale. The bars of the first and the last year stand out by half their width."""
    outside = WIDEST_BAR / 2
    for mark in scale.marks:
        y = axis - scale.length(mark)
        add(chart, 'line', x1=YEARS_LEFT - outside, y1=y, x2=RIGHT + outside, y2=y, stroke=GRID)
        add(chart, 'text', scale.label(mark), x=YEARS_LEFT - outside - BESIDE, y=baseline(y), text_anchor='end')


def draw_money_of_the_year(picture, top, general, cents):
    """A chart by itself, with its own axis and the cents of every year."""
    chart = add(picture, 'g', id='money-of-the-year')
    scale = scale_of(cents, BARS_WIDTH, CENTS)
    draw_titles(chart, top, f'Budget by year: money of the year, years 0 to {len(cents) - 1}',
                f'with general inflation of {per_cent(general)} a year; not discounted, so never to be added to a '
                'present value')
    rows = top + BELOW_TEXT + BELOW_HEADING + ROW
    add(chart, 'text', 'euros of that year', x=RIGHT, y=baseline(rows - ROW / 2), text_anchor='end', fill=FAINT_INK)
    axis = rows + ROW * len(cents)
    draw_money_axis(chart, rows, axis, scale)
    for year, amount in enumerate(cents):
        draw_money_row(chart, rows + ROW * year + ROW / 2, year, amount, scale)
    return axis + BELOW_TEXT


def draw_money_axis(chart, rows, axis, scale):
    add(chart, 'text', 'euros', x=MARGIN, y=axis + BELOW_TEXT)
    for mark in scale.marks:
        x = YEARS_LEFT + scale.length(mark)
        add(chart, 'line', x1=x, y1=rows, x2=x, y2=axis + 5, stroke=GRID)
        add(chart, 'text', scale.label(mark), x=x, y=axis + BELOW_TEXT, text_anchor='middle')
    add(chart, 'line', x1=YEARS_LEFT, y1=axis, x2=YEARS_LEFT + BARS_WIDTH, y2=axis, stroke=INK)


def draw_money_row(chart, middle, year, amount, scale):
    add(chart, 'text', f'year {year}', x=MARGIN, y=baseline(middle))
    add(chart, 'text', exact_euros(amount, CENTS), x=RIGHT, y=baseline(middle), text_anchor='end')
    if amount > 0:
        bar = add(chart, 'rect', x=YEARS_LEFT, y=middle - BAR / 2, width=scale.bar(amount), height=BAR,
                  fill=OF_THE_YEAR)
        add(bar, 'title', f'year {year}: {exact_euros(amount, CENTS)} euros of year {year}')


def draw_titles(chart, top, title, more):
    heading(chart, title, top)
    add(chart, 'text', more, x=MARGIN, y=top + BELOW_TEXT, fill=FAINT_INK)
