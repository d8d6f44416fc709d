"""The present value of each activity, as a table with bars."""

from typing import NamedTuple

from .figures import years
from .paper import (BELOW_HEADING, COLOURS, FAINT_INK, INK, MARGIN, RIGHT, add, baseline, exact_euros, heading, span,
                    whole_euros)
from .plan import REPLACE
from .sheet import OPTIONS, WITH_REMOVAL

ROW = 24
BAR = 14
TOTAL_GAP = 4  # above the line of the total
MOST_ROWS = 24

# Columns: activity, years, length, bar, present value.
SPAN_COLUMN = 176
LENGTH_COLUMN = 330
BARS_LEFT = 350
BARS_WIDTH = 400


class Row(NamedTuple):
    """A row of the table: one activity, or at the end the replacements that have no row of their own."""

    name: str
    option: int
    start: int
    end: int
    cost: int
    has_bar: bool


def draw_table(picture, top, sheet, chain, costs):
    heading(picture, title_of(sheet), top)
    middle = top + BELOW_HEADING + ROW / 2
    draw_line(picture, middle, 'activity', 'years', 'length', 'euros, rounded', fill=FAINT_INK)
    rows = rows_of(chain, costs)
    largest = max([row.cost for row in rows if row.has_bar], default=0)
    for row in rows:
        middle += ROW
        draw_row(picture, middle, row, largest)
    middle += ROW + TOTAL_GAP
    line = middle - ROW / 2
    add(picture, 'line', x1=MARGIN, y1=line, x2=RIGHT, y2=line, stroke=INK)
    draw_line(picture, middle, 'total', span(0, sheet.horizon), years(sheet.horizon), whole_euros(sum(costs)),
              font_weight='bold')
    return middle + ROW / 2


def title_of(sheet):
    removals = f', with removals before year {sheet.horizon}' if sheet.version == WITH_REMOVAL else ''
    return f'Present value of each activity{removals}'


def draw_row(picture, middle, row, largest):
    draw_line(picture, middle, row.name, span(row.start, row.end), years(row.end - row.start), whole_euros(row.cost))
    if not row.has_bar:
        add(picture, 'text', 'together, without a bar', x=BARS_LEFT, y=baseline(middle), fill=FAINT_INK)
    elif row.cost > 0:
        bar = add(picture, 'rect', x=BARS_LEFT, y=middle - BAR / 2, width=BARS_WIDTH * row.cost / largest, height=BAR,
                  fill=COLOURS[row.option].fill)
        add(bar, 'title', f'{row.name} {row.start} to {row.end}: {exact_euros(row.cost)} euros')


def draw_line(picture, middle, name, when, length, value, **look):
    y = baseline(middle)
    add(picture, 'text', name, x=MARGIN, y=y, **look)
    add(picture, 'text', when, x=SPAN_COLUMN, y=y, **look)
    add(picture, 'text', length, x=LENGTH_COLUMN, y=y, text_anchor='end', **look)
    add(picture, 'text', value, x=RIGHT, y=y, text_anchor='end', **look)


def rows_of(chain, costs):
    """A row for each activity; of a long chain the last replacements share one."""
    rows = [Row(OPTIONS[activity.option], *activity, cost, True) for activity, cost in zip(chain, costs)]
    if len(rows) <= MOST_ROWS:
        return rows
    own, shared = rows[:MOST_ROWS - 1], rows[MOST_ROWS - 1:]
    return own + [Row(f'{len(shared)} replacements', REPLACE, shared[0].start, shared[-1].end,
                      sum(row.cost for row in shared), False)]
