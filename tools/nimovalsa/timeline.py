"""The chain as a time line: a row for each option over an axis of years."""

from .paper import (BELOW_HEADING, BELOW_TEXT, BESIDE, COLOURS, FAINT_INK, GRID, INK, MARGIN, RIGHT, YEARS_LEFT, add,
                    baseline, exact_euros, heading, span, width_of)
from .plan import REPLACE
from .sheet import OPTIONS

ROW = 36
BAR = 26
TICK_STEPS = (1, 2, 5, 10, 20, 25, 50)
TICK_SPACE = 48


def draw_time_line(picture, top, sheet, chain, costs):
    heading(picture, 'Time line', top)
    rows = top + BELOW_HEADING
    axis = rows + len(OPTIONS) * ROW
    draw_year_axis(picture, sheet.horizon, rows, axis)
    for option, name in enumerate(OPTIONS):
        y = baseline(middle_of(rows, option))
        add(picture, 'text', name, x=MARGIN, y=y)
        if all(activity.length() == 0 for activity in chain if activity.option == option):
            add(picture, 'text', 'none', x=YEARS_LEFT + BESIDE, y=y, fill=FAINT_INK)
    for place, (activity, cost) in enumerate(zip(chain, costs)):
        if activity.length() > 0:
            draw_activity(picture, sheet.horizon, rows, activity, cost, place % 2 == 1)
    return axis + BELOW_TEXT


def middle_of(rows, option):
    return rows + option * ROW + ROW / 2


def draw_year_axis(picture, horizon, top, axis):
    """Years along an axis, with a line up to the top from each that has a mark."""
    add(picture, 'text', 'year', x=MARGIN, y=axis + BELOW_TEXT)
    for year in ticks(horizon):
        x = place_of(year, horizon)
        add(picture, 'line', x1=x, y1=top, x2=x, y2=axis + 5, stroke=GRID)
        add(picture, 'text', str(year), x=x, y=axis + BELOW_TEXT, text_anchor='middle')
    add(picture, 'line', x1=YEARS_LEFT, y1=axis, x2=RIGHT, y2=axis, stroke=INK)


def ticks(horizon):
    """Years with a mark on the axis: even steps from 0, and the horizon."""
    room = (RIGHT - YEARS_LEFT) / TICK_SPACE
    step = next(step for step in TICK_STEPS if horizon / step <= room)
    even = range(0, horizon, step)
    return [year for year in even if (horizon - year) * room >= horizon] + [horizon]


def place_of(year, horizon):
    return YEARS_LEFT + (RIGHT - YEARS_LEFT) * year / horizon


def draw_activity(picture, horizon, rows, activity, cost, is_second):
    left, right = place_of(activity.start, horizon), place_of(activity.end, horizon)
    middle = middle_of(rows, activity.option)
    colour = COLOURS[activity.option]
    bar = add(picture, 'rect', x=left, y=middle - BAR / 2, width=right - left, height=BAR,
              fill=colour.other_fill if is_second else colour.fill)
    add(bar, 'title', f'{activity}: {exact_euros(cost)} euros')
    label_activity(picture, activity, left, right, baseline(middle))


def label_activity(picture, activity, left, right, y):
    """Years on the bar. Maintain and renovate have a row each, so that a label may also stand beside the bar."""
    label = span(activity.start, activity.end)
    width = width_of(label)
    if width <= right - left:
        add(picture, 'text', label, x=(left + right) / 2, y=y, text_anchor='middle', fill=COLOURS[activity.option].ink)
    elif activity.option != REPLACE and right + width <= RIGHT:
        add(picture, 'text', label, x=right + BESIDE, y=y)
    elif activity.option != REPLACE:
        add(picture, 'text', label, x=left - BESIDE, y=y, text_anchor='end')
