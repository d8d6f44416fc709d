"""What the two charts of a budget tell, read back from a picture."""

import re

from .pictures import SVG, bars, box_of_rect, laid_out, overlap

PRESENT, OF_THE_YEAR = 'present-value-by-year', 'money-of-the-year'
TAGS = {f'{SVG}{tag}' for tag in ('svg', 'title', 'desc', 'g', 'rect', 'line', 'text')}

HEIGHT = 160  # of the highest mark of present values
WIDTH = 620  # of the last mark of money of the year
LINE = 2  # the least size of a bar
MOST_MARKS = 6


def chart(picture, name):
    """One of the two charts, or None."""
    return picture.find(f"{SVG}g[@id='{name}']")


def charts_tell(bench, picture, units, cents, what):
    """Both charts have the amounts of every year, and bars that measure them on their scales."""
    present, money = chart(picture, PRESENT), chart(picture, OF_THE_YEAR)
    bench.holds(present is not None and money is not None, f'{what}: both charts are drawn')
    bench.equal(bars(present), [f'year {year}: present value {amount // 10_000:,}.{amount % 10_000:04} euros'
                                for year, amount in paid_in(units)], f'{what}: present values')
    bench.equal(bars(money), [f'year {year}: {euros_of(amount)} euros of year {year}'
                              for year, amount in paid_in(cents)], f'{what}: money of the year')
    bench.equal([text.text for text in anchored(money, 'end')], ['euros of that year', *map(euros_of, cents)],
                f'{what}: the figures of money of the year')
    upright(bench, present, units, what)
    lying(bench, money, cents, what)
    well_formed(bench, picture, what)
    laid_out(bench, picture, what)


def upright(bench, present, units, what):
    """Present values: bars stand on the axis, over the years that are written there, as high as the scale says."""
    axis = float(present.findall(f'{SVG}line')[-1].get('y1'))
    marks = {amount_of(text, 4): middle_of(text) for text in anchored(present, 'end')}
    lines = {float(line.get('y1')) for line in present.iter(f'{SVG}line') if line.get('y1') == line.get('y2')}
    top = max(marks)
    bench.holds(max(units) <= top and len(marks) <= MOST_MARKS, f'{what}: the highest mark')
    bench.holds(all(near(y, axis - scaled(HEIGHT, mark, top)) and any(near(y, line) for line in lines)
                    for mark, y in marks.items()), f'{what}: the scale of present values')
    places = {int(text.text): float(text.get('x')) for text in anchored(present, 'middle')}
    left, last = places[0], len(units) - 1
    boxes = [box_of_rect(rect) for rect in present.iter(f'{SVG}rect')]
    bench.equal(len(boxes), len(paid_in(units)), f'{what}: bars of present values')
    for (year, amount), box in zip(paid_in(units), boxes):
        bench.holds(near((box.left + box.right) / 2, left + scaled(places[last] - left, year, last))
                    and box.right - box.left >= LINE, f'{what}: the place of the bar of year {year}')
        bench.holds(near(box.bottom, axis) and near(axis - box.top, max(scaled(HEIGHT, amount, top), LINE)),
                    f'{what}: the height of the bar of year {year}')
    bench.holds(not any(overlap(one, other) for one, other in zip(boxes, boxes[1:])), f'{what}: bars overlap')


def lying(bench, money, cents, what):
    """Money of the year: a row for each year, with a bar from 0 as long as the scale says."""
    marks = {amount_of(text, 2): float(text.get('x')) for text in anchored(money, 'middle')}
    left, top = marks[0], max(marks)
    bench.holds(max(cents) <= top and len(marks) <= MOST_MARKS, f'{what}: the last mark')
    bench.holds(all(near(x, left + scaled(WIDTH, mark, top)) for mark, x in marks.items()),
                f'{what}: the scale of money of the year')
    rows = {text.text: middle_of(text) for text in money.iter(f'{SVG}text')}
    boxes = [box_of_rect(rect) for rect in money.iter(f'{SVG}rect')]
    bench.equal(len(boxes), len(paid_in(cents)), f'{what}: bars of money of the year')
    for (year, amount), box in zip(paid_in(cents), boxes):
        bench.holds(near((box.top + box.bottom) / 2, rows[f'year {year}']), f'{what}: the row of year {year}')
        bench.holds(near(box.left, left) and near(box.right - left, max(scaled(WIDTH, amount, top), LINE)),
                    f'{what}: the length of the bar of year {year}')


def euros_of(cents):
    return f'{cents // 100:,}.{cents % 100:02}'


def paid_in(amounts):
    return [(year, amount) for year, amount in enumerate(amounts) if amount]


def anchored(chart, anchor):
    return [text for text in chart.iter(f'{SVG}text') if text.get('text-anchor') == anchor]


def middle_of(text):
    """The height of the middle of its small letters."""
    return float(text.get('y')) - 0.36 * 13


def scaled(size, part, whole):
    return size * part / whole if part else 0


def amount_of(text, digits):
    """The units or cents of a mark, which is written in euros with at most so many decimals."""
    whole, _, decimals = text.text.replace(',', '').partition('.')
    return int(whole + decimals.ljust(digits, '0'))


def near(one, other):
    """Places in a picture are written with two decimals."""
    return abs(one - other) <= 0.02


def well_formed(bench, picture, what):
    """Nothing but shapes and texts, nothing from elsewhere, and no name twice."""
    bench.holds({part.tag for part in picture.iter()} <= TAGS, f'{what}: tags')
    names = [part.get('id') for part in picture.iter() if part.get('id')]
    bench.holds(len(names) == len(set(names)) and set(picture.get('aria-labelledby').split()) <= set(names),
                f'{what}: names {names}')
    bench.holds(not any(re.search('href|url|style', f'{name}={value}')
                        for part in picture.iter() for name, value in part.items()), f'{what}: what is elsewhere')
