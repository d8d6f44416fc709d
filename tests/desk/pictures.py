"""Plans in both forms, their pictures, and how what is drawn is laid out."""

import struct
from typing import NamedTuple
from xml.etree import ElementTree

SVG = '{http://www.w3.org/2000/svg}'


def plan_lines(total, ends):
    names = ['maintain', 'renovate'] + ['replace'] * (len(ends) - 2)
    activities = zip(names, [0, *ends], ends)
    return f'total {total}\n' + ''.join(f'{name} {start} {end}\n' for name, start, end in activities)


def plan_bytes(total, ends):
    i, j, *others = ends
    return b'RCP' + struct.pack(f'<HQHHH{len(others)}H', 1, total, i, j, len(others), *others)


def drawn(bench, sheet, total, ends, *general):
    """The drawing of a plan, with general inflation or without, which its bytes and its lines give alike."""
    bench.put('plan', plan_bytes(total, ends))
    bench.succeeds('plot', sheet, 'plan', 'out.svg', *general)
    svg = bench.get('out.svg')
    from_lines = bench.succeeds('plot', sheet, '-', '-', *general, data=plan_lines(total, ends).encode())
    bench.equal(from_lines, svg, 'the drawing from lines and that from bytes')
    return ElementTree.fromstring(svg)


def texts(picture):
    return [text.text for text in picture.iter(f'{SVG}text')]


def bars(picture):
    """What the bars tell, in their order; of the whole picture those of activities, of a chart its own."""
    return [title.text for title in picture.findall(f'{SVG}rect/{SVG}title')]


def laid_out(bench, picture, what):
    """Texts do not overlap, stay on the paper and can be read on what is behind them."""
    page = Box(0, 0, *map(int, picture.get('viewBox').split()[2:]))
    rects = [(rect.get('fill'), box_of_rect(rect, page)) for rect in picture.iter(f'{SVG}rect')]
    bench.holds(all(is_inside(box, page) for _, box in rects), f'{what}: a bar is not on the paper')
    placed = []
    for text in picture.iter(f'{SVG}text'):
        box = box_of(text)
        bench.holds(is_inside(box, page), f'{what}: {text.text} is not on the paper')
        near = [other for other, its in placed if overlap(spaced(box), its)]
        bench.holds(not near, f'{what}: {text.text} is too near to {near}')
        placed.append((text.text, box))
        behind = [fill for fill, its in rects if overlap(its, box)]
        bench.holds(contrast(text.get('fill', picture.get('fill')), behind[-1]) >= 4.5,
                    f'{what}: {text.text} has little contrast')


class Box(NamedTuple):
    left: float
    top: float
    right: float
    bottom: float


def box_of(text):
    """About where a text stands; a digit of a common sans-serif font is 0.64 of its size wide, a bold one 0.7."""
    size = float(text.get('font-size', 13))
    width = len(text.text) * size * (0.7 if text.get('font-weight') == 'bold' else 0.64)
    x, y = float(text.get('x')), float(text.get('y'))
    left = x - width * {'start': 0, 'middle': 0.5, 'end': 1}[text.get('text-anchor', 'start')]
    return Box(left, y - 0.75 * size, left + width, y + 0.25 * size)


def overlap(one, other):
    return (one.left < other.right and other.left < one.right
            and one.top < other.bottom and other.top < one.bottom)


def spaced(box):
    """A text with the room that it wants at its sides."""
    return box._replace(left=box.left - 3, right=box.right + 3)


def is_inside(box, page):
    return page.left <= box.left and box.right <= page.right and page.top <= box.top and box.bottom <= page.bottom


def box_of_rect(rect, page=None):
    if rect.get('width') == '100%':
        return page
    left, top, width, height = (float(rect.get(name)) for name in ('x', 'y', 'width', 'height'))
    return Box(left, top, left + width, top + height)


def contrast(ink, paper):
    """The ratio of luminances of two colours, as the guidelines for web pages define it."""
    lighter, darker = sorted((luminance(ink), luminance(paper)), reverse=True)
    return (lighter + 0.05) / (darker + 0.05)


def luminance(colour):
    parts = [int(colour[at:at + 2], 16) / 255 for at in (1, 3, 5)]
    linear = [part / 12.92 if part <= 0.03928 else ((part + 0.055) / 1.055) ** 2.4 for part in parts]
    return sum(share * part for share, part in zip((0.2126, 0.7152, 0.0722), linear))
