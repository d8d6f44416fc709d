"""What every part of a picture is drawn with: the page, its inks, and texts with the room that they need.

A part takes the height of its heading and gives that of its lower edge. Texts are laid out by an estimate of their
width that is on the safe side.
"""

from typing import NamedTuple
from xml.etree import ElementTree

from .money import UNITS

WIDTH = 960
MARGIN = 32
RIGHT = WIDTH - MARGIN
YEARS_LEFT = 130  # right of the names of rows

TEXT = 13
HEADING = 15
CHARACTER = 0.66  # of the font size, the widest digits of common sans-serif fonts
BELOW_HEADING = 16
BELOW_TEXT = 20
BESIDE = 6  # between a bar and its label

INK = '#1a1a1a'
FAINT_INK = '#595959'
GRID = '#d9d9d9'
PAPER = '#ffffff'


class Colour(NamedTuple):
    fill: str
    other_fill: str  # of every second activity in a row, so that neighbours differ
    ink: str  # of a label on either fill, with a contrast of at least 4.5


COLOURS = (
    Colour('#e69f00', '#e69f00', INK),
    Colour('#0067a5', '#0067a5', PAPER),
    Colour('#00664b', '#1d7d60', PAPER),
)


def heading(picture, text, y):
    add(picture, 'text', text, x=MARGIN, y=y, font_size=HEADING, font_weight='bold')


def width_of(label):
    return (len(label) + 1) * TEXT * CHARACTER


def baseline(middle):
    """Where to write a text whose small letters are to stand at this height."""
    return middle + 0.36 * TEXT


def span(start, end):
    return f'{start}\u2013{end}'


def whole_euros(units):
    """To the nearest euro, a half going up: what a picture has room for."""
    return f'{(units + UNITS // 2) // UNITS:,}'


def exact_euros(amount, parts=UNITS):
    """An amount of which so many parts, a power of ten, are a euro."""
    return f'{amount // parts:,}.{amount % parts:0{len(str(parts)) - 1}}'


def add(parent, tag, text=None, **attributes):
    child = ElementTree.SubElement(parent, tag, {
        name.replace('_', '-'): f'{value:.2f}'.rstrip('0').rstrip('.') if isinstance(value, float) else str(value)
        for name, value in attributes.items()
    })
    child.text = text
    return child
