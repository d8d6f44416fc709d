"""The drawing of a plan and its budget as SVG.

The same sheet, plan and general inflation give the same bytes. A text that does not fit in its bar is left out; every
bar also has what it stands for as a title.
"""

from xml.etree import ElementTree

from .charts import draw_money_of_the_year, draw_present_values
from .figures import per_cent
from .paper import INK, MARGIN, PAPER, TEXT, WIDTH, add, exact_euros, whole_euros
from .plan import REPLACE
from .table import draw_table
from .timeline import draw_time_line

FIRST = 106  # the height of the first heading of a part
APART = 38  # from the lower edge of a part to the heading of the next


def draw(sheet, chain, costs, budget):
    """The SVG of a chain whose activities have these costs in units; in money of the year where the budget has it."""
    picture = ElementTree.Element('svg', {
        'xmlns': 'http://www.w3.org/2000/svg',
        'width': str(WIDTH),
        'role': 'img',
        'aria-labelledby': 'title description',
        'font-family': 'sans-serif',
        'font-size': str(TEXT),
        'fill': INK,
    })
    draw_heading(picture, sheet, chain, sum(costs))
    edge = draw_time_line(picture, FIRST, sheet, chain, costs)
    edge = draw_present_values(picture, edge + APART, sheet.horizon, budget.units)
    edge = draw_table(picture, edge + APART, sheet, chain, costs)
    if budget.general is not None:
        edge = draw_money_of_the_year(picture, edge + APART, budget.general, budget.cents)
    height = int(edge) + MARGIN
    picture.set('height', str(height))
    picture.set('viewBox', f'0 0 {WIDTH} {height}')
    ElementTree.indent(picture)
    return ElementTree.tostring(picture, 'utf-8', xml_declaration=True) + b'\n'


def draw_heading(picture, sheet, chain, total):
    title = f'Maintain, renovate and replace up to year {sheet.horizon}'
    value = f'Total present value {whole_euros(total)} euros'
    rate = f'real discount rate {per_cent(sheet.discount_rate)} a year'
    replacements = sum(activity.option == REPLACE for activity in chain)
    add(picture, 'title', title, id='title')
    add(picture, 'desc', f'{chain[0]}, {chain[1]}, then {replacements} '
        f'{"replacement" if replacements == 1 else "replacements"}. {value}, exactly {exact_euros(total)}; {rate}.',
        id='description')
    add(picture, 'rect', x=0, y=0, width='100%', height='100%', fill=PAPER)
    add(picture, 'text', title, x=MARGIN, y=44, font_size=20, font_weight='bold')
    add(picture, 'text', f'{value}, {rate}, prices of year 0', x=MARGIN, y=70, font_size=14)
