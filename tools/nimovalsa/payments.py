"""What an activity pays and in which year, by documents 01 and 02, in either kind of money; its cost is their sum.

Document 02 is followed where it departs from the paper: renovated, the motors go on ageing, and removal is paid for.
"""

from typing import NamedTuple

from .money import PresentValue
from .plan import MAINTAIN, RENOVATE


class Payment(NamedTuple):
    year: int
    amount: int


def once(money, euros, inflation, year):
    """An amount of year 0 that is paid in one year, after that many plain steps."""
    amount = money.start(euros)
    for _ in range(year):
        amount = money.plain(amount, inflation)
    return Payment(year, amount)


def yearly(money, euros, inflation, ageing, new, years):
    """An amount that is paid in each of these years: plain steps until what it is paid for is new, then in service."""
    amount = once(money, euros, inflation, new).amount
    for year in range(new + 1, years.stop):
        amount = money.in_service(amount, inflation, ageing)
        if year in years:
            yield Payment(year, amount)


def payments(money, sheet, activity):
    """What is paid for an activity of a sheet."""
    option, start, end = activity
    if start == end:
        return
    record, years = sheet.records[option], range(start + 1, end + 1)
    yield once(money, record.investment, record.investment_inflation, start)
    for overhaul in record.overhauls():
        if overhaul.age < end - start:
            yield once(money, overhaul.amount, record.overhaul_inflation, start + overhaul.age)
    yield from yearly(money, record.maintenance, record.maintenance_inflation, record.maintenance_ageing, start, years)
    motors = 0 if option == RENOVATE else start
    yield from yearly(money, record.electricity, record.electricity_inflation, record.electricity_ageing, motors, years)
    if option != MAINTAIN and end < sheet.horizon:
        yield once(money, record.removal, record.removal_inflation, end)


def arc_cost(sheet, activity):
    """The cost of an activity in units: the sum of its payments as present values."""
    return sum(payment.amount for payment in payments(PresentValue(sheet.discount_rate), sheet, activity))
