"""The budget of a chain: what its arcs pay in each year, by document 02's second request."""

from typing import NamedTuple

from .money import MoneyOfTheYear, PresentValue
from .payments import payments

LAST_CENTS = 15  # the last year that is told in money of the year


class Budget(NamedTuple):
    """Present values in units, for years 0 to T, which add up to the cost of the chain.

    Where general inflation is given, also cents of the year, for years 0 to 15 or to T if that is sooner.
    """

    units: list
    general: int = None
    cents: list = None


def budget_of(sheet, chain, general=None):
    units = by_year(PresentValue(sheet.discount_rate), sheet, chain, sheet.horizon)
    if general is None:
        return Budget(units)
    return Budget(units, general, by_year(MoneyOfTheYear(general), sheet, chain, min(LAST_CENTS, sheet.horizon)))


def by_year(money, sheet, chain, last):
    """What is paid in each of the years 0 to last."""
    sums = [0] * (last + 1)
    for activity in chain:
        if activity.start > last:  # and so do all behind it
            break
        for year, amount in payments(money, sheet, activity):
            if year <= last:
                sums[year] += amount
    return sums
