"""The two kinds of money that a payment is told in, and one year's step of each: whole numbers, rounded up.

A present value is never added to an amount in money of the year.
"""

from dataclasses import dataclass

from .sheet import MILLION

UNITS = 10_000  # units to a euro of present value
CENTS = 100  # cents to a euro of the year
LARGEST_GENERAL = 50_000


def divided(numerator, denominator):
    """A quotient, rounded up to a whole number."""
    return -(-numerator // denominator)


class Money:
    def in_service(self, amount, inflation, ageing):
        """A step of what ages: ageing first, then the plain step."""
        return self.plain(divided(amount * (MILLION + ageing), MILLION), inflation)


@dataclass(frozen=True)
class PresentValue(Money):
    """In units, discounted to year 0 by the real discount rate."""

    rate: int

    def start(self, euros):
        return euros * UNITS

    def plain(self, amount, inflation):
        return divided(amount * (MILLION + inflation), MILLION + self.rate)


@dataclass(frozen=True)
class MoneyOfTheYear(Money):
    """In cents of the year of payment: general inflation, then the payment's own; not discounted."""

    general: int

    def start(self, euros):
        return euros * CENTS

    def plain(self, amount, inflation):
        risen = divided(amount * (MILLION + self.general), MILLION)
        return divided(risen * (MILLION + inflation), MILLION)
