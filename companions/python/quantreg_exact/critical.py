"""Critical values of rank intervals as short fractions, and the tail of the chi-squared distribution."""

import math
from dataclasses import dataclass
from fractions import Fraction
from statistics import NormalDist

from .numbers import Number, as_place, shown, simplest_between

# A critical value is within this share of the square that it stands for: they agree to five digits.
AGREEMENT = Fraction(1, 100_000)


@dataclass(frozen=True)
class Critical:
    """A critical value of rank intervals: the fraction that is handed to the program, and the level that it stands for."""

    value: Fraction
    alpha: float

    @property
    def level(self) -> str:
        """The level in per cent, as in 90 %."""
        return f"{shown(100 * (1 - self.alpha), 4)} %"

    def __str__(self):
        return f"{self.value} ({shown(self.value)}, level {self.level})"


def critical_value(alpha: float, degrees: int | None = None) -> Critical:
    """The critical value of the level 1 - alpha: a short fraction for the square of a two-sided critical value.

    That is the normal distribution's or, with `degrees` of freedom, Student's, which needs scipy. Of all fractions that agree with the
    square to five digits the one of the least denominator is taken, since each digit makes the numbers of a rank interval longer:
    441/163 for 0.1 and 315/82 for 0.05.
    """
    if not 0 < alpha < 1:
        raise ValueError(f"alpha lies between 0 and 1, not {alpha}")
    tail = 1 - float(alpha) / 2
    root = NormalDist().inv_cdf(tail) if degrees is None else _student(tail, degrees)
    square = Fraction(root) ** 2
    return Critical(simplest_between(square * (1 - AGREEMENT), square * (1 + AGREEMENT)), float(alpha))


def given_critical(crit: Number) -> Critical:
    """A critical value as it is given, with the level that it has by the normal distribution."""
    value = as_place(crit)
    return Critical(value, math.erfc(math.sqrt(max(value, 0) / 2)))


def _student(tail: float, degrees: int) -> float:
    try:
        from scipy.stats import t
    except ImportError as error:
        raise ImportError("critical values of Student's distribution need scipy (python3-scipy)") from error
    return float(t.ppf(tail, degrees))


def chi_squared_tail(statistic: Number, degrees: int) -> float:
    """The probability that a chi-squared variable of so many degrees of freedom, a whole number, exceeds a statistic.

    By the recurrence of the incomplete gamma function from 1 or 2 degrees on (Abramowitz and Stegun 6.5.21).
    """
    half = float(statistic) / 2
    if half == 0:
        return 1.0
    shape, tail = (0.5, math.erfc(math.sqrt(half))) if degrees % 2 else (1.0, math.exp(-half))
    while 2 * shape < degrees:
        tail += math.exp(shape * math.log(half) - half - math.lgamma(shape + 1))
        shape += 1
    return tail
