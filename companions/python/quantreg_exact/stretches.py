"""What reports are made of: stretches of quantiles or of lambda with one fit each, rank intervals, and steps of a prediction."""

from bisect import bisect_left
from collections.abc import Sequence
from dataclasses import dataclass
from fractions import Fraction

import pandas

from .numbers import Number, as_place, shown


@dataclass(frozen=True)
class Stretch:
    """A stretch of quantiles or of lambda with one fit: from `lo` to `hi`, both ends included.

    `loss` has the loss at both ends.
    """

    number: int
    lo: Fraction
    hi: Fraction
    coef: tuple
    loss: tuple

    def between(self, place: Fraction, ends) -> Fraction:
        """The mix of two values at the ends that belongs to a place of the stretch."""
        low, high = ends
        return low if self.lo == self.hi else low + (high - low) * (place - self.lo) / (self.hi - self.lo)


@dataclass(frozen=True)
class Segment(Stretch):
    """A stretch of quantiles.

    `marks` has a character per row, as the report's line `scores`. `basic` has the rankscores at both ends for each row of
    the basis; for a penalty row they are its dual values.
    """

    marks: str
    basic: dict

    @property
    def basis(self) -> tuple[int, ...]:
        """The rows of the basis, ascending."""
        return tuple(self.basic)


@dataclass(frozen=True)
class PathSegment(Stretch):
    """A stretch of lambda.

    `sides` has a character per row: `+` above the fit, `-` below it, `*` in the basis. `dual` has the dual values at both
    ends for each row of the basis.
    """

    sides: str
    dual: dict

    @property
    def basis(self) -> tuple[int, ...]:
        """The rows of the basis, ascending."""
        return tuple(self.dual)


@dataclass(frozen=True)
class Interval:
    """A rank interval of a column at a quantile; an infinite end is an infinite float."""

    column: int
    tau: Fraction
    low: Fraction
    high: Fraction


@dataclass(frozen=True)
class Step:
    """A value over a stretch of quantiles."""

    lo: Fraction
    hi: Fraction
    value: Fraction


def rearrange(steps: Sequence[Step]) -> list[Step]:
    """The steps in ascending order of their values, with their lengths (Chernozhukov, Fernandez-Val and Galichon 2010).

    Steps of equal value keep their order. They begin where the given ones begin and end where those end.
    """
    place, sorted_steps = steps[0].lo, []
    for step in sorted(steps, key=lambda step: step.value):
        sorted_steps.append(Step(place, place + step.hi - step.lo, step.value))
        place = sorted_steps[-1].hi
    return sorted_steps


def steps_frame(steps):
    rows = [(float(step.lo), float(step.hi), float(step.value)) for step in steps]
    return pandas.DataFrame(rows, columns=["lo", "hi", "value"])


def _by_range(segments, columns, values):
    index = pandas.MultiIndex.from_tuples([(float(s.lo), float(s.hi)) for s in segments], names=["lo", "hi"])
    return pandas.DataFrame([[float(v) for v in values(s)] for s in segments], index=index, columns=columns)


class Stretches:
    """What is asked of the fits of a range, whose `segments` begin each where the one before ends.

    A place is a quantile of the report of a process, and a lambda of that of a path.
    """

    @property
    def breakpoints(self) -> list[Fraction]:
        """The places at which one segment ends and the next begins."""
        return [segment.hi for segment in self.segments[:-1]]

    def segments_at(self, place: Number) -> list[Stretch]:
        """The segments that hold a place: one, or the two that meet there. Raises ValueError outside the range."""
        place = as_place(place)
        if not self.segments[0].lo <= place <= self.segments[-1].hi:
            raise ValueError(f"{place} is outside the range {self.segments[0].lo} to {self.segments[-1].hi}")
        at = bisect_left(self.segments, place, key=lambda segment: segment.hi)
        return [segment for segment in self.segments[at : at + 2] if segment.lo <= place]

    def segment_at(self, place: Number, side: str = "lower") -> Stretch:
        """The segment that holds a place; where two meet, the lower or the upper one."""
        if side not in ("lower", "upper"):
            raise ValueError(f"side is lower or upper, not {side!r}")
        return self.segments_at(place)[0 if side == "lower" else -1]

    def coef_at(self, place: Number, side: str = "lower") -> dict[str, Fraction]:
        """The coefficients at a place by the names of the columns; where two segments meet, those of one side."""
        return dict(zip(self.names, self.segment_at(place, side).coef))

    def one_place(self, place: Number | None = None) -> Fraction:
        """A place as it is given, or the only one of the range; ValueError where there are more."""
        if place is None and self.segments[0].lo != self.segments[-1].hi:
            raise ValueError("the fits are of a range: name a place of it")
        return as_place(self.segments[0].lo if place is None else place)

    def range_text(self, place: str) -> str:
        """The range in words: the coefficients where it is one place, else how many segments it has."""
        low, high = self.segments[0].lo, self.segments[-1].hi
        if low == high:
            return f"{place} {low}: " + ", ".join(f"{name} {shown(value)}" for name, value in self.coef_at(low).items())
        return f"{place}s {low} to {high}, {len(self.segments):,} segments"

    def loss_at(self, place: Number) -> Fraction:
        """The loss of the fit at a place, penalties included."""
        segment = self.segment_at(place)
        return segment.between(as_place(place), segment.loss)

    def to_frame(self) -> pandas.DataFrame:
        """The coefficients as floats: a row for each segment, indexed by its ends, and a column for each name."""
        return _by_range(self.segments, list(self.names), lambda s: s.coef)

    def loss_frame(self) -> pandas.DataFrame:
        """The losses at both ends of each segment, as floats."""
        return _by_range(self.segments, ["at_lo", "at_hi"], lambda s: s.loss)
