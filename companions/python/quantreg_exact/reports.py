"""Reports of quantreg as values: one class for each kind, with exact fractions.

Rows, columns and segments are counted from 1, as in the reports. Each report has `to_frame()`, which rounds to floats, and
`notes`: what a user should know of how it was made, in sentences, empty for what was read from text.
"""

from dataclasses import dataclass, field
from fractions import Fraction

import pandas

from .critical import chi_squared_tail
from .numbers import Number, as_fraction, as_place, decimal_text, listed, shown
from .stretches import Segment, Step, Stretches, rearrange, steps_frame


class Report:
    """What all reports have: a short text for eyes, in place of their fields, with the notes behind it."""

    def __repr__(self):
        return "\n".join([f"<{type(self).__name__} {self.summed_up()}>", *(f"  note: {note}" for note in self.notes)])

    def summed_up(self) -> str:
        """What is most of interest, in a line."""
        return f"{self.records} records, {len(self.names)} columns"


def _notes():
    return field(default=(), compare=False, kw_only=True)


@dataclass(frozen=True, repr=False)
class ProcessReport(Report, Stretches):
    """The fits of a range of quantiles: what the job `process` prints."""

    records: int
    dropped: int
    names: tuple
    data: int
    penalty: int
    pivots: int
    segments: tuple
    intervals: tuple
    notes: tuple = _notes()

    def summed_up(self):
        return f"{self.records} records, {self.range_text('quantile')}"

    def scores_at(self, tau: Number, side: str = "lower") -> list[Fraction]:
        """The rankscores of the data rows at a quantile, by row."""
        segment, tau = self.segment_at(tau, side), as_place(tau)
        outside = {"0": Fraction(0), "1": Fraction(1)}
        marks = enumerate(segment.marks[: self.data], 1)
        return [segment.between(tau, segment.basic[row]) if mark == "*" else outside[mark] for row, mark in marks]

    def is_unique(self, tau: Number, penalty_bounds=()) -> bool | None:
        """Whether no other coefficients have the same loss at a quantile.

        True where the dual values of the basis lie strictly within their bounds: that there are no others then, of real numbers
        either, is the program's law `fit_is_only` (Koenker 2005, section 2.2.2). False where two segments with different
        coefficients meet there, and None where the report doesn't tell. The bounds of a penalty row are its lambda, which no
        report has and of which that law says nothing: `penalty_bounds` has one for each penalty row.
        """
        tau, segments = as_place(tau), self.segments_at(tau)
        if len({segment.coef for segment in segments}) > 1:
            return False
        if any(self.is_strict(segment, tau, penalty_bounds) for segment in segments):
            return True
        return None

    def is_strict(self, segment: Segment, tau: Fraction, penalty_bounds=()) -> bool:
        """Whether the dual values of a segment's basis lie strictly within their bounds at a quantile of it."""
        values = {row: segment.between(tau, ends) for row, ends in segment.basic.items()}
        for row, value in values.items():
            if row <= self.data:
                strict = 0 < value < 1
            else:
                at = row - self.data - 1
                strict = at < len(penalty_bounds) and abs(value) < as_fraction(penalty_bounds[at])
            if not strict:
                return False
        return True

    def steps(self, entries, offset: Number = 0) -> list[Step]:
        """The prediction for one row of the design over the range: a step for each segment.

        `entries` has a number for each column, in their order or by their names; the intercept may be left out of the
        latter. `offset` is what the formula's offsets come to together.
        """
        row, offset = self._row(entries), as_fraction(offset)
        return [Step(s.lo, s.hi, sum((x * b for x, b in zip(row, s.coef)), offset)) for s in self.segments]

    def rearranged(self, entries, offset: Number = 0) -> list[Step]:
        """The prediction of `steps`, rearranged so that it never falls."""
        return rearrange(self.steps(entries, offset))

    def predict_entries(self, entries, tau: Number, side: str = "lower", offset: Number = 0) -> Fraction:
        """The prediction for one row of the design at a quantile."""
        row = self._row(entries)
        return sum((x * b for x, b in zip(row, self.segment_at(tau, side).coef)), as_fraction(offset))

    def _row(self, entries):
        if hasattr(entries, "keys"):
            given = dict(entries)
            if "(Intercept)" in self.names:
                given.setdefault("(Intercept)", 1)
            missing = [name for name in self.names if name not in given]
            if missing:
                raise ValueError(f"no entry for {', '.join(missing)}")
            entries = [given[name] for name in self.names]
        row = [as_fraction(entry) for entry in entries]
        if len(row) != len(self.names):
            raise ValueError(f"{len(row)} entries for {len(self.names)} columns")
        return row

    def wilcoxon(self) -> list[Fraction]:
        """Each row's rankscore integrated over 0 to 1, minus 1/2, with numbers of any size.

        Raises ValueError where the range isn't 0 to 1 or there are smooths.
        """
        if (self.segments[0].lo, self.segments[-1].hi) != (0, 1):
            raise ValueError("Wilcoxon scores need the range 0 to 1")
        if self.penalty:
            raise ValueError("Wilcoxon scores need a fit without smooths")
        totals = [Fraction(-1, 2)] * self.data
        for segment in self.segments:
            length = segment.hi - segment.lo
            for row, mark in enumerate(segment.marks, 1):
                if mark == "1":
                    totals[row - 1] += length
                elif mark == "*":
                    totals[row - 1] += length * sum(segment.basic[row]) / 2
        return totals

    def intervals_frame(self) -> pandas.DataFrame:
        """The rank intervals as floats: a row for each, with the name of its column."""
        rows = [(self.names[i.column - 1], float(i.tau), float(i.low), float(i.high)) for i in self.intervals]
        return pandas.DataFrame(rows, columns=["column", "tau", "low", "high"])


@dataclass(frozen=True, repr=False)
class RanksReport(Report):
    """The Wilcoxon scores of the rows: what the job `ranks` prints."""

    records: int
    dropped: int
    names: tuple
    pivots: int
    wilcoxon: tuple
    notes: tuple = _notes()

    def summed_up(self):
        return f"Wilcoxon scores of {self.records} records beside {', '.join(self.names)}"

    def to_frame(self) -> pandas.DataFrame:
        rows = pandas.RangeIndex(1, len(self.wilcoxon) + 1, name="row")
        return pandas.DataFrame({"wilcoxon": [float(value) for value in self.wilcoxon]}, index=rows)


@dataclass(frozen=True, repr=False)
class CheckReport(Report):
    """That a certificate was accepted, with its counts: what the job `check` prints."""

    columns: int
    rows: int
    segments: int
    intervals: int
    notes: tuple = _notes()

    def summed_up(self):
        return f"accepted: {self.rows} rows, {self.columns} columns, {self.segments} segments, {self.intervals} intervals"

    def to_frame(self) -> pandas.DataFrame:
        return pandas.DataFrame([{key: value for key, value in vars(self).items() if key != "notes"}])


@dataclass(frozen=True, repr=False)
class SampleReport(Report):
    """The summary of a generated table's fit: what the job `sample` prints. `loss` is at both ends of the range."""

    records: int
    dropped: int
    columns: int
    segments: int
    pivots: int
    loss: tuple
    notes: tuple = _notes()

    def summed_up(self):
        return f"{self.records} records, {self.columns} columns, {self.segments} segments"

    def to_frame(self) -> pandas.DataFrame:
        low, high = map(float, self.loss)
        counts = {key: value for key, value in vars(self).items() if key not in ("loss", "notes")}
        return pandas.DataFrame([{**counts, "loss_lo": low, "loss_hi": high}])


@dataclass(frozen=True, repr=False)
class TestReport(Report):
    """The rank test of nested models: what the job `test` prints.

    `scores` has the score of each column of `tested` by its number, and `pivots` counts those of the fit without these columns.
    Where their coefficients are 0, `statistic` is about chi-squared with as many degrees of freedom as there are tested columns:
    `p_value` is how likely it is then to be no less, as a float, and `decimal` the statistic to 12 places, rounded down.
    """

    __test__ = False  # no test case of pytest's

    records: int
    dropped: int
    names: tuple
    tested: tuple
    pivots: int
    scores: dict
    statistic: Fraction
    notes: tuple = _notes()

    @property
    def degrees(self) -> int:
        """How many columns are tested: the degrees of freedom."""
        return len(self.tested)

    @property
    def decimal(self) -> str:
        """The statistic to 12 places, rounded down."""
        return decimal_text(self.statistic)

    @property
    def p_value(self) -> float:
        """The probability that a chi-squared variable exceeds the statistic. That this is its limit is of no theorem of ours."""
        return chi_squared_tail(self.statistic, self.degrees)

    @property
    def tested_names(self) -> tuple:
        """The names of the tested columns."""
        return tuple(self.names[column - 1] for column in self.tested)

    def summed_up(self):
        chance = f"p-value {shown(self.p_value)} by chi-squared({self.degrees})"
        return f"{', '.join(self.tested_names)}: statistic {shown(self.statistic)}, {chance}"

    def to_frame(self) -> pandas.DataFrame:
        rows = [(self.names[column - 1], float(score)) for column, score in self.scores.items()]
        return pandas.DataFrame(rows, columns=["column", "score"])


@dataclass(frozen=True)
class Prediction:
    """A record's predictions as steps, and their rearrangement."""

    record: int
    steps: tuple
    rearranged: tuple


@dataclass(frozen=True, repr=False)
class PredictReport(Report):
    """Predictions of the records without a response: what the job `predict` prints."""

    records: int
    dropped: int
    names: tuple
    pivots: int
    predictions: tuple
    notes: tuple = _notes()

    def summed_up(self):
        return f"predictions of records {listed(it.record for it in self.predictions)}, by {self.records} records"

    def to_frame(self) -> pandas.DataFrame:
        frames = {}
        for it in self.predictions:
            both = {"steps": steps_frame(it.steps), "rearranged": steps_frame(it.rearranged)}
            frames[it.record] = pandas.concat(both, names=["list", "step"])
        return pandas.concat(frames, names=["record"]) if frames else steps_frame([])


@dataclass(frozen=True, repr=False)
class PathReport(Report, Stretches):
    """The fits of a range of lambda at one quantile: what the job `path` prints.

    `penalty` is the number of columns that are penalised: all but an intercept.
    """

    records: int
    dropped: int
    names: tuple
    data: int
    penalty: int
    pivots: int
    segments: tuple
    notes: tuple = _notes()

    def summed_up(self):
        return f"{self.records} records, {self.range_text('lambda')}"

    def absolute_sum(self, segment):
        """The sum of the absolute coefficients of a segment that are penalised, which lambda multiplies in the loss."""
        return sum(abs(value) for value in segment.coef[len(self.names) - self.penalty :])

    def dual_at(self, lam: Number, side: str = "lower") -> dict[int, Fraction]:
        """The dual values of the basis at a lambda, by row."""
        segment, lam = self.segment_at(lam, side), as_place(lam)
        return {row: segment.between(lam, ends) for row, ends in segment.dual.items()}


@dataclass(frozen=True, repr=False)
class Certificate(Report):
    """A certificate, what the job `certify` prints, with every number text read as a fraction.

    `rows`, `segments` and `intervals` are as the certificate has them: lists of objects by their keys. Nothing of them
    is checked here.
    """

    version: int
    columns: int
    lo: Fraction
    hi: Fraction
    rows: list
    segments: list
    intervals: list
    notes: tuple = _notes()

    def summed_up(self):
        return f"{len(self.rows)} rows, {self.columns} columns, {len(self.segments)} segments, {len(self.intervals)} intervals"

    def to_frame(self) -> pandas.DataFrame:
        """The coefficients as floats: a row for each segment, indexed by its high end."""
        highs = pandas.Index([float(s["hi"]) for s in self.segments], name="hi")
        return pandas.DataFrame([[float(v) for v in s["coef"]] for s in self.segments], index=highs)
