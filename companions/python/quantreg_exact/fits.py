"""Fits: reports together with the model that was fitted, and what they say about its records."""

from dataclasses import dataclass, field, replace
from fractions import Fraction
from functools import cached_property

import pandas

from . import any_size, notes
from .arithmetics import Parts, name_of
from .critical import Critical, critical_value
from .designs import Names, Table, design_rows, offset_values, response_name
from .faults import QuantregError
from .linear import solved
from .model import Model
from .numbers import Number, as_list, as_place, label, shown
from .reports import PathReport, ProcessReport, RanksReport, TestReport

QUARTILES = (Fraction(1, 4), Fraction(1, 2), Fraction(3, 4))


class Summary(pandas.DataFrame):
    """A data frame of a summary, which prints all of its columns, and the critical value behind them."""

    def __repr__(self):
        critical = self.attrs.get("critical")
        text = self.to_string(line_width=pandas.get_option("display.width"))
        return f"{text}\nrank intervals of the critical value {critical}" if critical else text


class OfTable:
    """What is asked of a report together with its `model`.

    A place is a quantile of a process, and a lambda of a path; it may be left out where the fit is at one.
    """

    formula = property(lambda self: self.model.formula, doc="The formula.")
    table = property(lambda self: self.model.table, doc="The table as text, as the program was told it.")
    told_names = property(lambda self: self.told or self.names, doc="The names of the columns as the program was told them.")
    weights = property(lambda self: self.model.weights, doc="The name of the column of weights, or None.")
    contrasts = property(lambda self: self.model.contrasts or "treatment", doc="The coding of factors.")
    response_name = property(lambda self: self.model.decoded(response_name(self.model.told)), doc="The name of the response.")

    @classmethod
    def of(cls, report, model, **more):
        """A report together with its model, by the names of the table."""
        names = tuple(map(model.decoded, report.names))
        told = {"told": report.names} if names != report.names else {}
        return cls(**(vars(report) | {"names": names}), **told, model=model, **more)

    def __getstate__(self):
        # What is worked out again when it is asked for isn't sent to another process.
        return {key: value for key, value in vars(self).items() if key != "meaning"}

    def summed_up(self):
        return f"{self.formula}: {super().summed_up()}"

    @cached_property
    def meaning(self) -> Names:
        """What the names of the columns mean over the table."""
        return Names(self)

    def design(self, newdata=None) -> list:
        """The rows of the design with exact entries: those of the kept records, or those of new data.

        Of new data a record has None in place of its row where a cell that is used is missing. Raises ValueError where
        a name of a column can be read in two ways, and where new data have a level that the fit has not.
        """
        return design_rows(self, self._table_of(newdata))

    def offsets(self, newdata=None) -> list:
        """What the formula's offsets come to together, which the fit takes from the response, as `design` has the rows."""
        return offset_values(self, self._table_of(newdata))

    def _table_of(self, newdata):
        if newdata is None:
            return self.table
        if self.model.telling is None:
            raise ValueError("new data need a fit of a table")
        return self.model.telling.table_of(newdata, self.meaning.variables)

    def _sums(self, table, place, side):
        """Entries times coefficients plus the offsets, for each row of `design`."""
        coef = self.segment_at(self.one_place(place), side).coef
        both = zip(design_rows(self, table), offset_values(self, table))
        return [None if row is None else offset + sum(x * b for x, b in zip(row, coef)) for row, offset in both]

    def predict(self, newdata, place: Number | None = None, side: str = "lower") -> list:
        """The predictions for new data at a place: a fraction for each record, None where a cell is missing."""
        return self._sums(self._table_of(newdata), place, side)

    def response(self) -> list[Fraction]:
        """The response of each kept record, as it stands in the table."""
        return self.table.response(self)

    def fitted(self, place: Number | None = None, side: str = "lower") -> list[Fraction]:
        """The fitted value of each kept record at a place, its offsets included."""
        return self._sums(self.table, place, side)

    def residuals(self, place: Number | None = None, side: str = "lower") -> list[Fraction]:
        """The residual of each kept record at a place."""
        return [y - mean for y, mean in zip(self.response(), self.fitted(place, side))]


@dataclass(frozen=True, repr=False)
class Fit(OfTable, ProcessReport):
    """A report of `process` together with the model that was fitted.

    `critical` is the critical value of its rank intervals, where it has some.
    """

    model: Model
    told: tuple = field(default=(), kw_only=True, compare=False)
    critical: Critical | None = field(default=None, kw_only=True)

    def summed_up(self):
        bands = f"; {len(self.intervals)} rank intervals of the critical value {self.critical}" if self.intervals and self.critical else ""
        return super().summed_up() + bands

    @property
    def params(self) -> pandas.Series | pandas.DataFrame:
        """The coefficients as floats by the names of the columns; of a range `to_frame()`."""
        low, high = self.segments[0].lo, self.segments[-1].hi
        return _floats(self.coef_at(low)) if low == high else self.to_frame()

    def penalty_bounds(self) -> list[Fraction]:
        """The lambda of each penalty row, smooth by smooth."""
        tokens, bounds = Parts.of(self.model.told).tokens, []
        for at, token in enumerate(tokens[:-4]):
            if token["name"] == "qss" and tokens[at + 1]["open"]:
                smooth = f"qss({name_of(tokens[at + 2])})["
                knots = sum(name.startswith(smooth) for name in self.told_names) + ("(Intercept)" in self.names)
                bound = Fraction(tokens[at + 4]["number"])
                bounds += [bound] * (knots - 2 if bound else 0)
        return bounds

    def is_unique(self, tau: Number, penalty_bounds=None) -> bool | None:
        """Whether no other coefficients have the same loss at a quantile: what the report tells, and what the table does.

        It is False too where the rankscore of a basic row is 0 or 1, no other row is fitted exactly and there are no smooths,
        by the program's law `unique_minimum`; `other_coef_at` has others then. The bounds of penalty rows are those of the formula.
        """
        told = super().is_unique(tau, self.penalty_bounds() if penalty_bounds is None else penalty_bounds)
        return False if told is None and self.other_coef_at(tau) is not None else told

    def other_coef_at(self, tau: Number) -> dict[str, Fraction] | None:
        """Other coefficients with the same loss at a quantile, by the names of the columns, or None where none are told.

        Where two segments meet, those of the upper one. Else, where the rankscore of a basic row is 0 or 1, no other row is
        fitted exactly and there are no smooths, the fit moves along the rows of the basis but that one, to the first row
        that it then meets.
        """
        tau, segments = as_place(tau), self.segments_at(tau)
        if segments[0].coef != segments[-1].coef:
            return dict(zip(self.names, segments[-1].coef))
        for segment in segments:
            coef = None if self.penalty else self._beside(segment, tau)
            if coef is not None:
                return dict(zip(self.names, coef))
        return None

    def _beside(self, segment, tau):
        """Coefficients beside those of a segment with the same loss at a quantile, or None."""
        scores = {row: segment.between(tau, ends) for row, ends in segment.basic.items()}
        freed = next((row for row, score in scores.items() if score in (0, 1)), None)
        if freed is None:
            return None
        design, both = self.design(), zip(self.response(), self.offsets())
        residuals = [y - offset - sum(x * b for x, b in zip(row, segment.coef)) for row, (y, offset) in zip(design, both)]
        if {row for row, residual in enumerate(residuals, 1) if residual == 0} != set(segment.basis):
            return None
        # The freed row comes to lie above the fit where its rankscore is 1, and below it where that is 0.
        rise = Fraction(-1 if scores[freed] == 1 else 1)
        move = solved([design[row - 1] for row in segment.basis], [rise * (row == freed) for row in segment.basis])
        rises = [sum(x * d for x, d in zip(row, move)) for row in design]
        step = min((residual / by for residual, by in zip(residuals, rises) if residual * by > 0), default=Fraction(1))
        return tuple(b + step * d for b, d in zip(segment.coef, move))

    def wilcoxon(self) -> list[Fraction]:
        """The Wilcoxon score of each record. Warns where responses are tied."""
        notes.warn(notes.of_ties(self))
        return super().wilcoxon()

    def rank_intervals(self, tau: Number, critical: Critical) -> "Fit":
        """The fit at one quantile with its rank intervals.

        Where the program ends with status 7 each is worked out here, and one that can't be is missing: `notes` say so.
        """
        tau = as_place(tau)
        asked = {"lo": tau, "hi": tau, "crit": critical.value, "rank_at": tau}
        try:
            return Fit.of(self.model.answer("process", **asked), self.model, critical=critical)
        except QuantregError as fault:
            if not (fault.is_overflow and fault.fields.get("place", "").startswith("interval:")):
                raise
            bare = Fit.of(self.model.answer("process", lo=tau, hi=tau), self.model, critical=critical)
            found, said = any_size.intervals_of(bare, tau, critical.value, fault)
            return replace(bare, intervals=tuple(found), notes=tuple(said))

    def conf_int(self, alpha: float = 0.05, tau: Number | None = None, tcrit: bool = False) -> pandas.DataFrame:
        """The rank intervals of the level 1 - alpha at a quantile as floats, `lower` and `upper` by the names of the columns.

        `tau` may be left out where the fit is at one quantile. `tcrit` takes Student's distribution, which needs scipy.
        """
        return self._summary(self.one_place(tau), alpha, tcrit)[["lower", "upper"]]

    def summary(self, alpha: float | None = 0.05, tau=None, tcrit: bool = False) -> pandas.DataFrame:
        """The coefficients with their rank intervals of the level 1 - alpha, as floats and as fractions, by the names of the columns.

        `tau` is one quantile or a list of them; where it isn't given, that of the fit, and of a range its quartiles. With None as `alpha` there
        are no intervals. `attrs` of the frame has the critical value and the notes, which are warnings too.
        """
        if tau is None:
            low, high = self.segments[0].lo, self.segments[-1].hi
            tau = [low] if low == high else [it for it in QUARTILES if low <= it <= high]
        return joined({it: self._summary(it, alpha, tcrit) for it in map(as_place, as_list(tau))})

    def _summary(self, tau, alpha, tcrit):
        """The summary at one quantile, with warnings."""
        columns, attrs, said = {"coefficient": self.coef_at(tau)}, {}, notes.at_quantile(self, tau)
        if alpha is None and tcrit:
            raise ValueError("tcrit asks for a critical value of intervals, and with alpha=None there are none")
        if alpha is not None:
            critical = critical_value(alpha, self.records - len(self.names) if tcrit else None)
            tested = self.rank_intervals(tau, critical)
            columns["lower"] = {self.names[it.column - 1]: it.low for it in tested.intervals}
            columns["upper"] = {self.names[it.column - 1]: it.high for it in tested.intervals}
            attrs, said = {"critical": str(critical)}, [*said, *tested.notes]
        frame = Summary({key: _floats(values) for key, values in columns.items()}, index=list(self.names))
        for key, values in columns.items():
            frame["fraction" if key == "coefficient" else f"{key}_fraction"] = pandas.Series(values, dtype=object)
        frame.attrs = attrs | {"notes": said}
        notes.warn(said)
        return frame


def joined(frames: dict) -> pandas.DataFrame:
    """Summaries by their quantiles as one frame: one alone as it stands."""
    first = next(iter(frames.values()))
    if len(frames) == 1:
        return first
    whole = Summary(pandas.concat({label(tau): frame for tau, frame in frames.items()}, names=["quantile", "column"]))
    whole.attrs = first.attrs | {"notes": [note for frame in frames.values() for note in frame.attrs["notes"]]}
    return whole


def _floats(coef):
    return pandas.Series({name: float(value) for name, value in coef.items()}, dtype=float)


@dataclass(frozen=True, repr=False)
class RanksFit(OfTable, RanksReport):
    """A report of `ranks` together with the model that was fitted."""

    model: Model
    told: tuple = field(default=(), kw_only=True, compare=False)


@dataclass(frozen=True, repr=False)
class TestFit(OfTable, TestReport):
    """A report of `test` together with the model that was fitted.

    `order_statistics` has the statistic in the order of the table and in others, where they were asked for.
    """

    model: Model
    told: tuple = field(default=(), kw_only=True, compare=False)
    order_statistics: tuple = field(default=(), kw_only=True)

    @property
    def order_range(self) -> pandas.DataFrame:
        """The least and the greatest statistic over the orders, with their p-values."""
        ends = [replace(self, statistic=end) for end in (min(self.order_statistics), max(self.order_statistics))]
        rows = [(float(end.statistic), end.p_value) for end in ends]
        return pandas.DataFrame(rows, index=["least", "greatest"], columns=["statistic", "p_value"])

    def summed_up(self):
        told = super().summed_up()
        if not self.order_statistics:
            return told
        (least, high), (greatest, low) = self.order_range.itertuples(index=False)
        count = len(self.order_statistics)
        return f"{told}; over {count} orders {shown(least)} to {shown(greatest)}, p-value {shown(low)} to {shown(high)}"


@dataclass(frozen=True, repr=False)
class PathFit(OfTable, PathReport):
    """A report of `path` together with the model that was fitted and the quantile."""

    model: Model
    tau: Fraction
    told: tuple = field(default=(), kw_only=True, compare=False)

    def check(self) -> None:
        """Works out from the table that no coefficients have a lesser loss at any lambda of the range.

        At both ends of each segment the printed loss is that of the coefficients, and the dual values lie within their
        bounds, balance each column, and have the same loss. Between the ends all of it is a mix. Raises ValueError for the
        first that is false.
        """
        rows = self.rows()
        for segment in self.segments:
            for end, lam in enumerate((segment.lo, segment.hi)):
                fault = _path_fault(segment, end, rows, lam)
                if fault:
                    raise ValueError(f"segment {segment.number}, at lambda {lam}: {fault}")

    def rows(self) -> list[tuple]:
        """The rows of records and of penalties: entries, response less offsets, and what a unit above and a unit below the fit costs.

        A cost is a pair: what stays, and what lambda multiplies.
        """
        data = zip(self.design(), self.response(), self.offsets(), self.table.weights(self))
        rows = [(x, y - offset, (w * self.tau, 0), (w * (1 - self.tau), 0)) for x, y, offset, w in data]
        for column in range(len(self.names) - self.penalty, len(self.names)):
            entries = [Fraction(column == k) for k in range(len(self.names))]
            rows.append((entries, Fraction(0), (0, 1), (0, 1)))
        return rows


def _path_fault(segment, end, rows, lam):
    """What is wrong with a segment at one end of it, where lambda is `lam`, or None."""
    loss, cost, sums = Fraction(0), Fraction(0), [Fraction(0)] * len(segment.coef)
    for number, ((x, y, up, down), side) in enumerate(zip(rows, segment.sides), 1):
        above, below = up[0] + up[1] * lam, down[0] + down[1] * lam
        residual = y - sum(entry * value for entry, value in zip(x, segment.coef))
        if (side == "*" and residual) or (side == "+" and residual < 0) or (side == "-" and residual > 0):
            return f"row {number} lies elsewhere"
        dual = segment.dual[number][end] if side == "*" else above if side == "+" else -below
        if not -below <= dual <= above:
            return f"the dual value of row {number} is out of its bounds"
        loss += above * residual if residual > 0 else -below * residual
        cost += dual * y
        sums = [total + dual * entry for total, entry in zip(sums, x)]
    if any(sums):
        return "the dual values do not balance each column"
    if not loss == cost == segment.loss[end]:
        return "the loss is another one"
    return None
