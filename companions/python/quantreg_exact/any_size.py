"""Answers worked out from processes where the program ends with status 7, by Python's fractions of any size.

The program's rank tests and rank intervals end where a number outgrows it, and in older programs scores and rearrangements did too. The
process from which they are worked out has shorter numbers. Each result here says in its notes that it isn't the proved program's.
"""

import csv
import io
import math
from dataclasses import dataclass, replace
from fractions import Fraction

from .designs import response_name
from .faults import QuantregError
from .linear import solved
from .model import Model
from .nested import rank_test_of_process, squared_length
from .numbers import simplest_between
from .reports import Prediction, PredictReport, ProcessReport, RanksReport, TestReport
from .stretches import Interval, rearrange


def note(fault: QuantregError) -> str:
    """What is said of a result that is worked out here after a fault."""
    place = " ".join(f"{key}={fault.fields[key]}" for key in ("place", "quantity") if key in fault.fields)
    return f"worked out from processes by Python's fractions, not by the proved program, which ended with status {fault.status} ({place})"


def ranks_of(fit, fault: QuantregError) -> RanksReport:
    """The report of `ranks` from the process over all quantiles."""
    scores = tuple(ProcessReport.wilcoxon(fit))
    return RanksReport(fit.records, fit.dropped, fit.told_names, fit.pivots, scores, notes=(note(fault),))


def test_of(full, tested, fault: QuantregError) -> TestReport:
    """The report of `test` from the process of the columns that aren't tested, which is fitted here. `full` has all columns."""
    lesser = _Lesser.of(full, [column - 1 for column in tested])
    process = lesser.model(lesser.response).answer("process", lo=0, hi=1)
    return replace(rank_test_of_process(process, full, tested), names=full.told_names, notes=(note(fault),))


def predictions_of(fit, fault: QuantregError) -> PredictReport:
    """The report of `predict` from the process over its range, for the records of the table that lack a response."""
    table, meaning, found = fit.table, fit.meaning, []
    for record in range(table.records):
        if not table.has(record, [response_name(fit.model.told)]) and table.has(record, meaning.variables):
            steps = fit.steps(meaning.row(table, record), meaning.offset(table, record))
            found.append(Prediction(record + 1, tuple(steps), tuple(rearrange(steps))))
    return PredictReport(fit.records, fit.dropped, fit.told_names, fit.pivots, tuple(found), notes=(note(fault),))


def intervals_of(fit, tau: Fraction, crit: Fraction, fault: QuantregError) -> tuple[list[Interval], list[str]]:
    """The rank intervals of all columns at a quantile, and notes; one whose fits have no report either is left out, with its cause."""
    found, missing = [], []
    for column in range(1, len(fit.names) + 1):
        try:
            found.append(interval_of(fit, column, tau, crit))
        except QuantregError as cause:
            missing.append(f"the rank interval of {fit.names[column - 1]} at the quantile {tau} is missing: {cause.line}")
    return found, [f"rank intervals at the quantile {tau}: {note(fault)}", *missing]


def interval_of(fit, column: int, tau: Fraction, crit: Fraction) -> Interval:
    """The rank interval of a column, counted from 1: the values whose squared statistic is at most the bound (Koenker 2005, 3.5).

    The statistic of a value is the sum of dual value times entry in the fit of the other columns to the responses less that value times
    the column; it falls as the value rises, and is 0 at the coefficient. Between the fits in which it is within the bound and beyond it,
    values are tried until they meet.
    """
    lesser = _Lesser.of(fit, [column - 1])
    bound = crit * tau * (1 - tau) * squared_length(lesser.weighted(lesser.tested[0]), [lesser.weighted(it) for it in lesser.others])
    start = fit.coef_at(tau)[fit.names[column - 1]]
    low, high = (_end(lesser, start, sign, tau, bound) for sign in (-1, 1))
    return Interval(column, tau, low, high)


def _end(lesser, inside, sign, tau, bound):
    """The last value on one side, -1 or 1, that is within the bound, or an infinite float. `inside` is one that is."""
    outside, stride = None, Fraction(1)
    while inside != outside:
        if outside is None:
            value, stride = Fraction(math.floor(inside + sign * stride)), 2 * stride
        else:
            third = (outside - inside) / 3
            value = simplest_between(*sorted((inside + third, outside - third)))
        statistic, near, far = lesser.statistic(value, sign, tau)
        if statistic**2 > bound:
            outside = max(near * sign, inside * sign) * sign
        elif math.isinf(far):
            return far
        else:
            inside = far
    return inside


@dataclass(frozen=True)
class _Lesser:
    """A model without some columns of a fit: exact columns of entries, and responses less offsets."""

    fit: object
    response: list
    weights: list
    tested: list
    others: list

    @staticmethod
    def of(fit, left_out):
        columns = list(zip(*fit.design()))
        response = [y - offset for y, offset in zip(fit.response(), fit.offsets())]
        others = [column for at, column in enumerate(columns) if at not in left_out]
        return _Lesser(fit, response, fit.table.weights(fit), [columns[at] for at in left_out], others)

    def weighted(self, column):
        return [weight * entry for weight, entry in zip(self.weights, column)]

    def model(self, response) -> Model:
        """The fit of the other columns to a response: each entry stands in a table as it is."""
        names = [f"x{at}" for at in range(1, len(self.others) + 1)]
        text = io.StringIO()
        csv.writer(text).writerows([["y", "w", *names], *zip(response, self.weights, *self.others)])
        given = self.fit.model
        return Model(f"y ~ 0 + {' + '.join(names)}", text.getvalue().encode(), "w", pivots=given.pivots, program=given.program)

    def statistic(self, value, sign, tau):
        """The statistic at a value of the tested column, and the nearest and the farthest value to that side with the same fit."""
        (column,) = self.tested
        left = [y - value * x for y, x in zip(self.response, column)]
        marks, scores, basis = self._fitted(left, tau)
        statistic = sum(w * (score - 1 + tau) * x for w, score, x in zip(self.weights, scores, column))
        low, high = -math.inf, math.inf
        for mark, residual, fall in zip(marks, self._residuals(left, basis), self._residuals(column, basis)):
            # Where the value rises by 1, the residual of a row falls by so much: up to here the row stays on its side.
            if mark != "*" and fall:
                place = value + residual / fall
                if (fall > 0) == (mark == "1"):
                    high = min(high, place)
                else:
                    low = max(low, place)
        return (statistic, low, high) if sign > 0 else (statistic, high, low)

    def _fitted(self, left, tau):
        """The marks and the rankscores of the rows, and the rows of the basis from 0, in the fit of the other columns."""
        if not self.others:
            marks = ["1" if residual > 0 else "0" for residual in left]
            return marks, [Fraction(mark) for mark in marks], []
        report = self.model(left).answer("process", lo=tau, hi=tau)
        return report.segments[0].marks, report.scores_at(tau), [row - 1 for row in report.segments[0].basis]

    def _residuals(self, values, basis):
        """What is left of values, one for each row, by the coefficients that fit those of the basis."""
        if not basis:
            return list(values)
        rows = list(zip(*self.others))
        coef = solved([rows[row] for row in basis], [values[row] for row in basis])
        return [value - sum(x * b for x, b in zip(row, coef)) for value, row in zip(values, rows)]
