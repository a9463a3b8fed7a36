"""The jobs of the program over data frames and CSV files."""

import random
from dataclasses import replace
from fractions import Fraction

from . import any_size, notes
from .critical import Critical, critical_value, given_critical
from .faults import QuantregError
from .fits import Fit, PathFit, RanksFit, TestFit
from .model import Model
from .numbers import Number, as_list, as_place, is_list
from .reports import PredictReport
from .several import Fits

DECILES = tuple(Fraction(tenth, 10) for tenth in range(1, 10))


def fit(
    formula: str,
    data,
    lo,
    hi: Number | None = None,
    *,
    weights: str | None = None,
    contrasts: str | None = None,
    pivots: int | None = None,
    alpha: float | None = None,
    crit: Number | None = None,
    rank_at=None,
    digits: int | None = None,
    program=None,
) -> Fit | Fits:
    """The fits of a formula over the quantiles from `lo` to `hi`, at `lo` alone, or at each of a list `lo`.

    `data` is a data frame, whose index is left out, or the path of a CSV file. A quantile is a number text, a fraction, or
    a float by its shortest decimal. `weights` names a column. Rank intervals come with a level, by `alpha`, or with a critical
    value as it is, by `crit`; `rank_at` has one quantile or several for them, where it isn't given `lo` alone, or the tenths within the range.
    Raises QuantregError with the program's fault line, and advice, where there is no report.
    """
    model = Model.of(formula, data, weights, contrasts, pivots, program, digits)
    critical = _critical(alpha, crit)
    if is_list(lo):
        if hi is not None or rank_at is not None:
            raise ValueError("a list of quantiles has its rank intervals at each of them, and no high end")
        return Fits(tuple(_fit(model, tau, tau, critical, [tau] if critical else None) for tau in lo))
    if critical and rank_at is None:
        rank_at = lo if hi is None else _tenths(as_place(lo), as_place(hi))
    return _fit(model, lo, lo if hi is None else hi, critical, rank_at)


def _tenths(low, high):
    """The tenths within a range of quantiles, or its middle where there is none."""
    return [tau for tau in DECILES if low <= tau <= high] or [(low + high) / 2]


def _critical(alpha: float | None, crit: Number | None) -> Critical | None:
    if alpha is not None and crit is not None:
        raise ValueError("a critical value is given by `alpha` or by `crit`")
    if alpha is not None:
        return critical_value(alpha)
    return None if crit is None else given_critical(crit)


def _fit(model: Model, lo: Number, hi: Number, critical: Critical | None, rank_at) -> Fit:
    """The fit of a range with notes and warnings; rank intervals that overflow are worked out one by one."""
    asked = {"crit": critical and critical.value, "rank_at": rank_at}
    try:
        found = Fit.of(model.answer("process", lo=lo, hi=hi, **asked), model, critical=critical)
    except QuantregError as fault:
        if not (fault.is_overflow and fault.fields.get("place", "").startswith("interval:")):
            raise
        bare = Fit.of(model.answer("process", lo=lo, hi=hi), model, critical=critical)
        each = [bare.rank_intervals(tau, critical) for tau in _listed(rank_at)]
        found = replace(bare, intervals=tuple(it for one in each for it in one.intervals), notes=tuple(it for one in each for it in one.notes))
    return _noted(found, [*notes.of_table(model, found.told_names), *notes.of_uniqueness(found)])


def _noted(found, said):
    """The result with notes behind those that it has, each of which is a warning."""
    found = replace(found, notes=(*found.notes, *said))
    notes.warn(found.notes)
    return found


def ranks(formula: str, data, *, weights=None, contrasts=None, pivots=None, digits=None, program=None) -> RanksFit:
    """The Wilcoxon scores of a formula by the job `ranks`, or from its process where the program ends with status 7."""
    model = Model.of(formula, data, weights, contrasts, pivots, program, digits)
    try:
        report = model.answer("ranks")
    except QuantregError as fault:
        report = _rescued(fault, lambda cause: any_size.ranks_of(_whole(model, 0, 1), cause))
    found = RanksFit.of(report, model)
    return _noted(found, [*notes.of_table(model, found.told_names), *notes.of_ties(found)])


def _whole(model, lo, hi):
    return Fit.of(model.answer("process", lo=lo, hi=hi), model)


def _rescued(fault, make):
    """What is worked out in place of a run that ended with status 7; where that ends so too, or can't be, the first fault stands."""
    if not fault.is_overflow:
        raise fault
    try:
        return make(fault)
    except (QuantregError, ValueError) as error:
        raise fault from error


def rank_test(
    formula: str,
    data,
    tested,
    *,
    weights: str | None = None,
    contrasts: str | None = None,
    pivots: int | None = None,
    orders: int = 0,
    digits: int | None = None,
    program=None,
) -> TestFit:
    """The rank test that the columns `tested` of a formula's design have coefficients 0, by the job `test`.

    `tested` is a column or a list of them: each by its name, by the variable or the product that it belongs to (a factor by its name has
    all its columns), or by its number from 1 as in a report's lines `column`. Where the program ends with status 7, the statistic is
    worked out from the process of the other columns. Where responses are tied, it may depend on the order of the records:
    with `orders` the test is made in so many orders, the table's own and others drawn by chance from a fixed start.
    """
    model = Model.of(formula, data, weights, contrasts, pivots, program, digits)
    tested = _numbers_of(model, tested)
    found = TestFit.of(_test(model, tested), model)
    if orders:
        others = [_test(_shuffled(model, seed), tested).statistic for seed in range(1, orders)]
        found = replace(found, order_statistics=(found.statistic, *others))
    return _noted(found, [*notes.of_table(model, found.told_names), *notes.of_ties(found)])


def _test(model, tested):
    try:
        return model.answer("test", tested=tested)
    except QuantregError as fault:
        return _rescued(fault, lambda cause: any_size.test_of(_whole(model, "1/2", "1/2"), [int(it) for it in _listed(tested)], cause))


def _listed(given) -> list:
    """A value of one or more, as options have them, as a list."""
    return given.split(",") if isinstance(given, str) else as_list(given)


def _numbers_of(model, tested):
    """The numbers of the tested columns, where one is given by a name."""
    given = as_list(tested)
    if not any(isinstance(it, str) and not it.replace(",", "").isdecimal() for it in given):
        return tested
    full = _whole(model, "1/2", "1/2")
    numbers = [number for it in given for number in (full.meaning.columns_of(it) if isinstance(it, str) else [it])]
    return sorted(set(numbers))


def _shuffled(model, seed):
    """The model over the same records in another order."""
    return replace(model, source=model.table.in_order(random.Random(seed).sample(range(model.table.records), model.table.records)))


def predictions(formula: str, data, lo, hi=None, *, weights=None, contrasts=None, pivots=None, digits=None, program=None) -> PredictReport:
    """The predictions of the records of `data` whose response is missing, by the job `predict`.

    For each of them, 1 to 64, the steps over the quantiles from `lo` to `hi` and their rearrangement, which is worked out from the
    process where the program ends with status 7. `Fit.steps` and `Fit.predict` give the steps of any record, by a design that is read
    back from the names of its columns.
    """
    hi = lo if hi is None else hi
    model = Model.of(formula, data, weights, contrasts, pivots, program, digits)
    try:
        report = model.answer("predict", lo=lo, hi=hi)
    except QuantregError as fault:
        report = _rescued(fault, lambda cause: any_size.predictions_of(_whole(model, lo, hi), cause))
    said = notes.of_table(model, report.names)
    return _noted(replace(report, names=tuple(map(model.decoded, report.names))), said)


def path(formula: str, data, tau, lo, hi=None, *, weights=None, contrasts=None, pivots=None, digits=None, program=None) -> PathFit:
    """The fits at the quantile `tau` for every lambda from `lo` to `hi`, or at `lo` alone, by the job `path`.

    They minimise the check loss plus lambda times the sum of the absolute coefficients, the intercept's apart. Lambda is above
    0, and half of what `rq(.., method = "lasso")` in R calls so.
    """
    model = Model.of(formula, data, weights, contrasts, pivots, program, digits)
    report = model.answer("path", tau=tau, lo=lo, hi=lo if hi is None else hi)
    found = PathFit.of(report, model, tau=as_place(tau))
    return _noted(found, notes.of_table(model, found.told_names))
