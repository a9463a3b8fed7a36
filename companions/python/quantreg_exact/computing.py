"""Columns of a formula that the program can't work out, as log(x): by patsy, where that is installed."""

import math
import sys
from dataclasses import dataclass, field
from pathlib import Path

import numpy
import pandas

from .columns import Column

# Functions that formulas in R have, where who calls has none of the name.
_FALLBACK = {name: getattr(numpy, name) for name in ("log", "log2", "log10", "log1p", "exp", "expm1", "sqrt", "sin", "cos", "tan")}
_FALLBACK |= {"np": numpy, "numpy": numpy}


class CannotCompute(Exception):
    """Why an expression can't be worked out."""


def _environment():
    """The names of who calls this package, as patsy takes them, and behind them numpy's."""
    from patsy import EvalEnvironment

    frame = sys._getframe(1)
    while frame.f_back and Path(frame.f_code.co_filename).parent == Path(__file__).parent:
        frame = frame.f_back
    return EvalEnvironment([frame.f_locals, frame.f_globals]).with_outer_namespace(_FALLBACK)


@dataclass
class Computed:
    """An expression of a formula that stands as one or several columns.

    `label` is the expression as it was written, `names` those of its columns, `codes` those that the program is told, and `levels` those
    of a factor, with the `contrast` and the `order` that C( ) asks for. `digits` are left of each number, counted from the first of the
    column's greatest, which are so many decimal `places`.
    """

    label: str
    code: str
    digits: int | None = None
    names: list = field(default_factory=list)
    codes: list = field(default_factory=list)
    levels: list | None = None
    places: list = field(default_factory=list)
    contrast: object = None
    order: tuple | None = None
    state: dict | None = field(default=None, repr=False)

    def __getstate__(self):
        # What patsy keeps has modules and functions, which can't be sent to another process.
        return vars(self) | {"state": None}

    def first(self, frame: pandas.DataFrame) -> list[Column]:
        """The columns over the table that is fitted, from whose cells functions such as center( ) and bs( ) take what they need."""
        try:
            from patsy import EvalFactor
        except ImportError:
            raise CannotCompute(
                f"{self.label} would be worked out by patsy, which isn't installed (python3-patsy): compute the column first"
            ) from None
        factor, self.state = EvalFactor(self.code), {}
        try:
            for number in range(factor.memorize_passes_needed(self.state, _environment())):
                factor.memorize_chunk(self.state, number, frame)
                factor.memorize_finish(self.state, number)
        except Exception as error:
            raise self._cannot(error) from error
        values = self._values(frame)
        columns = [Column(values[name], name) for name in values]
        self.names = [column.name for column in columns]
        self.levels = self._levels(columns[0]) if columns[0].levels is not None else None
        if self.levels is not None:
            columns[0].levels = self.levels
        self.places = [self._places(column) for column in columns]
        return self._rounded(columns)

    def again(self, frame: pandas.DataFrame) -> list[Column]:
        """The columns over new data, by what was taken from the table that was fitted."""
        if self.state is None:
            raise ValueError(f"{self.label} was worked out in another process: fit here for predictions of new data")
        try:
            values = self._values(frame)
        except CannotCompute as cannot:
            raise ValueError(f"new data: {cannot}") from None
        return self._rounded([Column(values[name], name) for name in values])

    def _cannot(self, error):
        # patsy tells a user's error in its first line, and the place in others.
        return CannotCompute(f"{self.label} can't be worked out: {str(error).splitlines()[0] if str(error) else type(error).__name__}")

    def _values(self, frame) -> pandas.DataFrame:
        """What the expression comes to, as a data frame with a column for each of its own."""
        from patsy import EvalFactor

        try:
            with numpy.errstate(divide="ignore", invalid="ignore"):
                found = EvalFactor(self.code).eval(self.state, frame)
        except Exception as error:
            raise self._cannot(error) from error
        self.contrast, self.order = getattr(found, "contrast", None), getattr(found, "levels", None)
        if type(found).__name__ == "_CategoricalBox":
            found = pandas.Series(pandas.Categorical(found.data))
        if not isinstance(found, (pandas.Series, pandas.DataFrame)):
            values = numpy.asarray(found) if not isinstance(found, pandas.Categorical) else found
            found = pandas.DataFrame(values) if values.ndim == 2 else pandas.Series(values) if values.ndim == 1 else pandas.Series([values.item()])
        if len(found) != len(frame):
            raise CannotCompute(f"{self.label} has {len(found)} values, and the table {len(frame)} records")
        if isinstance(found, pandas.Series):
            return pandas.DataFrame({self.label: found.reset_index(drop=True)})
        return pandas.DataFrame({f"{self.label}[{name}]": found[name].reset_index(drop=True) for name in found.columns})

    def _levels(self, column):
        """The levels of C( ), in the order that its words ask for."""
        levels = column.levels
        if self.order is not None:
            levels = [str(level) for level in self.order if str(level) in levels]
        contrast = type(self.contrast).__name__
        if self.contrast is None:
            return levels
        reference = getattr(self.contrast, "reference", None)
        if contrast != "Treatment":
            raise ValueError(f"{self.label} asks for contrasts of its own: the program has one coding for all factors, by `contrasts=`")
        if reference is None:
            return levels
        named = str(reference) if str(reference) in levels else levels[reference] if isinstance(reference, int) else None
        if named is None:
            raise ValueError(f"{self.label} has no level {reference!r}")
        return [named, *(level for level in levels if level != named)]

    def _places(self, column):
        """The decimal places to which a column of numbers is rounded, by its greatest."""
        if self.digits is None or column.levels is not None:
            return None
        greatest = float(column.cells.abs().max())
        return self.digits - 1 - math.floor(math.log10(greatest)) if greatest else 0

    def _rounded(self, columns):
        for column, places in zip(columns, self.places):
            if places is not None:
                column.cells = column.cells.astype(float).map(lambda it, places=places: it if math.isnan(it) else round(it, places))
        return columns
