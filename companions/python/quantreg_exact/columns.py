"""The columns of a data frame as statsmodels takes them: numbers, or texts that are the levels of a factor."""

import datetime
import math
import numbers
from collections.abc import Mapping
from decimal import Decimal

import pandas
from pandas.api import types

_HOW = {
    "dates": "a number such as (data[{0!r}] - data[{0!r}].min()).dt.days, or data[{0!r}].dt.year, can be fitted",
    "spans of time": "a number such as data[{0!r}].dt.total_seconds() can be fitted",
    "periods": "a number such as data[{0!r}].dt.year can be fitted",
    "complex numbers": "numbers.real and numbers.imag can be fitted, each as a column",
}


def frame_of(data) -> pandas.DataFrame:
    """A data frame of what is none: a mapping of columns is taken, as by statsmodels. Raises TypeError for what isn't a table."""
    if isinstance(data, pandas.DataFrame):
        return data
    if isinstance(data, Mapping):
        try:
            return pandas.DataFrame(dict(data))
        except ValueError as error:
            raise ValueError(f"data is a {type(data).__name__} of which pandas makes no data frame: {error}") from error
    known = f"data is a {type(data).__name__}, and neither a data frame nor the path of a CSV file"
    if isinstance(data, pandas.Series):
        raise TypeError(f"{known}: data.to_frame() makes a data frame of it")
    raise TypeError(f"{known}: pandas.DataFrame(data, columns=[..]) makes one of an array or a list, and pandas.read_csv of a file that is open")


def _refuse(name, kind):
    raise ValueError(f"the column {name!r} has {kind}, which aren't numbers: {_HOW[kind].format(name)}")


def _kind_of(column, name):
    """Whether a column has `numbers` or `texts`. Raises ValueError for a column of other things."""
    dtype = column.dtype
    if isinstance(dtype, pandas.CategoricalDtype) or types.is_bool_dtype(dtype) or isinstance(dtype, pandas.StringDtype):
        return "texts"
    if types.is_datetime64_any_dtype(dtype):
        _refuse(name, "dates")
    if types.is_timedelta64_dtype(dtype):
        _refuse(name, "spans of time")
    if isinstance(dtype, pandas.PeriodDtype):
        _refuse(name, "periods")
    if types.is_complex_dtype(dtype):
        _refuse(name, "complex numbers")
    if types.is_numeric_dtype(dtype):
        return "numbers"
    found = column.dropna()
    for kind, wrong in (("dates", datetime.date), ("spans of time", datetime.timedelta), ("periods", pandas.Period)):
        if any(isinstance(it, wrong) for it in found):
            _refuse(name, kind)
    if all(_is_number(it) for it in found):
        return "numbers"
    odd = next((it for it in found if not (_is_number(it) or types.is_scalar(it)) or isinstance(it, (bytes, complex))), None)
    if odd is not None:
        raise ValueError(f"the column {name!r} has a cell of the type {type(odd).__name__}, which is neither a number nor a text")
    return "texts"


def _is_number(value):
    return isinstance(value, (numbers.Real, Decimal)) and not types.is_bool(value)


class Column:
    """A column as it is taken. `cells` are numbers or texts, None or NaN where they are missing; `levels` are the texts in their order.

    `levels` is None where the column has numbers.
    """

    def __init__(self, column: pandas.Series, name: str):
        self.name, self.dtype = name, column.dtype
        self.levels = None
        if _kind_of(column, name) == "numbers":
            self.cells = column
            self._refuse_infinite()
            return
        missing = column.isna()
        texts = column.astype(object).map(str).where(~missing, None)
        if isinstance(column.dtype, pandas.CategoricalDtype):
            order = [str(level) for level in column.cat.categories]
        else:
            order = sorted(set(texts[~missing]))
        used = set(texts[~missing])
        self.cells, self.levels = texts, [level for level in order if level in used]

    def _refuse_infinite(self):
        infinite = self.cells.isin([math.inf, -math.inf]).to_numpy()
        if infinite.any():
            raise ValueError(f"the column {self.name!r} has an infinite number, in record {infinite.argmax() + 1}")

    @property
    def is_plain_object(self) -> bool:
        """Whether it has Python's integers and floats in a column of objects, which statsmodels takes for texts."""
        return self.levels is None and self.dtype == object and all(type(it) in (int, float) for it in self.cells.dropna())
