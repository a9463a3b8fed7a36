"""What the program is told of a formula and its table: codes for the names and the levels that it would read otherwise than pandas.

The program reads a name of ASCII letters, sorts levels by bytes and takes a text such as 101 for a number. A column of another name has the
code `<3>`, by its place; a level has `<3.02>`, by its place among those of its column, where they need it. In what is read and said the
names and the levels stand again.
"""

import os
import re
from collections.abc import Mapping
from dataclasses import dataclass, field
from fractions import Fraction
from functools import cached_property
from pathlib import Path

import pandas

from .columns import Column, frame_of
from .computing import CannotCompute, Computed
from .designs import Table, response_name, used_columns
from .numbers import is_number_text, listed
from .wording import Wording, is_arithmetic, is_plain, label_of, pieces_of, text_of, tokens_of

_CODE = re.compile(r"(`?)<(\d+)(?:\.\d+)?>(`?)")


@dataclass(frozen=True)
class Telling:
    """How a formula and its table are told.

    `names` has the columns' names by their codes, `levels` for each factor of a data frame its levels' codes by the levels, and `columns` the names that
    the columns of a data frame are told by, by their own; it is None for a file. `failed` has why expressions of the formula weren't worked
    out, by their texts.
    """

    wording: Wording = field(default_factory=lambda: Wording("", []))
    weights: str | None = None
    names: dict = field(default_factory=dict)
    levels: dict = field(default_factory=dict)
    columns: dict | None = None
    computed: tuple = ()
    failed: dict = field(default_factory=dict)
    fractions: frozenset = frozenset()
    units: dict = field(default_factory=dict)
    notes: tuple = ()
    known: tuple = ()

    def decoded(self, text: str) -> str:
        """A text with names and levels in the places of their codes."""
        return _CODE.sub(self._named, text) if self.names or self._by_code else text

    def _named(self, found):
        code = found[0].strip("`")
        if code in self._by_code:
            return found[1] + self._by_code[code] + found[3]
        if code not in self.names:
            return found[0]
        name = self.names[code]
        return f"`{name}`" if found[1] and found[3] and not name.isidentifier() else name

    @cached_property
    def _by_code(self):
        return {code: level for codes in self.levels.values() for level, code in codes.items() if code != level}

    def level_of(self, column: str, cell: str) -> str:
        """What a cell of a column that is told so was."""
        return self._by_code.get(cell, cell) if column in self.levels else cell

    def table_of(self, newdata, needed) -> Table:
        """New data as the fitted table was told; `needed` are the columns that are asked of them, as they are told."""
        if self.columns is None:
            table = Table.of_bytes(_bytes_of(newdata))
            wanted = [it for it in self.computed if set(it.codes) & set(needed)]
            frame = _frame_of_table(table) if wanted else None
            return table.with_columns({code: column for it in wanted for code, column in zip(it.codes, map(_cells, it.again(frame)))})
        frame = _named_frame(newdata if not _is_path(newdata) else _frame_of_table(Table.of_bytes(_bytes_of(newdata))))
        told = {}
        for name, code in self.columns.items():
            if code in needed and name in frame.columns:
                told[code] = self._told_again(Column(frame[name], name), code)
        for it in self.computed:
            if set(it.codes) & set(needed):
                told |= {code: self._told_again(column, code) for code, column in zip(it.codes, it.again(frame))}
        return Table.of_bytes(_csv(told, len(frame))) if told else Table({}, len(frame), set())

    def _told_again(self, column, code):
        if code not in self.levels:
            if column.levels is not None and column.levels:
                raise ValueError(f"{column.name} is a column of numbers, and the new data have texts there: {listed(map(repr, column.levels), 3)}")
            return column.cells
        codes = self.levels[code]
        texts = column.cells.where(column.cells.isna(), column.cells.astype(object).map(str)).astype(object)
        return texts.map(lambda it: it if not isinstance(it, str) else codes.get(it, it))


def tell(formula, data, weights, contrasts, digits) -> tuple[str, bytes, "Telling"]:
    """What the program is told: a formula, the bytes of a table, and the telling of both."""
    if not isinstance(formula, str):
        raise TypeError(f"the formula is a {type(formula).__name__}: a text as 'y ~ x' comes first, and then the table")
    if weights is not None and not isinstance(weights, str):
        raise TypeError(f"weights are the name of a column, and not a {type(weights).__name__}: put them into the table")
    if _is_path(data):
        telling = _of_file(formula, data, weights, digits)
    else:
        telling = _of_frame(formula, _named_frame(data), weights, digits)
    if digits is not None and not telling[2].computed:
        raise ValueError("digits= rounds the columns that are worked out of a formula, and this one has none")
    if contrasts not in (None, "treatment") and any(it.contrast is not None for it in telling[2].computed if it.levels is not None):
        raise ValueError(f"a formula with Treatment( ) has the contrasts treatment, and not {contrasts}")
    return telling


def _is_path(data):
    return isinstance(data, (str, bytes, os.PathLike))


def _bytes_of(data) -> bytes:
    """The bytes of a file, or of a data frame as CSV without the index, its texts as they stand."""
    if _is_path(data):
        return Path(os.fspath(data)).read_bytes()
    frame = _named_frame(data)
    return _csv({name: Column(frame[name], name).cells for name in frame.columns}, len(frame))


def _named_frame(data) -> pandas.DataFrame:
    """A data frame whose columns' names are texts, over the index 0, 1, and so on."""
    frame = frame_of(data)
    if not len(frame.columns):
        raise ValueError("the data frame has no columns")
    return frame.set_axis([str(name) for name in frame.columns], axis=1).reset_index(drop=True)


def _csv(columns: dict, records: int) -> bytes:
    frame = pandas.DataFrame(columns, index=range(records)) if columns else pandas.DataFrame(index=range(records))
    return frame.to_csv(index=False).encode("utf-8")


def _cells(column: Column) -> list[str]:
    """The cells of a column as texts of a CSV table."""
    return ["" if missing else str(cell) for cell, missing in zip(column.cells, column.cells.isna())]


def _frame_of_table(table: Table) -> pandas.DataFrame:
    """A table's columns as patsy is to take them: those of numbers as floats."""
    columns = {}
    for name, cells in table.cells.items():
        is_there = [table.has(record, [name]) for record in range(table.records)]
        read = (lambda it: float(Fraction(it.strip(" \t")))) if name in table.numeric else str
        columns[name] = [read(cell) if there else None for cell, there in zip(cells, is_there)]
    return pandas.DataFrame(columns)


class _Asked:
    """The expressions of a formula that are worked out, and those that can't be, as the formula is gone through."""

    def __init__(self, frame, start, digits):
        self.frame, self.next, self.digits = frame, start, digits
        self.found, self.failed, self.columns = {}, {}, {}

    def __call__(self, code, text):
        """What stands in place of an expression, or None where the program is left to refuse it."""
        label = label_of(text)
        if label in self.failed:
            return None
        if label not in self.found:
            it = Computed(label, code, self.digits)
            try:
                columns = it.first(self.frame())
            except CannotCompute as cannot:
                self.failed[label] = str(cannot)
                inner = tokens_of(text, ())
                if text.startswith("I") and not any(token.kind == "sign" and token.text not in "+-*^()" for token in inner):
                    # The program would take it otherwise than Python does.
                    raise ValueError(f"{cannot}; a ratio beside a power is another number to the program") from None
                return None
            it.codes = [f"<{self.next + at}>" for at in range(len(columns))]
            self.next += len(columns)
            self.found[label] = it
            self.columns |= dict(zip(it.codes, columns))
        codes = [f"`{code}`" for code in self.found[label].codes]
        return codes[0] if len(codes) == 1 else f"({' + '.join(codes)})"

    @property
    def note(self):
        """That columns of numbers were worked out, and how they were rounded."""
        of_numbers = [it for it in self.found.values() if it.levels is None]
        if not of_numbers:
            return []
        told = f"{listed(it.label for it in of_numbers)} {'was' if len(of_numbers) == 1 else 'were'} worked out by patsy, in floats"
        if self.digits is None:
            return [f"{told}: the fit is exact for these; digits=4 would round them"]
        places = [f"{name} to {places}" for it in of_numbers for name, places in zip(it.names, it.places)]
        return [f"{told}, and rounded to {self.digits} digits of the greatest, that is to so many decimal places: {listed(places)}"]


def _worded(formula, names, quoted, asked):
    """The formula as it is told. Where columns are worked out, `.` is told by its names, for theirs aren't meant."""
    pieces = pieces_of(formula, names, quoted, asked)
    tokens = tokens_of(formula, names)
    if asked.found and any(token == "." for token in tokens):
        sign = next((at for at, token in enumerate(tokens) if token == "~"), 0)
        left = {token.name for token in tokens[:sign]}
        others = [quoted(name, False) for name in names if name not in left]
        pieces = pieces_of(formula, names, quoted, asked, f"({' + '.join(others)})" if others else None)
    return Wording(formula, pieces)


def _of_file(formula, data, weights, digits):
    """A file is told as it stands, with columns that are worked out behind its own."""
    source = _bytes_of(data)
    try:
        table = Table.of_bytes(source)
    except (ValueError, IndexError):
        return formula, source, Telling(Wording(formula, []), weights)
    quoted = lambda name, was_quoted: f"`{name}`" if was_quoted or not is_plain(name) else name
    asked = _Asked(lambda: _frame_of_table(table), len(table.cells) + 1, digits)
    wording = _worded(formula, list(table.cells), quoted, asked)
    levels = {}
    if asked.found:
        told, levels, _ = _told(asked.columns, [])
        source = table.with_columns({code: ["" if it is None or it != it else str(it) for it in cells] for code, cells in told.items()}).as_bytes()
    names = {code: name for it in asked.found.values() for code, name in zip(it.codes, it.names)}
    telling = Telling(
        wording, weights, names, levels, None, tuple(asked.found.values()), asked.failed, notes=tuple(asked.note), known=tuple(table.cells)
    )
    return wording.told, source, telling


def _of_frame(formula, frame, weights, digits):
    """A data frame is told by the columns that the formula and the weights take."""
    names = list(frame.columns)
    tokens = tokens_of(formula, names)
    named = {token.name for token in tokens if token.name is not None} | {weights} | {text_of(token) for token in tokens if token.kind == "text"}
    by_dot = any(token == "." for token in tokens)
    places = [at for at, name in enumerate(names) if by_dot or name in named]
    twice = [names[at] for at in places if names.count(names[at]) > 1]
    if twice:
        raise ValueError(f"the data frame has more than one column {twice[0]!r}")
    taken = {names[at]: Column(frame.iloc[:, at], names[at]) for at in places if by_dot or not _only_worked_out(formula, names, names[at], weights)}
    if not taken:
        # The program is to say what is wrong with the formula, and needs a table for that.
        taken = {name: column for name in dict.fromkeys(names) if (column := _column_or_none(frame, name)) is not None}
    codes = {name: name if is_plain(name) and not _begins_another(name, taken) else f"<{names.index(name) + 1}>" for name in taken}
    quoted = lambda name, was_quoted: (
        f"`{name}`" if name not in codes and not is_plain(name) else _as_told(codes.get(name, name), was_quoted)
    )
    asked = _Asked(lambda: frame, len(names) + 1, digits)
    wording = _worded(formula, names, quoted, asked)
    told, levels, notes = _told({codes[name]: column for name, column in taken.items()} | asked.columns, list(taken.values()))
    computed = tuple(asked.found.values())
    back = {code: name for name, code in codes.items() if code != name}
    back |= {code: name for it in computed for code, name in zip(it.codes, it.names)}
    fractions = frozenset(codes[name] for name, column in taken.items() if column.levels is None and column.dtype == object)
    units = frame.attrs.get("units", {})
    telling = Telling(
        wording, codes.get(weights, weights), back, levels, codes, computed, asked.failed, fractions,
        dict(units) if isinstance(units, Mapping) else {}, (*notes, *asked.note), tuple(names),
    )  # fmt: skip
    return wording.told, _csv(told, len(frame)), telling


def _column_or_none(frame, name):
    try:
        return Column(frame.iloc[:, list(frame.columns).index(name)], name)
    except ValueError:
        return None


def _as_told(code, was_quoted):
    return f"`{code}`" if was_quoted or not is_plain(code) else code


def _only_worked_out(formula, names, name, weights):
    """Whether a column is named within expressions alone that patsy works out, so that the program isn't told of it."""
    outside = Wording(formula, pieces_of(formula, names, lambda it, _: "``" if it == name else it, lambda code, text: "1"))
    return name != weights and "``" not in outside.told


def _begins_another(name, taken):
    """Whether a factor's name begins another one, as f does fb: then the columns of both may have one name."""
    return taken[name].levels is not None and any(other != name and other.startswith(name) for other in taken)


def _told(columns: dict, own) -> tuple[dict, dict, list]:
    """The cells of columns by their codes, the codes of their levels, and notes on those that are the table's own."""
    told, levels, notes = {}, {}, []
    for at, (code, column) in enumerate(columns.items(), 1):
        if column.levels is None:
            told[code] = column.cells
            if column in own and column.is_plain_object and len(column.cells.dropna()):
                notes.append(f"{column.name} has numbers alone, in a column of objects: it is read as numbers, where statsmodels has a factor")
            continue
        number = int(code[1:-1]) if code.startswith("<") else f"0{at}"
        levels[code] = _codes_of(column.levels, number)
        told[code] = column.cells.map(levels[code], na_action="ignore")
        if column in own and column.levels and all(map(is_number_text, column.levels)) and not isinstance(column.dtype, pandas.CategoricalDtype):
            notes.append(
                f"{column.name} has texts, each of which is a number: it is a factor, as in statsmodels; pandas.to_numeric makes numbers of them"
            )
    return told, levels, notes


def _codes_of(levels, number) -> dict:
    """The codes of levels by the levels: themselves, where the program reads them as texts and sorts them so."""
    if levels == sorted(levels) and not all(map(is_number_text, levels)) and not any(map(_is_odd, levels)):
        return {level: level for level in levels}
    width = len(str(len(levels)))
    return {level: f"<{number}.{at:0{width}}>" for at, level in enumerate(levels, 1)}


def _is_odd(level):
    """Whether a level is a missing cell to the program, or could be taken for a code or a product in the name of a column."""
    return level.strip(" \t") in ("", "NA") or level != level.strip() or "<" in level or ":" in level or "\r" in level
