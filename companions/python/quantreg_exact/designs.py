"""The design of a fit, read back from the names of its columns.

A report names the columns of its design and leaves their entries out. Where the table stands beside it, each name says what
its entries are: a numeric column, an arithmetic of such, a level of a factor, a column of a coding, a knot of a smooth, or a
product of the first four.
"""

import csv
import io
import re
from dataclasses import dataclass, field
from fractions import Fraction

from .arithmetics import TOKEN, Arithmetic, Parts, name_of
from .numbers import is_number_text

_BLANKS = " \t"
_KNOT = re.compile(r"qss\((?P<name>.*)\)\[(?P<knot>[^\]]*)\]", re.DOTALL)


@dataclass(frozen=True)
class Table:
    """A table as text: the cells of each column by its name. A first column without a name has row names, and is left out."""

    cells: dict
    records: int
    numeric: set = field(repr=False)

    @staticmethod
    def of_bytes(data):
        lines = [row for row in csv.reader(io.StringIO(data.decode("utf-8-sig"), newline="")) if row]
        if not lines:
            raise ValueError("the table has no header")
        header, records = lines[0], lines[1:]
        first = 1 if header[0] == "" and len(header) > 1 else 0
        cells = {name: [row[at] for row in records] for at, name in enumerate(header) if at >= first}
        numeric = {name for name, column in cells.items() if all(_is_missing(it) or _is_numeric(it) for it in column)}
        return Table(cells, len(records), numeric)

    def in_order(self, order):
        """The bytes of a table with these records, counted from 0, one after the other."""
        text = io.StringIO()
        csv.writer(text).writerows([list(self.cells), *([column[record] for column in self.cells.values()] for record in order)])
        return text.getvalue().encode("utf-8")

    def as_bytes(self):
        """The bytes of the table."""
        return self.in_order(range(self.records))

    def with_columns(self, columns):
        """The table with more columns of cells, by their names."""
        if not columns:
            return self
        numeric = {name for name, column in columns.items() if all(_is_missing(it) or _is_numeric(it) for it in column)}
        return Table(self.cells | columns, self.records, self.numeric | numeric)

    def has(self, record, columns):
        """Whether no cell of the record is missing in these columns."""
        return not any(_is_missing(self.cells[name][record]) for name in columns)

    def texts(self, name):
        """The cells of a column that are no numbers, each with its record from 0; those that are missing are left out."""
        return [(record, cell) for record, cell in enumerate(self.cells[name]) if not _is_missing(cell) and not _is_numeric(cell)]

    def number(self, record, name):
        cell = self.cells[name][record].strip(_BLANKS)
        if not is_number_text(cell):
            raise ValueError(f"record {record + 1} has no number in {name}: {cell!r}")
        return Fraction(cell)

    def kept(self, fit, variables):
        """The records that were fitted, from 0."""
        weights = fit.model.told_weights
        used = [response_name(fit.model.told), *variables, *([weights] if weights else [])]
        kept = [record for record in range(self.records) if self.has(record, used)]
        if weights:
            kept = [record for record in kept if self.number(record, weights) != 0]
        if len(kept) != fit.records:
            raise ValueError(f"the table has {len(kept)} records for this fit, and the report {fit.records}")
        return kept

    def weights(self, fit):
        """The weight of each kept record."""
        weights = fit.model.told_weights
        return [self.number(record, weights) if weights else Fraction(1) for record in fit.meaning.kept]

    def response(self, fit):
        name = response_name(fit.model.told)
        return [self.number(record, name) for record in fit.meaning.kept]


def _is_missing(cell):
    return cell.strip(_BLANKS) in ("", "NA")


def _is_numeric(cell):
    return is_number_text(cell.strip(_BLANKS))


def response_name(formula):
    """The name of a formula's response, without backticks."""
    return name_of(TOKEN.search(formula))


def _variables(tokens, names):
    """What the tokens of a formula may name on its right side: the columns as they are, and those in `factor( )`."""
    plain, factors = set(), set()
    for at, token in enumerate(tokens[2:], 2):
        opens = at + 2 < len(tokens) and tokens[at + 1]["open"]
        if token["dot"]:
            plain |= set(names) - {name_of(tokens[0])}
        elif token["name"] == "factor" and opens:
            factors.add(name_of(tokens[at + 2]))
        elif name_of(token) is not None:
            plain.add(name_of(token))
    return plain, factors


def beside_the_design(formula):
    """The columns of a table that a formula takes beside those of its design: the response, and those of the offsets."""
    return {response_name(formula), *(name for it in Parts.of(formula).offsets for name in it.names)}


def used_columns(formula, names, weights=None):
    """The columns of a table that a formula and the weights name, `.` being all of them, in the order of the table."""
    parts = Parts.of(formula)
    plain, factors = _variables(parts.tokens, names)
    computed = {name for it in parts.computed for name in it.names}
    used = plain | factors | computed | beside_the_design(formula) | {weights}
    return [name for name in names if name in used]


def _value(arithmetic, table, record):
    return arithmetic.value(lambda name: table.number(record, name))


@dataclass(frozen=True)
class _Variable:
    """A column of the table as the formula takes it: its label in names, and whether it is a factor; or an arithmetic."""

    column: str
    label: str
    is_factor: bool
    is_number: bool
    arithmetic: Arithmetic = None

    @property
    def columns(self):
        """The columns of the table that it takes."""
        return self.arithmetic.names if self.arithmetic else (self.column,)

    def number(self, table, record):
        """Its number in a record, where it is no factor."""
        return _value(self.arithmetic, table, record) if self.arithmetic else table.number(record, self.column)

    def level(self, table, record):
        """The level of a record's cell: the cell as it stands, or the number that it is."""
        return table.number(record, self.column) if self.is_number else table.cells[self.column][record]


@dataclass(frozen=True)
class _Part:
    """One factor of an entry: a variable's number, whether it has a level, or column `index` of its coding."""

    variable: _Variable
    level: object = None
    index: int = 0

    def entry(self, table, record, levels, coding):
        if not self.variable.is_factor:
            return self.variable.number(table, record)
        level = self.variable.level(table, record)
        if level not in levels[self.variable.label]:
            raise ValueError(f"record {record + 1} has a level of {self.variable.column} that the fit lacks: {level!s}")
        if not self.index:
            return Fraction(level == self.level)
        known = levels[self.variable.label]
        return _coded(coding, self.index, known.index(level) + 1, len(known))


def _coded(coding, column, level, levels):
    """The entry of column `column` at level `level` of so many, both from 1, by sums or by Helmert's coding."""
    if coding == "sum":
        return Fraction((level == column) - (level == levels))
    return Fraction(-1 if level <= column else column if level == column + 1 else 0)


class Names:
    """What the names of a fit's columns mean over its table, both as the program is told them."""

    def __init__(self, fit):
        self.fit, self.table, self.decoded = fit, fit.table, fit.model.decoded
        self.formula = Parts.of(fit.model.told)
        self.candidates = self._candidates()
        self.parts = [self._of_name(name) for name in fit.told_names]
        used = [part.variable.columns for parts in self.parts for part in parts] + [it.names for it in self.formula.offsets]
        self.variables = list(dict.fromkeys(column for columns in used for column in columns))
        self.kept = self.table.kept(fit, self.variables)
        self.levels = self._levels()

    def _candidates(self):
        """Each variable that the formula may name, with the suffixes that its columns may have."""
        plain, factors = _variables(self.formula.tokens, self.table.cells)
        computed = [_Variable("", f"I({it.text})", False, True, it) for it in self.formula.computed]
        candidates = [self._candidate(variable) for variable in computed]
        for name in self.table.cells:
            is_number = name in self.table.numeric
            if name in factors:
                candidates.append(self._candidate(_Variable(name, f"factor({name})", True, is_number)))
            if name in plain:
                candidates.append(self._candidate(_Variable(name, name, not is_number, is_number)))
        return candidates

    def _candidate(self, variable):
        return variable, self._suffixes(variable) if variable.is_factor else {"": [None]}

    def _suffixes(self, variable):
        """The texts behind a factor's label, each with the level or the number of a column that it may stand for."""
        records = (record for record in range(self.table.records) if self.table.has(record, [variable.column]))
        levels = {variable.level(self.table, record) for record in records}
        suffixes = {str(level): [level] for level in levels}
        if self.fit.contrasts in ("sum", "helmert"):
            for column in range(1, len(levels)):
                suffixes.setdefault(str(column), []).append(_Column(column))
        return suffixes

    def _of_name(self, name):
        if name == "(Intercept)":
            return []
        knot = _KNOT.fullmatch(name)
        if knot:
            return [_Part(_Variable(knot["name"], name, True, True), Fraction(knot["knot"]))]
        found = self._products(name)
        if len(found) != 1:
            raise ValueError(f"the column {self.decoded(name)!r} can be read in {len(found)} ways over this table")
        return found[0]

    def _products(self, text):
        found = []
        for variable, suffixes in self.candidates:
            for suffix, levels in suffixes.items():
                start = variable.label + suffix
                if text != start and not text.startswith(start + ":"):
                    continue
                heads = [self._part(variable, level) for level in levels]
                tails = [[]] if text == start else self._products(text[len(start) + 1 :])
                found += [[head, *tail] for head in heads for tail in tails]
        return found

    @staticmethod
    def _part(variable, level):
        return _Part(variable, index=level.number) if isinstance(level, _Column) else _Part(variable, level)

    def _levels(self):
        """The levels of each factor among the kept records, in their order."""
        levels = {}
        for variable in {part.variable for parts in self.parts for part in parts if part.variable.is_factor}:
            levels[variable.label] = sorted({variable.level(self.table, record) for record in self.kept})
        return levels

    def columns_of(self, name):
        """The numbers of the columns of this name, or of the variable or product that it is: `f` has `fb` and `fc`, and `f:x` `fb:x`."""
        if name in self.fit.names:
            return [self.fit.names.index(name) + 1]
        wanted = sorted(name.split(":"))
        labels = [sorted(self.decoded(part.variable.label) for part in parts) for parts in self.parts]
        found = [number for number, label in enumerate(labels, 1) if label == wanted]
        if not found:
            raise ValueError(f"the design has no column and no variable {name!r}; its columns are {', '.join(self.fit.names)}")
        return found

    def row(self, table, record):
        row = []
        for parts in self.parts:
            entry = Fraction(1)
            for part in parts:
                try:
                    entry *= part.entry(table, record, self.levels, self.fit.contrasts)
                except ValueError as error:
                    raise ValueError(self.decoded(str(error))) from None
            row.append(entry)
        return row

    def offset(self, table, record):
        """What the offsets come to together in a record."""
        return sum((_value(it, table, record) for it in self.formula.offsets), Fraction(0))


@dataclass(frozen=True)
class _Column:
    """The number of a column of a coding."""

    number: int


def _records(fit, table):
    """The records of the fit's own table that were kept; of another one each, or None where a cell that is used is missing."""
    names = fit.meaning
    if table is fit.table:
        return names.kept
    absent = [name for name in names.variables if name not in table.cells]
    if absent:
        raise ValueError(f"the new data have no column {', '.join(map(names.decoded, absent))}")
    return [record if table.has(record, names.variables) else None for record in range(table.records)]


def offset_values(fit, table):
    """What the offsets come to together: in each kept record of the fit's own table, of another one a number or None for each."""
    return [None if record is None else fit.meaning.offset(table, record) for record in _records(fit, table)]


def design_rows(fit, table):
    """The rows of the fit's design: of its own table those of the kept records, of another one a row or None for each."""
    rows = [None if record is None else fit.meaning.row(table, record) for record in _records(fit, table)]
    if table is not fit.table:
        return rows
    response, offsets, segment = table.response(fit), offset_values(fit, table), fit.segments[0]
    for row in (it for it in segment.basis if it <= fit.data):
        if offsets[row - 1] + sum(x * b for x, b in zip(rows[row - 1], segment.coef)) != response[row - 1]:
            raise ValueError(f"record {row} of the basis is not fitted by the design that was read from the names")
    return rows
