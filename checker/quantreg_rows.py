"""Whether the rows of a certificate are those of a CSV table, by a plain formula. quantreg_check.py asks this where --table is given.

    quantreg_check.py --table TABLE.csv [--formula FORMULA] [--weights NAME] [FILE]

A plain formula has names of columns of numbers, `.`, 0 and 1 on its right side, with + and - between them. For any other, as with
factors, products, I( ), offset( ) or qss( ), the answer is that this can't tell. With no formula given, it looks for a plain one whose
columns are those of the certificate by their values, where no record is left out. The table is read as docs/MANUAL.md says.
"""

import argparse
import csv
import io
import re
from fractions import Fraction

SAME, DIFFERENT, UNKNOWN = 0, 1, 3  # the exit statuses of the three answers
LONGEST = 500  # digits of a cell that is looked at, and its power of ten
NUMBER = re.compile(r"[+-]?(?:\d+/(?P<under>\d+)|(?:\d+\.?\d*|\.\d+)(?:[eE](?P<power>[+-]?\d+))?)", re.ASCII)
NAME = re.compile(r"[A-Za-z][\w.]*|\.[A-Za-z._][\w.]*", re.ASCII)
TOKEN = re.compile(rf"`[^`]*`|{NAME.pattern}|[~+.-]|[01](?![\d.eE/])|\S", re.ASCII)


class Different(Exception):
    """The rows are not those of the table."""


class Unknown(Exception):
    """Whether the rows are those of the table isn't worked out here."""


class Column:
    """A column of the table: its cells, without blanks at their ends, None where one is missing."""

    def __init__(self, name, cells):
        self.name = name
        bare = [cell.strip(" \t") for cell in cells]
        self.cells = [None if cell in ("", "NA") else cell for cell in bare]
        self.text_at = next((at for at, cell in enumerate(self.cells) if cell is not None and not is_number(cell)), None)

    def number(self, at):
        """The number of a record, counted from 0; None where it is missing."""
        cell = self.cells[at]
        if self.text_at is not None:
            raise Unknown(f"the column {self.name} is a factor: record {self.text_at + 1} has {self.cells[self.text_at]!r}")
        if cell is not None and (len(cell) > LONGEST or abs(int(NUMBER.fullmatch(cell)["power"] or 0)) > LONGEST):
            raise Unknown(f"record {at + 1} has a number of more than {LONGEST} digits in {self.name}")
        return None if cell is None else Fraction(cell)

    def numbers(self):
        """All its numbers, or None where it is a factor or misses one."""
        return None if self.text_at is not None or None in self.cells else [self.number(at) for at in range(len(self.cells))]


def is_number(cell):
    found = NUMBER.fullmatch(cell)
    return bool(found) and (found["under"] is None or found["under"].strip("0") != "")


def read_table(data):
    """The columns of a table by their names, and its number of records. A first column without a name has the names of records."""
    try:
        lines = [row for row in csv.reader(io.StringIO(data.decode("utf-8-sig"), newline="")) if row]
    except UnicodeDecodeError as error:
        raise Different(f"the table is no UTF-8: {error}") from None
    except csv.Error as error:
        raise Unknown(f"the table can't be read here: {error}") from None
    if not lines:
        raise Different("the table has no header")
    header, *records = lines
    for at, record in enumerate(records, 1):
        if len(record) != len(header):
            raise Different(f"record {at} has {len(record)} fields, and the header {len(header)}")
    first = 1 if len(header) > 1 and header[0] == "" else 0
    columns = {name: Column(name, [record[at] for record in records]) for at, name in enumerate(header) if at >= first}
    if "" in columns or len(columns) != len(header) - first:
        raise Different("the table has a column without a name, or two of one name")
    return columns, len(records)


def column_of(columns, name):
    if name not in columns:
        raise Different(f"the table has no column {name}")
    return columns[name]


def items_of(tokens, formula):
    """The items of a plain formula's right side, each with its sign."""
    sign, wants_item = "+", True
    for at, token in enumerate(tokens):
        if token[0] in "+-":
            if wants_item and at > 0:
                raise Unknown(f"{formula!r} is no plain formula: {token[0]!r} at offset {token[1]}")
            sign, wants_item = token[0], True
            continue
        opens = at + 1 < len(tokens) and tokens[at + 1][0] == "("
        if not wants_item or opens or not re.fullmatch(rf"`.*`|[01.]|{NAME.pattern}", token[0], re.ASCII | re.DOTALL):
            only = "only names, `.`, 0 and 1 with + and - between them are read here"
            raise Unknown(f"{formula!r} is no plain formula: {token[0]!r} at offset {token[1]}, and {only}")
        yield sign, token[0]
        wants_item = False
    if wants_item:
        raise Unknown(f"{formula!r} is no plain formula: it ends where a name is to stand")


def plain_formula(formula, columns):
    """The response, whether there is an intercept, and the terms of a plain formula."""
    tokens = [(found[0], found.start()) for found in TOKEN.finditer(formula)]
    if len(tokens) < 3 or tokens[1][0] != "~" or not re.fullmatch(rf"`.*`|{NAME.pattern}", tokens[0][0], re.ASCII | re.DOTALL):
        raise Unknown(f"{formula!r} is no formula with one column as its response")
    response, intercept, terms = column_of(columns, tokens[0][0].strip("`")), True, []
    for sign, item in items_of(tokens[2:], formula):
        if item in "01":
            intercept = (item == "1") == (sign == "+")
            continue
        named = [it for it in columns.values() if it is not response] if item == "." else [column_of(columns, item.strip("`"))]
        terms = [it for it in terms if it not in named] if sign == "-" else terms + [it for it in named if it not in terms]
    return response, intercept, terms


def shown(number):
    """A number as text, unless it has more than 60 digits."""
    return str(number) if max(map(abs, number.as_integer_ratio())) < 10**60 else "(a number of more than 60 digits)"


def weight_of(row, at):
    """The weight of a record's row: what a unit of residual costs is weight * tau above the fit and weight * (1 - tau) below it."""
    weight = row["up1"]
    if (row["up0"], row["down0"], row["down1"]) != (0, weight, -weight):
        raise Unknown(f"row {at} has the costs of no record, as a smooth's penalty has")
    return weight


def told_apart(rows, expected):
    """Tells the first difference of the certificate's rows to those that are expected: a record's number, and pairs of a name and a value."""
    if len(rows) != len(expected):
        raise Different(f"the certificate has {len(rows)} rows, and the table keeps {len(expected)} records")
    for at, (row, (record, wanted)) in enumerate(zip(rows, expected), 1):
        found = [row["y"], weight_of(row, at), *row["x"]]
        if len(found) != len(wanted):
            raise Different(f"the certificate has {len(row['x'])} columns, and the formula {len(wanted) - 2}")
        for value, (name, number) in zip(found, wanted):
            if value != number:
                both = f"{shown(value)} in the certificate, and {shown(number)} in the table"
                raise Different(f"row {at}, record {record} of the table: {name} is {both}")


def compared(rows, columns, records, formula, weights):
    """What is the same: the formula with the number of records."""
    response, intercept, terms = plain_formula(formula, columns)
    weight = column_of(columns, weights) if weights is not None else None
    expected = []
    for at in range(records):
        used = [(it.name, it.number(at)) for it in (response, *terms)]
        share = weight.number(at) if weight else Fraction(1)
        if share is not None and share != 0 and None not in dict(used).values():
            ones = [("(Intercept)", Fraction(1))] if intercept else []
            expected.append((at + 1, [used[0], ("the weight", share), *ones, *used[1:]]))
    told_apart(rows, expected)
    return f"by {formula}, {len(expected)} of {records} records"


def named_by_values(found, what, numbers):
    """The name of the column of the table that has these values."""
    name = next((name for name, values in numbers.items() if values == found), None)
    if name is not None:
        return name
    alike = {name: sum(map(Fraction.__eq__, values, found)) for name, values in numbers.items()}
    nearest = max(alike, key=alike.get, default=None)
    if nearest is None or 2 * alike[nearest] <= len(found):
        raise Unknown(f"{what} is no column of the table: name the formula by --formula")
    at, (value, number) = next((at, pair) for at, pair in enumerate(zip(found, numbers[nearest]), 1) if pair[0] != pair[1])
    wrong, both = len(found) - alike[nearest], f"{shown(value)} in the certificate, and {shown(number)} in the table"
    raise Different(f"{what} is {nearest} but for {wrong} of {len(found)} records: record {at} is {both}")


def found_formula(rows, columns, records):
    """A plain formula, and the column of the weights, whose values are those of the certificate."""
    weights = [weight_of(row, at) for at, row in enumerate(rows, 1)]
    if len(rows) > records:
        raise Different(f"the certificate has {len(rows)} rows, and the table {records} records")
    if len(rows) < records:
        left_out = "which records are left out depends on the formula: name it by --formula"
        raise Unknown(f"the certificate has {len(rows)} rows, and the table {records} records; {left_out}")
    numbers = {name: values for name, it in columns.items() if (values := it.numbers()) is not None}
    response = named_by_values([row["y"] for row in rows], "the response", numbers)
    entries = [list(column) for column in zip(*(row["x"] for row in rows))]
    ones = [Fraction(1)] * len(rows)
    intercept = bool(entries) and entries[0] == ones
    others = {name: values for name, values in numbers.items() if name != response}
    terms = [named_by_values(it, f"column {k}", others) for k, it in enumerate(entries, 1) if k > intercept]
    weight = None if weights == ones else named_by_values(weights, "the weight", numbers)
    quoted = [it if NAME.fullmatch(it) else f"`{it}`" for it in (response, *terms)]
    return f"{quoted[0]} ~ {' + '.join(['1' if intercept else '0', *quoted[1:]])}", weight


def asked(words):
    """What the words ask of a certificate, as a function to an answer, and the words that name its file."""
    parser = argparse.ArgumentParser(allow_abbrev=False, description=__doc__, formatter_class=argparse.RawDescriptionHelpFormatter)
    parser.add_argument("--table", required=True, metavar="TABLE.csv", help="the table that was fitted")
    parser.add_argument("--formula", help="the formula of the fit")
    parser.add_argument("--weights", metavar="NAME", help="the column of the weights; it goes with --formula")
    parser.add_argument("file", nargs="?", metavar="FILE", help="the certificate; without one it is read from standard input")
    given = parser.parse_args(words)
    if given.weights is not None and given.formula is None:
        parser.error("--weights goes with --formula")
    return (lambda cert: answer(cert, given.table, given.formula, given.weights)), [given.file] if given.file else []


def answer(cert, path, formula=None, weights=None):
    """The exit status of the answer, and its line."""
    try:
        with open(path, "rb") as file:
            columns, records = read_table(file.read())
        if formula is None:
            formula, weights = found_formula(cert["rows"], columns, records)
        same = compared(cert["rows"], columns, records, formula, weights)
    except OSError as error:
        return UNKNOWN, f"cannot tell whether the rows are those of {path}: {error.strerror}"
    except Different as told:
        return DIFFERENT, f"not the rows of {path}: {told}"
    except Unknown as told:
        return UNKNOWN, f"cannot tell whether the rows are those of {path}: {told}"
    weighted = "" if weights is None else f", weighted by {weights}"
    return SAME, f"the rows are those of {path} {same}{weighted}"
