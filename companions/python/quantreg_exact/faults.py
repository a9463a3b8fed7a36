"""What can go wrong: the program's fault lines as exceptions, and texts that are no reports."""

import re
from dataclasses import dataclass
from fractions import Fraction

from .numbers import read_number
from .sentences import SENTENCES

_LINE = re.compile(r"quantreg: (?P<group>\w+): (?P<name>\w+)(?P<fields>(?: .*)?)", re.DOTALL)
_FIELD = re.compile(r" (?P<key>\w+)=")
_ESCAPED = re.compile(r"\\x([0-9a-f]{2})")
_COUNTS = {"record", "offset", "found", "wanted", "limit", "length", "term", "condition", "index", "inner", "part"}
_FRACTIONS = {"left", "right"}
# A name may have blanks, and is the last field of each line that has one.
_NAMES = {"column", "factor", "name", "path", "option"}
# The faults whose column is counted and has no name.
_COUNTED_COLUMNS = {"DoubleName", "EmptyName", "NoSuchColumn"}


class QuantregWarning(UserWarning):
    """A result that isn't unique, that depends on the order of the records, or that may rest on a cell that was meant otherwise."""


def unescaped(name: str) -> str:
    """A name as it was before printing, which writes a control byte or a backslash as `\\x` and two digits."""
    return _ESCAPED.sub(lambda found: chr(int(found.group(1), 16)), name)


class ReportError(ValueError):
    """A text that is no report of quantreg, with the number of its line from 1."""

    def __init__(self, line, message):
        super().__init__(f"line {line}: {message}")
        self.line = line


class QuantregError(RuntimeError):
    """A run of quantreg that ended without a report.

    `status` is the exit status, `line` the fault line, and `group`, `name` and `fields` what it says; they are None, None
    and empty where the run left no such line. `advice` says it by the words and names that were given, where it can, and else in the
    manual's sentences of the line.
    """

    def __init__(self, status: int, text: str, advice: str | None = None):
        self.status = status
        self.line = text.strip("\n")
        fault = read_fault(self.line)
        self.group = fault.group if fault else None
        self.name = fault.name if fault else None
        self.fields = fault.fields if fault else {}
        self.advice = advice or SENTENCES.get((self.group, self.name))
        told = f"status {status}: {self.line or 'no line on standard error'}"
        super().__init__(f"{told}\n{self.advice}" if self.advice else told)

    def __reduce__(self):
        return type(self), (self.status, self.line, self.advice)

    @property
    def is_overflow(self) -> bool:
        """Whether a number outgrew the program's own."""
        return self.status == 7


@dataclass(frozen=True)
class Fault:
    """What a fault line says: its group, its name, and its fields as numbers, fractions and texts."""

    group: str
    name: str
    fields: dict


def _value(fault, key, text):
    if key in _COUNTS or (key == "column" and fault in _COUNTED_COLUMNS):
        return int(text)
    if key in _FRACTIONS:
        return read_number(text)
    if key == "at":
        return tuple(int(part) for part in text.split(","))
    if key == "combination":
        return tuple(Fraction(part) for part in text.split(","))
    return unescaped(text)


def read_fault(line: str) -> Fault | None:
    """The fault of a line as quantreg writes it to standard error, or None where it is no such line."""
    parts = _LINE.fullmatch(line.rstrip("\n"))
    if not parts:
        return None
    name, rest, fields = parts["name"], parts["fields"], {}
    while rest:
        key = _FIELD.match(rest)
        if not key:
            return None
        rest = rest[key.end() :]
        text = rest if key["key"] in _NAMES else rest.partition(" ")[0]
        rest = rest[len(text) :]
        try:
            fields[key["key"]] = _value(name, key["key"], text)
        except ValueError:
            return None
    return Fault(parts["group"], name, fields)
