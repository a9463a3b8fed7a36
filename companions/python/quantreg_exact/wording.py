"""A formula as it is written, and as the program is told it.

The program knows names of ASCII letters, and has no functions. Here a name of other letters, with blanks or a digit in front stands
without backticks where it is a column's, `Q("name")` is a name, `**` is `^`, and each call or arithmetic that the program lacks is found, to be
worked out as a column.
"""

import ast
import re
from collections.abc import Callable
from dataclasses import dataclass

from .numbers import is_number_text

PLAIN = re.compile(r"(?:[A-Za-z]|\.[A-Za-z._])[A-Za-z0-9._]*")
_TOKEN = re.compile(
    r"`(?P<quoted>[^`]*)`|(?P<name>(?:[^\W\d_]|\.[A-Za-z._])[\w.]*)"
    r"|(?P<number>[0-9]+/[0-9]+|(?:[0-9]+\.?[0-9]*|\.[0-9]+)(?:[eE][+-]?[0-9]+)?)"
    r"|(?P<text>\"(?:[^\"\\]|\\.)*\"|'(?:[^'\\]|\\.)*')|(?P<power>\*\*)|(?P<sign>\S)"
)
# A name that may stand without backticks although the program wouldn't read it so: of letters, digits, blanks, dots and low lines.
_BARE = re.compile(r"\w(?:[\w. ]*[\w.])?")


@dataclass(frozen=True)
class Token:
    """A token of a formula, by its place: a `name`, a `number`, a `text`, or another `sign`."""

    kind: str
    text: str
    start: int
    end: int
    name: str | None = None

    def __eq__(self, other):
        return self.text == other if isinstance(other, str) else self is other


def is_plain(name: str) -> bool:
    """Whether the program reads a name without backticks."""
    return bool(PLAIN.fullmatch(name))


def tokens_of(formula: str, names) -> list[Token]:
    """The tokens of a formula over a table with these columns. The longest name of a column that can stand at a place does."""
    odd = [name for name in names if not is_plain(name) and _BARE.fullmatch(name) and not is_number_text(name)]
    odd.sort(key=len, reverse=True)
    found, at = [], 0
    while at < len(formula):
        if formula[at].isspace():
            at += 1
            continue
        name = next((it for it in odd if formula.startswith(it, at) and not re.match(r"[\w.]", formula[at + len(it) :])), None)
        if name is not None:
            found.append(Token("name", name, at, at + len(name), name))
        else:
            match = _TOKEN.match(formula, at)
            kind = match.lastgroup
            named = match["name"] if kind == "name" else match["quoted"]
            found.append(Token("name" if named is not None else kind, match[0], at, match.end(), named))
        at = found[-1].end
    return found


def text_of(token: Token) -> str:
    """What a text between quotes is."""
    try:
        return ast.literal_eval(token.text)
    except (SyntaxError, ValueError):
        return token.text[1:-1]


def closing(tokens: list[Token], opened: int) -> int | None:
    """Where the parenthesis that is opened at a place is closed, or None."""
    depth = 0
    for at in range(opened, len(tokens)):
        depth += (tokens[at].text in "([{") - (tokens[at].text in ")]}")
        if not depth:
            return at
    return None


@dataclass(frozen=True)
class Piece:
    """A part of a formula from one place to another, and the text that the program is told in its place."""

    start: int
    end: int
    told: str


class Wording:
    """A formula with pieces of it told otherwise."""

    def __init__(self, formula: str, pieces: list[Piece]):
        self.pieces, self._places, told, at = pieces, [(0, 0)], "", 0
        for piece in pieces:
            told += formula[at : piece.start]
            self._places.append((len(told.encode()), len(formula[: piece.start].encode())))
            told += piece.told
            self._places.append((len(told.encode()), len(formula[: piece.end].encode())))
            at = piece.end
        self.told = told + formula[at:]

    def offset(self, told: int) -> int:
        """The byte of the formula as it is written for a byte of what is told; within a piece that is told otherwise its first."""
        number, (start, place) = max((it for it in enumerate(self._places) if it[1][0] <= told), key=lambda it: it[0])
        return place if number % 2 else place + told - start


def pieces_of(formula: str, names, quoted: Callable, worked_out: Callable, dot: str | None = None) -> list[Piece]:
    """What a formula is told otherwise. `quoted` gives a column's name as the program is told it, and `worked_out` what stands in place
    of an expression that the program lacks, or None where it stays, for the program to refuse. `dot` stands in place of `.`.
    """
    tokens, pieces, at = tokens_of(formula, names), [], 0
    while at < len(tokens):
        token = tokens[at]
        end = closing(tokens, at + 1) if token.kind == "name" and at + 1 < len(tokens) and tokens[at + 1] == "(" else None
        if end is not None and token.text in ("I", "offset"):
            inner = tokens[at + 2 : end]
            if not is_arithmetic(inner):
                # offset( ) stays around the column of what it has.
                first, last = (at, end) if token.text == "I" else (at + 2, end - 1)
                told = worked_out(_python(formula, tokens[first : last + 1], names), formula[tokens[first].start : tokens[last].end])
                if told is not None:
                    pieces.append(Piece(tokens[first].start, tokens[last].end, told))
                    at = end + 1
                    continue
            at += 2
            continue
        if end is not None and token.text == "Q" and end == at + 3 and tokens[at + 2].kind == "text":
            pieces.append(Piece(token.start, tokens[end].end, quoted(text_of(tokens[at + 2]), True)))
            at = end + 1
            continue
        if end is not None and token.text not in ("factor", "qss"):
            told = worked_out(_python(formula, tokens[at : end + 1], names), formula[token.start : tokens[end].end])
            if told is not None:
                pieces.append(Piece(token.start, tokens[end].end, told))
                at = end + 1
                continue
        if token.name is not None and end is None:
            told = quoted(token.name, token.text.startswith("`"))
            if told != token.text:
                pieces.append(Piece(token.start, token.end, told))
        elif token.kind == "power":
            pieces.append(Piece(token.start, token.end, "^"))
        elif token == "." and dot is not None:
            pieces.append(Piece(token.start, token.end, dot))
        at += 1
    return pieces


def is_arithmetic(tokens: list[Token]) -> bool:
    """Whether the program works out an expression as Python does: names, numbers, `+ - *`, and powers of 1 to 8.

    A ratio such as 1/2 is a number there, so that one with a power behind it, or behind a power, is another thing.
    """
    for before, token, after in zip([None, *tokens], tokens, [*tokens[1:], None]):
        if token.text in ("^", "**"):
            if after is None or not after.text.isdecimal() or not 1 <= int(after.text) <= 8:
                return False
            if before is not None and before.kind == "number" and "/" in before.text:
                return False
        elif token.kind == "name":
            if after is not None and after == "(":
                return False
        elif token.kind == "number":
            if "/" in token.text and before is not None and before.text in ("^", "**"):
                return False
        elif token.text not in ("+", "-", "*", "(", ")"):
            return False
        elif token.text in ("+", "-") and before is not None and before.text in ("+", "-", "*"):
            return False
    # A power of a power is Python's from the right, and a division of a quotient by another number none of the program's.
    return not any(one.text in ("^", "**") and other.text in ("^", "**") for one, other in zip(tokens[:-2], tokens[2:]))


def _python(formula, tokens, names) -> str:
    """An expression as Python reads it: `^` is a power, and a column's name that is none of Python's stands in `Q( )`."""
    text, last = "", tokens[0].start
    for at, token in enumerate(tokens):
        text += formula[last : token.start]
        calls = at + 1 < len(tokens) and tokens[at + 1] == "("
        if token.text == "^":
            text += "**"
        elif token.name is not None and not calls and (token.name in names and not token.name.isidentifier() or token.text.startswith("`")):
            text += f"Q({token.name!r})"
        else:
            text += token.text
        last = token.end
    return text


def label_of(text: str) -> str:
    """An expression as it names its column: as it is written, with blanks and line ends as one blank."""
    return " ".join(text.split())

