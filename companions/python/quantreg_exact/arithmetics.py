"""The arithmetics of a formula, as those of `I(2*x - z)` and `offset(x)`: their texts, their names and their values.

A formula is read here once the program has taken it, so what is no formula isn't looked for.
"""

import re
from dataclasses import dataclass, field
from fractions import Fraction

# The tokens of a formula: names, with or without backticks, numbers, the dot of all columns, what opens, and any other sign.
TOKEN = re.compile(
    r"`(?P<quoted>[^`]*)`|(?P<name>(?:[A-Za-z]|\.[A-Za-z._])[A-Za-z0-9._]*)"
    r"|(?P<number>[0-9]+/[0-9]+|(?:[0-9]+\.?[0-9]*|\.[0-9]+)(?:[eE][+-]?[0-9]+)?)|(?P<dot>\.)|(?P<open>\()|[^\s]"
)


def name_of(token):
    """The name that a token is, without backticks, or None."""
    return token["name"] or token["quoted"]


@dataclass(frozen=True)
class Arithmetic:
    """An arithmetic by its text as the program prints it, its names where they first stand, and its tokens."""

    text: str
    names: tuple
    tokens: tuple = field(repr=False, compare=False)

    def value(self, number_of):
        """What it comes to, where `number_of` gives the number of a name."""
        return _Evaluation(self.tokens, number_of).arith()


class _Evaluation:
    """The value of tokens, one method for each line of the grammar. Each takes the tokens that it has read."""

    def __init__(self, tokens, number_of):
        self.waiting, self.number_of = list(reversed(tokens)), number_of

    def took(self, *marks):
        """The next token, which is taken, if it is one of these marks."""
        if self.waiting and self.waiting[-1][0] in marks:
            return self.waiting.pop()[0]
        return None

    def arith(self):
        value = -self.product() if self.took("+", "-") == "-" else self.product()
        while sign := self.took("+", "-"):
            right = self.product()
            value = value + right if sign == "+" else value - right
        return value

    def product(self):
        value = self.power()
        while self.took("*"):
            value *= self.power()
        return value

    def power(self):
        value = self.atom()
        return value ** int(self.waiting.pop()[0]) if self.took("^") else value

    def atom(self):
        if self.took("("):
            value = self.arith()
            self.took(")")
            return value
        token = self.waiting.pop()
        return Fraction(token["number"]) if token["number"] else self.number_of(name_of(token))


def _text(tokens):
    """One space on both sides of a `+`, `-` or `*` between two operands and no others, and numbers in lowest terms."""
    text, leads = "", True
    for token in tokens:
        mark = str(Fraction(token["number"])) if token["number"] else token[0]
        text += f" {mark} " if mark == "*" or (mark in ("+", "-") and not leads) else mark
        leads = mark == "("
    return text


def _arithmetic(tokens):
    return Arithmetic(_text(tokens), tuple(dict.fromkeys(name_of(it) for it in tokens if name_of(it) is not None)), tuple(tokens))


def _closing(tokens, opened):
    """Where the parenthesis that is opened at a place is closed."""
    depth = 0
    for at in range(opened, len(tokens)):
        depth += (tokens[at][0] == "(") - (tokens[at][0] == ")")
        if not depth:
            return at
    raise ValueError("a parenthesis of the formula is not closed")


@dataclass(frozen=True)
class Parts:
    """A formula as the tokens outside its arithmetics, the arithmetics of `I( )`, each text once, and the offsets."""

    tokens: tuple
    computed: tuple
    offsets: tuple

    @staticmethod
    def of(formula):
        tokens, outside, computed, offsets, at = list(TOKEN.finditer(formula)), [], {}, [], 0
        while at < len(tokens):
            word = tokens[at]["name"]
            if word not in ("I", "offset") or at + 1 == len(tokens) or not tokens[at + 1]["open"]:
                outside.append(tokens[at])
                at += 1
                continue
            end = _closing(tokens, at + 1)
            found = _arithmetic(tokens[at + 2 : end])
            if word == "I":
                computed.setdefault(found.text, found)
            else:
                offsets.append(found)
            at = end + 1
        return Parts(tuple(outside), tuple(computed.values()), tuple(offsets))
