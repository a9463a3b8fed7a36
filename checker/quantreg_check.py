#!/usr/bin/env python3
"""Checks a certificate of quantreg by itself, in plain Python with fractions of any size.

    quantreg_check.py [FILE]          the certificate of a file, or of standard input; in packages the command is quantreg-check
    quantreg_check.py --table TABLE.csv [--formula FORMULA] [--weights NAME] [FILE]
                                      and whether its rows are those of that table, by quantreg_rows.py beside this file: by the
                                      formula of the fit and the column of its weights, or by a formula that has the same values
    quantreg_check.py --help          these lines

It needs no solver: nine conditions on the coefficients and dual values of a certificate show that the coefficients have the least loss
at every quantile of its range, and that its rank intervals are right (Koenker 2005, chapters 3 and 6). They are tested in their order,
each by index and then by inner number, and the first that is false is told with both sides. Rows, columns and segments are counted
from 1. The status is 0 where the certificate is accepted, 1 where it isn't, or is none, or has not the rows of the table, 2 where the
words are wrong, and 3 where it is accepted and nothing tells whether its rows are those of the table. Sums over all rows are sums of
whole numbers over a common denominator, for speed.
"""

import json
import sys
from fractions import Fraction
from math import lcm

CONDITIONS = {
    1: "each list has the length that it should",
    2: "the range doesn't fall, and no cost is negative at its ends",
    3: "the segments cover the range without a gap",
    4: "at the low end of each segment the dual values lie within the costs",
    5: "at the high end of each segment the dual values lie within the costs",
    6: "at both ends of each segment the sum of dual value times entry is 0 in each column",
    7: "at both ends of each segment the loss is that of the coefficients, and what the dual values come to",
    8: "where two segments meet each row has one dual value",
    9: "each rank interval has the values that its statistic allows, and no others",
}

# What a certificate looks like: the kind of each value by its key; a list has the kind of its items, and that of the first and of the
# later ones where these differ. A number of an answer may be longer than one of the problem.
END = {"coef": ["answer"], "inside": ["answer"], "kind": "end", "sides": "signs"}
FINITE, INFINITE = {**END, "outside": ["answer"], "value": "answer"}, {**END, "ray": ["answer"]}
ROW = {"down0": "number", "down1": "number", "up0": "number", "up1": "number", "x": ["number"], "y": "number"}
SEGMENT = dict.fromkeys(("basic_hi", "basic_lo", "coef"), ["answer"]) | dict.fromkeys(("hi", "lo", "loss_hi", "loss_lo"), "answer")
SEGMENT |= {"sides": "signs"}
LATER = {"basic_hi": ["answer"], "coef": ["answer"], "hi": "answer", "loss_hi": "answer", "moves": ["a move"]}
MOVE = {"row": "count", "side": "a side"}
INTERVAL = {"column": "count", "crit": "answer", "high": "an end", "low": "an end", "projection": ["answer"], "tau": "answer"}
CERTIFICATE = {"columns": "count", "hi": "number", "intervals": [INTERVAL], "kind": "certificate", "lo": "number"}
CERTIFICATE |= {"rows": [ROW], "segments": [SEGMENT], "version": "version"}
PLAIN = {
    "count": lambda value: type(value) is int and 0 <= value < 2**32,
    "signs": lambda value: isinstance(value, str) and not value.strip("+-*"),
    "end": lambda value: value in ("finite", "infinite"),
    "certificate": lambda value: value == "quantreg-certificate",
    "a side": lambda value: value in ("+", "-", "*"),
    "version": lambda value: type(value) is int and value in (1, 2, 3),
}
MOST_DIGITS = 4300  # of a number; Python itself neither reads nor writes longer ones
LONGEST = 65_536  # digits of a number of an answer in version 3
SIGNS = {"=": {0}, "<": {-1}, "<=": {-1, 0}, ">": {1}, ">=": {1, 0}}  # of left minus right


def fraction(text):
    """The fraction of a number text, or None; Fraction takes blanks and underscores too."""
    try:
        return Fraction(text) if isinstance(text, str) and not set(text) - set("0123456789+-./eE") else None
    except (ValueError, ZeroDivisionError):
        return None


def whole_of(digits):
    """The whole number of a text, by halves where Python doesn't read that many digits at once."""
    last = len(digits) // 2
    return int(digits) if len(digits) <= MOST_DIGITS else whole_of(digits[:-last]) * 10**last + whole_of(digits[-last:])


def long_fraction(text):
    """The fraction of digits, or of two of them with a stroke between, of any size, or None."""
    parts = text.removeprefix("-" if text[:1] == "-" else "+").split("/") if isinstance(text, str) else []
    if len(parts) not in (1, 2) or not all(it.isascii() and it.isdecimal() and len(it) <= LONGEST for it in parts):
        return None
    above, below = map(whole_of, (*parts, "1")[:2])
    return Fraction(-above if text[0] == "-" else above, below) if below else None


def once(pairs):
    """An object of JSON, which may have each key once: of two the last would count, and a reader may see the first."""
    found = {}
    for key, value in pairs:
        if key in found:
            raise ValueError(f"an object has the key {key!r} twice")
        found[key] = value
    return found


def is_long(text):
    return len(text) > MOST_DIGITS or len(text.lower().partition("e")[2].lstrip("+-0")) > 4


def read(value, kind, path="", answer="number"):
    """A value of JSON as a certificate has it, with its numbers as fractions; those of an answer are of the kind that is given."""
    kind = answer if kind == "answer" else kind
    if isinstance(kind, list) and isinstance(value, list):
        return [read(item, kind[at > 0 and len(kind) > 1], f"{path}/{at}", answer) for at, item in enumerate(value)]
    if kind == "an end" and isinstance(value, dict):
        kind = FINITE if value.get("kind") == "finite" else INFINITE
    if kind == "a move" and isinstance(value, dict):
        kind = MOVE | {"value": "answer"} if value.get("side") == "*" else MOVE
    if isinstance(kind, dict) and isinstance(value, dict):
        for key in sorted(kind.keys() ^ value.keys()):
            raise ValueError(f"{path}/{key} is {'missing' if key in kind else 'unknown'}")
        return {key: read(value[key], kind[key], f"{path}/{key}", answer) for key in sorted(kind)}
    if kind == "number" and isinstance(value, str) and is_long(value):
        raise ValueError(f"{path} is a number of more than {MOST_DIGITS} digits, or with a power of ten of more than 4")
    if kind in ("number", "long number") and (number := (fraction if kind == "number" else long_fraction)(value)) is not None:
        return number
    if isinstance(kind, str) and kind in PLAIN and PLAIN[kind](value):
        return value
    raise ValueError(f"{path or '/'} is no {kind if isinstance(kind, str) else 'list or object as it should be'}")


def moved(before, later, sides):
    """A later segment of a chain in full: it begins as the one before it ends, but for the rows that move, as the sides then do."""
    values, least = dict(zip(stars(sides), before["basic_hi"])), 0
    for move in later["moves"]:
        row, side = move["row"], move["side"]
        if not least <= row < len(sides) or side == sides[row]:
            return None
        sides[row], values[row], least = side, move.get("value"), row + 1
    low = {"lo": before["hi"], "loss_lo": before["loss_hi"], "basic_lo": [values[row] for row in stars(sides)]}
    found = {**later, **low, "sides": "".join(sides)}
    return {key: found[key] for key in SEGMENT}


def in_full(chain, rows):
    """The segments of a chain, each in full."""
    full, sides = [], list(chain[0]["sides"]) if chain else []
    for at, it in enumerate(chain):
        it = moved(full[-1], it, sides) if at else it
        if not it or len(it["sides"]) != rows or not it["sides"].count("*") == len(it["basic_lo"]) == len(it["basic_hi"]):
            raise ValueError(f"/segments/{at}/{'moves' if at else 'sides'} is not what goes with the rest")
        full.append(it)
    return full


def is_linked(segments):
    """Whether the second segment says what changes."""
    return isinstance(segments, list) and len(segments) > 1 and isinstance(segments[1], dict) and "moves" in segments[1]


def certificate(value):
    """The certificate of a value of JSON, of version 1, 2 or 3, with each segment in full."""
    version = value.get("version") if isinstance(value, dict) else None
    version = version if type(version) is int else None
    if version not in (None, 1, 2, 3):
        raise ValueError(f"/version is {version}, and this reads versions 1, 2 and 3 alone")
    is_chain = version == 2 or version == 3 and is_linked(value.get("segments"))
    kind = CERTIFICATE | {"segments": [SEGMENT, LATER]} if is_chain else CERTIFICATE
    cert = read(value, kind, answer="long number" if version == 3 else "number")
    return cert | {"segments": in_full(cert["segments"], len(cert["rows"]))} if is_chain else cert


def shown(side):
    """A side of a test as text, or how long it is where that has more digits than Python writes unasked."""
    longest = max(map(abs, Fraction(side).as_integer_ratio()))
    return str(side) if longest < 10**MOST_DIGITS else f"(a number of {longest.bit_length()} bits)"


def stars(sides):
    """The numbers of the basic rows, from 0."""
    return [i for i, side in enumerate(sides) if side == "*"]


def costs(row, theta):
    """What a unit of residual costs above the fit and below it."""
    return row["up0"] + row["up1"] * theta, row["down0"] + row["down1"] * theta


def dual_value(row, side, basic, theta):
    """A row's dual value: the upper cost, minus the lower cost, or of a basic row the next one that is given."""
    up, down = costs(row, theta)
    return next(basic) if side == "*" else up if side == "+" else -down


def product(left, right):
    return sum([a * b for a, b in zip(left, right)])


def whole(numbers):
    """The numbers times their least common denominator, and that."""
    common = lcm(*(it.denominator for it in numbers))
    return [it.numerator * (common // it.denominator) for it in numbers], common


class Table:
    """The rows in whole numbers: entries and responses times self.unit, costs times self.price. A cost is a constant and a slope, so what
    the rows that aren't basic come to in a column is made once for both ends of a segment."""

    def __init__(self, rows, columns):
        entries, self.unit = whole([entry for row in rows for entry in (*row["x"], row["y"])])
        *self.columns, self.response = (entries[k :: columns + 1] for k in range(columns + 1))
        prices, self.price = whole([row[key] for row in rows for key in ("up0", "up1", "down0", "down1")])
        fours = zip(prices[::4], prices[1::4], prices[2::4], prices[3::4])
        self.duals = [{"+": (up0, up1), "-": (-down0, -down1), "*": (0, 0)} for up0, up1, down0, down1 in fours]

    def parts(self, sides):
        """The constants and the slopes of the dual values of rows on these sides, with 0 for a basic row."""
        return [[dual[side][part] for side, dual in zip(sides, self.duals)] for part in (0, 1)]

    def left(self, column, coef):
        """What coefficients leave of a column in each row, and what all of that is to be divided by."""
        coef, common = whole(coef)
        left = [common * it for it in column]
        for factor, entries in zip(coef, self.columns):
            left = [it - factor * entry for it, entry in zip(left, entries)]
        return left, common * self.unit

    def sums(self, sides, *ends):
        """For each end, of basic dual values and a quantile, the sums of dual value times entry by column, and times response."""
        basic, parts = stars(sides), self.parts(sides)
        columns = [[column[i] for i in basic] + [product(part, column) for part in parts] for column in (*self.columns, self.response)]
        for values, theta in ends:
            values, common = whole([*values, Fraction(1, self.price), theta / self.price])
            yield [Fraction(product(values, column), common * self.unit) for column in columns]

    def losses(self, coef, *thetas):
        left, common = self.left(self.response, coef)
        constant, slope = (product(part, left) for part in self.parts(["+" if it >= 0 else "-" for it in left]))
        return [(constant + slope * theta) / (common * self.price) for theta in thetas]


# The conditions as tests: condition, index and inner number, then a side, how it should stand to the other, and that one.
def vertex_form(found, rows, columns, lists):
    """The lengths of a segment's or an end's lists: coefficients, sides, stars, and the others."""
    yield from ((len(found["coef"]), "=", columns), (len(found["sides"]), "=", rows), (found["sides"].count("*"), "=", columns))
    yield from ((len(found[name]), "=", columns) for name in lists)


def form(cert):
    rows, columns = len(cert["rows"]), cert["columns"]
    for i, row in enumerate(cert["rows"], 1):
        yield 1, i, 0, len(row["x"]), "=", columns
    for j, it in enumerate(cert["segments"], 1):
        tests = vertex_form(it, rows, columns, ["basic_lo", "basic_hi"])
        yield from ((1, j, inner, *test) for inner, test in enumerate(tests, 1))
    for j, interval in enumerate(cert["intervals"], 1):
        yield 1, j, 6, interval["column"], "<", columns
        yield 1, j, 7, len(interval["projection"]), "=", columns
        for inner, end in ((8, interval["low"]), (9, interval["high"])):
            others = ["inside", "ray" if "ray" in end else "outside"]
            yield from ((1, j, inner, *test) for test in vertex_form(end, rows, columns, others))


def range_and_cover(cert):
    """Conditions 2 and 3."""
    yield 2, 0, 0, cert["lo"], "<=", cert["hi"]
    for i, row in enumerate(cert["rows"], 1):
        for inner, cost in enumerate([*costs(row, cert["lo"]), *costs(row, cert["hi"])], 1):
            yield 2, i, inner, cost, ">=", 0
    segments = cert["segments"]
    yield 3, 0, 0, len(segments), ">=", 1
    yield 3, 1, 1, segments[0]["lo"], "=", cert["lo"]
    for j, segment in enumerate(segments, 1):
        yield 3, j, 2, segment["lo"], "<=" if len(segments) == 1 else "<", segment["hi"]
        after = (3, segments[j]["lo"]) if j < len(segments) else (4, cert["hi"])
        yield 3, j, after[0], segment["hi"], "=", after[1]


def within(rows, sides, values, theta):
    """Whether basic dual values are within the costs, with the number of each row."""
    for i, value in zip(stars(sides), values):
        up, down = costs(rows[i], theta)
        yield i + 1, value, "<=", up
        yield i + 1, value, ">=", -down


def optimal(cert):
    """Conditions 4 to 8."""
    rows, columns, segments, sevenths = cert["rows"], cert["columns"], list(enumerate(cert["segments"], 1)), []
    for condition, end in ((4, "lo"), (5, "hi")):
        for j, it in segments:
            yield from ((condition, j, *test) for test in within(rows, it["sides"], it["basic_" + end], it[end]))
    table = Table(rows, columns)
    for j, it in segments:
        sums = table.sums(it["sides"], (it["basic_lo"], it["lo"]), (it["basic_hi"], it["hi"]))
        losses = table.losses(it["coef"], it["lo"], it["hi"])
        for at, ((*totals, worth), loss, stated) in enumerate(zip(sums, losses, (it["loss_lo"], it["loss_hi"]))):
            yield from ((6, j, inner, total, "=", 0) for inner, total in enumerate(totals, at * columns + 1))
            sevenths += [(7, j, 2 * at + 1, stated, "=", loss), (7, j, 2 * at + 2, stated, "=", worth)]
    yield from sevenths
    for (j, left), (_, right) in zip(segments, segments[1:]):
        lefts, rights, theta = iter(left["basic_hi"]), iter(right["basic_lo"]), left["hi"]
        for i, (row, before, after) in enumerate(zip(rows, left["sides"], right["sides"]), 1):
            if before != after or before == "*":  # else both are the same cost, at the same quantile
                yield 8, j, i, dual_value(row, before, lefts, theta), "=", dual_value(row, after, rights, theta)


def one_end(cert, table, interval, end, first, sign, bound):
    """What must hold of an end: the low one with the numbers from 10 and the sign 1, the high one from 20 and -1."""
    rows, tested, tau, sides = cert["rows"], interval["column"], interval["tau"], end["sides"]
    left, common = table.left(table.response, end["coef"])
    left = [Fraction(it, common) for it in left]
    yield from ((first, r, "=", 0) for r, side in zip(left, sides) if side == "*")
    yield from ((first + 1, r, ">=" if side == "+" else "<=", 0) for r, side in zip(left, sides) if side != "*")

    def statistic(values, bounds, balance):
        """The sum in the tested column, once the values are within the bounds, and the sums in the others are 0."""
        yield from ((bounds, *test[1:]) for test in within(rows, sides, values, tau))
        *sums, _ = next(table.sums(sides, (values, tau)))
        yield from ((balance, total, "=", 0) for k, total in enumerate(sums) if k != tested)
        return sums[tested]

    inside = yield from statistic(end["inside"], first + 2, first + 3)
    yield first + 4, inside**2, "<=", bound
    if end["kind"] == "finite":
        yield first + 5, end["value"], "=", end["coef"][tested]
        outside = yield from statistic(end["outside"], first + 6, first + 6)
        yield first + 7, outside, ">" if sign > 0 else "<", 0
        yield first + 7, outside**2, ">", bound
    else:
        yield first + 6, end["ray"][tested], "=", -sign
        values, (against, _) = iter(end["inside"]), table.left([0] * len(rows), end["ray"])
        for row, side, step in zip(rows, sides, against):
            value, (up, down) = dual_value(row, side, values, tau), costs(row, tau)
            if step != 0:
                yield first + 7, value, "=", up if step > 0 else -down


def one_interval(cert, table, interval):
    rows, tested, tau, projection = cert["rows"], interval["column"], interval["tau"], interval["projection"]
    for row in rows:
        yield from ((1, row["up0"], "=", 0), (1, row["up1"], ">", 0))
        yield from ((1, row["down0"], "=", row["up1"]), (1, row["down1"], "=", -row["up1"]))
    yield from ((2, Fraction(0), "<", tau), (2, tau, "<", 1), (2, interval["crit"], ">=", 0))
    yield 3, projection[tested], "=", 0
    left, common = table.left(table.columns[tested], projection)
    weights, common = [dual["+"][1] for dual in table.duals], common * table.price
    z = [weight * it for weight, it in zip(weights, left)]
    for column in table.columns[:tested] + table.columns[tested + 1 :]:
        total = product(z, [weight * entry for weight, entry in zip(weights, column)])
        yield 4, Fraction(total, common * table.price * table.unit), "=", 0
    squares = Fraction(product(z, z), common**2)
    yield 5, squares, ">", 0
    bound = interval["crit"] * tau * (1 - tau) * squares
    yield from one_end(cert, table, interval, interval["low"], 10, 1, bound)
    yield from one_end(cert, table, interval, interval["high"], 20, -1, bound)
    if interval["low"]["kind"] == interval["high"]["kind"] == "finite":
        yield 28, interval["low"]["value"], "<=", interval["high"]["value"]


def intervals(cert):
    table = Table(cert["rows"], cert["columns"])
    for j, interval in enumerate(cert["intervals"], 1):
        yield from ((9, j, *test) for test in one_interval(cert, table, interval))


def first_false(cert):
    """The first test that is false, or None. A later one is looked at only where those before it hold."""
    tests = (test for part in (form, range_and_cover, optimal, intervals) for test in part(cert))
    return next((test for test in tests if (test[3] > test[5]) - (test[3] < test[5]) not in SIGNS[test[4]]), None)


def main(words=None):
    told, words = None, sys.argv[1:] if words is None else words
    if {"-h", "--help"} & set(words):
        print(__doc__.strip())
        return 0
    if any(word.startswith("--") for word in words):
        import quantreg_rows  # what a table takes stands beside this file, and is read where it is asked for

        told, words = quantreg_rows.asked(words)
    try:
        with open(words[0] if words else 0, "rb") as file:
            cert = certificate(json.loads(file.read().decode("utf-8"), parse_constant=fraction, object_pairs_hook=once))
    except (OSError, ValueError, RecursionError) as error:
        print(f"no certificate: {error}")
        return 1
    if false := first_false(cert):
        condition, index, inner, relation, left, right = *false[:3], false[4], shown(false[3]), shown(false[5])
        print(f"rejected: condition={condition} index={index} inner={inner} left={left} right={right}")
        print(f"Condition {condition} says that {CONDITIONS[condition]}; here {left} {relation} {right} is false.")
        return 1
    sizes = ", ".join(f"{name} {len(cert[name])}" for name in ("rows", "segments", "intervals"))
    print(f"accepted: columns {cert['columns']}, {sizes}, quantiles {shown(cert['lo'])} to {shown(cert['hi'])}")
    print(*(f"{condition}. {text}" for condition, text in CONDITIONS.items()), sep="\n")
    print("So no coefficients have a lesser loss at any quantile of the range.")
    if not told:
        return 0
    status, line = told(cert)
    print(line)
    return status


if __name__ == "__main__":
    sys.exit(main())
