"""Reading reports from text, strictly by the format: `read_report`."""

import json

from .faults import ReportError, unescaped
from .numbers import as_fraction, read_end, read_number
from .reports import (
    Certificate,
    CheckReport,
    PathReport,
    Prediction,
    PredictReport,
    ProcessReport,
    RanksReport,
    SampleReport,
    TestReport,
)
from .stretches import Interval, PathSegment, Segment, Step, rearrange


class _Lines:
    """The lines of a report, taken one after the other."""

    def __init__(self, text):
        # Line feeds alone end lines: a name may hold what else str.splitlines would split at.
        self.lines = text.split("\n")
        self.at = 0

    def fault(self, message):
        return ReportError(self.at, message)

    def word(self):
        """The first word of the next line, or None behind the last."""
        return self.lines[self.at].split(" ", 1)[0] if self.at < len(self.lines) else None

    def take(self, word, count):
        """So many words behind `word` in the next line; the last of them is the rest of it."""
        if self.word() != word:
            self.at += 1
            raise self.fault(f"a line {word} should stand here")
        words = self.lines[self.at].split(" ", count)[1:]
        self.at += 1
        if len(words) != count:
            raise self.fault(f"the line {word} has {len(words)} values, not {count}")
        return words

    def count(self, text):
        if not (text.isascii() and text.isdecimal()):
            raise self.fault(f"no count: {text!r}")
        return int(text)

    def counts(self, word, count):
        return tuple(map(self.count, self.take(word, count)))

    def number(self, text, read=read_number):
        try:
            return read(text)
        except (ValueError, ZeroDivisionError):
            raise self.fault(f"no number: {text!r}") from None

    def numbers(self, word, count):
        return tuple(map(self.number, self.take(word, count)))

    def expect(self, text, wanted):
        if self.count(text) != wanted:
            raise self.fault(f"{text} stands where {wanted} is next")

    def labelled(self, word, label):
        """The numbers of a line `word A label B`."""
        first, found, second = self.take(word, 3)
        if found != label:
            raise self.fault(f"no word {label}")
        return self.count(first), self.count(second)

    def names(self):
        names = []
        while self.word() == "column":
            number, name = self.take("column", 2)
            self.expect(number, len(names) + 1)
            names.append(unescaped(name))
        return tuple(names)

    def end(self):
        if self.lines[self.at :] != ["end", ""]:
            self.at += 1
            raise self.fault("the line end, and nothing behind it, should stand here")


def _rows(lines, records):
    """The rows of records and of smooths."""
    data, penalty = lines.labelled("data", "penalty")
    if data != records:
        raise lines.fault(f"{records} records have {records} rows")
    return data, penalty


def _numbered_values(lines, word, count):
    values = []
    for number in range(1, count + 1):
        at, value = lines.take(word, 2)
        lines.expect(at, number)
        values.append(lines.number(value))
    return tuple(values)


def _basic_values(lines, word, marks):
    """A pair for each row that the marks show in the basis, ascending."""
    values = {}
    for row in (row for row, mark in enumerate(marks, 1) if mark == "*"):
        at, low, high = lines.take(word, 3)
        lines.expect(at, row)
        values[row] = (lines.number(low), lines.number(high))
    return values


def _marks(lines, word, shapes):
    """A line of marks: so many of each alphabet, in turn."""
    (marks,) = lines.take(word, 1)
    wanted = [alphabet for alphabet, count in shapes for _ in range(count)]
    if len(marks) != len(wanted) or any(mark not in alphabet for mark, alphabet in zip(marks, wanted)):
        raise lines.fault(f"these are not the marks of {len(wanted)} rows")
    return marks


def _segments(lines, kind, columns, shapes, words, check=lambda found: None):
    """The segments of a range, each of which begins where the one before ends. `check` looks at those that are read so far."""
    segments, (marks_word, basic_word) = [], words
    while lines.word() == "segment":
        number, lo, hi = lines.take("segment", 3)
        lines.expect(number, len(segments) + 1)
        lo, hi = lines.number(lo), lines.number(hi)
        if segments and segments[-1].hi != lo:
            raise lines.fault("this segment does not begin where the one before ends")
        coef, loss = _numbered_values(lines, "coef", columns), lines.numbers("loss", 2)
        marks = _marks(lines, marks_word, shapes)
        if marks.count("*") != columns:
            raise lines.fault(f"a basis of {columns} columns has {columns} rows")
        segments.append(kind(int(number), lo, hi, coef, loss, marks, _basic_values(lines, basic_word, marks)))
        check(segments)
    if not segments:
        raise lines.fault("the report has no segment")
    return tuple(segments)


def _intervals(lines, columns):
    intervals = []
    while lines.word() == "interval":
        column, tau, low, high = lines.take("interval", 4)
        if not 1 <= lines.count(column) <= columns:
            raise lines.fault(f"there is no column {column}")
        ends = [lines.number(end, read_end) for end in (low, high)]
        intervals.append(Interval(int(column), lines.number(tau), *ends))
    return tuple(intervals)


def _read_process(lines):
    records, dropped = lines.labelled("records", "dropped")
    names = lines.names()
    data, penalty = _rows(lines, records)
    (pivots,) = lines.counts("pivots", 1)
    shapes = [("01*", data), ("+-*", penalty)]
    segments = _segments(lines, Segment, len(names), shapes, ("scores", "basic"))
    intervals = _intervals(lines, len(names))
    lines.end()
    return ProcessReport(records, dropped, names, data, penalty, pivots, segments, intervals)


def _read_ranks(lines):
    records, dropped = lines.labelled("records", "dropped")
    names = lines.names()
    (pivots,) = lines.counts("pivots", 1)
    wilcoxon = _numbered_values(lines, "wilcoxon", records)
    lines.end()
    return RanksReport(records, dropped, names, pivots, wilcoxon)


def _read_check(lines):
    counts = [lines.counts(word, 1)[0] for word in ("columns", "rows", "segments", "intervals")]
    lines.take("accepted", 0)
    lines.end()
    return CheckReport(*counts)


def _read_sample(lines):
    records, dropped = lines.labelled("records", "dropped")
    counts = [lines.counts(word, 1)[0] for word in ("columns", "segments", "pivots")]
    loss = lines.numbers("loss", 2)
    lines.end()
    return SampleReport(records, dropped, *counts, loss)


def _read_test(lines):
    records, dropped = lines.labelled("records", "dropped")
    names = lines.names()
    (listed,) = lines.take("tested", 1)
    tested = tuple(map(lines.count, listed.split(",")))
    if any(not 1 <= column <= len(names) for column in tested):
        raise lines.fault("a tested column is none of the design")
    if list(tested) != sorted(set(tested)) or len(tested) == len(names):
        raise lines.fault("the tested columns rise, and leave one")
    (pivots,) = lines.counts("pivots", 1)
    scores = {}
    for column in tested:
        at, value = lines.take("score", 2)
        lines.expect(at, column)
        scores[column] = lines.number(value)
    (statistic,) = lines.numbers("statistic", 1)
    if statistic < 0 or bool(statistic) != any(scores.values()):
        raise lines.fault("a statistic is 0 where all scores are, and else above 0")
    lines.end()
    return TestReport(records, dropped, names, tested, pivots, scores, statistic)


def _steps(lines):
    steps = []
    while lines.word() == "step":
        steps.append(Step(*lines.numbers("step", 3)))
        if len(steps) > 1 and steps[-2].hi != steps[-1].lo:
            raise lines.fault("this step does not begin where the one before ends")
    if not steps:
        raise lines.fault("a step should stand here")
    return tuple(steps)


def _read_predict(lines):
    records, dropped = lines.labelled("records", "dropped")
    names = lines.names()
    (pivots,) = lines.counts("pivots", 1)
    predictions = []
    while lines.word() == "predict":
        (record,) = lines.counts("predict", 1)
        steps = _steps(lines)
        (again,) = lines.take("rearranged", 1)
        lines.expect(again, record)
        predictions.append(Prediction(record, steps, _steps(lines)))
        if predictions[-1].rearranged != tuple(rearrange(steps)):
            raise lines.fault("these steps are not the rearrangement of those before")
    lines.end()
    return PredictReport(records, dropped, names, pivots, tuple(predictions))


def _check_sums(lines, segments, free):
    """The loss of a path's last segment rises with lambda by the sum of its absolute coefficients, which never rises."""
    sums = [sum(map(abs, segment.coef[free:])) for segment in segments[-2:]]
    last = segments[-1]
    if last.loss[1] - last.loss[0] != (last.hi - last.lo) * sums[-1]:
        raise lines.fault("the losses of this segment do not rise by its penalised coefficients")
    if len(segments) > 1 and (sums[0] < sums[1] or segments[-2].loss[1] != last.loss[0]):
        raise lines.fault("the sum of the penalised coefficients rises, or the loss jumps")


def _read_path(lines):
    records, dropped = lines.labelled("records", "dropped")
    names = lines.names()
    data, penalty = _rows(lines, records)
    free = len(names) - penalty
    if free and names[:free] != ("(Intercept)",):
        raise lines.fault("each column but an intercept has a penalty row")
    (pivots,) = lines.counts("pivots", 1)
    shapes, words = [("+-*", data + penalty)], ("sides", "dual")
    segments = _segments(lines, PathSegment, len(names), shapes, words, lambda found: _check_sums(lines, found, free))
    lines.end()
    return PathReport(records, dropped, names, data, penalty, pivots, segments)


_READERS = {
    "quantreg 1": _read_process,
    "quantreg ranks 1": _read_ranks,
    "quantreg check 1": _read_check,
    "quantreg sample 1": _read_sample,
    "quantreg test 1": _read_test,
    "quantreg predict 1": _read_predict,
    "quantreg path 1": _read_path,
}

# The keys of a certificate whose texts are words and no numbers.
_WORDS = {"kind", "sides", "side"}


def _fractions(value, key=None):
    if isinstance(value, dict):
        return {name: _fractions(inner, name) for name, inner in value.items()}
    if isinstance(value, list):
        return [_fractions(inner, key) for inner in value]
    return as_fraction(value) if isinstance(value, str) and key not in _WORDS else value


def _read_certificate(text):
    try:
        top = _fractions(json.loads(text))
        if top["kind"] != "quantreg-certificate" or top["version"] not in (1, 2, 3):
            raise ReportError(1, "no certificate of version 1, 2 or 3")
        return Certificate(**{key: value for key, value in top.items() if key != "kind"})
    except ReportError:
        raise
    except (ValueError, KeyError, TypeError, ZeroDivisionError) as error:
        raise ReportError(1, f"no certificate: {error}") from error


def read_report(text):
    """The report of a text, by its first line; a text that begins with a brace is read as a certificate.

    Raises ReportError where the text isn't one whole report of a kind that is specified.
    """
    if text.startswith("{"):
        return _read_certificate(text)
    lines = _Lines(text)
    reader = _READERS.get(lines.lines[0])
    lines.at = 1
    if reader is None:
        raise lines.fault(f"no report begins with {lines.lines[0]!r}")
    return reader(lines)
