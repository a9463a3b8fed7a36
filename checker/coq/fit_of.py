#!/usr/bin/env python3
"""Writes what a certificate of quantreg claims as theorems of Coq, in the words of Statement.v.

    fit_of.py < FIT.json > Fit.v

It takes certificates of version 1, 2 and 3. None of it is trusted: the rows, the segments and the theorems stand in Fit.v to be read, and
Coq refuses what isn't so. What checking Fit.v will take is told on standard error.
"""

import json
import sys
from fractions import Fraction
from math import lcm

SIDES = {"+": "Above", "-": "Below", "*": "Basic"}
PARTS = ("up0", "up1", "down0", "down1")
HEAD = """From Coq Require Import String List ZArith Reals.
From Quantreg Require Import Statement Soundness{ranks}.
Import ListNotations.
Open Scope R_scope.

Definition rows : list row := ({rows})%number.

(* the sides at which the first segment begins *)
Definition first_sides : list side := signs "{sides}".

Definition segments : list segment := ({segments})%number.

Theorem fit_is_optimal : optimal_fit {columns} rows {lo} {hi} (with_sides first_sides segments).
Proof. apply (check_sound {columns} rows ({lo}) ({hi}) first_sides segments). {evaluate} Qed.
"""
RANK = """(* the values of the coefficient of column {column}, counted from 0, that the rank test at {tau} doesn't refuse *)
Theorem interval_{at} : forall v : R, not_refused rows ({tau}) ({crit}) {column} v <-> {states}.
Proof.
  refine (check_interval_sound {columns} rows {column} ({tau}) ({crit}) {low} {high} {projection}%number
    (EndHint {low_hint})%number
    (EndHint {high_hint})%number _). {evaluate}
Qed.
"""
# The kernel evaluates a check once. Where it refuses, the check is evaluated again, for the reason.
EVALUATE = "tryif abstract (vm_cast_no_check (eq_refl {0})) then idtac else (vm_compute; reflexivity)."


def text(number):
    """A number as Coq reads it."""
    number = Fraction(number)
    return str(number) if number >= 0 and number.denominator == 1 else f"({number})"


def listed(items, gap="; "):
    return "[" + gap.join(items) + "]"


def texts(numbers):
    return listed(str(Fraction(it)) for it in numbers)


def over(numbers):
    """Numbers as a common denominator and numerators."""
    numbers = [Fraction(it) for it in numbers]
    common = lcm(*(it.denominator for it in numbers))
    return f"{common} {texts(it * common for it in numbers)}"


def optional(number):
    return "None" if number is None else f"(Some {text(number)}%number)"


def placed(rows, sides, coef, factor, *duals):
    """A basic row that isn't fitted, since its dual value is the cost of its side, goes to that side: its dual value stays. Of each quantile
    and its basic values those of the other rows are left. A factor of 0 in place of 1 asks where a row goes along a ray."""
    sides, kept = list(sides), []
    for i, *values in zip([i for i, side in enumerate(sides) if side == "*"], *(values for _, values in duals)):
        one = {key: Fraction(it) for key, it in rows[i].items() if key != "x"}
        left = factor * one["y"] - sum(Fraction(x) * Fraction(c) for x, c in zip(rows[i]["x"], coef))
        ups, downs = ([one[key + "0"] + one[key + "1"] * Fraction(tau) for tau, _ in duals] for key in ("up", "down"))
        if left != 0 and [Fraction(it) for it in values] == (ups if left > 0 else [-it for it in downs]):
            sides[i] = "+" if left > 0 else "-"
        else:
            kept.append(values)
    return sides, *([values[k] for values in kept] for k in range(len(duals)))


def in_full(segments):
    """Each segment of any version with its low end too, and its sides."""
    sides, before = [], {}
    for it in segments:
        if "moves" in it:
            values = dict(zip([i for i, side in enumerate(sides) if side == "*"], before["basic_hi"]))
            for move in it["moves"]:
                sides[move["row"]], values[move["row"]] = move["side"], move.get("value")
            low = [values[i] for i, side in enumerate(sides) if side == "*"]
            it = {**it, "lo": before["hi"], "loss_lo": before["loss_hi"], "basic_lo": low}
        else:
            sides = list(it["sides"])
        yield it, list(sides)
        before = it


def row(it):
    if [Fraction(it[key]) for key in PARTS] == [0, 1, 1, -1]:
        return f"record {text(it['y'])} {texts(it['x'])}"
    return f"Row {texts(it['x'])} {text(it['y'])} " + " ".join(text(it[key]) for key in PARTS)


def segment_lines(cert):
    """The sides of the first segment, and each segment."""
    first, before, lines = [], [], []
    for it, sides in in_full(cert["segments"]):
        sides, low, high = placed(cert["rows"], sides, it["coef"], 1, (it["lo"], it["basic_lo"]), (it["hi"], it["basic_hi"]))
        first, before = first or sides, before or sides
        moves = listed(f"Move {i} {SIDES[new]}" for i, (old, new) in enumerate(zip(before, sides)) if old != new)
        found = f"Segment {text(it['lo'])} {text(it['hi'])} {texts(it['coef'])} {text(it['loss_lo'])} {text(it['loss_hi'])}"
        lines.append(f"{found} {moves} {texts(low)} {texts(high)}")
        before = sides
    return "".join(first), lines


def end(rows, tau, it):
    """The value of a rank interval's end, or None, and its hint."""
    if it["kind"] == "finite":
        return it["value"], f'"{it["sides"]}"%string {over(it["coef"])} {over(it["inside"])} (Outside {over(it["outside"])})'
    sides, inside = placed(rows, it["sides"], it["ray"], 0, (tau, it["inside"]))
    return None, f'"{"".join(sides)}"%string {over(it["coef"])} {over(inside)} (Ray {over(it["ray"])})'


def interval(cert, at, it):
    factors = [Fraction(k == it["column"]) - Fraction(c) for k, c in enumerate(it["projection"])]
    (low, low_hint), (high, high_hint) = (end(cert["rows"], it["tau"], it[name]) for name in ("low", "high"))
    ends = [it if it == "v" else str(Fraction(it)) for it in (low, "v", high) if it is not None]
    names = {"states": " <= ".join(ends) if len(ends) > 1 else "True", "low": optional(low), "high": optional(high)}
    names |= {"at": at, "column": it["column"], "columns": cert["columns"], "projection": over(factors)}
    names |= {"tau": Fraction(it["tau"]), "crit": Fraction(it["crit"]), "low_hint": low_hint, "high_hint": high_hint}
    return RANK.format(evaluate=EVALUATE.format("Shown"), **names)


def theorems(cert):
    """The text of Fit.v."""
    sides, segments = segment_lines(cert)
    lines = {"rows": map(row, cert["rows"]), "segments": segments}
    lines = {key: listed(("\n  " + it for it in found), ";") for key, found in lines.items()}
    ranks = " Ranks" if cert["intervals"] else ""
    ends = {key: text(cert[key]) for key in ("lo", "hi")}
    yield HEAD.format(**lines, **ends, ranks=ranks, columns=cert["columns"], sides=sides, evaluate=EVALUATE.format("Accepted"))
    for at, it in enumerate(cert["intervals"], 1):
        yield interval(cert, at, it)
    names = ["fit_is_optimal", *(f"interval_{at}" for at in range(1, len(cert["intervals"]) + 1))]
    yield from (f"Check {name}." for name in names)
    yield f"Definition theorems := ({', '.join(names)}).\nPrint Assumptions theorems."


def size(cert, letters):
    """What there is to check, and about what that takes, by the runs in docs/SPEED.md: reading so many letters, then each entry of a row in
    each segment, and in each rank interval."""
    rows, columns, segments, intervals = len(cert["rows"]), cert["columns"], len(cert["segments"]), len(cert["intervals"])
    seconds = 1 + 2e-5 * letters + rows * (columns + 1) * (3e-6 * segments + 6e-5 * intervals)
    counts = f"rows {rows}, columns {columns}, segments {segments}, intervals {intervals}"
    return f"{counts}: about {seconds:.0f} s of a processor and {450 + 7e-4 * letters:.0f} MB, behind 8 s for what each certificate needs"


if __name__ == "__main__":
    sys.set_int_max_str_digits(0)  # Python reads and writes longer numbers only when asked
    found = json.load(sys.stdin)
    text_of_fit = "\n".join(theorems(found))
    print(text_of_fit)
    print(size(found, len(text_of_fit)), file=sys.stderr)
