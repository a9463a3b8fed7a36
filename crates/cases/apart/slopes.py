#!/usr/bin/env python3
"""Works rank intervals of a slope again, apart from the program: by their definition, in Python's fractions.

Of ../data/intervals.txt it takes the cases of `wide wholes` and `wide ends` that ask for the second of two columns of which the first is 1, where all
costs are those of plain rows and no quantile of the restricted fit is a range. It tells how many it worked to the same ends, and where one
differs both, and then the status is 1. It knows no pivot, basis or walk: without its ties, a value of the slope is within where the square
of the statistic of the one dual solution is.
"""

import sys
from fractions import Fraction
from itertools import combinations
from pathlib import Path

CASES = Path(__file__).resolve().parent.parent / "data" / "intervals.txt"


def statistic(points, tau, slope):
    """The score of the x beside 1 under the dual values of the quantile of what the slope leaves."""
    order = sorted(points, key=lambda point: point[1] - slope * point[0])
    fitted = int(len(points) * tau)
    duals = [tau - 1] * fitted + [Fraction(0)] + [tau] * (len(points) - fitted - 1)
    duals[fitted] = -sum(duals)
    mean = sum(x for x, _ in points) / len(points)
    return sum((x - mean) * dual for (x, _), dual in zip(order, duals))


def ends(points, tau, crit):
    """Both ends, each with the rows of the pair whose slope it is; None for one that is infinite."""
    pairs = {}
    for (i, (x, y)), (k, (u, v)) in combinations(enumerate(points), 2):
        if x != u:
            pairs.setdefault((y - v) / (x - u), (i, k))
    ties = sorted(pairs)
    mean = sum(x for x, _ in points) / len(points)
    bound = crit * tau * (1 - tau) * sum((x - mean) ** 2 for x, _ in points)
    between = [ties[0] - 1, *((low + high) / 2 for low, high in zip(ties, ties[1:])), ties[-1] + 1]
    within = [k for k, slope in enumerate(between) if statistic(points, tau, slope) ** 2 <= bound]
    low, high = within[0], within[-1]
    return [None if low == 0 else (ties[low - 1], pairs[ties[low - 1]]), None if high == len(ties) else (ties[high], pairs[ties[high]])]


def points_of(text):
    """The pairs of x and y of rows of an intercept and one column, or None where they are other rows."""
    rows = [[Fraction(word) for word in row.split()] for row in text.split(";")]
    plain = all(len(row) == 7 and row[1:6] == [0, 1, 1, -1, 1] for row in rows)
    return [(row[6], row[0]) for row in rows] if plain else None


def told(end):
    return "none" if end is None else f"{end[0]} by {end[1][0]} {end[1][1]}"


def main():
    same, points, failed = 0, None, False
    for line in CASES.read_text(encoding="utf-8").splitlines():
        if line.startswith("= "):
            points = points_of(line[2:])
        if points is None or not line.startswith(("> wide wholes 1 ", "> wide ends 1 ")):
            continue
        asked, _, wanted = line.partition(" => ")
        tau, crit = (Fraction(word) for word in asked.split()[4:6])
        if (len(points) * tau).denominator == 1 or "none" in wanted:
            continue
        made = "; ".join(told(end) for end in ends(points, tau, crit))
        same += made == wanted
        if made != wanted:
            print(line, "made:", made, sep="\n")
            failed = True
    print(f"{CASES.name}: {same} intervals of a slope are told again")
    return 1 if failed else 0


if __name__ == "__main__":
    sys.exit(main())
