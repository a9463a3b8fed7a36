#!/usr/bin/env python3
"""Works the cases of ../data/steps.txt again, apart from the program, in Python's fractions: the value of each segment, and the same steps laid end to
end in the order of their values. It tells how many, and each that differs, and then the status is 1.
"""

import sys
from fractions import Fraction as F
from pathlib import Path

CASES = Path(__file__).resolve().parent.parent / "data" / "steps.txt"


def numbers(text):
    return list(map(F, text.split()))


def told(steps):
    return "; ".join(" ".join(map(str, step)) for step in steps)


def answer(asked):
    entries, offsets, low, segments = asked.split("|")
    entries, offsets, (low,) = numbers(entries), sum(numbers(offsets)), numbers(low)
    steps, at = [], low
    for high, *coef in map(numbers, segments.split(";")):
        steps.append((at, high, sum(x * c for x, c in zip(entries, coef)) + offsets))
        at = high
    ordered, at = [], low
    for low, high, value in sorted(steps, key=lambda step: step[2]):
        ordered.append((at, at + high - low, value))
        at += high - low
    return f"{told(steps)} | {told(ordered)}"


def main():
    tried, failed = 0, False
    for line in CASES.read_text(encoding="utf-8").splitlines():
        if not line.startswith("> "):
            continue
        asked, _, wanted = line[2:].partition(" => ")
        made, tried = answer(asked), tried + 1
        if made != wanted:
            print(line, "made:", made, sep="\n")
            failed = True
    print(f"{CASES.name}: {tried} cases")
    return int(failed)


if __name__ == "__main__":
    sys.exit(main())
