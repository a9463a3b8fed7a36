#!/usr/bin/env python3
"""The greatest number of digits of all columns at which each of five tables of 100 random records is answered, by the number of columns.

    QUANTREG=/path/to/quantreg digits.py    prints it for 1 to 8 columns beside the intercept: of the median, with rank intervals, of all quantiles
"""

import os
import random
import subprocess
import sys

PROGRAM = os.environ.get("QUANTREG", "quantreg")
RUNS = {
    "median": ["--lo=1/2", "--hi=1/2"],
    "intervals": ["--lo=1/2", "--hi=1/2", "--crit=46/17", "--rank-at=1/2"],
    "all quantiles": ["--lo=0", "--hi=1"],
}


def table(columns, digits, seed):
    """A table of whole numbers of so many digits, response first."""
    drawn = random.Random(seed * 1000 + columns * 20 + digits)
    rows = [",".join(str(drawn.randrange(10 ** (digits - 1), 10**digits)) for _ in range(columns + 1)) for _ in range(100)]
    return "\n".join([",".join(["y", *(f"x{at}" for at in range(columns))]), *rows, ""])


def is_answered(columns, digits, words):
    for seed in range(5):
        run = subprocess.run([PROGRAM, "process", "--formula=y ~ .", *words], input=table(columns, digits, seed).encode(), capture_output=True, check=False)
        if run.returncode not in (0, 7):
            sys.exit(run.stderr.decode())
        if run.returncode == 7:
            return False
    return True


def most_digits(columns, words):
    low, high = 0, 15
    while low < high:
        middle = (low + high + 1) // 2
        low, high = (middle, high) if is_answered(columns, middle, words) else (low, middle - 1)
    return low


for name, words in RUNS.items():
    print(name, *(most_digits(columns, words) for columns in range(1, 9)), flush=True)
