#!/usr/bin/env python3
"""The tables of SPEED on whole runs: jobs of the program, and `rq.fit.br` of R on the same table in memory, in the same run.

All are milliseconds of a processor with the system's calls, the least of some turns, on the tables of run.sh. Where R doesn't stand with its
package quantreg, its column is empty.

usage: beside.py PROGRAM
"""

import sys
import tempfile
from pathlib import Path

from counts import MEDIAN
from ratios import QUARTILES, WHOLE, generated, r_seconds, spent

# Rows, columns, the words, R's quantile (-1 for all), and how many turns; R has no answer to the fourth, whose dual values would take 6 GB.
FITS = [
    (1000, 5, WHOLE, -1, 20),
    (2000, 10, WHOLE, -1, 5),
    (5000, 4, WHOLE, -1, 3),
    (16384, 5, WHOLE, None, 2),
    (1000, 5, MEDIAN, 0.5, 40),
    (16384, 5, MEDIAN, 0.5, 5),
    (16384, 10, MEDIAN, 0.5, 5),
]


def ms(seconds):
    return "" if seconds is None else f"{1000 * seconds:.3g}"


def fits(program, room):
    """The process of some tables, beside R's."""
    print("| table | columns | quantiles | the program | `rq.fit.br` | ratio |\n|---|---|---|---|---|---|")
    for rows, columns, words, tau, turns in FITS:
        table = generated(room, rows, columns - 1)
        mine = spent([program, "process", *words], table, turns=turns)
        theirs = r_seconds(f"rq.fit.br(x, t[[1]], tau = {tau})", table) if tau is not None else None
        ratio = "" if theirs is None else f"{mine / theirs:.2f}"
        print(f"| {rows:,} rows | {columns} | {'0 to 1' if words is WHOLE else '1/2'} | {ms(mine)} | {ms(theirs)} | {ratio} |", flush=True)


def jobs(program, room):
    """All jobs on the first table, and how many times its process over all quantiles they take."""
    table, text, ranked = generated(room, 1000, 4), room / "whole.json", room / "ranked.json"
    whole = spent([program, "process", *WHOLE], table, turns=20)
    spent([program, "certify", *QUARTILES], table, ranked, turns=1)
    told = [
        ("`process` over 0 to 1", whole),
        ("`ranks`", spent([program, "ranks", "--formula", "y ~ ."], table, turns=20)),
        ("`test` of one column", spent([program, "test", "--formula", "y ~ .", "--tested", "5"], table, turns=10)),
        ("`certify` over 0 to 1", spent([program, "certify", *WHOLE], table, text, turns=10)),
        ("`check` of that certificate", spent([program, "check"], text, turns=20)),
        ("`process` over 1/4 to 3/4 with all rank intervals at three quantiles", spent([program, "process", *QUARTILES], table, turns=10)),
        ("`check` of its certificate", spent([program, "check"], ranked, turns=10)),
    ]
    print("| job | milliseconds | times `process` over 0 to 1 |\n|---|---|---|")
    for job, taken in told:
        print(f"| {job} | {ms(taken)} | {taken / whole:.1f} |")


if __name__ == "__main__":
    if len(sys.argv) != 2:
        sys.exit(__doc__)
    with tempfile.TemporaryDirectory() as made:
        fits(sys.argv[1], Path(made))
        jobs(sys.argv[1], Path(made))
