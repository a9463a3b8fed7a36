#!/usr/bin/env python3
"""How many instructions some jobs take, which callgrind counts alike in each run, and whether one takes more than its limit; and how many threads
some begin.

A time on a busy machine says little of a change by a tenth; this count does. Each limit stands close above what the job takes, so that it takes more
with a quick way shut, by as much as README.md says. Threads are counted by what is handed out: a list of n parts takes n - 1 threads beside its own,
up to 64. Where valgrind isn't installed, all are skipped.

usage: counts.py PROGRAM
"""

import json
import re
import shutil
import subprocess
import sys
import tempfile
from pathlib import Path

from ratios import QUARTILES, WHOLE, generated, spent

MEDIAN = ["--formula", "y ~ .", "--lo", "1/2", "--hi", "1/2"]

# How many segments of a certificate are checked in one part.
PER_PART = 64

# A job on a table of 1,000 rows and 5 columns, on one with long tails, or on the certificate of the fits of the first, what it shows, and the most that it may take, in millions of instructions.
JOBS = [
    ("process", ["process", *WHOLE], "loops over rows are compiled for 64 bits, near rows serve while a quarter of their distance is left, and segments take over ends", 287),
    ("ranks", ["ranks", "--formula", "y ~ ."], "the same, and a Wilcoxon score is reduced once", 527),
    ("at 1/2", ["process", *MEDIAN], "values whose factor is 1 are copied into whole numbers, and a solve looks at rivals alone", 16.4),
    ("rank intervals", ["process", *MEDIAN, "--crit", "2.7055", "--rank-at", "1/2"], "entries of the Gram matrix are added up in 128 bits", 45.5),
    ("long tails", ["process", *WHOLE], "rows far from the middles of their columns have classes of their own", 259),
    ("check", ["check"], "a run of segments is summed by slopes", 484),
]


def counted(words, read, out="/dev/null"):
    """The millions of instructions of a run that reads a file; callgrind's own report goes out."""
    callgrind = ["valgrind", "--tool=callgrind", f"--callgrind-out-file={out}"]
    with open(read, "rb") as given:
        ran = subprocess.run([*callgrind, *words], stdin=given, stdout=subprocess.DEVNULL, stderr=subprocess.PIPE, text=True, check=True)
    found = re.search(r"Collected : (\d+)", ran.stderr)
    return int(found[1]) / 1e6 if found else sys.exit("counts: failed, since callgrind told no count, as of a program that isn't the gate's")


def threads_begun(words, read, room):
    """How many threads a run begins, by the calls of the C library's function for it."""
    counted(words, read, room / "calls")
    told = (room / "calls").read_text(encoding="utf-8")
    number = re.search(r"^c?fn=(\(\d+\)) pthread_create\b", told, re.MULTILINE)
    return sum(map(int, re.findall(rf"^cfn={re.escape(number[1])}.*\ncalls=(\d+)", told, re.MULTILINE))) if number else 0


def tell_threads(program, table, certificate, room):
    """Prints how many threads two jobs begin, and gives whether one begins another number than its parts say."""
    begun = threads_begun([program, "process", *QUARTILES], table, room)
    # a solve for each of three quantiles, and an interval for each of these and of the table's five columns
    wanted = (3 - 1) + (3 * 5 - 1)
    print(f"rank intervals at three quantiles: {begun} threads, wanted {wanted}: the solves are made at once, and the intervals")
    parts = -(-len(json.loads(certificate.read_text(encoding="utf-8"))["segments"]) // PER_PART)
    checked = threads_begun([program, "check"], certificate, room)
    # both bounds of the dual values, and the sums
    print(f"check: {checked} threads, wanted {3 * (parts - 1)}: each part of the segments is checked beside the others")
    return begun != wanted or checked != 3 * (parts - 1)


def with_long_tails(table, room):
    """A table with the same responses, whose other numbers are 100,000 over those of the table and one, without what is left."""
    header, *records = table.read_text(encoding="utf-8").splitlines()
    made = room / "tails.csv"
    rows = (",".join([y, *(str(100_000 // (1 + int(x))) for x in xs)]) for y, *xs in (record.split(",") for record in records))
    made.write_text("\n".join([header, *rows, ""]), encoding="utf-8")
    return made


def without_debug(program, room):
    """The program without what debuggers read, which some valgrinds can't; where strip isn't installed, as it is."""
    if not shutil.which("strip"):
        return program
    subprocess.run(["strip", "--strip-debug", "-o", room / "program", program], check=True)
    return room / "program"


def main(program):
    """Prints each count with its limit, and ends with 1 where one is above it, or a job begins another number of threads."""
    if not shutil.which("valgrind"):
        print("counts: skipped, since no command valgrind was found (Debian: apt install valgrind)")
        return 0
    failed = False
    with tempfile.TemporaryDirectory() as made:
        program = without_debug(program, Path(made))
        table, certificate = generated(Path(made), 1000, 4), Path(made) / "whole.json"
        spent([program, "certify", *WHOLE], table, certificate, turns=1)
        others = {"check": certificate, "long tails": with_long_tails(table, Path(made))}
        for name, words, shows, limit in JOBS:
            took = counted([program, *words], others.get(name, table))
            failed |= took > limit
            print(f"{name}: {took:.1f} million instructions, at most {limit}: {shows}")
        failed |= tell_threads(program, table, certificate, Path(made))
    return 1 if failed else 0


if __name__ == "__main__":
    if len(sys.argv) != 2:
        sys.exit(__doc__)
    sys.exit(main(sys.argv[1]))
