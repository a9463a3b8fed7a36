#!/usr/bin/env python3
"""Runs two programs on the same inputs, and fails where the second has another report than the first, or another refusal.

    beside.py BEFORE AFTER [--seed N] [--runs N] [--cases] [--tables FOLDER]

The inputs are so many runs drawn as fuzz.py draws them; with --cases those of crates/cases/data, and with --tables FOLDER each job on the
CSV files of a folder, as bench/limits/real_jobs.py asks it, on the tables as they are, by logs and standardised. Where the first program
ends with status 7 and the second answers, the answer is made again from a certificate that the checker in Python accepts: see answers.py.
"""

import argparse
import csv
import io
import re
import statistics
import subprocess
import sys
from collections import Counter
from concurrent.futures import ProcessPoolExecutor
from functools import partial
from math import log
from pathlib import Path

import answers
import fuzz
from grammar import Run

sys.path.insert(0, str(fuzz.TOP / "bench" / "limits"))
import real_jobs

CASES = fuzz.TOP / "crates" / "cases" / "data"
ESCAPES = {"n": b"\n", "r": b"\r", "t": b"\t"}


def escaped(text):
    """The bytes of a text as a case has it, without repeats."""
    pieces = re.split(r"\\(\\|[nrt]|x[0-9a-f]{2})", text)
    meant = lambda it: ESCAPES.get(it) or (b"\\" if it == "\\" else bytes([int(it[1:], 16)]))
    return b"".join(meant(piece) if at % 2 else piece.encode() for at, piece in enumerate(pieces))


def repeated(text):
    """What stands behind how often it is repeated, with the number of the turn where it says so."""
    times, _, text = text.partition(" ")
    before, numbered, after = text.partition("\\#")
    return b"".join(escaped(before) + (b"%d" % (turn + 1) if numbered else b"") + escaped(after) for turn in range(int(times)))


def bytes_of(text):
    """The bytes of a text as a case has it."""
    first, *parts = text.split("\\(")
    made = [escaped(first)]
    for part in parts:
        again, _, rest = part.partition("\\)")
        made += [repeated(again), escaped(rest)]
    return b"".join(made)


def cases():
    """The runs of all files of whole runs: the words, and those of a second run behind them, which reads what the first prints."""
    for file in sorted(CASES.glob("run_*.txt")):
        text = file.read_text(encoding="utf-8")
        shared = text.split("\n>")[0].rpartition("\n")[2]
        for block in text.split("\n>")[1:]:
            words, line, *_ = block.split("\n")
            before, changed, to = line.partition(" => ")
            if not changed:
                source = bytes_of(line).replace(b";", b"\n") + b"\n"
            elif before:
                source = escaped(shared.replace(before, to, 1))
            else:
                source = bytes_of(to)
            yield file.name, [[bytes_of(word).decode() for word in it.split("|")] for it in words.strip().split(" => ")], source


def ran(program, words, source, seconds=60):
    try:
        done = subprocess.run([program, *words], input=source, capture_output=True, check=False, timeout=seconds)
    except subprocess.TimeoutExpired:
        return None
    return done.returncode, done.stdout, done.stderr


def compared(before, after, words, source):
    """What two programs make of a run: a word for the table of counts, and what to show where they differ."""
    first, second = ran(before, words, source), ran(after, words, source)
    if first is None or second is None:
        return "late", None
    if first == second:
        return f"same, status {first[0]}", None
    if first[0] == 7 and second[0] != 7:
        told = re.sub(rb".*(place=\S+ quantity=\S+).*\n", rb"\1", first[2]).decode()
        where = told if told.startswith("place") else "solver"
        problem = answers.amiss(partial(ran, after), words, source, second)
        how = f"answers (status {second[0]}), {'made again' if not problem else 'WRONG'}"
        if problem and problem.startswith("not tried"):
            how = f"answers (status {second[0]}), not made again"
        return f"{how}: {words[0] if words else ''} {where}", problem if problem and not problem.startswith("not tried") else None
    if first[0] == 7 and second[0] == 7:
        return "another overflow", f"{first[2]!r}\n    {second[2]!r}"
    at = next((n for n, (a, b) in enumerate(zip(first[1].split(b"\n"), second[1].split(b"\n"))) if a != b), None)
    return "DIFFERENT", f"{first[0]} {first[2][:300]!r}\n    {second[0]} {second[2][:300]!r} line {at}"


def tried(before, after, seed, number):
    try:
        job, run = fuzz.drawn_run(before, seed, number)
    except fuzz.Wrong as wrong:
        return "check", "not drawn", str(wrong)
    word, problem = compared(before, after, run.words, run.source)
    return job, word, problem and f"run {number} of the seed {seed}: {problem}\n{fuzz.shown(run)}"


def case_tried(before, after, case):
    name, runs, source = case
    for words in runs[:-1]:
        source = ran(before, words, source)[1]
    word, problem = compared(before, after, runs[-1], source)
    return name, word, problem and f"{name}: {problem}\n{fuzz.shown(Run(runs[-1], source))}"


def numbers(column):
    """The numbers of a column, None for a missing cell; or nothing where it has others."""
    cells, numeric = real_jobs.distinct(column)
    if not numeric or len(cells) < 3:
        return None
    return [float(cell) if cell.strip() not in ("", "NA") else None for cell in column]


def logs(column):
    present = [it for it in column if it is not None]
    return [None if it is None else log(it) for it in column] if min(present) > 0 else column


def standard(column):
    present = [it for it in column if it is not None]
    middle, spread = statistics.fmean(present), statistics.stdev(present)
    return [None if it is None else (it - middle) / spread for it in column] if spread else column


def rewritten(header, rows, how):
    """A table with its columns of numbers changed, at 15 digits."""
    columns = []
    for column in zip(*rows):
        found = numbers(column)
        if found is None:
            columns.append(column)
        else:
            changed = how(found)
            columns.append(column if changed is found else ["NA" if it is None else f"{it:.15g}" for it in changed])
    return [list(row) for row in zip(*columns)]


def table_jobs(folder):
    """Each job of each formula over each table, in three forms."""
    ways = {"as it is": None, "logs": logs, "standardised": standard}
    for name, header, rows, response, formula in real_jobs.cases(folder):
        for way, how in ways.items():
            try:
                given = rewritten(header, rows, how) if how else rows
            except (ValueError, OverflowError):
                continue
            kind = "one regressor" if " + " not in formula else "more"
            yield f"{way}, {kind}", name, header, given, response, formula


def table_tried(before, after, case):
    """All jobs of a formula; a list of what each came to."""
    way, name, header, rows, response, formula = case
    table = real_jobs.text_of(header, rows)
    first = ran(before, ["process", "--formula", formula, *real_jobs.MEDIAN], table, 20)
    if first is None or first[0] not in (0, 7):
        return []
    whole = next((row for row in rows if all(real_jobs.distinct([cell])[0] for cell in row)), rows[0])
    more = real_jobs.text_of(header, [*rows, ["" if at == header.index(response) else cell for at, cell in enumerate(whole)]])
    found = []
    jobs = [("`process` at 1/2", ["process", "--formula", formula, *real_jobs.MEDIAN], False)]
    jobs += real_jobs.jobs(formula, first[1].count(b"\ncolumn ") or 3)
    for job, words, predicts in jobs:
        word, problem = compared(before, after, words, more if predicts else table)
        found.append((f"{way} | {job}", word, problem and f"{name} {formula} {way} {job}: {problem}"))
    return found


def main():
    parser = argparse.ArgumentParser(description=__doc__, formatter_class=argparse.RawDescriptionHelpFormatter)
    parser.add_argument("before")
    parser.add_argument("after")
    for name, number in (("--seed", 1), ("--runs", 2000), ("--from", 0), ("--workers", 2)):
        parser.add_argument(name, type=int, default=number, dest=name.strip("-").replace("from", "first"))
    parser.add_argument("--cases", action="store_true")
    parser.add_argument("--tables")
    given = parser.parse_args()
    counts, shown = Counter(), 0

    def tell(found):
        nonlocal shown
        for job, word, problem in found:
            counts[job, word] += 1
            if problem:
                shown += 1
                print(problem[:2500], flush=True)

    with ProcessPoolExecutor(given.workers) as pool:
        if given.cases:
            tell(pool.map(partial(case_tried, given.before, given.after), cases(), chunksize=4))
        if given.tables:
            for found in pool.map(partial(table_tried, given.before, given.after), table_jobs(given.tables), chunksize=4):
                tell(found)
        work = range(given.first, given.first + given.runs)
        tell(pool.map(partial(tried, given.before, given.after, given.seed), work, chunksize=20))
    for (job, word), count in sorted(counts.items()):
        print(f"{job:55} {word:80} {count:6}")
    return 1 if any(word.startswith(("DIFFERENT",)) or "WRONG" in word for _, word in counts) else 0


if __name__ == "__main__":
    sys.exit(main())
