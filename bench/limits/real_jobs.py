#!/usr/bin/env python3
"""How many real tables each job answers: a row of a table for each job.

    Rscript bench/limits/real_tables.R FOLDER 1000
    bench/limits/real_jobs.py PROGRAM FOLDER [SECONDS]

Each table of the folder gives up to two formulas: its first column of 8 numbers or more as the response, and one or up to four of its
other columns, of numbers or of 2 to 6 texts. A formula counts where its columns are independent. What isn't answered ends with status 7,
or takes more than so many seconds, 20 where it isn't given.
"""

import csv
import io
import re
import subprocess
import sys
from collections import Counter
from pathlib import Path

NUMBER = re.compile(r"[+-]?([0-9]+\.?[0-9]*|\.[0-9]+)([eE][+-]?[0-9]+)?")
RANGE = ["--lo", "0", "--hi", "1"]
MEDIAN = ["--lo", "1/2", "--hi", "1/2"]


def distinct(column):
    """The cells of a column that aren't missing, and whether they are numbers."""
    cells = {cell for cell in column if cell.strip() not in ("", "NA")}
    return cells, all(NUMBER.fullmatch(cell.strip()) for cell in cells)


def formulas(header, rows):
    """Up to two formulas of a table, with its response: one regressor, and up to four."""
    columns = {name: distinct(column) for name, column in zip(header, zip(*rows)) if name}
    responses = [name for name, (cells, numeric) in columns.items() if numeric and len(cells) >= 8]
    if not responses:
        return
    response = responses[0]
    others = [
        name
        for name, (cells, numeric) in columns.items()
        if name != response and (len(cells) >= 3 if numeric else 2 <= len(cells) <= 6)
    ]
    for count in sorted({min(1, len(others)), min(4, len(others))} - {0}):
        yield response, f"`{response}` ~ " + " + ".join(f"`{name}`" for name in others[:count])


def text_of(header, rows):
    text = io.StringIO()
    csv.writer(text).writerows([header, *rows])
    return text.getvalue().encode()


def run(program, words, table, seconds):
    """The status of a run and what it printed; None in place of the status where it took too long."""
    try:
        done = subprocess.run([program, *words], input=table, capture_output=True, check=False, timeout=seconds)
    except subprocess.TimeoutExpired:
        return None, ""
    return done.returncode, done.stdout.decode()


def jobs(formula, columns):
    """The words of each job, and whether its table has a record more, without a response."""
    fitted = ["--formula", formula]
    yield "`process` over 0 to 1", ["process", *fitted, *RANGE], False
    yield "rank intervals at 1/2", ["process", *fitted, *MEDIAN, "--crit", "46/17", "--rank-at", "1/2"], False
    yield "`ranks`", ["ranks", *fitted], False
    if columns > 2:
        yield "`test` of one column among several", ["test", *fitted, "--tested", str(columns)], False
    yield "`predict` of one record over 0 to 1", ["predict", *fitted, *RANGE], True
    yield "`path` from 1/10 to 10 at 1/2", ["path", *fitted, "--tau", "1/2", "--lo", "1/10", "--hi", "10"], False


def cases(folder):
    """Each formula of each table, with the header, the rows and the response."""
    for file in sorted(Path(folder).glob("*.csv")):
        header, *rows = csv.reader(io.StringIO(file.read_text(encoding="utf-8", errors="replace")))
        for response, formula in formulas(header, rows):
            yield file.stem, header, rows, response, formula


def main():
    program, folder = sys.argv[1:3]
    seconds = float(sys.argv[3]) if len(sys.argv) > 3 else 20
    asked, answered, late, tables = Counter(), Counter(), Counter(), set()
    for name, header, rows, response, formula in cases(folder):
        table = text_of(header, rows)
        status, report = run(program, ["process", "--formula", formula, *MEDIAN], table, seconds)
        if status not in (0, 7):
            continue
        tables.add(name)
        whole = next((row for row in rows if all(distinct([cell])[0] for cell in row)), rows[0])
        more = text_of(header, [*rows, ["" if at == header.index(response) else cell for at, cell in enumerate(whole)]])
        for job, words, predicts in jobs(formula, report.count("\ncolumn ") or 3):
            status, _ = run(program, words, more if predicts else table, seconds)
            if status not in (0, 7, None):
                continue
            asked[job] += 1
            answered[job] += status == 0
            late[job] += status is None
        print(name, formula, file=sys.stderr, flush=True)
    print(f"{len(tables)} tables\n\n| job | cases | answered | | out of time |\n|---|---|---|---|---|")
    for job, count in asked.items():
        print(f"| {job} | {count} | {answered[job]} | {100 * answered[job] / count:.0f} % | {late[job]} |")


if __name__ == "__main__":
    main()
