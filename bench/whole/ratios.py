#!/usr/bin/env python3
"""Whether the quick ways are taken: jobs of the program beside a peer in the same run, which fails where one takes too long.

No clause tells a quick way from the slow one behind it, so these ratios do. A limit stands between what the program takes and what it took
before it had that way, both in README.md. R is the peer of the rows near the fit; where it doesn't stand with its package quantreg they are skipped.

usage: ratios.py PROGRAM
"""

import resource
import shutil
import subprocess
import sys
import tempfile
from pathlib import Path

HERE = Path(__file__).resolve().parent
WHOLE = ["--formula", "y ~ .", "--lo", "0", "--hi", "1"]
MEDIAN = ["--formula", "y ~ .", "--lo", "1/2", "--hi", "1/2", "--crit", "2.7055", "--rank-at", "1/2"]
QUARTILES = ["--formula", "y ~ .", "--lo", "1/4", "--hi", "3/4", "--crit", "2.7055", "--rank-at", "1/4,1/2,3/4"]


def spent(words, table, out=None, turns=5):
    """The least seconds of a processor of some runs over a table; the output of the last is kept where asked for."""
    least = float("inf")
    for _ in range(turns):
        before = resource.getrusage(resource.RUSAGE_CHILDREN)
        with open(table, "rb") as given, open(out or "/dev/null", "wb") as made:
            subprocess.run(words, stdin=given, stdout=made, check=True)
        after = resource.getrusage(resource.RUSAGE_CHILDREN)
        least = min(least, after.ru_utime + after.ru_stime - before.ru_utime - before.ru_stime)
    return least


def generated(room, rows, columns):
    """A generated table of an intercept and so many columns, as those of run.sh."""
    table = room / f"{rows}-{columns}.csv"
    words = ["awk", "-v", "number=1", "-v", f"rows={rows}", "-v", f"columns={columns}", "-f", HERE / "make_table.awk"]
    table.write_bytes(subprocess.run(words, capture_output=True, check=True).stdout)
    return table


def r_seconds(script, table):
    """What R takes for a call on a table, or none where it doesn't stand."""
    if not shutil.which("Rscript"):
        return None
    code = f"""suppressMessages(library(quantreg)); t <- read.csv("{table}"); x <- cbind(1, as.matrix(t[-1]))
    cat(min(vapply(1:3, function(turn) {{ s <- system.time({script}); s[["user.self"]] + s[["sys.self"]] }}, 0)))"""
    told = subprocess.run(["Rscript", "-e", code], capture_output=True, text=True, check=False)
    return float(told.stdout) if told.returncode == 0 else None


def main(program):
    """Prints each ratio with its limit, and ends with 1 where one is above it."""
    failed = False

    def tell(name, mine, peer, limit):
        nonlocal failed
        if peer is None:
            print(f"{name}: skipped, for R with its package quantreg was not found")
            return
        failed |= mine > limit * peer
        print(f"{name}: {mine:.3f} s beside {peer:.3f}, {mine / peer:.2f} times, at most {limit}")

    with tempfile.TemporaryDirectory() as made:
        room = Path(made)
        table = generated(room, 5000, 3)
        tell("near rows in a process", spent([program, "process", *WHOLE], table, turns=3), r_seconds("rq.fit.br(x, t[[1]], tau = -1)", table), 0.3)
        table = generated(room, 5000, 1)
        fitted = spent([program, "sample", "--number", "1", "--rows", "5000", "--columns", "1", "--lo", "0", "--hi", "1"], table)
        tell("marks of rows in one piece", spent([program, "process", *WHOLE], table), fitted, 2)
        table = generated(room, 16384, 4)
        tell("near rows in rank walks", spent([program, "process", *MEDIAN], table), r_seconds("rq.fit.br(x, t[[1]], tau = 0.5, ci = TRUE)", table), 0.25)
        table, text = generated(room, 2000, 9), room / "certificate.json"
        wrote = spent([program, "certify", *WHOLE], table, text, turns=3)
        tell("a run of segments as one", spent([program, "check"], text, turns=3), wrote, 1.4)
        table = generated(room, 1000, 4)
        ranked = spent([program, "process", *QUARTILES], table)
        spent([program, "certify", *QUARTILES], table, text, turns=1)
        tell("rank intervals by whole numbers", spent([program, "check"], text), ranked, 3)
        table = room / "levels.csv"
        table.write_text("y,x\n" + "".join(f"{(i * i * 31 + i * 7) % 997},level{i % 120}\n" for i in range(360)), encoding="utf-8")
        factor = ["--formula", "y ~ factor(x)"]
        whole = spent([program, "process", *factor, "--lo", "0", "--hi", "1"], table)
        tell("a Gram matrix in 128 bits", spent([program, "test", *factor, "--tested", "5"], table), whole, 8)
    return 1 if failed else 0


if __name__ == "__main__":
    if len(sys.argv) != 2:
        sys.exit(__doc__)
    sys.exit(main(sys.argv[1]))
