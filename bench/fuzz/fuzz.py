#!/usr/bin/env python3
"""Runs the program on inputs drawn by the grammars of its jobs and then changed a little, and fails on what no run may do.

    fuzz.py PROGRAM [--seed N] [--runs N] [--from N] [--workers N] [--all]

That is a signal, ten seconds of a processor or a minute by the clock, a fault line that the man page lacks or that goes with another
status, output after a refusal, a report that isn't whole, another answer to the same input, a certificate of `certify` that `check`
doesn't accept save for an overflow, and a verdict of `check` other than that of checker/quantreg_check.py. The numbers of the runs begin
at --from, or at 0; each run is made from the seed and its number alone, and --runs 1 prints it whole. At the end stand counts by job and
by fault. With --all it fails too where a job has no report, or where a fault that a small input can meet wasn't met.
"""

import argparse
import json
import random
import re
import resource
import shlex
import subprocess
import sys
from collections import Counter
from concurrent.futures import ProcessPoolExecutor
from dataclasses import dataclass
from functools import partial
from pathlib import Path

import certificates
import changes
import grammar
from grammar import JOBS, Run

TOP = Path(__file__).resolve().parent.parent.parent
sys.path.insert(0, str(TOP / "checker"))
import quantreg_check as checker

MOST_SECONDS, MOST_WAITED = 10, 60
MOST_SHOWN = 4000
FIRST_LINES = {"process": b"quantreg 1\n"} | {job: f"quantreg {job} 1\n".encode() for job in JOBS if job not in ("process", "certify")}
# The status of a group, or of a fault, where it isn't 1.
STATUSES = {"usage": 2, "solver: PivotLimit": 6, "solver: Overflow": 7, "check": 8}
# What no small input meets, for its length or since another fault comes first; and what comes of streams and memory that are not there.
TOO_LARGE = {"input: TooLong", "certificate: CertTooLong", "program: TooManyColumns"}
OF_STREAMS = {"source: SourceFault", "sink: SinkFault", "memory: OutOfMemory"}
FIELDS = {"N": r"\d+", "V": r"-?\d+(?:/\d+)?", "V,V": r"-?\d+(?:/\d+)?(?:,-?\d+(?:/\d+)?)*", "NAME": ".*", "PATH": ".*", "..": r"\S+"}


class Wrong(Exception):
    """What no run may do."""


@dataclass
class Ended:
    """How a run ended, and the fault that its line names."""

    status: int
    out: bytes
    err: bytes
    fault: str = ""


def fault_lines():
    """Each fault of the man page, as `group: Name`, with the pattern of its line."""
    page = (TOP / "docs" / "quantreg.1").read_text(encoding="utf-8")
    patterns = {}
    for group, name, fields in re.findall(r"^\.TP\n\.B quantreg: ([\w-]+): (\w+)(.*)$", page, re.MULTILINE):
        wanted = [f"{key}={FIELDS[value]}" for key, _, value in (field.partition("=") for field in fields.split())]
        patterns[f"{group}: {name}"] = re.compile(" ".join([f"quantreg: {group}: {name}", *wanted]))
    return patterns


FAULTS = fault_lines()


def fault_of(ended):
    """The fault that the one line of a refusal names, which is one of the man page and goes with the status."""
    line = ended.err.decode("utf-8", "replace")
    if ended.out:
        raise Wrong("output after a refusal")
    if not line.endswith("\n") or line.count("\n") != 1:
        raise Wrong("other than one fault line")
    fault = "".join(re.findall(r"^quantreg: ([\w-]+: \w+)", line))
    if fault not in FAULTS or not FAULTS[fault].fullmatch(line[:-1]):
        raise Wrong("a fault line that the man page lacks")
    if fault in OF_STREAMS:
        raise Wrong("a fault of streams or memory, where both are there")
    if ended.status != STATUSES.get(fault, STATUSES.get(fault.split(":")[0], 1)):
        raise Wrong(f"the status {ended.status} with {fault}")
    detail = re.search(r" (place=[a-z]+|condition=\d+)", line) if fault.startswith(("solver", "check")) else None
    return fault + (detail.group() if detail else "")


def is_whole(job, out):
    """A report has the first line of its job and the last line `end`; a certificate is one line of JSON."""
    if job != "certify":
        return job in FIRST_LINES and out.startswith(FIRST_LINES[job]) and out.endswith(b"\nend\n")
    try:
        return out.count(b"\n") == 1 and out.endswith(b"}\n") and bool(checker.certificate(json.loads(out)))
    except ValueError:
        return False


def processor_seconds():
    """What the programs that this worker has run took in all."""
    used = resource.getrusage(resource.RUSAGE_CHILDREN)
    return used.ru_utime + used.ru_stime


def run_once(program, run):
    before = processor_seconds()
    try:
        ran = subprocess.run([program, *run.words], input=run.source, capture_output=True, timeout=MOST_WAITED, check=False)
    except subprocess.TimeoutExpired:
        raise Wrong(f"more than {MOST_WAITED} s by the clock\n{shown(run)}") from None
    if (seconds := processor_seconds() - before) > MOST_SECONDS:
        raise Wrong(f"{seconds:.1f} s of a processor\n{shown(run)}")
    return Ended(ran.returncode, ran.stdout, ran.stderr)


def verdict_of_checker(source):
    """The line of the plain checker's verdict, empty where it accepts; None where Python reads no number so long."""
    try:
        # of a key that stands twice the last counts, as for `check`
        false = checker.first_false(checker.certificate(json.loads(source)))
    except ValueError as error:
        if "digits" in str(error):
            return None
        raise Wrong(f"a verdict on what is no certificate: {error}") from None
    if not false:
        return ""
    condition, index, inner, left, _, right = false
    return f"quantreg: check: Rejected condition={condition} index={index} inner={inner} left={left} right={right}\n"


def judged(program, run, again=False):
    """How a run ended, once nothing is wrong with it. What `certify` wrote goes to `check`."""
    ended = run_once(program, run)
    try:
        if ended.status < 0:
            raise Wrong(f"the signal {-ended.status}")
        if ended.status:
            ended.fault = fault_of(ended)
        elif ended.err:
            raise Wrong("a fault line beside a report")
        elif not is_whole("".join(run.words[:1]), ended.out):
            raise Wrong("a report that isn't whole")
        if run.words == ["check"] and ended.status in (0, 8) and verdict_of_checker(run.source) not in (None, ended.err.decode()):
            raise Wrong("another verdict than the plain checker's")
        if again and (second := run_once(program, run)) != Ended(ended.status, ended.out, ended.err):
            raise Wrong(f"another answer to the same input: {second}"[:MOST_SHOWN])
    except Wrong as wrong:
        raise Wrong(f"{wrong}\n{shown(run, ended)}") from None
    if run.words[:1] == ["certify"] and ended.status == 0:
        checked = judged(program, Run(["check"], ended.out))
        # where a condition overflows, the plain checker has the verdict
        if verdict_of_checker(ended.out) if checked.status == 7 else checked.status:
            raise Wrong(f"a certificate of certify that check doesn't accept\n{shown(run, checked)}")
    return ended


def shown(run, ended=None):
    """A run, and how it ended where it did, in plain text."""
    parts = [shlex.join(run.words), repr(run.source)]
    if ended:
        parts += [f"status {ended.status}", repr(ended.out), repr(ended.err)]
    return "\n".join(f"    {part[:MOST_SHOWN]}" for part in parts)


def certificate_run(chance, program):
    """A certificate that the program writes, and then of either version and changed."""
    for _ in range(4):
        case = grammar.drawn(chance, "certify")
        ended = judged(program, grammar.written(chance, case))
        if ended.status == 0:
            return Run(["check"], certificates.drawn(chance, ended.out))
    return Run(["check"], b"{}\n")


def made(chance, program, job):
    """A run of a job, well-formed or changed."""
    changed = changes.chosen(chance, job)
    if job == "check":
        run = certificate_run(chance, program)
        changed = changed if chance.random() < 0.4 else []
    else:
        case = grammar.drawn(chance, job)
        for change in changed:
            if change.of_case:
                change.make(chance, case)
        run = grammar.written(chance, case)
    for change in changed:
        if not change.of_case:
            change.make(chance, run)
    run.words = [word.replace("\0", "0") for word in run.words]  # no argument of a program has a zero byte
    return run


def drawn_run(program, seed, number):
    """The job and the run of a number."""
    chance = random.Random(f"{seed}/{number}")
    job = chance.choices(list(JOBS), list(JOBS.values()))[0]
    return job, made(chance, program, job)


def tried(program, seed, number):
    """The job of a run, the fault that it met, and what is wrong."""
    job = "check"  # before there is a run, only a certificate for this job can be wrong
    try:
        job, run = drawn_run(program, seed, number)
        return job, judged(program, run, again=number % 4 == 0).fault, None
    except Wrong as wrong:
        return job, "wrong", f"run {number} of the seed {seed}: {wrong}"


def without_detail(fault):
    """A fault without the place or the condition behind it."""
    return " ".join(fault.split()[:2])


def print_counts(counts):
    """Two tables: each job with its runs and reports, and each fault in the order of the man page with how often it was met."""
    print(f"\n{'job':10} {'runs':>8} {'status 0':>9}")
    for job in JOBS:
        runs = sum(count for (of, _), count in counts.items() if of == job)
        print(f"{job:10} {runs:8} {counts[job, '']:9}")
    faults = Counter()
    for (_, fault), count in counts.items():
        faults[fault] += count
    print(f"\n{'fault':42} {'runs':>8}")
    for fault in FAULTS:
        for it in sorted(it for it in faults if without_detail(it) == fault) or [fault]:
            print(f"{it:42} {faults[it]:8}")


def unmet(counts):
    """The jobs without a report, and the faults that a small input can meet and none did."""
    met = {without_detail(fault) for _, fault in counts}
    yield from (f"the job {job} has no report" for job in JOBS if not counts[job, ""])
    yield from (f"never met: {fault}" for fault in FAULTS if fault not in met | TOO_LARGE | OF_STREAMS)


def arguments():
    parser = argparse.ArgumentParser(description=__doc__, formatter_class=argparse.RawDescriptionHelpFormatter)
    parser.add_argument("program", type=Path)
    for name, number in (("--seed", 1), ("--runs", 2000), ("--from", 0), ("--workers", 4)):
        parser.add_argument(name, type=int, default=number, dest=name.strip("-").replace("from", "first"))
    parser.add_argument("--all", action="store_true")
    return parser.parse_args()


def main():
    given = arguments()
    program = str(given.program.resolve())
    counts, failed = Counter(), 0
    with ProcessPoolExecutor(given.workers) as pool:
        for job, fault, wrong in pool.map(partial(tried, program, given.seed), range(given.first, given.first + given.runs), chunksize=20):
            counts[job, fault] += 1
            failed += bool(wrong)
            if wrong:
                print(wrong, flush=True)
    if given.runs == 1:
        if not failed:
            _, run = drawn_run(program, given.seed, given.first)
            print(shown(run, run_once(program, run)))
        return failed
    reports = sum(count for (_, fault), count in counts.items() if not fault)
    print(f"fuzz: {given.runs} runs of the seed {given.seed}: {reports} with status 0, {failed} wrong")
    print_counts(counts)
    lacks = list(unmet(counts))
    print(*lacks, sep="\n", end="\n" if lacks else "")
    return 1 if failed or (given.all and lacks) else 0


if __name__ == "__main__":
    sys.exit(main())
