"""Finding and running the program."""

import os
import shutil
import subprocess
import sys
from pathlib import Path

from .advice import of_words
from .faults import QuantregError

# Where a wheel has the program.
INSIDE = Path(__file__).resolve().parent / "bin" / "quantreg"


def find_program(program=None) -> str:
    """The path of the program: the one named, else that of the variable QUANTREG, else the one inside the wheel, else `quantreg` on the path."""
    named = program or os.environ.get("QUANTREG") or (INSIDE if INSIDE.is_file() else "quantreg")
    found = shutil.which(os.fspath(named))
    if not found:
        brings = "the Debian package quantreg brings it, and so does the wheel of quantreg_exact"
        raise FileNotFoundError(f"no program {named}: {brings}; or name it by `program=` or the variable QUANTREG")
    return found


def main() -> None:
    """The command `quantreg` of a wheel: the program inside it takes over."""
    if not INSIDE.is_file():
        sys.exit("quantreg: this package of Python was not installed from a wheel, and has no program inside")
    os.execv(INSIDE, ["quantreg", *sys.argv[1:]])


def run(words, table: bytes, program=None) -> str:
    """The report's text of a run with these words, `table` (bytes) being its standard input.

    Raises QuantregError where the program ends with another status than 0, and FileNotFoundError where there is none.
    """
    done = subprocess.run([find_program(program), *words], input=table, capture_output=True, check=False)
    if done.returncode != 0:
        fault = QuantregError(done.returncode, done.stderr.decode("utf-8", "replace"))
        raise QuantregError(fault.status, fault.line, of_words(fault, words))
    return done.stdout.decode("utf-8")
