"""Programs that stand in for quantreg: they answer with a text, or refuse a job and hand all others on."""

import os
import stat
import tempfile
import unittest
import warnings
from contextlib import contextmanager
from pathlib import Path

from quantreg_exact import QuantregWarning

TOP = Path(__file__).resolve().parents[3]
STACKLOSS = TOP / "examples" / "stackloss.csv"
ENGEL = TOP / "examples" / "engel.csv"

needs_program = unittest.skipUnless(os.environ.get("QUANTREG"), "the variable QUANTREG names no program")


@contextmanager
def script(text):
    """A program that is a script of the shell, whose folder stands in the variable `room`."""
    with tempfile.TemporaryDirectory() as room:
        program = Path(room) / "program"
        program.write_text(f"#!/bin/sh\nroom={room}\n{text}")
        program.chmod(program.stat().st_mode | stat.S_IXUSR)
        yield program


def answered(text, call):
    """What a call gives whose program answers with this text."""
    with script(f"cat > $room/table\ncat <<'END'\n{text}END\n") as program:
        return call(program)


def refused(line, status, call):
    """What a call gives whose program ends with this line and status."""
    with script(f"cat > $room/table\necho '{line}' >&2\nexit {status}\n") as program:
        return call(program)


def refusing(words, line, call):
    """What a call gives whose program ends with status 7 where its words match a pattern of the shell, and else is quantreg."""
    choice = f'case "$*" in {words}) cat > $room/table; echo \'{line}\' >&2; exit 7 ;; esac\n'
    with script(f'{choice}exec "{os.environ["QUANTREG"]}" "$@"\n') as program:
        return call(program)


@contextmanager
def noted():
    """The texts of the package's warnings that are given within."""
    texts = []
    with warnings.catch_warnings(record=True) as caught:
        warnings.simplefilter("always")
        yield texts
    texts += [str(it.message) for it in caught if issubclass(it.category, QuantregWarning)]


def fields(report, kind):
    """What a report says, by the fields of its kind, without notes."""
    return {key: vars(report)[key] for key in kind.__dataclass_fields__ if key != "notes"}
