"""Where the program is found, over files that stand in for one."""

import os
import subprocess
import sys
import tempfile
import unittest
from pathlib import Path
from unittest import mock

import quantreg_exact
from quantreg_exact import find_program, program

PACKAGE = Path(quantreg_exact.__file__).resolve().parent.parent


class Finding(unittest.TestCase):
    def setUp(self):
        room = tempfile.TemporaryDirectory()
        self.addCleanup(room.cleanup)
        self.inside, self.other = (Path(room.name, name) for name in ("inside", "quantreg"))
        for file in (self.inside, self.other):
            file.write_text(f"#!/bin/sh\necho {file.name} $1\n")
            file.chmod(0o755)
        for patch in (mock.patch.object(program, "INSIDE", self.inside), mock.patch.dict(os.environ, {"QUANTREG": "", "PATH": room.name})):
            patch.start()
            self.addCleanup(patch.stop)

    def test_the_order(self):
        self.assertEqual(find_program(), str(self.inside))
        self.inside.unlink()
        self.assertEqual(find_program(), str(self.other))
        os.environ["QUANTREG"] = sys.executable
        self.assertEqual(find_program(), sys.executable)
        self.assertEqual(find_program(self.other), str(self.other))

    def test_one_that_is_missing(self):
        self.inside.unlink()
        self.other.unlink()
        with self.assertRaisesRegex(FileNotFoundError, "no program quantreg: the Debian package quantreg brings it, and so does the wheel"):
            find_program()
        with self.assertRaisesRegex(FileNotFoundError, "no program /nowhere/quantreg: "):
            find_program("/nowhere/quantreg")

    def test_the_command_of_a_wheel(self):
        call = f"import sys; sys.path.insert(0, {str(PACKAGE)!r}); sys.argv = ['quantreg', 'check']; from pathlib import Path\n"
        call += f"from quantreg_exact import program; program.INSIDE = Path({str(self.inside)!r}); program.main()"
        done = subprocess.run([sys.executable, "-c", call], capture_output=True, text=True, check=False)
        self.assertEqual((done.returncode, done.stdout), (0, "inside check\n"), done.stderr)
        self.inside.unlink()
        done = subprocess.run([sys.executable, "-c", call], capture_output=True, text=True, check=False)
        self.assertEqual((done.returncode, done.stderr[:31]), (1, "quantreg: this package of Pytho"))


class Figures(unittest.TestCase):
    def test_matplotlib_is_wanted_where_a_figure_is(self):
        call = f"import sys; sys.path.insert(0, {str(PACKAGE)!r}); sys.modules['matplotlib'] = None; from quantreg_exact import fit\n"
        self.assertEqual(subprocess.run([sys.executable, "-c", call], check=False).returncode, 0)
        done = subprocess.run([sys.executable, "-c", call + "from quantreg_exact import plot_fit"], capture_output=True, text=True, check=False)
        self.assertIn("matplotlib", done.stderr)
        with self.assertRaises(AttributeError):
            quantreg_exact.plot_nothing


if __name__ == "__main__":
    unittest.main()
