"""Certificates that Coq accepts, and spoilt ones with what it says of each; skipped where coqc is missing.

Where QUANTREG names the program, its certificates are tried too: whole, and with one number changed by 1/10^9.
"""

import json
import os
import re
import shutil
import subprocess
import sys
import tempfile
import unittest
from fractions import Fraction
from pathlib import Path

HERE = Path(__file__).resolve().parent
EXAMPLES = HERE.parent.parent / "examples"
sys.path.insert(0, str(HERE.parent))
from quantreg_check import certificate as read_certificate  # noqa: E402
from test_quantreg_check import CHAIN, DOUBLES, FIVE, LINE, RANKED, certificate, changed, data_row, in_fractions, segment  # noqa: E402

REALS = "ClassicalDedekindReals"
AXIOMS = {f"{REALS}.sig_forall_dec", f"{REALS}.sig_not_dec", "FunctionalExtensionality.functional_extensionality_dep", "Classical_Prop.classic"}
TABLE = """y,x,z,f,w
1,0,1,a,1
3,2,0,b,2
2,1/2,2,a,1/3
5,4,4,c,1
4,5,3,b,2
7,13/2,5,c,1
3,7,7,a,5/2
6,3,6,b,1/2
"""


def certify(formula, table, *options, lo="0", hi="1"):
    """The certificate that the program writes."""
    run = [os.environ["QUANTREG"], "certify", "--lo", lo, "--hi", hi, "--formula", formula, *options]
    return json.loads(subprocess.run(run, input=table, capture_output=True, text=True, check=True).stdout)


def sides_of(cert, at):
    """The sides of a segment, of any version."""
    return read_certificate(cert)["segments"][at]["sides"]


@unittest.skipUnless(shutil.which("coqc"), "coqc is missing")
class Theorems(unittest.TestCase):
    @classmethod
    def setUpClass(cls):
        cls.folder = tempfile.TemporaryDirectory()
        for name in ("Statement", "Soundness", "Ranks"):
            shutil.copy(HERE / f"{name}.v", cls.folder.name)
            subprocess.run(["coqc", "-Q", ".", "Quantreg", f"{name}.v"], cwd=cls.folder.name, check=True)

    @classmethod
    def tearDownClass(cls):
        cls.folder.cleanup()

    def said(self, cert):
        """The status of coqc, and what it says of the theorems of a certificate, in one line."""
        made = subprocess.run([sys.executable, HERE / "fit_of.py"], input=json.dumps(cert), capture_output=True, text=True, check=True)
        Path(self.folder.name, "Fit.v").write_text(made.stdout)
        ran = subprocess.run(["coqc", "-Q", ".", "Quantreg", "Fit.v"], cwd=self.folder.name, capture_output=True, text=True)
        return ran.returncode, " ".join((ran.stdout + ran.stderr).split())

    def accepted(self, cert):
        status, said = self.said(cert)
        self.assertEqual(status, 0, said)
        axioms = set(re.findall(r"(\w+\.\w+) :", said.partition("Axioms:")[2]))
        self.assertTrue(axioms and axioms <= AXIOMS, axioms)

    def refused(self, cert, why):
        status, said = self.said(cert)
        self.assertNotEqual(status, 0)
        self.assertIn(f'"{why}"', said)

    def test_certificates_that_are_worked_by_hand(self):
        for cert in (LINE, CHAIN, {**CHAIN, "version": 3}, DOUBLES, RANKED, FIVE, in_fractions(LINE), in_fractions(RANKED)):
            self.accepted(cert)

    def test_coefficients_that_are_no_vertex(self):
        # Of the records 1 to 4 each number from 2 to 3 is a median; the basic row, the record 3, has its upper cost.
        rows = [data_row(y, 1) for y in range(1, 5)]
        self.accepted(certificate(rows, [segment("1/2", "1/2", "5/2", "--*+", "1/2", "1/2", "2", "2")], lo="1/2", hi="1/2"))

    def test_where_two_segments_meet(self):
        # Two records of one response: at 1/2 their dual values are any that sum to 0, so two segments may disagree.
        rows = [data_row(5, 1), data_row(5, 1)]
        halves = [segment("0", "1/2", "5", "+*", "0", "-1/2", "0", "0"), segment("1/2", "1", "5", "-*", "1/2", "0", "0", "0")]
        self.refused(certificate(rows, halves), "Refused (DualValuesDiffer 1 1)")
        halves[1] = segment("1/2", "1", "5", "*-", "1/2", "0", "0", "0")
        self.accepted(certificate(rows, halves))

    def test_spoilt_segments(self):
        table = [
            ("segments/0/coef/0", "1/7", "ResidualOnWrongSide 1 1"),
            ("segments/0/coef", ["0"], "WrongLengthInSegment 1"),
            ("segments/0/sides", "*-*", "ResidualOnWrongSide 1 2"),
            ("segments/1/sides", "***", "ResidualOnWrongSide 2 1"),
            ("segments/0/basic_hi/1", "-1/7", "DualSumNotZeroOrLossWrong 1 true"),
            ("segments/1/basic_lo/0", "4/5", "DualValueBeyondCost 2 false"),
            ("segments/1/loss_hi", "1", "DualSumNotZeroOrLossWrong 2 true"),
            ("segments/1/lo", "4/5", "GapOrOverlapAtSegment 2"),
            ("segments/1/hi", "4/5", "GapOrOverlapAtSegment 3"),
            ("segments/1/hi", "1/2", "GapOrOverlapAtSegment 2"),
            ("segments/0/lo", "1/5", "GapOrOverlapAtSegment 1"),
            ("rows/1/down0", "1/2", "NegativeCostOrWrongLengthInRow 2"),
            ("rows/2/x", ["1"], "NegativeCostOrWrongLengthInRow 3"),
            ("rows/1/y", "1/2", "ResidualOnWrongSide 1 2"),
        ]
        for path, value, why in table:
            with self.subTest(path=path, value=value):
                self.refused(changed(LINE, path, value), f"Refused ({why})")

    def test_spoilt_intervals(self):
        table = [
            ("intervals/0/low/value", "3/7", "LowEndRefused"),
            ("intervals/0/low/coef/1", "3/7", "LowEndRefused"),
            ("intervals/0/low/inside/0", "1/3", "LowEndRefused"),
            ("intervals/0/low/outside/1", "1/3", "LowEndRefused"),
            ("intervals/0/high/outside", ["0", "1/2"], "HighEndRefused"),
            ("intervals/0/crit", "1/2", "HighEndRefused"),
            ("intervals/0/crit", "3", "LowEndRefused"),
            ("intervals/0/projection/0", "1", "NotAProjection"),
        ]
        for path, value, why in table:
            with self.subTest(path=path, value=value):
                self.refused(changed(RANKED, path, value), why)
        self.refused(changed(FIVE, "intervals/0/high/ray/0", "2"), "HighEndRefused")

    @unittest.skipUnless(os.environ.get("QUANTREG"), "QUANTREG names no program")
    def test_fits_of_the_program(self):
        ranks = ["--crit", "2.7055", "--rank-at", "1/4,1/2"]
        for words in (["y ~ x + f + qss(z, 1/3)", "--weights", "w"], ["y ~ x + f", "--weights", "w", *ranks], ["y ~ 0 + x + I(x^2)", *ranks]):
            with self.subTest(words=words):
                self.accepted(certify(words[0], TABLE, *words[1:]))

    @unittest.skipUnless(os.environ.get("QUANTREG"), "QUANTREG names no program")
    def test_a_billionth_is_refused(self):
        cert = certify("stack.loss ~ .", (EXAMPLES / "stackloss.csv").read_text())
        basic = sides_of(cert, 12).index("*") + 1
        table = [
            # A basic row is fitted no more. Row 2 leaves below segment 13 at its high end, where its dual value is minus its cost below;
            # row 12 has come from above the fit, with its cost above at the low end. The dual value of row 4 is 0 at the quantile 0.
            ("segments/12/coef/1", f"ResidualOnWrongSide 13 {basic}"),
            ("segments/12/hi", "DualValueBeyondCost 13 true"),
            ("segments/12/moves/0/value", "DualValueBeyondCost 13 false"),
            ("segments/12/basic_hi/1", "DualSumNotZeroOrLossWrong 13 true"),
            ("segments/12/loss_hi", "DualSumNotZeroOrLossWrong 13 true"),
            ("rows/3/y", "DualSumNotZeroOrLossWrong 1 true"),
        ]
        for path, why in table:
            with self.subTest(path=path):
                old = cert
                for key in path.split("/"):
                    old = old[int(key) if isinstance(old, list) else key]
                self.refused(changed(cert, path, str(Fraction(old) + Fraction(1, 10**9))), f"Refused ({why})")

    @unittest.skipUnless(os.environ.get("QUANTREG"), "QUANTREG names no program")
    def test_the_one_command(self):
        cert = certify("stack.loss ~ .", (EXAMPLES / "stackloss.csv").read_text(), "--crit", "2.7055", "--rank-at", "1/2")
        file = Path(self.folder.name, "stackloss.json")
        for found, status, line in (
            (cert, 0, "interval_4 : forall v : R, not_refused rows (1 / 2) (5411 / 2000) 3 v <->"),
            (changed(cert, "segments/3/loss_hi", "1"), 1, "refused: fit_is_optimal: DualSumNotZeroOrLossWrong 4 true"),
        ):
            file.write_text(json.dumps(found))
            ran = subprocess.run([HERE / "check.sh", file], capture_output=True, text=True)
            self.assertEqual(ran.returncode, status, ran.stdout + ran.stderr)
            self.assertIn("rows 21, columns 4, segments 25, intervals 4:", ran.stderr)
            self.assertIn(line, " ".join(ran.stdout.split()))


if __name__ == "__main__":
    unittest.main()
