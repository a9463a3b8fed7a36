"""The rows of certificates beside tables, each written by hand; and runs of the checker with --table.

Where QUANTREG names the program, certificates that it writes are looked at too.
"""

import ast
import io
import json
import os
import subprocess
import tempfile
import unittest
from contextlib import redirect_stderr, redirect_stdout
from pathlib import Path

import quantreg_check
import quantreg_rows
from test_quantreg_check import LINE, certificate, changed, data_row, segment

HERE = Path(__file__).resolve().parent
EXAMPLES = HERE.parent / "examples"
SAME, DIFFERENT, UNKNOWN = quantreg_rows.SAME, quantreg_rows.DIFFERENT, quantreg_rows.UNKNOWN
# The table of LINE, and the same with all that a table may have beside its numbers.
PLAIN = b"y,x\n0,0\n2,1\n3,3\n"
DRESSED = b'\xef\xbb\xbf"",z,y,"x"\r\n"a",q,0, 0 \r\n\r\n"b","q,r",2e0,2/2\r\n"c",,+3.,.3e1'


def answer(cert, table, formula=None, weights=None):
    """The status and the line of an answer, with the table called T."""
    with tempfile.NamedTemporaryFile(suffix=".csv") as file:
        file.write(table)
        file.flush()
        status, line = quantreg_rows.answer(quantreg_check.certificate(cert), file.name, formula, weights)
    return status, line.replace(file.name, "T")


class Formulas(unittest.TestCase):
    def table(self, cert, table, cases, weights=None):
        for formula, status, word in cases:
            with self.subTest(table=table, formula=formula):
                found, line = answer(cert, table, formula, weights)
                self.assertEqual(found, status, line)
                self.assertIn(word, line)

    def test_the_rows_of_a_plain_formula(self):
        for formula in ("y ~ x", "y~x", "y ~ .", "`y` ~ `x`", "y ~ 1 + x", "y ~ 0 + x + 1", "y ~ + x + x", "y ~ -x + x", "y\n~\tx - 0"):
            self.assertEqual(answer(LINE, PLAIN, formula), (SAME, f"the rows are those of T by {formula}, 3 of 3 records"))
        self.table(LINE, DRESSED, [("y ~ x", SAME, "3 of 3"), ("y ~ . - z", SAME, "3 of 3")])

    def test_other_columns(self):
        self.table(
            LINE,
            b"y,x,z\n0,0,0\n2,1,1\n3,3,2\n",
            [
                ("y ~ z", DIFFERENT, "row 3, record 3 of the table: z is 3 in the certificate, and 2 in the table"),
                ("x ~ y", DIFFERENT, "row 2, record 2 of the table: x is 2 in the certificate, and 1 in the table"),
                ("y ~ 0 + z + x", DIFFERENT, "row 1, record 1 of the table: z is 1 in the certificate, and 0 in the table"),
                ("y ~ x - 1", DIFFERENT, "the certificate has 2 columns, and the formula 1"),
                ("y ~ x + 0", DIFFERENT, "2 columns, and the formula 1"),
                ("y ~ .", DIFFERENT, "2 columns, and the formula 3"),
                ("y ~ w", DIFFERENT, "the table has no column w"),
            ],
        )

    def test_changed_tables(self):
        for old, new, word in [
            (b"2,1", b"2,3/2", "row 2, record 2 of the table: x is 1 in the certificate, and 3/2 in the table"),
            (b"2,1", b"2.0000000000000001,1", "record 2 of the table: y is 2 in the certificate"),
            (b"0,0\n2,1", b"2,1\n0,0", "row 1, record 1 of the table: y is 0"),
            (b"3,3\n", b"3,3\n3,3\n", "the certificate has 3 rows, and the table keeps 4 records"),
            (b"3,3", b"3,NA", "the certificate has 3 rows, and the table keeps 2 records"),
            (b"3,3", b"3", "record 3 has 1 fields, and the header 2"),
            (b"y,x", b"y,y", "two of one name"),
            (PLAIN, b"\n\n", "no header"),
            (PLAIN, b"y,\xff\n", "no UTF-8"),
        ]:
            self.table(LINE, PLAIN.replace(old, new), [("y ~ x", DIFFERENT, word)])

    def test_numbers_that_are_too_long_to_be_shown(self):
        word = "y is (a number of more than 60 digits) in the certificate, and 3 in the table"
        for long in ("1" * 61, "1/1" + 60 * "0", "1e9999"):
            self.table(changed(LINE, "rows/2/y", long), PLAIN, [("y ~ x", DIFFERENT, word)])

    def test_records_that_are_left_out(self):
        table = b"y,x,z\n0,0,\n,7,1\n2,1,1\nNA,1,1\n3, \t,1\n3,3,1\n"
        self.table(LINE, table, [("y ~ x", SAME, "3 of 6 records"), ("y ~ x + z", DIFFERENT, ""), (None, UNKNOWN, "name it by --formula")])

    def test_weights(self):
        heavy = {"down0": "3", "down1": "-3", "up1": "3"}
        rows = [data_row(5, 1), {**data_row(2, 1), **heavy}]
        # Of the responses 5 and 2 with the weights 1 and 3 the second is the median, and 5 loses 3/2.
        cert = certificate(rows, [segment("1/2", "1/2", "2", "+*", "-1/2", "-1/2", "3/2", "3/2")], lo="1/2", hi="1/2")
        table = b"y,w\n5,1\n9,0\n8,\n2,3\n"
        self.table(cert, table, [("y ~ 1", SAME, "2 of 4 records, weighted by w")], "w")
        self.table(cert, table, [("y ~ 1", DIFFERENT, "the table keeps 4 records")])
        self.table(cert, b"y,w\n5,1\n2,2\n", [("y ~ 1", DIFFERENT, "the weight is 3 in the certificate, and 2 in the table")], "w")
        self.table(cert, b"y,w\n5,1\n2,3\n", [("y ~ 1", DIFFERENT, "the weight is 3 in the certificate, and 1 in the table")])
        self.assertEqual(answer(cert, b"y,w\n5,1\n2,3\n"), (SAME, "the rows are those of T by y ~ 1, 2 of 2 records, weighted by w"))

    def test_what_this_can_not_tell(self):
        table = PLAIN.replace(b"y,x", b"y,x,f").replace(b"\n2,1", b"\n2,1,b").replace(b"0,0\n", b"0,0,a\n").replace(b"3,3\n", b"3,3,a\n")
        cases = ["x:x", "x * x", "x^2", "(x)", "factor(x)", "I(x)", "offset(x)", "qss(x, 1)", "x + 2", "x + 1e0", "x ++ x", "x +", "x / x"]
        self.table(LINE, table, [(f"y ~ {it}", UNKNOWN, "is no plain formula") for it in cases])
        self.table(LINE, table, [("y ~ x + f", UNKNOWN, "the column f is a factor: record 1 has 'a'"), ("y ~ .", UNKNOWN, "f is a factor")])
        self.table(LINE, table, [("", UNKNOWN, "no formula"), ("log(y) ~ x", UNKNOWN, "no formula"), ("y", UNKNOWN, "no formula")])
        self.table(LINE, b"y,x\n0,0\n2,1\n3,1e501\n", [("y ~ x", UNKNOWN, "record 3 has a number of more than 500 digits in x")])
        self.assertEqual(quantreg_rows.answer(quantreg_check.certificate(LINE), "/nowhere/table")[0], UNKNOWN)

    def test_rows_of_a_smooth(self):
        penalty = {"down0": "1", "down1": "0", "up0": "1", "up1": "0", "x": ["1", "0"], "y": "0"}
        self.table({**LINE, "rows": [*LINE["rows"][:2], penalty]}, PLAIN, [("y ~ x", UNKNOWN, "row 3 has the costs of no record")])

    def test_with_no_formula(self):
        for table, status, line in [
            (PLAIN, SAME, "the rows are those of T by y ~ 1 + x, 3 of 3 records"),
            (DRESSED.replace(b'"x"', b'"x y"'), SAME, "the rows are those of T by y ~ 1 + `x y`, 3 of 3 records"),
            (
                PLAIN.replace(b"2,1", b"2,5"),
                DIFFERENT,
                "not the rows of T: column 2 is x but for 1 of 3 records: record 2 is 1 in the certificate, and 5 in the table",
            ),
            (
                b"y,x\n0,a\n2,b\n3,a\n",
                UNKNOWN,
                "cannot tell whether the rows are those of T: column 2 is no column of the table: name the formula by --formula",
            ),
            (b"y,x\n0,0\n2,1\n", DIFFERENT, "not the rows of T: the certificate has 3 rows, and the table 2 records"),
        ]:
            self.assertEqual(answer(LINE, table), (status, line))


class Runs(unittest.TestCase):
    def run_on(self, cert, *words):
        with tempfile.TemporaryDirectory() as room:
            table, file = Path(room, "table.csv"), Path(room, "fit.json")
            table.write_bytes(PLAIN)
            file.write_text(json.dumps(cert))
            said, told = io.StringIO(), io.StringIO()
            with redirect_stdout(said), redirect_stderr(told):
                try:
                    status = quantreg_check.main([{"TABLE": str(table), "FILE": str(file)}.get(word, word) for word in words])
                except SystemExit as end:
                    status = end.code
        return status, said.getvalue().splitlines()[-1:], told.getvalue()

    def test_the_status_says_what_the_last_line_says(self):
        status, (last,), _ = self.run_on(LINE, "--table", "TABLE", "FILE")
        self.assertEqual((status, last[:24], last[-27:]), (0, "the rows are those of /t", "by y ~ 1 + x, 3 of 3 records"[-27:]))
        self.assertEqual(self.run_on(LINE, "FILE", "--table=TABLE", "--formula=y ~ x")[0], 3)  # a file by that very name isn't there
        self.assertEqual(self.run_on(LINE, "FILE", "--table", "TABLE", "--formula=y ~ x")[0], 0)
        self.assertEqual(self.run_on(LINE, "FILE", "--table", "TABLE", "--formula", "x ~ y")[0], 1)
        self.assertEqual(self.run_on(LINE, "FILE", "--table", "TABLE", "--formula", "y ~ x:x")[0], 3)
        status, (last,), _ = self.run_on(LINE, "FILE")
        self.assertEqual((status, last[:18]), (0, "So no coefficients"))

    def test_a_certificate_that_is_rejected_stays_so(self):
        status, (last,), _ = self.run_on(changed(LINE, "segments/0/coef/1", "2"), "--table", "TABLE", "FILE")
        self.assertEqual((status, last[:17]), (1, "Condition 7 says "))

    def test_words_that_it_does_not_take(self):
        for words in (["--tables", "TABLE"], ["--formula", "y ~ x", "FILE"], ["--table", "TABLE", "--weights", "w", "FILE"], ["--table"]):
            status, said, told = self.run_on(LINE, *words)
            self.assertEqual((status, said), (2, []))
            self.assertIn("usage: ", told)

    def test_it_stands_on_the_standard_library_alone(self):
        tree = ast.parse((HERE / "quantreg_rows.py").read_text())
        imports = [ast.unparse(it) for it in ast.walk(tree) if isinstance(it, (ast.Import, ast.ImportFrom))]
        self.assertEqual(imports, ["import argparse", "import csv", "import io", "import re", "from fractions import Fraction"])


@unittest.skipUnless(os.environ.get("QUANTREG"), "the variable QUANTREG names no program")
class Certificates(unittest.TestCase):
    """What the program certifies, beside the table that it read and beside changed ones."""

    def certificate_of(self, table, *words):
        job = [os.environ["QUANTREG"], "certify", "--lo", "1/2", "--hi", "1/2", *words]
        return json.loads(subprocess.run(job, input=table, capture_output=True, check=True).stdout)

    def test_the_table_and_a_changed_one(self):
        table = (EXAMPLES / "stackloss.csv").read_bytes()
        cert = self.certificate_of(table, "--formula", "stack.loss ~ .")
        for formula in ("stack.loss ~ .", None):
            self.assertEqual(answer(cert, table, formula)[0], SAME)
            self.assertEqual(answer(cert, table.replace(b'"4",62', b'"4",63'), formula)[0], DIFFERENT)
        self.assertEqual(answer(cert, table, "stack.loss ~ Air.Flow + Acid.Conc. + Water.Temp")[0], DIFFERENT)

    def test_weights_and_records_that_are_left_out(self):
        table = b"y,x,w\n1,0,1/2\n2,1,0\n,2,1\n4,3,2\n7,4,.5\n6,5,1e1\n"
        cert = self.certificate_of(table, "--formula", "y ~ x - 1", "--weights", "w")
        self.assertEqual(answer(cert, table, "y ~ x - 1", "w"), (SAME, "the rows are those of T by y ~ x - 1, 4 of 6 records, weighted by w"))
        self.assertEqual(answer(cert, table.replace(b"1e1", b"1e2"), "y ~ x - 1", "w")[0], DIFFERENT)

    def test_factors_smooths_and_arithmetics(self):
        table = b"y,x,f\n1,0,a\n2,1,a\n5,2,b\n4,3,b\n7,4,c\n6,5,c\n8,7,c\n"
        for formula in ("y ~ f", "y ~ x + f", "y ~ 1 + qss(x, 1)", "y ~ x + I(x^2)", "y ~ x + offset(2*x)"):
            cert = self.certificate_of(table, "--formula", formula)
            self.assertEqual(answer(cert, table, formula)[0], UNKNOWN, formula)


if __name__ == "__main__":
    unittest.main()
