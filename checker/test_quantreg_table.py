"""Tables of decimals of reports that are written by hand; and, where QUANTREG names the program, of what it prints on each job, beside
decimals that are worked out apart, digit by digit.
"""

import ast
import csv
import io
import os
import re
import subprocess
import sys
import unittest
from pathlib import Path

import quantreg_table
from quantreg_table import NoReport, decimal, table_text

HERE = Path(__file__).resolve().parent
EXAMPLES = HERE.parent / "examples"
HEAD = "records 3 dropped 1\ncolumn 1 (Intercept)\ncolumn 2 x\n"
FIRST = "segment 1 0 3/5\ncoef 1 0\ncoef 2 1\nloss 0 3/5\nscores *1*\nbasic 1 1 0\nbasic 3 1 1/5\n"
SECOND = "segment 2 3/5 1\ncoef 1 3/2\ncoef 2 1/2\nloss 3/5 0\nscores 0**\nbasic 2 1 0\nbasic 3 1/5 0\n"
PROCESS = f"quantreg 1\n{HEAD}data 3 penalty 0\npivots 2\n{FIRST}{SECOND}end\n"
INTERVALS = PROCESS.replace("end\n", "interval 1 1/3 -Inf 3/2\ninterval 2 1/3 -2/3 Inf\nend\n")
RANKS = f"quantreg ranks 1\n{HEAD}pivots 2\nwilcoxon 1 -1/5\nwilcoxon 2 3/10\nwilcoxon 3 -1/10\nend\n"
TEST = f"quantreg test 1\n{HEAD}tested 2\npivots 2\nscore 2 1\nstatistic 18/7\nend\n"
PREDICT = f"quantreg predict 1\n{HEAD}pivots 2\npredict 4\nstep 0 3/5 4\nstep 3/5 1 7/2\nrearranged 4\nstep 0 2/5 7/2\nstep 2/5 1 4\nend\n"
PATH = f"quantreg path 1\n{HEAD}data 3 penalty 1\npivots 3\nsegment 1 1/4 2\ncoef 1 2\ncoef 2 0\nloss 3/2 3/2\nsides -*+*\ndual 2 0 0\ndual 4 -3/2 -3/2\nend\n"
SAMPLE = "quantreg sample 1\nrecords 2 dropped 0\ncolumns 2\nsegments 1\npivots 0\nloss 1/6 0\nend\n"
CHECK = "quantreg check 1\ncolumns 2\nrows 3\nsegments 2\nintervals 0\naccepted\nend\n"
ROWS = '{"down0":"1","down1":"-1","up0":"0","up1":"1","x":["1"],"y":"7/3"}'
END = '{"coef":["7/3"],"inside":["0"],"kind":"%s","sides":"*",%s}'
LOW, HIGH = END % ("infinite", '"ray":["-1"]'), END % ("finite", '"outside":["1"],"value":"7/3"')
INTERVAL = f'{{"column":0,"crit":"1","high":{HIGH},"low":{LOW},"projection":["0"],"tau":"1/2"}}'
SEGMENT = '{"basic_hi":["0"],"basic_lo":["0"],"coef":["7/3"],"hi":"1/2","lo":"1/2","loss_hi":"0","loss_lo":"0","sides":"*"}'
CERTIFICATE = f'{{"columns":1,"hi":"1/2","intervals":[{INTERVAL}],"kind":"quantreg-certificate","lo":"1/2","rows":[{ROWS}],"segments":[{SEGMENT}],"version":1}}\n'


class Reports(unittest.TestCase):
    def shown(self, report, *lines, **how):
        self.assertEqual(table_text(report, **how), "".join(line + "\n" for line in lines))

    def test_a_process(self):
        self.shown(PROCESS, "lo,hi,(Intercept),x,loss_lo,loss_hi", "0.00,0.60,0.00,1.00,0.00,0.60", "0.60,1.00,1.50,0.50,0.60,0.00", digits=2, as_csv=True)

    def test_columns_are_aligned(self):
        self.shown(
            INTERVALS.replace("column 2 x", "column 2 flow of air"),
            " lo   hi  (Intercept)  flow of air  loss_lo  loss_hi",
            "0.0  0.6          0.0          1.0      0.0      0.6",
            "0.6  1.0          1.5          0.5      0.6      0.0",
            "",
            "column       tau   low  high",
            "(Intercept)  0.3  -Inf   1.5",
            "flow of air  0.3  -0.7   Inf",
            digits=1,
        )

    def test_one_part(self):
        self.shown(INTERVALS, "column,tau,low,high", "(Intercept),0.33333,-Inf,1.50000", "x,0.33333,-0.66667,Inf", as_csv=True, name="intervals")
        with self.assertRaisesRegex(NoReport, "it has no part 'intervals': it has segments, scores"):
            table_text(PROCESS, name="intervals")

    def test_rankscores(self):
        lines = ["0.0,0.6,1,1.0,0.0", "0.0,0.6,2,1.0,1.0", "0.0,0.6,3,1.0,0.2", "0.6,1.0,1,0.0,0.0", "0.6,1.0,2,1.0,0.0", "0.6,1.0,3,0.2,0.0"]
        self.shown(PROCESS, "lo,hi,record,score_lo,score_hi", *lines, digits=1, as_csv=True, name="scores")
        with_penalty = PROCESS.replace("penalty 0", "penalty 2").replace("scores *1*", "scores *1*+-").replace("scores 0**", "scores 0**-+")
        self.shown(with_penalty, "lo,hi,record,score_lo,score_hi", *lines, digits=1, as_csv=True, name="scores")

    def test_ranks(self):
        self.shown(RANKS, "record,score", "1,-0.20", "2,0.30", "3,-0.10", digits=2, as_csv=True)

    def test_a_rank_test(self):
        self.shown(TEST, "column,score", "x,1.000", "", "statistic", "2.571", digits=3, as_csv=True)

    def test_predictions(self):
        head = "record,lo,hi,prediction"
        self.shown(PREDICT, head, "4,0.0,0.6,4.0", "4,0.6,1.0,3.5", "", head, "4,0.0,0.4,3.5", "4,0.4,1.0,4.0", digits=1, as_csv=True)
        self.shown(PREDICT, head, "4,0.0,0.4,3.5", "4,0.4,1.0,4.0", digits=1, as_csv=True, name="rearranged")

    def test_a_path(self):
        self.shown(PATH, "lo,hi,(Intercept),x,loss_lo,loss_hi", "0.25,2.00,2.00,0.00,1.50,1.50", digits=2, as_csv=True)

    def test_summaries(self):
        self.shown(SAMPLE, "records,dropped,columns,segments,pivots,loss_lo,loss_hi", "2,0,2,1,0,0.1667,0.0000", digits=4, as_csv=True)
        self.shown(CHECK, "columns,rows,segments,intervals,verdict", "2,3,2,0,accepted", as_csv=True)

    def test_a_certificate(self):
        self.shown(CERTIFICATE, "lo,hi,column 1,loss_lo,loss_hi", "0.50,0.50,2.33,0.00,0.00", "", "column,tau,low,high", "column 1,0.50,-Inf,2.33", digits=2, as_csv=True)

    def test_each_kind_of_report_that_the_program_prints_is_known(self):
        sources = "".join(it.read_text() for it in sorted((HERE.parent / "crates/report_text/src").glob("*.rt")))
        printed = set(re.findall(r'put\(b"(quantreg(?: \w+)? \d+)\\n"\)', sources))
        self.assertEqual(printed, set(quantreg_table.JOBS))

    def test_names_as_they_stand(self):
        report = INTERVALS.replace("column 2 x", 'column 2 segment 1, "a" coef\\x0a')
        self.assertEqual(next(csv.reader(io.StringIO(table_text(report, as_csv=True))))[3], 'segment 1, "a" coef\\x0a')
        self.assertIn('  segment 1, "a" coef\\x0a  ', table_text(report))

    def test_what_is_no_report(self):
        for text, why in [
            ("", "it is empty"),
            ("quantreg 2\nend\n", "its first line is that of no report"),
            (PROCESS.removesuffix("end\n"), "it has no line 'end'"),
            (PROCESS.removesuffix("\n"), "it has no line 'end'"),
            (PROCESS.replace("coef 2 1\n", ""), "has not a coefficient for each column"),
            (PROCESS.replace("coef 2 1\n", "coef 1 1\n"), "has not a coefficient for each column"),
            (PROCESS.replace("loss 0 3/5\n", ""), "it has 0 lines 'loss'"),
            (PROCESS.replace("loss 0 3/5", "loss 0"), "'0' has 1 words, and not 2"),
            (PROCESS.replace("coef 2 1\n", "coef 2 one\n"), "'one' is no number"),
            (PROCESS.replace("coef 2 1\n", "coef 2 1/0\n"), "'1/0' is no number"),
            (PROCESS.replace("coef 2 1\n", "coef 2 1e3\n"), "'1e3' is no number"),
            (PROCESS.replace("basic 1 1 0\n", ""), "its lines are not those of such a report"),
            (PROCESS.replace("scores *1*", "scores *?*"), "its lines are not those of such a report"),
            (INTERVALS.replace("interval 2", "interval 3"), "it has no column 3"),
            (PREDICT.replace("predict 4", "predict four"), "'four' is no count"),
            (CHECK.replace("accepted\n", ""), "it has no line 'accepted'"),
            (CERTIFICATE.replace('"version":1', '"version":4'), "it is no certificate: "),
            ("{", "it is no certificate: "),
        ]:
            with self.subTest(text=text), self.assertRaisesRegex(NoReport, re.escape(why)):
                table_text(text)


class Rounding(unittest.TestCase):
    def test_the_nearest_decimal_and_of_two_the_even_one(self):
        for text, digits, wanted in [
            ("1/2", 0, "0"), ("3/2", 0, "2"), ("5/2", 0, "2"), ("-5/2", 0, "-2"), ("7/2", 0, "4"),
            ("1/8", 2, "0.12"), ("3/8", 2, "0.38"), ("-1/8", 2, "-0.12"), ("1/8", 3, "0.125"), ("1/8", 5, "0.12500"),
            ("2/3", 4, "0.6667"), ("-2/3", 4, "-0.6667"), ("1/3", 4, "0.3333"), ("999/1000", 2, "1.00"), ("-1/1000", 2, "0.00"),
            ("13693/345", 5, "39.68986"), ("12500001/100000000", 2, "0.13"), ("12499999/100000000", 2, "0.12"), ("7", 0, "7"), ("-12", 1, "-12.0"),
        ]:
            with self.subTest(text=text, digits=digits):
                self.assertEqual(decimal(quantreg_table.number(text), digits), wanted)

    def test_numbers_beyond_a_float(self):
        text = RANKS.replace("-1/5", f"{10**400 + 1}/{3 * 10**400}").replace("3/10", str(2**127 - 1))
        lines = table_text(text, digits=20, as_csv=True).splitlines()
        self.assertEqual(lines[1:3], ["1,0." + "3" * 20, "2,170141183460469231731687303715884105727." + "0" * 20])


class Command(unittest.TestCase):
    """The script as it is called."""

    def run_on(self, text, *words):
        done = subprocess.run([sys.executable, HERE / "quantreg_table.py", *words], input=text.encode(), capture_output=True, check=False)
        return done.returncode, done.stdout.decode(), done.stderr.decode()

    def test_a_report_on_standard_input_and_in_a_file(self):
        self.assertEqual(self.run_on(RANKS, "--csv", "--digits", "1"), (0, "record,score\n1,-0.2\n2,0.3\n3,-0.1\n", ""))
        self.assertEqual(self.run_on(RANKS), (0, "record     score\n     1  -0.20000\n     2   0.30000\n     3  -0.10000\n", ""))
        self.assertEqual(self.run_on("", "/nowhere/report")[:2], (1, ""))

    def test_a_statistic_of_thousands_of_digits(self):
        text = TEST.replace("18/7", f"{'9' * 6000}/{'3' * 6000}")
        self.assertEqual(self.run_on(text, "--csv", "--part", "statistic", "--digits", "2"), (0, "statistic\n3.00\n", ""))

    def test_other_inputs_and_words(self):
        self.assertEqual(self.run_on(""), (1, "", "quantreg-table: no report: it is empty\n"))
        for words in (["--digits", "-1"], ["--digits", "1.5"], ["--digits", "10001"], ["--di", "3"], ["--table"], ["a", "b"]):
            status, said, told = self.run_on(RANKS, *words)
            self.assertEqual((status, said), (2, ""), words)
            self.assertIn("usage: quantreg-table", told)

    def test_the_man_page_has_its_options_and_parts(self):
        page = (HERE.parent / "docs/quantreg-table.1").read_text().replace("\\-", "-")
        told = self.run_on("", "--help")[1]
        self.assertEqual(set(re.findall(r"--\w+", page)) - {"--formula", "--lo", "--hi"}, set(re.findall(r"--\w+", told.split("options:")[1])) - {"--help"})
        parts = {it.name for report in (INTERVALS, CERTIFICATE, RANKS, TEST, PREDICT, PATH, SAMPLE, CHECK) for it in quantreg_table.parts_of(report)}
        self.assertEqual(set(re.findall(r"\\fB(\w+)\\fR", page)), parts)

    def test_names_in_other_alphabets(self):
        status, said, _ = self.run_on(TEST.replace("column 2 x", "column 2 größe"), "--csv", "--part", "scores", "--digits", "0")
        self.assertEqual((status, said), (0, "column,score\ngröße,1\n"))

    def test_it_stands_on_the_standard_library_and_the_checker_alone(self):
        tree = ast.parse((HERE / "quantreg_table.py").read_text())
        found = {name.name for it in ast.walk(tree) if isinstance(it, ast.Import) for name in it.names}
        found |= {it.module for it in ast.walk(tree) if isinstance(it, ast.ImportFrom)}
        self.assertLessEqual(found, set(sys.stdlib_module_names) | {"quantreg_check"})


def long_division(text, digits):
    """A fraction as a decimal, digit by digit."""
    if text in ("Inf", "-Inf"):
        return text
    over, _, under = text.lstrip("-").partition("/")
    rest, under, places = int(over), int(under or 1), []
    whole, rest = rest // under, rest % under
    for _ in range(digits):
        places.append(10 * rest // under)
        rest = 10 * rest % under
    shown = int(str(whole) + "".join(map(str, places)))
    shown += 2 * rest > under or (2 * rest == under and shown % 2)
    padded = str(shown).rjust(digits + 1, "0")
    sign = "-" if text.startswith("-") and shown else ""
    return f"{sign}{padded[:-digits]}.{padded[-digits:]}"


@unittest.skipUnless(os.environ.get("QUANTREG"), "the variable QUANTREG names no program")
class Jobs(unittest.TestCase):
    """What the program prints on each job, and the words of its lines with each fraction divided out."""

    DIGITS = 7
    LINE = b"y,x\n0,0\n2,1\n3,3\n"

    def report(self, *words, table=None):
        table = (EXAMPLES / "stackloss.csv").read_bytes() if table is None else table
        return subprocess.run([os.environ["QUANTREG"], *words], input=table, capture_output=True, check=True).stdout.decode()

    def rows(self, report, name):
        """The rows of a part, as the script prints them."""
        return list(csv.reader(io.StringIO(table_text(report, self.DIGITS, as_csv=True, name=name))))

    def divided(self, report, pattern, fractions):
        """The groups of each line that has the form, those of these numbers divided out."""
        lines = re.findall(pattern, report, re.MULTILINE)
        return [[long_division(it, self.DIGITS) if at in fractions else it for at, it in enumerate(line)] for line in lines]

    def fits_are_divided(self, report, columns):
        pattern = r"^segment \d+ (\S+) (\S+)\n" + columns * r"coef \d+ (\S+)\n" + r"loss (\S+) (\S+)$"
        wanted = self.divided(report, pattern, range(columns + 4))
        self.assertTrue(wanted)
        self.assertEqual(self.rows(report, "segments")[1:], wanted)
        return wanted

    def test_process_and_its_intervals_and_scores(self):
        words = ("process", "--formula", "stack.loss ~ .", "--lo", "0", "--hi", "1", "--crit", "2.7055", "--rank-at", "1/4,1/2")
        report = self.report(*words)
        self.assertEqual(len(self.fits_are_divided(report, 4)), 25)
        head, *rows = self.rows(report, "intervals")
        names = ["(Intercept)", "Air.Flow", "Water.Temp", "Acid.Conc."]
        wanted = self.divided(report, r"^interval (\d) (\S+) (\S+) (\S+)$", {1, 2, 3})
        self.assertEqual((head, len(rows)), (["column", "tau", "low", "high"], 8))
        self.assertEqual(rows, [[names[int(column) - 1], *rest] for column, *rest in wanted])
        # of each segment the scores add up to 21 times 1 minus the quantile, at both ends, for the formula has an intercept
        for (lo, hi, *_), at in zip(self.rows(report, "segments")[1:], range(25)):
            scores = self.rows(report, "scores")[1 + 21 * at : 22 + 21 * at]
            for end, column in ((lo, 3), (hi, 4)):
                self.assertAlmostEqual(sum(float(row[column]) for row in scores), 21 * (1 - float(end)), places=4)

    def test_a_smooth(self):
        report = self.report("process", "--formula", "y ~ qss(x, 1/3)", "--lo", "1/4", "--hi", "3/4", table=b"y,x\n0,0\n2,1\n3,3\n1,4\n")
        self.fits_are_divided(report, 4)
        self.assertEqual(self.rows(report, "segments")[0][2:6], ["(Intercept)", "qss(x)[1]", "qss(x)[3]", "qss(x)[4]"])
        self.assertEqual({row[2] for row in self.rows(report, "scores")[1:]}, {"1", "2", "3", "4"})

    def test_ranks(self):
        report = self.report("ranks", "--formula", "stack.loss ~ .")
        self.assertEqual(self.rows(report, "scores")[1:], self.divided(report, r"^wilcoxon (\d+) (\S+)$", {1}))

    def test_a_rank_test(self):
        report = self.report("test", "--formula", "stack.loss ~ .", "--tested", "2,4")
        names = {"2": "Air.Flow", "4": "Acid.Conc."}
        wanted = self.divided(report, r"^score (\d) (\S+)$", {1})
        self.assertEqual(self.rows(report, "scores")[1:], [[names[column], score] for column, score in wanted])
        statistic = re.search(r"^statistic (\S+)$", report, re.MULTILINE)[1]
        self.assertEqual(self.rows(report, "statistic")[1:], [[long_division(statistic, self.DIGITS)]])

    def test_predict(self):
        table = (EXAMPLES / "stackloss.csv").read_bytes().replace(b'"9",58,23,87,15', b'"9",58,23,87,').replace(b'"4",62,24,87,28', b'"4",62,24,87,NA')
        report = self.report("predict", "--formula", "stack.loss ~ .", "--lo", "0", "--hi", "1", table=table)
        for name, head in (("steps", "predict"), ("rearranged", "rearranged")):
            wanted = []
            for record, steps in re.findall(rf"^{head} (\d+)\n((?:step .*\n)+)", report, re.MULTILINE):
                wanted += [[record, *it] for it in self.divided(steps, r"^step (\S+) (\S+) (\S+)$", {0, 1, 2})]
            self.assertEqual({row[0] for row in wanted}, {"4", "9"})
            self.assertEqual(self.rows(report, name)[1:], wanted)

    def test_a_path(self):
        self.fits_are_divided(self.report("path", "--formula", "stack.loss ~ .", "--tau", "1/3", "--lo", "1/10", "--hi", "50"), 4)

    def test_a_sample(self):
        report = self.report("sample", "--number", "1", "--rows", "20", "--columns", "2", "--lo", "1/3", "--hi", "2/3")
        losses = self.divided(report, r"^loss (\S+) (\S+)$", {0, 1})[0]
        counts = re.search(r"records (\d+) dropped (\d+)\ncolumns (\d+)\nsegments (\d+)\npivots (\d+)\n", report).groups()
        self.assertEqual(self.rows(report, "summary")[1:], [[*counts, *losses]])

    def test_a_certificate_and_its_check(self):
        words = ("--formula", "stack.loss ~ .", "--lo", "1/4", "--hi", "3/4", "--crit", "2.7055", "--rank-at", "1/2")
        process, certificate = self.report("process", *words), self.report("certify", *words)
        self.assertEqual(self.rows(certificate, "segments")[1:], self.fits_are_divided(process, 4))
        self.assertEqual([row[1:] for row in self.rows(certificate, "intervals")], [row[1:] for row in self.rows(process, "intervals")])
        found = self.report("check", table=certificate.encode())
        sizes = re.search(r"columns (\d+)\nrows (\d+)\nsegments (\d+)\nintervals (\d+)\n", found).groups()
        self.assertEqual(self.rows(found, "summary")[1:], [[*sizes, "accepted"]])

    def test_a_line_that_is_fitted_by_hand(self):
        # up to 3/5 the line through records 1 and 3, and from there on that through 2 and 3
        report = self.report("process", "--formula", "y ~ x", "--lo", "0", "--hi", "1", table=self.LINE)
        fits = [["0.0000000", "0.6000000", "0.0000000", "1.0000000"], ["0.6000000", "1.0000000", "1.5000000", "0.5000000"]]
        self.assertEqual([row[:4] for row in self.rows(report, "segments")[1:]], fits)


if __name__ == "__main__":
    unittest.main()
