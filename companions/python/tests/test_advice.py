"""What is said of a fault by the words, the formula and the names of the table."""

import pickle
import tempfile
import unittest
from pathlib import Path

import pandas

from quantreg_exact import QuantregError, find_program, fit, path, predictions, rank_test, run
from quantreg_exact.advice import JOBS

from stand_ins import needs_program, refused

TABLE = pandas.DataFrame({"y": [0, 2, 3, 5], "income": [0, 1, 3, 2], "f": list("abab"), "größe": [4, 2, 3, 9]})


def fault_of(call, *words, **options):
    """The error that a call ends with."""
    try:
        call(*words, **options)
    except QuantregError as fault:
        return fault
    raise AssertionError("no error")


@needs_program
class ByTheProgram(unittest.TestCase):
    def told(self, name, wanted, call, *words, **options):
        fault = fault_of(call, *words, **options)
        with self.subTest(name=name, wanted=wanted):
            self.assertEqual(fault.name, name)
            self.assertIn(wanted, fault.advice or "")
            self.assertTrue(str(fault).startswith(f"status {fault.status}: quantreg: "))
            self.assertIn(wanted, str(fault))

    def test_the_word_of_a_formula(self):
        for formula, name, wanted in [
            ("y ~ incom", "UnknownName", "there is no column 'incom'; did you mean 'income'?"),
            # An offset counts bytes: the umlaut has two.
            ("y ~ `größe` + incme", "UnknownName", "there is no column 'incme'; did you mean 'income'?"),
            ("y ~ I(`grösse` + 1)", "UnknownName", "there is no column 'grösse'; did you mean 'größe'?"),
            ("y ~ zzz", "UnknownName", "there is no column 'zzz'"),
            ("y ~ grösse", "UnknownName", "there is no column 'grösse'; did you mean 'größe'?"),
            ("zzz ~ income", "UnknownName", "there is no column 'zzz'"),
            ("y ~ income / 2", "Syntax", "'/' can't stand behind 'y ~ income'; there is no division of terms"),
            ("y ~ income +", "Syntax", "the formula ends where more should stand"),
            ("~ income", "Syntax", "'~' can't stand at the beginning; a formula is as in 'y ~ x'"),
            ("income", "Syntax", "the formula ends where more should stand; a formula is as in 'y ~ x'"),
        ]:
            self.told(name, wanted, fit, formula, TABLE, "1/2")
        self.assertNotIn("did you mean", fault_of(fit, "y ~ zzz", TABLE, "1/2").advice)

    def test_the_cells_and_levels_of_a_table(self):
        texts = pandas.DataFrame({"y": ["1", "two", "3"], "x": [1, 2, 3], "w": ["1", "-", "2"], "t": ["4", "9", "5"]})
        many = pandas.DataFrame({"y": range(150), "f": [f"t{it}" for it in range(150)]})
        for table, formula, options, name, wanted in [
            (texts, "y ~ x", {}, "ResponseNotNumeric", "the response y is no column of numbers: record 2 has 'two'"),
            (texts, "t ~ x", {}, "ResponseNotNumeric", "the response t is no column of numbers: it has texts, as '4' in record 1; pandas.to_numeric makes"),
            (texts, "x ~ 1", {"weights": "w"}, "WeightNotNumeric", "the weights w are no column of numbers: record 2 has '-'"),
            (texts, "x ~ I(2*w)", {}, "ArithNotNumeric", "w is no column of numbers: record 2 has '-'"),
            (texts, "x ~ 1", {"weights": "v"}, "UnknownWeights", "there is no column 'v' for the weights"),
            (many, "y ~ f", {}, "TooManyColumns", "the factor f has 150 levels"),
            (TABLE.assign(f="a"), "y ~ f", {}, "OneLevel", "the factor f has one level among the records that are kept (in the table it has 'a')"),
            (TABLE[:0], "y ~ income", {}, "NoRows", "the table has no records"),
            (TABLE.assign(income=None), "y ~ income", {}, "NoRows", "of 4 records none has all cells; missing are 4 of income"),
            (TABLE.assign(z=2 * TABLE.income), "y ~ income + z", {}, "Dependent", "-2 times column 2 plus 1 times column 3 is 0 in every record"),
        ]:
            self.told(name, wanted, fit, formula, table, "1/2", **options)
        new = pandas.DataFrame({"y": [1, 4, 2, None], "f": ["north", "south", "south", "nort"]})
        self.told("UnknownLevel", "record 4 has 'nort' in f, which no record with a response has; did you mean 'north'?", predictions, "y ~ f", new, "1/2")
        self.told("NothingToPredict", "an empty y", predictions, "y ~ income", TABLE, "1/2")
        self.told("NoSuchColumn", "the design has no column 7", rank_test, "y ~ income", TABLE, 7)

    def test_tables_of_semicolons_and_tabs(self):
        for sign, name in ((";", "semicolons"), ("\t", "tabs")):
            with tempfile.TemporaryDirectory() as room:
                file = Path(room) / "table.csv"
                TABLE.to_csv(file, sep=sign, index=False)
                told = fault_of(fit, "y ~ income", file, "1/2").advice
                self.assertIn(f"the header has {name} and no commas", told)
                self.assertIn({";": "sep=';'", "\t": "sep='\\t'"}[sign], told)
        with tempfile.TemporaryDirectory() as room:
            file = Path(room) / "table.csv"
            file.write_text("y,x;z\n1\n")
            self.assertNotIn("semicolons", str(fault_of(fit, "y ~ 1", file, "1/2")))

    def test_headers_and_encodings(self):
        for source, name, wanted in [
            (b"y,x,y\n1,2,3\n", "DoubleName", "the name 'y' stands in columns 1 and 3 of the header"),
            (b"y,,x\n1,2,3\n", "EmptyName", "column 2 of the header has no name"),
            ("y,größe\n1,2\n".encode("latin-1"), "NotUtf8", "the file is not UTF-8"),
        ]:
            with tempfile.TemporaryDirectory() as room:
                file = Path(room) / "table.csv"
                file.write_bytes(source)
                self.told(name, wanted, fit, "y ~ 1", file, "1/2")

    def test_too_many_records(self):
        many = pandas.DataFrame({"y": range(16_385), "x": [None] * 2 + [1] * 16_383})
        self.told("TooManyRows", "the table has 16,385 records, and the program takes 16,384: data.sample(16_384", fit, "y ~ 1", many, "1/2")
        wanted = "the table has 16,385 records, and the program takes 16,384: 16,383 of them have all cells that are used, and dropna()"
        self.told("TooManyRows", wanted, fit, "y ~ x", many, "1/2")

    def test_options(self):
        for call, words, options, name, wanted in [
            (fit, ("y ~ 1", TABLE, "3/2"), {}, "BadRange", "a quantile is from 0 to 1, and lo is not above hi: lo is 3/2, hi is 3/2"),
            (fit, ("y ~ 1", TABLE, -0.5, 1), {}, "BadRange", "lo is -0.5, hi is 1"),
            (path, ("y ~ income", TABLE, "1/2", 0, 1), {}, "BadRange", "and a lambda above 0"),
            (fit, ("y ~ 1", TABLE, "half"), {}, "BadNumber", "lo is 'half', which is no such number"),
            (fit, ("y ~ 1", TABLE, 0.5), {"contrasts": "helmet"}, "BadContrasts", "there are no contrasts 'helmet'; did you mean 'helmert'?"),
            (fit, ("y ~ 1", TABLE, 0, 1), {"crit": 1, "rank_at": 1}, "BadTauForRank", "rank_at is 1"),
            (fit, ("y ~ 1", TABLE, 0.5), {"crit": -1}, "NegativeLimit", "it is -1"),
            (fit, ("y ~ income", TABLE, 0, 1), {"pivots": 0}, "PivotLimit", "the limit is 0 pivots"),
        ]:
            self.told(name, wanted, call, *words, **options)

    def test_the_words_of_a_command(self):
        for words, name, wanted in [
            ([], "NoJob", "a job stands first: process, certify"),
            (["proces"], "UnknownJob", "there is no job 'proces'; did you mean 'process'?"),
            (["process", "--formula=y ~ 1", "--low=0", "--hi=1"], "BadOption", "--lo is missing, and process has no option --low; did you mean 'lo'?"),
            (["ranks", "--formula=y ~ 1", "--formula=y ~ 1"], "BadOption", "--formula stands more than once"),
        ]:
            self.told(name, wanted, run, words, b"")
        for job, (required, optional) in JOBS.items():
            values = {"contrasts": "sum", "formula": "y ~ 1", "weights": "y"}
            words = [f"--{name}={values.get(name, '1')}" for name in (*required, *optional)]
            for left_out in required:
                fault = fault_of(run, [job, *(word for word in words if not word.startswith(f"--{left_out}="))], b"")
                self.assertEqual((fault.name, fault.advice), ("BadOption", f"--{left_out} is missing"))


class Others(unittest.TestCase):
    LINE = "quantreg: solver: Overflow place=process quantity=coefficient at=1 term=1 op=mul left=2 right=3"

    def test_what_to_do_on_status_7(self):
        fault = refused(self.LINE, 7, lambda program: fault_of(fit, "y ~ income", TABLE, "1/2", program=program))
        self.assertTrue(fault.is_overflow)
        self.assertIn("When a run ends with status 7", fault.advice)
        # No column has more digits than fit.
        self.assertNotIn("digits fit", fault.advice)
        long = pandas.DataFrame({"y": [0.1234567, 2, 3, 5], "x": [0.123456789012, 3, 1, 2], "z": [1, 2, 4, 9], "t": [12345, 3, 1, 5]})
        # The unit of x is 1/250,000,000,000, and 3 is 750,000,000,000 of them.
        for formula, wanted in [
            ("y ~ x + z", "With 2 columns beside the intercept some 11 digits fit, and x has 12. Round"),
            ("y ~ x + z + t + I(t*z) + I(x^2)", "With 3 columns beside the intercept some 8 digits fit, and x has 12. Round"),
        ]:
            self.assertIn(wanted, refused(self.LINE, 7, lambda program: fault_of(fit, formula, long, "1/2", program=program)).advice)
        page = (Path(__file__).resolve().parents[3] / "docs/MANUAL.md").read_text()
        self.assertTrue("\n## When a run ends with status 7\n" in page, "the page is named as the advice says")

    def test_a_line_without_names_has_the_manuals_sentences(self):
        line, page = "quantreg: sink: SinkFault", (Path(__file__).resolve().parents[3] / "docs/MANUAL.md").read_text()
        fault = refused(line, 4, lambda program: fault_of(fit, "y ~ income", TABLE, "1/2", program=program))
        self.assertEqual(str(fault), f"status 4: {line}\n{fault.advice}")
        self.assertIn(f"| `{line}` | {fault.advice.replace('. ', '. | ', 1)} |", page)

    def test_a_run_without_a_line_has_no_advice(self):
        fault = QuantregError(-9, "")
        self.assertEqual((fault.advice, str(fault)), (None, "status -9: no line on standard error"))

    def test_an_error_may_be_sent_to_another_process(self):
        fault = QuantregError(7, self.LINE, "advice")
        again = pickle.loads(pickle.dumps(fault))
        self.assertEqual((again.status, again.line, again.advice, str(again)), (7, self.LINE, "advice", str(fault)))

    def test_a_program_that_is_missing(self):
        with self.assertRaisesRegex(FileNotFoundError, "no program /nowhere/quantreg: the Debian package quantreg brings it"):
            find_program("/nowhere/quantreg")


if __name__ == "__main__":
    unittest.main()
