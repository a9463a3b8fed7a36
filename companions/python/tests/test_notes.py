"""Each warning is given where it should be, and isn't where nothing is amiss."""

import tempfile
import unittest
from fractions import Fraction as F
from pathlib import Path

import pandas

from quantreg_exact import fit, rank_test, ranks

from stand_ins import answered, needs_program, noted
from test_reports import LINE, MEDIAN, SMOOTH

LINE_TABLE = pandas.DataFrame({"y": [0, 2, 3], "x": [0, 1, 3]})
# R's table `sleep`: the extra hours of ten patients by two drugs.
SLEEP = pandas.DataFrame(
    {
        "extra": [0.7, -1.6, -0.2, -1.2, -0.1, 3.4, 3.7, 0.8, 0, 2] + [1.9, 0.8, 1.1, 0.1, -0.1, 4.4, 5.5, 1.6, 4.6, 3.4],
        "group": [1] * 10 + [2] * 10,
    }
)


def statistic_by_ranks(table):
    """The statistic of two groups by plain ranks: of equal responses an earlier record has the higher rank."""
    responses, groups = list(table["extra"]), list(table["group"])
    order = sorted(range(len(responses)), key=lambda row: (responses[row], -row))
    ranks_of = {row: rank for rank, row in enumerate(order, 1)}
    count = len(order)
    score = sum(group * (F(ranks_of[row]) - F(count + 1, 2)) / count for row, group in enumerate(groups))
    mean = F(sum(groups), count)
    return 12 * score**2 / sum((group - mean) ** 2 for group in groups)


class OfTexts(unittest.TestCase):
    """Notes on fits that are read from texts."""

    def made(self, text, *place, formula="y ~ x", table=LINE_TABLE):
        with noted() as texts:
            found = answered(text, lambda program: fit(formula, table, *place, program=program))
        self.assertEqual(texts, list(found.notes))
        return found, texts

    def test_a_unique_fit_has_no_note(self):
        for text, place, formula in ((LINE, (0, 1), "y ~ x"), (MEDIAN, ("1/2",), "y ~ 1")):
            found, texts = self.made(text, *place, formula=formula, table=LINE_TABLE)
            self.assertEqual(texts, [])
            self.assertNotIn("note", repr(found))

    def test_a_dual_value_at_its_bound(self):
        # Two records of 2 are fitted, and the one in the basis has the rankscore 1.
        text = MEDIAN.replace("basic 2 1/2 1/2", "basic 2 1 1")
        found, texts = self.made(text, "1/2", formula="y ~ 1", table=LINE_TABLE.assign(y=[0, 2, 2]))
        self.assertEqual(texts, ["the fit at the quantile 1/2 may not be unique: a dual value of its basis is at its bound"])
        self.assertIn("may not be unique", repr(found))
        # Where it alone is fitted, the fit is moved away from it to the next record: below it, since its rankscore is 1.
        found, texts = self.made(text, "1/2", formula="y ~ 1")
        self.assertEqual(texts, ["the fit at the quantile 1/2 is not unique: (Intercept) 0 has the same loss"])
        # A design that can't be read back from the names is told, and no error.
        _, texts = self.made(text, "1/2", formula="y ~ 1", table=LINE_TABLE[:2])
        self.assertIn("was not looked at: the table has 2 records for this fit, and the report 3", texts[0])

    def test_a_segment_of_a_range_that_is_at_a_bound_throughout(self):
        _, texts = self.made(LINE.replace("basic 3 1 1/5", "basic 3 1 1"), 0, 1)
        self.assertEqual(texts, ["the fit may not be unique within 1 of 2 segments: at the quantiles 0 to 3/5"])

    def test_two_segments_that_meet_are_told_by_the_summary(self):
        found, texts = self.made(LINE, 0, 1)
        self.assertEqual(texts, [])
        for tau, wanted in (("3/5", ["the fit at the quantile 3/5 is not unique: (Intercept) 1.5, x 0.5 has the same loss"]), ("1/5", [])):
            with noted() as texts:
                frame = found.summary(None, tau)
            self.assertEqual((texts, frame.attrs["notes"]), (wanted, wanted))

    def test_a_smooth_has_the_bounds_of_its_formula(self):
        bump = pandas.DataFrame({"y": [0, 2, 0], "x": [0, 1, 2]})
        found, texts = self.made(SMOOTH, "1/2", formula="y ~ qss(x, 1)", table=bump)
        self.assertEqual((found.penalty_bounds(), texts), ([1], []))
        # The dual value of the penalty row is 1/4.
        _, texts = self.made(SMOOTH, "1/2", formula="y ~ qss( `x` , 2/8)", table=bump)
        self.assertEqual(len(texts), 1)


@needs_program
class OfTables(unittest.TestCase):
    """Notes on the cells of a table, on ties, and on medians that are many."""

    def test_medians_that_are_many(self):
        for responses, wanted in [
            # Every number from 1 to 3 is a median.
            ([1, 3], "the fit at the quantile 1/2 is not unique"),
            ([1, 1, 3, 3], "the fit at the quantile 1/2 may not be unique"),
            ([1, 2, 3], None),
        ]:
            with self.subTest(responses=responses), noted() as texts:
                fit("y ~ 1", pandas.DataFrame({"y": responses}), "1/2")
            self.assertEqual([text.split(":")[0] for text in texts], [wanted] if wanted else [])

    def texts_of(self, table, formula="y ~ x", call=fit, place=("1/2",)):
        with noted() as texts:
            call(formula, table, *place)
        return [text for text in texts if "unique" not in text]

    def test_a_few_texts_among_numbers(self):
        numbers = {"y": [1, 4, 2, 8, 5, 7], "x": [3, 1, 4, 1, 5, 9]}
        self.assertEqual(self.texts_of(pandas.DataFrame(numbers)), [])
        for text in ("two", "-", "N/A", "2021-03-04"):
            table = pandas.DataFrame(numbers | {"x": ["3", "1", text, "1", "5", "1"]})
            with self.subTest(text=text):
                self.assertEqual(self.texts_of(table), [f"x is a factor, since it has texts in 1 of 6 cells: record 3 has {text!r}"])
                # A column that the formula leaves out is nobody's concern.
                self.assertEqual(self.texts_of(table, "y ~ 1"), [])
        self.assertEqual(self.texts_of(pandas.DataFrame(numbers | {"x": list("abcab") + ["1"]})), [])
        # In a column of texts NA is a text, and its record is kept.
        (text,) = self.texts_of(pandas.DataFrame(numbers | {"x": ["NA", "1", "2", "3", "1", "2"]}))
        self.assertEqual(text, "x is a factor, since it has texts in 1 of 6 cells: record 1 has 'NA'")

    def test_fractions_that_may_be_dates(self):
        responses = {"y": [1, 4, 2, 8]}
        frame = pandas.DataFrame(responses | {"x": ["1/86", "2/86", "3", "3"]})
        self.assertEqual(
            self.texts_of(frame), ["x has texts, each of which is a number: it is a factor, as in statsmodels; pandas.to_numeric makes numbers of them"]
        )
        table = self.enterContext(tempfile.TemporaryDirectory()) + "/table.csv"
        Path(table).write_text("y,x\n1,1/86\n4,2/86\n2,3\n8,5\n")
        said = "x has fractions in 2 of 4 cells: 1/86 is read as 0.011628"
        self.assertEqual(self.texts_of(table), [said])
        # So they are as a response, in an offset and as weights, and not where a formula leaves them out.
        self.assertEqual(self.texts_of(table, "x ~ 1"), [said])
        self.assertEqual(self.texts_of(table, "y ~ offset(x)"), [said])
        self.assertEqual(self.texts_of(table, "y ~ 1", lambda *words: fit(*words, weights="x")), [said])
        self.assertEqual(self.texts_of(table, "y ~ . - x"), [])
        self.assertEqual(self.texts_of(pandas.DataFrame(responses | {"x": [F(1, 86), F(2, 86), 3, 5]})), [])
        Path(table).write_text("y,x\n1,186\n4,286\n2,3\n8,5\n")
        self.assertEqual(self.texts_of(table), [])

    def test_numbers_in_a_column_of_objects(self):
        numbers = {"y": [1, 4, 2, 8]}
        said = "x has numbers alone, in a column of objects: it is read as numbers, where statsmodels has a factor"
        self.assertEqual(self.texts_of(pandas.DataFrame(numbers | {"x": pandas.Series([3, 1.5, None, 2], dtype=object)})), [said])
        self.assertEqual(self.texts_of(pandas.DataFrame(numbers | {"x": [F(1, 3), F(2), F(3, 2), None]})), [])

    def test_ties_in_the_response(self):
        tied = pandas.DataFrame({"y": [1, 4, 4, 8, 5, 1], "x": [3, 1, 4, 2, 6, 9]})
        free = tied.assign(y=[1, 4, 2, 8, 5, 7])
        for call, place in ((ranks, ()), (rank_test, (2,)), (lambda formula, table: fit(formula, table, 0, 1).wilcoxon(), ())):
            (text,) = self.texts_of(tied, call=call, place=place)
            self.assertIn("4 of 6 records share their response with another", text)
            self.assertEqual(self.texts_of(free, call=call, place=place), [])
        # Less its offset each response is another one, or the same.
        self.assertEqual(self.texts_of(tied, "y ~ x + offset(x)", ranks, ()), [])
        self.assertEqual(len(self.texts_of(tied, "y ~ x + offset(y)", ranks, ())), 1)

    def test_the_test_of_sleep_over_orders_of_its_records(self):
        with noted() as texts:
            found = rank_test("extra ~ group", SLEEP, "group", orders=40)
        self.assertEqual(len(texts), 1)
        self.assertEqual(found.statistic, statistic_by_ranks(SLEEP))
        self.assertAlmostEqual(float(found.statistic), 3.17, 2)
        self.assertAlmostEqual(found.p_value, 0.075, 3)
        # The records of the second group first: their ranks among equal responses are the higher ones. The other way they are the lower ones.
        greatest, least = statistic_by_ranks(pandas.concat([SLEEP[10:], SLEEP[:10]])), statistic_by_ranks(SLEEP)
        self.assertAlmostEqual(float(greatest), 4.06, 2)
        self.assertEqual((min(found.order_statistics), max(found.order_statistics)), (least, greatest))
        self.assertEqual(len(found.order_statistics), 40)
        self.assertAlmostEqual(found.order_range["p_value"]["greatest"], 0.044, 3)
        self.assertIn("over 40 orders 3.17", repr(found))


if __name__ == "__main__":
    unittest.main()
