"""Rank tests of nested models, worked out of processes; by the program too where the variable QUANTREG names one."""

import io
import random
import unittest
from dataclasses import replace
from fractions import Fraction as F

import numpy
import pandas

from quantreg_exact import Fit, Model, QuantregError, TestReport, fit, rank_test, rank_test_of_process, read_report

from stand_ins import STACKLOSS, fields, needs_program
from test_program import LINE
from test_reports import LINE as LINE_REPORT
from test_reports import MEDIAN, SMOOTH, TEST


def quantiles(responses, weights=None):
    """The report of `y ~ 1` over all quantiles: the records by their responses, each for as much of them as it weighs."""
    weights = weights or [F(1)] * len(responses)
    order = sorted(range(len(responses)), key=lambda row: responses[row])
    lines = [f"records {len(order)} dropped 0", "column 1 (Intercept)", f"data {len(order)} penalty 0", f"pivots {len(order) - 1}"]
    lo = F(0)
    for number, row in enumerate(order, 1):
        hi = lo + F(weights[row]) / sum(weights)
        below = order[: number - 1]
        losses = (quantile_loss(responses, weights, responses[row], tau) for tau in (lo, hi))
        lines += [f"segment {number} {lo} {hi}", f"coef 1 {responses[row]}", "loss {} {}".format(*losses)]
        lines.append("scores " + "".join("*" if it == row else "01"[it not in below] for it in range(len(order))))
        lines.append(f"basic {row + 1} 1 0")
        lo = hi
    return read_report("\n".join(["quantreg 1", *lines, "end", ""]))


def quantile_loss(responses, weights, value, tau):
    return sum(w * max(tau * (y - value), (tau - 1) * (y - value)) for y, w in zip(responses, weights))


# R's longley in part, whose Employed is tied nowhere.
LONGLEY = """GNP,Unemployed,Population,Employed
234.289,235.6,107.608,60.323
259.426,232.5,108.632,61.122
258.054,368.2,109.773,60.171
284.599,335.1,110.929,61.187
328.975,209.9,112.075,63.221
346.999,193.2,113.27,63.639
365.385,187,115.094,64.989
363.112,357.8,116.219,63.761
397.469,290.4,117.388,66.019
419.18,282.2,118.734,67.857
442.769,293.6,120.445,68.169
444.546,468.1,121.95,66.513
482.704,381.3,123.366,68.655
502.601,393.1,125.368,69.564
518.173,480.6,127.852,69.331
554.894,400.7,130.081,70.551
"""


def whole(text, table, weights=None):
    """A fit of `y ~ x` from the text of its report and of its table."""
    return Fit(**vars(read_report(text)), model=Model("y ~ x", table, weights))


LINE_FIT = whole(LINE_REPORT, b"y,x\n0,0\n2,1\n3,3\n")


class OfTexts(unittest.TestCase):
    def test_the_line(self):
        # The scores of 0, 2 and 3 are -1/3, 0 and 1/3: the score of x is 3/3. Less its mean x is -4/3, -1/3 and 5/3, which has the
        # squared length 14/3.
        self.assertEqual(rank_test_of_process(quantiles([0, 2, 3]), LINE_FIT, [2]), read_report(TEST))

    def test_a_column_that_the_scores_do_not_see(self):
        text = LINE_REPORT.replace("coef 1 0\ncoef 2 1", "coef 1 2\ncoef 2 -1").replace("coef 1 3/2\ncoef 2 1/2", "coef 1 2\ncoef 2 1")
        text = text.replace("scores *1*\nbasic 1 1 0\nbasic 3 1 1/5", "scores **1\nbasic 1 1 0\nbasic 2 1 0")
        found = rank_test_of_process(quantiles([1, 2, 3]), whole(text, b"y,x\n1,1\n2,0\n3,1\n"), [2])
        self.assertEqual((found.scores, found.statistic), ({2: 0}, 0))

    def test_weights_multiply_the_entries(self):
        # The Wilcoxon scores are -3/8, -1/8 and 1/4, and that of x is 1 * -1/8 + 6 * 1/4. Of the column 0, 1, 6 the column 1, 1, 2
        # takes 13/6, which leaves the squared length 53/6.
        process, full = quantiles([0, 2, 3], [1, 1, 2]), whole(LINE_REPORT, b"y,x,w\n0,0,1\n2,1,1\n3,3,2\n", "w")
        self.assertEqual(process.wilcoxon(), [F(-3, 8), F(-1, 8), F(1, 4)])
        found = rank_test_of_process(process, full, [2])
        self.assertEqual((found.scores, found.statistic), ({2: F(11, 8)}, F(1089, 424)))

    def test_numbers_may_have_any_size(self):
        far = 10**60
        text = LINE_REPORT.replace("coef 2 1\n", f"coef 2 {F(1, far)}\n")
        found = rank_test_of_process(quantiles([0, 2, 3]), whole(text, b"y,x\n0,0\n2,1e60\n3,3e60\n"), [2])
        self.assertEqual((found.scores, found.statistic), ({2: far}, F(18, 7)))

    def test_the_statistic_as_a_decimal_and_its_tail(self):
        # 2.706 is the 0.9 quantile of the chi-squared distribution with one degree of freedom, to three places.
        report = read_report(TEST)
        self.assertEqual(report.decimal, "2.571428571428")
        self.assertTrue(0.1 < report.p_value < 0.11)
        far = read_report(TEST.replace("statistic 18/7", f"statistic {18 * 10**5000 + 1}/{7 * 10**5000}"))
        self.assertEqual(far.decimal, "2.571428571428")
        self.assertAlmostEqual(far.p_value, report.p_value)

    def test_what_is_no_test_is_refused(self):
        process = quantiles([0, 2, 3])
        for tested, message in [
            ([], "one or more"),
            ([2, 1], "that rise"),
            ([2, 2], "that rise"),
            ([0], "1 to 2"),
            ([3], "1 to 2"),
            ([1, 2], "every column"),
        ]:
            with self.subTest(tested=tested), self.assertRaisesRegex(ValueError, message):
                rank_test_of_process(process, LINE_FIT, tested)
        with self.assertRaisesRegex(ValueError, "without smooths"):
            rank_test_of_process(process, read_report(SMOOTH), [2])
        flat = whole(LINE_REPORT.replace("coef 2 1\n", "coef 2 0\n"), b"y,x\n0,1\n2,1\n0,1\n")
        with self.assertRaisesRegex(ValueError, "dependent"):
            rank_test_of_process(quantiles([0, 2, 0]), flat, [2])

    def test_a_process_of_another_model_is_refused(self):
        process = quantiles([0, 2, 3])
        first, second, third = process.segments
        for wrong, message in [
            (read_report(MEDIAN), "range 0 to 1"),
            (read_report(LINE_REPORT), "3 records and 2 columns, the lesser model 3 and 1"),
            (quantiles([0, 2]), "2 records and 1 columns"),
            (quantiles([0, 1, 3]), "record 2 of the basis"),
            (quantiles([0, 2, 3], [1, 1, 2]), "not orthogonal"),
            (replace(process, segments=(first, replace(second, basic={2: (F(1), F(1, 2))}), third)), "not orthogonal"),
        ]:
            with self.subTest(message=message), self.assertRaisesRegex(ValueError, message):
                rank_test_of_process(wrong, LINE_FIT, [2])
        # Of the intercept alone where x alone is left: x is 0 where the response is 2.
        swapped = whole(LINE_REPORT.replace("coef 1 0\ncoef 2 1", "coef 1 2\ncoef 2 1/3"), b"y,x\n2,0\n0,1\n3,3\n")
        with self.assertRaisesRegex(ValueError, "record 1 of the basis"):
            rank_test_of_process(quantiles([2, 0, 3]), swapped, [1])


def said(report):
    """What a report of a test says, without its notes and its model."""
    return fields(report, TestReport)


def random_table(seed):
    """Twelve records of small numbers, some of them tied, with two factors and weights."""
    chance = random.Random(seed)
    numbers = {name: [chance.randint(-9, 9) for _ in range(12)] for name in ("y", "x", "z")}
    return pandas.DataFrame(numbers | {"f": list("abcabcabcabc"), "g": list("uuvvuvuvvuvu"), "w": [chance.randint(1, 3) for _ in range(12)]})


def statistic_of_floats(full, wilcoxon, tested):
    """The statistic of a single column by least squares of numpy."""
    weights = numpy.array([float(w) for w in full.table.weights(full)])
    scaled = weights[:, None] * numpy.array([[float(x) for x in row] for row in full.design()])
    column, others = scaled[:, tested - 1], numpy.delete(scaled, tested - 1, axis=1)
    left = column - others @ numpy.linalg.lstsq(others, column, rcond=None)[0]
    return 12 * (column @ [float(b) for b in wilcoxon]) ** 2 / (left @ left)


@needs_program
class ByTheProgram(unittest.TestCase):
    def test_the_worked_runs(self):
        self.assertEqual(said(rank_test("y ~ x", LINE, 2)), said(read_report(TEST)))
        unseen = rank_test("y ~ x", pandas.DataFrame({"y": [1, 2, 3], "x": [1, 0, 1]}), [2])
        self.assertEqual((unseen.scores, unseen.statistic), ({2: 0}, 0))
        weighted = rank_test("y ~ x", LINE.assign(w=[1, 1, 2]), 2, weights="w")
        self.assertEqual((weighted.scores, weighted.statistic), ({2: F(11, 8)}, F(1089, 424)))
        for tested, status, name, fields in [
            ([1, 2], 1, "AllTested", {}),
            (3, 1, "NoSuchColumn", {"column": 3}),
            (0, 1, "NoSuchColumn", {"column": 0}),
            ([2, 1], 2, "NotAscending", {}),
            ("2,", 2, "BadNumber", {"option": "tested"}),
        ]:
            with self.subTest(name=name, tested=tested), self.assertRaises(QuantregError) as caught:
                rank_test("y ~ x", LINE, tested)
            self.assertEqual((caught.exception.status, caught.exception.name, caught.exception.fields), (status, name, fields))

    def test_the_job_gives_what_its_process_does(self):
        for large, tested, small, more in [
            ("y ~ x + z", [2], "y ~ z", {}),
            ("y ~ x + z", [3], "y ~ x", {"weights": "w"}),
            ("y ~ x + z", [2, 3], "y ~ 1", {"weights": "w"}),
            ("y ~ 0 + x + z", [1], "y ~ 0 + z", {}),
            ("y ~ f + x", [2, 3], "y ~ x", {}),
            ("y ~ x + f", [3, 4], "y ~ x", {"weights": "w"}),
            ("y ~ f + x", [4], "y ~ f", {"contrasts": "sum", "weights": "w"}),
            ("y ~ f + g", [2, 3], "y ~ g", {"contrasts": "helmert"}),
            ("y ~ f * g", [5, 6], "y ~ f + g", {"contrasts": "sas"}),
        ]:
            for seed in range(4):
                table = random_table(seed)
                with self.subTest(large=large, tested=tested, seed=seed):
                    process, full = fit(small, table, 0, 1, **more), fit(large, table, "1/2", **more)
                    self.assertEqual(said(rank_test(large, table, tested, **more)), said(rank_test_of_process(process, full, tested)))

    def test_a_record_that_only_the_lesser_model_keeps_is_seen(self):
        table = random_table(1).assign(x=[None, *range(11)])
        with self.assertRaisesRegex(ValueError, "12 records and 2 columns, the lesser model 11 and 2"):
            rank_test_of_process(fit("y ~ z", table, 0, 1), fit("y ~ x + z", table, "1/2"), [2])

    def test_each_column_of_stackloss_is_that_of_floats(self):
        full = fit("stack.loss ~ .", STACKLOSS, "1/2")
        for tested, column in enumerate(full.names[1:], 2):
            small = fit(f"stack.loss ~ . - {column}", STACKLOSS, 0, 1)
            found = rank_test("stack.loss ~ .", STACKLOSS, column)
            self.assertEqual(said(found), said(rank_test_of_process(small, full, [tested])))
            self.assertAlmostEqual(float(found.statistic) / statistic_of_floats(full, small.wilcoxon(), tested), 1, 9)

    def test_longley_is_that_of_r(self):
        # anova(large, small, test = "rank") of R's quantreg gives this over the 3 tested columns.
        formula, table = "Employed ~ GNP + Unemployed + Population", pandas.read_csv(io.StringIO(LONGLEY))
        found = rank_test(formula, table, ["GNP", "Unemployed", "Population"])
        self.assertAlmostEqual(float(found.statistic) / (3 * 5.20160095777), 1, 9)
