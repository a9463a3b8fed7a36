"""Summaries, parameters, intervals and tests as who comes from statsmodels asks for them."""

import unittest
from fractions import Fraction as F

import numpy
import pandas

from quantreg_exact import Fits, QuantregError, fit, path, predictions, rank_test, ranks, read_report
from quantreg_exact.numbers import as_place

from stand_ins import ENGEL, STACKLOSS, answered, needs_program, noted
from test_reports import CERTIFICATE, CHECK, LINE, LINE_PATH, MEDIAN, PREDICT, RANKS, SAMPLE, TEST

TABLE = pandas.DataFrame({"y": [0, 2, 3], "x": [0, 1, 3]})


class OfTexts(unittest.TestCase):
    def test_representations_are_short(self):
        for text, wanted in [
            (LINE, "<ProcessReport 3 records, quantiles 0 to 1, 2 segments>"),
            (MEDIAN, "<ProcessReport 3 records, quantile 1/2: (Intercept) 2>"),
            (RANKS, "<RanksReport Wilcoxon scores of 3 records beside (Intercept), x>"),
            (PREDICT, "<PredictReport predictions of records 4, by 3 records>"),
            (LINE_PATH, "<PathReport 3 records, lambdas 1/4 to 2, 3 segments>"),
            (TEST, "<TestReport x: statistic 2.5714, p-value 0.10881 by chi-squared(1)>"),
            (CHECK, "<CheckReport accepted: 3 rows, 2 columns, 2 segments, 0 intervals>"),
            (CERTIFICATE, "<Certificate 3 rows, 2 columns, 2 segments, 0 intervals>"),
        ]:
            self.assertEqual(repr(read_report(text)), wanted)
        self.assertLess(len(repr(read_report(SAMPLE))), 100)

    def test_a_fit_of_one_quantile_and_of_a_range(self):
        median = answered(MEDIAN, lambda program: fit("y ~ 1", TABLE, "1/2", program=program))
        self.assertEqual(repr(median), "<Fit y ~ 1: 3 records, quantile 1/2: (Intercept) 2>")
        self.assertEqual(median.params.to_dict(), {"(Intercept)": 2.0})
        line = answered(LINE, lambda program: fit("y ~ x", TABLE, 0, 1, program=program))
        self.assertEqual(repr(line), "<Fit y ~ x: 3 records, quantiles 0 to 1, 2 segments>")
        self.assertEqual(line.params["x"].tolist(), [1.0, 0.5])
        self.assertEqual((median.residuals(), median.predict(TABLE)), ([-2, 0, 1], [2, 2, 2]))
        for asked in (line.conf_int, line.residuals):
            with self.assertRaisesRegex(ValueError, "of a range: name a place of it"):
                asked()

    def test_a_summary_without_intervals_has_fractions_and_decimals(self):
        line = answered(LINE, lambda program: fit("y ~ x", TABLE, 0, 1, program=program))
        frame = line.summary(None)
        self.assertEqual([it[0] for it in frame.index], ["0.25", "0.25", "0.5", "0.5", "0.75", "0.75"])
        self.assertEqual(frame.loc["0.75"]["fraction"].tolist(), [F(3, 2), F(1, 2)])
        self.assertEqual(frame.loc["0.75"]["coefficient"].tolist(), [1.5, 0.5])

    def test_numbers_of_any_size_are_read(self):
        digits = "7" * 6000
        report = read_report(MEDIAN.replace("coef 1 2", f"coef 1 {digits}"))
        self.assertEqual(str(report.coef_at("1/2")["(Intercept)"]), digits)

    def test_p_values_are_those_of_tables(self):
        report = read_report(TEST)
        self.assertEqual((report.degrees, report.tested_names), (1, ("x",)))
        # 18/7 is the square of 1.603567, which the normal distribution exceeds on both sides with 0.10881.
        self.assertAlmostEqual(report.p_value, 0.10881, 5)

    def test_a_level_and_a_critical_value_exclude_each_other(self):
        with self.assertRaisesRegex(ValueError, "`alpha` or by `crit`"):
            fit("y ~ 1", TABLE, "1/2", alpha=0.1, crit=1)
        with self.assertRaisesRegex(ValueError, "a list of quantiles"):
            fit("y ~ 1", TABLE, ["1/2"], 1)


@needs_program
class ByTheProgram(unittest.TestCase):
    def test_a_summary_of_stackloss(self):
        # The interval of Air.Flow at the median: docs/MANUAL.md and README.md have it for 2.7055, and it doesn't change within five digits.
        stackloss = fit("stack.loss ~ .", STACKLOSS, 0.5)
        with noted() as texts:
            frame = stackloss.summary(alpha=0.1)
        self.assertEqual((texts, frame.attrs), ([], {"critical": "441/163 (2.7055, level 90 %)", "notes": []}))
        flow = frame.loc["Air.Flow"]
        self.assertEqual([flow["fraction"], flow["lower_fraction"], flow["upper_fraction"]], [F(287, 345), F(32, 63), F(2781, 2380)])
        self.assertEqual([flow["coefficient"], flow["lower"], flow["upper"]], [287 / 345, 32 / 63, 2781 / 2380])
        self.assertEqual(stackloss.conf_int(0.1).loc["Air.Flow"].tolist(), [32 / 63, 2781 / 2380])
        self.assertEqual(list(stackloss.params.index), list(stackloss.names))

    def test_a_level_and_its_quantiles(self):
        for words, options, taus in [
            (("1/2",), {"alpha": 0.1}, ["1/2"]),
            ((0.25, 0.55), {"alpha": 0.1}, ["3/10", "2/5", "1/2"]),
            (("41/100", "43/100"), {"alpha": 0.1}, ["21/50"]),
            ((0, 1), {"crit": 1, "rank_at": numpy.array([0.25, 0.5])}, ["1/4", "1/2"]),
            ((0, 1), {"crit": "46/17", "rank_at": "1/4"}, ["1/4"]),
        ]:
            found = fit("y ~ x", pandas.DataFrame({"y": [1, 4, 2, 8, 5], "x": [2, 3, 1, 5, 4]}), *words, **options)
            self.assertEqual(sorted({it.tau for it in found.intervals}), sorted(map(F, taus)))
            self.assertIn(f"{2 * len(taus)} rank intervals of the critical value {found.critical}", repr(found))

    def test_infinite_ends_and_single_fits_of_smooths(self):
        few = fit("y ~ 1", pandas.DataFrame({"y": [1, 2, 3]}), "1/2").summary()
        self.assertEqual(few.loc["(Intercept)", ["lower", "upper"]].tolist(), [-float("inf"), float("inf")])
        smooth = fit("y ~ qss(x, 1)", pandas.DataFrame({"y": [0, 2, 0], "x": [0, 1, 2]}), "1/2")
        self.assertEqual(smooth.summary(None)["coefficient"].tolist(), [0, 0, 0])
        with self.assertRaises(QuantregError) as caught:
            smooth.summary()
        self.assertEqual(caught.exception.name, "RankWithPenalty")

    def test_a_list_of_quantiles(self):
        found = fit("stack.loss ~ .", STACKLOSS, [0.25, "1/2"], alpha=0.1)
        self.assertIsInstance(found, Fits)
        self.assertEqual((len(found), found.taus, list(found.params)), (2, [F(1, 4), F(1, 2)], ["0.25", "0.5"]))
        self.assertEqual(found[1].coef_at("1/2"), fit("stack.loss ~ .", STACKLOSS, 0.5).coef_at("1/2"))
        self.assertEqual([it.tau for it in found[0].intervals], [F(1, 4)] * 4)
        for several in (numpy.array([0.25, 0.5]), pandas.Series(["1/4", "1/2"]), (F(1, 4), 0.5)):
            self.assertEqual(fit("stack.loss ~ .", STACKLOSS, several, alpha=0.1), found)
        self.assertEqual(fit("stack.loss ~ .", STACKLOSS, numpy.array([0.25]), alpha=0.1)[0], found[0])
        frame = found.summary(0.1)
        self.assertEqual(frame.loc[("0.5", "Air.Flow"), "lower"], 32 / 63)
        self.assertEqual(found.conf_int(0.1).shape, (8, 2))
        self.assertEqual(found.names, found[0].names)
        self.assertEqual(found.predict(STACKLOSS)["0.5"].tolist(), found[1].predict(STACKLOSS))
        self.assertEqual(found.fitted()["0.25"].tolist(), found[0].fitted())
        self.assertEqual([sum(it < 0 for it in found.residuals()[label]) for label in ("0.25", "0.5")], [sum(it < 0 for it in one.residuals()) for one in found])
        shown = str(found.summary(0.1))
        for column in ("coefficient", "lower", "upper", "fraction", "lower_fraction", "upper_fraction"):
            self.assertIn(f" {column}", shown)
        self.assertTrue(shown.endswith("rank intervals of the critical value 441/163 (2.7055, level 90 %)"))
        self.assertTrue(repr(found).startswith("<Fits\n  <Fit stack.loss ~ .: 21 records, quantile 1/4: (Intercept) -36,"))

    def test_ranges_of_numpy_are_read_as_they_are_meant(self):
        tenths = numpy.arange(0.1, 1, 0.1)
        self.assertNotEqual(tenths[2], 0.3)
        table = pandas.DataFrame({"y": [1, 4, 2, 8, 5], "x": [2, 3, 1, 5, 4]})
        with noted():
            found = fit("y ~ x", table, tenths)
        self.assertEqual(found.taus, [F(tenth, 10) for tenth in range(1, 10)])
        self.assertEqual(list(found.params), ["0.1", "0.2", "0.3", "0.4", "0.5", "0.6", "0.7", "0.8", "0.9"])
        self.assertEqual(fit("y ~ x", table, ["1/3", "1/8"]).params.columns.tolist(), ["1/3", "0.125"])
        for value, wanted in [
            (0.1 + 0.2, F(3, 10)),
            (numpy.float64(0.7999999999999999), F(4, 5)),
            # Farther than two units in the last place, or of more digits.
            (0.3000000000000004, F("0.3000000000000004")),
            (1 / 3, F("0.3333333333333333")),
        ]:
            self.assertEqual(as_place(value), wanted)

    def test_columns_are_tested_by_their_names(self):
        table = pandas.DataFrame({"y": [1, 4, 2, 8, 5, 7, 3, 6, 9], "x": [2, 3, 1, 5, 4, 0, 7, 8, 6], "f": list("abcabcabc")})
        for formula, names, numbers in [
            ("y ~ x + f", "x", [2]),
            ("y ~ x + f", "f", [3, 4]),
            ("y ~ x + f", ["fc", "x"], [2, 4]),
            ("y ~ x + f", ["f", 2], [2, 3, 4]),
            ("y ~ x * f", "f:x", [5, 6]),
            ("y ~ x * f", ["x:f", "f"], [3, 4, 5, 6]),
        ]:
            with self.subTest(names=names):
                found = rank_test(formula, table, names)
                self.assertEqual(list(found.tested), numbers)
                self.assertEqual(found.statistic, rank_test(formula, table, numbers).statistic)
        with self.assertRaisesRegex(ValueError, "no column and no variable 'z'; its columns are .Intercept., x, fb, fc"):
            rank_test("y ~ x + f", table, "z")

    def test_other_results_are_short_too(self):
        table = pandas.DataFrame({"y": [0, 2, 3, None], "x": [0, 1, 3, 4]})
        for found in (ranks("y ~ x", table), predictions("y ~ x", table, 0, 1), path("y ~ x", table, "1/2", 1, 2), fit("foodexp ~ income", ENGEL, 0, 1)):
            self.assertLess(max(map(len, repr(found).split("\n"))), 200)


if __name__ == "__main__":
    unittest.main()
