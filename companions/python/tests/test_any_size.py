"""What is worked out where the program ends with status 7 is what it answers where it does."""

import unittest
from fractions import Fraction as F

import pandas

from quantreg_exact import PredictReport, QuantregError, RanksReport, TestReport, fit, predictions, rank_test, ranks
from quantreg_exact.any_size import interval_of

from stand_ins import STACKLOSS, fields, needs_program, noted, refused, refusing

# Ten records with ties, weights, a factor, two of which lack a response and one a regressor.
COLUMNS = {"y": [3, -1, 4, 1, -5, 9, 4, 2, None, None], "x": [2, -6, 5, 3, 5, -8, 1, 0, 4, -2], "w": [1, 2, 1, 3, 1, 2, 1, 1, 1, None]}
TABLE = pandas.DataFrame(COLUMNS | {"z": [9, 7, -9, 3, 2, 3, None, 5, 1, 8], "f": list("abcabcabca")})
OVERFLOW = "quantreg: solver: Overflow place={} quantity={} at=1 term=1 op=mul left=2 right=3"


@needs_program
class ByTheProgram(unittest.TestCase):
    def same(self, kind, words, place, call):
        """What a call gives by the program, and what it gives where the program ends with status 7."""
        line = OVERFLOW.format(place, "wilcoxon")
        wanted = call(None)
        with noted() as texts:
            found = refusing(f"'{words} '*", line, call)
        self.assertEqual(fields(found, kind), fields(wanted, kind))
        self.assertIn(f"which ended with status 7 (place={place} quantity=wilcoxon)", texts[0])
        self.assertIn("not by the proved program", found.notes[0])
        self.assertNotIn("proved", "".join(wanted.notes))

    def test_ranks(self):
        for formula, weights in (("y ~ x + f", None), ("y ~ x + offset(2*z)", "w")):
            self.same(RanksReport, "ranks", "process", lambda program: ranks(formula, TABLE, weights=weights, program=program))

    def test_rank_tests(self):
        for formula, tested, more in [
            ("y ~ x + z", 2, {}),
            ("y ~ x + z", [2, 3], {"weights": "w"}),
            ("y ~ x + f", "3,4", {"contrasts": "sum"}),
            ("y ~ x + f", 4, {"weights": "w"}),
            ("y ~ 0 + x + z + offset(2*x)", "z", {}),
        ]:
            with self.subTest(formula=formula, tested=tested):
                self.same(TestReport, "test", "test", lambda program: rank_test(formula, TABLE, tested, program=program, **more))

    def test_predictions(self):
        for formula, weights in (("y ~ x + f", None), ("y ~ x + offset(2*z)", "w")):
            call = lambda program: predictions(formula, TABLE, "1/10", 1, weights=weights, program=program)
            self.same(PredictReport, "predict", "predict:9", call)

    def test_rank_intervals(self):
        for formula, tau, more in [
            ("y ~ x + f", "1/2", {"weights": "w"}),
            ("y ~ 1", "1/4", {}),
            ("y ~ x + offset(z)", "1/3", {}),
            ("y ~ 0 + x", "3/4", {"weights": "w"}),
        ]:
            wanted = fit(formula, TABLE, tau, crit="46/17", rank_at=tau, **more)
            bare = fit(formula, TABLE, tau, **more)
            for interval in wanted.intervals:
                with self.subTest(formula=formula, column=interval.column):
                    self.assertEqual(interval_of(bare, interval.column, F(tau), F(46, 17)), interval)

    def test_a_tie_with_the_critical_value_is_within(self):
        # At 6/7 the statistic of the line is at its bound on both sides: docs/MANUAL.md has these intervals.
        line = fit("y ~ x", pandas.DataFrame({"y": [0, 2, 3], "x": [0, 1, 3]}), "1/2")
        found = [interval_of(line, column, F(1, 2), F(6, 7)) for column in (1, 2)]
        self.assertEqual([(it.low, it.high) for it in found], [(0, F(3, 2)), (F(1, 2), 2)])

    def test_intervals_that_overflow_at_one_quantile_are_worked_out_there(self):
        line = OVERFLOW.format("interval:2:1/2", "statistic")
        pattern = "*rank-at=*1/2*"
        with noted() as texts:
            found = refusing(pattern, line, lambda program: fit("y ~ x", TABLE, 0, 1, crit=1, rank_at=["1/4", "1/2"], program=program))
        wanted = fit("y ~ x", TABLE, 0, 1, crit=1, rank_at=["1/4", "1/2"])
        self.assertEqual((found.intervals, found.segments), (wanted.intervals, wanted.segments))
        self.assertTrue(any(text.startswith("rank intervals at the quantile 1/2: worked out") for text in texts))
        self.assertFalse(any("1/4" in text for text in texts))

    def test_an_interval_that_no_fit_answers_is_missing_with_its_cause(self):
        # Both columns have their intervals from fits of the other one alone, and these have no report.
        line = OVERFLOW.format("interval:1:1/2", "statistic")
        pattern = "*rank-at=1/2*|'process --formula=y ~ 0 + x1 --weights=w --lo=1/2'*"
        table = TABLE.assign(x=range(10))

        def call(program):
            found = fit("y ~ x", table, "1/2", crit=1, rank_at="1/2", program=program)
            return found, found.summary()

        with noted() as texts:
            found, frame = refusing(pattern, line, call)
        self.assertEqual((found.intervals, found.coef_at("1/2")), ((), fit("y ~ x", table, "1/2").coef_at("1/2")))
        missing = [text for text in texts if "missing" in text]
        self.assertEqual(len(missing), 4)
        self.assertIn("the rank interval of x at the quantile 1/2 is missing: quantreg: solver: Overflow", missing[1])
        self.assertTrue(frame[["lower", "upper"]].isna().all(axis=None))
        self.assertEqual(frame.attrs["notes"][-2:], missing[2:])
        self.assertEqual(frame["coefficient"].tolist(), list(map(float, found.coef_at("1/2").values())))

    def test_what_cannot_be_worked_out_ends_with_the_first_fault(self):
        line = OVERFLOW.format("process", "coefficient")
        with self.assertRaises(QuantregError) as caught:
            refusing("*", line, lambda program: ranks("y ~ x", TABLE, program=program))
        self.assertEqual((caught.exception.status, caught.exception.line), (7, line))

    def test_each_column_of_stackloss_has_a_test(self):
        for column in ("Air.Flow", "Water.Temp", "Acid.Conc."):
            self.assertGreater(rank_test("stack.loss ~ .", STACKLOSS, column).statistic, 0)


class OfTexts(unittest.TestCase):
    def test_other_faults_are_nobodys_to_mend(self):
        for call in (lambda program: ranks("y ~ 1", TABLE, program=program), lambda program: predictions("y ~ 1", TABLE, 0, 1, program=program)):
            with self.assertRaises(QuantregError) as caught:
                refused("quantreg: solver: PivotLimit place=process limit=4", 6, call)
            self.assertEqual(caught.exception.status, 6)


if __name__ == "__main__":
    unittest.main()
