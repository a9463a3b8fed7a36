"""Arithmetics and offsets of formulas: their texts and values, and fits of formulas that have them, all worked by hand.

The fits are read from texts; by the program itself too where the variable QUANTREG names one.
"""

import tempfile
import unittest
from fractions import Fraction as F

import pandas

from quantreg_exact import Fit, Model, QuantregError, Step, fit, path, plot_fit, predictions, rank_test, rank_test_of_process, read_fault, read_report
from quantreg_exact.arithmetics import Parts

from stand_ins import answered, fields, needs_program
from test_nested import quantiles
from test_reports import LINE, LINE_PATH, TEST

# Three of these four records lie on the square of x, and the second lies 1 above. The dual values are -3/16, 1/2, -3/8 and 1/16,
# which balance the columns 1, x and its square.
FOUR = pandas.DataFrame({"y": [0, 2, 4, 16], "x": [0, 1, 2, 4]})
CURVE = """quantreg 1
records 4 dropped 0
column 1 (Intercept)
column 2 x
column 3 I(x^2)
data 4 penalty 0
pivots 1
segment 1 1/2 1/2
coef 1 0
coef 2 0
coef 3 1
loss 1/2 1/2
scores *1**
basic 1 5/16 5/16
basic 3 1/8 1/8
basic 4 9/16 9/16
end
"""

# Half of x is 0, 1 and 3, and less twice z the responses are 0, 2 and 3: the line of the other tests. The fourth record lacks z.
SHIFTED = pandas.DataFrame({"y": [2, 2, 2, 2], "x": [0, 2, 6, 1], "z": [F(1), F(0), F(-1, 2), None]})
SHIFT = "y ~ I(0.5*x) + offset(2*z)"


def shifted(text):
    """A report of the line as one of the shifted records."""
    return text.replace("records 3 dropped 0", "records 3 dropped 1").replace("column 2 x", "column 2 I(1/2 * x)")


class Texts(unittest.TestCase):
    def test_texts_names_and_values(self):
        # At x = 3, z = -2 and `a b` = 7.
        numbers = {"x": 3, "z": -2, "a b": 7}
        for written, text, names, value in [
            ("x", "x", "x", 3),
            (" + x", "+x", "x", 3),
            ("x ^ 2", "x^2", "x", 9),
            ("-x^2", "-x^2", "x", -9),
            ("(-x)^2", "(-x)^2", "x", 9),
            ("x^008", "x^8", "x", 6561),
            ("2*x-z", "2 * x - z", "xz", 8),
            ("x-z-1", "x - z - 1", "xz", 4),
            ("x-(z-1)", "x - (z - 1)", "xz", 6),
            ("z - x * z", "z - x * z", "zx", 4),
            ("(z - x) * z", "(z - x) * z", "zx", 10),
            ("-x*z + 1", "-x * z + 1", "xz", 7),
            ("- (x+z)^3", "-(x + z)^3", "xz", -1),
            ("x*(-z)", "x * (-z)", "xz", 6),
            ("3/2^2", "3/2^2", "", F(9, 4)),
            ("2/4*x", "1/2 * x", "x", F(3, 2)),
            (".5*x+5.", "1/2 * x + 5", "x", F(13, 2)),
            ("1e-2*x + 1e2", "1/100 * x + 100", "x", F(10003, 100)),
        ]:
            (found,) = Parts.of(f"y ~ I({written})").computed
            with self.subTest(written=written):
                self.assertEqual((found.text, found.names, found.value(numbers.get)), (text, tuple(names), value))
        (quoted,) = Parts.of("y ~ I(`a b`*`x`)").computed
        self.assertEqual((quoted.text, quoted.names, quoted.value(numbers.get)), ("`a b` * `x`", ("a b", "x"), 21))

    def test_what_stands_in_a_formula(self):
        parts = Parts.of("y ~ offset(x) + I(x^2):f - I( x ^ 2 ) + I*offset + offset((z - 1)*2) + I (2/4*z) + I(.5 * z)")
        self.assertEqual([it.text for it in parts.computed], ["x^2", "1/2 * z"])
        self.assertEqual([it.text for it in parts.offsets], ["x", "(z - 1) * 2"])
        self.assertEqual("".join(it[0] for it in parts.tokens), "y~+:f-+I*offset+++")

    def test_fault_lines(self):
        found = read_fault("quantreg: design: ArithNotNumeric name=a b")
        self.assertEqual((found.group, found.name, found.fields), ("design", "ArithNotNumeric", {"name": "a b"}))
        found = read_fault("quantreg: design: Overflow quantity=offset-response at=2 term=1 op=sub left=-1/2 right=3")
        wanted = {"quantity": "offset-response", "at": (2,), "term": 1, "op": "sub", "left": F(-1, 2), "right": 3}
        self.assertEqual(found.fields, wanted)


class Fits(unittest.TestCase):
    """Fits from texts that are those of the program by its format's definition."""

    def curve(self, formula="y ~ x + I(x^2)"):
        return answered(CURVE, lambda program: fit(formula, FOUR, "1/2", program=program))

    def line(self):
        return answered(shifted(LINE), lambda program: fit(SHIFT, SHIFTED, 0, 1, program=program))

    def path(self):
        return answered(shifted(LINE_PATH), lambda program: path(SHIFT, SHIFTED, "1/2", "1/4", 2, program=program))

    def test_a_curve(self):
        curve = self.curve()
        self.assertEqual(curve.design(), [[1, 0, 0], [1, 1, 1], [1, 2, 4], [1, 4, 16]])
        self.assertEqual((curve.residuals("1/2"), curve.fitted("1/2")), ([0, 1, 0, 0], [0, 1, 4, 16]))
        self.assertEqual(curve.predict(pandas.DataFrame({"x": [F(3), None, F(1, 2)]}), "1/2"), [9, None, F(1, 4)])
        self.assertEqual(self.curve("y ~ x + I(x ^ 2) + I((x)^2) - I((x)^2)").design(), curve.design())

    def test_offsets_are_taken_from_the_response_and_added_to_predictions(self):
        line = self.line()
        self.assertEqual(line.design(), [[1, 0], [1, 1], [1, 3]])
        self.assertEqual((line.offsets(), line.response()), ([2, 0, -1], [2, 2, 2]))
        self.assertEqual((line.residuals("1/5"), line.fitted("1/5")), ([0, 1, 0], [2, 1, 2]))
        new = pandas.DataFrame({"x": [8, 8, None], "z": [3, None, 3]})
        self.assertEqual(line.predict(new, "1/5"), [10, None, None])
        self.assertEqual(line.predict(new, "4/5"), [F(19, 2), None, None])
        self.assertEqual(line.offsets(new), [6, None, None])
        with self.assertRaisesRegex(ValueError, "no column z"):
            line.predict(new[["x"]], "1/5")

    def test_steps_are_moved_by_an_offset(self):
        line = self.line()
        steps = [Step(F(0), F(3, 5), F(10)), Step(F(3, 5), F(1), F(19, 2))]
        self.assertEqual(line.steps([1, 4], offset=6), steps)
        self.assertEqual(line.rearranged({"I(1/2 * x)": 4}, offset=6), [Step(F(0), F(2, 5), F(19, 2)), Step(F(2, 5), F(1), F(10))])
        self.assertEqual(line.predict_entries([1, 4], "1/5", offset="13/2"), F(21, 2))

    def test_a_table_of_other_offsets_is_not_the_one_that_was_fitted(self):
        wrong = answered(shifted(LINE), lambda program: fit(SHIFT, SHIFTED.assign(y=[2, 2, 3, 2]), 0, 1, program=program))
        with self.assertRaisesRegex(ValueError, "record 3 of the basis"):
            wrong.design()

    def test_a_path_with_offsets_has_the_least_loss(self):
        found = self.path()
        found.check()
        self.assertEqual([y for _, y, _, _ in found.rows()], [0, 2, 3, 0])
        self.assertEqual((found.residuals(1), found.fitted(1)), ([F(-3, 2), 0, 0], [F(7, 2), 2, 2]))

    def test_a_rank_test_with_offsets(self):
        table = SHIFTED.to_csv(index=False).encode()
        full = Fit(**vars(read_report(shifted(LINE))), model=Model(SHIFT, table))
        self.assertEqual(rank_test_of_process(quantiles([0, 2, 3]), full, [2]), read_report(shifted(TEST)))
        with self.assertRaisesRegex(ValueError, "record 2 of the basis"):
            rank_test_of_process(quantiles([0, 1, 3]), full, [2])

    def test_names_in_arithmetics_are_no_variables(self):
        # A column fb stands in the arithmetic alone, so that the name fb is the level b of f. 1 + 2 for b, and the square of fb.
        text = CURVE.replace("records 4", "records 3").replace("data 4", "data 3").replace("column 2 x", "column 2 fb")
        text = text.replace("I(x^2)", "I(fb^2)").replace("coef 1 0\ncoef 2 0", "coef 1 1\ncoef 2 2").replace("loss 1/2 1/2", "loss 0 0")
        text = text[: text.index("scores")] + "scores ***\nbasic 1 1/2 1/2\nbasic 2 1/2 1/2\nbasic 3 1/2 1/2\nend\n"
        # So it is over a file, which the program is told as it stands.
        table = self.enterContext(tempfile.TemporaryDirectory()) + "/table.csv"
        pandas.DataFrame({"y": [2, 7, 1], "f": list("aba"), "fb": [1, 2, 0]}).to_csv(table, index=False)
        found = answered(text, lambda program: fit("y ~ f + I(fb^2)", table, "1/2", program=program))
        self.assertEqual(found.design(), [[1, 0, 1], [1, 1, 4], [1, 0, 0]])

    def test_a_picture_is_of_a_line(self):
        with self.assertRaisesRegex(ValueError, "no line"):
            plot_fit(self.line())


@needs_program
class ByTheProgram(unittest.TestCase):
    def test_the_worked_fits(self):
        for found, text in [
            (fit("y ~ x + I(x^2)", FOUR, "1/2"), CURVE),
            (fit(SHIFT, SHIFTED, 0, 1), shifted(LINE)),
            (path(SHIFT, SHIFTED, "1/2", "1/4", 2), shifted(LINE_PATH)),
            (rank_test(SHIFT, SHIFTED, 2), shifted(TEST)),
        ]:
            report = read_report(text)
            self.assertEqual(fields(found, type(report)), fields(report, type(report)))

    def test_predictions_have_the_offsets(self):
        table = pandas.concat([SHIFTED, pandas.DataFrame({"y": [None], "x": [8], "z": [F(3)]})])
        (asked,) = predictions(SHIFT, table, 0, 1).predictions
        self.assertEqual(asked.record, 5)
        self.assertEqual(asked.steps, (Step(F(0), F(3, 5), F(10)), Step(F(3, 5), F(1), F(19, 2))))
        self.assertEqual(asked.rearranged, (Step(F(0), F(2, 5), F(19, 2)), Step(F(2, 5), F(1), F(10))))

    def test_designs_are_read_back(self):
        columns = {"y": [1, 4, 2, 8, 5, 7], "x": [1, 2, 3, 4, 6, 5], "z": [F(1, 2), F(1, 3), F(0), F(1), F(2), F(-1)], "f": list("abcabc")}
        table, powers = pandas.DataFrame(columns), [1, 16, 81, 256, 1296, 625]
        found = fit("y ~ I(x^4) + I(x*z - 3/2) + offset(x - z) + offset(2*z)", table, "1/2")
        self.assertEqual([row[1] for row in found.design()], powers)
        self.assertEqual([row[2] for row in found.design()], [-1, F(-5, 6), F(-3, 2), F(5, 2), F(21, 2), F(-13, 2)])
        self.assertEqual(found.offsets(), [F(3, 2), F(7, 3), 3, 5, 8, 4])
        self.assertEqual(sum(map(abs, found.residuals("1/2"))), 2 * found.loss_at("1/2"))
        crossed = fit("y ~ f:I(2*x) + offset(x)", table, "1/2")
        self.assertEqual(crossed.names, ("(Intercept)", "fa:I(2 * x)", "fb:I(2 * x)", "fc:I(2 * x)"))
        self.assertEqual(crossed.design()[4], [1, 0, 12, 0])

    def test_faults_come_back_with_their_fields(self):
        levels = pandas.DataFrame({"y": [1, 2], "f g": ["a", "b"], "x": [1, 2]})
        wide = pandas.DataFrame({"y": [1], "x": [10**38]})
        spill = {"quantity": "arith-value", "at": (1, 1), "term": 1, "op": "mul", "left": 2, "right": 10**38}
        taken = {"quantity": "offset-response", "at": (1,), "term": 2, "op": "sub", "left": 1 - 10**38, "right": 10**38}
        for formula, table, name, fields in [
            ("y ~ I(x + `f g`)", levels, "ArithNotNumeric", {"name": "f g"}),
            ("y ~ offset(`f g`)", levels, "ArithNotNumeric", {"name": "f g"}),
            ("y ~ I(2*x)", wide, "Overflow", spill),
            ("y ~ offset(x) + offset(x)", wide, "Overflow", taken),
            ("y ~ - offset(x)", levels, "Syntax", {"offset": 6}),
            ("y ~ x/2", levels, "Syntax", {"offset": 5}),
            ("y ~ x^9", levels, "PowerRange", {"offset": 6}),
            ("y ~ I(x + w)", levels, "UnknownName", {"offset": 10}),
        ]:
            with self.subTest(formula=formula), self.assertRaises(QuantregError) as caught:
                fit(formula, table, "1/2")
            self.assertEqual((caught.exception.status, caught.exception.name), (1, name))
            self.assertEqual(caught.exception.fields, fields)


if __name__ == "__main__":
    unittest.main()
