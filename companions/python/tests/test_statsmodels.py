"""What statsmodels' quantreg answers, beside ours: the columns that it takes as factors, the formulas of patsy, and analyses of its data sets.

statsmodels iterates, so that its coefficients are near ours where the fit is unique, and its check loss is never below the exact one.
"""

import importlib.util
import pickle
import sys
import tempfile
import unittest
import warnings
from fractions import Fraction as F
from unittest import mock

import numpy as np
import pandas

from quantreg_exact import QuantregError, fit, path, predictions, rank_test, ranks

from stand_ins import needs_program, noted, refusing

try:
    import statsmodels.formula.api as smf
    from statsmodels.datasets import anes96, copper, cpunish, engel, fair, grunfeld, longley, modechoice, scotland, star98, statecrime, strikes
    from statsmodels.datasets import ccard, fertility, macrodata, randhie, stackloss
except ImportError:
    smf = None

needs_patsy = unittest.skipUnless(importlib.util.find_spec("patsy"), "python3-patsy is not installed")
OVERFLOW = "quantreg: solver: Overflow place=test quantity=statistic at=1 term=1 op=mul left=2 right=3"
needs_statsmodels = unittest.skipUnless(smf, "python3-statsmodels is not installed")

GROUPS = pandas.DataFrame(
    {
        "y": [3.1, 1.2, 4.7, 1.9, 5.3, 9.2, 2.6, 6.4, 5.8, 3.5, 8.9, 7.1, 9.7, 3.3, 2.2],
        "x": [2, 7, 1, 8, 2, 8, 1, 8, 2, 8, 4, 5, 9, 4, 5],
        "z": [1.5, 0.5, 2.5, 4.0, 3.5, 2.0, 1.0, 5.5, 6.0, 3.0, 4.5, 2.2, 7.5, 0.8, 6.5],
        "code": ["101", "102", "103"] * 5,
        "size": pandas.Categorical(["low", "mid", "high"] * 5, categories=["low", "mid", "high"], ordered=True),
        "side": ["NA", "b", "b", "NA", "c"] * 3,
        "told": [True, False, False, True, True] * 3,
        "größe": [4, 2, 3, 9, 1, 1, 7, 5, 8, 2, 6, 4, 3, 7, 5],
        "my col": [1, 5, 2, 4, 3, 9, 7, 6, 8, 2, 4, 1, 5, 3, 7],
        "2nd": [3, 1, 4, 1, 5, 9, 2, 6, 5, 3, 5, 8, 9, 7, 9],
        "level": pandas.Categorical([1, 3, 2] * 5),
    }
)


def theirs(formula, data, tau):
    """The fit of statsmodels, which may say that its iterations ended."""
    with warnings.catch_warnings():
        warnings.simplefilter("ignore")
        return smf.quantreg(formula, data).fit(tau, p_tol=1e-9, max_iter=20_000)


def loss(residuals, tau):
    return sum(max(tau * it, (tau - 1) * it) for it in map(float, residuals))


@needs_program
class OfFrames(unittest.TestCase):
    """The columns of a data frame, where what statsmodels makes of them is known."""

    def names_and_fit(self, formula, data=GROUPS, tau="1/2", **options):
        with noted():
            found = fit(formula, data, tau, **options)
        return list(found.names), found

    def agree(self, formula, names, wanted=None, data=GROUPS, tau="1/2", **options):
        """That the columns have these names, and that the fit loses as much as that of statsmodels for a formula of patsy."""
        with self.subTest(formula=formula):
            found_names, found = self.names_and_fit(formula, data, tau, **options)
            self.assertEqual(found_names, ["(Intercept)", *names])
            if smf:
                other = theirs(wanted or formula, data, float(F(tau)))
                self.assertEqual(len(other.params), len(found_names))
                self.assertAlmostEqual(float(found.loss_at(tau)), loss(other.resid, float(F(tau))), 4)
            if isinstance(data, pandas.DataFrame):
                self.assertEqual([it for it in found.predict(data) if it is not None], found.fitted())
        return found

    def test_texts_of_digits_are_a_factor(self):
        self.agree("y ~ code", ["code102", "code103"])
        self.agree("y ~ code:x", ["code101:x", "code102:x", "code103:x"])
        self.agree("y ~ code + x", ["code102", "code103", "x"], tau="1/4")

    def test_a_category_of_numbers_is_a_factor(self):
        self.agree("y ~ level", ["level2", "level3"])

    def test_the_order_of_categories_is_kept(self):
        found = self.agree("y ~ size", ["sizemid", "sizehigh"])
        # The medians of the three groups: of 3.1 1.9 2.6 3.5 9.7, of 1.2 5.3 6.4 8.9 3.3 and of 4.7 9.2 5.8 7.1 2.2.
        self.assertEqual(list(found.coef_at("1/2").values()), [F("3.1"), F("5.3") - F("3.1"), F("5.8") - F("3.1")])
        helmert = self.names_and_fit("y ~ size", contrasts="helmert")[1]
        self.assertEqual(helmert.design()[:3], [[1, -1, -1], [1, 1, -1], [1, 0, 2]])
        self.assertEqual(helmert.predict(pandas.DataFrame({"size": ["high", "low"]})), [F("5.8"), F("3.1")])

    def test_a_level_NA_keeps_its_records(self):
        self.assertEqual(self.agree("y ~ side", ["sideb", "sidec"]).records, 15)
        empty = GROUPS.assign(side=GROUPS.side.replace("NA", ""))
        self.assertEqual(self.agree("y ~ side", ["sideb", "sidec"], data=empty).records, 15)
        # What pandas has as missing is: three records of 15.
        self.assertEqual(self.agree("y ~ side", ["sideb"], data=GROUPS.assign(side=GROUPS.side.replace("c", None))).dropped, 3)

    def test_truth_values_are_a_factor(self):
        self.agree("y ~ told + x", ["toldTrue", "x"])

    def test_dates_are_refused_with_a_way_to_numbers(self):
        days = pandas.date_range("2020-01-01", periods=15)
        for column, wanted in [
            (days, r"the column 'when' has dates, which aren't numbers: .*\.dt\.days"),
            (days - days[0], r"has spans of time, .*\.dt\.total_seconds\(\)"),
            (days.to_period("D"), r"has periods, .*\.dt\.year"),
            (list(days.date), "has dates"),
        ]:
            table = GROUPS.assign(when=column)
            with self.assertRaisesRegex(ValueError, wanted):
                fit("y ~ when", table, 0.5)
            # Where the formula leaves the column out, nobody minds.
            self.assertEqual(self.names_and_fit("y ~ x", table)[0], ["(Intercept)", "x"])
        numbers = GROUPS.assign(when=(pandas.Series(days) - days[0]).dt.days)
        self.agree("y ~ when", ["when"], data=numbers)

    def test_cells_that_are_neither_numbers_nor_texts(self):
        for cells, wanted in (([[1]] * 15, "a cell of the type list"), ([1j] * 15, "complex numbers"), ([1.0] * 14 + [float("inf")], "infinite .*record 15")):
            with self.assertRaisesRegex(ValueError, wanted):
                fit("y ~ odd", GROUPS.assign(odd=pandas.Series(cells)), 0.5)

    def test_names_without_backticks(self):
        for formula, names, wanted in [
            ("y ~ größe", ["größe"], None),
            ("y ~ my col", ["my col"], "y ~ Q('my col')"),
            ("y ~ Q('my col') + 2nd", ["my col", "2nd"], "y ~ Q('my col') + Q('2nd')"),
            ("y ~ `my col`:x", ["my col:x"], "y ~ Q('my col'):x"),
            ("größe ~ I(2nd^2) + x", ["I(`2nd`^2)", "x"], "größe ~ I(Q('2nd')**2) + x"),
            ("my col ~ größe*size", ["größe", "sizemid", "sizehigh", "größe:sizemid", "größe:sizehigh"], "Q('my col') ~ größe*size"),
        ]:
            self.agree(formula, names, wanted)
        every = GROUPS[["y", "größe", "my col", "2nd"]]
        self.agree("y ~ .", ["größe", "my col", "2nd"], "y ~ größe + Q('my col') + Q('2nd')", data=every)
        # A column whose name is a number stands between backticks.
        numbered = GROUPS.rename(columns={"x": 1})
        self.agree("y ~ `1` + z", ["1", "z"], "y ~ Q('1') + z", data=numbered.set_axis(map(str, numbered.columns), axis=1))

    def test_names_that_are_words_of_the_language(self):
        table = GROUPS.rename(columns={"x": "factor", "z": "new\nline", "my col": "co`de", "2nd": "I"})
        for formula, names, wanted in [
            ("y ~ I", ["I"], "y ~ Q('I')"),
            (r"y ~ Q('new\nline') + Q('co`de')", ["new\nline", "co`de"], None),
            ("y ~ factor * code", ["factor", "code102", "code103", "factor:code102", "factor:code103"], None),
        ]:
            self.agree(formula, names, wanted, data=table)
        with self.assertRaisesRegex(QuantregError, "there is no column 'gröse'; did you mean 'größe'"):
            fit("gröse ~ zzz", table.assign(when=pandas.Timestamp(0)), 0.5)
        with self.assertRaisesRegex(QuantregError, "the formula ends where more should stand"):
            fit("", table, 0.5)

    def test_two_columns_of_one_name(self):
        with self.assertRaisesRegex(ValueError, "more than one column 'x'"):
            fit("y ~ x", pandas.concat([GROUPS, GROUPS[["x"]]], axis=1), 0.5)

    def test_a_mapping_is_a_table_and_other_things_are_not(self):
        columns = {"y": [1, 4, 2, 8, 5], "x": [2, 3, 1, 5, 4]}
        self.agree("y ~ x", ["x"], data=columns)
        for data, kind, wanted in [
            ([[1, 2], [3, 4]], TypeError, r"data is a list, .* pandas\.DataFrame\(data, columns"),
            (np.ones((2, 2)), TypeError, "data is a ndarray"),
            (GROUPS.y, TypeError, r"data is a Series, .* data\.to_frame\(\)"),
            ({"y": [1, 2], "x": [1]}, ValueError, "data is a dict of which pandas makes no data frame"),
            (pandas.DataFrame(), ValueError, "no columns"),
        ]:
            with self.assertRaisesRegex(kind, wanted):
                fit("y ~ x", data, 0.5)
        with self.assertRaisesRegex(TypeError, "the formula is a DataFrame"):
            fit(GROUPS, "y ~ x", 0.5)
        with self.assertRaisesRegex(TypeError, "weights are the name of a column"):
            fit("y ~ x", GROUPS, 0.5, weights=GROUPS.z)
        with self.assertRaisesRegex(QuantregError, "the table has no records"):
            fit("y ~ x", GROUPS[:0], 0.5)

    @needs_patsy
    def test_columns_that_patsy_works_out(self):
        for formula, names, wanted in [
            ("y ~ np.log(x)", ["np.log(x)"], None),
            ("np.log(y) ~ z", ["z"], None),
            ("y ~ log(x)", ["log(x)"], "y ~ np.log(x)"),
            ("y ~ I(1/x)", ["I(1/x)"], None),
            ("y ~ I(x/2) + I(z**2)", ["I(x/2)", "I(z^2)"], None),
            ("y ~ I(x > 4)", ["I(x > 4)True"], None),
            ("y ~ C(x > 4) * z", ["C(x > 4)True", "z", "C(x > 4)True:z"], None),
            ("y ~ (x + z)**2", ["x", "z", "x:z"], None),
            ("y ~ center(x)", ["center(x)"], None),
            ("y ~ C(x)", [f"C(x){level}" for level in (2, 4, 5, 7, 8, 9)], None),
            ("y ~ C(size, Treatment('mid'))", ["C(size, Treatment('mid'))low", "C(size, Treatment('mid'))high"], None),
            ("y ~ I(3/2^2 * x)", ["I(3/2^2 * x)"], "y ~ I(3/2**2 * x)"),
        ]:
            self.agree(formula, names, wanted)

    @needs_patsy
    def test_splines_are_rounded_by_digits(self):
        names = [f"bs(x, df=4)[{at}]" for at in range(4)]
        with noted() as texts:
            found = fit("y ~ bs(x, df=4)", GROUPS, 0.5, digits=4)
        self.assertEqual(list(found.names), ["(Intercept)", *names])
        told = ", ".join(f"{name} to {4 if at in (1, 2) else places}" for at, (name, places) in enumerate(zip(names, [4, 4, 4, 3])))
        self.assertTrue(texts[0].startswith("bs(x, df=4) was worked out by patsy, in floats, and rounded to 4 digits of the greatest"), texts)
        self.assertIn(told, texts[0])
        if smf:
            self.assertAlmostEqual(float(found.loss_at(0.5)), loss(theirs("y ~ bs(x, df=4)", GROUPS, 0.5).resid, 0.5), 2)
        # What patsy took from the fitted table holds for new data: the first record alone has the same row.
        self.assertEqual(found.predict(GROUPS[:1]), found.fitted()[:1])

    @needs_patsy
    def test_a_note_tells_what_was_worked_out(self):
        with noted() as texts:
            fit("y ~ np.log(x) + np.sqrt(z)", GROUPS, 0.5, digits=3)
        (text,) = [it for it in texts if "patsy" in it]
        self.assertTrue(text.startswith("np.log(x), np.sqrt(z) were worked out by patsy, in floats, and rounded to 3 digits"))
        with noted() as texts:
            self.assertEqual(fit("y ~ np.log(x)", GROUPS, 0.5, digits=3).design()[0], [1, F("0.69")])
        with self.assertRaisesRegex(ValueError, "digits= rounds the columns that are worked out of a formula, and this one has none"):
            fit("y ~ x", GROUPS, 0.5, digits=3)

    @needs_patsy
    def test_what_cannot_be_worked_out(self):
        for formula, wanted in [
            ("y ~ foo(x)", r"foo\(x\) can't be worked out: .*name 'foo' is not defined"),
            ("y ~ np.log(w)", r"np\.log\(w\) can't be worked out: .*name 'w' is not defined"),
            ("y ~ np.arange(3)", r"np\.arange\(3\) has 3 values, and the table 15 records"),
        ]:
            with self.assertRaisesRegex(QuantregError, wanted):
                fit(formula, GROUPS, 0.5)
        with self.assertRaisesRegex(ValueError, "'np.log\\(x\\)' has an infinite number, in record 1"):
            fit("y ~ np.log(x)", GROUPS.assign(x=range(15)), 0.5)
        with self.assertRaisesRegex(ValueError, "asks for contrasts of its own"):
            fit("y ~ C(size, Sum)", GROUPS, 0.5)
        with self.assertRaisesRegex(ValueError, "has the contrasts treatment, and not sum"):
            fit("y ~ C(size, Treatment('mid'))", GROUPS, 0.5, contrasts="sum")
        with self.assertRaisesRegex(ValueError, r"new data: np\.log\(x\) can't be worked out: .*name 'x' is not defined"):
            self.names_and_fit("y ~ np.log(x)")[1].predict(GROUPS[["z"]])
        with self.assertRaisesRegex(ValueError, "record 1 has a level of code that the fit lacks: 104"):
            self.names_and_fit("y ~ code")[1].predict(pandas.DataFrame({"code": ["104"]}))
        with self.assertRaisesRegex(ValueError, "z is a column of numbers, and the new data have texts there: 'two'"):
            self.names_and_fit("y ~ z")[1].predict(pandas.DataFrame({"z": ["two"]}))

    @needs_patsy
    def test_a_fit_that_was_sent_has_its_own_records(self):
        found = self.names_and_fit("y ~ np.log(x) + code")[1]
        again = pickle.loads(pickle.dumps(found))
        self.assertEqual(again.fitted(), found.fitted())
        with self.assertRaisesRegex(ValueError, "was worked out in another process"):
            again.predict(GROUPS)

    @needs_patsy
    def test_files_are_read_as_they_stand(self):
        file = self.enterContext(tempfile.TemporaryDirectory()) + "/table.csv"
        GROUPS.to_csv(file, index=False)
        for formula, names in [
            ("y ~ größe + 2nd", ["größe", "2nd"]),
            ("y ~ np.log(x) + `my col`", ["np.log(x)", "my col"]),
            ("y ~ I(x > 4) + größe", ["I(x > 4)True", "größe"]),
        ]:
            with self.subTest(formula=formula), noted():
                of_file, of_frame = fit(formula, file, 0.5), fit(formula, GROUPS, 0.5)
                self.assertEqual((of_file.names, of_file.segments), (of_frame.names, of_frame.segments))
                self.assertEqual(of_file.names, ("(Intercept)", *names))
                self.assertEqual(of_file.predict(GROUPS), of_frame.predict(file))
        # There are no types in a file: 101 is a number, and NA a cell that is missing.
        with noted():
            self.assertEqual((fit("y ~ code", file, 0.5).names, fit("y ~ side", file, 0.5).dropped), (("(Intercept)", "code"), 6))

    def test_other_jobs_have_the_names_of_the_table(self):
        plain = GROUPS.rename(columns={"größe": "x1", "my col": "x2"}).assign(size=list("abc") * 5)
        pairs = [(GROUPS, "y ~ größe + size + my col"), (plain, "y ~ x1 + size + x2")]
        with noted():
            ours, others = (rank_test(formula, table, "size") for table, formula in pairs)
            self.assertEqual((ours.statistic, ours.tested_names), (others.statistic, ("sizemid", "sizehigh")))
            rescued = refusing("'test '*", OVERFLOW, lambda program: rank_test(pairs[0][1], GROUPS, "size", program=program))
            self.assertEqual((rescued.statistic, rescued.names), (ours.statistic, ours.names))
            self.assertEqual(*(ranks(formula, table).wilcoxon for table, formula in pairs))
            ours, others = (path(formula, table, 0.5, 1, 2) for table, formula in pairs)
            self.assertEqual(ours.segments, others.segments)
            self.assertEqual(ours.names, ("(Intercept)", "größe", "sizemid", "sizehigh", "my col"))
            ours.check()
            missing = GROUPS.assign(y=[None, *GROUPS.y[1:]])
            asked = predictions("y ~ größe + size", missing, 0.5)
            self.assertEqual(asked.names, ("(Intercept)", "größe", "sizemid", "sizehigh"))
            self.assertEqual([asked.predictions[0].steps[0].value], fit("y ~ größe + size", missing, 0.5).predict(GROUPS[:1]))

    def test_products_of_factors_are_those_of_patsy_or_refused(self):
        table = pandas.concat([GROUPS, GROUPS.assign(y=GROUPS.y * 2 + 1, told=~GROUPS.told)], ignore_index=True)
        for formula in ("size*told", "size + size:told", "size*told*x", "x:size + told", "0 + size + told", "0 + size:told", "size*x - x", "size*x - size"):
            with self.subTest(formula=formula), noted():
                found = fit(f"y ~ {formula}", table, 0.5)
                if smf:
                    self.assertAlmostEqual(float(found.loss_at(0.5)), loss(theirs(f"y ~ {formula}", table, 0.5).resid, 0.5), 4)
        for formula in ("size:told", "size + told:side", "told:x + size:x"):
            with self.assertRaisesRegex(QuantregError, "the columns are dependent: .* write f.g or 0 . f:g"):
                fit(f"y ~ {formula}", table, 0.5)

    def test_without_patsy_a_sentence_says_what_is_missing(self):
        with mock.patch.dict(sys.modules, {"patsy": None}):
            for formula, wanted in [
                ("y ~ np.log(x)", r"np\.log\(x\) would be worked out by patsy, which isn't installed \(python3-patsy\): compute the column first"),
                ("y ~ z + I(1/x)", r"I\(1/x\) would be worked out by patsy"),
            ]:
                with self.assertRaisesRegex(QuantregError, wanted):
                    fit(formula, GROUPS, 0.5)
            # The program would take 3/2^2 for 9/4.
            with self.assertRaisesRegex(ValueError, "a ratio beside a power is another number to the program"):
                fit("y ~ I(3/2^2 * x)", GROUPS, 0.5)
            self.assertEqual(self.names_and_fit("y ~ I(x**2) + Q('my col')")[0], ["(Intercept)", "I(x^2)", "my col"])

    def test_unknown_words_are_errors(self):
        for words in ({"tau": 0.5}, {"method": "br"}, {"q": 0.5}, {"se": "boot"}):
            with self.assertRaisesRegex(TypeError, "unexpected keyword argument"):
                fit("y ~ x", GROUPS, 0.5, **words)
        found = self.names_and_fit("y ~ x")[1]
        for call in (lambda: found.summary(se="boot"), lambda: found.predict(GROUPS, interval=True), lambda: found.conf_int(level=0.9)):
            with self.assertRaisesRegex(TypeError, "unexpected keyword argument"):
                call()
        with self.assertRaisesRegex(ValueError, "tcrit asks for a critical value"):
            found.summary(None, tcrit=True)


def crossed(data, **columns):
    """A data set's table with columns that have been worked out of others."""
    return data.load_pandas().data.assign(**columns).reset_index(drop=True)


def _analyses():
    """Analyses that statsmodels and we are both asked: a name, a formula, a table and a quantile."""
    spending, losses, jobs = crossed(engel), crossed(stackloss), crossed(longley)
    homes, votes, crime = crossed(ccard), crossed(anes96).iloc[:300], crossed(statecrime)
    macro, invested, struck = crossed(macrodata), crossed(grunfeld), crossed(strikes)
    visits, affairs, schools = crossed(randhie).iloc[::60], crossed(fair).iloc[::20], crossed(star98)
    metal, deaths, scots = crossed(copper), crossed(cpunish), crossed(scotland)
    trips = crossed(modechoice)
    yield ("expenditure on food", "foodexp ~ income", spending, 0.5)
    yield ("expenditure on food, low", "foodexp ~ income", spending, 0.05)
    yield ("expenditure on food, high", "foodexp ~ income", spending, 0.95)
    yield ("expenditure by a square", "foodexp ~ income + I((income - 900)**2)", spending.round(0), 0.4)
    yield ("expenditure of rich and poor", "foodexp ~ income * C(income > 900)", spending.round(0), 0.55)
    yield ("logarithms of expenditure", "np.log(foodexp) ~ np.log(income)", spending, 0.3)
    yield ("stack losses", "STACKLOSS ~ AIRFLOW + WATERTEMP + ACIDCONC", losses, 0.5)
    yield ("stack losses, high", "STACKLOSS ~ AIRFLOW + WATERTEMP", losses, 0.8)
    yield ("jobs", "TOTEMP ~ GNPDEFL + UNEMP", jobs, 0.5)
    yield ("jobs without a constant", "TOTEMP ~ 0 + POP + ARMED", jobs, 0.3)
    yield ("credit cards", "AVGEXP ~ AGE + INCOME + OWNRENT", homes, 0.45)
    yield ("credit cards by owners", "AVGEXP ~ C(OWNRENT) * INCOME", homes, 0.6)
    yield ("votes", "TVnews ~ age + educ", votes, 0.77)
    yield ("votes by education", "logpopul ~ C(educ)", votes, 0.52)
    yield ("murders", "murder ~ urban + poverty", crime, 0.5)
    yield ("murders by single parents", "murder ~ hs_grad + single", crime, 0.9)
    yield ("consumption", "realcons ~ realdpi", macro, 0.5)
    yield ("consumption by quarters", "infl ~ unemp + C(quarter)", macro, 0.35)
    yield ("investment", "invest ~ value + capital", invested, 0.5)
    yield ("investment by firms", "invest ~ value + C(firm)", invested, 0.25)
    yield ("strikes", "duration ~ iprod", struck, 0.6)
    yield ("visits to doctors", "mdvis ~ lncoins + disea", visits, 0.8)
    yield ("marriages", "yrs_married ~ age + children", affairs, 0.47)
    yield ("schools", "NABOVE ~ LOWINC + PERASIAN", schools.round(1), 0.5)
    yield ("copper", "WORLDCONSUMPTION ~ COPPERPRICE + TIME", metal, 0.5)
    yield ("executions", "EXECUTIONS ~ INCOME + SOUTH", deaths, 0.85)
    yield ("Scottish votes", "YES ~ COUTAX + UNEMPF", scots, 0.5)
    yield ("trips", "invt ~ hinc + C(mode)", trips.iloc[:200], 0.37)


# Analyses in which the iterations of statsmodels 0.13.5 end at a greater loss than the least, by 5 % and by 0.6 %.
ENDED_EARLY = ("expenditure by a square", "executions")


@needs_program
@needs_statsmodels
class Analyses(unittest.TestCase):
    """Analyses of statsmodels' own data sets."""

    def test_they_agree_where_the_fit_is_unique(self):
        unique = 0
        for name, formula, table, tau in _analyses():
            with self.subTest(name=name, formula=formula, tau=tau), noted():
                ours, other = fit(formula, table, tau), theirs(formula, table, tau)
                self.assertEqual(ours.records, int(other.nobs))
                least, reached = float(ours.loss_at(tau)), loss(other.resid, tau)
                self.assertLessEqual(least, reached * (1 + 1e-12))
                if name in ENDED_EARLY:
                    continue
                self.assertLess(reached, least * 1.0001)
                if ours.is_unique(tau):
                    unique += 1
                    fitted = np.array(ours.fitted(), dtype=float)
                    scale = np.abs(fitted).max()
                    np.testing.assert_allclose(fitted, other.fittedvalues, rtol=0, atol=0.003 * scale)
        # Where several fits lose as little, theirs may be another one.
        self.assertGreaterEqual(unique, 20)


if __name__ == "__main__":
    unittest.main()
