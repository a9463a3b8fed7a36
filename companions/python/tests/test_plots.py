"""Each picture is drawn to PNG and isn't blank; what is drawn stands where the report says."""

import io
import unittest
from dataclasses import replace
from fractions import Fraction as F

import matplotlib

matplotlib.use("Agg")
import matplotlib.pyplot as plt
import pandas

from quantreg_exact import Interval, ProcessReport, Segment, fit, plot_fit, plot_process, read_report

from stand_ins import needs_program
from test_reports import LINE, MEDIAN


def made(count):
    """A process of so many segments of equal length whose slope k/count rises and whose intercept is its square."""
    segments = []
    for k in range(count):
        slope = F(k, count)
        segments.append(Segment(k + 1, slope, F(k + 1, count), (slope * slope, slope), (0, 0), "**", {1: (1, 0), 2: (1, 0)}))
    ends = [(F(k, 10), F(k, 20), F(k, 8)) for k in range(1, 10)]
    intervals = [Interval(2, tau, low, high) for tau, low, high in ends]
    intervals[0] = Interval(2, F(1, 10), -float("inf"), F(1, 8))
    return ProcessReport(2, 0, ("(Intercept)", "x"), 2, 0, count, tuple(segments), tuple(intervals))


def ink(figure):
    """The share of the picture's points that aren't white."""
    picture = io.BytesIO()
    figure.savefig(picture, format="png", dpi=100)
    picture.seek(0)
    points = plt.imread(picture)[:, :, :3]
    return (points.min(axis=2) < 0.95).mean()


def below(figure):
    """What stands below the panels, on one line."""
    return " ".join(it.get_text() for it in figure.texts).replace("\n", " ")


def bars_of(axis):
    """The places, the low and the high ends of a panel's bars."""
    (bars,) = [it for it in axis.collections if it.get_label() == "rank intervals"]
    return [(low[0], low[1], high[1]) for low, high in bars.get_segments()]


class Pictures(unittest.TestCase):
    def tearDown(self):
        plt.close("all")

    def test_processes_are_drawn_and_not_overdrawn(self):
        for report in (read_report(LINE), made(50), made(1700)):
            figure = plot_process(report, response="y")
            self.assertTrue(0.01 < ink(figure) < 0.3, ink(figure))

    def test_each_panel_has_its_axes_named(self):
        figure = plot_process(read_report(LINE), response="y", units={"x": "pounds per mile"})
        intercept, slope = figure.axes
        self.assertEqual((intercept.get_title(), slope.get_title()), ("(Intercept)", "x"))
        self.assertEqual((intercept.get_ylabel(), slope.get_ylabel()), ("y", "pounds per mile"))
        self.assertEqual(slope.get_xlabel(), "quantile")

    def test_steps_stand_at_the_breakpoints(self):
        (intercept, slope) = plot_process(read_report(LINE)).axes
        (stairs,) = [it for it in slope.patches if hasattr(it, "get_data") and it.get_zorder() == 2]
        values, edges, _ = stairs.get_data()
        self.assertEqual((list(values), list(edges)), ([1.0, 0.5], [0.0, 0.6, 1.0]))

    def test_a_bar_stands_at_each_interval_and_nowhere_else(self):
        (_, slope) = plot_process(made(50)).axes
        bars = bars_of(slope)
        self.assertEqual([place for place, _, _ in bars], [k / 10 for k in range(1, 10)])
        self.assertEqual([high for _, _, high in bars], [k / 8 for k in range(1, 10)])
        self.assertEqual([low for _, low, _ in bars[1:]], [k / 20 for k in range(2, 10)])

    def test_an_infinite_end_runs_off_the_panel_and_does_not_set_it(self):
        (_, slope) = plot_process(made(50), trim=0).axes
        low, high = slope.get_ylim()
        self.assertLess(bars_of(slope)[0][1], low)
        # From 0 of the first step to 9/8 of the last bar.
        self.assertTrue(-0.3 < low < 0 and 9 / 8 < high < 1.3, (low, high))

    def test_what_is_trimmed_does_not_set_the_panel(self):
        report = made(50)
        wide = replace(report, intervals=(*report.intervals[:8], Interval(2, F(9, 10), F(0), F(1000))))
        (_, whole), (_, middle) = plot_process(wide, trim=0).axes, plot_process(wide, trim=0.15).axes
        self.assertGreater(whole.get_ylim()[1], 1000)
        # The bars within are at 1/5 to 4/5, where the highest end is 1.
        self.assertTrue(1 < middle.get_ylim()[1] < 1.3, middle.get_ylim())
        with self.assertRaises(ValueError):
            plot_process(report, trim=0.5)

    def test_tails_are_trimmed_unless_they_are_asked_for_and_it_is_said(self):
        far = replace(made(50), intervals=())
        last = replace(far.segments[-1], coef=(F(0), F(1000)))
        report = replace(far, segments=(*far.segments[:-1], last))
        (_, usual), (_, whole) = plot_process(report).axes, plot_process(report, trim=0).axes
        self.assertLess(usual.get_ylim()[1], 2)
        self.assertGreater(whole.get_ylim()[1], 1000)
        self.assertIn("heights by the middle 90 %", below(plot_process(report)))
        self.assertNotIn("heights", below(plot_process(report, trim=0)))

    def test_the_level_stands_on_the_figure(self):
        self.assertIn("bars: rank intervals at 9 quantiles", below(plot_process(made(50))))
        told = below(plot_process(made(50), level="90 %"))
        self.assertIn("bars: rank intervals of the level 90 % at 9 quantiles", told)
        self.assertNotIn("bars", below(plot_process(read_report(LINE))))

    @needs_program
    def test_a_fit_knows_its_level_and_its_units(self):
        table = pandas.DataFrame({"y": [1, 4, 2, 8, 5, 7], "x": [2, 3, 1, 5, 4, 9], "f": list("abcabc")})
        figure = plot_process(fit("y ~ x + f", table, 0, 1, alpha=0.1, rank_at=["1/4", "1/2"]))
        self.assertEqual([axis.get_ylabel() for axis in figure.axes], ["y", "y per unit of x", "y", "y"])
        self.assertIn("of the level 90 % at 2 quantiles", below(figure))

    def test_what_cannot_be_drawn_is_refused(self):
        line = read_report(LINE)
        for wrong in (
            lambda: plot_process(read_report(MEDIAN)),
            lambda: plot_process(line, ["z"]),
            # What would do nothing is an error.
            lambda: plot_process(line, level="90 %"),
            lambda: plot_process(line, units={"z": "miles"}),
            lambda: plot_process(line, least_squares=True),
        ):
            with self.assertRaises(ValueError):
                wrong()

    @needs_program
    def test_a_fit_of_one_regressor(self):
        table = pandas.DataFrame({"y": [0, 2, 3, 1], "x": [0, 1, 3, 2], "z": [1, 0, 0, 0]})
        figure = plot_fit(fit("y ~ x", table, 0, 1), units={"x": "miles"})
        self.assertTrue(0.01 < ink(figure) < 0.3)
        self.assertEqual((figure.axes[0].get_xlabel(), figure.axes[0].get_ylabel()), ("x (miles)", "y"))
        with self.assertRaises(ValueError):
            plot_fit(fit("y ~ x + z", table, "1/2"))

    @needs_program
    def test_units_come_with_the_data(self):
        table = pandas.DataFrame({"y": [0, 2, 3, 1], "x": [0, 1, 3, 2]})
        table.attrs["units"] = {"y": "francs", "x": "miles"}
        found = fit("y ~ x", table, 0, 1)
        self.assertEqual(plot_process(found).axes[1].get_ylabel().replace("\n", " "), "y (francs) per unit of x (miles)")
        (axis,) = plot_fit(found).axes
        self.assertEqual((axis.get_xlabel(), axis.get_ylabel()), ("x (miles)", "y (francs)"))

    @needs_program
    def test_the_line_of_least_squares_is_dashed(self):
        # The means of 0, 2, 4 and of 1, 3, 5, 7 are 2 and 4.
        table = pandas.DataFrame({"y": [0, 2, 4, 1, 3, 5, 7], "f": list("aaabbbb"), "w": [1] * 7})
        for options in ({}, {"weights": "w"}):
            figure = plot_process(fit("y ~ f", table, 0, 1, **options), least_squares=True)
            dashed = [it for axis in figure.axes for it in axis.lines if it.get_linestyle() == "--"]
            for line, wanted in zip(dashed, (2, 2), strict=True):
                self.assertAlmostEqual(line.get_ydata()[0], wanted)
            self.assertIn("dashed: least squares", below(figure))

    @needs_program
    def test_fits_at_several_quantiles(self):
        table = pandas.DataFrame({"y": [1, 4, 2, 8, 5, 7, 3, 6, 9], "x": [2, 3, 1, 5, 4, 0, 7, 8, 6]})
        several = fit("y ~ x", table, [0.25, 0.5, 0.75], alpha=0.1)
        (_, slope) = plot_process(several).axes
        (points,) = [it for it in slope.lines if it.get_marker() == "o"]
        self.assertEqual(list(points.get_xdata()), [0.25, 0.5, 0.75])
        self.assertEqual(list(points.get_ydata()), several.params.loc["x"].tolist())
        self.assertEqual([place for place, _, _ in bars_of(slope)], [0.25, 0.5, 0.75])
        (axis,) = plot_fit(several).axes
        self.assertEqual({it.get_text() for it in axis.texts}, {"0.25", "0.5", "0.75"})

    @needs_program
    def test_curves_and_factors(self):
        squares = pandas.DataFrame({"y": [4, 1, 0, 1, 4, 9], "x": [-2, -1, 0, 1, 2, 3]})
        (axis,) = plot_fit(fit("y ~ x + I(x^2)", squares, 0.5)).axes
        (curve,) = axis.lines
        for across, height in zip(curve.get_xdata(), curve.get_ydata()):
            self.assertAlmostEqual(height, across**2)
        self.assertGreater(len(curve.get_xdata()), 50)
        # The medians of 0, 2, 4 and of 1, 3, 5 are 2 and 3.
        table = pandas.DataFrame({"y": [0, 2, 4, 1, 3, 5], "f": pandas.Categorical(list("bbbaaa"), categories=["b", "a"]), "x": [0, 1, 2] * 2})
        (axis,) = plot_fit(fit("y ~ f", table, 0.5)).axes
        self.assertEqual([it.get_text() for it in axis.get_xticklabels()], ["b", "a"])
        bars = [it for it in axis.collections if len(it.get_paths()) == 2 and hasattr(it, "get_segments")]
        self.assertEqual([segment[0][1] for it in bars for segment in it.get_segments()], [2, 3])
        panels = plot_fit(fit("y ~ x * f", table, 0.5)).axes
        self.assertEqual([it.get_title() for it in panels], ["f: b", "f: a"])
        self.assertEqual([round(float(it.lines[0].get_ydata()[0] - it.lines[0].get_xdata()[0] * 2), 6) for it in panels], [0, 1])


if __name__ == "__main__":
    unittest.main()
