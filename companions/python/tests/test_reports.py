"""Reports as text: each worked row, read and worked on; texts that are no reports; fault lines.

The reports are those of the format's definition, worked by hand; no run of the program stands behind them.
"""

import math
import unittest
from fractions import Fraction as F

from quantreg_exact import QuantregError, ReportError, Step, read_fault, read_report, rearrange
from quantreg_exact.numbers import is_number_text, number_text

LINE = """quantreg 1
records 3 dropped 0
column 1 (Intercept)
column 2 x
data 3 penalty 0
pivots 2
segment 1 0 3/5
coef 1 0
coef 2 1
loss 0 3/5
scores *1*
basic 1 1 0
basic 3 1 1/5
segment 2 3/5 1
coef 1 3/2
coef 2 1/2
loss 3/5 0
scores 0**
basic 2 1 0
basic 3 1/5 0
end
"""

MEDIAN = """quantreg 1
records 3 dropped 0
column 1 (Intercept)
data 3 penalty 0
pivots 1
segment 1 1/2 1/2
coef 1 2
loss 1 1
scores 0*1
basic 2 1/2 1/2
end
"""

# Five records 1 to 5, whose median is 3, with the interval of the critical value 1 and that of 5.
FIVE = """quantreg 1
records 5 dropped 0
column 1 (Intercept)
data 5 penalty 0
pivots 2
segment 1 1/2 1/2
coef 1 3
loss 3 3
scores 00*11
basic 3 1/2 1/2
interval 1 1/2 2 4
interval 1 1/2 -Inf Inf
end
"""

SMOOTH = """quantreg 1
records 3 dropped 0
column 1 (Intercept)
column 2 qss(x)[1]
column 3 qss(x)[2]
data 3 penalty 1
pivots 1
segment 1 1/2 1/2
coef 1 0
coef 2 0
coef 3 0
loss 1 1
scores *1**
basic 1 1/4 1/4
basic 3 1/4 1/4
basic 4 1/4 1/4
end
"""

RANKS = """quantreg ranks 1
records 3 dropped 0
column 1 (Intercept)
column 2 x
pivots 2
wilcoxon 1 -1/5
wilcoxon 2 3/10
wilcoxon 3 -1/10
end
"""

PREDICT = """quantreg predict 1
records 3 dropped 1
column 1 (Intercept)
column 2 x
pivots 2
predict 4
step 0 3/5 4
step 3/5 1 7/2
rearranged 4
step 0 2/5 7/2
step 2/5 1 4
end
"""

PATH = """quantreg path 1
records 1 dropped 0
column 1 x
data 1 penalty 1
pivots 1
segment 1 1/4 1/2
coef 1 1
loss 1/4 1/2
sides *-
dual 1 1/4 1/2
segment 2 1/2 1
coef 1 0
loss 1/2 1/2
sides +*
dual 2 -1/2 -1/2
end
"""

# A line through two of three points, and at last the median of the responses: a slope of 1 loses 1/2 + lambda, one of 1/2
# loses 3/4 + lambda/2, and none loses 3/2. The entries times the dual values of the rows outside, with those of the basis, are
# 0 in each column.
LINE_PATH = """quantreg path 1
records 3 dropped 0
column 1 (Intercept)
column 2 x
data 3 penalty 1
pivots 3
segment 1 1/4 1/2
coef 1 0
coef 2 1
loss 3/4 1
sides *+*-
dual 1 -5/12 -1/2
dual 3 -1/12 0
segment 2 1/2 3/2
coef 1 3/2
coef 2 1/2
loss 1 3/2
sides -**-
dual 2 1/2 0
dual 3 0 1/2
segment 3 3/2 2
coef 1 2
coef 2 0
loss 3/2 3/2
sides -*+*
dual 2 0 0
dual 4 -3/2 -3/2
end
"""

TEST = """quantreg test 1
records 3 dropped 0
column 1 (Intercept)
column 2 x
tested 2
pivots 2
score 2 1
statistic 18/7
end
"""

CHECK = "quantreg check 1\ncolumns 2\nrows 3\nsegments 2\nintervals 0\naccepted\nend\n"
SAMPLE = "quantreg sample 1\nrecords 2 dropped 0\ncolumns 2\nsegments 1\npivots 0\nloss 0 0\nend\n"

CERTIFICATE = (
    '{"columns":2,"hi":"1","intervals":[],"kind":"quantreg-certificate","lo":"0","rows":['
    '{"down0":"1","down1":"-1","up0":"0","up1":"1","x":["1","0"],"y":"0"},'
    '{"down0":"1","down1":"-1","up0":"0","up1":"1","x":["1","1"],"y":"2"},'
    '{"down0":"1","down1":"-1","up0":"0","up1":"1","x":["1","3"],"y":"3"}],"segments":['
    '{"basic_hi":["-2/5","-1/5"],"basic_lo":["0","0"],"coef":["0","1"],"hi":"3/5","lo":"0","loss_hi":"3/5","loss_lo":"0",'
    '"sides":"*+*"},{"basic_hi":["0","0"],"basic_lo":["3/5","-1/5"],"coef":["3/2","1/2"],"hi":"1","lo":"3/5","loss_hi":"0",'
    '"loss_lo":"3/5","sides":"-**"}],"version":1}\n'
)

EVERY_KIND = [LINE, MEDIAN, FIVE, SMOOTH, RANKS, PREDICT, PATH, LINE_PATH, TEST, CHECK, SAMPLE]


class Processes(unittest.TestCase):
    def setUp(self):
        self.line = read_report(LINE)

    def test_its_counts_names_and_segments_are_those_of_the_text(self):
        report = self.line
        self.assertEqual((report.records, report.dropped, report.data, report.penalty, report.pivots), (3, 0, 3, 0, 2))
        self.assertEqual(report.names, ("(Intercept)", "x"))
        first, second = report.segments
        self.assertEqual((first.lo, first.hi, first.coef, first.loss), (0, F(3, 5), (0, 1), (0, F(3, 5))))
        self.assertEqual((second.marks, second.basic), ("0**", {2: (1, 0), 3: (F(1, 5), 0)}))
        self.assertEqual(report.breakpoints, [F(3, 5)])

    def test_a_quantile_within_a_segment_is_a_mix_of_its_ends(self):
        self.assertEqual(self.line.loss_at("1/5"), F(1, 5))
        self.assertEqual(self.line.scores_at(F(1, 5)), [F(2, 3), 1, F(11, 15)])
        self.assertEqual(self.line.coef_at(0.2), {"(Intercept)": 0, "x": 1})

    def test_where_two_segments_meet_the_side_decides(self):
        self.assertEqual(self.line.coef_at("3/5"), {"(Intercept)": 0, "x": 1})
        self.assertEqual(self.line.coef_at("3/5", side="upper"), {"(Intercept)": F(3, 2), "x": F(1, 2)})
        with self.assertRaises(ValueError):
            self.line.coef_at("3/5", side="left")

    def test_a_quantile_outside_the_range_is_refused(self):
        with self.assertRaises(ValueError):
            read_report(MEDIAN).coef_at("1/4")

    def test_a_fit_is_unique_strictly_within_the_bounds_alone(self):
        self.assertIs(self.line.is_unique("1/5"), True)
        # At 3/5 the lines 0 + x and 3/2 + x/2 both have the loss 3/5.
        self.assertIs(self.line.is_unique("3/5"), False)
        # At 0 any line below all points has the loss 0, which the report doesn't tell.
        self.assertIs(self.line.is_unique(0), None)
        self.assertIs(read_report(MEDIAN).is_unique("1/2"), True)

    def test_a_penalty_row_needs_its_bound(self):
        smooth = read_report(SMOOTH)
        self.assertIs(smooth.is_unique("1/2"), None)
        self.assertIs(smooth.is_unique("1/2", penalty_bounds=[1]), True)
        self.assertIs(smooth.is_unique("1/2", penalty_bounds=["1/4"]), None)

    def test_predictions_are_steps_and_rearranged_ones_never_fall(self):
        four, two = {"x": 4}, [1, 2]
        self.assertEqual(self.line.steps(four), [Step(0, F(3, 5), 4), Step(F(3, 5), 1, F(7, 2))])
        self.assertEqual(self.line.rearranged(four), [Step(0, F(2, 5), F(7, 2)), Step(F(2, 5), 1, 4)])
        self.assertEqual(self.line.rearranged(two), [Step(0, F(3, 5), 2), Step(F(3, 5), 1, F(5, 2))])
        self.assertEqual(self.line.predict_entries(four, "1/5"), 4)
        for entries in ({"z": 1}, [1]):
            with self.assertRaises(ValueError):
                self.line.steps(entries)

    def test_wilcoxon_scores_are_those_of_the_job_ranks(self):
        self.assertEqual(tuple(self.line.wilcoxon()), read_report(RANKS).wilcoxon)
        for text in (MEDIAN, SMOOTH):
            with self.assertRaises(ValueError):
                read_report(text).wilcoxon()

    def test_wilcoxon_scores_have_numbers_of_any_size(self):
        # Two records 1 and 2 of the weights 1 and w: the scores are w/(2(1 + w)) less than and 1/(2(1 + w)) more than 0.
        at = F(1, 10**50 + 1)
        text = f"""quantreg 1
records 2 dropped 0
column 1 (Intercept)
data 2 penalty 0
pivots 1
segment 1 0 {at}
coef 1 1
loss 0 {1 - at}
scores *1
basic 1 1 0
segment 2 {at} 1
coef 1 2
loss {1 - at} 0
scores 0*
basic 2 1 0
end
"""
        self.assertEqual(read_report(text).wilcoxon(), [at / 2 - F(1, 2), at / 2])

    def test_intervals_may_have_infinite_ends(self):
        finite, infinite = read_report(FIVE).intervals
        self.assertEqual((finite.column, finite.tau, finite.low, finite.high), (1, F(1, 2), 2, 4))
        self.assertEqual((infinite.low, infinite.high), (-math.inf, math.inf))
        frame = read_report(FIVE).intervals_frame()
        self.assertEqual(frame.loc[0].tolist(), ["(Intercept)", 0.5, 2.0, 4.0])

    def test_frames_have_floats(self):
        frame = self.line.to_frame()
        self.assertEqual(frame.index.tolist(), [(0.0, 0.6), (0.6, 1.0)])
        self.assertEqual(frame["x"].tolist(), [1.0, 0.5])
        self.assertEqual(self.line.loss_frame()["at_hi"].tolist(), [0.6, 0.0])

    def test_names_are_read_as_they_were(self):
        text = MEDIAN.replace("(Intercept)", r"a b\x09c\x5cx41\x85".replace(r"\x85", "\x85"))
        self.assertEqual(read_report(text).names, ("a b\tc\\x41\x85",))


class OtherReports(unittest.TestCase):
    def test_ranks(self):
        report = read_report(RANKS)
        self.assertEqual(report.wilcoxon, (F(-1, 5), F(3, 10), F(-1, 10)))
        self.assertEqual(report.to_frame()["wilcoxon"].tolist(), [-0.2, 0.3, -0.1])

    def test_predictions(self):
        (prediction,) = read_report(PREDICT).predictions
        self.assertEqual(prediction.record, 4)
        self.assertEqual(list(prediction.rearranged), rearrange(prediction.steps))
        self.assertEqual(read_report(PREDICT).to_frame()["value"].tolist(), [4.0, 3.5, 3.5, 4.0])

    def test_paths(self):
        report = read_report(PATH)
        self.assertEqual([s.coef for s in report.segments], [(1,), (0,)])
        self.assertEqual(report.segments[1].dual, {2: (F(-1, 2), F(-1, 2))})
        self.assertEqual(report.to_frame()["x"].tolist(), [1.0, 0.0])

    def test_a_path_is_asked_at_a_lambda(self):
        report = read_report(LINE_PATH)
        self.assertEqual(report.breakpoints, [F(1, 2), F(3, 2)])
        self.assertEqual([report.absolute_sum(s) for s in report.segments], [1, F(1, 2), 0])
        self.assertEqual(report.coef_at(1), {"(Intercept)": F(3, 2), "x": F(1, 2)})
        self.assertEqual([report.coef_at("3/2", side)["x"] for side in ("lower", "upper")], [F(1, 2), 0])
        self.assertEqual([report.loss_at(lam) for lam in ("1/4", "3/8", 1, "7/4")], [F(3, 4), F(7, 8), F(5, 4), F(3, 2)])
        self.assertEqual(report.dual_at("3/8"), {1: F(-11, 24), 3: F(-1, 24)})
        self.assertEqual(report.loss_frame()["at_hi"].tolist(), [1.0, 1.5, 1.5])
        for outside in ("1/5", 3):
            with self.assertRaises(ValueError):
                report.coef_at(outside)

    def test_paths_whose_sums_are_wrong_are_refused_at_their_segment(self):
        for old, new, line in [
            # The losses rise by lambda times the sum of the penalised coefficients.
            ("coef 2 1/2", "coef 2 1/3", 20),
            ("loss 3/4 1\n", "loss 2/4 1\n", 13),
            # They go on where the segment before ends.
            ("loss 3/2 3/2", "loss 5/2 5/2", 27),
            # Each column has a penalty row, but for an intercept.
            ("column 1 (Intercept)", "column 1 z", 5),
            ("data 3 penalty 1", "data 3 penalty 0", 5),
            ("sides -**-", "sides -**1", 18),
        ]:
            with self.subTest(new=new), self.assertRaises(ReportError) as caught:
                read_report(LINE_PATH.replace(old, new, 1))
            self.assertEqual(caught.exception.line, line)
        # A sum that rises: the segments in the other order, from the loss of the one before.
        rising = PATH.replace("coef 1 1\nloss 1/4 1/2\nsides *-\ndual 1 1/4 1/2", "coef 1 0\nloss 1/2 1/2\nsides +*\ndual 2 -1/2 -1/2")
        rising = rising.replace("segment 2 1/2 1\ncoef 1 0\nloss 1/2 1/2", "segment 2 1/2 1\ncoef 1 1\nloss 1/2 1")
        with self.assertRaisesRegex(ReportError, "rises"):
            read_report(rising)

    def test_nested_tests(self):
        report = read_report(TEST)
        self.assertEqual((report.tested, report.scores, report.statistic), ((2,), {2: 1}, F(18, 7)))
        self.assertEqual(report.to_frame().loc[0].tolist(), ["x", 1.0])
        three = TEST.replace("column 2 x", "column 2 x\ncolumn 3 z").replace("tested 2", "tested 1,3")
        three = three.replace("score 2 1", "score 1 0\nscore 3 -1/2")
        self.assertEqual(read_report(three).scores, {1: 0, 3: F(-1, 2)})

    def test_nested_tests_that_no_run_has_are_refused_at_their_line(self):
        for old, new, line in [
            ("tested 2", "tested 3", 5),
            ("tested 2", "tested 0", 5),
            ("tested 2", "tested 1,2", 5),
            ("tested 2", "tested 2,1", 5),
            ("tested 2", "tested 2,2", 5),
            ("tested 2", "tested 2,", 5),
            ("score 2 1", "score 1 1", 7),
            ("score 2 1", "score 2 0", 8),
            ("statistic 18/7", "statistic 0", 8),
            ("statistic 18/7", "statistic -18/7", 8),
        ]:
            with self.subTest(new=new), self.assertRaises(ReportError) as caught:
                read_report(TEST.replace(old, new, 1))
            self.assertEqual(caught.exception.line, line)

    def test_checks_and_samples(self):
        self.assertEqual(read_report(CHECK).to_frame().loc[0].tolist(), [2, 3, 2, 0])
        self.assertEqual(read_report(SAMPLE).loss, (0, 0))
        self.assertEqual(read_report(SAMPLE).to_frame().loc[0, "segments"], 1)

    def test_certificates(self):
        report = read_report(CERTIFICATE)
        self.assertEqual((report.columns, report.lo, report.hi, len(report.rows)), (2, 0, 1, 3))
        self.assertEqual(report.segments[1]["coef"], [F(3, 2), F(1, 2)])
        self.assertEqual(report.segments[0]["sides"], "*+*")
        self.assertEqual(report.to_frame().iloc[1].tolist(), [1.5, 0.5])
        for text in ("{", "{}", CERTIFICATE.replace('"version":1', '"version":4'), CERTIFICATE.replace('"3/2"', '"3/0"')):
            with self.assertRaises(ReportError):
                read_report(text)


class NoReports(unittest.TestCase):
    def test_a_report_that_lacks_a_line_is_refused(self):
        for text in EVERY_KIND:
            lines = text.splitlines(keepends=True)
            for left_out in range(len(lines)):
                # Without an interval, or without a last column that has no coefficient, another report is left.
                last_name = lines[left_out].startswith("column 2 x") and text in (RANKS, PREDICT)
                if last_name or lines[left_out].startswith("interval "):
                    continue
                with self.subTest(text=text.split("\n")[0], line=lines[left_out]):
                    with self.assertRaises(ReportError):
                        read_report("".join(lines[:left_out] + lines[left_out + 1 :]))

    def test_a_report_with_more_behind_it_or_cut_short_is_refused(self):
        for text in EVERY_KIND:
            for wrong in (text + "\n", text + text, text[:-1], text.replace("\n", "\r\n"), "\n" + text):
                with self.assertRaises(ReportError):
                    read_report(wrong)

    def test_changes_that_break_the_format_are_refused_at_their_line(self):
        for old, new, line in [
            ("quantreg 1", "quantreg 2", 1),
            ("column 2 x", "column 3 x", 4),
            ("records 3 dropped 0", "records 3 lost 0", 2),
            ("pivots 2", "pivots two", 6),
            ("segment 2 3/5 1", "segment 2 2/5 1", 14),
            ("coef 2 1/2", "coef 2 1/0", 16),
            ("coef 2 1/2", "coef 2 0.5", 16),
            ("scores *1*", "scores *1", 11),
            ("scores *1*", "scores *+*", 11),
            ("basic 3 1 1/5", "basic 2 1 1/5", 13),
            ("loss 3/5 0", "loss 3/5", 17),
        ]:
            with self.subTest(new=new), self.assertRaises(ReportError) as caught:
                read_report(LINE.replace(old, new, 1))
            self.assertEqual(caught.exception.line, line)


class FaultLines(unittest.TestCase):
    def test_fields_are_numbers_fractions_and_texts(self):
        for line, group, name, fields in [
            ("quantreg: usage: NoJob", "usage", "NoJob", {}),
            ("quantreg: usage: BadNumber option=rank-at", "usage", "BadNumber", {"option": "rank-at"}),
            ("quantreg: table: Ragged record=2 found=1 wanted=2", "table", "Ragged", {"record": 2, "found": 1, "wanted": 2}),
            ("quantreg: table: DoubleName column=2", "table", "DoubleName", {"column": 2}),
            (r"quantreg: design: NumberTooWide record=1 column=a=1 b\x09", "design", "NumberTooWide", {"record": 1, "column": "a=1 b\t"}),
            ("quantreg: solver: Dependent combination=0,-2,1/3", "solver", "Dependent", {"combination": (0, -2, F(1, 3))}),
            ("quantreg: solver: PivotLimit place=interval:1:1/2 limit=4", "solver", "PivotLimit", {"place": "interval:1:1/2", "limit": 4}),
            (
                "quantreg: check: Rejected condition=4 index=2 inner=2 left=4/5 right=3/5",
                "check",
                "Rejected",
                {"condition": 4, "index": 2, "inner": 2, "left": F(4, 5), "right": F(3, 5)},
            ),
        ]:
            with self.subTest(line=line):
                fault = read_fault(line + "\n")
                self.assertEqual((fault.group, fault.name, fault.fields), (group, name, fields))

    def test_an_overflow_names_its_operation(self):
        wide = "1" + 38 * "0"
        line = f"quantreg: solver: Overflow place=process quantity=nonbasic-total at=1,1 term=2 op=add left={wide} right={wide}"
        fault = QuantregError(7, line + "\n")
        self.assertEqual((fault.status, fault.name, fault.line), (7, "Overflow", line))
        self.assertEqual(fault.fields["at"], (1, 1))
        self.assertEqual((fault.fields["op"], fault.fields["left"]), ("add", 10**38))

    def test_other_lines_are_no_faults(self):
        for line in ("", "quantreg: usage", "quantreg: table: Ragged record=two", "Killed", "quantreg: table: Ragged record"):
            self.assertIsNone(read_fault(line))
        self.assertIsNone(QuantregError(-9, "").group)


class Numbers(unittest.TestCase):
    def test_a_number_is_written_as_it_is_meant(self):
        for value, text in [(0.1, "1/10"), (F(2, 4), "1/2"), (3, "3"), ("5e-1", "5e-1"), (1e-7, "1/10000000")]:
            self.assertEqual(number_text(value), text)
        for value in (math.inf, math.nan):
            with self.assertRaises(ValueError):
                number_text(value)

    def test_cells_are_number_texts_by_the_grammar(self):
        for text in ("12", "+1.5e-3", ".5", "5.", "-4/6", "0e999"):
            self.assertTrue(is_number_text(text), text)
        for text in ("", "1e", "1_000", "3/0", "1/2.5", "0x10", "inf", ".", "1 2", "--1"):
            self.assertFalse(is_number_text(text), text)


if __name__ == "__main__":
    unittest.main()
