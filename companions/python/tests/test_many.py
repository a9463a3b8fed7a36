"""Many fits at once over each kind of executor, and a range that is fitted as several."""

import importlib.util
import random
import unittest
from concurrent.futures import ProcessPoolExecutor, ThreadPoolExecutor
from contextlib import redirect_stderr
from dataclasses import replace
from fractions import Fraction as F
from io import StringIO

import pandas

from quantreg_exact import QuantregError, fit, fit_all, fit_parts, rank_test

from stand_ins import ENGEL, STACKLOSS, answered, needs_program, script
from test_reports import LINE, MEDIAN

TABLE = pandas.DataFrame({"y": [0, 2, 3], "x": [0, 1, 3]})
JOBS = [
    {"formula": "y ~ x", "data": TABLE, "lo": 0, "hi": 1},
    {"formula": "y ~ 1", "data": TABLE, "lo": "1/2"},
    {"formula": "stack.loss ~ .", "data": STACKLOSS, "lo": 0.5, "alpha": 0.1},
]


def drawn(seed, records):
    """A table of small numbers, many of them tied, with a factor and weights."""
    chance = random.Random(seed)
    columns = {name: [chance.randint(-9, 9) for _ in range(records)] for name in ("y", "x", "z")}
    return pandas.DataFrame(columns | {"f": [chance.choice("abc") for _ in range(records)], "w": [chance.randint(1, 3) for _ in range(records)]})


@needs_program
class Executors(unittest.TestCase):
    def setUp(self):
        self.wanted = [fit(**job) for job in JOBS]

    def test_threads(self):
        self.assertEqual(fit_all(JOBS), self.wanted)
        with ThreadPoolExecutor(2) as threads:
            self.assertEqual(fit_all(iter(JOBS), threads, progress=False), self.wanted)

    def test_processes(self):
        with ProcessPoolExecutor(2) as processes:
            found = fit_all(JOBS, processes)
        self.assertEqual(found, self.wanted)
        # What comes from another process answers as what was made here.
        self.assertEqual(found[0].residuals("1/5"), [0, 1, 0])
        with ProcessPoolExecutor(1) as processes:
            self.assertEqual(processes.submit(len, [found[0]]).result(), 1)

    @unittest.skipUnless(importlib.util.find_spec("distributed"), "dask.distributed is not there")
    def test_dask(self):
        from distributed import Client

        with Client(n_workers=1, threads_per_worker=2, processes=False, dashboard_address=None) as client:
            self.assertEqual(fit_all(JOBS, client.get_executor()), self.wanted)

    def test_other_calls(self):
        jobs = [{"formula": "stack.loss ~ .", "data": STACKLOSS, "tested": tested} for tested in (2, [2, 3, 4])]
        self.assertEqual(fit_all(jobs, call=rank_test), [rank_test(**job) for job in jobs])
        self.assertEqual(fit_all([]), [])

    def test_a_fault_ends_all_or_stays_in_its_place(self):
        jobs = [JOBS[0], {"formula": "y ~ zz", "data": TABLE, "lo": "1/2"}, JOBS[1]]
        with self.assertRaisesRegex(QuantregError, "there is no column 'zz'"):
            fit_all(jobs)
        for executor in (None, ProcessPoolExecutor(1)):
            first, fault, last = fit_all(jobs, executor, keep_faults=True)
            self.assertEqual([first, last], self.wanted[:2])
            self.assertEqual((fault.name, fault.status), ("UnknownName", 1))
            if executor:
                executor.shutdown()

    @unittest.skipUnless(importlib.util.find_spec("tqdm"), "tqdm is not there")
    def test_a_bar_counts_the_jobs(self):
        class Terminal(StringIO):
            def isatty(self):
                return True

        for progress, wanted in ((True, "3/3"), (False, "")):
            with redirect_stderr(Terminal()) as told:
                fit_all(JOBS, progress=progress)
            self.assertTrue(told.getvalue().count(wanted), told.getvalue())
            self.assertEqual(bool(told.getvalue()), progress)


@needs_program
class Parts(unittest.TestCase):
    def test_parts_are_the_single_run_but_for_its_pivots(self):
        cases = [("stack.loss ~ .", STACKLOSS, 0, 1, 4, {}), ("foodexp ~ income", ENGEL, "1/10", "9/10", 3, {})]
        for seed in range(6):
            cases.append(("y ~ x + f", drawn(seed, 40), 0, 1, 2 + seed, {"weights": "w"} if seed % 2 else {}))
        for formula, data, lo, hi, parts, more in cases:
            with self.subTest(formula=formula, parts=parts):
                single, joined = fit(formula, data, lo, hi, **more), fit_parts(formula, data, lo, hi, parts=parts, **more)
                self.assertEqual(replace(joined, pivots=single.pivots), single)
                self.assertEqual(joined.notes, single.notes)

    def test_a_cut_at_a_breakpoint_is_mended(self):
        # Weights that add up to 1,009, of which the first record has 504: the cut into two parts is where the first segment ends.
        table = pandas.DataFrame({"y": [1, 2, 3], "w": [504, 500, 5]})
        single, joined = fit("y ~ 1", table, 0, 1, weights="w"), fit_parts("y ~ 1", table, 0, 1, parts=2, weights="w")
        self.assertEqual(single.breakpoints[0], F(504, 1009))
        self.assertEqual(replace(joined, pivots=single.pivots), single)
        self.assertGreater(joined.pivots, single.pivots)

    def test_one_part_is_the_run(self):
        self.assertEqual(fit_parts("y ~ x", TABLE, 0, 1, parts=1), fit("y ~ x", TABLE, 0, 1))


class OfTexts(unittest.TestCase):
    def test_where_segments_do_not_go_on_the_range_is_fitted_again(self):
        # Each part's report has other marks at the cut than the one before: the program that is asked for all of it has the line.
        low = LINE[: LINE.index("segment 2")].replace("segment 1 0 3/5", f"segment 1 0 {F(504, 1009)}").replace("pivots 2", "pivots 1") + "end\n"
        rest = LINE[LINE.index("segment 2") :].replace("segment 2 3/5", f"segment 1 {F(504, 1009)}")
        high = LINE[: LINE.index("segment 1")].replace("pivots 2", "pivots 5") + rest
        choice = f'case "$*" in *--hi=504/1009) printf %s \'{low}\' ;; *--lo=504/1009*) printf %s \'{high}\' ;; *) printf %s \'{LINE}\' ;; esac\n'
        with script(f"cat > $room/table.$$\n{choice}") as program:
            joined = fit_parts("y ~ x", TABLE, 0, 1, parts=2, program=program)
        line = answered(LINE, lambda program: fit("y ~ x", TABLE, 0, 1, program=program))
        self.assertEqual((joined.segments, joined.pivots), (line.segments, 1 + 5 + 2))

    def test_a_part_that_overflows_is_told(self):
        line = "quantreg: solver: Overflow place=process quantity=loss at=0 term=1 op=mul left=2 right=3"
        choice = f"case \"$*\" in *504/1009*) echo '{line}' >&2; exit 7 ;; *) printf %s '{LINE}' ;; esac\n"
        with script(f"cat > $room/table.$$\n{choice}") as program:
            found = fit_parts("y ~ x", TABLE, 0, 1, parts=2, program=program)
            with self.assertRaises(QuantregError):
                fit_parts("y ~ x", TABLE, 0, "504/1009", parts=1, program=program)
        self.assertEqual((len(found.segments), found.notes), (2, (f"fitted as one range, since a part of it ended with {line!r}",)))

    def test_what_is_no_range_is_refused(self):
        for lo, hi, parts in (("1/2", "1/2", 2), (1, 0, 2), (0, 1, 0), (0, 1, 2000)):
            with self.assertRaisesRegex(ValueError, "a range of quantiles"):
                fit_parts("y ~ x", TABLE, lo, hi, parts=parts)

    def test_results_are_equal_by_what_they_say(self):
        median = answered(MEDIAN, lambda program: fit("y ~ 1", TABLE, "1/2", program=program))
        self.assertNotEqual(median, replace(median, pivots=2))


if __name__ == "__main__":
    unittest.main()
