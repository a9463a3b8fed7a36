"""Many fits at once, over any executor of `concurrent.futures`, and one range as several side by side."""

import os
from collections.abc import Callable, Iterable, Mapping
from concurrent.futures import Executor, ThreadPoolExecutor, as_completed
from dataclasses import replace
from fractions import Fraction

from .faults import QuantregError
from .fits import Fit
from .fitting import fit
from .numbers import Number, as_place
from .stretches import Segment

# A range is cut at multiples of one such part of it, and so not at its simple fractions, where segments end most often.
_FINENESS = 1_009


def fit_all(
    jobs: Iterable[Mapping],
    executor: Executor | None = None,
    *,
    call: Callable = fit,
    progress: bool = True,
    keep_faults: bool = False,
) -> list:
    """What a call gives for each of the jobs, in their order. A job is a mapping of arguments by their names, as those of `fit`.

    `executor` is one of `concurrent.futures`, or what acts like one, as `Client(..).get_executor()` of dask.distributed; where there is
    none, threads are used, one for each processor, since the program runs in a process of its own anyway. On other machines the
    program must be found too: by the job's `program`, QUANTREG or the path. With `progress` a bar of tqdm is drawn, where that is
    installed and standard error is a terminal. A job that ends with a fault ends all, unless `keep_faults` leaves the exception in its place.
    """
    jobs = list(jobs)
    if executor is None:
        with ThreadPoolExecutor(os.cpu_count()) as threads:
            return fit_all(jobs, threads, call=call, progress=progress, keep_faults=keep_faults)
    places = {executor.submit(_outcome, call, dict(job)): place for place, job in enumerate(jobs)}
    results = [None] * len(jobs)
    for future in _shown(as_completed(places), len(jobs), progress):
        outcome = future.result()
        if isinstance(outcome, QuantregError) and not keep_faults:
            for waiting in places:
                waiting.cancel()
            raise outcome
        results[places[future]] = outcome
    return results


def _outcome(call, job):
    try:
        return call(**job)
    except QuantregError as fault:
        return fault


def _shown(futures, total, progress):
    """The futures, counted by a bar of tqdm where there is one."""
    if not progress:
        return futures
    try:
        from tqdm import tqdm
    except ImportError:
        return futures
    return tqdm(futures, total=total, disable=None)


def fit_parts(
    formula: str, data, lo: Number, hi: Number, *, parts: int, executor: Executor | None = None, progress: bool = False, **options
) -> Fit:
    """The fits of a range of quantiles, made as so many ranges side by side and joined: those of the single run but for `pivots`.

    `options` are those of `fit` but rank intervals. Where a cut falls on a breakpoint, so that it can't be told which fit goes on there,
    the ranges on both sides are fitted again as one; and so is the whole range, with a note, where a part ends with status 7, since
    the numbers at a cut are longer than others.
    """
    lo, hi = as_place(lo), as_place(hi)
    if not (lo < hi and 1 <= parts < _FINENESS):
        raise ValueError(f"a range of quantiles from `lo` to a greater `hi`, in 1 to {_FINENESS - 1} parts")
    cuts = [lo + (hi - lo) * Fraction(at * _FINENESS // parts, _FINENESS) for at in range(parts)] + [hi]
    job = {"formula": formula, "data": data, **options}
    jobs = [job | {"lo": low, "hi": high} for low, high in zip(cuts, cuts[1:])]
    found = fit_all(jobs, executor, progress=progress, keep_faults=True)
    for fault in (it for it in found if isinstance(it, QuantregError)):
        if parts == 1 or not fault.is_overflow:
            raise fault
        single = fit(**job, lo=lo, hi=hi)
        return replace(single, notes=(*single.notes, f"fitted as one range, since a part of it ended with {fault.line!r}"))
    whole = found[0]
    for part in found[1:]:
        last, first = whole.segments[-1], part.segments[0]
        if last.marks == first.marks:
            whole = _joined(whole, part)
        else:
            again = fit(**job, lo=whole.segments[0].lo, hi=part.segments[-1].hi)
            whole = replace(again, pivots=whole.pivots + part.pivots + again.pivots)
    return whole


def _joined(left: Fit, right: Fit) -> Fit:
    """Two fits of ranges that meet within a segment of both."""
    last, first = left.segments[-1], right.segments[0]
    basic = {row: (low, first.basic[row][1]) for row, (low, _) in last.basic.items()}
    middle = Segment(last.number, last.lo, first.hi, last.coef, (last.loss[0], first.loss[1]), last.marks, basic)
    rest = [replace(segment, number=last.number + at) for at, segment in enumerate(right.segments[1:], 1)]
    notes = tuple(dict.fromkeys((*left.notes, *right.notes)))
    return replace(left, pivots=left.pivots + right.pivots, segments=(*left.segments[:-1], middle, *rest), notes=notes)
