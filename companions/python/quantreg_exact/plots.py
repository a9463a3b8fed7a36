"""Pictures of a process: its coefficients over the quantiles, and the lines of a fit with one regressor, by factors."""

import math
import textwrap
from fractions import Fraction

import matplotlib.pyplot as plt
import numpy
from matplotlib import colormaps

from .designs import Table
from .fits import OfTable
from .numbers import as_place, label
from .several import Fits

LINE, BAND, RUG = "#1f4e79", "#9ecae1", "#c0504d"
# Up to so many breakpoints each has its own tick; beyond, their number in each hundredth of the range is drawn.
MOST_TICKS = 120
BINS = 100
# So many small letters stand in an inch.
LETTERS = 15
# The share of the range at either end that doesn't set the height of a panel.
TRIM = 0.05
# A curve has so many points, and a picture of factors so many panels at most.
POINTS = 101
MOST_PANELS = 9


def _panels(count, width, height):
    across = 2 if count in (2, 4) else min(count, 3)
    down = math.ceil(count / across)
    figure, axes = plt.subplots(
        down, across, figsize=(width * across, height * down), sharex=True, squeeze=False, layout="constrained"
    )
    for spare in axes.flat[count:]:
        spare.set_visible(False)
    return figure, list(axes.flat[:count])


def _unit_of(report, name, units, response):
    """What a coefficient is measured in: the given text, or the response, by a unit of the column where that is one of numbers."""
    if units and name in units:
        return units[name]
    of_data = _units(report, None)
    response = response or _named(of_data, getattr(report, "response_name", "response"))
    return f"{response} per unit of {_named(of_data, name)}" if _is_numeric(report, name) else response


def _is_numeric(report, name):
    """Whether a column is known to be one of numbers: not the intercept, and no level of a factor."""
    if not isinstance(report, OfTable):
        return False
    parts = report.meaning.parts[report.names.index(name)]
    return bool(parts) and not any(part.variable.is_factor for part in parts)


def _units(report, units):
    """The given texts of units, and those that came with the data frame."""
    telling = report.model.telling if isinstance(report, OfTable) else None
    return (telling.units if telling else {}) | (units or {})


def _named(units, name):
    return f"{name} ({units[name]})" if units and name in units else name


def _central(edges, trim):
    """The ends of the middle of the range, a share `trim` of it left out at either end."""
    room = trim * (edges[-1] - edges[0])
    return edges[0] + room, edges[-1] - room


def _heights(values, edges, intervals, trim):
    """The least and the greatest height over the middle of the range, of the steps and of the finite ends of bars, with some room."""
    low, high = _central(edges, trim)
    inside = [value for value, start, end in zip(values, edges, edges[1:]) if end > low and start < high]
    inside += [float(end) for it in intervals for end in (it.low, it.high) if low <= it.tau <= high and not math.isinf(end)]
    least, greatest = min(inside), max(inside)
    room = 0.08 * (greatest - least) or 0.5
    return least - 2 * room, greatest + room


def _bars(axis, intervals):
    """The rank intervals of a column: a bar at each quantile that has one. An end that is infinite runs off the panel."""
    low, high = axis.get_ylim()
    far = high - low
    taus = [float(it.tau) for it in intervals]
    lows, highs = ([min(max(float(end), low - far), high + far) for end in ends] for ends in zip(*((it.low, it.high) for it in intervals)))
    axis.vlines(taus, lows, highs, color=BAND, linewidth=5, zorder=1, label="rank intervals")
    axis.set_ylim(low, high)


def _changes(report):
    """The breakpoints at which the coefficients change: at others only the basis does."""
    pairs = zip(report.segments, report.segments[1:])
    return [float(after.lo) for before, after in pairs if before.coef != after.coef]


def _draw_changes(axis, places, span):
    """A tick at each place where the fit changes, or their number by hundredths where ticks would run together."""
    if len(places) <= MOST_TICKS:
        # Blended: quantiles across, the height of the panel upwards.
        axis.vlines(places, 0, 0.03, transform=axis.get_xaxis_transform(), color=RUG, linewidth=0.8, zorder=3)
        return f"a tick at each of {len(places)} changes of the coefficients"
    counts = [0] * BINS
    low, high = span
    for place in places:
        counts[min(int((place - low) / (high - low) * BINS), BINS - 1)] += 1
    edges = [low + (high - low) * k / BINS for k in range(BINS + 1)]
    heights = [0.12 * count / max(counts) for count in counts]
    transform = axis.get_xaxis_transform()
    axis.stairs(heights, edges, transform=transform, fill=True, color=RUG, alpha=0.35, linewidth=0, zorder=1)
    return f"{len(places):,} changes of the coefficients, shaded by how many fall into each hundredth"


def plot_process(
    report, columns=None, *, units=None, response=None, level=None, trim=TRIM, least_squares=False, width=4.0, height=3.0
):
    """Draws the coefficients of a `process` report over the quantiles, a panel for each column, as R's `plot.rqs` does.

    Lines are steps, since the coefficients stay between two breakpoints; of fits at several quantiles there is a point for each. Rank intervals
    of the report are bars at their quantiles, and their level stands below: that of the fit, or the text `level` for a report without one.
    `columns` are names, all where it isn't given; `units` has the text of an axis by the names of columns, where `data.attrs["units"]`
    has none; `trim` leaves out so much of the range at either end where the height of the panels is chosen, for a fit's ends run far off.
    With `least_squares` a dashed line has the coefficient of least squares. Returns the figure.
    """
    fits = _fits_of(report)
    report = fits[0]
    names = list(columns) if columns is not None else list(report.names)
    for name in [*names, *(units or {})]:
        if name not in [*report.names, getattr(report, "response_name", None)]:
            raise ValueError(f"the report has no column {name!r}")
    if report.segments[0].lo == report.segments[-1].hi and len(fits) == 1:
        raise ValueError("a report at one quantile has no process to draw")
    if not 0 <= trim < 0.5:
        raise ValueError(f"trim is a share of the range below a half, not {trim}")
    intervals = [it for one in fits for it in one.intervals]
    if level is not None and not intervals:
        raise ValueError("level is that of rank intervals, and the report has none")
    squares = _least_squares(report) if least_squares else None
    figure, axes = _panels(len(names), width, height)
    places = _changes(report)
    for axis, name in zip(axes, names):
        said = _draw_column(axis, fits, name, intervals, places, trim)
        if squares is not None:
            height_of, ends = squares[report.names.index(name)], axis.get_ylim()
            room = 0.05 * (ends[1] - ends[0])
            axis.set_ylim(min(ends[0], height_of - room), max(ends[1], height_of + room))
            axis.axhline(height_of, color=RUG, linewidth=1, linestyle="--", zorder=2, label="least squares")
        axis.set_title(name, fontsize=10)
        axis.set_ylabel(textwrap.fill(_unit_of(report, name, units, response), int(0.7 * LETTERS * height)), fontsize=8)
        axis.set_xlabel("quantile", fontsize=8)
        axis.xaxis.set_tick_params(labelbottom=True)
        axis.tick_params(labelsize=8)
    count = f"{len(report.segments):,} segments" if len(fits) == 1 else f"{len(fits)} quantiles"
    tails = f"; heights by the middle {100 * (1 - 2 * trim):.4g} % of the range" if trim and len(fits) == 1 else ""
    line = "; dashed: least squares" if least_squares else ""
    below = f"{count}{said}{_bars_text(report, intervals, level)}{line}{tails}"
    figure.supxlabel(textwrap.fill(below, int(LETTERS * figure.get_figwidth())), fontsize=8, color="0.35")
    return figure


def _least_squares(report):
    """The coefficients of least squares over the design of a fit."""
    if not isinstance(report, OfTable):
        raise ValueError("least squares need a fit of a table, and not a report alone")
    if report.penalty:
        raise ValueError("least squares are of a fit without smooths")
    root = numpy.sqrt(numpy.array(report.table.weights(report), dtype=float))
    response = numpy.array([y - offset for y, offset in zip(report.response(), report.offsets())], dtype=float)
    return numpy.linalg.lstsq(numpy.array(report.design(), dtype=float) * root[:, None], response * root, rcond=None)[0]


def _draw_column(axis, fits, name, intervals, places, trim):
    """Draws a column's steps or points, its bars and its changes, and says how the latter are drawn."""
    at = fits[0].names.index(name)
    intervals = sorted((it for it in intervals if it.column == at + 1), key=lambda it: it.tau)
    axis.axhline(0, color="0.6", linewidth=0.6, zorder=0)
    if len(fits) > 1:
        taus, values = [float(it.segments[0].lo) for it in fits], [float(it.segments[0].coef[at]) for it in fits]
        axis.plot(taus, values, "o", color=LINE, markersize=4, zorder=3)
        finite = [float(end) for it in intervals for end in (it.low, it.high) if not math.isinf(end)]
        room = 0.08 * (max(values + finite) - min(values + finite)) or 0.5
        axis.set_ylim(min(values + finite) - room, max(values + finite) + room)
        if intervals:
            _bars(axis, intervals)
        return ""
    edges = [float(s.lo) for s in fits[0].segments] + [float(fits[0].segments[-1].hi)]
    values = [float(s.coef[at]) for s in fits[0].segments]
    thin = len(values) > MOST_TICKS
    axis.stairs(values, edges, baseline=None, color=LINE, linewidth=0.7 if thin else 1.4, zorder=2)
    axis.set_ylim(_heights(values, edges, intervals, trim))
    if intervals:
        _bars(axis, intervals)
    axis.set_xlim(edges[0], edges[-1])
    return f"; {_draw_changes(axis, places, (edges[0], edges[-1]))}"


def _bars_text(report, intervals, level):
    """What the bars are, with their level where it is known."""
    if not intervals:
        return ""
    critical = getattr(report, "critical", None)
    level = level or (critical and critical.level)
    of_level = f" of the level {level}" if level else ""
    return f"; bars: rank intervals{of_level} at {len({it.tau for it in intervals})} quantiles"


def _fits_of(fit):
    """The fits of a picture: one, or those at several quantiles."""
    return list(fit) if isinstance(fit, Fits) else [fit]


def _line_taus(fits, taus):
    """The quantiles of the lines, each with the fit that has it."""
    if taus is not None:
        return [(tau, next((it for it in fits if it.segments[0].lo <= tau <= it.segments[-1].hi), fits[0])) for tau in map(as_place, taus)]
    low, high = fits[0].segments[0].lo, fits[0].segments[-1].hi
    if len(fits) > 1 or low == high:
        return [(it.segments[0].lo, it) for it in fits]
    usual = [Fraction(n, 20) for n in (1, 2, 5, 10, 15, 18, 19)]
    return [(tau, fits[0]) for tau in usual if low <= tau <= high]


def _sorts(fit):
    """The columns of numbers and of factors that a fit takes, as they are told, and whether a line between two points is one."""
    variables = list(dict.fromkeys(part.variable for parts in fit.meaning.parts for part in parts))
    smooths = {it.column for it in variables if it.label.startswith("qss(")}
    factors = list(dict.fromkeys(it.column for it in variables if it.is_factor and it.column not in smooths))
    numbers = list(dict.fromkeys(column for it in variables if not it.is_factor or it.column in smooths for column in it.columns))
    return numbers, factors, smooths, not any(it.arithmetic for it in variables)


def plot_fit(fit, x=None, taus=None, *, units=None, width=6.4, height=4.6):
    """Draws the records of a fit with one regressor, and its line at each quantile. Returns the figure.

    `fit` is what `fit` gives for a formula of one numeric column, which may stand in arithmetics such as `I(x^2)` and in products, and of factors:
    there is a panel for each combination of their levels, and without a numeric column the levels of the first factor stand side by side.
    `taus` are quantiles of its range, those of R's picture of Engel's data where they aren't given; `units` has texts by the names of the
    regressor and the response, where `data.attrs["units"]` has none. Where two fits hold at a quantile the lower segment's line is drawn, and
    the other one dashed.
    """
    fits = _fits_of(fit)
    first, units = fits[0], _units(fits[0], units)
    numbers, factors, smooths, is_straight = _sorts(first)
    named = first.model.decoded
    if len(numbers) > 1 or not numbers and not factors or x is not None and x not in [named(it) for it in numbers or factors[:1]]:
        columns = ", ".join(map(named, numbers + factors)) or "none"
        raise ValueError(f"the fit has the columns {columns}; this picture is of one regressor, and of factors")
    if any(first.offsets()):
        raise ValueError("with offsets the fit is no line; this picture has none")
    across = (numbers or factors)[0]
    table, kept, panelled = first.table, first.meaning.kept, factors if numbers else factors[1:]
    groups = sorted({tuple(_place(first, name, record) for name in panelled) for record in kept})
    if len(groups) > MOST_PANELS:
        raise ValueError(f"the factors have {len(groups)} combinations of levels, and this picture has at most {MOST_PANELS} panels")
    figure, axes = _panels(len(groups), width if len(groups) == 1 else 4.0, height if len(groups) == 1 else 3.2)
    heights = dict(zip(kept, map(float, first.response())))
    places = {record: _place(first, across, record) if across in factors else float(table.number(record, across)) for record in kept}
    chosen = _line_taus(fits, taus)
    for axis, group in zip(axes, groups):
        inside = [record for record in kept if tuple(_place(first, name, record) for name in panelled) == group]
        axis.scatter([places[it] for it in inside], [heights[it] for it in inside], s=12, color="0.45", alpha=0.6, linewidth=0, zorder=1)
        cells = {name: table.cells[name][inside[0]] for name in panelled}
        if numbers:
            _draw_lines(axis, first, chosen, across, cells, smooths, is_straight, list(places.values()))
        else:
            _draw_bars(axis, first, chosen, across, cells, inside)
        axis.set_xlabel(_named(units, named(across)))
        axis.set_ylabel(_named(units, first.response_name))
        if group:
            axis.set_title(", ".join(f"{named(name)}: {named(cells[name])}" for name in panelled), fontsize=10)
    if len(groups) > 1:
        least, greatest = min(it.get_ylim()[0] for it in axes), max(it.get_ylim()[1] for it in axes)
        for axis in axes:
            axis.set_ylim(least, greatest)
            axis.xaxis.set_tick_params(labelbottom=True)
    for axis in axes:
        _label_lines(axis, axis.quantiles)
    return figure


def _place(fit, factor, record):
    """The place of a record's level among those of a factor."""
    variable = next(part.variable for parts in fit.meaning.parts for part in parts if part.variable.is_factor and part.variable.column == factor)
    return fit.meaning.levels[variable.label].index(variable.level(fit.table, record))


def _colour(number, count):
    return colormaps["viridis"](0.1 + 0.75 * number / max(count - 1, 1))


def _heights_at(fit, coef, cells, column, values):
    """The fit at these cells of a column, beside others."""
    table = Table({name: [cell] * len(values) for name, cell in cells.items()} | {column: values}, len(values), fit.table.numeric)
    return [sum(float(entry) * float(value) for entry, value in zip(fit.meaning.row(table, at), coef)) for at in range(len(values))]


def _draw_lines(axis, fit, chosen, column, cells, smooths, is_straight, places):
    """The fit over a column of numbers at each quantile: straight, or by so many points, or from knot to knot."""
    low, high = min(places), max(places)
    room = 0 if smooths else 0.02 * (high - low)
    count = 2 if is_straight else POINTS
    grid = [low - room + (high - low + 2 * room) * at / (count - 1) for at in range(count)]
    texts = [fit.table.cells[column][record] for record in fit.meaning.kept] if smooths else [str(Fraction(it)) for it in grid]
    if smooths:
        texts = sorted(set(texts), key=Fraction)
        grid = [float(Fraction(it)) for it in texts]
    axis.quantiles = []
    for number, (tau, its) in enumerate(chosen):
        colour = _colour(number, len(chosen))
        for segment, dash in zip(its.segments_at(tau), ("-", "--")):
            line = _heights_at(its, segment.coef, cells, column, texts)
            axis.plot(grid, line, dash, color=colour, linewidth=1.3, zorder=2)
        axis.quantiles.append((line[-1], label(tau), colour))
    axis.set_xlim(grid[0], grid[-1])


def _draw_bars(axis, fit, chosen, column, cells, records):
    """The fit at each level of a factor, as a bar for each quantile."""
    texts = {_place(fit, column, record): fit.table.cells[column][record] for record in records}
    there = sorted(texts)
    axis.quantiles = []
    for number, (tau, its) in enumerate(chosen):
        colour = _colour(number, len(chosen))
        for segment, dash in zip(its.segments_at(tau), ("-", "--")):
            bars = _heights_at(its, segment.coef, cells, column, [texts[at] for at in there])
            axis.hlines(bars, [at - 0.3 for at in there], [at + 0.3 for at in there], linestyles=dash, colors=[colour], linewidth=1.6, zorder=2)
        axis.quantiles.append((bars[-1], label(tau), colour))
    axis.set_xticks(there, [fit.model.decoded(texts[at]) for at in there])
    axis.set_xlim(there[0] - 0.5, there[-1] + 0.5)


def _label_lines(axis, labels):
    """The quantile of each line at the right edge, moved apart where they would stand on each other."""
    low, high = axis.get_ylim()
    gap, last = 0.045 * (high - low), -math.inf
    for height, text, colour in sorted(labels):
        last = max(height, last + gap)
        axis.annotate(
            text, (1.01, (last - low) / (high - low)), xycoords="axes fraction", color=colour, fontsize=8, va="center"
        )
