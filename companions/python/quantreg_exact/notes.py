"""What a user should know of a result: sentences that are kept with it as `notes` and handed out as warnings."""

import sys
import warnings
from collections import Counter
from pathlib import Path

from .advice import no_numbers
from .designs import beside_the_design, used_columns
from .faults import QuantregWarning
from .numbers import is_number_text, listed, shown


def warn(notes) -> None:
    """Warns of each note, at the line outside this package that led here."""
    frame, above = sys._getframe(1), 2
    while frame.f_back and Path(frame.f_code.co_filename).parent == Path(__file__).parent:
        frame, above = frame.f_back, above + 1
    for note in notes:
        warnings.warn(note, QuantregWarning, stacklevel=above)


def of_table(model, names) -> list[str]:
    """On the cells and the levels of the columns that a fit takes; `names` are those of its design's columns."""
    table, notes, known = model.table, [*model.telling.notes], beside_the_design(model.told) | {model.told_weights}
    for column in used_columns(model.told, table.cells, model.told_weights):
        if column in known or any(column in name for name in names):
            notes += [model.decoded(it) for it in (_mixed(model, column), _ratios(model, column)) if it]
    return notes


def _mixed(model, column):
    """That a factor has more numbers than texts."""
    table = model.table
    if column in table.numeric:
        return None
    cells = [model.telling.level_of(column, it) for it in table.cells[column]]
    there = [cell for record, cell in enumerate(cells) if table.has(record, [column])]
    texts = sum(not is_number_text(cell.strip(" \t")) for cell in there)
    if not 0 < texts <= len(there) - texts:
        return None
    return f"{column} is a factor, since it has texts in {texts} of {len(there)} cells: {no_numbers(model, column)}"


def _ratios(model, column):
    """That cells such as 1/86 are fractions, where they didn't come as such."""
    cells = [cell.strip(" \t") for cell in model.table.cells[column]]
    ratios = [cell for cell in cells if "/" in cell]
    if column not in model.table.numeric or not ratios or column in model.telling.fractions:
        return None
    value = model.table.number(next(at for at, cell in enumerate(cells) if "/" in cell), column)
    return f"{column} has fractions in {len(ratios)} of {len(cells)} cells: {ratios[0]} is read as {shown(value)}"


def of_uniqueness(fit) -> list[str]:
    """That a fit isn't, or may not be, unique: at its one quantile, or within whole segments of a range."""
    low, high = fit.segments[0].lo, fit.segments[-1].hi
    if low == high:
        return at_quantile(fit, low)
    bounds = fit.penalty_bounds()
    open_ones = [f"{s.lo} to {s.hi}" for s in fit.segments if not fit.is_strict(s, (s.lo + s.hi) / 2, bounds)]
    if not open_ones:
        return []
    return [f"the fit may not be unique within {len(open_ones)} of {len(fit.segments)} segments: at the quantiles {listed(open_ones, 3)}"]


def at_quantile(fit, tau) -> list[str]:
    """That a fit isn't, or may not be, unique at a quantile, and which other coefficients lose as little."""
    try:
        answer, other = fit.is_unique(tau), fit.other_coef_at(tau)
    except ValueError as error:
        return [f"whether the fit at the quantile {tau} is unique was not looked at: {error}"]
    if answer:
        return []
    if other is None:
        return [f"the fit at the quantile {tau} may not be unique: a dual value of its basis is at its bound"]
    told = listed(f"{name} {shown(value)}" for name, value in other.items())
    return [f"the fit at the quantile {tau} is not unique: {told} has the same loss"]


def of_ties(fit) -> list[str]:
    """That responses are tied, so that Wilcoxon scores may depend on the order of the records."""
    try:
        response = [y - offset for y, offset in zip(fit.response(), fit.offsets())]
    except ValueError as error:
        return [f"whether responses are tied was not looked at: {error}"]
    tied = sum(count for count in Counter(response).values() if count > 1)
    if not tied:
        return []
    return [
        f"{tied} of {len(response)} records share their response with another: Wilcoxon scores, and a test by them, may depend on the order of the"
        " records; rank_test(.., orders=20) shows by how much"
    ]
