"""Exact quantile regression where pandas and matplotlib are at home.

`fit` hands a data frame to the program quantreg and gives its report; `read_report` reads a report of any kind from text.
Numbers are `fractions.Fraction` throughout, and each report has frames of floats. `fit_all` runs many fits at once, `plot_process` and
`plot_fit` draw.
"""

from .critical import Critical, critical_value
from .faults import QuantregError, QuantregWarning, ReportError, read_fault
from .fits import Fit, PathFit, RanksFit, TestFit
from .fitting import fit, path, predictions, rank_test, ranks
from .many import fit_all, fit_parts
from .model import Model
from .nested import rank_test_of_process
from .program import find_program, run
from .reading import read_report
from .reports import (
    Certificate,
    CheckReport,
    PathReport,
    Prediction,
    PredictReport,
    ProcessReport,
    RanksReport,
    SampleReport,
    TestReport,
)
from .several import Fits
from .stretches import Interval, PathSegment, Segment, Step, rearrange

__all__ = [
    "Certificate",
    "CheckReport",
    "Critical",
    "Fit",
    "Fits",
    "Interval",
    "Model",
    "PathFit",
    "PathReport",
    "PathSegment",
    "PredictReport",
    "Prediction",
    "ProcessReport",
    "QuantregError",
    "QuantregWarning",
    "RanksFit",
    "RanksReport",
    "ReportError",
    "SampleReport",
    "Segment",
    "Step",
    "TestFit",
    "TestReport",
    "critical_value",
    "find_program",
    "fit",
    "fit_all",
    "fit_parts",
    "path",
    "plot_fit",
    "plot_process",
    "predictions",
    "rank_test",
    "rank_test_of_process",
    "ranks",
    "read_fault",
    "read_report",
    "rearrange",
    "run",
]


def __getattr__(name):
    """The figures, whose module and matplotlib are looked for where they are first asked for."""
    if name in ("plot_fit", "plot_process"):
        from . import plots

        return getattr(plots, name)
    raise AttributeError(f"module {__name__!r} has no attribute {name!r}")
