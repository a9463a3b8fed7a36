#!/usr/bin/env python3
"""Draws the pictures of this folder by the package quantreg_exact, over the program that QUANTREG names.

    QUANTREG=/path/to/quantreg PYTHONPATH=companions/python python3 docs/pictures/draw.py

The report of the generated table takes the program a tenth of a second.
"""

import io
import subprocess
import sys
from fractions import Fraction
from pathlib import Path

import matplotlib

matplotlib.use("Agg")
import pandas

from quantreg_exact import fit, plot_fit, plot_process

HERE = Path(__file__).resolve().parent
TOP = HERE.parent.parent
FRANCS = "Belgian francs a year"


def save(figure, name):
    figure.savefig(HERE / f"{name}.png", dpi=120)


def generated(rows, columns):
    """A generated table of bench/whole, as a data frame."""
    words = ["awk", "-v", "number=1", "-v", f"rows={rows}", "-v", f"columns={columns}", "-f", TOP / "bench/whole/make_table.awk"]
    return pandas.read_csv(io.BytesIO(subprocess.run(words, stdout=subprocess.PIPE, check=True).stdout))


def main():
    stackloss = fit("stack.loss ~ .", TOP / "examples/stackloss.csv", 0, 1, alpha=0.1)
    units = {"(Intercept)": "tenths of % lost", "Air.Flow": "tenths of % lost per unit of air flow"}
    units |= {"Water.Temp": "tenths of % lost per °C", "Acid.Conc.": "tenths of % lost per unit of acid"}
    save(plot_process(stackloss, units=units, trim=0.15), "stackloss")

    engel = fit("foodexp ~ income", TOP / "examples/engel.csv", 0, 1, alpha=0.1, rank_at=[Fraction(n, 20) for n in range(1, 20)])
    save(plot_fit(engel, units={"income": FRANCS, "foodexp": FRANCS}), "engel_fit")
    units = {"(Intercept)": FRANCS, "income": "francs for food per franc of income"}
    save(plot_process(engel, units=units, trim=0.01), "engel_process")

    thousand = fit("y ~ .", generated(1000, 4), 0, 1)
    save(plot_process(thousand, thousand.names[:2], response="y", trim=0.01), "thousand")


if __name__ == "__main__":
    sys.exit(main())
