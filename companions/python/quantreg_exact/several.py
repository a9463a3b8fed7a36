"""Fits at several quantiles, as one list."""

from collections.abc import Sequence
from dataclasses import dataclass

import pandas

from .fits import Fit, joined
from .numbers import label


@dataclass(frozen=True, repr=False)
class Fits(Sequence):
    """The fits of a formula at several quantiles, in the order in which they were asked for."""

    fits: tuple[Fit, ...]

    def __getitem__(self, at):
        return self.fits[at]

    def __len__(self):
        return len(self.fits)

    def __repr__(self):
        return "\n".join(["<Fits", *(f"  {fit!r}" for fit in self.fits), ">"])

    @property
    def taus(self) -> list:
        """The quantiles."""
        return [fit.segments[0].lo for fit in self.fits]

    @property
    def names(self) -> tuple:
        """The names of the columns of the design."""
        return self.fits[0].names

    @property
    def notes(self) -> tuple:
        """The notes of all fits, each once."""
        return tuple(dict.fromkeys(note for fit in self.fits for note in fit.notes))

    @property
    def params(self) -> pandas.DataFrame:
        """The coefficients as floats: a row for each column of the design, and a column for each quantile."""
        return self._by_quantile(lambda fit: fit.params)

    def predict(self, newdata) -> pandas.DataFrame:
        """The predictions of `Fit.predict`: a row for each record of the new data, and a column for each quantile."""
        return self._by_quantile(lambda fit: fit.predict(newdata))

    def fitted(self) -> pandas.DataFrame:
        """The fitted values of `Fit.fitted`: a row for each kept record, and a column for each quantile."""
        return self._by_quantile(lambda fit: fit.fitted())

    def residuals(self) -> pandas.DataFrame:
        """The residuals of `Fit.residuals`: a row for each kept record, and a column for each quantile."""
        return self._by_quantile(lambda fit: fit.residuals())

    def _by_quantile(self, asked):
        return pandas.DataFrame({label(tau): asked(fit) for tau, fit in zip(self.taus, self.fits)})

    def summary(self, alpha: float | None = 0.05, tcrit: bool = False) -> pandas.DataFrame:
        """The summaries of `Fit.summary`, one below the other."""
        return joined({tau: fit.summary(alpha, tcrit=tcrit) for tau, fit in zip(self.taus, self.fits)})

    def conf_int(self, alpha: float = 0.05, tcrit: bool = False) -> pandas.DataFrame:
        """The rank intervals of `Fit.conf_int`, one below the other."""
        return self.summary(alpha, tcrit)[["lower", "upper"]]
