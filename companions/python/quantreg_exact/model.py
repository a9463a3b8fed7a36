"""What is fitted: a formula over a table, and the program that fits it."""

from dataclasses import dataclass, field
from functools import cached_property

from .advice import of_model
from .designs import Table
from .faults import QuantregError
from .numbers import as_list, place_text
from .program import run
from .reading import read_report
from .telling import Telling, tell


@dataclass(frozen=True)
class Model:
    """A formula over a table's bytes, with the options that each job has, and the program that is run.

    `told` is the formula as the program is told it over these bytes, and `telling` says by which names and levels.
    """

    formula: str
    source: bytes = field(repr=False)
    weights: str | None = None
    contrasts: str | None = None
    pivots: int | None = None
    program: str | None = field(default=None, compare=False, repr=False)
    telling: Telling | None = field(default=None, compare=False, repr=False)

    @staticmethod
    def of(formula: str, data, weights=None, contrasts=None, pivots=None, program=None, digits=None) -> "Model":
        """The model over a data frame or the path of a CSV file."""
        _, source, telling = tell(formula, data, weights, contrasts, digits)
        return Model(formula, source, weights, contrasts, pivots, program, telling)

    @property
    def told(self) -> str:
        """The formula as the program is told it."""
        return self.telling.wording.told if self.telling else self.formula

    @property
    def told_weights(self) -> str | None:
        """The name of the weights as the program is told it."""
        return self.telling.weights if self.telling else self.weights

    def decoded(self, text: str) -> str:
        """A text with the table's names and levels in place of what the program was told."""
        return self.telling.decoded(text) if self.telling else text

    @cached_property
    def table(self) -> Table:
        """The table as text, as the program was told it."""
        return Table.of_bytes(self.source)

    def answer(self, job: str, **options):
        """The report of a job with these options. Raises QuantregError, with advice, where there is none."""
        own = {"formula": self.told, "weights": self.told_weights, "contrasts": self.contrasts, "pivots": self.pivots}
        try:
            return read_report(run(_words(job, own | options), self.source, self.program))
        except QuantregError as told:
            fault = QuantregError(told.status, self._as_written(told))
            advice = of_model(fault, self, options)
            raise QuantregError(fault.status, fault.line, self.decoded(advice) if advice else told.advice) from None

    def _as_written(self, fault):
        """A fault's line by the formula as it is written and the names of the table."""
        line = self.decoded(fault.line)
        if self.telling and fault.group == "formula" and "offset" in fault.fields:
            line = line.replace(f"offset={fault.fields['offset']}", f"offset={self.telling.wording.offset(fault.fields['offset'])}")
        return line


def _words(job, options):
    """The words of a command. A value that is None isn't given, a list is joined by commas."""
    words = [job]
    for name, value in options.items():
        if value is not None:
            words.append(f"--{name.replace('_', '-')}={','.join(map(place_text, as_list(value)))}")
    return words
