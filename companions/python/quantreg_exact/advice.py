"""What a fault line means for who made the call: by the words of the command, the formula and the names of the table.

The program's lines are fixed and count offsets, records and columns. Here the word, the cell or the column is named that is counted.
"""

import csv
import difflib
import io
import math
from fractions import Fraction

from .designs import response_name, used_columns
from .faults import QuantregError
from .numbers import is_number_text, listed
from .wording import closing, label_of, tokens_of

# Each job's options: those that must stand, and those that may.
_FITTED = ("weights", "contrasts", "pivots")
_RANGE = ("formula", "lo", "hi")
JOBS = {
    "process": (_RANGE, (*_FITTED, "crit", "rank-at")),
    "certify": (_RANGE, (*_FITTED, "crit", "rank-at")),
    "ranks": (("formula",), _FITTED),
    "test": (("formula", "tested"), _FITTED),
    "predict": (_RANGE, _FITTED),
    "path": (("formula", "tau", "lo", "hi"), _FITTED),
    "sample": (("number", "rows", "columns", "lo", "hi"), ("pivots",)),
    "check": ((), ()),
}

OVERFLOW = (
    "Round columns of many digits, as `data.round(2)`, and those that are worked out by `digits=`, or write decimals as whole numbers of a"
    " smaller unit; ask for a smaller range, or give a shorter critical value by `crit=`. The page 'When a run ends with"
    " status 7' of docs/MANUAL.md has more."
)
# So many digits fit for 1, 2 and more columns beside the intercept, as bench/limits/README.md has them measured over all quantiles.
FITTING_DIGITS = (15, 11, 8, 7, 6, 5, 4, 4)


def close_to(word: str, known) -> str:
    """The question whether a known word was meant, where one is close."""
    found = difflib.get_close_matches(word, list(known), 1, 0.6)
    return f"; did you mean {found[0]!r}?" if found else ""


def of_words(fault: QuantregError, words) -> str | None:
    """Advice on faults of the words alone."""
    job = words[0] if words else ""
    if fault.name == "NoJob":
        return f"a job stands first: {listed(JOBS)}"
    if fault.name == "UnknownJob":
        return f"there is no job {job!r}{close_to(job, JOBS)}"
    if fault.name != "BadOption" or job not in JOBS:
        return None
    required, optional = JOBS[job]
    given = [word[2:].partition("=")[0] for word in words[1:] if word.startswith("--")]
    told = [f"--{name} is missing" for name in required if name not in given]
    told += [f"{job} has no option --{name}{close_to(name, required + optional)}" for name in given if name not in required + optional]
    told += [f"--{name} stands more than once" for name in dict.fromkeys(given) if given.count(name) > 1]
    return ", and ".join(told) or None


def of_model(fault: QuantregError, model, options: dict) -> str | None:
    """Advice on a fault of a job over a model; `options` has what was asked beside the model's own."""
    if fault.group == "usage":
        return _of_options(fault, model, options)
    if fault.is_overflow:
        return f"A number outgrew the program's. {_of_digits(model)}{OVERFLOW}"
    if fault.name == "PivotLimit":
        return f"the limit is {fault.fields['limit']} pivots: a greater one is given by `pivots=`, to 10,000,000"
    if fault.name == "Dependent":
        return _of_dependent(fault.fields["combination"], model)
    maker = _BY_TABLE.get(fault.name)
    try:
        table = model.table
    except UnicodeDecodeError:
        return "the file is not UTF-8: read it by pandas.read_csv(.., encoding='latin-1') first, or whatever encoding it has"
    except (ValueError, IndexError):
        return _separators(model.source)
    if fault.group in ("formula", "table", "design"):
        separators = _separators(model.source) if model.telling is None or model.telling.columns is None else None
        return separators or (maker and maker(fault, model, table))
    return maker and maker(fault, model, table)


def _of_digits(model) -> str:
    """Which columns have more digits than fit beside so many of them."""
    try:
        table, weights = model.table, model.told_weights
    except (ValueError, IndexError):
        return ""
    used = used_columns(model.told, table.cells, weights)
    response = response_name(model.told)
    count = sum(1 if name in table.numeric else len(set(table.cells[name])) - 1 for name in used if name not in (response, weights))
    fitting = FITTING_DIGITS[min(max(count, 1), len(FITTING_DIGITS)) - 1]
    about = "some" if count <= len(FITTING_DIGITS) else "fewer than"
    digits = {name: _digits(table, name) for name in used if name in table.numeric}
    longer = [f"{name} has {number}" for name, number in sorted(digits.items(), key=lambda it: -it[1]) if number > fitting]
    if not longer:
        return ""
    return f"With {count} column{'s' if count != 1 else ''} beside the intercept {about} {fitting} digits fit, and {listed(longer, 4)}. "


def _digits(table, name) -> int:
    """How many digits the greatest number of a column has, all of them written as whole numbers of one unit."""
    values = [table.number(record, name) for record in range(table.records) if table.has(record, [name])]
    unit = math.lcm(*(value.denominator for value in values))
    return len(str(max((abs(value.numerator) * (unit // value.denominator) for value in values), default=0)))


def _separators(source: bytes) -> str | None:
    """That a table has other signs than commas between its cells, where its header tells so."""
    header = source.split(b"\n", 1)[0]
    for sign, name, word in ((b";", "semicolons", ";"), (b"\t", "tabs", "\\t")):
        if sign in header and b"," not in header:
            return f"the header has {name} and no commas: read the file by pandas.read_csv(.., sep={word!r}) first".replace("\\\\", "\\")
    return None


def _of_options(fault, model, options):
    if fault.name == "BadNumber":
        option = fault.fields["option"]
        value = options.get(option.replace("-", "_"), getattr(model, option, None))
        return f"{option} is {value!r}, which is no such number"
    if fault.name == "BadContrasts":
        kinds = ("treatment", "sas", "sum", "helmert")
        return f"there are no contrasts {model.contrasts!r}{close_to(model.contrasts, kinds)}; there are {listed(kinds)}"
    if fault.name == "BadRange":
        asked = ", ".join(f"{key} is {options[key]}" for key in ("tau", "lo", "hi") if key in options)
        lambdas = ", and a lambda above 0" if "tau" in options else ""
        return f"a quantile is from 0 to 1{lambdas}, and lo is not above hi: {asked}"
    if fault.name == "BadTauForRank":
        return f"rank intervals are at quantiles between 0 and 1: rank_at is {options.get('rank_at')}"
    if fault.name == "RankHalf":
        return "`crit` and `rank_at` go together"
    if fault.name == "NegativeLimit":
        return f"a critical value is at least 0: it is {options.get('crit')}"
    return None


def _of_dependent(combination: tuple[Fraction, ...], model) -> str:
    terms = [f"{value} times column {column}" for column, value in enumerate(combination, 1) if value]
    product = ", or where factors have a product without each of them, as f:g, write f*g or 0 + f:g" if ":" in model.told else ""
    return f"the columns are dependent: {' plus '.join(terms)} is 0 in every record; leave out one of them{product}"


def _known(model, table):
    """The names of the columns of the table that was given."""
    return (model.telling and model.telling.known) or list(table.cells)


def _tokens_from(fault, model, table):
    """The tokens of the formula, and how many of them stand before the offset, which counts bytes."""
    before = len(model.formula.encode()[: fault.fields["offset"]].decode(errors="replace"))
    tokens = tokens_of(model.formula, _known(model, table))
    return tokens, sum(token.start < before for token in tokens)


def _unknown_name(fault, model, table):
    tokens, at = _tokens_from(fault, model, table)
    if at + 1 < len(tokens) and tokens[at + 1] == "(":
        return _no_function(model, tokens, at)
    name = tokens[at].name if at < len(tokens) else "?"
    return f"there is no column {name!r}{close_to(name, _known(model, table))}"


def _no_function(model, tokens, at):
    """Why a call stayed in the formula, whose name is the token at a place."""
    end = closing(tokens, at + 1)
    text = label_of(model.formula[tokens[at].start : tokens[end].end]) if end else ""
    told = model.telling.failed.get(text) if model.telling else None
    return told or f"there is no function {tokens[at].text}( ): compute the column first"


def _syntax(fault, model, table):
    tokens, at = _tokens_from(fault, model, table)
    tilde = "; a formula is as in 'y ~ x'" if [token.text for token in tokens].count("~") != 1 or tokens[0] == "~" else ""
    if at == len(tokens):
        return f"the formula ends where more should stand{tilde}"
    # An expression that wasn't worked out is refused at its parenthesis, or somewhere within.
    for start in range(at, -1, -1):
        if tokens[start].name is not None and start + 1 < len(tokens) and tokens[start + 1] == "(":
            end = closing(tokens, start + 1)
            if start + 1 == at and tokens[start].text not in ("I", "factor", "offset", "qss"):
                return _no_function(model, tokens, start)
            if end is not None and end >= at and model.telling and tokens[start].text == "I":
                told = model.telling.failed.get(label_of(model.formula[tokens[start].start : tokens[end].end]))
                if told:
                    return told
    before = model.formula[: tokens[at].start].rstrip()
    behind = f" behind {before!r}" if before else " at the beginning"
    division = "; there is no division of terms" if tokens[at] == "/" else ""
    return f"{tokens[at].text!r} can't stand{behind}{division}{tilde}"


def no_numbers(model, column: str, most: int = 3) -> str:
    """Which cells of a column are no numbers: `record 3 has 'two', record 7 '-'`; of a column of a data frame that it has texts."""
    table, level_of = model.table, (model.telling.level_of if model.telling else lambda column, cell: cell)
    found = [(record, level_of(column, cell)) for record, cell in table.texts(column)]
    odd = [it for it in found if not is_number_text(it[1].strip(" \t"))]
    if found and not odd:
        return f"it has texts, as {found[0][1]!r} in record {found[0][0] + 1}; pandas.to_numeric makes numbers of them"
    told = ", ".join(f"record {record + 1} has {cell!r}" for record, cell in odd[:most])
    return told + (f" and {len(odd) - most} more have none" if len(odd) > most else "")


def _told(model, table, name):
    """The name by which the program was told of a column."""
    return next((told for told in table.cells if model.decoded(told) == name), name)


def _levels(model, column, cells):
    return [model.telling.level_of(column, cell) if model.telling else cell for cell in cells]


def _in_header(fault, model, table):
    header = next(csv.reader(io.StringIO(model.source.decode("utf-8-sig"), newline="")))
    column = fault.fields["column"]
    if fault.name == "EmptyName":
        return f"column {column} of the header has no name"
    return f"the name {header[column - 1]!r} stands in columns {header.index(header[column - 1]) + 1} and {column} of the header"


def _response(fault, model, table):
    name = response_name(model.told)
    return f"the response {name} is no column of numbers: {no_numbers(model, name)}"


def _weights(fault, model, table):
    return f"the weights {model.weights} are no column of numbers: {no_numbers(model, model.told_weights)}"


def _arithmetic(fault, model, table):
    name = fault.fields["name"]
    return f"{name} is no column of numbers: {no_numbers(model, _told(model, table, name))}"


def _unknown_weights(fault, model, table):
    return f"there is no column {model.weights!r} for the weights{close_to(model.weights, _known(model, table))}"


def _one_level(fault, model, table):
    column = _told(model, table, fault.fields["factor"])
    levels = sorted(set(_levels(model, column, (cell for cell in table.cells[column] if cell.strip() not in ("", "NA")))))
    return f"the factor {fault.fields['factor']} has one level among the records that are kept (in the table it has {listed(map(repr, levels))})"


def _too_many_columns(fault, model, table):
    if fault.group == "table":
        return None
    used = used_columns(model.told, table.cells)
    factors = [name for name in used if name not in table.numeric or f"factor({name})" in model.told.replace("`", "")]
    counts = {name: len(set(table.cells[name])) for name in factors}
    if not counts:
        return "a design has at most 128 columns"
    most = max(counts, key=counts.get)
    texts = len(table.texts(most))
    why = f"; {no_numbers(model, most)}" if 0 < texts < table.records / 2 else ""
    return f"a design has at most 128 columns, and the factor {most} has {counts[most]} levels{why}"


def _unknown_level(fault, model, table):
    name, record = fault.fields["factor"], fault.fields["record"]
    levels = _levels(model, _told(model, table, name), table.cells[_told(model, table, name)])
    cell = levels[record - 1]
    return f"record {record} has {cell!r} in {name}, which no record with a response has{close_to(cell, set(levels) - {cell})}"


def _nothing_to_predict(fault, model, table):
    return f"a record to predict has an empty {response_name(model.told)} and all other cells that the formula uses"


def _no_such_column(fault, model, table):
    return f"the design has no column {fault.fields['column']}: columns are counted from 1, as in the `names` of a fit, or tested by their names"


def _no_rows(fault, model, table):
    if not table.records:
        return "the table has no records"
    used = used_columns(model.told, table.cells)
    gaps = {name: sum(not table.has(record, [name]) for record in range(table.records)) for name in used}
    return f"of {table.records} records none has all cells; missing are " + listed(f"{count} of {name}" for name, count in gaps.items() if count)


def _too_many_rows(fault, model, table):
    used = used_columns(model.told, table.cells, model.told_weights)
    whole = sum(table.has(record, used) for record in range(table.records))
    told = f"the table has {table.records:,} records, and the program takes 16,384"
    if whole <= 16_384 < table.records:
        return f"{told}: {whole:,} of them have all cells that are used, and dropna() leaves these"
    smooths = " with the rows of smooths" if fault.group == "program" else ""
    return f"{told}{smooths}: data.sample(16_384, random_state=1) is a part of them that fits"


# What is said of a fault by the table, by the fault's name.
_BY_TABLE = {
    "TooManyRows": _too_many_rows,
    "DoubleName": _in_header,
    "EmptyName": _in_header,
    "UnknownName": _unknown_name,
    "Syntax": _syntax,
    "ResponseNotNumeric": _response,
    "WeightNotNumeric": _weights,
    "ArithNotNumeric": _arithmetic,
    "NotNumeric": _arithmetic,
    "UnknownWeights": _unknown_weights,
    "OneLevel": _one_level,
    "TooManyColumns": _too_many_columns,
    "UnknownLevel": _unknown_level,
    "NothingToPredict": _nothing_to_predict,
    "NoSuchColumn": _no_such_column,
    "NoRows": _no_rows,
}
