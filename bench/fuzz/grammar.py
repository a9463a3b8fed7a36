"""Well-formed runs of each job, drawn by the grammars of docs/MANUAL.md: a table, a formula over its columns, and the words."""

import re
from dataclasses import dataclass
from fractions import Fraction

PLAIN_NAME = re.compile(r"([A-Za-z]|\.[A-Za-z._])[A-Za-z0-9._]*")
QUANTILES = ["0", "0.1", "1/4", "1/3", "1/2", "0.5", "5e-1", "2/4", "5/8", "3/4", "9/10", "1"]
LAMBDAS = ["1/10", "0.25", "1/3", "1/2", "1", "2", "1e1"]
LEVELS = ["u", "v", "w w", "a,b", 'say "so"', "é"]
# Each job with how often it is drawn: those with more to say more often.
JOBS = {"process": 27, "certify": 8, "check": 24, "ranks": 8, "test": 11, "predict": 10, "path": 9, "sample": 3}


@dataclass
class Run:
    """What a run of the program is given."""

    words: list
    source: bytes


@dataclass
class Table:
    """A table of texts; each name with what its column is for: a number, a weight or a factor."""

    kinds: dict
    header: list
    records: list

    def names(self, *kinds):
        return [name for name, kind in self.kinds.items() if kind in kinds]

    def fill(self, name, cells):
        """Gives a column these cells, with as many records as there are cells; the others are repeated."""
        at, old = self.header.index(name), self.records
        self.records = [list(old[i % len(old)]) for i in range(len(cells))]
        for record, cell in zip(self.records, cells):
            record[at] = cell


@dataclass
class Case:
    """A run before it is written out: the formula as tokens, the table as cells."""

    job: str
    options: dict
    tokens: list
    table: Table


def number_text(chance, style):
    """A number text: mostly small ones, with ties between them."""
    match style:
        case "decimal":
            return f"{chance.randint(-99, 999) / 10}"
        case "ratio":
            return f"{chance.randint(-9, 9)}/{chance.randint(1, 9)}"
        case "exponent":
            return f"{chance.choice('+-')}{chance.choice(['1', '.5', '5.', '2.25'])}{chance.choice('eE')}{chance.randint(-2, 2)}"
        case "wide":
            return str(chance.randint(-(10**14), 10**14))
        case "widest":
            return str(chance.randint(-(10**38), 10**38))
    return str(chance.randint(-2, 6))


def cells(chance, kind, count):
    if kind == "factor":
        levels = chance.sample(LEVELS, chance.randint(2, 3))
        return [chance.choice(levels) for _ in range(count)]
    if kind == "weight":
        return [chance.choice(["1", "2", "3", "1/2", "0.25", "0"]) for _ in range(count)]
    style = chance.choices(["small", "decimal", "ratio", "exponent", "wide", "widest"], [60, 20, 10, 5, 6, 1])[0]
    return [number_text(chance, style) for _ in range(count)]


def table(chance):
    """Three to seven columns and up to 14 records, now and then with missing cells."""
    kinds = {"y": "number", "x": "number", "z": "number", "a b": "number", "w": "weight", "f": "factor", "g": "factor"}
    others = chance.sample([name for name in kinds if name not in ("y", "x")], chance.randint(1, 5))
    kinds = {name: kind for name, kind in kinds.items() if name in ("y", "x", *others)}
    count = chance.choice([1, 2, 3, 4, *range(5, 15), *range(6, 15)])
    columns = [cells(chance, kind, count) for kind in kinds.values()]
    made = Table(kinds, list(kinds), [list(record) for record in zip(*columns)])
    if chance.random() < 0.3:
        for record in made.records:
            if chance.random() < 0.2:
                record[chance.randrange(len(record))] = chance.choice(["", "NA", " NA "])
    if chance.random() < 0.1:  # names of records
        made.header.insert(0, "")
        for at, record in enumerate(made.records, 1):
            record.insert(0, str(at))
    return made


class Formulas:
    """Draws formulas rule by rule, as tokens. A level counts how deep a rule stands in others, and deep ones stay short."""

    def __init__(self, chance, table, smooths):
        self.chance, self.table, self.smooths = chance, table, smooths

    def several(self, rule, signs, more):
        tokens = rule()
        while self.chance.random() < more:
            tokens = [*tokens, self.chance.choice(signs), *rule()]
        return tokens

    def name(self, *kinds):
        name = self.chance.choice(self.table.names(*kinds) or ["x"])
        return f"`{name}`" if not PLAIN_NAME.fullmatch(name) or self.chance.random() < 0.05 else name

    def number(self):
        return self.chance.choice(["0", "1", "2", "3", "0.5", "1/2", ".25", "2e0", "3/4", "10"])

    def formula(self):
        response = "y" if self.chance.random() < 0.97 else self.name("number")
        tokens = [response, "~", *self.item()]
        while self.chance.random() < 0.4:
            sign = "+" if self.chance.random() < 0.8 else "-"
            tokens += [sign, *(self.item() if sign == "+" else self.taken())]
        return tokens

    def taken(self):
        """What may stand behind a minus sign."""
        return [self.chance.choice("01")] if self.chance.random() < 0.6 else self.product(1)

    def item(self):
        match self.chance.choices(["product", "number", "offset", "smooth"], [20, 2, 2, 4 if self.smooths else 0])[0]:
            case "number":
                return [self.chance.choice("01")]
            case "offset":
                return ["offset", "(", *self.arith(1), ")"]
            case "smooth":
                return ["qss", "(", self.name("number"), ",", self.number(), ")"]
        return self.product(0)

    def sum(self, level):
        sign = [self.chance.choice("+-")] if self.chance.random() < 0.05 else []
        return sign + self.several(lambda: self.product(level), "+++-", 0.5)

    def product(self, level):
        return self.several(lambda: self.inter(level), "*", 0.05)

    def inter(self, level):
        return self.several(lambda: self.power(level), ":", 0.07)

    def power(self, level):
        return self.atom(level) + (["^", self.chance.choice("123")] if self.chance.random() < 0.06 else [])

    def atom(self, level):
        wide = 2 if level < 2 else 0
        match self.chance.choices(["name", "factor of", "factor(", "I(", ".", "("], [22, 5, 1, 4, 1, wide])[0]:
            case "factor of":
                return [self.name("factor") if self.table.names("factor") else self.name("number")]
            case "factor(":
                return ["factor", "(", self.name("number", "factor", "weight"), ")"]
            case "I(":
                return ["I", "(", *self.arith(level), ")"]
            case ".":
                return ["."]
            case "(":
                return ["(", *self.sum(level + 1), ")"]
        return [self.name("number", "number", "weight")]

    def arith(self, level):
        sign = [self.chance.choice("+-")] if self.chance.random() < 0.1 else []
        return sign + self.several(lambda: self.aprod(level), "+-", 0.3)

    def aprod(self, level):
        return self.several(lambda: self.apow(level), "*", 0.3)

    def apow(self, level):
        return self.aatom(level) + (["^", self.chance.choice("122345")] if self.chance.random() < 0.25 else [])

    def aatom(self, level):
        match self.chance.choices(["name", "number", "("], [10, 4, 1 if level < 3 else 0])[0]:
            case "number":
                return [self.number()]
            case "(":
                return ["(", *self.arith(level + 1), ")"]
        return [self.name("number")]


def ascending(chance, texts):
    """Two of the texts, the lesser first, or one twice."""
    low, high = sorted(chance.choices(texts, k=2), key=Fraction)
    return (low, low) if chance.random() < 0.3 else (low, high)


def with_range(chance, options, texts):
    options["lo"], options["hi"] = ascending(chance, texts)


def drawn(chance, job):
    """A well-formed case of a job; of `sample` it has neither a table nor a formula."""
    options = {}
    if job == "sample":
        options |= {"number": str(chance.randrange(2**32)), "rows": str(chance.randint(1, 30)), "columns": str(chance.randint(1, 4))}
        with_range(chance, options, QUANTILES)
        return Case(job, options, [], Table({}, [], []))
    made, ranked = table(chance), job in ("process", "certify") and chance.random() < 0.25
    tokens = Formulas(chance, made, smooths=job in ("process", "certify") and not ranked).formula()
    if job in ("process", "certify", "predict", "path"):
        with_range(chance, options, LAMBDAS if job == "path" else QUANTILES)
    if job == "path":
        options["tau"] = chance.choice(QUANTILES)
    if job == "test":
        tokens += ["+", "x"]
        options["tested"] = chance.choice(["2", "2", "2", "1", "3", "2,3", "1,3"])
    if job == "predict":
        for record in chance.sample(made.records, min(len(made.records), chance.randint(1, 3))):
            record[made.header.index("y")] = chance.choice(["", "NA"])
    if ranked:
        options["crit"] = chance.choice(["0", "1", "6/7", "2.7055", "46/17", "100"])
        options["rank-at"] = ",".join(chance.choices(QUANTILES[1:-1], k=chance.randint(1, 2)))
    if made.names("weight") and chance.random() < 0.4:
        options["weights"] = chance.choice(made.names("weight"))
    if chance.random() < 0.25:
        options["contrasts"] = chance.choice(["treatment", "sas", "sum", "helmert"])
    if chance.random() < 0.08:
        options["pivots"] = chance.choice(["40", "1000", "100000", "10000000"])
    return Case(job, options, tokens, made)


def cell_text(chance, cell):
    if set(cell) & set(',"\r\n') or chance.random() < 0.05:
        return '"' + cell.replace('"', '""') + '"'
    return cell


def written_table(chance, made):
    """The bytes of a table, with the line ends and marks that a table may have."""
    lines = [",".join(cell_text(chance, cell) for cell in line) for line in [made.header, *made.records]]
    if chance.random() < 0.05:
        lines.insert(chance.randrange(len(lines)), "")
    end = chance.choices(["\n", "\r\n", "\r"], [20, 3, 1])[0]
    text = end.join(lines) + (end if chance.random() < 0.9 else "")
    return (b"\xef\xbb\xbf" if chance.random() < 0.04 else b"") + text.encode()


def written(chance, case):
    """The run of a case: its options in any order, in either form."""
    options = dict(case.options)
    if case.job != "sample":
        between = chance.choice(["", " ", " ", "  ", "\n\t"])
        options["formula"] = between.join(case.tokens)
    words = [case.job]
    for name in chance.sample(sorted(options), len(options)):
        value = options[name]
        joined = chance.random() < 0.3 or value.startswith("-")
        words += [f"--{name}={value}"] if joined else [f"--{name}", value]
    return Run(words, written_table(chance, case.table) if case.table.header else b"")
