"""Changes of a well-formed run. Each has the jobs that it is for, and changes a case, or the words and bytes that are written of one."""

import re
from dataclasses import dataclass
from typing import Callable

from grammar import JOBS

TABLE_JOBS = tuple(job for job in JOBS if job not in ("check", "sample"))
TOKENS = ["~", "+", "-", ":", "*", "^", "(", ")", "0", "1", "2", "y", "x", "z", "f", ".", "`", "`a b`", "factor", "I", "offset", "qss", ",",
          "1/2", "1e9", "99999999999", "é", "\t", "$", "..1"]
NUMBERS = ["0", "1", "1/2", "0.25", "1e0", "3/2", "-1", "1/0", "1e99999", "", "170141183460469231731687303715884105728", "0x1", "1,2", "x", "+",
           "1/4,3/4", "99999999/100000000"]
BYTES = [b",", b"\n", b"\r\n", b'"', b'""', b"\xff", b"\x00", b"\xef\xbb\xbf", b"NA", b"-", b"/", b"e", b"1e99999999999", b"1/0", b" ", b"`",
         b"9" * 50]
SMOOTH = ["qss", "(", "x", ",", "1", ")"]
CHANGES = []


@dataclass
class Change:
    """A change, its jobs, whether it is one of a case, and how often it is chosen."""

    make: Callable
    jobs: tuple
    of_case: bool
    weight: int


def of_case(*jobs, weight=1):
    """Notes a change of a case of these jobs, or of all that read a table."""

    def noted(make):
        CHANGES.append(Change(make, jobs or TABLE_JOBS, True, weight))
        return make

    return noted


def of_run(*jobs, weight=1):
    """Notes a change of the words and bytes of these jobs, or of all."""

    def noted(make):
        CHANGES.append(Change(make, jobs or tuple(JOBS), False, weight))
        return make

    return noted


def chosen(chance, job):
    """No change, one or two, those of cases first; a third of them of those that few jobs have."""
    fitting = [change for change in CHANGES if job in change.jobs]
    own = [change for change in fitting if len(change.jobs) < len(TABLE_JOBS)] or fitting
    found = []
    for _ in range(chance.choices([0, 1, 2], [50, 40, 10])[0]):
        among = own if chance.random() < 0.35 else fitting
        found += chance.choices(among, [change.weight for change in among])
    return sorted(found, key=lambda change: not change.of_case)


# ---- the words


@of_run()
def without_words(_, run):
    run.words = []


@of_run()
def another_job(chance, run):
    run.words[:1] = [chance.choice(["proces", "Process", "", "--formula", "-", *JOBS])]


@of_run()
def another_word(chance, run):
    others = ["--", "-", "--lo", "--lo=1/2", "--tau", "--help", "-h", "x", "", "--form=y ~ x"]
    run.words.insert(chance.randrange(len(run.words) + 1), chance.choice(others))


@of_run()
def one_word_less(chance, run):
    if run.words:
        del run.words[chance.randrange(len(run.words))]


@of_run()
def another_number(chance, run):
    """Another value of an option that has a number, in either form."""
    options = ("lo", "hi", "tau", "crit", "rank-at", "pivots", "number", "rows", "columns", "tested")
    places = [at for at, word in enumerate(run.words) if word.removeprefix("--").partition("=")[0] in options]
    if places:
        at, value = chance.choice(places), chance.choice(NUMBERS)
        name, equals, _ = run.words[at].partition("=")
        run.words[at : at + (1 if equals else 2)] = [f"{name}={value}"]


@of_run(*TABLE_JOBS)
def another_coding(chance, run):
    run.words.append(f"--contrasts={chance.choice(['sums', 'SAS', '', 'treatment'])}")


@of_case("process", "certify", "predict", "path")
def falling_range(_, case):
    case.options["lo"], case.options["hi"] = case.options["hi"], case.options["lo"]


@of_case("process", "certify")
def half_of_ranks(chance, case):
    case.options |= {"crit": "1", "rank-at": "1/2"}
    del case.options[chance.choice(["crit", "rank-at"])]


@of_case("process", "certify")
def ranks_at_an_end(chance, case):
    case.options |= {"crit": "1", "rank-at": chance.choice(["0", "1", "1/2,1", "3/2", "-1/2"])}


@of_case("process", "certify")
def negative_limit(_, case):
    case.options |= {"crit": "-1", "rank-at": "1/2"}


@of_case("test")
def tested_out_of_order(chance, case):
    case.options["tested"] = chance.choice(["2,1", "2,2", "1,3,2"])


@of_case("test")
def tested_that_are_none(chance, case):
    case.options["tested"] = chance.choice(["0", "99", "2,999", "0,1"])


@of_case("test")
def all_tested(_, case):
    case.tokens[2:], case.options["tested"] = ["x"], "1,2"


@of_case()
def few_pivots(chance, case):
    case.options["pivots"] = chance.choice("0012")


@of_case(weight=2)
def other_weights(chance, case):
    case.options["weights"] = chance.choice(["none", "", "y", "x", *2 * case.table.names("factor", "weight")])


# ---- the formula


@of_case()
def another_token(chance, case):
    at = chance.randrange(len(case.tokens) + 1)
    case.tokens[at : at + chance.randrange(2)] = [chance.choice(TOKENS)]


@of_case()
def one_token_less(chance, case):
    del case.tokens[chance.randrange(len(case.tokens))]


@of_case()
def moved_token(chance, case):
    token = case.tokens.pop(chance.randrange(len(case.tokens)))
    case.tokens.insert(chance.randrange(len(case.tokens) + 1), token)


@of_case(weight=4)
def added_item(chance, case):
    """An item that goes beyond a limit, wants another column, or depends on the others."""
    factor = chance.choice(case.table.names("factor") or ["f"])
    items = [f"qss({factor}, 1/2)", f"I(2*{factor})", f"offset({factor})", "qss(x, 1)", "qss(x, 1e39)", "I(1e39*x)", "I(x^9)", "x^0", "(x + y)^99",
             "nobody", "`no body`", "I(2*x)", "I(x^8)", "offset(1/3*x^5)", "x:factor(x)", "log(x)", "x/y", "(x", "x)", "I()"]
    case.tokens += ["+", chance.choice(items)]


@of_case("ranks", "test", "predict", "path")
def a_smooth(_, case):
    case.tokens += ["+", *SMOOTH]


@of_case()
def no_column(_, case):
    case.tokens[2:] = ["0"]


@of_case(weight=2)
def deep(chance, case):
    count = chance.choice([63, 64, 65, 66, 400])
    arithmetic = chance.random() < 0.3
    case.tokens[2:] = [*(["I"] if arithmetic else []), *"(" * count, "x", *")" * count]


@of_case("process", "certify", "ranks", "predict", "path")
def response_of_texts(chance, case):
    case.tokens[0] = chance.choice(["f", "g", "`a b`", "w"])


@of_case()
def wide_number(chance, case):
    number = chance.choice(["1e39", "170141183460469231731687303715884105728", "1e-39"])
    case.tokens += ["+", "I", "(", number, "*", "x", ")"]


@of_case()
def many_terms(_, case):
    """Those of `.^8` over more than 13 columns are above 4,096."""
    count = len(case.table.records)
    for k in range(14):
        case.table.header.append(f"c{k}")
        for i in range(count):
            case.table.records[i].append(str(i % (k + 2)))
    case.tokens[2:] = [".", "^", "8"]


# ---- the table


@of_case(weight=2)
def another_cell(chance, case):
    record = chance.choice(case.table.records)
    others = ["", "NA", "n/a", "-", "1/0", "1e40", "-1", "0", "9" * 39, "1e-20", "1/170141183460469231731687303715884105727", "é"]
    record[chance.randrange(len(record))] = chance.choice(others)


@of_run(*TABLE_JOBS)
def a_comma_more_or_less(chance, run):
    lines = run.source.split(b"\n")
    at = chance.randrange(len(lines))
    lines[at] = lines[at] + b"," if chance.random() < 0.5 else lines[at].replace(b",", b"", 1)
    run.source = b"\n".join(lines)


@of_run(*TABLE_JOBS, weight=2)
def another_name(chance, run):
    head, end, rest = run.source.partition(b"\n")
    names = head.split(b",")
    names[chance.randrange(len(names))] = chance.choice([b"", b"", b"", b"y", b"y", b"x", b"a`b", b"\t"])
    run.source = b",".join(names) + end + rest


@of_case()
def one_value(chance, case):
    """A column with one value; of a weight none is kept where it is 0."""
    name = chance.choice([*case.table.kinds, *case.table.names("factor", "factor", "weight")])
    case.table.fill(name, [chance.choice(["NA", "0", "u", "-1"])] * len(case.table.records))


@of_case()
def a_factor_with_one_level(_, case):
    case.tokens[2:] = ["f"]
    column_with(case, "f", ["u"] * len(case.table.records))


@of_case()
def wide_cell(chance, case):
    """A number of the response that is too wide, or just fits."""
    record = chance.choice(case.table.records)
    record[case.table.header.index("y")] = chance.choice(["1e39", "9" * 39, "1/" + "9" * 40, "1e38"])


@of_case()
def wide_column(chance, case):
    case.tokens += ["+", "x"]
    case.table.fill("x", [str(chance.randrange(10 ** chance.choice([19, 38]))) for _ in range(max(2, len(case.table.records)))])


@of_case("process", "certify")
def close_knots(chance, case):
    """Their distances have the product of the denominators as theirs, which is wider than 128 bits."""
    case.tokens[2:] = SMOOTH
    case.table.fill("x", [f"1/{10**30 + chance.randrange(10**6)}" for _ in range(max(4, len(case.table.records)))])


@of_case("process", "certify")
def many_knots(_, case):
    case.tokens[2:] = SMOOTH
    case.table.fill("x", [str(k) for k in range(300)])


@of_case("process", "certify")
def smooth_of_texts(chance, case):
    case.tokens += ["+", "qss", "(", chance.choice(case.table.names("factor") or ["f"]), ",", "1", ")"]


@of_case("process", "certify")
def few_knots(chance, case):
    case.tokens[2:] = SMOOTH
    case.table.fill("x", [chance.choice("01") for _ in range(max(2, len(case.table.records)))])


def column_with(case, name, texts):
    """Gives the table such a column, where it has none of that name."""
    if name not in case.table.kinds:
        case.table.kinds[name] = "factor"
        case.table.header.append(name)
        for record in case.table.records:
            record.append("u")
    case.table.fill(name, texts)


@of_case()
def many_levels(_, case):
    case.tokens[2:] = ["factor", "(", "x", ")"]
    case.table.fill("x", [str(k) for k in range(300)])


@of_case("predict")
def a_level_to_predict(_, case):
    case.tokens[2:] = ["f"]
    column_with(case, "f", ["u", "v", "u", "v", "new"])
    case.table.fill("y", ["1", "2", "4", "3", ""])


@of_case("predict", weight=4)
def many_to_predict(chance, case):
    case.table.fill("y", ["1", "2", *[""] * chance.choice([64, 65, 66, 80])])


@of_case("predict")
def none_to_predict(chance, case):
    case.table.fill("y", [str(chance.randrange(9)) for _ in range(len(case.table.records))])


@of_case("path")
def rows_and_penalties(_, case):
    """So many records that no room is left for a penalty row."""
    case.tokens[2:] = ["x"]
    case.table.header, case.table.kinds = ["y", "x"], {"y": "number", "x": "number"}
    case.table.records = [["1", str(k % 5)] for k in range(16384)]


@of_run(*TABLE_JOBS, weight=2)
def large_table(chance, run):
    """One record or one column more than may be."""
    if chance.random() < 0.5:
        run.source = b"y,x\n" + b"1,2\n" * 16385
    else:
        run.source = ",".join(f"x{k}" for k in range(1025)).encode() + b"\n" + run.source


@of_run()
def no_input(chance, run):
    run.source = chance.choice([b"", b"\n", b"\r\n\n", b"\xef\xbb\xbf"])


@of_run()
def some_bytes(chance, run):
    """One to three places cut, doubled, replaced, or with other bytes before them."""
    for _ in range(chance.randint(1, 3)):
        text, at = run.source, chance.randrange(len(run.source) + 1)
        to = min(len(text), at + chance.randint(1, 5))
        middles = [b"", chance.choice(BYTES), chance.randbytes(1), text[at:to] * chance.randrange(2, 40), chance.choice(BYTES) + text[at:to]]
        run.source = text[:at] + chance.choice(middles) + text[to:]


@of_run()
def cut_short(chance, run):
    run.source = run.source[: chance.randrange(len(run.source) + 1)]


@of_run(*TABLE_JOBS)
def not_utf8(chance, run):
    at = chance.randrange(len(run.source) + 1)
    run.source = run.source[:at] + chance.choice([b"\xff", b"\xc3", b"\xed\xa0\x80"]) + run.source[at:]


@of_run(*TABLE_JOBS)
def wide_cells(chance, run):
    """All whole numbers of the table become wider by as many digits."""
    digits = b"7" * chance.choice([6, 12, 30])
    head, end, rest = run.source.partition(b"\n")
    run.source = head + end + re.sub(rb"(?<=[,\n-])([1-9])(?=[,\n])", rb"\g<1>" + digits, rest)
