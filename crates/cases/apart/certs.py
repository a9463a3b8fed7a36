#!/usr/bin/env python3
"""Works cases of certificates again, apart from the program: by `checker/quantreg_check.py`, in Python's fractions.

    certs.py          works each case of ../data/verdicts.txt again, and what ../data/changes.txt reads that the checker reads by the same
                      rules; tells how many, and each that differs, and then the status is 1
    certs.py wide     prints the certificates of numbers beyond 127 bits that stand in ../data/verdicts.txt: a median of doubles, and a line
                      through three points in full, in moves and with an interval
"""

import json
import re
import sys
from fractions import Fraction as F
from pathlib import Path

HERE = Path(__file__).resolve().parent
sys.path.insert(0, str(HERE.parents[2] / "checker"))

import quantreg_check  # noqa: E402
import test_quantreg_check as known  # noqa: E402

DATA = HERE.parent / "data"


def plain(text):
    """What is written in the notation of cases."""
    text = re.sub(r"\\\((\d+) (.*?)\\\)", lambda it: it[2] * int(it[1]), text)
    return re.sub(r"\\(n|\\)", lambda it: {"n": "\n", "\\": "\\"}[it[1]], text)


def cases(name):
    """The line of each case, the certificate as it is written anew, and the answer that is wanted."""
    shared = ""
    for line in (DATA / name).read_text(encoding="utf-8").splitlines():
        if line.startswith("= "):
            shared = plain(line[2:])
        elif line.startswith("> "):
            *pieces, answer = line[2:].split(" => ")
            text, pieces = shared, list(map(plain, pieces))
            for old, new in zip(pieces[::2], pieces[1::2]):
                text = text.replace(old, new, 1)
            yield line, text, answer


def verdict(text):
    """What the checker finds of a text."""
    try:
        cert = quantreg_check.certificate(json.loads(text))
    except (ValueError, RecursionError):
        return "not read"
    false = quantreg_check.first_false(cert)
    return "rejected {} {} {}: {} {}".format(*false[:4], false[5]) if false else "accepted"


def reading(text):
    """Whether the checker reads a text, and where a number is none, or one of the problem has more than 127 bits, its place."""
    try:
        cert = quantreg_check.certificate(json.loads(text))
    except (ValueError, RecursionError) as error:
        named = re.fullmatch(r"(\S+) is no (long )?number", str(error))
        return f"Number {named[1]}" if named else "not read"
    wide = (f"Number /rows/{i}/{key}" for i, row in enumerate(cert["rows"]) for key in sorted(row) if key != "x" and is_wide(row[key]))
    return next(wide, "read")


def is_wide(number):
    return max(map(abs, number.as_integer_ratio())) >= 2**127



# ---- certificates of long numbers

# Primes of 64 and more bits: two of them go into 128 bits, and more of them don't.
PRIMES = [2**64 + 13, 2**66 + 9, 2**68 + 33, 2**70 + 25]


def numbers(texts, factors):
    return [str(F(text) * factor) for text, factor in zip(texts, factors)]


def line_of_weights():
    """The line through three points with its abscissas times p, its responses over q and the weights r/q, s/p and r of the points. Of the first
    segment the middle point lies above, and so the dual values are -2/3, 1 and -1/3 times its cost; where the first of them is minus the
    lower cost of its point, that leaves the line, and in the second segment they are -1, 3/2 and -1/2 times that cost."""
    p, q, r, s = PRIMES
    weights = [F(r, q), F(s, p), F(r)]
    xs, ys = [0, p, 3 * p], [F(0), F(2, q), F(3, q)]
    rows = [{**known.data_row(y, 1, x), "down0": str(w), "down1": str(-w), "up1": str(w)} for x, y, w in zip(xs, ys, weights)]
    middle = weights[0] / (weights[0] + F(2, 3) * weights[1])
    above, below = weights[1] * middle, weights[0] * (1 - middle)
    first = known.segment("0", str(middle), "", "*+*", "0 0", f"{-2 * above / 3} {-above / 3}", "0", str(above / q))
    first["coef"] = ["0", str(F(1, p * q))]
    second = known.segment(str(middle), "1", "", "-**", f"{3 * below / 2} {-below / 2}", "0 0", str(below * F(3, 2 * q)), "0")
    second["coef"] = [str(F(3, 2 * q)), str(F(1, 2 * p * q))]
    return {**known.certificate(rows, [first, second]), "version": 3}


def in_moves(cert):
    """The same, of whose second segment stands what changes."""
    first, second = cert["segments"]
    moves = [{"row": 0, "side": "-"}, {"row": 1, "side": "*", "value": second["basic_lo"][0]}]
    return {**cert, "segments": [first, {key: second[key] for key in ("basic_hi", "coef", "hi", "loss_hi")} | {"moves": moves}]}


def interval_of_weights():
    """The interval of three points that `checker` has, with its abscissas times p, its responses over q and a weight of 1/r of each point."""
    p, q, r, _ = PRIMES
    cert = json.loads(json.dumps(known.RANKED))
    for row in cert["rows"]:
        row["x"], row["y"] = numbers(row["x"], [1, p]), str(F(row["y"]) / q)
        row.update((key, str(F(row[key]) / r)) for key in ("down0", "down1", "up0", "up1"))
    (median,), (interval,) = cert["segments"], cert["intervals"]
    median.update((key, numbers(median[key], [F(1, r)] * 2)) for key in ("basic_lo", "basic_hi"))
    median.update((key, str(F(median[key]) / q / r)) for key in ("loss_lo", "loss_hi"))
    interval["projection"] = numbers(interval["projection"], [p, 1])
    for end in (interval["low"], interval["high"]):
        end.update((key, numbers(end[key], [F(1, r)] * 2)) for key in ("inside", "outside"))
        end["value"] = str(F(end["value"]) / q / p)
    for it in (median, interval["low"], interval["high"]):
        it["coef"] = numbers(it["coef"], [F(1, q), F(1, p * q)])
    return {**cert, "version": 3}


WIDE = {"doubles": known.DOUBLES, "line": line_of_weights(), "moves": in_moves(line_of_weights()), "interval": interval_of_weights()}


def printed(name):
    return json.dumps(WIDE[name], sort_keys=True, separators=(",", ":"))


def main(words):
    if words[:1] == ["wide"]:
        print(*(printed(name) for name in words[1:] or WIDE), sep="\n")
        return 0
    wrong = 0
    for name, work in (("verdicts.txt", verdict), ("changes.txt", reading)):
        tried = 0
        for line, text, answer in cases(name):
            if work is reading and '"version":3' not in text:
                continue
            tried += 1
            found = work(text)
            if found != answer:
                wrong += 1
                print(f"{line[:300]}\n  by the checker: {found[:300]}")
        print(f"{name}: {tried} cases")
    return int(wrong > 0)


if __name__ == "__main__":
    sys.exit(main(sys.argv[1:]))
