#!/usr/bin/env python3
"""Times the program on the largest input of each kind that the limits let through, or that is one beyond.

    bench/limits/limits.py PROGRAM [WORD]

Each line has the input, its bytes, the seconds of a processor, the most memory in MB, the exit status, and the fault line or the bytes
that were printed. WORD runs those whose name has it.
"""
import os
import sys
import tempfile

MOST = 2**26
FIT = ["process", "--formula", "y ~ 1", "--lo", "1/2", "--hi", "1/2"]


def fit(formula, lo="1/2", hi="1/2"):
    return ["process", "--formula", formula, "--lo", lo, "--hi", hi, "--pivots", "20"]


def filled(before, piece, after, size=MOST):
    """As many pieces as fit between the others into so many bytes."""
    return before + piece * ((size - len(before) - len(after)) // len(piece)) + after


def drawn(rows, columns):
    """A table of small whole numbers that no formula makes dependent."""
    lines, state = [",".join(f"x{column}" if column else "y" for column in range(columns))], 1
    for _ in range(rows):
        cells = []
        for _ in range(columns):
            state = (state * 1103515245 + 12345) % 2**31
            cells.append(str(state >> 16 & 511))
        lines.append(",".join(cells))
    return ("\n".join(lines) + "\n").encode()


def certificate(rows, columns, segments):
    """A certificate that no solver made, of constant costs: each segment is tested at every row and column. Rows beyond the basis lie on
    either side in turn, so that their dual values, 1 and -1, balance, and all residuals are 0."""
    row = '{"down0":"1","down1":"0","up0":"1","up1":"0","x":[' + ",".join(['"1"'] * columns) + '],"y":"0"}'
    basic = "[" + ",".join(['"0"'] * columns) + "]"
    coef = "[" + ",".join(['"1"', '"-1"'] * (columns // 2)) + "]"
    sides = "*" * columns + "+-" * ((rows - columns) // 2)
    parts = [f'{{"basic_hi":{basic},"basic_lo":{basic},"coef":{coef},"hi":"{n + 1}/{segments}","lo":"{n}/{segments}","loss_hi":"0","loss_lo":"0",'
             f'"sides":"{sides}"}}' for n in range(segments)]
    return (f'{{"columns":{columns},"hi":"1","intervals":[],"kind":"quantreg-certificate","lo":"0","rows":[' + ",".join([row] * rows)
            + '],"segments":[' + ",".join(parts) + '],"version":1}').encode()


def inputs():
    """The name of each input, its words, and its bytes."""
    yield "16,384 x 1,024 cells", FIT, lambda: ("y" + "".join(f",x{n}" for n in range(1023)) + "\n" + ("1" + ",2" * 1023 + "\n") * 16384).encode()
    yield "one cell", FIT, lambda: filled(b"y,x\n1,", b"a", b"\n")
    yield "quotes in a cell", FIT, lambda: filled(b'y,x\n1,"', b'""', b'"\n')
    yield "a quote that isn't closed", FIT, lambda: filled(b'y\n1\n"', b"\n", b"")
    yield "digits of the response", FIT, lambda: filled(b"y\n", b"9", b"\n")
    yield "digits after a point", FIT, lambda: filled(b"y\n0.", b"3", b"\n")
    yield "a header's name", FIT, lambda: filled(b"y,", b"n", b"\n1,1\n")
    yield "ends of lines", FIT, lambda: b"\n" * MOST
    yield "one byte too many", FIT, lambda: b"\n" * (MOST + 1)
    yield "16,384 texts of a factor", fit("y ~ f"), lambda: ("y,f\n" + "".join(f"1,t{n}\n" for n in range(16384))).encode()
    yield "127 levels", fit("y ~ f"), lambda: ("y,f\n" + "".join(f"{n * n % 997},t{n % 127}\n" for n in range(16384))).encode()
    yield "4,096 terms", fit("y ~ " + "+".join(f"x{a}:x{b}" for a in range(2, 93) for b in range(1, a))), lambda: drawn(100, 93)
    yield "a power of many terms", fit("y ~ (" + "+".join(f"x{a}" for a in range(1, 65)) + ")^2"), lambda: drawn(100, 65)
    yield "deep parentheses", fit("y ~ " + "(" * 30000 + "x1" + ")" * 30000), lambda: drawn(10, 2)
    yield "a long formula", fit("y ~ " + "+".join(["x1"] * 20000)), lambda: drawn(10, 2)
    yield "100 columns", fit("y ~ ."), lambda: drawn(200, 100)
    yield "16,384 x 10", fit("y ~ ."), lambda: drawn(16384, 11)
    yield "one column over all quantiles", ["process", "--formula", "y ~ 1", "--lo", "0", "--hi", "1"], lambda: drawn(16384, 1)
    for name, before, piece, after in [("brackets", b"", b"[", b""), ("a string", b'"', b"a", b'"'), ("escapes", b'"', b"\\u0041", b'"'),
                                       ("rows", b'{"columns":1,"hi":"1","intervals":[],"kind":"quantreg-certificate","lo":"0","rows":[',
                                        b'{"down0":"1","down1":"-1","up0":"0","up1":"1","x":["1"],"y":"1"},',
                                        b'{"down0":"1","down1":"-1","up0":"0","up1":"1","x":["1"],"y":"1"}],"segments":[],"version":1}')]:
        yield f"a certificate of {name}", ["check"], lambda before=before, piece=piece, after=after: filled(before, piece, after)
    for segments in (10, 20, 40):
        yield f"a certificate of {segments} segments", ["check"], lambda segments=segments: certificate(16384, 128, segments)


def measured(program, words, source):
    """The seconds, the memory, the status and both outputs of a run."""
    with tempfile.TemporaryFile() as given, tempfile.TemporaryFile() as out, tempfile.TemporaryFile() as err:
        given.write(source)
        given.seek(0)
        child = os.fork()
        if not child:
            for stream, number in ((given, 0), (out, 1), (err, 2)):
                os.dup2(stream.fileno(), number)
            try:
                os.execv(program, [program, *words])
            finally:
                os._exit(127)
        _, status, used = os.wait4(child, 0)
        out.seek(0, 2)
        err.seek(0)
        return used.ru_utime + used.ru_stime, used.ru_maxrss / 1000, os.waitstatus_to_exitcode(status), out.tell(), err.read().decode()


def main():
    program = os.path.abspath(sys.argv[1])
    for name, words, make in inputs():
        if len(sys.argv) > 2 and sys.argv[2] not in name:
            continue
        source = make()
        seconds, memory, status, printed, told = measured(program, words, source)
        said = told.strip()[:110] or f"{printed} bytes"
        print(f"{name:32} {len(source):9} bytes {seconds:7.2f} s {memory:7.0f} MB  status {status}  {said}", flush=True)


if __name__ == "__main__":
    main()
