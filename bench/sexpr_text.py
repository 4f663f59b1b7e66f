#!/usr/bin/env python3
"""Times a program that reads S-expressions, on texts from 1 to 64 MiB of several shapes.

    bench/sexpr_text.py [COMMAND..]

COMMAND is run with the file's name behind it, and `./mbqi solve` where none is given, which reads all forms before it answers or refuses them. Each shape is made at each
size, and a line tells the seconds of the best of three runs and the seconds a MiB: these stay about the same along a
row where the time is linear. The data is made in a folder of its own, and deleted at the end. It is no part of the
gate.
"""
import os
import subprocess
import sys
import tempfile
import time

MIB = 1 << 20
SIZES = [1, 4, 16, 64]
RUNS = 3
# Printed, refused, or sat: a file of comments alone is an empty script, which has a model.
PASSED = (0, 3, 10)


def filled(piece, size):
    """The piece again and again, up to about the size."""
    return piece * max(1, size // len(piece))


SHAPES = {
    "one long line of symbols": lambda size: filled(b"(assert p) ", size),
    "one long string": lambda size: b'"' + filled(b"text with no end ", size - 2) + b'"',
    "one string of quotes": lambda size: b'"' + filled(b'""', size - 2) + b'"',
    "one long quoted symbol": lambda size: b"|" + filled(b"a name ", size - 2) + b"|",
    "one long numeral": lambda size: b"1" * size,
    "short forms, one a line": lambda size: filled(b"(declare-const x12345 Int)\n", size),
    "atoms alone": lambda size: filled(b"a ", size),
    "empty lists": lambda size: filled(b"()", size),
    "1,000 brackets at one place": lambda size: filled(b"(" * 1000 + b")" * 1000, size),
    "atoms behind 1,000 brackets": lambda size: b"(" * 1000 + filled(b"x ", size - 2000) + b")" * 1000,
    "one long comment": lambda size: b";" + filled(b" a comment (\"|", size - 1),
    "short comments": lambda size: filled(b"; c\n", size),
}


def seconds_of(command):
    """The best time of the command's runs."""
    best = None
    for _ in range(RUNS):
        start = time.perf_counter()
        done = subprocess.run(command, stdout=subprocess.DEVNULL, stderr=subprocess.PIPE, check=False)
        taken = time.perf_counter() - start
        if done.returncode not in PASSED:
            sys.exit(f"{command}: status {done.returncode}: {done.stderr[:200]!r}")
        best = taken if best is None else min(best, taken)
    return best


def main():
    command = sys.argv[1:] or ["./mbqi", "solve"]
    print(f"{'shape':<30}" + "".join(f"{size:>8} MiB" + f"{'a MiB':>8}" for size in SIZES))
    with tempfile.TemporaryDirectory() as folder:
        path = os.path.join(folder, "data.smt2")
        for name, shape in SHAPES.items():
            row = f"{name:<30}"
            for size in SIZES:
                with open(path, "wb") as file:
                    file.write(shape(size * MIB))
                taken = seconds_of(command + [path])
                row += f"{taken:>12.3f}{taken / size:>8.4f}"
            print(row, flush=True)


main()
