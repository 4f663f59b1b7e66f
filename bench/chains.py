#!/usr/bin/env python3
"""Times `print` on chains, and finds the least stack with which it ends.

    bench/chains.py [PROGRAM [COUNT..]]

PROGRAM is the built program, and that of prebuilt/ where none is given, as ./mbqi would lift the limit of the stack. COUNT is how long the
chains are. They are of macros without parameters, each the one before; of macros with a parameter, each applied by the next; of `let` in
`let`; and of `not` in `not`, these two up to the limit of 1,000 brackets. A line tells the processor seconds and the KiB of stack at each
length. The scripts are made in a folder of their own, which is deleted at the end. It is no part of the gate.
"""
import os
import resource
import subprocess
import sys
import tempfile

TOP = os.path.dirname(os.path.dirname(os.path.abspath(__file__)))
COUNTS = [250, 500, 990, 2000, 4000]
DEEPEST = 990
SECONDS = 600
HEAD = "(declare-sort S 0)\n(declare-const c S)\n(declare-const p Bool)\n(declare-fun q (S) Bool)\n"


def macros(count):
    lines = [f"(define-fun m{i} () Bool {f'm{i - 1}' if i else 'p'})" for i in range(count)]
    return "\n".join([*lines, f"(assert m{count - 1})"])


def applied_macros(count):
    lines = [f"(define-fun m{i} ((x S)) Bool ({f'm{i - 1}' if i else 'q'} x))" for i in range(count)]
    return "\n".join([*lines, f"(assert (m{count - 1} c))"])


def lets(count):
    return "(assert " + "(let ((v p)) " * count + "v" + ")" * count + ")"


def nots(count):
    return "(assert " + "(not " * count + "p" + ")" * count + ")"


SHAPES = [("macros", macros, None), ("applied macros", applied_macros, None), ("let in let", lets, DEEPEST), ("not in not", nots, DEEPEST)]


def run(program, path, kibibytes):
    """The processor seconds of a run with so much stack, or none where it doesn't end well."""

    def limit():
        bytes_ = resource.RLIM_INFINITY if kibibytes is None else kibibytes * 1024
        resource.setrlimit(resource.RLIMIT_STACK, (bytes_, resource.getrlimit(resource.RLIMIT_STACK)[1]))

    before = resource.getrusage(resource.RUSAGE_CHILDREN)
    done = subprocess.run([program, "print", path], stdout=subprocess.DEVNULL, stderr=subprocess.DEVNULL, preexec_fn=limit, timeout=SECONDS)
    after = resource.getrusage(resource.RUSAGE_CHILDREN)
    return after.ru_utime + after.ru_stime - before.ru_utime - before.ru_stime if done.returncode == 0 else None


def least_stack(program, path):
    low, high = 32, 64
    while run(program, path, high) is None:
        low, high = high, 2 * high
    while high - low > max(16, low // 16):
        middle = (low + high) // 2
        low, high = (low, middle) if run(program, path, middle) is not None else (middle, high)
    return high


def main(program=f"{TOP}/prebuilt/x86_64-linux/mbqi", *words):
    counts = [int(word) for word in words] or COUNTS
    with tempfile.TemporaryDirectory() as folder:
        path = os.path.join(folder, "script.smt2")
        for name, make, most in SHAPES:
            cells = []
            for count in counts:
                if most is None or count <= most:
                    with open(path, "w", encoding="ascii") as file:
                        file.write(f"{HEAD}{make(count)}\n(check-sat)\n")
                    taken = run(program, path, None)
                    cells.append(f"{count}: {taken:.2f} s, {least_stack(program, path)} KiB" if taken is not None else f"{count}: none")
            print(f"{name:<16}" + "   ".join(cells), flush=True)


main(*sys.argv[1:])
