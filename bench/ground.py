#!/usr/bin/env python3
"""Times `solve` on scripts of several shapes and sizes, and z3 beside it where it is there.

    bench/ground.py [COMMAND..]

COMMAND is run with the file's name behind it and a stack of 8 MiB, and `./mbqi solve` where none is given. A line tells the seconds of one run
at each size. A chain's links follow one another in the order of the clauses, or backwards, where each pass over the clauses adds one truth, so that the
time grows with the square of its length; pigeons take exponential time. The last shapes have quantifiers: steps follow one another by a rule, and a
relation is closed under two rules, one of them over three variables. Each round tries all tuples. The scripts are made in a folder of their own, which is
deleted at the end. It is no part of the gate.
"""
import itertools
import os
import resource
import shutil
import subprocess
import sys
import tempfile
import time

SECONDS = 60
STACK = 8 * 2**20


def script(constants, predicates, assertions):
    """A script of one sort."""
    lines = ["(declare-sort S 0)"]
    lines += [f"(declare-const {name} S)" for name in constants]
    lines += [f"(declare-fun {name} (S) Bool)" for name in predicates]
    lines += [f"(assert {assertion})" for assertion in assertions]
    return "\n".join(lines + ["(check-sat)", ""])


def units(count):
    names = [f"c{i}" for i in range(count)]
    return script(names, ["p"], [f"(p {name})" for name in names])


def chain(count):
    names = [f"c{i}" for i in range(count)]
    links = [f"(or (not (p {a})) (p {b}))" for a, b in itertools.pairwise(names)]
    return script(names, ["p"], ["(p c0)"] + links)


def backward_chain(count):
    names = [f"c{i}" for i in range(count)]
    links = [f"(or (not (p {a})) (p {b}))" for a, b in itertools.pairwise(names)]
    return script(names, ["p"], links[::-1] + ["(p c0)"])


def broken_chain(count):
    names = [f"c{i}" for i in range(count)]
    links = [f"(or (not (p {a})) (p {b}))" for a, b in itertools.pairwise(names)]
    return script(names, ["p"], ["(p c0)"] + links + [f"(not (p {names[-1]}))"])


def pigeons(count):
    names = [f"pigeon{i}" for i in range(count)]
    holes = [f"hole{i}" for i in range(count - 1)]
    somewhere = ["(or " + " ".join(f"({hole} {name})" for hole in holes) + ")" for name in names]
    apart = [f"(or (not ({hole} {a})) (not ({hole} {b})))" for hole in holes for a, b in itertools.combinations(names, 2)]
    return script(names, holes, somewhere + apart)


def steps(count):
    names = [f"c{i}" for i in range(count)]
    links = [f"(r {a} {b})" for a, b in itertools.pairwise(names)]
    rule = "(forall ((x S) (y S)) (or (not (p x)) (not (r x y)) (p y)))"
    text = script(names, ["p"], ["(p c0)", rule] + links)
    return text.replace("(declare-fun p (S) Bool)", "(declare-fun p (S) Bool)\n(declare-fun r (S S) Bool)")


def closed(count):
    names = [f"c{i}" for i in range(count)]
    links = [f"(r {a} {b})" for a, b in itertools.pairwise(names)]
    rules = ["(forall ((x S) (y S)) (or (not (r x y)) (r y x)))",
             "(forall ((x S) (y S) (z S)) (or (not (r x y)) (not (r y z)) (r x z)))"]
    return script(names, ["p"], rules + links).replace("fun p (S)", "fun r (S S)")


SHAPES = [
    ("units", units, [1_000, 4_000, 16_000, 64_000]),
    ("chain", chain, [1_000, 4_000, 16_000]),
    ("backward chain", backward_chain, [1_000, 2_000, 4_000]),
    ("broken chain", broken_chain, [1_000, 4_000, 16_000]),
    ("pigeons", pigeons, [6, 7, 8, 9]),
    ("steps", steps, [10, 20, 40]),
    ("closed relation", closed, [4, 8, 16]),
]


def limit_stack():
    resource.setrlimit(resource.RLIMIT_STACK, (STACK, STACK))


def seconds_of(command):
    """The time of one run, or none where it takes too long or ends otherwise than with an answer."""
    start = time.perf_counter()
    try:
        done = subprocess.run(command, stdout=subprocess.DEVNULL, stderr=subprocess.PIPE, check=False, timeout=SECONDS, preexec_fn=limit_stack)
    except subprocess.TimeoutExpired:
        return None
    return time.perf_counter() - start if done.returncode in (0, 10, 20) else None


def row(name, command, folder, make, sizes):
    """The line of a command on a shape."""
    cells = []
    for size in sizes:
        path = os.path.join(folder, "script.smt2")
        with open(path, "w", encoding="ascii") as file:
            file.write(make(size))
        taken = seconds_of(command + [path])
        cells.append(f"{size:>6}: " + ("   none" if taken is None else f"{taken:7.3f}"))
    print(f"{name:<22}" + "  ".join(cells), flush=True)


def main():
    command = sys.argv[1:] or ["./mbqi", "solve"]
    with tempfile.TemporaryDirectory() as folder:
        for name, make, sizes in SHAPES:
            row(name, command, folder, make, sizes)
            if shutil.which("z3"):
                row(f"{name}, z3", ["z3"], folder, make, sizes)


main()
