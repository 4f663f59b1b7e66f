#!/usr/bin/env python3
"""Times `print` on scripts of several shapes and of 1 to 32 MiB.

    bench/print.py [COMMAND..]

COMMAND is run with the file's name behind it, and `./mbqi print` where none is given. A line tells the seconds of one run at each
size, and the greatest memory of the last; where time is linear in the size, each number is about twice the one before. The shapes are
many assertions over a few names, a declaration and an assertion for each of many names, one assertion with a long `and`, and a chain
of macros without parameters, each of which applies the one before it. The scripts are made in a folder of their own, which is deleted at the end. It is no part of the gate.
"""
import os
import resource
import shutil
import subprocess
import sys
import tempfile
import time

SECONDS = 600
MEBIBYTE = 1 << 20
SIZES = [1, 2, 4, 8, 16, 32]
DECLARED = "".join(f"(declare-const c{i} Int)\n" for i in range(100)) + "(declare-fun p (Int Int) Bool)\n"


def grown(head, size, part):
    """The head, and behind it the numbered parts, until the text is long enough."""
    texts, length, number = [head], len(head), 0
    while length < size:
        texts.append(part(number))
        length += len(texts[-1])
        number += 1
    return "".join(texts)


def many_assertions(size):
    return grown(DECLARED, size, lambda i: f"(assert (or (< c{i % 100} (+ c{i % 97} {i % 1000})) (not (p c{i % 89} {i % 1000}))))\n")


def many_names(size):
    return grown("", size, lambda i: f"(declare-const name{i} Int)\n(assert (<= name{i} (+ name{i // 2} 7)))\n")


def long_and(size):
    return grown(DECLARED + "(assert (and", size, lambda i: f" (p c{i % 100} {i % 1000})") + "))\n"


def chain_of_macros(size):
    head = DECLARED + "(define-fun m0 () Bool (forall ((x Int)) (p x c0)))\n"
    return grown(head, size, lambda i: f"(define-fun m{i + 1} () Bool m{i})\n") + "(assert m1)\n"


SHAPES = [("many assertions", many_assertions), ("many names", many_names), ("one long and", long_and), ("a chain of macros", chain_of_macros)]


def seconds_of(command, path):
    start = time.monotonic()
    try:
        done = subprocess.run(command + [path], stdout=subprocess.DEVNULL, stderr=subprocess.PIPE, timeout=SECONDS)
    except subprocess.TimeoutExpired:
        return f"over {SECONDS}"
    taken = time.monotonic() - start
    return f"{taken:.2f}" if done.returncode == 0 else f"status {done.returncode}"


def main():
    top = os.path.dirname(os.path.dirname(os.path.abspath(__file__)))
    command = sys.argv[1:] or [os.path.join(top, "mbqi"), "print"]
    folder = tempfile.mkdtemp()
    try:
        print("MiB: " + ", ".join(str(size) for size in SIZES))
        for name, make in SHAPES:
            times = []
            for size in SIZES:
                path = os.path.join(folder, "script.smt2")
                with open(path, "w", encoding="ascii") as file:
                    file.write(make(size * MEBIBYTE))
                times.append(seconds_of(command, path))
            memory = resource.getrusage(resource.RUSAGE_CHILDREN).ru_maxrss // 1024
            print(f"{name}: {', '.join(times)} s; at most {memory} MiB of memory", flush=True)
    finally:
        shutil.rmtree(folder)


if __name__ == "__main__":
    main()
