#!/usr/bin/env python3
"""Compares what `mbqi print` and `mbqi solve` say of random scripts with what z3 says. Outside the gate; it proves nothing.

usage: tools/against_z3.py PROGRAM [COUNT [SEED]]

PROGRAM is the built program, COUNT how many scripts, SEED where the random numbers begin. For each script that `print` takes:
- z3 takes it too;
- z3 finds no point at which an assertion and the printed one differ (where z3 gives up, nothing is said);
- `print` of the printed text is the same text.
For each script that z3 refuses, `print` refuses it. For each script that `solve` answers, z3 doesn't answer the opposite.
A difference is printed with its script, and the status is then 1.

What it found, with z3 4.8.12: no difference in 1,500 scripts (300 of seed 1, 1,200 of seed 2). Of the 1,000 for `print`, 925 were printed, each
assertion as one that z3 proves equal, and 75 were refused. Of the 500 for `solve`, 328 were answered sat and 172 unsat, and z3 never answered the
opposite.
"""

import random
import subprocess
import sys
import tempfile

INT, BOOL = "Int", "Bool"
SORTS = ["S", "T"]
ARRAYS = ["(Array Int Int)", "(Array S Int)", "(Array Int S)", "(Array S Bool)"]
ALL = [INT, BOOL, *SORTS, *ARRAYS]


def parts_of(array):
    return array[1:-1].split(" ")[1:]


class Maker:
    """Makes scripts of declarations, macros and assertions, most of them well sorted."""

    def __init__(self, rng, wrong):
        self.rng, self.wrong = rng, wrong
        self.functions, self.macros = [], []
        self.fresh = 0

    def name(self, letter):
        self.fresh += 1
        return f"{letter}{self.fresh}"

    def pick(self, *choices):
        return self.rng.choice(choices)

    def sort_of(self, sort):
        """The sort, or seldom another, so that some scripts are refused."""
        return self.pick(*ALL) if self.rng.random() < self.wrong else sort

    def named(self, sort, scope, depth):
        """A name of the sort, with arguments where it has some."""
        found = [n for n, s in scope if s == sort]
        found += [n for n, args, s in self.functions if s == sort and not args]
        calls = [(n, args) for n, args, s in self.functions + self.macros if s == sort and args]
        if calls and depth > 0 and self.rng.random() < 0.5:
            name, args = self.rng.choice(calls)
            return f"({name} {' '.join(self.term(s, scope, depth - 1) for s in args)})"
        return self.rng.choice(found) if found else None

    def term(self, sort, scope, depth):
        sort = self.sort_of(sort)
        if sort == BOOL:
            return self.formula(scope, depth, False)
        one = self.named(sort, scope, depth)
        if depth <= 0 or self.rng.random() < 0.4:
            if one:
                return one
            if sort == INT:
                return str(self.rng.randrange(4))
        if sort == INT:
            made = self.integer(scope, depth)
        elif sort in SORTS:
            array = next(a for a in ARRAYS if parts_of(a)[1] == sort) if sort == "S" else None
            made = self.read(array, scope, depth) if array and depth > 0 else one
        else:
            made = self.array(sort, scope, depth)
        return made or one or self.let(sort, scope, depth)

    def integer(self, scope, depth):
        t = lambda: self.term(INT, scope, depth - 1)
        n = str(self.rng.randrange(5))
        kind = self.rng.randrange(5)
        if kind == 0:
            return f"(+ {t()} {n})"
        if kind == 1:
            return f"(- {t()} {n})"
        if kind == 2:
            return f"(- {n})"
        if kind == 3:
            return self.read("(Array Int Int)", scope, depth)
        return f"(+ {n} {t()} 1)"

    def read(self, array, scope, depth):
        index = parts_of(array)[0]
        return f"(select {self.term(array, scope, depth - 1)} {self.term(index, scope, depth - 1)})"

    def array(self, sort, scope, depth):
        index, element = parts_of(sort)
        if depth <= 0:
            return None
        value = self.truth() if element == BOOL else self.term(element, [], depth - 1)
        kind = self.rng.randrange(3)
        if kind == 0:
            return f"((as const {sort}) {value})"
        if kind == 1 and element == BOOL:
            return f"((_ map {self.pick('and', 'or')}) {self.term(sort, [], depth - 1)} {self.term(sort, [], depth - 1)})"
        return f"(store {self.term(sort, [], depth - 1)} {self.term(index, [], depth - 1)} {value})"

    def truth(self):
        return self.pick("true", "false")

    def let(self, sort, scope, depth):
        if depth <= 0:
            return "true" if sort == BOOL else "0"
        sorts = [self.pick(INT, BOOL, *SORTS) for _ in range(self.rng.randrange(1, 3))]
        names = [self.pick("x", "y", self.name("v")) for _ in sorts]
        if len({*names}) < len(names):
            names = [self.name("v") for _ in sorts]
        bound = " ".join(f"({n} {self.term(s, scope, depth - 1)})" for n, s in zip(names, sorts))
        body = self.term(sort, [*zip(names, sorts), *[it for it in scope if it[0] not in names]], depth - 1)
        return f"(let ({bound}) {body})"

    def formula(self, scope, depth, may_bind):
        f = lambda: self.formula(scope, depth - 1, may_bind)
        g = lambda: self.formula(scope, depth - 1, False)
        if depth <= 0:
            return self.named(BOOL, scope, 0) or self.truth()
        kind = self.rng.randrange(16)
        some = range(self.rng.randrange(1, 4))
        if kind == 0:
            return f"(not {f()})"
        if kind in (1, 2):
            return f"({self.pick('and', 'or')} {' '.join(f() for _ in some)})"
        if kind == 3:
            return f"(=> {f()} {' '.join(f() for _ in some)})"
        if kind == 4:
            return f"(xor {g()} {' '.join(g() for _ in some)})"
        if kind == 5:
            return f"(ite {g()} {f()} {f()})"
        if kind in (6, 7):
            sort = self.pick(INT, BOOL, *SORTS, *ARRAYS)
            args = " ".join(self.term(sort, scope, depth - 1) for _ in range(self.rng.randrange(2, 4)))
            return f"({self.pick('=', 'distinct')} {args})"
        if kind in (8, 9):
            args = " ".join(self.term(INT, scope, depth - 1) for _ in range(self.rng.randrange(2, 4)))
            return f"({self.pick('<', '<=', '>', '>=')} {args})"
        if kind == 10:
            t = lambda: self.term(INT, scope, depth - 1)
            sides = [f"(- {t()} {t()})", str(self.rng.randrange(4))]
            self.rng.shuffle(sides)
            return f"({self.pick('<', '<=', '>', '>=', '=', 'distinct')} {' '.join(sides)})"
        if kind == 11 and may_bind:
            sorts = [self.pick(INT, *SORTS) for _ in range(self.rng.randrange(1, 3))]
            names = [self.pick("x", self.name("q")) if at == 0 else self.name("q") for at, _ in enumerate(sorts)]
            inner = [*zip(names, sorts), *[it for it in scope if it[0] not in names]]
            binders = " ".join(f"({n} {s})" for n, s in zip(names, sorts))
            return f"({self.pick('forall', 'exists')} ({binders}) {self.formula(inner, depth - 1, True)})"
        if kind == 12:
            return self.let(BOOL, scope, depth)
        if kind == 13:
            return f"(select {self.term('(Array S Bool)', scope, depth - 1)} {self.term('S', scope, depth - 1)})"
        return self.named(BOOL, scope, depth) or self.truth()

    def script(self, binds):
        rng, lines = self.rng, [f"(declare-sort {s} 0)" for s in SORTS]
        for sort in ALL:
            for _ in range(rng.randrange(1, 3)):
                name = self.name("c")
                self.functions.append((name, [], sort))
                lines.append(f"(declare-const {name} {sort})")
        for _ in range(rng.randrange(1, 4)):
            name, sort = self.name("f"), self.pick(INT, BOOL, *SORTS)
            args = [self.pick(INT, *SORTS) for _ in range(rng.randrange(1, 3))]
            self.functions.append((name, args, sort))
            lines.append(f"(declare-fun {name} ({' '.join(args)}) {sort})")
        for _ in range(rng.randrange(3)):
            name, sort = self.name("m"), self.pick(INT, BOOL, *SORTS)
            params = [(self.pick("x", self.name("p")) if at == 0 else self.name("p"), self.pick(INT, BOOL, *SORTS)) for at in range(rng.randrange(1, 3))]
            body = self.formula(params, 2, False) if sort == BOOL else self.term(sort, params, 2)
            lines.append(f"(define-fun {name} ({' '.join(f'({n} {s})' for n, s in params)}) {sort} {body})")
            self.macros.append((name, [s for _, s in params], sort))
        asserted = [self.formula([], rng.randrange(2, 5), binds) for _ in range(rng.randrange(1, 4))]
        return lines, asserted

    def elementary(self):
        """A script that `solve` takes."""
        rng, lines = self.rng, ["(declare-sort S 0)"]
        constants = [self.name("c") for _ in range(rng.randrange(1, 4))]
        lines += [f"(declare-const {c} S)" for c in constants]
        predicates = [(self.name("p"), rng.randrange(1, 3)) for _ in range(rng.randrange(1, 4))]
        lines += [f"(declare-fun {p} ({' '.join(['S'] * n)}) Bool)" for p, n in predicates]
        asserted = []
        for _ in range(rng.randrange(2, 9)):
            names = [f"x{at}" for at in range(rng.randrange(3))]
            literals = []
            for _ in range(rng.randrange(1, 4)):
                p, n = rng.choice(predicates)
                atom = f"({p} {' '.join(rng.choice(constants + names) for _ in range(n))})"
                literals.append(rng.choice([atom, f"(not {atom})"]))
            clause = literals[0] if len(literals) == 1 else f"(or {' '.join(literals)})"
            bound = " ".join(f"({n} S)" for n in names)
            asserted.append(f"(forall ({bound}) {clause})" if names else clause)
        return lines, asserted


def run(program, word, text):
    with tempfile.NamedTemporaryFile("w", suffix=".smt2") as file:
        file.write(text)
        file.flush()
        ran = subprocess.run([program, word, file.name], capture_output=True, text=True)
    return ran.returncode, ran.stdout, ran.stderr


def z3(text):
    ran = subprocess.run(["z3", "-T:5", "-in"], input=text, capture_output=True, text=True)
    return ran.stdout


def lines_that(text, word):
    """The bodies of the text's lines `(word body)`."""
    return [it[len(word) + 2 : -1] for it in text.splitlines() if it.startswith(f"({word} ")]


def check_print(program, lines, asserted):
    text = "\n".join([*lines, *(f"(assert {a})" for a in asserted), ""])
    status, printed, told = run(program, "print", text)
    judged = z3(text)
    if status == 3:
        return ("refused", None) if "Unsupported" not in told else ("outside", None)
    if status != 0:
        return "status", f"status {status}: {told}"
    if "error" in judged:
        return "taken", f"z3 refuses what print takes: {judged}"
    again = run(program, "print", printed)
    if again[0] != 0 or again[1] != printed:
        return "again", f"print of the printed text differs: {again}"
    shown = lines_that(printed, "assert")
    if len(shown) != len(asserted):
        return "count", "another number of assertions"
    unknown = 0
    for one, other in zip(asserted, shown):
        said = z3("\n".join([*lines, f"(assert (not (= {one} {other})))", "(check-sat)", ""])).split()
        if said[:1] == ["sat"]:
            return "differs", f"{one}\n{other}"
        if said[:1] != ["unsat"]:
            if any("error" in it for it in said):
                return "error", f"{one}\n{other}\n{' '.join(said)}"
            unknown += 1
    return ("unknown" if unknown else "same"), None


def check_solve(program, lines, asserted):
    text = "\n".join([*lines, *(f"(assert {a})" for a in asserted), "(check-sat)", ""])
    status, out, told = run(program, "solve", text)
    said = z3(text).split()[:1]
    word = {10: "sat", 20: "unsat"}.get(status)
    if word is None:
        return "status", f"status {status}: {told}"
    if said and said[0] in ("sat", "unsat") and said[0] != word:
        return "differs", f"mbqi {word}, z3 {said[0]}"
    return word, None


def main(program, count="300", seed="1"):
    rng, seen, bad = random.Random(int(seed)), {}, 0
    for at in range(int(count)):
        maker = Maker(rng, rng.choice([0, 0, 0.02]))
        if at % 3 == 0:
            kind, (lines, asserted) = "solve", maker.elementary()
            said, why = check_solve(program, lines, asserted)
        else:
            kind, (lines, asserted) = "print", maker.script(rng.random() < 0.4)
            said, why = check_print(program, lines, asserted)
        seen[kind, said] = seen.get((kind, said), 0) + 1
        if why:
            bad += 1
            print(f"--- {kind}, script {at} of seed {seed}: {said}: {why}")
            print("\n".join([*lines, *(f"(assert {a})" for a in asserted)]), flush=True)
    for (kind, said), times in sorted(seen.items()):
        print(f"{kind}: {said} {times}")
    return 1 if bad else 0


if __name__ == "__main__":
    sys.exit(main(*sys.argv[1:]))
