#!/usr/bin/env python3
"""Holds the program's decoding of single rows to independent decoders, in all seven kinds, with and without marked columns.

    python3 tests/rows.py PROGRAM [--rows COUNT] [--seed SEED]

Rows are clean, damaged within reach, at its edge, beyond it, or random, and so are marked columns few, all that may be
marked, or none. Rows of the binary kinds are compared with `decoder.c`, and with libfec (`libfec.c`) where its header is
there or can be installed; rows of the prime kinds with `reference.py`, which solves linear equations. A row in reach has
to come back as it was written, besides. The same seed gives the same rows. Prints how many were compared; the status is 1
where any differed.

Readings stand above all drifts, so that a row is lost, or decoded: whatever its symbols are, no drift is too large.
"""

import argparse
import os
import random
import subprocess
import sys
import tempfile

from reference import Field, Page, Refused

HERE = os.path.dirname(os.path.abspath(__file__))
WAYS = ["clean", "within", "edge", "beyond", "random"]
BINARY = [5, 6, 7]


class Row:
    """A row of symbols to be decoded, and the code row that it came from where it is in reach of it."""

    def __init__(self, rng, kind):
        self.kind, self.order = kind, Field.KINDS[kind][0]
        widest = min(self.order - 1, 256)
        self.n = rng.choice([2, 3, min(widest, 64), rng.randint(2, min(widest, 24)), rng.randint(2, min(widest, 24))])
        if kind in BINARY and rng.random() < 0.3:
            self.n = rng.choice([widest, rng.randint(2, widest)])
        most = min(self.n - 1, 64)
        self.r = rng.choice([1, most, rng.randint(1, most), rng.randint(1, most)])
        self.page = Page(kind, self.n, self.r, 1, 2, self.order - 1)
        marks = rng.choice([0, 0, rng.randint(0, self.r), self.r])
        self.page.marked = sorted(rng.sample(range(self.n), marks))
        self.damage(rng)

    def damage(self, rng):
        cells = [0] * self.n
        self.page.write(cells, [rng.randrange(self.order) for _ in range(self.page.k)], [0] * self.n)
        self.way = rng.choice(WAYS)
        unmarked = [column for column in range(self.n) if column not in self.page.marked]
        most = (self.r - len(self.page.marked)) // 2
        errors = {"clean": 0, "within": rng.randint(0, most), "edge": most, "beyond": most + 1, "random": self.n}[self.way]
        self.written, self.symbols = cells, list(cells)
        for column in rng.sample(unmarked, min(errors, len(unmarked))):
            self.symbols[column] = (cells[column] + rng.randint(1, self.order - 1)) % self.order
        for column in self.page.marked:
            self.symbols[column] = rng.randrange(self.order)

    def script(self):
        """The lines that have the program decode it: a height above the symbols leaves room for any drift below them."""
        yield "order " + " ".join(map(str, [self.kind, self.n, self.r, 1, 2, self.order - 1]))
        for column in self.page.marked:
            yield f"mark {column}"
        yield "cells " + " ".join(str(self.order + symbol) for symbol in self.symbols)
        yield "scrub"
        yield "cells"

    def decoded(self, answers):
        """The symbols that the program's last two answers tell, or `none`."""
        if answers[-2] == "refused 22 0 0":
            return "none"
        assert answers[-2].startswith("ok "), answers
        return " ".join(str(int(level) % self.order) for level in answers[-1].split()[1:])

    def line(self):
        """The row as decoder.c and libfec.c take it."""
        return " ".join(map(str, [self.kind, self.n, self.r, len(self.page.marked), *self.page.marked, *self.symbols]))

    def solved(self):
        """The code row that linear equations give."""
        cells = [self.order + symbol for symbol in self.symbols]
        try:
            self.page.scrub(cells)
        except Refused:
            return "none"
        return " ".join(str(level % self.order) for level in cells)

    def expects(self, told):
        return self.way not in ("clean", "within", "edge") or told == " ".join(map(str, self.written))


def run(command, text):
    return subprocess.run(command, input=text.encode(), stdout=subprocess.PIPE, check=True).stdout.decode().split("\n")


def program_answers(program, rows):
    """What the program decodes each row to."""
    scripts = [list(row.script()) for row in rows]
    lines = iter(run([program], "".join(line + "\n" for script in scripts for line in script)))
    return [row.decoded([next(lines) for _ in script]) for row, script in zip(rows, scripts)]


def compiled(folder, name, *libraries):
    """A program of this folder, built by the C compiler; None where it cannot be built."""
    built = os.path.join(folder, name)
    command = [os.environ.get("CC", "cc"), "-O2", "-o", built, os.path.join(HERE, name + ".c"), *libraries]
    return built if subprocess.run(command, stderr=subprocess.DEVNULL).returncode == 0 else None


def libfec(folder):
    """The same with libfec, which is installed where that can be done."""
    built = compiled(folder, "libfec", "-lfec", "-lm")
    if built is None:
        subprocess.run(["apt-get", "install", "-y", "libfec-dev"], stdout=subprocess.DEVNULL, stderr=subprocess.DEVNULL)
        built = compiled(folder, "libfec", "-lfec", "-lm")
    return built


def deciders(folder):
    """By each kind, the names and functions that say what rows decode to."""
    decoder = compiled(folder, "decoder")
    if decoder is None:
        sys.exit("decoder.c: not compiled")
    found = {"decoder.c": decoder, "libfec": libfec(folder)}
    by_program = {
        name: lambda rows, built=built: run([built], "".join(row.line() + "\n" for row in rows))
        for name, built in found.items()
        if built is not None
    }
    by_solving = {"linear equations": lambda rows: [row.solved() for row in rows]}
    return {kind: by_program if kind in BINARY else by_solving for kind in Field.KINDS}


def differs(program, deciding, kind, count, seed):
    """Whether any row of a kind is decoded otherwise; shows the first."""
    rng = random.Random(f"{seed} {kind}")
    rows = [Row(rng, kind) for _ in range(count)]
    told = program_answers(program, rows)
    for name, decide in deciding.items():
        for row, ours, theirs in zip(rows, told, decide(rows)):
            if ours != theirs or not row.expects(ours):
                print(f"kind {kind}, {row.way}: differs from {name}\n  row:      {row.line()}\n  expected: {theirs}\n  program:  {ours}")
                return True
    marked = sum(bool(row.page.marked) for row in rows)
    print(f"kind {kind}: {count} rows compared with {' and '.join(deciding)}, {marked} with marks, {told.count('none')} lost")
    return False


def main():
    parser = argparse.ArgumentParser(description="Holds the program's decoding of rows to independent decoders.")
    parser.add_argument("program")
    parser.add_argument("--rows", type=int, default=1000, help="rows of each kind")
    parser.add_argument("--seed", type=int, default=1)
    options = parser.parse_args()
    with tempfile.TemporaryDirectory() as folder:
        deciding = deciders(folder)
        found = [differs(options.program, deciding[kind], kind, options.rows, options.seed) for kind in Field.KINDS]
    print(f"{options.rows * len(found)} rows in all")
    sys.exit(any(found))


if __name__ == "__main__":
    main()
