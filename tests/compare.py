#!/usr/bin/env python3
"""Compares a program that runs page scripts with the independent one.

    python3 tests/compare.py PROGRAM SCRIPT...
    python3 tests/compare.py PROGRAM --seeds FIRST LAST --count COUNT

Runs the scripts that are named, or random ones, through both, and shows the first answer that differs in each.
Answers that begin `error: ` count as equal. The status is 1 where anything differed.
"""

import argparse
import concurrent.futures
import itertools
import os
import subprocess
import sys

HERE = os.path.dirname(os.path.abspath(__file__))


def run(command, script):
    return subprocess.run(command, input=script, stdout=subprocess.PIPE, check=True).stdout


def python(name, *words):
    return [sys.executable, os.path.join(HERE, name), *words]


def same(ours, theirs):
    if ours is None or theirs is None:
        return False
    return ours == theirs or (ours.startswith(b"error: ") and theirs.startswith(b"error: "))


def differs(program, name, script):
    """Whether the program answers a script otherwise than the reference; shows where."""
    ours = run(python("bench.py"), script).split(b"\n")
    theirs = run([program], script).split(b"\n")
    for place, (a, b) in enumerate(itertools.zip_longest(ours, theirs), 1):
        if not same(a, b):
            print(f"{name}: answer {place} differs\n  reference: {a!r}\n  program:   {b!r}")
            return True
    print(f"{name}: {len(ours) - 1} answers agree")
    return False


def scripts(options):
    for name in options.scripts:
        with open(name, "rb") as source:
            yield name, source.read()
    if options.seeds:
        first, last = options.seeds
        for seed in range(first, last + 1):
            yield f"seed {seed}", run(python("random_scripts.py", str(seed), str(options.count)), b"")


def main():
    parser = argparse.ArgumentParser(description="Compares a program that runs page scripts with the reference.")
    parser.add_argument("program")
    parser.add_argument("scripts", nargs="*")
    parser.add_argument("--seeds", nargs=2, type=int, metavar=("FIRST", "LAST"))
    parser.add_argument("--count", type=int, default=500)
    options = parser.parse_args()
    with concurrent.futures.ThreadPoolExecutor(os.cpu_count()) as pool:
        found = list(pool.map(lambda named: differs(options.program, *named), scripts(options)))
    sys.exit(any(found))


if __name__ == "__main__":
    main()
