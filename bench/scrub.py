#!/usr/bin/env python3
"""Says how fast whole images are scrubbed, and rows of them, by the static library.

    python3 bench/scrub.py

Pages of 32 rows in every kind, with as many columns and checks as below, clean and with as many risen cells a row as can be
put right, and half as many. A scrub opens the image, decodes every row, and saves the image again. libfec's time for a row
stands beside it where its header is there. Times are the best of some rounds, on this machine and in this run alone.
"""

import os
import random
import subprocess
import sys
import tempfile

ROOT = os.path.dirname(os.path.dirname(os.path.abspath(__file__)))
sys.path.insert(0, os.path.join(ROOT, "tests"))

from image import image_of  # noqa: E402
from reference import Field, Page  # noqa: E402

ROWS = 32


def drifted_image(kind, errors_of):
    """The image of a page where in each row this many cells have risen; and its columns, checks and risen cells."""
    rng = random.Random(kind)
    order = Field.KINDS[kind][0]
    columns = min(order - 1, 255)
    checks = min(32, columns // 2)
    page = Page(kind, columns, checks, ROWS, min(8, 4096 // order), order - 1)
    cells = [0] * page.size()
    page.write(cells, [rng.randrange(order) for _ in range(ROWS * page.k)], [rng.randrange(page.heights - 1) for _ in cells])
    errors = errors_of(checks)
    for row in range(ROWS):
        for column in rng.sample(range(columns), errors):
            cells[row * columns + column] += rng.randint(1, order - 1)
    return image_of(page, cells), columns, checks, errors


def built(folder):
    """The program that takes the times."""
    subprocess.run(["rt", "lib"], cwd=os.path.join(ROOT, "crates", "host"), stdout=subprocess.DEVNULL, check=True)
    program = os.path.join(folder, "scrub")
    words = ["cc", "-std=c99", "-O3", "-I", os.path.join(ROOT, "include"), "-o", program, os.path.join(ROOT, "bench", "scrub.c")]
    library = os.path.join(ROOT, "crates", "host", "out", "libhost.a")
    with_libfec = [*words, "-DWITH_LIBFEC", library, "-lfec", "-lm"]
    if subprocess.run(with_libfec, stderr=subprocess.DEVNULL).returncode != 0:
        subprocess.run([*words, library], check=True)
    return program


def main():
    with tempfile.TemporaryDirectory() as folder:
        program = built(folder)
        names = {}
        for kind in Field.KINDS:
            for part in [lambda checks: 0, lambda checks: checks // 4, lambda checks: checks // 2]:
                data, columns, checks, errors = drifted_image(kind, part)
                path = os.path.join(folder, f"{kind}-{errors}.image")
                names[path] = f"kind {kind}, {columns} columns, {checks} checks, {errors} risen"
                with open(path, "wb") as image:
                    image.write(data)
        for line in subprocess.run([program, *names], stdout=subprocess.PIPE, check=True).stdout.decode().splitlines():
            *name, time = line.split()
            if name[0] == "libfec":
                print(f"libfec, kind 7, 255 columns, 32 checks, {name[1]} errors: {time} us a row")
            else:
                print(f"{names[name[0]]}: {float(time) / ROWS:.2f} us a row, {float(time):.0f} us a scrub")


if __name__ == "__main__":
    main()
