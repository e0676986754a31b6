#!/usr/bin/env python3
"""Holds the host programs, and the two functions under them, to the independent reader and writer of images.

    python3 tests/hosts.py [--images COUNT] [--seed SEED]

Builds the static library, the host programs in C and in Rust, and a program that prints both answers, the C ones once more with
the compiler's watch over memory where it has one. Each host scrubs true and drifted images and one of each refusal, and its
exit status, its words and the file it leaves are compared. Then all run on random images of every kind, whole and damaged; on
some of them under valgrind, where that is at hand. The same seed gives the same images. The status is 1 where anything differed.
"""

import argparse
import os
import random
import shutil
import subprocess
import sys
import tempfile

from image import check_of, host_check, host_scrub, image_of, level_blocks
from reference import Field, Page

ROOT = os.path.dirname(os.path.dirname(os.path.abspath(__file__)))
CRATE = os.path.join(ROOT, "crates", "host")
ARCHIVE = os.path.join(CRATE, "out", "libhost.a")
AT_ONCE = 50  # how many files a program is given at once

HEADER_PARTS = ["kind", "columns", "check columns", "rows", "heights", "drift bound"]
REASONS = {
    21: lambda first, second: f"the cell at row {first} and column {second} reads no level",
    22: lambda first, second: f"no code row is close enough to row {first}",
    23: lambda first, second: f"the cell at row {first} and column {second} has risen by more than the drift bound",
    24: lambda first, second: f"the cell at row {first} and column {second} has drifted by more than it reads",
    31: lambda first, second: "the size is no multiple of 512 bytes, below 1024 or above 17408",
    32: lambda first, second: f"the check of block {first} is wrong",
    33: lambda first, second: f"byte {second}, of the first word or the edition, is wrong",
    34: lambda first, second: f"block 0 names no page, by its {HEADER_PARTS[first - 1]}",
    35: lambda first, second: "more columns are marked than the page has checks"
    if second == 14
    else f"the marked column at byte {second} is no column, or not above the one before",
    36: lambda first, second: f"the page takes {first} blocks, and the image has another number",
    37: lambda first, second: f"filler is not 0, in block {first} at byte {second}",
}


def run(words, **more):
    return subprocess.run(words, stdout=subprocess.PIPE, stderr=subprocess.STDOUT, **more)


def built(words, **more):
    """Runs a build, and stops where it fails."""
    ran = run(words, **more)
    if ran.returncode != 0:
        sys.stdout.write(ran.stdout.decode(errors="replace"))
        sys.exit(f"hosts: {' '.join(words)} failed")


# Programs


def build(folder):
    """The host programs, and the programs that print answers, each by a name."""
    built(["rt", "lib"], cwd=CRATE)
    plain = ["cc", "-std=c99", "-D_POSIX_C_SOURCE=200809L", "-Wall", "-Wextra", "-pedantic", "-O2"]
    watched = [*plain, "-g", "-fsanitize=address,undefined", "-fno-sanitize-recover=all"]
    hosts, answerers = {}, {}
    for name, compiler in [("C", plain), ("C, watched", watched)]:
        for programs, source in [(hosts, "hosts/c/main.c"), (answerers, "tests/answers.c")]:
            program = os.path.join(folder, f"{os.path.dirname(source).replace('/', '_')} {name}")
            words = [*compiler, "-I", os.path.join(ROOT, "include"), "-o", program, os.path.join(ROOT, source), ARCHIVE, "-pthread"]
            if compiler is watched and run(words).returncode != 0:
                print(f"hosts: no {name} program, since the compiler cannot watch over memory")
                continue
            built(words)
            programs[name] = program
    rust = os.path.join(folder, "hosts_rust")
    source = os.path.join(ROOT, "hosts", "rust", "main.rs")
    built(["rustc", "--edition", "2021", "-O", "-L", f"native={os.path.dirname(ARCHIVE)}", "-l", "static=host", "-o", rust, source])
    hosts["Rust"] = rust
    return hosts, answerers


# Images


def sealed(data):
    """The bytes with the check of each block made anew."""
    blocks = [data[at : at + 512] for at in range(0, len(data) // 512 * 512, 512)]
    made = b"".join(block[:508] + check_of(place, block).to_bytes(4, "little") for place, block in enumerate(blocks))
    return made + data[len(made) :]


def changed(data, places):
    data = bytearray(data)
    for place, byte in places.items():
        data[place] = byte
    return bytes(data)


def sample(*marked, drift=16, rows=1):
    page = Page(1, 4, 2, rows, 15, drift)
    page.marked = list(marked)
    return page


def named_images():
    """True and drifted images, and one of each refusal, each with the number that is to be refused."""
    true = image_of(sample(), [44, 5, 239, 51])
    yield 0, true
    yield 0, image_of(sample(), [44, 5, 254, 51])
    yield 0, image_of(sample(0, 3), [999, 5, 239, 7])
    yield 0, image_of(sample(rows=2), [44, 5, 254, 51, 1, 2, 0, 1])
    yield 21, image_of(sample(), [44, 5, 255, 51])
    yield 22, image_of(sample(), [45, 6, 239, 51])
    yield 23, image_of(sample(drift=15), [44, 21, 239, 51])
    yield 24, image_of(sample(rows=2), [44, 5, 239, 51, 44, 4, 239, 51])
    yield 31, b""
    yield 31, true[:-1]
    yield 31, true[:512]
    yield 31, true * 17 + true[:512]
    yield 32, changed(true, {1020: 0})
    yield 33, sealed(changed(true, {3: 0}))
    yield 33, sealed(changed(true, {4: 2}))
    for place, byte in [(5, 8), (6, 17), (8, 4), (9, 33), (10, 241), (12, 17)]:
        yield 34, sealed(changed(true, {place: byte}))
    yield 35, sealed(changed(true, {14: 3}))
    yield 35, sealed(changed(true, {14: 2, 16: 3, 18: 1}))
    yield 36, sealed(true + bytes(512))
    yield 37, sealed(changed(true, {520: 1}))


def large_images(rng):
    """The largest images, with as many cells drifted as each row allows, and by how many levels in all."""
    for checks, marks in [(2, 0), (64, 9)]:
        page = Page(4, 256, checks, 32, 15, 256)
        page.marked = sorted(rng.sample(range(256), marks))
        cells = [0] * page.size()
        page.write(cells, [rng.randrange(257) for _ in range(32 * page.k)], [rng.randrange(14) for _ in cells])
        readings, risen = list(cells), 0
        for row in range(32):
            for column in rng.sample(page.unmarked(), (checks - marks) // 2):
                rise = rng.randint(1, 256)
                readings[row * 256 + column] += rise
                risen += rise
            for column in page.marked:
                readings[row * 256 + column] = rng.randrange(65536)
                cells[row * 256 + column] %= page.order
        yield image_of(page, readings), risen, image_of(page, cells)


def random_page(rng, kind):
    order = Field.KINDS[kind][0]
    columns = rng.choice([2, rng.randint(2, min(order - 1, 12)), rng.randint(2, min(order - 1, 24))])
    checks = rng.choice([1, columns - 1, rng.randint(1, columns - 1)])
    rows = rng.choice([1, 2, rng.randint(1, 8), 32])
    page = Page(kind, columns, checks, rows, rng.randint(2, min(256, 4096 // order)), rng.choice([order - 1, rng.randint(1, order - 1)]))
    page.marked = sorted(rng.sample(range(columns), rng.choice([0, 0, rng.randint(0, checks)])))
    return page


def random_readings(rng, page):
    """Cells that were written, and have risen here and there: within reach, at its edge, or somewhat beyond."""
    cells = [0] * page.size()
    page.write(cells, [rng.randrange(page.order) for _ in range(page.rows * page.k)], [rng.randrange(page.heights) for _ in cells])
    most = max(page.r - len(page.marked), 0) // 2
    beyond = rng.random() < 0.25
    for row in range(page.rows):
        errors = most + 1 if beyond and rng.random() < 0.3 else rng.choice([0, most, rng.randint(0, most)])
        for column in rng.sample(range(page.n), min(errors, page.n)):
            rise = rng.randint(1, page.drift if rng.random() < 0.97 else page.order - 1)
            at = row * page.n + column
            cells[at] = min(cells[at] + rise, page.levels - 1 if rng.random() < 0.97 else page.levels)
        for column in page.marked:
            cells[row * page.n + column] = rng.randrange(65536)
    return cells


def damaged(rng, page, data):
    """The bytes, damaged in one of many ways."""
    way = rng.randrange(10)
    place = rng.randrange(len(data))
    if way == 0:
        return changed(data, {place: rng.randrange(256)})
    if way == 1:
        return sealed(changed(data, {place: rng.randrange(256)}))
    if way == 2:
        return sealed(changed(data, {rng.randrange(32): rng.randrange(256)}))
    if way == 3:
        return sealed(changed(data, {rng.randrange(16): rng.choice([0, 1, 255, data[rng.randrange(16)]]) for _ in range(2)}))
    if way == 4:
        marks = {16 + 2 * i: rng.randrange(page.n + 1) for i in range(4)}
        return sealed(changed(data, {14: rng.randint(1, page.r + 1), **marks}))
    if way == 5:
        return data[: rng.choice([0, 512, place, len(data) - 1])]
    if way == 6:
        return sealed(data + bytes(512 * rng.randint(1, 34)))
    if way == 7:
        return sealed(data[: 512 * rng.randint(2, max(2, len(data) // 512))])
    if way == 8:
        used = 512 * level_blocks(page.size()) + 2 * ((page.size() - 1) % 254 + 1)
        return sealed(changed(data, {rng.choice([15, rng.randrange(16, 508), min(used + rng.randint(0, 3), len(data) - 5)]): rng.randrange(256)}))
    return bytes(rng.randrange(256) for _ in range(rng.choice([1024, 1536, rng.randrange(2000)])))


def random_images(rng, count):
    for at in range(count):
        page = random_page(rng, 1 + at % 7)
        data = image_of(page, random_readings(rng, page))
        yield damaged(rng, page, data) if rng.random() < 0.5 else data


# What is wanted


def line_of(path, answer):
    """What a host says."""
    if answer < 2**32:
        return f"{path}: scrubbed: {answer} levels had risen, and the image is written back"
    number, first, second = answer >> 32, answer >> 16 & 0xFFFF, answer & 0xFFFF
    return f"{path}: refused {number} {first} {second}: {REASONS[number](first, second)}"


class Comparison:
    """Runs programs on copies of images, and counts what was compared and what differed."""

    def __init__(self, folder):
        self.folder, self.compared, self.differed = folder, 0, 0

    def differs(self, what, wanted, got):
        self.differed += 1
        if self.differed <= 5:
            print(f"hosts: {what}\n  wanted {wanted}\n  got    {got}")

    def run(self, name, words, images, wanted_line):
        """Runs a program on some images at once. Each is its bytes, what is answered, and what is left."""
        paths = [os.path.join(self.folder, f"{place}.image") for place in range(len(images))]
        for path, (data, _, _) in zip(paths, images):
            with open(path, "wb") as file:
                file.write(data)
        ran = run([*words, *paths])
        lines = [wanted_line(path, check, scrub) for path, (_, (check, scrub), _) in zip(paths, images)]
        got = ran.stdout.decode(errors="replace").splitlines()
        self.compared += len(images)
        if got != lines:
            first = next((i for i, pair in enumerate(zip(lines, got)) if pair[0] != pair[1]), min(len(lines), len(got)))
            self.differs(f"{name}, image {first}", lines[first : first + 1], got[first : first + 3])
        for path, (_, _, left) in zip(paths, images):
            with open(path, "rb") as file:
                data = file.read()
            if data != left:
                self.differs(f"{name}, the bytes of {path}", f"{len(left)} bytes", f"{len(data)} bytes, not the same")
            os.remove(path)
        return ran.returncode

    def host(self, name, words, images):
        """A host's status is 0 where every image was scrubbed."""
        status = self.run(name, words, images, lambda path, check, scrub: line_of(path, scrub))
        wanted = int(any(scrub >= 2**32 for _, (_, scrub), _ in images))
        if status != wanted:
            self.differs(f"{name}, the status", wanted, status)

    def answers(self, name, words, images):
        status = self.run(name, words, images, lambda path, check, scrub: f"{path} {check} {scrub}")
        if status != 0:
            self.differs(f"{name}, the status", 0, status)


def expected(data):
    scrub, left = host_scrub(data)
    return data, (host_check(data), scrub), left


def missing_file(comparison, hosts):
    """A path of no file is said to be unreadable, with status 1."""
    path = os.path.join(comparison.folder, "missing")
    for name, program in hosts.items():
        ran = run([program, path])
        comparison.compared += 1
        if (ran.returncode, ran.stdout.decode()) != (1, f"{path}: cannot be read\n"):
            comparison.differs(f"{name}, a missing file", 1, ran.returncode)


def main():
    parser = argparse.ArgumentParser()
    parser.add_argument("--images", type=int, default=600)
    parser.add_argument("--seed", default="1")
    arguments = parser.parse_args()
    rng = random.Random(arguments.seed)
    with tempfile.TemporaryDirectory() as folder:
        hosts, answerers = build(folder)
        comparison = Comparison(folder)
        missing_file(comparison, hosts)
        for number, data in named_images():
            image = expected(data)
            assert image[1][1] >> 32 == number
            for name, program in hosts.items():
                comparison.host(name, [program], [image])
        images = [(data, (0, risen), left) for data, risen, left in large_images(rng)]
        images += [expected(data) for _, data in named_images()]
        images += [expected(data) for data in random_images(rng, arguments.images)]
        for first in range(0, len(images), AT_ONCE):
            some = images[first : first + AT_ONCE]
            for name, program in hosts.items():
                comparison.host(name, [program], some)
            for name, program in answerers.items():
                comparison.answers(f"answers, {name}", [program], some)
        if shutil.which("valgrind"):
            words = ["valgrind", "-q", "--error-exitcode=9", "--leak-check=full", answerers["C"]]
            comparison.answers("answers, under valgrind", words, images[:AT_ONCE])
        else:
            print("hosts: no valgrind here")
    numbers = sorted({scrub >> 32 for _, (_, scrub), _ in images})
    print(f"{len(images)} images, with refusals {numbers[1:]}; {comparison.compared} runs compared, {comparison.differed} differed")
    sys.exit(int(comparison.differed > 0))


if __name__ == "__main__":
    main()
