#!/usr/bin/env python3
"""Holds the program's images to the independent reader and writer, byte for byte.

    python3 tests/images.py PROGRAM [--images COUNT] [--seed SEED]

Pages of all kinds, of every size, marked and not, are saved, shown and opened again, and the host's functions look at them
and scrub them. Then images are damaged: every single byte of some is changed; every byte of some headers is changed and the
check set right again; blocks are dropped, added and changed places. Every answer is compared with the independent
program's. The same seed gives the same images. Prints how many were compared; the status is 1 where any differed.
"""

import argparse
import collections
import concurrent.futures
import os
import random
import sys

from compare import differs
from image import BLOCK, CHECKED, check_of, image_of
from reference import Field, Page


def random_page(rng, kind, small=False):
    """A page of a kind, with a marking; n, r, R, H and D anywhere in their ranges."""
    order = Field.KINDS[kind][0]
    widest = min(order - 1, 256)
    columns = rng.randint(2, min(widest, 12)) if small else rng.choice([2, widest, rng.randint(2, widest), rng.randint(2, min(widest, 30))])
    checks = rng.randint(1, min(columns - 1, 64))
    rows = rng.randint(1, 3) if small else rng.choice([1, 32, rng.randint(1, 32), rng.randint(1, 4)])
    heights = rng.choice([1, min(256, 4096 // order), rng.randint(1, min(256, 4096 // order))])
    page = Page(kind, columns, checks, rows, heights, rng.randint(1, order - 1))
    page.marked = sorted(rng.sample(range(columns), rng.choice([0, checks, rng.randint(0, checks)])))
    return page


def order_line(kind, page):
    return " ".join(map(str, ["order", kind, page.n, page.r, page.rows, page.heights, page.drift]))


def cells_line(cells):
    return " ".join(map(str, ["cells", *cells]))


def saved(rng, kind):
    """The lines by which a page is saved, shown, opened again, and looked at by a host."""
    page = random_page(rng, kind)
    yield order_line(kind, page)
    for column in page.marked:
        yield f"mark {column}"
    yield cells_line(rng.choice([[rng.randrange(65536) for _ in range(page.size())], [rng.randrange(page.levels) for _ in range(page.size())]]))
    yield from ["save", "image", "hostcheck", "order 1 4 2 1 15 16", "open", "cells", "save", "image"]


def drifted(rng, kind):
    """The lines by which a host scrubs the image of a page that was written, and has drifted."""
    page = random_page(rng, kind, small=True)
    cells = [0] * page.size()
    page.write(cells, [rng.randrange(page.order) for _ in range(page.rows * page.k)], [rng.randrange(page.heights) for _ in cells])
    for row in range(page.rows):
        for column in rng.sample(range(page.n), min(page.n, (page.r - len(page.marked)) // 2 + rng.choice([0, 0, 0, 1]))):
            at = row * page.n + column
            moved = rng.choice([rng.randint(1, page.drift)] * 4 + [page.drift + 1, page.levels, -rng.randint(1, page.order)])
            cells[at] = max(0, cells[at] + moved)
        for column in page.marked:
            cells[row * page.n + column] = rng.randrange(65536)
    yield "image " + image_of(page, cells).hex()
    yield from ["hostcheck", "hostscrub", "image", "hostscrub", "open", "cells", "read"]


def every_byte(rng, kind):
    """Each byte of an image changed, and set back."""
    page = random_page(rng, kind, small=True)
    data = image_of(page, [rng.randrange(65536) for _ in range(page.size())])
    yield "image " + data.hex()
    for at, byte in enumerate(data):
        yield f"poke {at} {byte ^ rng.choice([1, 128, rng.randint(1, 255)])}"
        yield "hostcheck"
        yield f"poke {at} {byte}"
    yield "hostcheck"


def with_checks(data):
    """The same bytes with every check set right."""
    blocks = [data[at : at + BLOCK] for at in range(0, len(data), BLOCK)]
    return b"".join(block[:CHECKED] + check_of(place, block).to_bytes(4, "little") for place, block in enumerate(blocks))


def looked_at(data):
    yield "image " + bytes(data).hex()
    yield from ["open", "cells", "hostscrub", "image"]


def every_header(rng, kind):
    """Each byte before the check of block 0, and some of the last block, changed with the check set right again."""
    page = random_page(rng, kind, small=True)
    data = bytearray(image_of(page, [rng.randrange(page.levels) for _ in range(page.size())]))
    last = len(data) - BLOCK
    yield "order 1 4 2 1 15 16"
    for at in [*range(48), *rng.sample(range(48, CHECKED), 20), *range(last, last + CHECKED, 9)]:
        for byte in [data[at] ^ 1, rng.choice([0, 1, 255, data[at] + 1 & 255, data[at] - 1 & 255])]:
            changed = bytearray(data)
            changed[at] = byte
            yield from looked_at(with_checks(changed))


def moved_blocks(rng, kind):
    """Blocks dropped, added, and in the place of others, with the checks as they were or set right again."""
    page = random_page(rng, kind)
    data = image_of(page, [rng.randrange(65536) for _ in range(page.size())])
    blocks = [data[at : at + BLOCK] for at in range(0, len(data), BLOCK)]
    for changed in [blocks[:-1], blocks + [bytes(BLOCK)], blocks + blocks[-1:], blocks[1:] + blocks[:1], blocks[:1] * 2, [blocks[0]] + [bytes(BLOCK)] * 34]:
        joined = b"".join(changed)
        yield from looked_at(joined)
        yield from looked_at(with_checks(joined))
    for cut in [0, 1, 511, 513, 1023, 1025]:
        yield from looked_at((data + bytes(1025))[:cut] or b"\0")


def scripts(seed, images):
    """Named scripts, of which each has some images."""
    for part in range(images // 70):
        rng = random.Random(f"{seed} saved {part}")
        lines = [line for kind in Field.KINDS for _ in range(10) for line in rng.choice([saved, drifted])(rng, kind)]
        yield f"{part}: 70 pages saved, or drifted and scrubbed", lines
    for kind in Field.KINDS:
        for way in [every_byte, every_header, moved_blocks]:
            yield f"kind {kind}, {way.__name__.replace('_', ' ')}", list(way(random.Random(f"{seed} {way.__name__} {kind}"), kind))


def main():
    parser = argparse.ArgumentParser(description="Holds the program's images to the independent reader and writer.")
    parser.add_argument("program")
    parser.add_argument("--images", type=int, default=7000, help="pages that are saved, or drifted and scrubbed")
    parser.add_argument("--seed", type=int, default=1)
    options = parser.parse_args()
    told = [(name, lines, "".join(line + "\n" for line in lines).encode()) for name, lines in scripts(options.seed, options.images)]
    with concurrent.futures.ThreadPoolExecutor(os.cpu_count()) as pool:
        found = list(pool.map(lambda named: differs(options.program, named[0], named[2]), told))
    words = collections.Counter(line.split()[0] for _, lines, _ in told for line in lines)
    print(", ".join(f"{words[word]} times {word}" for word in ["save", "open", "hostcheck", "hostscrub"]) + ", in all")
    sys.exit(any(found))


if __name__ == "__main__":
    main()
