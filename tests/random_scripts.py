#!/usr/bin/env python3
"""Prints a random page script.

    python3 tests/random_scripts.py SEED COUNT

It has COUNT lines, each a command or, now and then, a line that is none; the same seed gives the same script.
Orders go through the seven kinds in turn, with numbers at the edges of what is allowed and just beyond. Most writes have
buffers that fit; some are one too long or too short, or hold a symbol or a height that is too large. Readings are set at
random, or as a page that was written with cells that have drifted: by no more than the page allows and in no more
columns than it corrects, or just beyond; most of these are read in the next line. Columns are marked, cells raised,
jolted and scrubbed, accepted and refused. Pages are saved and opened again, and now and then a byte of an image is
changed, or bytes are given that are no image.
"""

import argparse
import random

from reference import Page

ORDERS = {1: 17, 2: 31, 3: 127, 4: 257, 5: 16, 6: 64, 7: 256}

BAD_LINES = [
    "orders 1 4 2 1 15 16",
    "Order 1 4 2 1 15 16",
    "order",
    "order 1 4 2 1 15",
    "order 1 4 2 1 15 16 0",
    "order 1 4 2 1 15 65536",
    "order 1 4 2 1 15 -1",
    "order 1 4 2 1 15 000016",
    "order one 4 2 1 15 16",
    "order\t1 4 2 1 15 16",
    "cells 1 2 x",
    "cells 1,2",
    "cells 65536",
    "cells 123456",
    "write",
    "write 1 0 2 0 14 3",
    "write 1 0 / 2 0 / 14 3",
    "write 1 0/2 0 14 3",
    "write 1 x / 2 0 14 3",
    "write / / ",
    "read 1",
    "read 1 2 3",
    "read 2 x",
    "read x 4",
    "read 2 65536",
    "read 2 / 4",
    "reads",
    "mark",
    "mark 1 2",
    "mark x",
    "raise 0 1",
    "raise 0 1 2 3",
    "raise 0 x 2",
    "jolt 1 1",
    "jolt 0 0 65536",
    "scrub 0",
    "save 1",
    "image 4",
    "image 4g",
    "image 41 42",
    "poke 0",
    "poke 0 256",
    "poke 0 1 2",
    "poke 65535 1",
    "open 1",
    "hostcheck 1",
    "hostscrub image",
    "/",
    "7",
]

# For want of a page each of these is an error.
UNORDERED = [
    "cells",
    "cells 1",
    "write 1 / 0 0",
    "mark 0",
    "raise 0 0 1",
    "jolt 0 0 1",
    "read",
    "read 2 4",
    "scrub",
    "save",
    "image",
    "poke 0 0",
    "open",
    "hostcheck",
    "hostscrub",
]


class Script:
    def __init__(self, seed):
        self.random = random.Random(seed)
        self.ordered = 0
        self.page = None  # kind, columns, checks, rows, heights, drift
        self.fitting = False  # whether the cells have the page's length
        self.marks = 0
        self.near = False  # whether drifted readings were set and are still to be read

    def chance(self, percent):
        return self.random.randrange(100) < percent

    def pick(self, *choices):
        return self.random.choice(choices)

    # Orders

    def good_order(self):
        kind = 1 + self.ordered % 7
        self.ordered += 1
        order = ORDERS[kind]
        widest = min(order - 1, 256)
        columns = self.random.randint(2, min(widest, 20))
        if self.chance(15):
            columns = self.pick(2, 3, widest, widest - 1)
        most = min(64, columns - 1)
        checks = self.random.randint(1, min(most, 12))
        if self.chance(25):
            checks = self.pick(1, most)
        # the reference is slow to read wide rows
        rows = self.random.randint(1, 4 if columns <= 64 else 2)
        if columns <= 8 and self.chance(15):
            rows = self.pick(31, 32)
        highest = min(256, 4096 // order)
        heights = self.pick(1, 2, highest, highest - 1, self.random.randint(1, highest))
        drift = self.pick(1, order - 1, self.random.randint(1, order - 1))
        return [kind, columns, checks, rows, heights, drift]

    def bad_number(self, page, place):
        """A number that is refused, mostly, in this place of an order."""
        kind, columns = page[0], page[1]
        order = ORDERS.get(kind, 17)
        return self.pick(
            *[
                (0, 8, 9, 255, 256, 257, 300, 65535),
                (0, 1, order, order + 1, 257, 258, 65535),
                (0, columns, columns + 1, 65, 66, 65535),
                (0, 33, 34, 256, 65535),
                (0, 4096 // order + 1, 257, 4096, 65535),
                (0, order, order + 1, 65535),
            ][place]
        )

    def order(self):
        page = self.good_order()
        if self.chance(25):
            for place in self.random.sample(range(6), self.pick(1, 1, 2, 3, 6)):
                page[place] = self.bad_number(page, place)
        if self.accepted(page):
            self.page, self.fitting, self.marks = page, True, 0
        return "order " + self.numbers(page)

    @staticmethod
    def accepted(page):
        kind, columns, checks, rows, heights, drift = page
        order = ORDERS.get(kind)
        return (
            order is not None
            and 2 <= columns <= min(order - 1, 256)
            and 1 <= checks <= min(64, columns - 1)
            and 1 <= rows <= 32
            and 1 <= heights <= min(256, 4096 // order)
            and 1 <= drift < order
        )

    # Lists

    def number(self, value):
        """Now and then with zeros in front."""
        return str(value).zfill(self.pick(1, 2, 5)) if self.chance(3) else str(value)

    def numbers(self, values):
        return (" " if self.chance(97) else "  ").join(map(self.number, values))

    def values(self, count, limit):
        """Numbers below the limit, mostly at random, else all near its edge."""
        low = max(limit - 2, 0) if self.chance(10) else 0
        return [self.random.randint(low, limit - 1) for _ in range(count)]

    def spoilt(self, values, limit):
        """The list with one or more values at or past the limit."""
        for _ in range(self.pick(1, 1, 2, 4)):
            if values:
                values[self.random.randrange(len(values))] = self.pick(limit, limit, limit + 1, 65535)
        return values

    def stretched(self, values):
        """The list one too long, one too short, or of quite another length."""
        return self.pick(values + [0], values[:-1], [], values + values)

    # The other commands

    def cells(self):
        if self.chance(70):
            return "cells"
        kind, columns, _, rows, heights, _ = self.page
        values = self.values(rows * columns, self.pick(ORDERS[kind] * heights, 65536))
        if self.chance(25):
            values = self.stretched(values)
        if values:
            self.fitting = len(values) == rows * columns
        return "cells " + self.numbers(values)

    def write(self):
        kind, columns, checks, rows, heights, _ = self.page
        symbols = self.values(rows * (columns - checks), ORDERS[kind])
        levels = self.values(rows * columns, heights)
        fault = self.random.randrange(100)
        if fault < 8 or 24 <= fault < 27:
            symbols = self.spoilt(symbols, ORDERS[kind])
        if 8 <= fault < 16 or 24 <= fault < 27:
            levels = self.spoilt(levels, heights)
        if 16 <= fault < 20 or 26 <= fault < 30:
            symbols = self.stretched(symbols)
        if 20 <= fault < 24 or 26 <= fault < 30:
            levels = self.stretched(levels)
        return f"write {self.numbers(symbols)} / {self.numbers(levels)}"

    def place(self):
        """A row and a column, seldom outside the page."""
        _, columns, _, rows, _, _ = self.page
        row = rows if self.chance(4) else self.random.randrange(rows)
        column = columns if self.chance(4) else self.random.randrange(columns)
        return f"{row} {column}"

    def mark(self):
        self.marks += 1
        return f"mark {self.random.randrange(self.page[1] + self.chance(5))}"

    def raise_cell(self):
        drift = self.page[5]
        amount = self.pick(0, drift + 1, 65535) if self.chance(10) else self.random.randint(1, drift)
        return f"raise {self.place()} {amount}"

    def jolt(self):
        return f"jolt {self.place()} {self.pick(0, 65535, self.random.randrange(65536))}"

    def read(self):
        _, columns, checks, rows, _, _ = self.page
        fitting = [rows * (columns - checks), rows * columns]
        if self.chance(75):
            return "read"
        if self.chance(50):
            return "read " + self.numbers(fitting)
        return "read " + self.numbers([self.pick(most, most + 1, most - 1, 0, 65535) for most in fitting])

    def risen(self, level):
        """A reading that has drifted up within the page's bound, where there is room above the level."""
        kind, _, _, _, heights, drift = self.page
        room = min(drift, ORDERS[kind] * heights - 1 - level)
        return level + self.pick(1, room, self.random.randint(1, room)) if room > 0 else level

    def astray(self, level):
        """A reading that has drifted too far, has fallen, or is no level."""
        kind, _, _, _, heights, drift = self.page
        order = ORDERS[kind]
        far = self.random.randint(min(drift + 1, order - 1), order - 1)
        # a fall after which the cell seems to have risen within the bound, from a level below 0 where its own is low
        deep = order - self.random.randint(min(max(order - level, 1), drift), drift)
        by = self.pick(drift + 1, far, -1, -deep, -deep, -deep, -self.random.randint(1, order))
        return self.pick(order * heights, 65535) if self.chance(15) else max(level + by, 0)

    def drift_row(self, cells, row, tame):
        """Moves cells of a row: where it is tame as many as can be corrected at most, else one more or one astray."""
        _, columns, checks, _, _, _ = self.page
        most = checks // 2
        count = self.pick(0, min(1, most), most, most)
        if not tame:
            count = self.pick(min(1, most), most, most, most + 1)
        moved = self.random.sample(range(columns), min(count, columns))
        for place, column in enumerate(moved):
            at = row * columns + column
            stays = tame or place > 0 or count > most
            cells[at] = self.risen(cells[at]) if stays else self.astray(cells[at])

    def nearly(self):
        """Readings of a page that was written, of which some have drifted."""
        kind, columns, checks, rows, heights, _ = self.page
        page = Page(*self.page)
        cells = [0] * (rows * columns)
        tall = self.pick(1, heights)
        page.write(cells, self.values(rows * (columns - checks), ORDERS[kind]), self.values(rows * columns, tall))
        wild = self.random.randrange(rows) if self.chance(55) else rows
        for row in range(rows):
            self.drift_row(cells, row, row != wild)
        self.fitting = self.near = True
        return "cells " + self.numbers(cells)

    def image(self):
        """A command on an image. An image that was changed has a wrong check, mostly."""
        if self.chance(50):
            return self.pick("save", "save", "open", "hostcheck", "hostscrub")
        if self.chance(60):
            return f"poke {self.pick(self.random.randrange(32), self.random.randrange(1536))} {self.random.randrange(256)}"
        if self.chance(50):
            return "image " + self.pick("00", "414c4d50", "00" * 512, "00" * 1024, "FF" * 1024)
        return "image"

    def later(self):
        """A command on a page that was written."""
        checks = self.page[2]
        choices = [self.raise_cell, self.raise_cell, self.nearly, self.read, self.read, lambda: "scrub", self.image]
        if self.marks < checks + 2:
            choices.append(self.mark)
        if self.marks > 0 or self.chance(5):
            choices.append(self.jolt)
        return self.pick(*choices)()

    def command(self):
        if self.page is None or self.chance(4):
            return self.order() if self.page is not None or self.chance(70) else self.pick(*UNORDERED)
        if self.chance(5):
            return self.pick(*BAD_LINES)
        if self.near and self.chance(90):
            self.near = False
            return self.read()
        if not self.fitting and self.chance(50):
            return self.order()
        if self.chance(60):
            return self.later()
        return self.pick(self.order, self.write, self.write, self.cells, self.cells, self.nearly, self.nearly, self.read)()

    def line(self):
        text = self.command()
        if self.chance(3):
            text = "  " + text + " "
        if self.chance(3):
            text += self.pick("# a comment", " # another: / 1 2", " ##")
        return text


def main():
    parser = argparse.ArgumentParser(description="Prints a random page script.")
    parser.add_argument("seed", type=int)
    parser.add_argument("count", type=int)
    options = parser.parse_args()
    script = Script(options.seed)
    for _ in range(options.count):
        print(script.line())


if __name__ == "__main__":
    main()
