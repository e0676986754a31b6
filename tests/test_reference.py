#!/usr/bin/env python3
"""Tests of the reference itself: worked samples, and reading against a search through every code row.

    python3 tests/test_reference.py
"""

import itertools
import random
import unittest

from bench import Bench, number_of, words_of
from reference import Field, Page, field_of


def answers(*lines):
    bench = Bench()
    return [bench.answer(line.encode()) for line in lines]


class Fields(unittest.TestCase):
    def test_points_differ(self):
        for kind, (order, _, _) in Field.KINDS.items():
            points = field_of(kind).points(order - 1)
            self.assertEqual(sorted(points), list(range(1, order)))

    def test_a_binary_product(self):
        self.assertEqual(Field(5).mul(2, 9), 1)


class Lines(unittest.TestCase):
    def test_words(self):
        self.assertEqual(words_of(b"  a  b\t#c # d"), [b"a", b"b\t"])
        self.assertEqual(words_of(b" # only a comment"), [])

    def test_numbers(self):
        for word, number in [(b"0", 0), (b"00042", 42), (b"65535", 65535)]:
            self.assertEqual(number_of(word), number)
        for word in [b"", b"65536", b"000001", b"-1", b"+1", b"1a", b"\xb2", b"1_0"]:
            self.assertIsNone(number_of(word))


class Samples(unittest.TestCase):
    def test_write(self):
        self.assertEqual(
            answers("order 1 4 2 1 15 16", "write 1 0 / 2 0 14 3", "cells", "write 0 1 / 0 0 0 0", "cells"),
            ["ok", "ok", "cells 44 5 239 51", "ok", "cells 1 2 0 1"],
        )
        self.assertEqual(
            answers("order 5 3 2 1 16 15", "write 1 / 0 0 0", "cells", "cells 8 9 1", "read"),
            ["ok", "ok", "cells 8 6 1", "ok", "ok 1 3 / 1 / 0 0 0"],
        )

    def test_read(self):
        for readings, answer in [
            ("44 5 254 51", "ok 1 15 / 1 0 / 2 0 14 3"),
            ("45 6 239 51", "refused 22 0 0"),
            ("45 14 239 51", "ok 1 5 / 13 0 / 2 0 13 3"),
            ("44 4 239 51", "refused 24 0 1"),
            ("44 5 255 51", "refused 21 0 2"),
        ]:
            self.assertEqual(answers("order 1 4 2 1 15 16", f"cells {readings}", "read")[2], answer)
        self.assertEqual(answers("order 1 4 2 1 15 15", "cells 44 21 239 51", "read")[2], "refused 23 0 1")

    def test_marked(self):
        self.assertEqual(
            answers("order 1 4 2 1 15 16", "mark 3", "mark 0", "cells 999 5 239 7", "read", "scrub", "cells")[4:],
            ["ok 0 0 / 1 0 / 0 0 14 0", "ok 0 0", "cells 10 5 239 0"],
        )
        self.assertEqual(answers("order 1 4 2 1 15 16", "mark 0", "cells 44 6 239 51", "read")[3], "refused 22 0 0")


class Nearest(unittest.TestCase):
    def every_code_row(self, page):
        return [page.encode(message) for message in itertools.product(range(page.order), repeat=page.k)]

    def test_against_every_code_row(self):
        chance = random.Random(1)
        for kind, n, r in [(1, 4, 2), (1, 4, 3), (5, 5, 3), (5, 7, 5), (2, 6, 5), (7, 8, 7)]:
            page = Page(kind, n, r, 1, 1, 1)
            rows = self.every_code_row(page)
            for _ in range(60):
                page.marked = sorted(chance.sample(range(n), chance.randint(0, r)))
                symbols = list(chance.choice(rows))
                for _ in range(chance.randint(0, r)):
                    symbols[chance.randrange(n)] = chance.randrange(page.order)
                for i in page.marked:
                    symbols[i] = 0
                close = [
                    row
                    for row in rows
                    if 2 * sum(row[i] != symbols[i] for i in page.unmarked()) + len(page.marked) <= r
                ]
                self.assertEqual(page.nearest(symbols), close[0] if close else None)
                self.assertLessEqual(len(close), 1)


if __name__ == "__main__":
    unittest.main()
