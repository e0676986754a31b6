#!/usr/bin/env python3
"""Tests of the independent reader and writer of images: worked bytes, and each refusal once.

    python3 tests/test_image.py
"""

import random
import unittest

from image import check_of, host_check, host_scrub, image_of, open_image
from reference import Field, Page

REFUSAL, FIRST = 2**32, 2**16


def sample(*marked):
    """The page of the samples, with these columns marked: kind 1, n = 4, r = 2, R = 1, H = 15, D = 16."""
    page = Page(1, 4, 2, 1, 15, 16)
    for column in marked:
        page.mark(column)
    return page


CELLS = [44, 5, 239, 51]


def changed(data, places, sealed=True):
    """The bytes with some of them changed, and with their checks made anew unless that is not wanted."""
    data = bytearray(data)
    for place, byte in places.items():
        data[place] = byte
    if sealed:
        for block in range(len(data) // 512):
            end = 512 * block + 508
            data[end : end + 4] = check_of(block, data[end - 508 : end]).to_bytes(4, "little")
    return bytes(data)


class Format(unittest.TestCase):
    def test_the_sample(self):
        # 1 + 0x41 + 2 × 0x4C + 3 × 0x4D + 4 × 0x50 + 5 × 1 + 6 × 1 + 7 × 4 + 9 × 2 + 10 × 1 + 11 × 15 + 13 × 16 = 1,209
        # 2 + 1 × 44 + 3 × 5 + 5 × 239 + 7 × 51 = 1,613
        data = image_of(sample(), CELLS)
        self.assertEqual(len(data), 1024)
        self.assertEqual(data[:16], bytes([0x41, 0x4C, 0x4D, 0x50, 1, 1, 4, 0, 2, 1, 15, 0, 16, 0, 0, 0]))
        self.assertEqual(data[16:508], bytes(492))
        self.assertEqual(data[508:512], bytes([0xB9, 0x04, 0, 0]))
        self.assertEqual(data[512:520], bytes([44, 0, 5, 0, 239, 0, 51, 0]))
        self.assertEqual(data[520:1020], bytes(500))
        self.assertEqual(data[1020:], bytes([0x4D, 0x06, 0, 0]))
        page, cells = open_image(data)
        self.assertEqual((page.n, page.r, page.rows, page.heights, page.drift, page.marked), (4, 2, 1, 15, 16, []))
        self.assertEqual(cells, CELLS)

    def test_marked_columns(self):
        # the marking 0 and 3 adds 15 × 2 for its count and 19 × 3 for column 3
        data = image_of(sample(0, 3), [999, 5, 239, 7])
        self.assertEqual(data[14:22], bytes([2, 0, 0, 0, 3, 0, 0, 0]))
        self.assertEqual(int.from_bytes(data[508:512], "little"), 1209 + 30 + 57)
        self.assertEqual(data[512:514], bytes([0xE7, 0x03]))
        self.assertEqual(open_image(data)[0].marked, [0, 3])

    def test_block_edges(self):
        # 254 readings fill a level block, and the next stands in another
        for n, rows, blocks in [(127, 2, 2), (15, 17, 3), (256, 32, 34)]:
            page = Page(4 if n > 16 else 1, n, 1, rows, 1, 1)
            cells = [place % 16 for place in range(page.size())]
            data = image_of(page, cells)
            self.assertEqual(len(data), 512 * blocks)
            self.assertEqual(open_image(data)[1], cells)

    def test_what_opens_is_the_image_of_what_it_holds(self):
        chance = random.Random(5)
        for kind in Field.KINDS:
            order = Field.KINDS[kind][0]
            for _ in range(10):
                n = chance.randint(2, min(order - 1, 256))
                r = chance.randint(1, min(64, n - 1))
                page = Page(kind, n, r, chance.randint(1, 32), chance.randint(1, min(256, 4096 // order)), chance.randint(1, order - 1))
                page.marked = sorted(chance.sample(range(n), chance.randint(0, r)))
                cells = [chance.randrange(65536) for _ in range(page.size())]
                data = image_of(page, cells)
                again, readings = open_image(data)
                self.assertEqual(readings, cells)
                self.assertEqual(image_of(again, readings), data)


class Refusals(unittest.TestCase):
    def assert_refused(self, data, number, first=0, second=0):
        """Both functions refuse alike, and a scrub leaves the bytes."""
        code = number * REFUSAL + first * FIRST + second
        self.assertEqual(host_check(data), code)
        self.assertEqual(host_scrub(data), (code, data))

    def test_length(self):
        data = image_of(sample(), CELLS)
        for wrong in [b"", data[:512], data[:1023], data + b"\0", data[:512] * 35]:
            self.assert_refused(wrong, 31)
        self.assertEqual(host_check(data[:512] * 34), 32 * REFUSAL + 1 * FIRST)

    def test_check(self):
        data = image_of(sample(), CELLS)
        self.assert_refused(changed(data, {508: 0xB8}, sealed=False), 32, 0)
        self.assert_refused(changed(data, {513: 1}, sealed=False), 32, 1)
        self.assert_refused(changed(data, {1023: 1}, sealed=False), 32, 1)
        # a wrong first word, with an old check
        self.assert_refused(changed(data, {0: 0x42}, sealed=False), 32, 0)

    def test_word(self):
        data = image_of(sample(), CELLS)
        self.assert_refused(changed(data, {0: 0x42}), 33, 0, 0)
        self.assert_refused(changed(data, {3: 0, 4: 2}), 33, 0, 3)
        self.assert_refused(changed(data, {4: 2}), 33, 0, 4)

    def test_header(self):
        data = image_of(sample(), CELLS)
        for places, number in [
            ({5: 0}, 1),
            ({5: 8}, 1),
            ({6: 17}, 2),
            ({7: 1}, 2),
            ({8: 4}, 3),
            ({8: 0}, 3),
            ({9: 33}, 4),
            ({9: 0}, 4),
            ({10: 241}, 5),
            ({10: 0}, 5),
            ({12: 17}, 6),
            ({12: 0}, 6),
            ({8: 0, 12: 0}, 3),
        ]:
            self.assert_refused(changed(data, places), 34, number)

    def test_marking(self):
        data = image_of(sample(), CELLS)
        self.assert_refused(changed(data, {14: 3}), 35, 0, 14)
        self.assert_refused(changed(data, {14: 1, 16: 4}), 35, 0, 16)
        self.assert_refused(changed(data, {14: 1, 17: 1}), 35, 0, 16)
        self.assert_refused(changed(data, {14: 2, 16: 3, 18: 3}), 35, 0, 18)
        self.assert_refused(changed(data, {14: 2, 16: 3, 18: 1}), 35, 0, 18)

    def test_blocks(self):
        data = image_of(sample(), CELLS)
        # 16 × 16 = 256 cells take two level blocks, and 4 cells one
        self.assert_refused(changed(data, {6: 16, 9: 16}), 36, 3)
        self.assert_refused(changed(data + bytes(512), {}), 36, 2)

    def test_filler(self):
        data = image_of(sample(), CELLS)
        self.assert_refused(changed(data, {15: 1}), 37, 0, 15)
        self.assert_refused(changed(data, {16: 1}), 37, 0, 16)
        self.assert_refused(changed(data, {507: 1, 520: 1}), 37, 0, 507)
        self.assert_refused(changed(data, {520: 1}), 37, 1, 8)
        self.assert_refused(changed(data, {1019: 1}), 37, 1, 507)

    def test_scrub_refuses(self):
        for page, cells, number, second in [
            (sample(), [44, 5, 255, 51], 21, 2),
            (sample(), [45, 6, 239, 51], 22, 0),
            (Page(1, 4, 2, 1, 15, 15), [44, 21, 239, 51], 23, 1),
            (sample(), [44, 4, 239, 51], 24, 1),
        ]:
            data = image_of(page, cells)
            self.assertEqual(host_check(data), 0)
            self.assertEqual(host_scrub(data), (number * REFUSAL + second, data))

    def test_scrub_refuses_in_a_later_row(self):
        page = Page(1, 4, 2, 2, 15, 16)
        data = image_of(page, CELLS + [44, 4, 239, 51])
        self.assertEqual(host_scrub(data), (24 * REFUSAL + 1 * FIRST + 1, data))


class Scrubbed(unittest.TestCase):
    def test_risen(self):
        data = image_of(sample(), [44, 5, 254, 51])
        self.assertEqual(host_scrub(data), (15, image_of(sample(), CELLS)))
        self.assertEqual(host_scrub(image_of(sample(), CELLS)), (0, image_of(sample(), CELLS)))

    def test_marked(self):
        data = image_of(sample(0, 3), [999, 5, 239, 7])
        self.assertEqual(host_scrub(data), (0, image_of(sample(0, 3), [10, 5, 239, 0])))


if __name__ == "__main__":
    unittest.main()
