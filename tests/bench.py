#!/usr/bin/env python3
"""An independent program for page scripts.

Runs a page script, from the file that is named or from standard input, and prints the answers. It stands on
`reference.py` and `image.py`, and shares no code with the program `almp`.

    python3 tests/bench.py [FILE]

An answer that begins `error: ` says that the line is no command that can be carried out. Another program may word it
otherwise: compare such lines by their beginning alone.
"""

import sys

from image import BLOCK, CHECKED, host_check, host_scrub, image_of, open_image
from reference import Page, Refused, refuse_if


class BadLine(Exception):
    """A line that cannot be carried out."""


NO_COMMAND = "the first word is no command"
NO_PAGE = "no page has been ordered"
NO_IMAGE = "no image has been saved or given"
FORMS = {
    b"order": "order takes six numbers: KIND N R ROWS H D",
    b"write": "write takes symbols, one / and heights",
    b"mark": "mark takes one number: COLUMN",
    b"raise": "raise takes three numbers: ROW COLUMN AMOUNT",
    b"jolt": "jolt takes three numbers: ROW COLUMN READING",
    b"read": "read takes nothing, or two numbers: NSYMBOLS NHEIGHTS",
    b"scrub": "scrub takes nothing",
    b"save": "save takes nothing",
    b"image": "image takes nothing, or one word: HEX",
    b"poke": "poke takes two numbers: AT BYTE",
    b"open": "open takes nothing",
    b"hostcheck": "hostcheck takes nothing",
    b"hostscrub": "hostscrub takes nothing",
}


def words_of(line):
    """The words of a line: what stands between spaces before the first #."""
    return [word for word in line.split(b"#")[0].split(b" ") if word]


def number_of(word):
    """One to five decimal digits, at most 65535; None for any other word."""
    if not 1 <= len(word) <= 5 or any(byte not in b"0123456789" for byte in word):
        return None
    value = int(word)
    return value if value <= 65535 else None


def numbers_of(words, first):
    """The numbers of these words, the first of which is word `first` of its line."""
    numbers = []
    for place, word in enumerate(words, first):
        number = number_of(word)
        if number is None:
            raise BadLine(f"word {place} is no number from 0 to 65535")
        numbers.append(number)
    return numbers


def bytes_of(word):
    """The bytes that hexadecimal digits write, two digits each."""
    if len(word) % 2 != 0 or any(byte not in b"0123456789abcdefABCDEF" for byte in word):
        raise BadLine("word 2 is no bytes of two hexadecimal digits each")
    return bytes.fromhex(word.decode())


def spread(numbers):
    return "".join(f" {number}" for number in numbers)


class Bench:
    """What a script works on: a page, once one is ordered, the caller's cells, and an image."""

    def __init__(self):
        self.page = None
        self.cells = []
        self.image = None
        self.commands = {
            b"order": self.order,
            b"cells": self.show_or_set,
            b"write": self.write,
            b"mark": self.mark,
            b"raise": self.raise_cell,
            b"jolt": self.jolt,
            b"read": self.read,
            b"scrub": self.scrub,
            b"save": self.save,
            b"image": self.show_or_give,
            b"poke": self.poke,
            b"open": self.open,
            b"hostcheck": self.host_check,
            b"hostscrub": self.host_scrub,
        }

    def answer(self, line):
        """The answer to a line, or None for one with no words."""
        words = words_of(line)
        if not words:
            return None
        try:
            if words[0] not in self.commands:
                raise BadLine(NO_COMMAND)
            return self.commands[words[0]](words)
        except BadLine as fault:
            return f"error: {fault}"
        except Refused as fault:
            return f"refused {fault.number} {fault.first} {fault.second}"

    def held(self):
        if self.page is None:
            raise BadLine(NO_PAGE)
        return self.page

    @staticmethod
    def arguments(words, *counts):
        """The numbers after a command, as many as one of the counts."""
        if len(words) - 1 not in counts:
            raise BadLine(FORMS[words[0]])
        return numbers_of(words[1:], 2)

    def order(self, words):
        page = Page(*self.arguments(words, 6))
        self.page = page
        self.cells = [0] * page.size()
        return "ok"

    def show_or_set(self, words):
        numbers = numbers_of(words[1:], 2)
        self.held()
        if not numbers:
            return "cells" + spread(self.cells)
        self.cells = numbers
        return "ok"

    def write(self, words):
        if words.count(b"/") != 1:
            raise BadLine(FORMS[b"write"])
        slash = words.index(b"/")
        symbols = numbers_of(words[1:slash], 2)
        heights = numbers_of(words[slash + 1 :], slash + 2)
        self.held().write(self.cells, symbols, heights)
        return "ok"

    def mark(self, words):
        (column,) = self.arguments(words, 1)
        self.held().mark(column)
        return "ok"

    def raise_cell(self, words):
        row, column, amount = self.arguments(words, 3)
        self.held().raise_cell(self.cells, row, column, amount)
        return "ok"

    def jolt(self, words):
        row, column, reading = self.arguments(words, 3)
        self.held().jolt(self.cells, row, column, reading)
        return "ok"

    def read(self, words):
        rooms = self.arguments(words, 0, 2)
        page = self.held()
        rooms = rooms or [page.rows * page.k, page.size()]
        symbols, heights, drifted, risen = page.read(self.cells, *rooms)
        return f"ok {drifted} {risen} /{spread(symbols)} /{spread(heights)}"

    def scrub(self, words):
        self.arguments(words, 0)
        drifted, risen = self.held().scrub(self.cells)
        return f"ok {drifted} {risen}"

    def held_image(self):
        if self.image is None:
            raise BadLine(NO_IMAGE)
        return self.image

    def save(self, words):
        self.arguments(words, 0)
        page = self.held()
        refuse_if(len(self.cells) != page.size(), 11, 1)
        self.image = bytearray(image_of(page, self.cells))
        checks = [int.from_bytes(self.image[at + CHECKED : at + BLOCK], "little") for at in range(0, len(self.image), BLOCK)]
        return f"ok {len(self.image)}{spread(checks)}"

    def show_or_give(self, words):
        if len(words) > 2:
            raise BadLine(FORMS[b"image"])
        if len(words) == 1:
            return "image " + self.held_image().hex()
        self.image = bytearray(bytes_of(words[1]))
        return "ok"

    def poke(self, words):
        at, byte = self.arguments(words, 2)
        if byte > 255:
            raise BadLine("word 3 is no byte from 0 to 255")
        if at >= len(self.held_image()):
            raise BadLine("the image has no such byte")
        self.image[at] = byte
        return "ok"

    def open(self, words):
        self.arguments(words, 0)
        self.page, self.cells = open_image(bytes(self.held_image()))
        return "ok"

    def host_check(self, words):
        self.arguments(words, 0)
        return f"answer {host_check(bytes(self.held_image()))}"

    def host_scrub(self, words):
        self.arguments(words, 0)
        answer, data = host_scrub(bytes(self.held_image()))
        self.image = bytearray(data)
        return f"answer {answer}"


def lines_of(source):
    """The lines of a byte stream, each without its newline and one carriage return before that."""
    for line in source:
        if line.endswith(b"\n"):
            line = line[:-1]
            if line.endswith(b"\r"):
                line = line[:-1]
        yield line


def run(source):
    bench = Bench()
    for line in lines_of(source):
        answer = bench.answer(line)
        if answer is not None:
            print(answer, flush=True)


def main():
    if len(sys.argv) > 2:
        sys.exit("usage: bench.py [FILE]")
    if len(sys.argv) == 2:
        with open(sys.argv[1], "rb") as source:
            run(source)
    else:
        run(sys.stdin.buffer)


if __name__ == "__main__":
    main()
