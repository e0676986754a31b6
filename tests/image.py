#!/usr/bin/env python3
"""An independent reader and writer of images, and what a host's two functions answer.

It is written from the rules of the format and stands on the independent program of `reference.py`: it shares no code with
the library. It is made to be plain, not fast.

    python3 tests/image.py FILE      what the functions answer to an image file, which stays as it is
"""

import sys

from reference import Page, Refused, field_of, refuse_if

BLOCK = 512
CHECKED = 508  # bytes of a block before its check
PER_BLOCK = 254  # readings in a level block
SMALLEST, LARGEST = 2 * BLOCK, 34 * BLOCK
FIRST_BYTES = b"ALMP\x01"
MARKS_AT = 16  # the byte of the first marked column


def kind_of(page):
    """The kind number of a page's field."""
    return next(kind for kind in range(1, 8) if field_of(kind) is page.field)


def check_of(place, block):
    """The check of a block: 1 + its place + the sum of (j + 1) × byte j over the bytes before the check."""
    return 1 + place + sum((j + 1) * block[j] for j in range(CHECKED))


def ended(place, content):
    """A block with this content, filler after it, and its check."""
    assert len(content) <= CHECKED
    block = bytes(content) + bytes(CHECKED - len(content))
    return block + check_of(place, block).to_bytes(4, "little")


def words_of(numbers):
    """Two bytes of each number, the low one first."""
    return b"".join(number.to_bytes(2, "little") for number in numbers)


def level_blocks(cells):
    """How many level blocks this many readings take."""
    return -(-cells // PER_BLOCK)


def image_of(page, cells):
    """The image of a page, with its marking, and its cells."""
    head = FIRST_BYTES + bytes([kind_of(page)]) + words_of([page.n]) + bytes([page.r, page.rows])
    head += words_of([page.heights, page.drift]) + bytes([len(page.marked), 0]) + words_of(page.marked)
    blocks = [ended(0, head)]
    for first in range(0, len(cells), PER_BLOCK):
        blocks.append(ended(len(blocks), words_of(cells[first : first + PER_BLOCK])))
    return b"".join(blocks)


def number_at(data, place):
    """The number of two bytes."""
    return int.from_bytes(data[place : place + 2], "little")


def readings_of(data, count):
    """As many readings, from the level blocks."""
    stream = b"".join(data[at : at + CHECKED] for at in range(BLOCK, len(data), BLOCK))
    return [number_at(stream, 2 * cell) for cell in range(count)]


def filler_of(data, cells):
    """All places of filler, in rising order."""
    yield 15
    yield from range(MARKS_AT + 2 * data[14], CHECKED)
    for block in range(1, len(data) // BLOCK):
        used = min(PER_BLOCK, cells - PER_BLOCK * (block - 1))
        yield from range(BLOCK * block + 2 * used, BLOCK * block + CHECKED)


def page_of(data):
    """The page that block 0 names, with no column marked yet."""
    try:
        return Page(data[5], number_at(data, 6), data[8], data[9], number_at(data, 10), number_at(data, 12))
    except Refused as fault:
        raise Refused(34, fault.number, 0) from None


def marking_of(data, page):
    """The marking that block 0 names."""
    refuse_if(data[14] > page.r, 35, 0, 14)
    columns = [number_at(data, MARKS_AT + 2 * i) for i in range(data[14])]
    for i, column in enumerate(columns):
        not_rising = i > 0 and column <= columns[i - 1]
        refuse_if(not_rising or column >= page.n, 35, 0, MARKS_AT + 2 * i)
    return columns


def open_image(data):
    """The page and the cells of an image; raises Refused where the bytes are none."""
    refuse_if(len(data) % BLOCK != 0 or not SMALLEST <= len(data) <= LARGEST, 31)
    for place in range(len(data) // BLOCK):
        block = data[BLOCK * place : BLOCK * (place + 1)]
        refuse_if(int.from_bytes(block[CHECKED:], "little") != check_of(place, block), 32, place, 0)
    for at, byte in enumerate(FIRST_BYTES):
        refuse_if(data[at] != byte, 33, 0, at)
    page = page_of(data)
    page.marked = marking_of(data, page)
    wanted = 1 + level_blocks(page.size())
    refuse_if(len(data) != BLOCK * wanted, 36, wanted, 0)
    for at in filler_of(data, page.size()):
        refuse_if(data[at] != 0, 37, at // BLOCK, at % BLOCK)
    return page, readings_of(data, page.size())


# What the host's two functions answer


def code_of(fault):
    """A refusal as one number."""
    return fault.number * 2**32 + fault.first * 2**16 + fault.second


def host_check(data):
    """0 for an image; else why the bytes are none."""
    try:
        open_image(data)
    except Refused as fault:
        return code_of(fault)
    return 0


def host_scrub(data):
    """The levels risen, and the image of the scrubbed page; or a refusal, and the bytes as they were."""
    try:
        page, cells = open_image(data)
        _, risen = page.scrub(cells)
    except Refused as fault:
        return code_of(fault), bytes(data)
    return risen, image_of(page, cells)


def main():
    if len(sys.argv) != 2:
        sys.exit("usage: image.py FILE")
    with open(sys.argv[1], "rb") as source:
        data = source.read()
    print("check", host_check(data))
    print("scrub", host_scrub(data)[0])


if __name__ == "__main__":
    main()
