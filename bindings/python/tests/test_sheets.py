"""The shipped sheets: their states, printed as `basis list` prints them, against sheets/expected."""

import os
import unittest
import zlib
from array import array

from common import SHEETS, Plain, needs, nested

from zibrotka import Refused, Sheet
from zibrotka.calls import answer

# The bytes with their bits in turned order. cksum takes the bits of a byte from the top and zlib.crc32 from the bottom.
TURNED = bytes(int(f"{byte:08b}"[::-1], 2) for byte in range(256))


class Checksum:
    """The checksum of POSIX cksum. With all bits turned, zlib's works out the same; behind the text come the bytes of its length."""

    def __init__(self):
        self.sum, self.length = 0xFFFFFFFF, 0

    def add(self, data):
        self.sum = zlib.crc32(data.translate(TURNED), self.sum)
        self.length += len(data)

    def value(self):
        length = self.length.to_bytes((self.length.bit_length() + 7) // 8, "little")
        return int(f"{zlib.crc32(length.translate(TURNED), self.sum):032b}"[::-1], 2)


def expected():
    """What must be printed of each sheet: the number of lines, the checksum, the first and the last line."""
    with open(os.path.join(SHEETS, "expected"), encoding="ascii") as file:
        return {line.split(" | ")[0]: line.rstrip("\n").split(" | ", 1)[1] for line in file}


def pieces(sheet, n, rows):
    """The printed text in pieces: a line of counts, then a line for each state with its place and its values."""
    yield (
        f"vertices {sheet.n_vertices} edges {len(sheet.edges)} triangles {len(sheet.triangles)} lambda {sheet.truncation} dim {n}\n"
    )
    words = {value: f" {value}" for value in range(-sheet.truncation, sheet.truncation + 1)}
    lines = []
    for place, row in enumerate(rows):
        lines.append(f"{place}{''.join(map(words.__getitem__, row))}\n")
        if len(lines) == 10000:
            yield "".join(lines)
            lines = []
    yield "".join(lines)


def summed(texts):
    """The line of sheets/expected for a printed text."""
    checksum, lines, first, last = Checksum(), 0, None, None
    for text in filter(None, texts):
        checksum.add(text.encode("ascii"))
        lines += text.count("\n")
        first = first or text[: text.index("\n")]
        last = text[text.rindex("\n", 0, -1) + 1 : -1] if "\n" in text[:-1] else text[:-1]
    return f"{lines} | {checksum.value()} | {first} | {last}"


def lent_rows(sheet, n):
    """The states one by one, from a list that is lent, since a million plain lists would take some thousand million bytes."""
    width = len(sheet.edges)
    states = array("i", [0]) * (n * width)
    answer("enumerate_gauge_invariant", sheet.to_bytes(), states)
    return (states[place * width : (place + 1) * width] for place in range(n))


def listed(name, rows_of):
    try:
        sheet = Sheet.read(os.path.join(SHEETS, name))
        n = sheet.count_states()
        return summed(pieces(sheet, n, rows_of(sheet, n)))
    except Refused as refused:
        return summed([f"refused {refused.number}\n"])


BIG = ("chain.gls", "two-free-edges-511.gls")


class Shipped(unittest.TestCase):
    def test_cksum(self):
        for text, wanted in ((b"", 4294967295), (b"refused 4\n", 1196055740), (b"refused 10\n", 1901241420)):
            checksum = Checksum()
            checksum.add(text)
            self.assertEqual(checksum.value(), wanted)

    def test_every_sheet_is_expected(self):
        self.assertEqual(sorted(expected()), sorted(name for name in os.listdir(SHEETS) if name.endswith(".gls")))

    def test_small_ones(self):
        for name, wanted in expected().items():
            if name not in BIG:
                with self.subTest(name):
                    self.assertEqual(listed(name, lambda sheet, n: nested(sheet.states())), wanted)


class ShippedPlain(Plain, Shipped):
    pass


class Big(unittest.TestCase):
    def test_lent_lists(self):
        for name in BIG:
            with self.subTest(name):
                self.assertEqual(listed(name, lent_rows), expected()[name])


@needs("NumPy", "the big sheets as NumPy arrays")
class BigArrays(unittest.TestCase):
    def test_same_states(self):
        import numpy

        for name in BIG:
            with self.subTest(name):
                sheet = Sheet.read(os.path.join(SHEETS, name))
                states = sheet.states()
                lent = array("i", [0]) * states.size
                answer("enumerate_gauge_invariant", sheet.to_bytes(), lent)
                self.assertTrue(numpy.array_equal(states.reshape(-1), numpy.frombuffer(lent, "int32")))


if __name__ == "__main__":
    unittest.main()
