#!/usr/bin/env python3
"""Makes the example for framecheck, and the report that it must print.

    python3 bench/make_frames.py > examples/frames.txt
    python3 bench/make_frames.py --report > crates/framecheck/stdout

The report is not worked out from the lines: each line is made from a frame whose parts are known here, and the sums come
from Python's own CRC, binascii.crc_hqx started at FFFFh.
"""

import binascii
import sys


def crc(message):
    return binascii.crc_hqx(message, 0xFFFF)


class Frame:
    """A secure frame to an array of a size; its sum is the right one unless given."""

    def __init__(self, size, k, address, data, sum=None):
        self.size, self.k, self.address, self.data = size, k, address, bytes(data)
        self.sum = self.right_sum() if sum is None else sum

    def right_sum(self):
        return crc((self.address % self.size).to_bytes(self.k, "big") + self.data)

    def bytes(self):
        return self.address.to_bytes(self.k, "big") + self.data + self.sum.to_bytes(2, "big")

    def damaged(self, *bits):
        """The frame with some bits changed, counted in sending order from the address's first."""
        sent = bytearray(self.bytes())
        for bit in bits:
            sent[bit // 8] ^= 0x80 >> bit % 8
        k = self.k
        return Frame(self.size, k, int.from_bytes(sent[:k], "big"), sent[k : k + 64], int.from_bytes(sent[k + 64 :], "big"))

    def swapped(self, i):
        """The frame with data bytes i and i + 1 in each other's place."""
        data = bytearray(self.data)
        data[i], data[i + 1] = data[i + 1], data[i]
        return Frame(self.size, self.k, self.address, data, self.sum)

    def line(self, separator=""):
        return f"{self.size} {self.k} {self.bytes().hex(separator) if separator else self.bytes().hex()}".upper()

    def report(self):
        place = self.address % self.size
        word = "right" if self.sum == self.right_sum() else "wrong"
        return f"{word} page {place // 64} offset {place % 64} sum sent {self.sum:04X} worked out {self.right_sum():04X}"


EMPTY = "nothing stands on the line"
SIZE = "the size is no power of two from 256 to 65536 (2 address bytes) or 16777216 (3)"
ADDRESS_BYTES = "the number of address bytes is not 2 or 3"
NOT_HEXADECIMAL = "a character is no hexadecimal digit"
HALF_BYTE = "a byte has one hexadecimal digit only"
TOO_SHORT = "the line ends before the frame does"
TOO_LONG = "something stands behind the frame"

counting = Frame(256, 2, 0x0000, range(64))
laps = Frame(32768, 2, 0x1240, b"lap 01 00:58.3  lap 02 01:01.9  lap 03 01:00.4  lap 04 00:59.7  ")
large = Frame(131072, 3, 0x012345, [7 * i % 256 for i in range(64)])
digits = counting.bytes().hex().upper()

# Each line with the frame that it is made from, or with the reason why it is none.
LINES = [
    # Right frames.
    (counting.line(), counting),
    (laps.line(), laps),
    (large.line(), large),
    (Frame(65536, 2, 0xFFC0, [0xFF] * 64).line(), Frame(65536, 2, 0xFFC0, [0xFF] * 64)),
    (Frame(16777216, 3, 0xFFFFFF, [0] * 64).line(), Frame(16777216, 3, 0xFFFFFF, [0] * 64)),
    # The sum of this one is 0000h, and with 0001h in its place it is wrong.
    (Frame(256, 2, 0, b"\x1D\x0F" + bytes(62), 0x0000).line(), Frame(256, 2, 0, b"\x1D\x0F" + bytes(62), 0x0000)),
    (Frame(256, 2, 0, b"\x1D\x0F" + bytes(62), 0x0001).line(), Frame(256, 2, 0, b"\x1D\x0F" + bytes(62), 0x0001)),
    # An address with bits set that do not choose among the array's bytes: right.
    (Frame(256, 2, 0xAB41, range(64)).line(), Frame(256, 2, 0xAB41, range(64))),
    # Lower-case digits, blanks between bytes, and blanks wherever else they may stand.
    (laps.line().lower(), laps),
    (laps.line(" "), laps),
    ("  \t00256\t02  " + digits[:40] + " \t " + digits[40:] + " \r", counting),
    # Damage: a single bit, a burst over a byte's edge, a burst inside the sum, a changed address bit.
    (laps.damaged(100).line(), laps.damaged(100)),
    (laps.damaged(155, 156, 158, 160, 163).line(), laps.damaged(155, 156, 158, 160, 163)),
    (laps.damaged(528, 529, 535, 540, 543).line(), laps.damaged(528, 529, 535, 540, 543)),
    (large.damaged(7).line(), large.damaged(7)),
    (laps.swapped(5).line(), laps.swapped(5)),
    # Lines that are no frames.
    ("", EMPTY),
    (" \t ", EMPTY),
    ("size 2 " + digits, SIZE),
    ("-256 2 " + digits, SIZE),
    ("0 2 " + digits, SIZE),
    ("128 2 " + digits, SIZE),
    ("300 2 " + digits, SIZE),
    ("131072 2 " + digits, SIZE),
    ("33554432 3 " + digits, SIZE),
    ("4294967552 2 " + digits, SIZE),
    ("256" + "0" * 300 + " 2 " + digits, SIZE),
    ("256", ADDRESS_BYTES),
    ("256 4 " + digits, ADDRESS_BYTES),
    ("256 1 " + digits, ADDRESS_BYTES),
    ("256 two " + digits, ADDRESS_BYTES),
    ("256 2" + digits, ADDRESS_BYTES),
    ("256 2 " + digits[:50] + "G" + digits[51:], NOT_HEXADECIMAL),
    ("256 2 " + digits[:51] + "-" + digits[52:], NOT_HEXADECIMAL),
    ("256 2 " + digits[:51] + " " + digits[51:], HALF_BYTE),
    ("256 2 " + digits[:51], HALF_BYTE),
    ("256 2", TOO_SHORT),
    ("256 2 " + digits[:-2], TOO_SHORT),
    ("256 3 " + digits, TOO_SHORT),
    ("256 2 " + digits + "00", TOO_LONG),
    ("256 2 " + digits + " 0", TOO_LONG),
    ("256 2 " + digits + " # first page", TOO_LONG),
]


def report():
    counts = {"right": 0, "wrong": 0, "unreadable": 0}
    for i, (_, what) in enumerate(LINES, 1):
        text = what.report() if isinstance(what, Frame) else f"unreadable: {what}"
        counts[text.split()[0].rstrip(":")] += 1
        print(i, text)
    print("{right} right, {wrong} wrong, {unreadable} unreadable".format(**counts))


if __name__ == "__main__":
    if sys.argv[1:] == ["--report"]:
        report()
    else:
        for line, _ in LINES:
            print(line)
