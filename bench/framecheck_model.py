#!/usr/bin/env python3
"""An independent model of framecheck: the captured-line format and its report, in Python, with Python's own CRC.

    python3 bench/framecheck_model.py < examples/frames.txt

It cuts a line into words and goes through the words; the program reads it from front to back. Both must print the same.
"""

import binascii
import sys

BLANKS = b" \t\r"
HEXADECIMAL = b"0123456789ABCDEFabcdef"

EMPTY = "nothing stands on the line"
SIZE = "the size is no power of two from 256 to 65536 (2 address bytes) or 16777216 (3)"
ADDRESS_BYTES = "the number of address bytes is not 2 or 3"
NOT_HEXADECIMAL = "a character is no hexadecimal digit"
HALF_BYTE = "a byte has one hexadecimal digit only"
TOO_SHORT = "the line ends before the frame does"
TOO_LONG = "something stands behind the frame"


class Unreadable(Exception):
    pass


def words(line):
    for blank in BLANKS:
        line = line.replace(bytes([blank]), b" ")
    return [word for word in line.split(b" ") if word]


def number(word, why):
    """The value of a word of decimal digits; any large one stands for those of more than 20 digits."""
    if any(c not in b"0123456789" for c in word):
        raise Unreadable(why)
    word = word.lstrip(b"0")
    return 10**20 if len(word) > 20 else int(word or b"0")


def pairs(words):
    for word in words:
        for i in range(0, len(word), 2):
            yield word[i : i + 2]


def frame_bytes(words, count):
    frame = bytearray()
    for pair in pairs(words):
        if len(frame) == count:
            raise Unreadable(TOO_LONG)
        if pair[0] not in HEXADECIMAL:
            raise Unreadable(NOT_HEXADECIMAL)
        if len(pair) == 1:
            raise Unreadable(HALF_BYTE)
        if pair[1] not in HEXADECIMAL:
            raise Unreadable(NOT_HEXADECIMAL)
        frame.append(int(pair, 16))
    if len(frame) < count:
        raise Unreadable(TOO_SHORT)
    return bytes(frame)


def examine(line):
    """Whether the frame on a line is right, its page and offset, and the sums sent and worked out."""
    fields = words(line)
    if not fields:
        raise Unreadable(EMPTY)
    size = number(fields[0], SIZE)
    if len(fields) < 2:
        raise Unreadable(ADDRESS_BYTES)
    k = number(fields[1], ADDRESS_BYTES)
    if k not in (2, 3):
        raise Unreadable(ADDRESS_BYTES)
    if size not in [2**n for n in range(8, 8 * k + 1)]:
        raise Unreadable(SIZE)
    frame = frame_bytes(fields[2:], k + 66)
    place = int.from_bytes(frame[:k], "big") % size
    sent = int.from_bytes(frame[k + 64 :], "big")
    worked_out = binascii.crc_hqx(place.to_bytes(k, "big") + frame[k : k + 64], 0xFFFF)
    return sent == worked_out, place // 64, place % 64, sent, worked_out


def lines(text):
    parts = text.split(b"\n")
    return parts[:-1] if parts[-1] == b"" else parts


def report(text):
    out = []
    counts = {"right": 0, "wrong": 0, "unreadable": 0}
    for i, line in enumerate(lines(text), 1):
        try:
            right, page, offset, sent, worked_out = examine(line)
            word = "right" if right else "wrong"
            out.append(f"{i} {word} page {page} offset {offset} sum sent {sent:04X} worked out {worked_out:04X}\n")
        except Unreadable as why:
            word = "unreadable"
            out.append(f"{i} unreadable: {why}\n")
        counts[word] += 1
    out.append("{right} right, {wrong} wrong, {unreadable} unreadable\n".format(**counts))
    return "".join(out).encode()


if __name__ == "__main__":
    sys.stdout.buffer.write(report(sys.stdin.buffer.read()))
