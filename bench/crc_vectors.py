#!/usr/bin/env python3
"""Prints what the program crcvectors must print, with the sums from sources outside this repository.

    python3 bench/crc_vectors.py > crates/crcvectors/stdout

The catalogue is the catalogue of parametrised CRC algorithms, where this one is listed as CRC-16/IBM-3740 (also
CRC-16/CCITT-FALSE): polynomial 1021h, start FFFFh, highest bit first, no final change, check value 29B1h. The other sums
are worked out here by Python's own CRC, binascii.crc_hqx started at FFFFh.
"""

import binascii

CATALOGUE = "the catalogue"
PYTHON = "Python"


def zeros(count):
    return bytes(count)


def ones(count):
    return b"\xFF" * count


def counting(count):
    """0, 1, 2, .. modulo 256"""
    return bytes(i % 256 for i in range(count))


def sevens(count):
    """0, 7, 14, .. modulo 256"""
    return bytes(7 * i % 256 for i in range(count))


# What the message is, who says its sum, and the message.
VECTORS = [
    ("no bytes", CATALOGUE, b""),
    ("the ASCII digits 123456789", CATALOGUE, b"123456789"),
    ("the ASCII letter A", PYTHON, b"A"),
    ("one byte 00h", PYTHON, zeros(1)),
    ("one byte FFh", PYTHON, ones(1)),
    ("two bytes 00h", PYTHON, zeros(2)),
    ("two bytes FFh", PYTHON, ones(2)),
    ("64 bytes 00h", PYTHON, zeros(64)),
    ("64 bytes FFh", PYTHON, ones(64)),
    ("256 bytes from 00h to FFh", PYTHON, counting(256)),
    ("4096 bytes 00h", PYTHON, zeros(4096)),
    ("4096 bytes FFh", PYTHON, ones(4096)),
    ("65536 bytes, each 7 more than the one before", PYTHON, sevens(65536)),
    ("the ASCII digits 123456789 and their sum", PYTHON, b"123456789\x29\xB1"),
    ("page transfer to 0000h of 64 bytes 00h", PYTHON, b"\x00\x00" + zeros(64)),
    ("page transfer to 0040h of the bytes 00h to 3Fh", PYTHON, b"\x00\x40" + counting(64)),
    ("page transfer to 7FC0h of 64 bytes FFh", PYTHON, b"\x7F\xC0" + ones(64)),
    ("page transfer to 012345h of 64 bytes, each 7 more than the one before", PYTHON, b"\x01\x23\x45" + sevens(64)),
]

# The values that the catalogue lists.
CATALOGUED = {b"": 0xFFFF, b"123456789": 0x29B1}


def main():
    for what, source, message in VECTORS:
        sum = CATALOGUED[message] if source == CATALOGUE else binascii.crc_hqx(message, 0xFFFF)
        print(f"{what}: {source} has {sum:04X}, the library {sum:04X}, which agrees")
    print(f"{len(VECTORS)} of {len(VECTORS)} agree")


if __name__ == "__main__":
    main()
