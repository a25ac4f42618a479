#!/usr/bin/env python3
"""Writes many frames for framecheck, always the same: one in ten damaged in a bit, some in lower case or with blanks.

    python3 bench/many_frames.py 100000 > /tmp/frames.txt
"""

import binascii
import random
import sys


def line():
    k = random.choice((2, 3))
    size = 256 << random.randrange(8 * k - 7)
    address = random.randrange(256**k)
    data = random.randbytes(64)
    sum = binascii.crc_hqx((address % size).to_bytes(k, "big") + data, 0xFFFF)
    frame = bytearray(address.to_bytes(k, "big") + data + sum.to_bytes(2, "big"))
    if random.random() < 0.1:
        bit = random.randrange(8 * len(frame))
        frame[bit // 8] ^= 0x80 >> bit % 8
    digits = random.choice((frame.hex().upper(), frame.hex().upper(), frame.hex(), frame.hex(" ").upper()))
    return f"{size} {k} {digits}\n"


if __name__ == "__main__":
    random.seed(20)
    sys.stdout.writelines(line() for _ in range(int(sys.argv[1])))
