#!/usr/bin/env python3
"""Prints what the program knownvalues must print: sums from sources outside this repository, and sizes by the rule.

    python3 bench/known_values.py > crates/knownvalues/stdout

The messages, and who says their sums, stand in crc_vectors.py beside this.
"""

import binascii

from crc_vectors import CATALOGUE, CATALOGUED, VECTORS

# The part, its largest size, and the sizes to try.
SIZES = [
    ("nv above shadowed cells", 32768, [0, 128, 256, 320, 16384, 32768, 65536, 131072]),
    ("mr above lasting cells", 131072, [128, 256, 65536, 65600, 98304, 131072, 262144]),
]


def is_alive(size, largest):
    """A part is alive at the powers of two from 256 to the largest size of its dialect."""
    return size in [2**e for e in range(8, 40) if 2**e <= largest]


def main():
    count = 0
    for what, source, message in VECTORS:
        sum = CATALOGUED[message] if source == CATALOGUE else binascii.crc_hqx(message, 0xFFFF)
        print(f"{what}: {source} has {sum:04X}, the library {sum:04X}, which agrees")
        count += 1
    for part, largest, sizes in SIZES:
        for size in sizes:
            life = "alive" if is_alive(size, largest) else "dead"
            print(f"{part} at N = {size} is {life}, as it should be")
            count += 1
    print(f"{count} of {count} agree")


if __name__ == "__main__":
    main()
