#!/usr/bin/env python3
"""Prints what the program rangemap must write, worked out from the tables of docs/DIALECTS.md alone.

    python3 bench/rangemap.py $(cat crates/rangemap/args) > crates/rangemap/stdout
"""
import sys
from fractions import Fraction

# level -> protected part of the array, as the page has it
NV_LEVELS = {0: Fraction(0), 1: Fraction(1, 4), 2: Fraction(1, 2), 3: Fraction(1)}
MR_LEVELS = {0: Fraction(0), 1: Fraction(1, 64), 2: Fraction(1, 32), 3: Fraction(1, 16),
             4: Fraction(1, 8), 5: Fraction(1, 4), 6: Fraction(1, 2), 7: Fraction(1)}


def bits(r, *places):
    """The number that the bits of r at these places make, highest place first."""
    return int("".join(format(r, "08b")[7 - place] for place in places), 2)


def nv_range(r, n):
    part = NV_LEVELS[bits(r, 3, 2)] * n
    return n - part, n


def mr_range(r, n):
    part = MR_LEVELS[bits(r, 4, 3, 2)] * n
    return (0, part) if bits(r, 5) else (n - part, n)


DIALECTS = [
    ("nv", 32768, {6, 5, 3, 2}, nv_range),
    ("mr", 131072, {7, 5, 4, 3, 2}, mr_range),
]


def table(name, largest, mask_places, protected, n):
    alive = [2 ** e for e in range(8, 64) if 2 ** e <= largest]
    if n not in alive:
        print(f"{name} at {n} bytes: dead, being no power of two from 256 to {largest}")
        return
    rows = {}
    for r in range(256):
        if all(place in mask_places for place in range(8) if bits(r, place)):
            rows.setdefault(protected(r, n), []).append(r)
    print(f"{name} at {n} bytes")
    print("   first     end   bytes  status bits")
    for (first, end), members in rows.items():  # in the order of their smallest R
        print("%8d%8d%8d " % (first, end, end - first) + "".join(" %02Xh" % r for r in members))


print("rangemap SIZE..: protected are the addresses from first up to but not including end")
for word in sys.argv[1:]:
    if not word.isdigit():
        print(f"{word}: no size")
        continue
    for dialect in DIALECTS:
        table(*dialect, int(word))
