#!/usr/bin/env python3
"""Prints what each crate costs: its lines and its must-fail edits, and the seconds of its proof where a file tells them.

    bench/cost.py [SECONDS]

SECONDS has a line `NAME NUMBER` for each crate that was timed. `rt ci` prints no seconds of single crates: time `rt verdict` in its folder.
"""
import glob
import sys


def lines(pattern):
    return sum(len(open(path, errors="replace").read().splitlines()) for path in glob.glob(pattern, recursive=True))


def table(log):
    seconds = {}
    for line in open(log) if log else ():
        name, number = line.split()
        seconds[name] = int(number)
    print("| crate | code | specs | proofs | must-fail edits | seconds |\n|---|---|---|---|---|---|")
    total = [0, 0, 0, 0, 0]
    for line in open("crates.txt"):
        if ":" not in line or line.startswith("#"):
            continue
        crate = line.split(":")[0]
        row = [lines(f"crates/{crate}/src/**/*.rt"), lines(f"crates/{crate}/specs/**/*.antt"), lines(f"crates/{crate}/proofs/**/*.antt"),
               len(glob.glob(f"crates/{crate}/must-fail/*.edit")), seconds.get(crate, 0)]
        total = [a + b for a, b in zip(total, row)]
        print(f"| `{crate}` | " + " | ".join(str(n) for n in row) + " |")
    print("| all | " + " | ".join(f"{n:,}" for n in total) + " |")


if __name__ == "__main__":
    table(sys.argv[1] if len(sys.argv) > 1 else None)
