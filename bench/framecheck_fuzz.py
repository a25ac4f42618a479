#!/usr/bin/env python3
"""Holds framecheck to its Python model on random and damaged input: the same report for each, and status 0.

    tools/build.sh framecheck && python3 bench/framecheck_fuzz.py crates/framecheck/out/framecheck 3000
"""

import random
import subprocess
import sys

import framecheck_model
import many_frames


def random_bytes():
    return random.randbytes(random.randrange(400))


def nearly_text():
    return bytes(random.choice(b"0123456789ABCDEFabcdef  \t\r\n\n2") for _ in range(random.randrange(600)))


def number():
    return random.choice(("256", "00512", "65536", "131072", "16777216", "33554432", "128", "300", "0", "9" * 30, "2x", "-1", ""))


def wrong_header():
    line = many_frames.line().split(" ", 2)
    return " ".join((number(), random.choice(("2", "3", "03", "4", "23", "x", "")), line[2])).encode()


def damaged():
    """A frame's line with a few characters changed, left out, put in or moved."""
    line = bytearray(many_frames.line().encode())
    for _ in range(random.choice((0, 1, 1, 2, 5))):
        i = random.randrange(len(line)) if line else 0
        what = random.randrange(5)
        if what == 0 and line:
            line[i] = random.randrange(256)
        elif what == 1 and line:
            del line[i]
        elif what == 2:
            line.insert(i, random.choice(b" \t\r\n0aFgZ\x00\xff"))
        elif what == 3:
            line[i:i] = b" " * random.randrange(4)
        else:
            del line[random.randrange(len(line) + 1) :]
    return bytes(line)


def text():
    makers = (random_bytes, nearly_text, wrong_header, damaged, damaged, damaged)
    parts = [random.choice(makers)() for _ in range(random.randrange(12))]
    joined = b"".join(part if part.endswith(b"\n") or random.random() < 0.1 else part + b"\n" for part in parts)
    return joined[:-1] if random.random() < 0.3 else joined


def main():
    program, count = sys.argv[1], int(sys.argv[2])
    random.seed(7)
    totals = [0, 0, 0]
    for turn in range(count):
        given = text()
        run = subprocess.run([program], input=given, stdout=subprocess.PIPE)
        expected = framecheck_model.report(given)
        if run.returncode != 0 or run.stdout != expected:
            with open("/tmp/framecheck_fuzz.txt", "wb") as kept:
                kept.write(given)
            sys.exit(f"turn {turn}: status {run.returncode}, or another report; the input is in /tmp/framecheck_fuzz.txt")
        last = expected.split(b"\n")[-2].decode().replace(",", "").split()
        totals = [total + int(n) for total, n in zip(totals, last[::2])]
    print("{} inputs, the same report for each: {} right, {} wrong, {} unreadable".format(count, *totals))


if __name__ == "__main__":
    main()
