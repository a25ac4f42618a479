#!/usr/bin/env python3
"""Packs a session written as text into a run file, as docs/RUN-FILES.md has it.

    bench/pack_run.py SESSION.txt > SESSION.run

A line is a record; what follows a # is a comment:

    P                       power-up
    K 4                     ticks, in decimal
    C 1                     a cut: 1 charged, 0 not
    H 1                     the hold level: 1 held, 0 not
    T 0 02 00 10 5A         a transfer: leftover clocks, then the bytes to send in hexadecimal
    S 0 0000 5A             a secure write: leftover clocks, the address, and a byte that fills the page; the sum is worked out
    S 0 0000 5A 0001        the same with 0001h added to the sum by exclusive or, so that it is wrong
    RECORD 51 00            a record of these bytes, lawful or not
    TABLE 00 05             the file begins with these bytes in place of the table that fits
"""
import binascii
import sys


def secure(words):
    address = bytes.fromhex(words[1])
    data = bytes.fromhex(words[2]) * 64
    damage = int(words[3], 16) if len(words) > 3 else 0
    size = 256  # of both benches: the sum takes the address modulo the size
    reduced = (int.from_bytes(address, "big") % size).to_bytes(len(address), "big")
    total = binascii.crc_hqx(reduced + data, 0xFFFF) ^ damage
    return b"T" + bytes([int(words[0])]) + b"\x12" + address + data + total.to_bytes(2, "big")


def record(letter, words):
    if letter == "RECORD":
        return bytes.fromhex("".join(words))
    if letter == "S":
        return secure(words)
    if letter == "T":
        return b"T" + bytes([int(words[0])]) + bytes.fromhex("".join(words[1:]))
    return letter.encode() + bytes(int(word) for word in words)


def pack(text):
    records, table = [], None
    for line in text.splitlines():
        words = line.split("#")[0].split()
        if words and words[0] == "TABLE":
            table = bytes.fromhex("".join(words[1:]))
        elif words:
            records.append(record(words[0], words[1:]))
    if table is None:
        place = 2 + 4 * len(records)
        table = len(records).to_bytes(2, "big")
        for one in records:
            table += place.to_bytes(2, "big") + len(one).to_bytes(2, "big")
            place += len(one)
    return table + b"".join(records)


if __name__ == "__main__":
    sys.stdout.buffer.write(pack(open(sys.argv[1]).read()))
