#!/usr/bin/env python3
"""Prints what the program lapwatch must write, from a small model of this one scene.

    python3 bench/lapwatch_expected.py > crates/lapwatch/stdout

The model is written from the rules alone, and knows only what the scene needs: dialect nv above shadowed cells of 256
bytes, four pages of 64. It knows the opcodes 06 enable, 02 write, 03 read and 3C store, an address of two bytes, a write
that stays in its page and is placed on release, no protected range, and PowerStore on.
"""

LAP = [0x01, 0x12, 0x34, 0x56]
PLACE = 0x90
PAGES = 4


class Memory:
    def __init__(self):
        self.working = [0xFF] * 256
        self.kept = [0xFF] * 256
        self.on = False
        self.work = None        # "store" or "wake": pages are going on, the next is self.page
        self.page = 0
        self.latch = False      # a write is enabled
        self.written = False    # something was placed since the last store or waking
        self.heard = None       # the bytes of the selection, if selected

    def copy(self, source, target, page):
        target[64 * page:64 * page + 64] = source[64 * page:64 * page + 64]

    def power_on(self):
        self.on, self.work, self.page, self.latch, self.written = True, "wake", 0, False, False
        return "answer 0, driven --"

    def power_off(self, charged):
        if charged and self.work == "store":
            first = self.page
        elif charged and self.work is None and self.written:
            first = 0
        else:
            first = PAGES       # nothing is kept
        for page in range(first, PAGES):
            self.copy(self.working, self.kept, page)
        self.working = [0xFF] * 256
        self.on, self.work, self.heard = False, None, None

    def wait(self):
        if self.work is None:
            return "answer 0, 0 to go, driven --"
        if self.work == "store":
            self.copy(self.working, self.kept, self.page)
        else:
            self.copy(self.kept, self.working, self.page)
        self.page += 1
        if self.page == PAGES:
            if self.work == "store":
                self.written = False
            self.work = None
        return f"answer 0, {PAGES - self.page} to go, driven --"

    def select(self):
        assert self.on and self.heard is None
        self.heard = []
        return "answer 0, driven --"

    def send(self, byte):
        assert self.on and self.heard is not None and self.work is None
        before = self.heard
        self.heard = before + [byte]
        if len(before) >= 3 and before[0] == 0x03:      # opcode and address came: drive
            address = before[1] * 256 + before[2] + (len(before) - 3)
            return "answer 0, driven %02X" % self.working[address % 256]
        return "answer 0, driven --"

    def release(self):
        opcode, rest = self.heard[0], self.heard[1:]
        self.heard = None
        if opcode == 0x06:
            assert rest == []
            self.latch = True
        elif opcode == 0x02:
            assert self.latch and len(rest) > 2
            address = (rest[0] * 256 + rest[1]) % 256
            for i, byte in enumerate(rest[2:]):
                self.working[address // 64 * 64 + (address + i) % 64] = byte
            self.latch, self.written = False, True
        elif opcode == 0x3C:
            assert rest == []
            self.work, self.page = "store", 0
        else:
            assert opcode == 0x03
        return "answer 0, driven --"


def one(opcode_and_rest):
    """A whole selection."""
    return ([("select", Memory.select)]
            + [("send %02X" % b, lambda m, b=b: m.send(b)) for b in opcode_and_rest]
            + [("release", Memory.release)])


WAIT = [("wait for one page", Memory.wait)] * PAGES
WAKE = [("power on", Memory.power_on)] + WAIT
PARTS = [
    ("The watch wakes, page by page:", WAKE),
    ("It enables one write:", one([0x06])),
    ("It writes the lap:", one([0x02, PLACE // 256, PLACE % 256] + LAP)),
    ("It stores, page by page:", one([0x3C]) + WAIT),
    ("It reads the lap back:", one([0x03, PLACE // 256, PLACE % 256] + [0] * 4)),
]


def at_place(image):
    return " ".join("%02X" % b for b in image[PLACE:PLACE + 4])


def main():
    print("The memory of a lap watch: 256 bytes, all FF. The lap is 01 12 34 56, at address 90.")
    print("Answer 0 is done; driven is the byte that comes back; kept is what outlasts the battery.")
    memory, calls, bounds = Memory(), [], []
    for heading, part in PARTS:
        print(heading)
        for words, call in part:
            calls.append((words, call))
            print("%3d. %s: %s, kept %s" % (len(calls), words, call(memory), at_place(memory.kept)))
        bounds.append(len(calls))
    print("The battery goes flat right after one of the calls. What the next waking finds at address 90:")
    for number in range(bounds[0] + 1, bounds[3] + 1):      # the calls that enable, write and store
        print("%3d. %s" % (number, calls[number - 1][0]))
        for charge in ["uncharged", "charged"]:
            memory = Memory()
            for _, call in calls[:number]:
                call(memory)
            memory.power_off(charge == "charged")
            for _, call in WAKE:
                call(memory)
            there = memory.working[PLACE:PLACE + 4] == LAP
            print("     %s: the lap is %s, %s" % (charge, "there" if there else "lost", at_place(memory.working)))


main()
