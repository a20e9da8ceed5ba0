#!/usr/bin/env python3
"""Makes the table of permit cases and what they print, from the rules in docs/permits.md.

usage: tests/permit_vectors.py          writes crates/permit_cases/stdin and crates/permit_cases/stdout

A second implementation: it shares nothing with the crates but the rules.
"""
import os

MOST = 2**64 - 1
LEVELS = {0: "rw", 1: "r-", 2: "--"}


class Permit:
    def __init__(self):
        self.registers = {number: 0 for number in range(16)}
        self.segments = {0: 0, 1: 0}
        self.stack = 1048576

    def copy(self):
        permit = Permit()
        permit.registers = dict(self.registers)
        permit.segments = dict(self.segments)
        permit.stack = self.stack
        return permit

    def change(self, change):
        """Makes a change, and says whether it is taken."""
        part, numbers = change.split("=")
        if part == "stack":
            if int(numbers) > 1048576:
                return False
            self.stack = int(numbers)
            return True
        place, level = map(int, numbers.split(":"))
        places = self.registers if part == "register" else self.segments
        if place not in places or level not in LEVELS:
            return False
        places[place] = level
        return True

    def text(self):
        digits = "".join(str(self.registers[number]) for number in range(16))
        code, constants = self.segments[0], self.segments[1]
        parts = (digits, code, LEVELS[code], constants, LEVELS[constants], self.stack)
        return "registers %s code %d %s constants %d %s stack %d" % parts

    def is_as_open_as(self, other):
        mine = list(self.registers.values()) + list(self.segments.values())
        others = list(other.registers.values()) + list(other.segments.values())
        return self.stack >= other.stack and all(a <= b for a, b in zip(mine, others))


def made(permit, changes):
    """What changes of a permit print."""
    lines = []
    for change in changes:
        answer = "taken" if permit.change(change) else "refused 54"
        lines.append("  %s %s" % (answer, permit.text()))
    return lines


CASES = []


def case(name, first, second=()):
    permit = Permit()
    lines = ["%s:" % name] + made(permit, first) + ["  then"]
    further = permit.copy()
    lines += made(further, second)
    word = {True: "yes", False: "no"}
    answers = (word[permit.is_as_open_as(further)], word[further.is_as_open_as(permit)])
    lines.append("  first %s, second %s" % answers)
    CASES.append((" ".join([name, *first, "then", *second]), lines))


def register(number, level):
    return "register=%d:%d" % (number, level)


def segment(number, level):
    return "segment=%d:%d" % (number, level)


def stack(words):
    return "stack=%d" % words


# every part at a level, so that a change of another part would be seen
MIXED = [register(number, number % 3) for number in range(16)] + [segment(0, 1), segment(1, 2), stack(77)]

case("new", [])
for number in range(16):
    case("register-%d" % number, [register(number, level) for level in (1, 2, 0)], [register(number, 2)])
for number in (0, 1):
    case("segment-%d" % number, [segment(number, level) for level in (1, 2, 0)], [segment(number, 2)])
case("stack", [stack(words) for words in (0, 1, 2, 1048575, 1048576)], [stack(0)])
case("registers-of-mixed", MIXED, [register(number, (number + 1) % 3) for number in range(16)])
case("segments-of-mixed", MIXED, [segment(0, 0), segment(1, 0), segment(1, 1), segment(0, 2)])
case("stack-of-mixed", MIXED, [stack(1048576), stack(0)])
PLACES = (16, 17, 31, 255, 256, 257, 2**16, 2**32, 2**32 + 1, 2**32 + 15, 2**63, MOST)
case("register-numbers", MIXED, [register(number, 0) for number in PLACES])
case("segment-numbers", MIXED, [segment(number, 0) for number in (2, 3) + PLACES])
BAD_LEVELS = (3, 4, 255, 256, 257, 258, 2**32, 2**32 + 1, 2**32 + 2, 2**63, MOST)
for number in range(16):
    case("levels-of-register-%d" % number, [register(number, 1)], [register(number, level) for level in BAD_LEVELS])
for number in (0, 1):
    case("levels-of-segment-%d" % number, [segment(number, 1)], [segment(number, level) for level in BAD_LEVELS])
case("levels-of-mixed", MIXED, [register(0, 3), register(15, 3), segment(0, 3), segment(1, 3)])
case("place-and-level", MIXED, [register(16, 3), register(MOST, MOST), segment(2, 3), segment(MOST, MOST)])
case("words", MIXED, [stack(words) for words in (1048577, 1048578, 2**21, 2**31, 2**32 - 1, 2**32, 2**32 + 1, 2**63, MOST)])
case("taken-after-refused", [register(16, 1), register(15, 1), stack(1048577), stack(1048576), segment(2, 1), segment(1, 1)])
case("same", MIXED, [register(3, 0)])
for number in range(16):
    for low, high in ((0, 1), (1, 2), (0, 2)):
        case("order-register-%d-%d-%d" % (number, low, high), [register(number, low)], [register(number, high)])
        case("order-register-%d-%d-%d" % (number, high, low), [register(number, high)], [register(number, low)])
for number in (0, 1):
    for low, high in ((0, 1), (1, 2), (0, 2)):
        case("order-segment-%d-%d-%d" % (number, low, high), [segment(number, low)], [segment(number, high)])
        case("order-segment-%d-%d-%d" % (number, high, low), [segment(number, high)], [segment(number, low)])
for words in (1, 77, 1048575, 1048576):
    case("order-stack-%d-less" % words, [stack(words)], [stack(words - 1)])
    case("order-stack-%d-more" % words, [stack(words - 1)], [stack(words)])
case("order-least-open", [], [register(n, 2) for n in range(16)] + [segment(0, 2), segment(1, 2), stack(0)])
case("order-neither-register-and-stack", [register(15, 1)], [register(15, 0), stack(1048575)])
case("order-neither-two-registers", [register(0, 1)], [register(0, 0), register(15, 1)])
case("order-neither-two-segments", [segment(0, 1)], [segment(0, 0), segment(1, 1)])
case("order-neither-segment-and-stack", [segment(1, 2), stack(5)], [segment(1, 1), stack(4)])
case("order-neither-register-and-segment", [register(7, 2)], [register(7, 1), segment(0, 1)])

folder = os.path.join(os.path.dirname(os.path.abspath(__file__)), "..", "crates", "permit_cases")
with open(os.path.join(folder, "stdin"), "w") as out:
    out.write("".join(head + "\n" for head, _ in CASES))
with open(os.path.join(folder, "stdout"), "w") as out:
    out.write("".join(line + "\n" for _, lines in CASES for line in lines))
print("%d cases" % len(CASES))
