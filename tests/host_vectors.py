#!/usr/bin/env python3
"""Makes the table of host cases and what they print, from the rules in docs/hosts.md.

usage: tests/host_vectors.py          writes crates/host_cases/stdin and crates/host_cases/stdout

A second implementation: it shares nothing with the crates but the rules.
"""
import os

KINDS = {"number": 1, "real": 2, "character": 3}
COMMANDS = {0x4E: ("number", 4), 0x44: ("real", 8), 0x43: ("character", 1)}
CODES = {name: (byte, size) for byte, (name, size) in COMMANDS.items()}


def tape_items(data):
    """The items on a tape, and whether its end is spoiled."""
    items, at = [], 0
    while at < len(data):
        if data[at] not in COMMANDS:
            return items, True
        name, size = COMMANDS[data[at]]
        operand = data[at + 1 : at + 1 + size]
        if len(operand) < size:
            return items, True
        items.append((name, int.from_bytes(operand, "little")))
        at += 1 + size
    return items, False


def sheet_items(records):
    """The items on a sheet, and whether its end is spoiled."""
    items = []
    for kind, value in records:
        if kind == 1 and value < 2**32:
            items.append(("number", value))
        elif kind == 2:
            items.append(("real", value))
        elif kind == 3 and value < 256:
            items.append(("character", value))
        else:
            return items, True
    return items, False


def make_calls(items, spoiled, left, calls):
    """What calls print, and the items that they write."""
    lines, written, items = [], [], list(items)
    for call in calls:
        name, _, value = call.partition("=")
        if value:
            if left == 0:
                lines.append("  refused 45")
            else:
                written.append((name, int(value, 16)))
                left -= 1
                lines.append("  taken")
        elif not items:
            lines.append("  refused 43" if spoiled else "  refused 42")
        elif items[0][0] != name:
            lines.append("  refused 44")
        else:
            lines.append("  %s %x" % items.pop(0))
    return lines, written


def run(kind, writes, room, items, spoiled, calls):
    """What a case of a tape or a sheet prints past its first line."""
    each = 9 if kind == "tape" else 1
    refused = writes > 65536 or each * writes > room
    answers, written = make_calls(items, spoiled, 0 if refused else writes, calls)
    lines = (["  refused 46"] if refused else []) + answers
    if kind == "tape":
        data = b"".join(bytes([CODES[n][0]]) + v.to_bytes(CODES[n][1], "little") for n, v in written)
        lines.append("  written " + data.hex())
    else:
        lines.append("  written" + "".join(" %d:%x" % (KINDS[n], v) for n, v in written))
    lines.append("  rest untouched")
    return lines


CASES = []


def tape(name, writes, room, data, *calls):
    data = bytes.fromhex(data)
    items, spoiled = tape_items(data)
    head = "%s tape %d %d %s %s" % (name, writes, room, data.hex() or "-", " ".join(calls))
    CASES.append((head.rstrip(), ["%s:" % name] + run("tape", writes, room, items, spoiled, calls)))


def sheet(name, writes, room, records, *calls):
    items, spoiled = sheet_items(records)
    text = ",".join("%d:%x" % r for r in records) or "-"
    head = "%s sheet %d %d %s %s" % (name, writes, room, text, " ".join(calls))
    CASES.append((head.rstrip(), ["%s:" % name] + run("sheet", writes, room, items, spoiled, calls)))


def counting(name, next, end, *calls):
    """A case of a counting host: at most the first 100 numbers are made here, more than any case gets."""
    items = [("number", n) for n in range(next, min(end, next + 100))]
    lines, written = make_calls(items, False, 16, calls)
    head = "%s counting %d %d %s" % (name, next, end, " ".join(calls))
    lines += ["  written"] + ["  %s %x" % item for item in written]
    CASES.append((head.rstrip(), ["%s:" % name] + lines))


GETS = ("number", "real", "character")
GOOD = "4e05000000" + "440000000000e06f40" + "4341"
for get in GETS:
    tape("tape-empty-" + get, 0, 0, "", get)
    tape("tape-number-" + get, 0, 0, "4e78563412", get, get)
    tape("tape-real-" + get, 0, 0, "440102030405060708", get, get)
    tape("tape-character-" + get, 0, 0, "43ff", get, get)
    sheet("sheet-empty-" + get, 0, 0, [], get)
    sheet("sheet-number-" + get, 0, 0, [(1, 0x12345678)], get, get)
    sheet("sheet-real-" + get, 0, 0, [(2, 0x0807060504030201)], get, get)
    sheet("sheet-character-" + get, 0, 0, [(3, 255)], get, get)
tape("tape-all-in-order", 0, 0, GOOD, "number", "real", "character", "character")
tape("tape-refused-is-not-taken", 0, 0, GOOD, "real", "character", "number", "number", "real", "number", "character")
sheet("sheet-all-in-order", 0, 0, [(1, 5), (2, 2**64 - 1), (3, 65)], "number", "real", "character", "character")
sheet("sheet-refused-is-not-taken", 0, 0, [(1, 5), (3, 65)], "character", "number", "number", "real", "character")
for cut in range(1, 5):
    tape("tape-number-cut-%d" % cut, 0, 0, "4e05000000"[: 2 * cut], "number")
for cut in range(1, 9):
    tape("tape-real-cut-%d" % cut, 0, 0, "440102030405060708"[: 2 * cut], "real")
tape("tape-character-cut", 0, 0, "43", "character")
for byte in ("00", "42", "45", "4d", "4f", "ff"):
    tape("tape-byte-%s" % byte, 0, 0, byte + "05000000", "number", "real", "character")
tape("tape-spoiled-after-items", 0, 0, GOOD + "99", "number", "real", "character", "number", "character")
tape("tape-cut-after-items", 0, 0, GOOD + "4e0102", "number", "real", "character", "number")
tape("tape-spoiled-hides-what-follows", 0, 0, "00" + GOOD, "number")
tape("tape-command-in-an-operand", 0, 0, "4e434e4443" + "434e", "number", "character")
sheet("sheet-number-largest", 0, 0, [(1, 2**32 - 1)], "number")
sheet("sheet-number-too-large", 0, 0, [(1, 2**32)], "number")
sheet("sheet-character-largest", 0, 0, [(3, 255)], "character")
sheet("sheet-character-too-large", 0, 0, [(3, 256)], "character")
for kind in (0, 4, 5, 2**32 - 1):
    sheet("sheet-kind-%d" % kind, 0, 0, [(kind, 1)], "number", "real", "character")
sheet("sheet-spoiled-after-items", 0, 0, [(1, 5), (2, 6), (0, 7), (1, 8)], "number", "real", "number", "character")
WRITE = ("number=ffffffff", "real=fff8000000000001", "character=0", "number=0", "real=0", "character=ff")
for count in range(7):
    tape("tape-%d-writes" % count, count, 54, "", *WRITE)
    sheet("sheet-%d-writes" % count, count, 6, [], *WRITE)
for writes, room in ((1, 9), (1, 8), (2, 18), (2, 17), (0, 0), (1, 0)):
    tape("tape-%d-writes-in-%d-bytes" % (writes, room), writes, room, "", "real=1", "real=2", "real=3")
for writes, room in ((1, 1), (1, 0), (2, 2), (2, 1), (0, 0)):
    sheet("sheet-%d-writes-in-%d-records" % (writes, room), writes, room, [], "real=1", "real=2", "real=3")
tape("tape-65536-writes", 65536, 589824, "", "number=1")
tape("tape-65536-writes-one-byte-short", 65536, 589823, "", "number=1")
tape("tape-65537-writes", 65537, 600000, "", "number=1")
tape("tape-most-writes", 2**64 - 1, 64, "", "number=1")
sheet("sheet-65536-writes", 65536, 65536, [], "number=1")
sheet("sheet-65536-writes-one-record-short", 65536, 65535, [], "number=1")
sheet("sheet-65537-writes", 65537, 70000, [], "number=1")
sheet("sheet-most-writes", 2**64 - 1, 64, [], "number=1")
tape("tape-both-ways", 2, 20, GOOD, "number", "number=5", "character", "real=406fe00000000000", "real", "character=41", "character")
sheet("sheet-both-ways", 2, 3, [(1, 5), (2, 6), (3, 65)], "number", "number=5", "character", "real=6", "real", "character=41", "character")
for next, end in ((0, 0), (5, 5), (6, 5), (2**32 - 1, 0), (2**32 - 1, 2**32 - 1)):
    counting("counting-%d-to-%d" % (next, end), next, end, *GETS)
for next, end in ((0, 1), (0, 3), (7, 9), (255, 257), (2**31 - 1, 2**31 + 1), (2**32 - 3, 2**32 - 1), (2**32 - 2, 2**32 - 1)):
    counting("counting-%d-to-%d" % (next, end), next, end, *["number"] * (end - next + 2))
counting("counting-most-numbers", 0, 2**32 - 1, *["number"] * 20)
counting("counting-refused-is-not-taken", 3, 5, "real", "number", "character", "real", "number", "real", "number")
for count in (1, 15, 16, 17, 18):
    counting("counting-%d-writes" % count, 0, 0, *["number=%x" % n for n in range(count)])
counting("counting-each-kind", 0, 0, *WRITE)
counting("counting-both-ways", 8, 10, "number", "real=8", "number", "character=9", "number", "number=0")

folder = os.path.join(os.path.dirname(os.path.abspath(__file__)), "..", "crates", "host_cases")
with open(os.path.join(folder, "stdin"), "w") as out:
    out.write("".join(head + "\n" for head, _ in CASES))
with open(os.path.join(folder, "stdout"), "w") as out:
    out.write("".join(line + "\n" for _, lines in CASES for line in lines))
print("%d cases" % len(CASES))
