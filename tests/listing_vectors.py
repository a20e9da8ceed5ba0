#!/usr/bin/env python3
"""Writes the table of listing cases and what they should give.

    tests/listing_vectors.py        writes crates/vectors/stdin and crates/vectors/stdout

This is a second implementation of the executable check and the listing, written from docs/ and not from the
Rattle code, so that the two can be compared. crates/vectors/src/bytes.rt says what the tokens mean.
"""
import os
import struct

from commands import J, RI, RM, RR, TABLE


def signed(value, bits):
    return value - (1 << bits) if value >> (bits - 1) else value


def code_line(word):
    code, first = word >> 24, word >> 20 & 15
    if code >= 54:
        return "word %d" % word
    name, form = TABLE[code]
    if form == RR:
        return "%s r%d r%d %d" % (name, first, word >> 16 & 15, signed(word & 0xFFFF, 16))
    if form == RI:
        return "%s r%d %d" % (name, first, signed(word & 0xFFFFF, 20))
    if form == RM:
        return "%s r%d %d" % (name, first, word & 0xFFFFF)
    return "%s %d" % (name, word & 0xFFFFF) if first == 0 else "word %d" % word


def listing(data):
    """The listing of some bytes, or the number of the refusal."""
    if len(data) < 512:
        return 20
    if data[:16] != b"ThisIsKarmaExec\0":
        return 21
    code, constants, first, stack, processor = struct.unpack("<5I", data[16:36])
    if processor != 239:
        return 22
    if any(data[36:512]):
        return 23
    if code % 4 or constants % 4 or code + constants > 262144:
        return 24
    if len(data) != 512 + code + constants:
        return 25
    if first >= 1 << 20 or stack >= 1 << 20:
        return 26
    words = [w for (w,) in struct.iter_unpack("<I", data[512:])]
    lines = ["stack %d" % stack]
    lines += [code_line(w) for w in words[: code // 4]]
    lines += ["uint32 %d" % w for w in words[code // 4 :]]
    lines.append("end %d" % first)
    return "".join(line + "\n" for line in lines).encode()


def bytes_of(tokens):
    data = b""
    for token in tokens:
        kind, rest = token.split(":", 1)
        if kind == "t":
            data += rest.encode()
            continue
        number, _, times = rest.partition("*")
        value, times = int(number, 16), int(times or 1)
        data += (struct.pack("<I", value) if kind == "w" else bytes([value])) * times
    return data


def checksum(data):
    total = 0
    for byte in data:
        total = (total * 31 + byte) & 0xFFFFFFFF
    return total


def header(code, constants, first=0, stack=1048575, processor=239, mark="ThisIsKarmaExec", end="b:0", filler=("b:0*476",)):
    return ["t:" + mark, end, "w:%X" % code, "w:%X" % constants, "w:%X" % first, "w:%X" % stack, "w:%X" % processor, *filler]


def program(code, constants=(), **more):
    return header(4 * len(code), 4 * len(constants), **more) + ["w:%X" % w for w in (*code, *constants)]


CASES = []


def case(name, tokens, room=None, show="text"):
    data = bytes_of(tokens)
    gives = listing(data)
    if room is None:
        room = 3 if isinstance(gives, int) else len(gives)
    if not isinstance(gives, int) and len(gives) > room:
        gives = 27
    CASES.append((name, room, show, tokens, gives))


def printout(name, tokens):
    """What the listing program prints: at most 8,192 bytes are taken."""
    data = bytes_of(tokens)
    CASES.append((name, 0, "printout", tokens, 25 if len(data) > 8192 else listing(data)))


def word(code, first=0, source=0, low=0):
    return code << 24 | first << 20 | source << 16 | low


# 20: at least 512 bytes
case("empty", [])
case("511-bytes", header(0, 0)[:-1] + ["b:0*475"])
case("header-alone", header(0, 0))
case("short-and-unmarked", ["b:0*511"])
# 21: the mark
case("no-mark", ["b:0*512"])
case("mark-first-byte", header(0, 0, mark="thisIsKarmaExec"))
case("mark-last-letter", header(0, 0, mark="ThisIsKarmaExeC"))
case("mark-not-ended", header(0, 0, end="b:20"))
case("unmarked-and-other-processor", header(0, 0, mark="ThisIsKarmaexec", processor=1))
# 22: the processor
case("processor-238", header(0, 0, processor=238))
case("processor-240", header(0, 0, processor=240))
case("processor-high-byte", header(0, 0, processor=239 + (1 << 24)))
case("processor-0", header(0, 0, processor=0))
case("other-processor-and-filler", header(0, 0, processor=7, filler=("b:1*476",)))
# 23: the filler
case("filler-first", header(0, 0, filler=("b:1", "b:0*475")))
case("filler-last", header(0, 0, filler=("b:0*475", "b:80")))
case("filler-middle", header(0, 0, filler=("b:0*200", "b:FF", "b:0*275")))
case("filler-and-sizes", header(1, 0, filler=("b:0*475", "b:1")))
# 24: the sizes
for size in (1, 2, 3, 5, 7):
    case("code-size-%d" % size, header(size, 0) + ["b:0*%d" % size])
    case("constants-size-%d" % size, header(0, size) + ["b:0*%d" % size])
case("sizes-2-and-2", header(2, 2) + ["b:0*4"])
case("sizes-262144", header(262144, 0) + ["w:2912FFFB*65536"], room=2000000, show="sum")
case("sizes-262144-shared", header(4, 262140) + ["w:FFFFFFFF*65536"], room=2000000, show="sum")
case("sizes-262148", header(262144, 4) + ["w:0*65537"], show="sum")
case("code-size-262148", header(262148, 0) + ["w:0*65537"], show="sum")
case("sizes-wrap-to-0", header(0xFFFFFFFC, 4))
case("sizes-wrap-to-8", header(0x80000000, 0x80000008) + ["w:0*2"])
case("sizes-and-length", header(6, 0))
# 25: the length
case("one-byte-less", header(4, 0) + ["b:0*3"])
case("one-byte-more", header(4, 0) + ["b:0*5"])
case("one-word-more", header(4, 4) + ["w:0*3"])
case("length-and-addresses", header(4, 0, first=1 << 20))
# 26: the addresses
case("first-largest", program([0], first=1048575))
case("first-too-large", program([0], first=1048576))
case("first-all-bits", program([0], first=0xFFFFFFFF))
case("stack-largest", program([0], stack=1048575))
case("stack-too-large", program([0], stack=1048576))
case("stack-0", program([0], stack=0))
# 27: the output
SMALL = program([word(39, 1, 15, 0xFFFF), word(30)], [65, 0])
case("example", SMALL)
case("one-byte-too-short", SMALL, room=53)
case("no-output", SMALL, room=0)
case("one-byte-left", SMALL, room=55)
case("much-left", SMALL, room=300)
case("empty-program-too-short", header(0, 0), room=19)
case("refusal-before-the-output", header(0, 0, first=1 << 20), room=0)
case("largest-too-short", header(262144, 0) + ["w:312F8000*65536"], room=1500000, show="sum")
# each command with its smallest and its largest fields
for code, (name, form) in enumerate(TABLE):
    fields = {
        RR: [(0, 0, 0), (15, 15, 0x7FFF), (15, 0, 0x8000), (0, 15, 0xFFFF), (1, 2, 0xFFFB)],
        RI: [(0, 0, 0), (15, 7, 0xFFFF), (15, 8, 0), (0, 15, 0xFFFF), (9, 0, 10)],
        RM: [(0, 0, 0), (15, 15, 0xFFFF), (10, 8, 0), (0, 7, 0xFFFF)],
        J: [(0, 0, 0), (0, 15, 0xFFFF), (0, 8, 0), (1, 0, 0), (8, 15, 0xFFFF), (15, 15, 0xFFFF)],
    }[form]
    case("command-" + name, program([word(code, *field) for field in fields]))
case("codes-past-the-last", program([word(54), word(54, 15, 15, 0xFFFF), word(255), 0xFFFFFFFF]))
case("constants", program([], [0, 1, 9, 10, 99, 100, 999999999, 1000000000, 4294967295]))
# the listing program
printout("program-empty", [])
printout("program-example", SMALL)
printout("program-unmarked", ["b:0*512"])
printout("program-8192-bytes", header(4000, 3680) + ["w:312F8000*1000", "w:FFFFFFFF*920"])
printout("program-8192-bytes-refused", header(7676, 0) + ["b:0*7680"])
printout("program-8193-bytes", header(7680, 0) + ["b:0*7681"])
printout("program-8196-bytes", header(7684, 0) + ["w:0*1921"])
printout("program-8193-other-bytes", ["b:55*8193"])
printout("program-20000-bytes", ["b:0*20000"])

top = os.path.join(os.path.dirname(os.path.abspath(__file__)), "..", "crates", "vectors")
with open(os.path.join(top, "stdin"), "w") as cases, open(os.path.join(top, "stdout"), "wb") as expected:
    for name, room, show, tokens, gives in CASES:
        cases.write(" ".join([name, str(room), show, *tokens]) + "\n")
        if show == "printout":
            text = b"refused %d\n" % gives if isinstance(gives, int) else gives
            expected.write(b"%s: prints %d status %d\n" % (name.encode(), len(text), isinstance(gives, int)) + text)
        elif isinstance(gives, int):
            line = "%s: refused %d output %d\n" % (name, gives, checksum(b"\x07" * room))
            expected.write(line.encode())
        else:
            out = gives + b"\x07" * (room - len(gives))
            expected.write(("%s: length %d output %d\n" % (name, len(gives), checksum(out))).encode())
            expected.write(gives if show == "text" else b"")
print(len(CASES), "cases")
