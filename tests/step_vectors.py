#!/usr/bin/env python3
"""Makes the table of processor step cases and what they print, from the rules of the processor.

usage: tests/step_vectors.py          writes crates/step_cases/stdin and crates/step_cases/stdout

A second implementation: it shares nothing with the crates but the rules. A line of stdin is
  NAME SIZE CODE CONSTANTS STACK STEPS SETTING..
the cells of the memory, the words of the two segments, the pointer that the stack bound is measured from, the most steps.
"""
import copy
import math
import os
import random
import re
import struct

from commands import J, RI, RM, RR, TABLE

# ---- The interpreter ----

WORD, NAN = 2**32, 0x7FF8000000000000
CODES = {name: code for code, (name, _) in enumerate(TABLE)}
FORMS = dict(TABLE)
FLAGS = {None: 0, "none": 2, "greater": 22, "less": 42, "equal": 49}
JUMPS = {"jeq": 0, "jne": 1, "jg": 2, "jl": 3, "jge": 4, "jle": 5}
SYSTEM = dict(EXIT=0, SCANINT=100, SCANDOUBLE=101, PRINTINT=102, PRINTDOUBLE=103, GETCHAR=104, PUTCHAR=105)
ITEM = re.compile(b"N(?P<number>.{4})|D(?P<real>.{8})|C(?P<character>.)", re.DOTALL)
# What is asked of the first register and of the source: R reading, W writing (only level 0 allows it, so reading the same
# register needs no entry of its own), 2 for the register and the next one. A command with W has its result written there.
USES = """halt,jmp,jne,jeq,jle,jl,jge,jg,prc,calli,ret - -; EXIT,PRINTINT,PUTCHAR,cmpi,push,store R -; PRINTDOUBLE,store2 R2 -
SCANINT,GETCHAR,addi,subi,not,shli,shri,andi,ori,xori,pop,lc,la,load W -; SCANDOUBLE,muli,divi,load2 W2 -
cmp,storer R R; storer2 R2 R; cmpd R2 R2; add,sub,shl,shr,and,or,xor,mov,loadr,call W R; dtoi W R2
mul,div,itod,loadr2 W2 R; addd,subd,muld,divd W2 R2""".replace("\n", ";").split(";")
USES = {name: row.split()[1:] for row in USES for name in row.split()[0].split(",")}


class Fault(Exception):
    """A question that gets a no, by its number."""


def ask(number, yes, value=None):
    if not yes:
        raise Fault(number)
    return value


def tape_items(data):
    """The items on a tape, and whether its end is spoiled."""
    items = []
    while match := ITEM.match(data):
        items.append((match.lastgroup, int.from_bytes(match[match.lastgroup], "little")))
        data = data[match.end() :]
    return items, data != b""


class Machine:
    """Registers, flags, cells (those not in the table hold 0), permit and host, as the settings of a case give them."""

    def __init__(self, size, code, constants, stack, given):
        self.size, self.code, self.constants, self.stack = size, code, constants, stack
        self.r = [int(given.get("r%d" % n, "0"), 16) for n in range(16)]
        self.flags = FLAGS[given.get("order")]
        self.cells = {int(key[1:]): int(value, 16) for key, value in given.items() if key[0] == "c" and key[1:].isdigit()}
        self.levels = [int(given.get("level%d" % n, "0")) for n in range(16)]
        self.code_level, self.constants_level = int(given.get("code", "0")), int(given.get("constants", "0"))
        self.maximum = int(given.get("maximum", "1048576"))
        self.items, self.spoiled = tape_items(bytes.fromhex(given.get("input", "")))
        self.written, self.left = b"", int(given.get("writes", "0"))

    def pair(self, n):
        return self.r[n] + self.r[n + 1] * WORD

    def compare(self, x, y):
        self.flags = FLAGS["less" if x < y else "greater" if x > y else "equal" if x == y else "none"]

    def get(self, kind):
        ask(42, self.items or self.spoiled)
        ask(43, self.items)
        ask(44, self.items[0][0] == kind)
        return self.items.pop(0)[1]

    def put(self, byte, size, value):
        ask(45, self.left > 0)
        self.written += byte + value.to_bytes(size, "little")
        self.left -= 1

    def touch(self, address, highest):
        ask(39, address < self.size)
        in_constants = self.code <= address < self.code + self.constants
        ask(40, (self.code_level if address < self.code else self.constants_level if in_constants else 0) <= highest)

    def read(self, address):
        self.touch(address, 1)
        return self.cells.get(address, 0)

    def write(self, address, value):
        self.touch(address, 0)
        self.cells[address] = value

    def push(self, value):
        head = self.r[14]
        self.touch(head, 0)
        ask(41, head > self.stack or self.stack - head + 1 <= self.maximum)
        self.cells[head] = value % WORD
        self.r[14] = (head - 1) % WORD

    def pop(self):
        self.r[14] = (self.r[14] + 1) % WORD
        return self.read(self.r[14])

    def frame(self):
        self.push(self.r[13])
        self.r[13] = self.r[14]

    def call(self):
        back = self.r[15]
        self.push(back)
        self.frame()
        return back

    def ret(self):
        self.r[14] = self.r[13]
        self.r[13] = self.pop()
        self.r[15] = self.pop()
        self.r[14] = self.r[13]
        self.r[13] = self.pop()


def real(bits):
    return struct.unpack("<d", struct.pack("<Q", bits))[0]


def bits(value):
    return NAN if math.isnan(value) else struct.unpack("<Q", struct.pack("<d", value))[0]


def real_quotient(x, y):
    if y != 0:
        return x / y
    return math.nan if x == 0 or math.isnan(x) else math.copysign(math.inf, x) * math.copysign(1.0, y)


def on_reals(operation):
    return lambda m, a, s, v: bits(operation(real(m.pair(a)), real(m.pair(s))))


def divide(x, v):
    ask(36, v != 0 and x // v < WORD)
    return x // v + x % v * WORD


def signed(field, width):
    return field - (1 << width) if field >> (width - 1) else field


# What a command does to a machine m with first register a, source register s and operand value v, and its result.
EFFECTS = {
    "SCANINT": lambda m, a, s, v: m.get("number"), "PRINTINT": lambda m, a, s, v: m.put(b"N", 4, m.r[a]),
    "SCANDOUBLE": lambda m, a, s, v: m.get("real"), "PRINTDOUBLE": lambda m, a, s, v: m.put(b"D", 8, m.pair(a)),
    "GETCHAR": lambda m, a, s, v: m.get("character"),
    "PUTCHAR": lambda m, a, s, v: m.put(b"C", 1, ask(38, m.r[a] <= 255, m.r[a])),
    "add": lambda m, a, s, v: m.r[a] + v, "sub": lambda m, a, s, v: m.r[a] - v, "mul": lambda m, a, s, v: m.r[a] * v,
    "div": lambda m, a, s, v: divide(m.pair(a), v), "not": lambda m, a, s, v: ~m.r[a], "lc": lambda m, a, s, v: v,
    "and": lambda m, a, s, v: m.r[a] & v, "or": lambda m, a, s, v: m.r[a] | v, "xor": lambda m, a, s, v: m.r[a] ^ v,
    "shl": lambda m, a, s, v: m.r[a] << ask(35, v <= 31, v), "shr": lambda m, a, s, v: m.r[a] >> ask(35, v <= 31, v),
    "addd": on_reals(lambda x, y: x + y), "subd": on_reals(lambda x, y: x - y), "muld": on_reals(lambda x, y: x * y),
    "divd": on_reals(real_quotient), "itod": lambda m, a, s, v: bits(float(v)),
    "dtoi": lambda m, a, s, v: int(ask(37, -1 < real(m.pair(s)) < WORD, real(m.pair(s)))),
    "cmp": lambda m, a, s, v: m.compare(m.r[a], v), "cmpd": lambda m, a, s, v: m.compare(real(m.pair(a)), real(m.pair(s))),
    "load": lambda m, a, s, v: m.read(v), "load2": lambda m, a, s, v: m.read(v) + m.read(v + 1) * WORD,
    "store": lambda m, a, s, v: m.write(v, m.r[a]),
    "store2": lambda m, a, s, v: (m.write(v, m.r[a]), m.write(v + 1, m.r[a + 1])),
    "push": lambda m, a, s, v: m.push(m.r[a] + v), "pop": lambda m, a, s, v: m.pop() + v,
    "prc": lambda m, a, s, v: m.frame(), "call": lambda m, a, s, v: m.call(), "ret": lambda m, a, s, v: m.ret(),
}  # fmt: skip
SAME = dict(addi="add", subi="sub", muli="mul", divi="div", shli="shl", shri="shr", andi="and", ori="or", xori="xor", cmpi="cmp")
SAME.update(la="lc", mov="lc", loadr="load", loadr2="load2", storer="store", storer2="store2", calli="call")


def step(m):
    """One step; None, or how the run ends. A machine on which this raises a fault is not used again."""
    ask(30, m.r[15] < m.size)
    word = m.cells.get(m.r[15], 0)
    m.r[15] += 1
    code, a, s, v = word >> 24, word >> 20 & 15, word >> 16 & 15, word & 0xFFFFF
    ask(31, code < len(TABLE))
    name, form = TABLE[code]
    if form == RR:
        v = (m.r[s] + signed(word & 0xFFFF, 16)) % WORD
    elif form == RI:
        v = signed(v, 20) % WORD
    if name == "syscall":
        ask(32, v in SYSTEM.values())
        name = {number: call for call, number in SYSTEM.items()}[v]
    uses = [(use, n) for use, n in zip(USES[name], (a, s)) if use != "-"]
    ask(33, all(n < 15 for use, n in uses if use[1:]))
    ask(34, all(m.levels[k] <= "WR".index(use[0]) for use, n in uses for k in range(n, n + len(use))))
    ask(39, name != "call" or v < m.size)
    result = EFFECTS.get(SAME.get(name, name), lambda m, a, s, v: None)(m, a, s, v)
    if USES[name][0][0] == "W":
        m.r[a] = result % WORD
    if USES[name][0] == "W2":
        m.r[a + 1] = result // WORD
    if name in ("jmp", "call", "calli") or name in JUMPS and m.flags >> JUMPS[name] & 1:
        m.r[15] = v
    return {"halt": "halted", "EXIT": "exited %x" % m.r[a]}.get(name)


def run(m, steps):
    """The machine after the steps, and how they end."""
    for taken in range(steps):
        after = copy.deepcopy(m)
        try:
            end = step(after)
        except Fault as fault:
            number = fault.args[0]
            return m, "%d fault %d at %d in %s" % (taken, number, m.r[15], "host" if 42 <= number <= 45 else "machine")
        m = after
        if end:
            return m, "%d %s" % (taken + 1, end)
    return m, "%d next" % steps


def report(before, after, end):
    """What a case prints past its first line."""
    lines = ["steps " + end] + ["r%d %x" % (n, after.r[n]) for n in range(16) if after.r[n] != before.r[n]]
    lines.append("flags %d" % after.flags)
    lines += ["c%d %x" % (n, after.cells[n]) for n in sorted(after.cells) if after.cells[n] != before.cells.get(n, 0)]
    waiting = "%s %x" % after.items[0] if after.items else "refused %d" % (43 if after.spoiled else 42)
    return ["  " + line for line in lines + [("written " + after.written.hex()).rstrip(), "waits " + waiting]]


# ---- The cases ----

CASES = {}
BASE = dict({"r%d" % n: "%x" % (0x110 + 0x11 * n) for n in range(13)}, r13="3f0", r14="3e8")
FULL = dict(size=2**20, stack=2**20 - 1)


def w(text):
    """The word of a command, `mov 1 2 -5` for `mov r1 r2 -5`; a system call has its register alone; a number is itself."""
    name, *operands = text.split()
    if name not in SYSTEM and name not in FORMS:
        return int(name)
    *registers, number = map(int, operands + [SYSTEM[name]] if name in SYSTEM else operands)
    form, (first, source) = FORMS.get(name, RI), (registers + [0, 0])[:2]
    assert len(registers) == {RR: 2, RI: 1, RM: 1, J: 0}[form], text
    last = source << 16 | number & 0xFFFF if form == RR else number & 0xFFFFF
    return CODES.get(name, CODES["syscall"]) << 24 | first << 20 | last


def fit(name, first, source, number):
    """A command's text with those of the operands that its form has."""
    operands = {RR: (first, source, number), J: (number,), None: (first,)}.get(FORMS.get(name), (first, number))
    return " ".join(map(str, (name,) + operands))


assert (w("mov 1 2 -5"), w("lc 7 -1"), w("calli 21913")) == (0x2912FFFB, 0x277FFFFF, 0x34005599)


def case(name, words, settings="", steps=None, at=16, size=1024, code=64, constants=16, stack=1000):
    """Puts the words from cell `at` on, r15 there and BASE in the other registers; the settings come last."""
    words = [w(word) for word in words.split(";")]
    given = dict(BASE, r15="%x" % at, **{"c%d" % (at + n): "%x" % word for n, word in enumerate(words)})
    given.update(setting.split("=") for setting in settings.split())
    before, steps = Machine(size, code, constants, stack, given), len(words) if steps is None else steps
    name += "" if size == 1024 else "-of-%d" % size
    assert name not in CASES and code + constants <= min(size, 65536) and stack < size, name
    assert all(v < WORD for v in before.r + list(before.cells.values())) and max(before.cells) < size, name
    after, end = run(before, steps)
    head = "%s %d %d %d %d %d" % (name, size, code, constants, stack, steps)
    CASES[name] = (head + "".join(" %s=%s" % item for item in given.items() if item[1]), report(before, after, end))
    return end


def pairs(value, *registers):
    return "".join(" r%d=%x r%d=%x" % (n, value % WORD, n + 1, value // WORD) for n in registers)


# Each command and system call: name, number and settings. First all that it does not name is closed (and bits 20 to 23 of
# a J word are set), then each register that it names; then registers 13 to 15 are named.
SAMPLES = """halt 5/EXIT 0/SCANINT 0 input=4e785634124e010000004eff000000/PRINTINT 0 writes=3/PRINTDOUBLE 0 writes=2
SCANDOUBLE 0 input=440102030405060708441122334455667788/GETCHAR 0 input=43ff43414300/PUTCHAR 0 r1=41 r14=ff r13=0 writes=4
add -3/addi -3/sub 5/subi -5/mul -2 r1=89abcdef/muli 100000 r1=89abcdef/div 1800 r14=5/divi 2000 r14=5/not 77
shl -352 r1=89abcdef/shli 7 r1=89abcdef/shr -352 r1=89abcdef/shri 7 r1=89abcdef/and -1/andi -2/or 5/ori 6/xor -7/xori 127/itod 5
dtoi 9 r5=0 r6=40590000/addd 9 r1=0 r2=40590000 r5=0 r6=3ff80000/subd -9 r1=0 r2=40590000 r5=0 r6=3ff80000
muld 9 r1=0 r2=40590000 r5=0 r6=3ff80000/divd -9 r1=0 r2=40590000 r5=0 r6=3ff80000/cmp 2/cmpi 0
cmpd 9 r1=0 r2=40590000 r5=0 r6=40590000/jmp 32/jne 32 order=none/jeq 32 order=equal/jle 32 order=less/jl 32 order=less
jge 32 order=greater/jg 32 order=greater/push 255/lc 123/la 43807/mov 10/pop 3 c1001=aabbccdd c1002=30 c54=90
load 300 c300=aabbccdd c302=123 c304=45/store 300/store2 300/load2 300 c300=aabbccdd c301=11223344 c302=123 c303=45
loadr 15 c372=aabbccdd/loadr2 15 c372=aabbccdd c373=11223344/storer -3/storer2 -13/prc 0/call 2/calli 40
ret 0 c1009=3f8 c1010=20 c1017=3fc"""
SAMPLES = [(row + " ").split(" ", 2) for row in re.split("[/\n]", SAMPLES)]
assert {name for name, _, _ in SAMPLES} | {"syscall"} == set(FORMS) | set(SYSTEM)
for name, number, settings in SAMPLES:
    number, (first, source) = int(number), USES[name]
    named = {1: first[0], 2: first[0] if first[1:] else "-", 5: source[0], 6: source[0] if source[1:] else "-"}
    least = {n: "WR-".index(named.get(n, "-")) for n in range(16)}
    word = fit(name, 1, 5, number) if FORMS.get(name) != J else str(w(fit(name, 1, 5, number)) | 0xF00000)
    case(name + "-all-else-closed", word, settings + " code=1" + "".join(" level%d=%d" % item for item in least.items()))
    for n in (1, 2, 5, 6):
        for level in range(least[n] + 1, 3):
            case("%s-r%d-level-%d" % (name, n, level), word, "%s level%d=%d" % (settings, n, level))
    for a, s in ((13, 14 if source[1:] else 15), (14, 13), (15, 14)):
        if source != "-" and not (a == 15 and first[1:]):
            given = settings + " c10=a0 c11=a1 c18=b0 c19=b1 c20=1c0 c21=1c1 order=none"
            case("%s-r%d-r%d" % (name, a, s), fit(name, a, s, 3 if s == 15 else -990), given)
    if source == "-" != first:
        words = [fit(name, n, 0, number + 2 * n - 26) for n in (13, 14, 15) if n < 15 or not first[1:]]
        case(name + "-r13-and-on", ";".join(words), settings + " order=less")
for n in (13, 14, 15):
    for name, level in (("push", 2), ("pop", 1), ("call", 1)):
        case("%s-r%d-level-%d" % (name, n, level), fit(name, n, 5, 0), "level%d=%d" % (n, level))

# Halts, words without a command, system calls without a name.
case("no-steps", "addi 1 1", steps=0)
case("halt-ends-the-steps", "halt 15 -1; addi 1 1", "level15=2")
case("exit-ends-the-steps", "addi 1 1; EXIT 1; addi 1 1")
case("exit-r14", "EXIT 14")
case("exit-r15", "EXIT 15")
case("zero-is-halt", "0; addi 1 1")
for code in (54, 55, 64, 127, 128, 255):
    case("code-%d" % code, str(code << 24 | 0xF00064), "level1=2 level15=2")
for number in (1, 99, 106, 65636, -1, -100, -524288):
    case("syscall-%d" % number, "syscall 1 %d" % number, "input=4e01000000 writes=1")

# Sums, differences, bits, comparisons, products: r0 to r7 hold x.
INTEGERS = list(enumerate("add sub and or xor cmp mul".split()))
for x, base, v in (
    (7, 5, 0), (WORD - 1, 1, 0), (1, 0, -1), (0, 1, 0), (1 << 31, 1 << 31, 0), (WORD - 1, WORD - 1, 0),
    (WORD - 1, WORD - 1, 1), (0x12345678, 0x9ABCDEF0, 32767), (0x12345678, 0x9ABCDEF0, -32768), (0xFFFF8000, 0, -32768),
):  # fmt: skip
    words = ";".join("%s %d 8 %d" % (name, n, v) for n, name in INTEGERS)
    case("whole-%x-%x%+d" % (x, base, v), words, "".join("r%d=%x " % (n, x) for n in range(8)) + "r8=%x" % base)
for x, v in ((5, 7), (WORD - 1, 1), (0, 1), (0, -1), (WORD - 1, -1), (0x12345678, 524287), (0xFFF80000, -524288)):
    words = ";".join("%si %d %d" % (name, n, v) for n, name in INTEGERS) + ";not 8 %d" % v
    case("whole-%x%+d" % (x, v), words, "".join("r%d=%x " % (n, x) for n in range(9)))
for v in (0, 524287, -1, -524288):
    case("lc-%d" % v, "lc 1 {0}; la 2 {0}; mov 3 1 -1; mov 4 3 1; cmp 1 4 0".format(v))
case("products-in-a-row", "mul 0 1 0; mul 1 0 0; muli 1 -1; mul 2 2 0", "r1=ffffffff r0=ffffffff")

# Shifts by a sum and by an immediate; where the first word gets a no, the other one goes first in a second case.
for base, v in ((0, 0), (1, 0), (31, 0), (32, 0), (WORD - 1, 0), (1 << 31, 0), (WORD - 2, 3), (5, -5), (5, -6), (42, -10)):
    for form in ("", "i") if v == 0 and base != 1 << 31 else ("",):
        words = [fit(name + form, n, 5, base if form else v) for n, name in ((1, "shl"), (2, "shr"))]
        given = "r1=c0000003 r2=c0000003 r5=%x" % base
        if "fault" in case("shl%s-by-%x%+d" % (form, base, v), ";".join(words), given):
            case("shr%s-by-%x%+d" % (form, base, v), ";".join(words[::-1]), given)
case("shl-by-itself", "shl 1 1 0; shr 2 2 0; shl 15 1 -96", "r1=5 r2=1f")

# Division, by a sum and, where it has the form, by an immediate.
for dividend, divisor in (
    (7, 2), (7, 0), (0, 0), (2**32, 2), (2**33, 2), (2**33 - 1, 2), (2**32, 1), (2**64 - 2**32 - 1, WORD - 1), (2**64 - 1, 0),
    (2**64 - 2**32, WORD - 1), (2**63, 2**31), (2**63 - 1, 2**31), (524287 * WORD - 1, 524287), (2**64 - 1, WORD - 524288),
):  # fmt: skip
    case("div-%x-by-%x" % (dividend, divisor), "div 1 5 1", pairs(dividend, 1) + " r5=%x" % ((divisor - 1) % WORD))
    if signed(divisor & 0xFFFFF, 20) % WORD == divisor:
        case("divi-%x-by-%x" % (dividend, divisor), "divi 1 %d" % divisor, pairs(dividend, 1))
case("div-by-its-own-half", "div 1 2 1; div 3 3 0; div 6 5 0", "r1=5 r2=7 r3=9 r4=8 r5=20 r6=7 r7=3")

# Doubles: x in five pairs, y in r8 and r9. Zeros and infinities; patterns that are not a number; ties, both ends.
ONE, HALF, MOST, LEAST, INF, MINUS = 1023 << 52, 1022 << 52, (2047 << 52) - 1, 1 << 52, 2047 << 52, 1 << 63
ENDS = (0, MINUS, MINUS | ONE, INF, MINUS | INF)
DOUBLES = [(x, y) for x in ENDS for y in ENDS] + [(NAN + 5, 0), (INF + 9, INF), (MINUS | NAN | 0xDEADBEEF, MINUS | NAN | 0xCAFE)]
DOUBLES += [(ONE, nan) for nan in (INF + 1, NAN, 2**63 - 1, MINUS | INF + 1, MINUS | NAN, 2**64 - 1)]
DOUBLES += [(MOST, 0), (1, INF), (1, MINUS | 1), (3, 2), (LEAST, LEAST - 1), (LEAST - 1, LEAST - 1), (1, HALF), (3, HALF)]
DOUBLES += [(LEAST + 3, HALF), (LEAST - 1, ONE + 1), (486 << 52, 485 << 52), (486 << 52 | 1 << 51, 485 << 52)]
DOUBLES += [(512 << 52 | 1, 511 << 52), (LEAST | 1 << 51 | 1, HALF | 1 << 51), (MOST, 1993 << 52), (MOST, (1993 << 52) - 1)]
DOUBLES += [(MOST, HALF), (MOST, MINUS | MOST), (1535 << 52, 1535 << 52), (1534 << 52, 1535 << 52), (ONE, 970 << 52)]
DOUBLES += [(ONE, 970 << 52 | 1), (ONE + 1, 970 << 52), (ONE, 969 << 52), (ONE, 969 << 52 | 1), (1076 << 52, ONE)]
DOUBLES += [(1076 << 52 | 1, ONE), (1076 << 52, ONE | LEAST - 1), (ONE, 0x4008 << 48), (ONE + 1, ONE - 1)]
DOUBLES += [(0x3FB999999999999A, 0x3FC999999999999A), (0x3FF278F8A5E69228, 0x3FF488057C862F65)]  # these: rounded once
DOUBLES += [(0x20061B97BCD4B21C, 0x1FAE845105ED8C77), (0x1F45052886F7169C, 0x5F6B040414DD8C98)]
chance = random.Random(239)
for number in range(8):
    x, y, near = chance.getrandbits(64), chance.getrandbits(64), chance.randrange(-60, 61)
    exponent = (x >> 52 & 0x7FF) + near if number % 2 else 1023 - (x >> 52 & 0x7FF) + near  # near that of x, or their sum near 0
    DOUBLES.append((x, y & ~INF | min(max(exponent, 0), 2046) << 52))
for number, (x, y) in enumerate(DOUBLES):
    words = "addd 0 8 7; subd 2 8 -7; muld 4 8 1; divd 6 8 -1; cmpd 10 8 3"
    case("doubles-%d" % number, words, pairs(x, 0, 2, 4, 6, 10) + pairs(y, 8))
for base, v in ((0, 0), (1, 0), (WORD - 1, 0), (0, -1), (WORD - 1, 1), (1 << 31, 0), (0x00200001, 0)):
    case("itod-%x%+d" % (base, v), "itod 1 5 %d" % v, "r5=%x" % base)
for value in (
    0, MINUS, 1, MINUS | 1, MINUS | HALF, (MINUS | ONE) - 1, MINUS | ONE, ONE, (1024 << 52) - 1, 0x41E0000000300000,
    0x41EFFFFFFFE00000, 0x41EFFFFFFFFFFFFF, 1055 << 52, 1055 << 52 | 1, MOST, INF, MINUS | INF, NAN, 2**64 - 1,
):  # fmt: skip
    case("dtoi-%016x" % value, "dtoi 1 5 -3", pairs(value, 5))
case("doubles-overlap", "addd 1 2 0; itod 3 4 0; dtoi 4 3 0; muld 3 3 0", "r1=0 r2=0 r3=3ff00000 r4=7")
case("dtoi-into-its-pair", "dtoi 5 5 0; itod 6 5 0; cmpd 6 6 0", "r5=0 r6=40590000")
for nan in (INF + 1, NAN + 1, MINUS | INF + 1, 2**64 - 1):
    words = "SCANDOUBLE 1; PRINTDOUBLE 1; store2 1 300; load2 3 300; storer2 3 0 0; loadr2 5 0 0; PRINTDOUBLE 5; cmpd 1 5 0"
    case("bits-unchanged-%x" % nan, words, "writes=2 input=44" + nan.to_bytes(8, "little").hex())

# Jumps under the five values of the flags.
for name in JUMPS:
    for flags in ("new", "none", "greater", "less", "equal"):
        case("%s-%s" % (name, flags), name + " 703710", "" if flags == "new" else "order=" + flags)
for x, v, name in ((1, 2, "jl"), (2, 2, "jle"), (WORD - 1, -1, "jeq"), (0, -1, "jge"), (WORD - 1, 0, "jg"), (5, 5, "jne")):
    case("cmpi-%x%+d-%s" % (x, v, name), "cmpi 1 %d; %s 18; lc 2 5" % (v, name), "r1=%x" % x)

# The host.
GOOD = {"number": "4e78563412", "real": "440102030405060708", "character": "43fe"}
for call, kind in (("SCANINT", "number"), ("SCANDOUBLE", "real"), ("GETCHAR", "character")):
    for label, tape in dict(GOOD, empty="", spoiled="00", cut=GOOD[kind][:-2]).items():
        case("%s-of-%s" % (call, label), call + " 1", "input=" + tape)
    case(call + "-then-spoiled", "{0} 1; {0} 3".format(call), "input=%sff%s" % (GOOD[kind], GOOD[kind]))
    case(call + "-then-clean", "{0} 1; {0} 3".format(call), "input=" + GOOD[kind])
case("gets-in-order", "SCANINT 1; SCANDOUBLE 2; GETCHAR 4; GETCHAR 5", "input=" + "".join(GOOD.values()))
case("refused-get-takes-nothing", "SCANINT 1; SCANINT 2", "input=" + GOOD["number"] + GOOD["real"] + GOOD["number"])
for call in ("PRINTINT", "PRINTDOUBLE", "PUTCHAR"):
    for left in (0, 1):
        case("%s-writes-%d" % (call, left), "{0} 1; {0} 2".format(call), "r1=ff r2=0 writes=%d" % left)
for value in (255, 256, 0x80000041):
    case("PUTCHAR-%x" % value, "PUTCHAR 1", "r1=%x writes=1" % value)

# Fetches and jumps at the memory's end, closed segments, code that changes itself.
for target, more in ((1023, {}), (1024, {}), (2**20 - 1, {}), (2**20 - 1, FULL)):
    case("jmp-to-%d" % target, "jmp %d" % target, steps=3, **more)
    case("calli-to-%d" % target, "calli %d" % target, steps=3, **more)
for value, more in ((1023, {}), (1024, {}), (2**20 - 1, FULL), (2**20, FULL), (WORD - 1, {})):
    case("fetch-at-%d" % value, "0", "r15=%x" % value, steps=2, **more)
case("last-cell-runs", "addi 1 1", at=1023, steps=2)
case("last-cell-runs", "addi 15 -1", at=2**20 - 1, steps=3, **FULL)
case("last-cell-jumps", "jmp 1023", at=1023, steps=5)
case("last-cell", "load 1 4999; load 2 5000", "c4999=5", size=5000)
case("r15-to-most-and-on", "lc 15 -1", steps=2)
case("r15-sum-wraps", "add 15 1 0; lc 2 1", "r1=ffffffff", steps=4)
case("r15-sum-to-zero", "add 15 1 0", "r1=ffffffef c0=%x" % w("lc 2 9"), steps=2)
case("r15-half-of-a-product", "muli 14 262144", "r14=48000", steps=2)
case("fetch-in-closed-segments", "lc 1 5; addi 1 5", "code=2 constants=2", at=63)
case("self-store", "store 1 17; lc 2 7; EXIT 2", "r1=%x" % w("lc 2 9"))
case("self-count", "loadr 1 15 2; addi 1 3; storer 1 15 0; lc 2 4; jmp 16", steps=13)
case("self-store-of-its-own-cell", "store 1 16; jmp 16", "r1=0", steps=5)
case("self-closed", "store 1 17; lc 2 7", "code=1")
case("self-push", "push 1 0; lc 2 7", "r14=11 r1=%x" % w("lc 2 9"))
case("self-store2", "store2 1 17; 0; 0", "r1=%x r2=%x" % (w("lc 3 1"), w("EXIT 3")))

# Addresses: both ends of both memories, sums that wrap, the next cell of the commands ending in 2.
for name, sum_name in (("load", "loadr"), ("load2", "loadr2"), ("store", "storer"), ("store2", "storer2")):
    for address, more in ((1022, {}), (1023, {}), (1024, {}), (2**20 - 2, FULL), (2**20 - 1, FULL)):
        cells = "c1022=a0b0c0d0 c1023=e0" + " c1048574=a1b1c1d1 c1048575=e1" * bool(more)
        case("%s-%d" % (name, address), "%s 1 %d" % (name, address), cells, **more)
    for base, v, more in ((0x3FF, 0, {}), (WORD - 1, 1, {}), (0, -1, {}), (0x100000, -1, FULL), (0x100000, 0, FULL)):
        cells = "c0=a0b0c0d0 c1023=e0" + " c1048575=e1" * bool(more)
        case("%s-%x%+d" % (sum_name, base, v), "%s 1 5 %d" % (sum_name, v), cells + " r5=%x" % base, **more)
words = "loadr2 1 1 0; loadr2 3 1 0; loadr2 7 8 0; loadr2 14 5 0"
case("address-once", words, "r1=12c r8=12c r5=190 c300=190 c301=5 c400=6 c401=7")
case("stored-pair-holds-its-address", "storer2 4 5 0; storer2 14 5 2; storer 5 5 4")
HEADS = """push 0 3ff 400 ffffffff/pop 3fe 3ff fffffffe ffffffff/prc 0 400/call 0 1 400 ffffffff
calli 0 1 400 ffffffff/ret 3fc 3fd 3fe fffffffd fffffffe ffffffff"""
for name, *heads in map(str.split, re.split("[/\n]", HEADS)):
    for head in heads:
        given = "c0=1a0 c1=1b0 c1022=1d0 c1023=1e0 r14=" + head + (" r13=" + head if name == "ret" else "")
        case("%s-at-%s" % (name, head), fit(name, 1, 5, 0), given)
for value in (0, 0x3FE, 0x3FF, WORD - 2, WORD - 1):
    case("ret-then-%x" % value, "ret 0", "c1009=%x c1010=%x c0=1a0 c1023=1e0" % (value, value ^ 1))
for base, v, more in ((0x3FF, 0, {}), (0x400, 0, {}), (0xFFFFF, 0, FULL), (0xFFFFF, 1, FULL), (WORD - 1, 5, {})):
    case("call-to-%x%+d" % (base, v), "call 1 5 %d" % v, "r5=%x" % base, **more)
for value in (0xFFFFF, 0x100000):
    case("push-at-%x" % value, "push 1 0", "r14=%x" % value, **FULL)
    case("pop-at-%x" % value, "pop 1 0", "r14=%x c1048575=e1" % (value - 1), **FULL)

# The segments' levels, the cells where a segment ends, the stack bound.
for name in "load load2 loadr loadr2 pop ret store store2 storer storer2 push prc call calli".split():
    for segment, address, level in (("code", 32, 1), ("code", 32, 2), ("constants", 72, 1), ("constants", 72, 2)):
        head = address + {"pop": -1, "ret": -1, "call": 1, "calli": 1}.get(name, 0)
        given = "r5=%x c%d=190 r13=%x r14=%x %s=%d" % (address, address, head, head, segment, level)
        case("%s-in-%s-of-level-%d" % (name, segment, level), fit(name, 1, 5, address if FORMS[name] == RM else 0), given)
for address in (63, 64, 79, 80):
    for segment in ("code", "constants"):
        given = "c%d=190 c%d=1a0 r14=%x %s=" % (address, address + 1, address + 1, segment)
        case("load2-%d-%s" % (address, segment), "load2 1 %d" % address, given + "2")
        case("calli-%d-%s" % (address, segment), "calli 5", given + "1")
        case("ret-from-%d-%s" % (address, segment), "ret 0", given + "2 r13=%x" % (address - 1))
        case("ret-then-%d-%s" % (address, segment), "ret 0", given + "2 c1009=%x" % (address - 1))
case("no-segments", "store 1 16; load 2 17", "code=2 constants=2", code=0, constants=0)
case("no-code", "store 1 32; store 1 31", "code=0 constants=1", code=0, constants=32)
for name, n in (("push", 1), ("prc", 1), ("call", 2), ("calli", 2)):
    for head, maximum in sorted({(1000, n), (1000, n - 1), (980, 20 + n), (980, 19 + n), (1001, n - 1), (1001, 0)}):
        case("%s-at-%d-maximum-%d" % (name, head, maximum), fit(name, 1, 5, 0), "r14=%x maximum=%d" % (head, maximum))
for maximum, more in ((1000, {}), (1001, {}), (2**20 - 1, FULL), (2**20, FULL)):
    case("push-at-0-maximum-%d" % maximum, "push 1 0", "r14=0 maximum=%d" % maximum, **more)
case("stack-at-0", "push 1 0; lc 14 0; push 1 0", "maximum=0", stack=0)
case("pushes-up-to-the-maximum", "push 1 0" + 6 * "; push 1 0", "maximum=4 r14=3ea")
case("stores-and-pops-have-no-maximum", "store 1 1000; storer 1 14 -5; pop 2 0", "maximum=0")

# Where two questions would get a no, the first is told: its number, the other's, commands, settings, operands.
BEFORE = """32 34 syscall level1=2 : 1 5 7/33 34 %s level15=2 r5=0 : 15 5 0/33 34 %s level1=2 : 1 15 0
33 36 div,divi r5=0 : 15 5 0/33 42 SCANDOUBLE : 15 5 0/33 43 SCANDOUBLE input=ff : 15 5 0/33 45 PRINTDOUBLE : 15 5 0
33 39 load2,store2,loadr2,storer2 : 15 5 1023/33 40 storer2 r5=0 code=1 : 15 5 0/34 35 shl,shli,shr,shri level1=1 : 1 5 32
34 35 shl level5=2 : 1 5 0/34 36 div,divi level2=1 r5=0 : 1 5 0/34 36 div level5=2 r5=0 : 1 5 0
34 37 dtoi level1=1 r6=fff80000 : 1 5 0/34 37 dtoi level6=2 r6=41f00000 : 1 5 0/34 38 PUTCHAR level1=2 writes=1 : 1 5 0
34 42 SCANINT,SCANDOUBLE,GETCHAR level1=1 : 1 5 0/34 43 SCANINT level1=1 input=ff : 1 5 0
34 44 GETCHAR level1=1 input=4e01000000 : 1 5 0/34 45 PRINTINT,PRINTDOUBLE,PUTCHAR level1=2 r1=5 : 1 5 0/38 45 PUTCHAR : 1 5 0
34 39 load,load2,store,store2,call level1=2 : 1 5 5000/34 39 loadr level5=2 : 1 5 5000
34 39 push level1=2 r14=400 : 1 5 0/34 39 pop level1=1 r14=3ff : 1 5 0/34 41 push level14=2 maximum=0 : 14 5 0
34 40 load2,storer,push,pop level1=2 code=2 r5=0 r14=1f : 1 5 32/34 41 call level1=1 maximum=0 : 1 5 5
39 40 call r14=20 code=1 : 1 5 5000/39 41 call maximum=0 : 1 5 5000/40 39 call,calli r14=0 code=1 : 1 5 0
40 41 push,prc,call,calli r14=20 code=1 maximum=0 : 1 5 0/41 39 call,calli r14=0 maximum=1000 : 1 5 0
41 40 call,calli r14=50 constants=1 maximum=5 : 1 5 0/40 41 call,calli r14=40 constants=1 maximum=937 : 1 5 1
39 40 ret r13=fffffffe code=2 : 1 5 0/40 39 ret r13=1f code=2 c32=5000 : 1 5 0/39 40 loadr2 r5=ffffffff code=2 : 1 5 0
39 40 storer2 r5=ffffffff code=1 : 1 5 0/30 40 load r15=400 code=2 : 1 5 0"""
paired, real_sources = (",".join(name for name in USES if USES[name][k][1:]) for k in (0, 1))
for number, row in enumerate(re.split("[/\n]", BEFORE % (paired, real_sources))):
    (first, second, names, *settings), operands = (part.split() for part in row.split(":"))
    for name in names.split(","):
        end = case("%s-before-%s-%s-%d" % (first, second, name, number), fit(name, *operands), " ".join(settings))
        assert " fault %s at" % first in end, (row, end)
for name in ("load2", "store2", "loadr2", "storer2", "ret"):
    end = case("40-before-39-%s-last" % name, fit(name, 1, 5, 1023), "r5=0 r13=3fe constants=2", constants=960)
    assert " fault 40 at" in end

# Functions.
FACTORIAL = """loadr 0 14 3; cmpi 0 1; jg 5; lc 0 1; ret 0; push 0 0; subi 0 1; prc 0; push 0 0; calli 0; pop 2 0; mul 0 2 0
ret 0; SCANINT 0; prc 0; push 0 0; calli 0; PRINTINT 0; lc 0 10; PUTCHAR 0; lc 0 0; EXIT 0""".replace("\n", "; ")
for steps, maximum, writes in ((4, 100, 9), (30, 100, 9), (500, 24, 2), (500, 23, 2), (500, 100, 1)):
    given = "r15=d input=4e05000000 maximum=%d writes=%d" % (maximum, writes)
    case("factorial-%d-steps-maximum-%d-writes-%d" % (steps, maximum, writes), FACTORIAL, given, steps, at=0)
for steps in (2, 3, 7):
    case("square-%d-steps" % steps, "prc 0; push 1 0; call 3 5 0; EXIT 0; loadr 0 14 3; mul 0 0 0; ret 0", "r1=9 r5=14", steps)
for n in (13, 14, 15):
    case("call-with-receiver-r%d" % n, "call %d 5 0; 0; 0; mov 1 13 0; push 1 5; ret 0" % n, "r5=13", steps=4)
case("call-and-back-by-a-move", "call 3 5 0; EXIT 0; lc 0 77; mov 15 3 0", "r5=12")
case("call-of-a-sum-of-r14-and-back", "call 1 14 -982; 0; ret 0", steps=3)
case("pop-r14-then-push", "pop 14 -1; push 1 0; pop 15 1", "c1001=191")
case("push-r14-and-pop-it", "push 14 0; push 15 0; pop 15 2; 0; pop 14 3", steps=4)

# Random words over random states.
POOL = (0, 1, 2, 31, 32, 63, 64, 255, 256, 1000, 1022, 1023, 1024, 0x40590000, 0x7FF00000, 1 << 31, WORD - 1, WORD - 2)


def chance_number():
    return chance.choice((chance.choice(POOL), chance.randrange(1024), chance.randrange(80), chance.getrandbits(32)))


def chance_word():
    name, small = chance.choice(SAMPLES)[0], chance.choice((chance.randrange(-40, 41), chance.getrandbits(16)))
    return fit(name, chance.randrange(16), chance.randrange(16), chance.randrange(1024) if FORMS.get(name) in (RM, J) else small)


for number in range(20):
    given = ["r%d=%x" % (n, chance_number()) for n in range(14)] + ["r14=%x" % chance.randrange(900, 1030)]
    given += ["c%d=%x" % (n, w(chance_word()) if n < 64 else chance_number()) for n in sorted(chance.sample(range(26, 1024), 40))]
    given += ["level%d=%d" % (n, chance.randrange(3)) for n in range(16) if chance.randrange(12) == 0]
    given += ["code=%d" % chance.choice((0, 0, 0, 1, 2)), "constants=%d" % chance.choice((0, 0, 1, 2))]
    given += ["maximum=%d" % chance.choice((0, 20, 1000, 1048576)), "writes=%d" % chance.randrange(4)]
    given += ["input=" + "".join(chance.sample(list(GOOD.values()) * 2 + ["99"], 6))]
    given += ["order=" + chance.choice(("none", "greater", "less", "equal"))] * chance.randrange(2)
    case("chance-%d" % number, ";".join(chance_word() for _ in range(10)), " ".join(given), steps=12)

if __name__ == "__main__":
    folder = os.path.join(os.path.dirname(os.path.abspath(__file__)), "..", "crates", "step_cases")
    os.makedirs(folder, exist_ok=True)
    with open(os.path.join(folder, "stdin"), "w") as out:
        out.write("".join(head + "\n" for head, _ in CASES.values()))
    with open(os.path.join(folder, "stdout"), "w") as out:
        out.write("".join(name + ":\n" + "".join(line + "\n" for line in lines) for name, (_, lines) in CASES.items()))
    print("%d cases" % len(CASES))
