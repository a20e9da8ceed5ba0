#!/usr/bin/env python3
"""Writes the table of assembler cases and what they should give.

    tests/assembly_vectors.py       writes crates/texts/stdin and crates/texts/stdout

This is a second implementation of the assembler, written from its rules and not from the Rattle code, so that the two
can be compared. crates/texts/src/bytes.rt says what the tokens mean, and crates/texts/src/main.rt what is printed.
"""
import glob
import os
import re
import struct

from commands import J, RI, RM, RR, TABLE

TOP = os.path.join(os.path.dirname(os.path.abspath(__file__)), "..")
COMMANDS = {name: (code, form) for code, (name, form) in enumerate(TABLE)}
CONSTANTS, DIRECTIVES = ("word", "uint32", "string"), ("stack", "end")
# what each operand of a form is
PLACES = {RR: "register register modifier", RI: "register immediate", RM: "register address", J: "address"}
PLACES.update(word="value", uint32="value", string="string", stack="number", end="address")
RANGES = {"modifier": (-32768, 32767), "immediate": (-524288, 524287), "address": (0, 1048575)}
RANGES.update(number=(0, 1048575), value=(0, 4294967295))
REGISTERS = {"r%d" % n: n for n in range(16)}
RESERVED = {*COMMANDS, *CONSTANTS, *DIRECTIVES, *REGISTERS}
ESCAPES = {"n": 10, "0": 0, '"': 34, "\\": 92}
TEXT_MAXIMUM, WORD_MAXIMUM = 2097152, 65536


def split_words(line):
    """The words of a line without its comment, each with its place in the line."""
    words, at = [], 0
    while True:
        while at < len(line) and line[at] in " \t":
            at += 1
        if at == len(line):
            return words
        start = at
        if line[at] == '"':
            at += 1
            while at < len(line) and line[at] != '"':
                at += 2 if line[at] == "\\" else 1
            at = min(at, len(line))
        while at < len(line) and line[at] not in " \t":
            at += 1
        words.append((start, line[start:at]))


def label_is_free(name):
    return re.fullmatch("[a-z_.][a-z0-9_.]*", name) is not None and name not in RESERVED


def number_of(word):
    """The value of a numeral without a minus, or none."""
    if word == "0" or re.fullmatch("[1-9][0-9]*", word):
        return decimal(word)
    if re.fullmatch("0[0-7]+", word):
        return int(word, 8)
    return int(word[2:], 16) if re.fullmatch("0[xX][0-9a-fA-F]+", word) else None


def decimal(word):
    """A decimal numeral; a very long one is cut, which leaves it outside every range."""
    return int(word[:1000])


def characters(word):
    """The words of a string constant, its last zero too, or none."""
    if not re.fullmatch(r'"([ !\x23-\x5b\x5d-\x7e]|\\[n0"\\])*"', word):
        return None
    read = re.findall(r"\\.|[^\\]", word[1:-1])
    return [ESCAPES[part[1]] if len(part) == 2 else ord(part) for part in read] + [0]


def operand(place, word):
    """The value of an operand (a string for a used label, a list for a string constant), or none."""
    if place == "register":
        return REGISTERS.get(word)
    if place == "string":
        return characters(word)
    if place == "address" and label_is_free(word):
        return word
    if place in ("modifier", "immediate") and word.startswith("-"):
        value = number_of(word[1:])
        return None if value is None else -value
    return number_of(word)


class Refused(Exception):
    pass


class Assembler:
    def __init__(self, text, maximum):
        self.text, self.maximum = text, maximum
        self.labels = {}  # name: (place, address)
        self.code, self.pool = [], []  # words, or tuples of a word's upper part, a label and its line
        self.waiting = self.any = False  # a label waits; a label, a command or a constant was met
        self.stack = self.first = None

    def words(self):
        return len(self.code) + len(self.pool)

    def refuse_unless(self, answer, number, line):
        if not answer:
            raise Refused(number, line)

    def judge(self, line, words, place):
        """Asks a line with words its questions and takes it."""
        ask = lambda answer, number: self.refuse_unless(answer, number, line)
        label = None
        if words[0][1].endswith(":"):
            start, label = words[0][0] + place, words[0][1][:-1]
            words = words[1:]
            ask(label_is_free(label) and label not in self.labels, 2)
            ask(len(self.labels) < self.maximum, 3)
            ask(not self.waiting, 4)
        name = words[0][1] if words else None
        ask(name not in DIRECTIVES or not (self.waiting or label is not None), 4)
        ask(name is None or name in COMMANDS or name in CONSTANTS or name in DIRECTIVES, 5)
        ask(self.first is None, 6)
        ask(name != "stack" or not (self.any or self.stack is not None), 6)
        ask(not (name in COMMANDS or name == "word") or not self.pool, 6)
        if name is not None:
            taken = self.read(name, [word for _, word in words[1:]], ask)
            grown = len(taken) if name not in DIRECTIVES else 0
            ask(self.words() + grown <= WORD_MAXIMUM, 10)
        if label is not None:
            self.labels[label] = (start, self.words())
            self.waiting = self.any = True
        if name is not None:
            self.take(name, taken, line)

    def read(self, name, written, ask):
        """The words of a command or a constant, or the operand of a directive."""
        form = COMMANDS[name][1] if name in COMMANDS else name
        places = PLACES[form].split()
        ask(len(written) == len(places), 7)
        values = [operand(*pair) for pair in zip(places, written)]
        ask(all(value is not None for value in values), 8)
        for place, value in zip(places, values):
            if place in RANGES and not isinstance(value, str):
                ask(RANGES[place][0] <= value <= RANGES[place][1], 9)
        if name not in COMMANDS:
            return values[0] if name == "string" else values
        word = COMMANDS[name][0] << 24
        if form != J:
            word |= values[0] << 20
        if form == RR:
            return [word | values[1] << 16 | values[2] & 0xFFFF]
        return [(word, values[-1])] if isinstance(values[-1], str) else [word | values[-1] & 0xFFFFF]

    def take(self, name, taken, line):
        if name == "stack":
            self.stack = taken[0]
        elif name == "end":
            self.first = (0, taken[0], line) if isinstance(taken[0], str) else taken[0]
        else:
            part = self.pool if name in ("uint32", "string") else self.code
            part += [(*word, line) if isinstance(word, tuple) else word for word in taken]
            self.waiting, self.any = False, True

    def place(self, word):
        """A word with its label's address."""
        return word[0] | self.labels[word[1]][1] if isinstance(word, tuple) else word

    def run(self, room):
        lawful = bytes([9, 10, *range(32, 127)])
        self.refuse_unless(len(self.text) <= TEXT_MAXIMUM and not self.text.translate(None, lawful), 1, 0)
        at = 0
        for number, line in enumerate(self.text.decode("ascii").split("\n"), 1):
            words = split_words(line.partition("#")[0]) if line else []
            if words:
                self.judge(number, words, at)
            at += len(line) + 1
        self.refuse_unless(self.first is not None, 11, 0)
        for word in (*self.code, self.first):
            self.refuse_unless(not isinstance(word, tuple) or word[1] in self.labels, 12, isinstance(word, tuple) and word[2])
        self.refuse_unless(512 + 4 * self.words() <= room, 13, 0)
        numbers = [4 * len(self.code), 4 * len(self.pool), self.place(self.first)]
        numbers += [1048575 if self.stack is None else self.stack, 239]
        header = b"ThisIsKarmaExec\0" + struct.pack("<5I", *numbers)
        words = [self.place(word) for word in self.code + self.pool]
        return header.ljust(512, b"\0") + struct.pack("<%dI" % len(words), *words)


def checksum(numbers):
    total = 0
    for number in numbers:
        total = (total * 31 + number) & 0xFFFFFFFF
    return total


def tokens_of(piece):
    """The tokens of a piece of text: a text, bytes, or a pair of a number and what is repeated so often."""
    if isinstance(piece, bytes):
        return ["b:%X" % byte for byte in piece]
    times, text = (None, piece) if isinstance(piece, str) else piece
    if isinstance(text, bytes):
        return ["b:%X*%d" % (text[0], times)]
    written = text.translate({32: "~", 10: "|", 9: "^"})
    if re.search("[~|^]", text) or not text:
        assert times is None
        return [token for part in re.split("([~|^])", text) if part for token in tokens_of(
            part.encode() if part in "~|^" else part)]
    return ["t:" + written] if times is None else ["r:%d*%s" % (times, written)]


def bytes_of(piece):
    if isinstance(piece, tuple):
        return piece[0] * bytes_of(piece[1])
    return piece if isinstance(piece, bytes) else piece.encode()


CASES, EXPECTED, REACHED = [], [], {}


def case(name, *pieces, labels=4, room=None):
    """Adds a case. Without a room the output is just as long as the executable."""
    text = b"".join(bytes_of(piece) for piece in pieces)
    assembler = Assembler(text, labels)
    try:
        made = assembler.run(10**9 if room is None else room)
        room = len(made) if room is None else room
        gives = "ok %d %d back yes" % (len(made), checksum(made))
        REACHED["ok"] = REACHED.get("ok", 0) + 1
    except Refused as refused:
        room = 520 if room is None else room
        gives = "refused %d line %d" % refused.args
        REACHED[refused.args[0]] = REACHED.get(refused.args[0], 0) + 1
    tokens = [token for piece in pieces for token in tokens_of(piece)]
    assert name not in [row.split(" ", 1)[0] for row in CASES]
    CASES.append(" ".join([name, str(labels), str(room), *tokens]))
    rows = [(place, len(label), address) for label, (place, address) in assembler.labels.items()]
    EXPECTED.append("%s: %s labels %d rest untouched" % (name, gives, len(rows)))
    if len(rows) > 16:
        EXPECTED.append("  sum %d" % checksum(number for row in rows for number in row))
    else:
        EXPECTED.extend("  place %d length %d address %d" % row for row in rows)
    return gives


def gives(wanted, name, *pieces, **more):
    """A case whose number (0: accepted) was worked out by hand."""
    found = case(name, *pieces, **more)
    assert found.startswith("ok" if wanted == 0 else "refused %d " % wanted), (name, wanted, found)


HALT, END = "halt r0 0\n", "end 0\n"


# the examples
for path in sorted(glob.glob(os.path.join(TOP, "examples", "*.karma"))):
    with open(path) as example:
        gives(0, "example-" + os.path.basename(path)[:-6], example.read(), labels=8)
gives(0, "figure-listing", 'main: lc r1 -1\njmp main\nstring "A"\nend main\n')
gives(0, "figure-words", "mov r1 r2 -5\nlc r7 -1\ncalli 21913\nhalt r0 0\n" + END)

# 1: the text
for byte in (0, 8, 11, 12, 13, 31, 127, 128, 255):
    gives(1, "byte-%d" % byte, HALT, bytes([byte]), "\n" + END)
gives(1, "byte-13-at-a-line-end", "halt r0 0", bytes([13, 10]), "end 0", bytes([13, 10]))
gives(1, "byte-8-in-a-comment", "a: " + HALT + END + "# ", bytes([8]))
gives(1, "byte-127-in-a-string", 'a: string "', bytes([127]), '"\n' + END)
gives(1, "byte-200-last", HALT + END, bytes([200]))
gives(1, "byte-13-and-line-1-faulty", "A: nothing\n" + END, bytes([13]))
gives(0, "byte-9-between-words", "\thalt\tr0 \t 0\t\n\tend\t0\t\n")
gives(0, "byte-126-in-a-comment", HALT + "# ", bytes([126]), "\n" + END)
gives(5, "byte-126-in-a-word", bytes([126]), "\n" + END)
# lines and words
gives(0, "no-last-line-end", HALT + "end 0")
gives(0, "empty-lines", "\n\n \n\t\n" + HALT + "\n# end 9\n   # a\n" + END + "\n\n#\n")
gives(5, "line-counted-past-empty-ones", "\n\n# a\n \nbad\n" + END)
gives(0, "comment-after-an-operand", "halt r0 0# a # b\nend 0#\n")
gives(7, "comment-cuts-an-operand", "halt r0 #0\n" + END)
gives(5, "comment-cuts-a-name", "ha#lt r0 0\n" + END)
gives(5, "comment-cuts-a-colon", "a#: halt r0 0\n" + END)
gives(0, "comment-after-a-label", "a:#b: halt\n" + HALT + "end a\n")
gives(8, "commas", "halt r0, 0\n" + END)
gives(5, "semicolon-comment", HALT + "; a\n" + END)
gives(0, "label-and-command-without-a-blank-after", "a:\thalt r0 0\nend a\n")
gives(5, "label-without-a-blank", "a:halt r0 0\nend a\n")
gives(5, "name-in-quotes", '"halt" r0 0\n' + END)
gives(5, "quoted-word-has-a-blank", '"a: b" r0 0\n' + END)
gives(5, "quote-open-and-a-label-inside", '"a: halt r0 0\n' + END)
gives(2, "quote-open-to-a-last-colon", '"a halt r0 0:\n' + END)
gives(2, "quoted-label", '"a b": halt r0 0\n' + END)
gives(7, "quote-inside-a-word", 'string a"b c"\n' + END)

# 2: the label
gives(2, "label-empty", HALT + ": halt r0 0\n" + END)
gives(2, "label-upper-case", HALT + "main: " + HALT + "Main: halt r0 0\n" + END)
gives(2, "label-upper-case-last", "maiN: halt r0 0\n" + END)
gives(2, "label-digit-first", "1a: halt r0 0\n" + END)
gives(2, "label-number", "10: halt r0 0\n" + END)
for name, text in (("minus", "a-b"), ("at", "a@b"), ("brace", "a{"), ("grave", "`a"), ("slash", "a/"), ("two-colons", "a:")):
    gives(2, "label-with-" + name, text + ": halt r0 0\n" + END)
gives(2, "label-with-a-colon-inside", "a:b: halt r0 0\n" + END)
for name in ("halt", "ret", "storer2", "word", "uint32", "string", "stack", "end", "r0", "r9", "r10", "r15"):
    gives(2, "label-reserved-" + name, name + ": halt r0 0\n" + END)
for name in ("r16", "r00", "r", "r1.", "r150", "include", "uint64", "double", "char", "loadr3", "hal", "halts", "ends", "_", ".", "._9z", "a0"):
    gives(0, "label-free-" + name, name + ": halt r0 0\nend " + name + "\n")
gives(2, "label-met-before", "a: " + HALT + "b: " + HALT + "a: halt r0 0\n" + END)
gives(2, "label-waiting-met-before", "a:\n\na:\n" + HALT + END)
gives(2, "label-bad-after-end", HALT + END + "A:\n")
gives(0, "labels-that-begin-alike", "ab: " + HALT + "a: " + HALT + "abc: " + HALT + "jmp a\njmp ab\njmp abc\nend abc\n")
gives(2, "label-bad-and-list-full", "A: halt r0 0\n" + END, labels=0)
gives(2, "label-met-before-and-list-full", "a: " + HALT + "a: halt r0 0\n" + END, labels=1)
gives(2, "label-reserved-and-no-name", "add: nothing\n" + END)
# 3: the label list
gives(3, "list-of-0", "a: halt r0 0\n" + END, labels=0)
gives(0, "list-of-0-no-label", HALT + END, labels=0)
gives(0, "list-just-full", "a: " + HALT + "b: " + HALT + "end b\n", labels=2)
gives(3, "list-full-at-the-line-before", "a: " + HALT + "b: " + HALT + "c: " + HALT + "end b\n", labels=2)
gives(3, "list-full-and-waiting", "a:\nb: halt r0 0\n" + END, labels=1)
gives(3, "list-full-and-directive", "a: " + HALT + "b: end 0\n", labels=1)
gives(3, "list-full-and-no-name", "a: " + HALT + "b: nothing\n", labels=1)
gives(3, "list-full-after-end", "a: " + HALT + END + "b:\n", labels=1)
gives(0, "list-much-left", "a: " + HALT + END, labels=1000)
MANY = "".join("l%d: jmp l%d\n" % (n, 299 - n) for n in range(300))
gives(0, "list-of-300", MANY + "end l299\n", labels=300)
gives(3, "list-of-299", MANY + "end l299\n", labels=299)
gives(12, "list-of-300-used-301", MANY + "jmp l300\nend l301\n", labels=400)
# 4: the waiting label
gives(4, "label-after-a-waiting-one", "a:\nb: halt r0 0\n" + END)
gives(4, "label-alone-after-a-waiting-one", "a:\nb:\n" + HALT + END)
gives(4, "label-over-empty-and-comment-lines", "a:\n\n# a\n \t\nb: halt r0 0\n" + END)
gives(0, "command-over-empty-and-comment-lines", HALT + "a:\n\n# a\n \t\n" + HALT + "end a\n")
gives(4, "end-after-a-waiting-label", HALT + "a:\n# a\nend a\n")
gives(4, "stack-after-a-waiting-label", "a:\nstack 5\n" + HALT + END)
gives(4, "end-with-a-label", HALT + "a: end 0\n")
gives(4, "stack-with-a-label", "a: stack 5\n" + HALT + END)
gives(5, "word-with-a-colon-after-a-label", "a: b: halt r0 0\n" + END)
gives(5, "no-name-after-a-waiting-label", "a:\nnothing\n" + END)
gives(4, "waiting-label-and-no-name", "a:\nb: nothing\n" + END)
gives(4, "waiting-label-and-bad-stack", "a:\nstack 1 2\n" + END)
gives(4, "waiting-label-and-second-end", HALT + END + "a: end 0\n")
gives(0, "label-before-constants", HALT + 'a:\nuint32 1\nb: string "x"\nc: uint32 2\njmp.:\nuint32 3\n' + "end c\n", labels=4)
gives(0, "label-before-word", "a: word 1\nb:\nword 2\nend b\n")
gives(11, "label-waiting-at-the-last", HALT + "a:\n")
# 5: the name
for name in ("nothing", "HALT", "Halt", "hal", "haltt", "r0", "0", "include", "uint64", "double", "char", "load3", "-", '"', "\\", ".halt"):
    gives(5, "name-" + name.replace('"', "quote").replace("\\", "backslash"), HALT + name + " r0 0\n" + END)
gives(5, "name-unknown-after-end", HALT + END + "nothing\n")
gives(5, "name-unknown-with-a-label", "a: nothing r0 0\n" + END)
gives(5, "name-unknown-and-no-end", "nothing")
# 6: the order
gives(0, "stack-first", "# a\n\nstack 0\n" + HALT + END)
gives(6, "stack-after-a-command", HALT + "stack 5\n" + END)
gives(6, "stack-after-a-labelled-command", "a: " + HALT + "stack 5\n" + END)
gives(6, "stack-after-word", "word 5\nstack 5\n" + END)
gives(6, "stack-after-uint32", "uint32 5\nstack 5\n" + END)
gives(6, "stack-after-string", 'string ""\nstack 5\n' + END)
gives(6, "stack-twice", "stack 5\nstack 5\n" + HALT + END)
gives(6, "stack-after-end", HALT + END + "stack 5\n")
gives(6, "stack-after-end-alone", END + "stack 5\n")
gives(0, "stack-and-end-alone", "stack 5\n" + END)
gives(6, "command-after-uint32", "uint32 5\n" + HALT + END)
gives(6, "command-after-string", 'string "a"\na: halt r0 0\n' + END)
gives(6, "word-after-uint32", "uint32 5\nword 5\n" + END)
gives(6, "word-after-string", 'string ""\nword 5\n' + END)
gives(0, "word-among-code", "word 1\n" + HALT + "word 2\nuint32 3\n" + END)
for name, line in (("command", HALT), ("word", "word 5"), ("uint32", "uint32 5"), ("string", 'string "a"'), ("end", END), ("label", "a:"), ("labelled", "a: " + HALT)):
    gives(6, "after-end-" + name, HALT + END + "\n# a\n" + line)
gives(6, "order-and-operands", "uint32 5\nhalt\n" + END)
gives(6, "order-and-form", "uint32 5\nhalt r16 x\n" + END)
gives(6, "stack-twice-and-range", "stack 5\nstack 1048576\n" + HALT + END)
# 7: the number of operands
for name, form in (("mov", RR), ("lc", RI), ("la", RM), ("jmp", J)):
    good = {RR: ["r0", "r1", "2"], RI: ["r0", "1"], RM: ["r0", "1"], J: ["1"]}[form]
    for count in range(len(good) + 2):
        words = " ".join([name, *(good + ["3"])[:count]])
        gives(0 if count == len(good) else 7, "operands-%s-%d" % (form, count), words + "\n" + END)
for name, good in (("word", "1"), ("uint32", "1"), ("string", '"a b"')):
    gives(7, "operands-%s-0" % name, name + "\n" + END)
    gives(7, "operands-%s-2" % name, "%s %s %s\n" % (name, good, good) + END)
gives(7, "operands-stack-0", "stack\n" + END)
gives(7, "operands-stack-2", "stack 1 2\n" + END)
gives(7, "operands-end-0", HALT + "end\n")
gives(7, "operands-end-2", HALT + "end 0 0\n")
gives(7, "operands-and-form", "mov r0 x\n" + END)
gives(7, "operands-and-range", "lc r0 524288 1\n" + END)
gives(7, "operands-string-after-its-quote", 'string "a" b\n' + END)
gives(7, "operands-string-of-words", "string a b\n" + END)
# 8: registers
for word in ("r16", "r01", "r00", "R0", "r", "0", "r-1", "r1x", "r150", "x", "r0x1", '"r0"'):
    gives(8, "first-register-" + word.replace('"', "q"), "lc %s 1\n" % word + END)
    gives(8, "source-register-" + word.replace('"', "q"), "mov r1 %s 1\n" % word + END)
gives(8, "memory-register-16", "load r16 1\n" + END)
for number in range(16):
    gives(0, "register-%d" % number, "mov r%d r%d 1\n" % (number, 15 - number) + END)
# 8: numbers
BAD = {
    "empty-minus": "-", "two-minus": "--1", "plus": "+1", "octal-8": "08", "octal-9": "0179", "hex-empty": "0x", "hex-upper-empty": "0X",
    "hex-g": "0xg", "hex-upper-g": "0XG", "hex-minus-inside": "0x-1", "zero-minus": "0-1", "hex-last": "0x1h", "decimal-letter": "1a",
    "dot": "1.", "comma": "1,2", "underscore": "1_0", "binary": "0b1", "two-prefixes": "0x0x1", "quoted": '"1"', "hash-prefix": "$1",
    "slash": "1/", "colon-digit": "1:", "octal-letter": "0a",
}
for name, word in BAD.items():
    for kind, line in (("modifier", "mov r0 r1 "), ("immediate", "lc r0 "), ("address", "jmp "), ("memory", "la r0 "), ("word", "word "), ("uint32", "uint32 "), ("stack", "stack "), ("end", "end ")):
        if name in ("octal-8", "hex-empty", "two-minus") or kind in ("immediate", "address"):
            gives(8, "%s-%s" % (kind, name), line + word + "\n" + ("" if kind == "end" else END))
gives(8, "immediate-label", "a: lc r0 a\n" + END)
gives(8, "modifier-label", "a: mov r0 r1 a\n" + END)
gives(8, "word-label", "a: word a\n" + END)
gives(8, "uint32-label", "a: uint32 a\n" + END)
gives(8, "stack-label", "stack a\na: " + HALT + END)
for kind, line in (("address", "jmp "), ("memory", "la r0 "), ("word", "word "), ("uint32", "uint32 "), ("stack", "stack "), ("end", "end ")):
    for name, word in (("minus", "-1"), ("minus-zero", "-0"), ("minus-hex", "-0x1"), ("minus-octal", "-01")):
        gives(8, "%s-%s" % (kind, name), line + word + "\n" + ("" if kind == "end" else END))
# 8: labels as addresses
for kind, line in (("address", "jmp "), ("memory", "la r0 "), ("end", HALT + "end ")):
    for word in ("r0", "r15", "halt", "stack", "end", "word", "uint32", "string", "Main", "a:", "a-b", "9a", '"a"'):
        gives(8, "%s-no-label-%s" % (kind, word.replace('"', "q").replace(":", "colon")), "a: " + HALT + line + word + "\n" + END)
    for word in ("r16", "include", "_a.9", "..", "o7", "x1"):
        gives(0, "%s-label-%s" % (kind, word), word + ": " + HALT + line.split("\n")[-1] + word + "\n" + ("" if kind == "end" else END))
# 8: strings
for name, word in (
    ("without-quotes", "a"), ("one-quote", '"'), ("open", '"ab'), ("open-with-blanks", '"a b  c'), ("closed-only", 'ab"'),
    ("quote-taken", '"ab\\"'), ("backslash-last", '"ab\\'), ("more-after", '"ab"c'), ("two", '"a""b"'), ("quote-after", '"a""'), ("single", "'a'"),
    ("hash", '"a#b"'), ("backslash-hash", '"a\\#b"'), ("escape-t", '"\\t"'), ("escape-N", '"\\N"'), ("escape-1", '"\\1"'), ("escape-r", '"\\r"'), ("escape-a", '"a\\ab"'),
    ("escape-blank", '"\\ "'), ("escape-x", '"\\x41"'), ("escape-single-quote", "\"\\'\""), ("escape-question", '"\\?"'), ("number", "65"), ("tab", '"a\tb"'), ("escape-tab", '"\\\t"'),
    ("three-backslashes", '"\\\\\\"'), ("bad-after-good", '"\\n\\0\\q"'), ("label", "a"),
):
    gives(8, "string-" + name, "string " + word + "\n" + END)
for name, word in (
    ("empty", '""'), ("blank", '" "'), ("blanks", '"  a   b "'), ("escape-n", '"\\n"'), ("escape-0", '"\\0"'), ("escape-quote", '"\\""'), ("escape-backslash", '"\\\\"'),
    ("all-escapes", '"\\n\\0\\"\\\\"'), ("escape-then-digit", '"\\01\\n0"'), ("backslashes-then-quote", '"\\\\\\""'), ("quoted-words", '"a \\"b c\\" d"'),
    ("single-quote", "\"'\""), ("colon", '"a: b"'), ("command", '"halt r0 0"'), ("comment-after", '"a b"#"'),
):
    gives(0, "string-" + name, "string " + word + "\n" + END)
gives(0, "string-all-bytes", 'string "' + "".join("\\" * (c in '"\\') + c for c in map(chr, range(32, 127)) if c != "#") + '"\n' + END)
gives(0, "string-between-blanks", '  string \t "a"\t \n' + END)
# 9: the ranges
def spellings(value):
    sign, size = "-" * (value < 0), abs(value)
    return (("decimal", "%s%d" % (sign, size)), ("octal", "%s0%o" % (sign, size)), ("hexadecimal", "%s0x%x" % (sign, size)), ("upper", "%s0X%X" % (sign, size)), ("long", "%s000%o" % (sign, size)), ("longer", "%s0x00%X" % (sign, size)))


EDGES = (("modifier", "mov r0 r1 ", -32768, 32767), ("immediate", "lc r0 ", -524288, 524287), ("address", "jmp ", 0, 1048575), ("memory", "la r0 ", 0, 1048575))
EDGES += (("word", "word ", 0, 4294967295), ("uint32", "uint32 ", 0, 4294967295), ("stack", "stack ", 0, 1048575), ("end", "end ", 0, 1048575))
for kind, line, low, high in EDGES:
    after = "" if kind == "end" else END
    for how, word in spellings(high) + (spellings(low) if low < 0 else ()):
        gives(0, "%s-%s-%s" % (kind, "lowest" if word[0] == "-" else "highest", how), line + word + "\n" + after)
    for how, word in spellings(high + 1) + (spellings(low - 1) if low < 0 else ()):
        gives(9, "%s-%s-%s" % (kind, "below" if word[0] == "-" else "above", how), line + word + "\n" + after)
    for value in (2**32, 2**32 + 1, 2**64, 2**64 + 1, 2**65, 10**40):
        gives(9, "%s-%d" % (kind, value), line + "%d\n" % value + after)
        gives(9, "%s-hexadecimal-%d" % (kind, value), line + "0x%x\n" % value + after)
    for name, word in (("0", "0"), ("00", "00"), ("0x0", "0x0"), ("10", "10"), ("010", "010"), ("0x10", "0x10"), ("mixed", "0xaB"), ("07", "07"), ("9", "9")):
        gives(0, "%s-spelled-%s" % (kind, name), line + word + "\n" + after)
for line, name in (("mov r0 r1 ", "modifier"), ("lc r0 ", "immediate")):
    for word in ("-0", "-00", "-0x0", "-1", "-010", "-0x1F", "-0Xff"):
        gives(0, "%s-minus-spelled%s" % (name, word), line + word + "\n" + END)
    for value in (2**32, 2**32 - 1, 2**64, 2**64 - 1, 10**40):
        gives(9, "%s-minus-%d" % (name, value), line + "-%d\n" % value + END)
gives(9, "number-of-50000-digits", "uint32 ", (50000, b"9"), "\n" + END)
gives(9, "octal-of-50000-digits", "uint32 0", (50000, b"7"), "\n" + END)
gives(0, "octal-of-50000-zeros", "uint32 ", (50000, b"0"), "7\n" + END)
gives(0, "hexadecimal-of-50000-zeros", "uint32 0x", (50000, b"0"), "fFfFfFfF\n" + END)
gives(9, "hexadecimal-of-50000-digits", "lc r0 -0x", (50000, b"f"), "\n" + END)
gives(8, "number-of-50000-digits-and-a-letter", "uint32 ", (50000, b"9"), "a\n" + END)
gives(8, "form-and-range", "mov r0 r16 32768\n" + END)
gives(9, "range-and-label-not-defined", "la r0 1048576\njmp b\n" + END)
gives(9, "range-and-no-end", "lc r0 524288\n")
# 11: the end
gives(11, "empty")
gives(11, "one-line-end", "\n")
gives(11, "blanks-alone", " \t \n  \n#end 0")
gives(11, "no-end", "a: " + HALT + "b: " + HALT)
gives(11, "no-end-and-label-not-defined", "a: jmp b\n")
gives(11, "no-end-and-no-room", HALT, room=0)
gives(11, "stack-alone", "stack 5\n")
# 12: the used labels
gives(12, "not-defined-jump", HALT + "jmp a\n" + END)
gives(12, "not-defined-memory", "a: la r0 b\n" + END)
gives(12, "not-defined-end", "a: " + HALT + "\nend b\n")
gives(12, "not-defined-first-of-two", "b: " + HALT + "jmp b\njmp c\njmp d\nend e\n")
gives(12, "not-defined-second-only", "b: " + HALT + "jmp b\njmp b\njmp d\nend b\n")
gives(12, "not-defined-shorter", "abc: " + HALT + "jmp ab\nend abc\n")
gives(12, "not-defined-longer", "abc: " + HALT + "jmp abcd\nend abc\n")
gives(12, "not-defined-and-no-room", "jmp a\n" + END, room=0)
gives(0, "defined-later", "jmp a\n" + HALT + "a: " + HALT + "end a\n")
gives(0, "defined-in-constants", "la r0 a\nstore r0 b\n" + 'uint32 1\na: string "xy"\nb: uint32 2\nend a\n')
gives(0, "defined-address-of-itself", "a: jmp a\nend a\n")
# 13: the output
gives(13, "room-0", HALT + END, room=0)
gives(13, "room-one-less", "a: " + HALT + END, room=515)
gives(0, "room-just", "a: " + HALT + END, room=516)
gives(0, "room-one-more", "a: " + HALT + END, room=517)
gives(0, "room-much-more", "a: " + HALT + END, room=5000)
gives(13, "room-for-no-word", END, room=511)
gives(0, "room-for-the-header", END, room=512)
gives(8, "form-and-no-room", "lc r0 x\n" + END, room=0)
# each command with its smallest and its largest operands
for name, (code, form) in COMMANDS.items():
    fields = {
        RR: ["r0 r0 0", "r15 r15 32767", "r15 r0 -32768", "r0 r15 -1", "r1 r2 -0x5"],
        RI: ["r0 0", "r15 524287", "r15 -524288", "r0 -1", "r9 012"],
        RM: ["r0 0", "r15 1048575", "r10 0x80000", "r7 a"],
        J: ["0", "1048575", "02000000", "a"],
    }[form]
    gives(0, "command-" + name, "stack 7\n" + "".join("%s %s\n" % (name, field) for field in fields) + "a: " + HALT + "end a\n")

# 1: the longest texts
gives(0, "text-2097152-bytes", HALT + "end 0 #", (2097152 - len(HALT) - 7, b"x"))
gives(1, "text-2097153-bytes", HALT + "end 0 #", (2097153 - len(HALT) - 7, b"x"))
gives(5, "text-one-long-word", (100000, b"a"))
gives(2, "text-one-long-upper-label", (100000, b"A"), ":")
gives(0, "text-100000-empty-lines", HALT, (100000, b"\n"), "end 0", (100000, b"\n"))
gives(8, "text-faulty-past-100000-lines", HALT, (100000, b"\n"), "a: lc r0 x\n" + END)
# 10: the number of words, and 13 with as many
FULL = 'string "', (65535, b"a"), '"\n'  # 65,536 words
gives(0, "words-65536", (65536, HALT), END)
gives(10, "words-65537", (65537, HALT), END)
gives(0, "words-65536-string", *FULL, END)
gives(10, "words-65537-string", 'string "', (65536, b"a"), '"\n' + END)
gives(0, "words-65536-escapes", 'string "', (65535, "\\n"), '"\n' + END)
gives(10, "words-65537-escapes", 'string "', (65536, "\\n"), '"\n' + END)
gives(10, "words-65537-code-and-string", "a: " + HALT + "b: ", *FULL, END)
gives(10, "words-65537-uint32", *FULL, "a: uint32 1\n" + END)
gives(10, "words-65537-empty-string", *FULL, 'a:\nstring ""\n' + END)
gives(0, "words-65536-empty-string", 'string "', (65534, b"a"), '"\na:\nstring ""\nend a\n')
gives(10, "words-65537-short-string", 'string "', (65534, b"a"), '"\na:\nstring "b"\nend a\n')
gives(9, "words-and-range", *FULL, "uint32 4294967296\n" + END)
gives(6, "words-and-order", *FULL, HALT + END)
gives(11, "words-65536-and-no-end", *FULL, "a:\n")
gives(4, "words-65536-and-a-waiting-label", *FULL, "a:\nend a\n")
gives(12, "words-65536-and-label-not-defined", *FULL, "end a\n")
gives(10, "words-65537-and-label-not-defined", "jmp a\n", *FULL)
gives(13, "room-one-less-for-65536", *FULL, END, room=262655)
gives(0, "room-one-more-for-65536", *FULL, END, room=262657)

out = os.path.join(TOP, "crates", "texts")
with open(os.path.join(out, "stdin"), "w") as cases, open(os.path.join(out, "stdout"), "w") as expected:
    cases.write("".join(row + "\n" for row in CASES))
    expected.write("".join(row + "\n" for row in EXPECTED))
assert set(REACHED) == {"ok", *range(1, 14)}
print(len(CASES), "cases;", ", ".join("%s: %d" % pair for pair in sorted(REACHED.items(), key=str)))
