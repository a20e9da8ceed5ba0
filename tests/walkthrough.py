#!/usr/bin/env python3
"""Works out what the tool prints for each line of crates/walkthrough/stdin, from the rules, and compares crates/walkthrough/stdout.

usage: tests/walkthrough.py          prints what differs, and fails where something does

A second implementation, over those of the assembler, the listing, the step and the permit in this folder. What the pages of
`karma help` say is not worked out, only whether their words are known; the sentences of the questions are taken from the page of
`help numbers`, so that each number has one sentence everywhere. It takes some minutes: programs of 18,000,000 steps are run.
"""
import copy
import os
import re
import struct
import sys

HERE = os.path.dirname(os.path.abspath(__file__))
CRATE = os.path.join(HERE, "..", "crates", "walkthrough")
sys.path.insert(0, HERE)


def part(name, end):
    """The definitions of a script of this folder, up to a line."""
    path, names = os.path.join(HERE, name), {"__file__": os.path.join(HERE, name), "__name__": name}
    with open(path) as file:
        exec(compile(file.read().split(end)[0], path, "exec"), names)
    return names


STEP, ASSEMBLY = part("step_vectors.py", "# ---- The cases ----"), part("assembly_vectors.py", "\ndef checksum")
LISTING, PERMIT = part("listing_vectors.py", "\ndef bytes_of"), part("permit_vectors.py", "\ndef made")
STEPS, CELLS, WRITES, PART = 100_000_000, 1_048_576, 65_536, 5_000_000
TOPICS = "assemble list check same run compare tape file replay help".split()
SIZES = {"number": (b"N", 4), "real": (b"D", 8), "character": (b"C", 1)}
NAMES = "program.karmaexec listing.karma readings.tape results.tape permit.txt README.txt".split()
ASKED = {}  # number: sentence


class Undone(Exception):
    """A page with which a command ends that is not done."""


class Missing(Exception):
    """A file that is not there."""


class Shelf:
    """The files that commands made, and those in data/."""

    def __init__(self):
        self.made, self.told = {}, []

    def read(self, name):
        path = os.path.join(CRATE, "data", name)
        if name not in self.made and not os.path.isfile(path):
            raise Missing(name)
        return self.made[name] if name in self.made else open(path, "rb").read()

    def keep(self, name, data):
        self.made[name] = data
        self.told.append("(%s is made: %d bytes)" % (name, len(data)))


# ---- Texts and tapes ----


def no(number):
    return "question %d got a no: %s" % (number, ASKED[number])


def refused(number, line=None):
    return "refused %d%s\n%s" % (number, "" if line is None else " line %d" % line, no(number))


def assembled(text):
    assembler = ASSEMBLY["Assembler"](text, 65538)
    try:
        return assembler.run(262656), len(assembler.labels)
    except ASSEMBLY["Refused"] as error:
        raise Undone(refused(*error.args))


def listed(data):
    page = LISTING["listing"](data)
    if isinstance(page, int):
        raise Undone(refused(page))
    return page


def differing(left, right):
    """The number of the first line in which two texts differ, and this line of both."""
    for number, (one, other) in enumerate(zip(left.split(b"\n"), right.split(b"\n")), 1):
        if one != other:
            return number, one.decode(), other.decode()
    number = min(left.count(b"\n"), right.count(b"\n")) + 1
    return number, *[text.split(b"\n")[number - 1].decode() for text in (left, right)]


def tape_size(items):
    return sum(1 + SIZES[kind][1] for kind, _ in items)


def item_line(item):
    return "%s 0x%016x" % item if item[0] == "real" else "%s %d" % item


def tape_lines(data):
    items, spoiled = STEP["tape_items"](data)
    return [item_line(item) for item in items] + ["spoiled at byte %d" % tape_size(items)] * spoiled


def made_tape(name, text):
    lines, tape = text.decode("latin-1").split("\n"), b""
    for number, line in enumerate(lines[: len(lines) - (lines[-1] == "")], 1):
        kind, _, value = line.partition(" ")
        size = SIZES.get(kind, (b"", 0))
        hexadecimal = kind == "real" and re.fullmatch("0x[0-9a-f]{16}", value)
        decimal = kind in ("number", "character") and re.fullmatch("0|[1-9][0-9]*", value) and int(value) < 256 ** size[1]
        if not hexadecimal and not decimal:
            raise Undone("refused line %d\nit is no item's line in %s; karma help tape tells how items are written" % (number, name))
        tape += size[0] + int(value, 16 if hexadecimal else 10).to_bytes(size[1], "little")
    return tape


def read_permit(name, text):
    permit = PERMIT["Permit"]()
    for number, line in enumerate(text.decode().split("\n"), 1):
        words = line.partition("#")[0].split()
        values = [ASSEMBLY["number_of"](word) for word in words[1:]]
        if not words:
            continue
        if words[0] not in ("register", "code", "constants", "stack") or len(values) != 1 + (words[0] == "register") or None in values:
            raise Undone("refused line %d\nno setting stands there in the permit %s; karma help run tells the settings" % (number, name))
        change = {"register": "register=%s", "code": "segment=0:%s", "constants": "segment=1:%s", "stack": "stack=%s"}[words[0]]
        if not permit.change(change % ":".join(map(str, values))):
            raise Undone("%s\nin the permit %s" % (refused(54, number), name))
    return permit


# ---- Runs ----


class Run:
    """A run of an executable over a tape of readings: its machine, how it ended, and how often it was told of."""

    def __init__(self, data, readings, permit, budget, cells=CELLS, writes=WRITES):
        listed(data)
        code, constants, first, stack = struct.unpack("<4I", data[16:32])
        words = [word for (word,) in struct.iter_unpack("<I", data[512:])]
        if not 1024 <= cells <= CELLS or max(len(words), first + 1, stack + 1) > cells:
            raise Undone(refused(29))
        for number, yes in ((46, writes <= WRITES), (52, budget <= STEPS)):
            if not yes:
                raise Undone(refused(number))
        self.data, self.readings = data, readings
        self.machine = STEP["Machine"](cells, code // 4, constants // 4, stack, {"writes": str(writes), "input": readings.hex()})
        self.machine.cells, self.machine.r[15], self.machine.r[14] = dict(enumerate(words)), first, stack
        self.machine.levels, self.machine.maximum = list(permit.registers.values()), permit.stack
        self.machine.code_level, self.machine.constants_level = permit.segments.values()
        self.first, self.all = copy.deepcopy(self.machine), len(self.machine.items)
        self.budget, self.told, self.end, self.steps = budget, [], "spent", 0
        self.fault = None
        self.go(budget)

    def go(self, budget):
        machine, step = self.machine, STEP["step"]
        while self.steps < budget and self.end == "spent":
            try:
                end = step(machine)
            except STEP["Fault"] as fault:
                self.stop(fault.args[0])
                break
            self.steps += 1
            self.end = end or "spent"
            if end is None and self.steps % PART == 0 and self.steps < budget:
                self.tell()
        if budget > 0:
            self.tell()

    def stop(self, number):
        """Takes the steps before a fault again, since the faulted one may have begun to change something."""
        self.machine = copy.deepcopy(self.first)
        for _ in range(self.steps):
            STEP["step"](self.machine)
        self.fault = number, self.machine.r[15]
        self.end = "fault %d address %d layer %s" % (*self.fault, "host" if 42 <= number <= 45 else "machine")

    def tell(self):
        taken = self.all - len(self.machine.items)
        waiting = len(self.readings) - tape_size(STEP["tape_items"](self.readings)[0][:taken])
        self.told.append("(told: %d steps of at most %d, %d bytes of readings wait)" % (self.steps, self.budget, waiting))

    def facts(self):
        kind, _, value = self.end.partition(" ")
        ending = "exited %d" % int(value, 16) if kind == "exited" else self.end
        counts = self.steps, self.all - len(self.machine.items), len(STEP["tape_items"](self.machine.written)[0])
        return ["ending " + ending, "steps %d" % counts[0], "taken %d" % counts[1], "written %d" % counts[2]]

    def page(self):
        if self.fault is None:
            return self.facts()
        address = self.fault[1]
        inside = address < self.machine.size
        command = LISTING["code_line"](self.machine.cells.get(address, 0)) if inside else "none, the address is outside memory"
        return self.facts() + [no(self.fault[0]), "command at %d: %s" % (address, command)]

    def dump(self):
        return ["r%d %d" % pair for pair in enumerate(self.machine.r)] + ["flags %d" % self.machine.flags]

    def trace(self, count):
        machine, lines = copy.deepcopy(self.first), []
        for number in range(1, min(count, self.steps) + 1):
            before, address = machine.r + [machine.flags], machine.r[15]
            STEP["step"](machine)
            names = ["r%d" % n for n in range(16)] + ["flags"]
            changes = ["%s %d -> %d" % row for row in zip(names, before, machine.r + [machine.flags]) if row[1] != row[2]]
            command = LISTING["code_line"](self.first.cells.get(address, 0))
            lines.append("step %d address %d %s: %s" % (number, address, command, ", ".join(changes) or "nothing changed"))
        return lines


def compared(one, run_second, is_open):
    """The lines that tell how the runs under two permits part, and whether no answer differs."""
    lines, same = ["the same throughout"], True
    if one.fault and one.fault[0] in (34, 40, 41):
        second = run_second(one.steps)
        same = (second.end, second.steps) == ("spent", one.steps)
        lines = ["the first meets a permit fault after %d steps" % one.steps, "fault %d address %d" % one.fault, no(one.fault[0])]
        lines.append("the second is spent after as many steps" + ", and holds the same there" * is_open)
    else:
        second = run_second(one.budget)
        same = (second.end, second.steps) == (one.end, one.steps)
    if not same:
        lines = ["the second answers otherwise"]
    if not is_open:
        lines.append("the second permit is not at least as open as the first: that the two do not differ is no law of such permits")
    return lines + ["under the first permit:"], same


# ---- Commands ----


def preamble():
    text = open(os.path.join(HERE, "..", "crates", "record_replies", "src", "preamble.rt")).read()
    return text.split('"')[1].encode()


def options_of(words, command):
    """The options of a run or a comparison, or the sentence of a misuse."""
    takes = {"--readings", "--results", "--budget", "--cells", "--writes", "--trace", "--dump", "--quiet"}
    takes |= {"--permit"} if command == "run" else {"--first", "--second"}
    found = {}
    while words:
        word = words.pop(0)
        if word not in takes:
            raise Undone("karma: %s has no option '%s'; karma help %s lists its options" % (command, word, command))
        if word not in ("--quiet", "--dump") and not words:
            raise Undone("karma: %s needs a value; write it as the next word" % word)
        value = True if word in ("--quiet", "--dump") else words.pop(0)
        if word in ("--budget", "--cells", "--writes", "--trace"):
            if ASSEMBLY["number_of"](value) is None:
                raise Undone("karma: %s needs a number and not '%s'; write one without a sign, as 1000 or 0x3e8" % (word, value))
            value = ASSEMBLY["number_of"](value)
        if word in found:
            raise Undone("karma: %s stands twice; write it once" % word)
        found[word] = value
    for word in ("--first", "--second"):
        if word in takes and word not in found:
            raise Undone("karma: compare needs %s PERMIT" % word)
    return found


def run_as_asked(shelf, data, found, permit, budget=None):
    readings = shelf.read(found["--readings"]) if "--readings" in found else b""
    budget = found.get("--budget", STEPS) if budget is None else budget
    return Run(data, readings, permit, budget, found.get("--cells", CELLS), found.get("--writes", WRITES))


def ran(shelf, run, found):
    """What is told of a run, whose results are kept where that is asked for."""
    shelf.told += run.told
    if "--results" in found:
        shelf.keep(found["--results"], run.machine.written)
    return run.page() + (run.dump() if "--dump" in found else []) + run.trace(found.get("--trace", 0))


def do_run(shelf, executable, *words):
    found = options_of(list(words), "run")
    data = shelf.read(executable)
    if "--readings" in found:
        shelf.read(found["--readings"])
    name = found.get("--permit")
    permit = read_permit(name, shelf.read(name)) if name else PERMIT["Permit"]()
    run = run_as_asked(shelf, data, found, permit)
    return ran(shelf, run, found), True


def do_compare(shelf, executable, *words):
    found = options_of(list(words), "compare")
    data = shelf.read(executable)
    texts = [(found[word], shelf.read(found[word])) for word in ("--first", "--second")]
    first, second = [read_permit(*text) for text in texts]
    one = run_as_asked(shelf, data, found, first)
    lines, same = compared(one, lambda budget: run_as_asked(shelf, data, found, second, budget), second.is_as_open_as(first))
    return lines + ran(shelf, one, found), same


def do_assemble(shelf, source, executable):
    data, labels = assembled(shelf.read(source))
    shelf.keep(executable, data)
    code, constants, first, stack = struct.unpack("<4I", data[16:32])
    facts = ("code", code // 4), ("constants", constants // 4), ("first", first), ("stack", stack), ("labels", labels)
    return ["%s %d" % fact for fact in facts], True


def do_list(shelf, executable):
    return listed(shelf.read(executable)).decode().rstrip("\n").split("\n"), True


def do_check(shelf, executable, listing):
    data, filed = shelf.read(executable), shelf.read(listing)
    page = listed(data)
    if page == filed:
        return ["agrees"], True
    number, left, right = differing(page, filed)
    return ["differs at line %d" % number, "the executable lists as: " + left, "the listing has: " + right], False


def do_same(shelf, *names):
    files = [shelf.read(name) for name in names]
    for name, data in zip(names, files):
        try:
            listed(data)
        except Undone as page:
            raise Undone("%s\nin %s" % (page, name))
    same = files[0] == files[1]
    return ["same" if same else "different"], same


def do_tape(shelf, verb, text, tape=None):
    if verb == "show":
        return tape_lines(shelf.read(text)), True
    shelf.keep(tape, made_tape(text, shelf.read(text)))
    return [], True


def do_file(shelf, record, source, readings, permit):
    text, tape, rights = shelf.read(source), shelf.read(readings), shelf.read(permit)
    data, _ = assembled(text)
    run = Run(data, tape, read_permit(permit, rights), STEPS)
    shelf.told += run.told
    page = preamble() + "".join(line + "\n" for line in run.facts()).encode()
    for name, content in zip(NAMES, (data, listed(data), tape, run.machine.written, rights, page)):
        shelf.keep(record + "/" + name, content)
    return run.page(), True


def do_replay(shelf, record):
    data, listing, readings, results, permit, page = [shelf.read(record + "/" + name) for name in NAMES]
    try:
        wanted = listed(data)
    except Undone as refusal:
        raise Undone("program: no executable\n%s" % refusal)
    lines, good = ["program: accepted"], [wanted == listing]
    if good[0]:
        lines.append("listing: agrees")
    else:
        number, left, right = differing(wanted, listing)
        lines += ["listing: differs at line %d" % number, "  the program lists as: " + left, "  the filed listing has: " + right]
    try:
        run = Run(data, readings, read_permit("permit.txt", permit), STEPS)
        shelf.told += run.told
        lines += run.page() + results_lines(results, run.machine.written)
        good += [results == run.machine.written, page.endswith("".join(line + "\n" for line in run.facts()).encode())]
        lines.append("page: agrees" if good[2] else "page: does not end with what the run came to")
    except Undone as refusal:
        lines += str(refusal).split("\n")
        good.append(False)
    return lines + ["all of the record agrees" if all(good) else "not all of the record agrees"], all(good)


def results_lines(filed, new):
    if filed == new:
        return ["results: agree"]
    common = len(os.path.commonprefix([filed, new]))
    at = len(STEP["tape_items"](filed[:common])[0])
    sides = [STEP["tape_items"](tape)[0][at : at + 1] for tape in (filed, new)]
    told = [item_line(side[0]) if side else "no item" for side in sides]
    return ["results: differ at item %d" % (at + 1), "  filed: " + told[0], "  now: " + told[1]]


OPERANDS = {"assemble": 2, "list": 1, "check": 2, "same": 2, "file": 4, "replay": 1}


def obey(shelf, words):
    """The lines that a command prints, none where they are not worked out, and whether it is done."""
    command, given = words[0], words[1:]
    if command not in TOPICS:
        raise Undone("karma: no command '%s'; karma help lists the commands" % command)
    if command == "help":
        if given and given[0] not in TOPICS + ["numbers"]:
            raise Undone("karma: no command '%s'; karma help lists the commands" % given[0])
        return None, True
    fits = {"run": bool(given), "compare": bool(given), "tape": given[:1] == ["show"] and len(given) == 2 or given[:1] == ["make"] and len(given) == 3}
    if not fits.get(command, len(given) == OPERANDS.get(command)):
        raise Undone("karma: these are not the operands of %s; karma help %s tells them" % (command, command))
    return globals()["do_" + command](shelf, *given)


def wanted_for(shelf, line):
    shelf.told = []
    try:
        lines, done = obey(shelf, line.split())
    except Undone as page:
        lines, done = str(page).split("\n"), False
    except Missing as name:
        lines, done = ["karma: %s: No such file or directory (os error 2)" % name], False
    status = "status %d" % (not done)
    return None if lines is None else shelf.told + lines + [status], status


def main():
    printed = open(os.path.join(CRATE, "stdout")).read()
    for number, sentence in re.findall(r"^(\d+) (.*\?)$", printed.split("$ karma help numbers\n")[1].split("status 0")[0], re.MULTILINE):
        ASKED[int(number)] = sentence
    shelf, wrong, worked_out, at = Shelf(), 0, 0, 0
    for line in open(os.path.join(CRATE, "stdin")).read().splitlines():
        if not line.partition("#")[0].split():
            ok = printed.startswith(line + "\n", at)
            at += len(line) + 1
        else:
            end = printed.index("\n\n", printed.index("\nstatus ", at)) + 2
            found = printed[at:end]
            at = end
            lines, status = wanted_for(shelf, line)
            if lines is None:
                ok = found.startswith("$ karma %s\n" % line) and found.endswith("\n%s\n\n" % status)
            else:
                ok = found == "\n".join(["$ karma " + line] + lines) + "\n\n"
                worked_out += 1
        if not ok:
            wrong += 1
            print("DIFFERS: %s" % line)
            if lines is not None:
                print("\n".join(lines))
    rest = printed[at:]
    print("%d commands worked out, %d differ%s" % (worked_out, wrong, ", and more is printed" if rest else ""))
    sys.exit(bool(wrong or rest))


if __name__ == "__main__":
    main()
