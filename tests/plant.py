#!/usr/bin/env python3
"""Plants each bug of a table, one at a time, and says whether the check refuses it.

usage: tests/plant.py TABLE [--dry | --run] [WORD..]

Run it in a copy of the repository: it edits files and puts them back. A table has blocks, parted by empty lines:

    bug: WHAT IS WRONG
    crate: NAME
    file: PATH                 (below the crate)
    old: TEXT                  (stands once in that file)
    new: TEXT

A bug may stand in a definition as well as in the code, to see whether a law refuses it. Its block has a line `law:` too, which
names the law, and all places where the check finds no proof are printed and not only the first.

Several `old:` or `new:` lines in a row are one text of several lines, and a block may have several edits. With words
after the table only the bugs are planted whose first line has one of them.

For each bug a line is printed: whether the check refuses it, the seconds, the place of the first error, and what it
says. Where that place is in hand-written answers, it also says what the search alone makes of that function without
them: an edit that is then PROVED was refused only because a proof file did not fit.

--dry   only sees that every old text stands once in its file
--run   does not check: runs the test program of the crate without proof (rt try), and says whether it prints what it
        must. Where it does not, the planted body answers otherwise than the proved one on some case, so that no proof
        of the same contract exists for it. A program that rt try does not bring to its end without the bug, as `texts`,
        which takes more steps than it has, cannot tell.
"""
import os
import re
import subprocess
import sys

PROGRAMS = {
    "isa": ["vectors", "texts"],
    "executable": ["vectors"],
    "listing": ["vectors", "lister"],
    "output": ["vectors"],
    "lexer": ["texts"],
    "numerals": ["texts"],
    "assembler": ["texts"],
    "bounded": ["texts"],
    "roundtrip": ["texts"],
}


def blocks(path):
    for block in re.split(r"\n\s*\n", open(path, encoding="utf-8").read()):
        lines = [line for line in block.split("\n") if line.strip() and not line.startswith("#")]
        if lines:
            yield lines


def parse(lines):
    """A block's plain fields, and its edits as [file, old, new]."""
    bug, edits, last = {}, [], None
    for line in lines:
        key, _, rest = line.partition(":")
        rest = rest[1:] if rest.startswith(" ") else rest
        if key == "file":
            edits.append([rest, None, None])
        elif key == "old" and last == "old":
            edits[-1][1] += "\n" + rest
        elif key == "old":
            if edits[-1][1] is not None:
                edits.append([edits[-1][0], None, None])
            edits[-1][1] = rest
        elif key == "new":
            edits[-1][2] = rest if last != "new" else edits[-1][2] + "\n" + rest
        else:
            bug[key] = rest
        last = key
    return bug, edits


def rt(word, crate):
    done = subprocess.run(["rt", word], cwd=os.path.join("crates", crate), capture_output=True, text=True)
    return done.returncode, done.stdout + done.stderr


def without(answers, crate):
    """What the search alone says of the function whose hand-written answers do not fit."""
    if os.path.basename(answers) != "Answers.antt":
        return "a lemma does not fit"
    answers = os.path.join("crates", crate, answers)  # rt names files from the crate's folder
    text = open(answers, encoding="utf-8").read()
    os.remove(answers)
    try:
        status, out = rt("check", crate)
        if status == 0:
            return "PROVED without the hand-written answers"
        open_needs = re.findall(r"^fn (\S+): no proof: expected answers.*?; (.*)$", out, re.M)
        return "; ".join("%s: %s" % need for need in open_needs)[:300]
    finally:
        open(answers, "w", encoding="utf-8").write(text)


def unproved(out):
    """Every place where the check finds no proof."""
    errors = re.findall(r"^(\S+\.antt:\d+):\d+: error(?:\[[^\]]*\])?: `([^`]+)`", out, re.M)
    notes = re.findall(r"^note: (\S+\.rt:\d+):\d+: .*\(`([^`]+)`\)", out, re.M)
    return sorted(set("%s %s" % place for place in errors + notes))


def check(bug):
    status, out = rt("check", bug["crate"])
    if status == 0:
        return ["PROVED"]
    if "law" in bug:
        return ["refused", "; ".join(unproved(out)) or out[-300:].replace("\n", " ")]
    if "logic=not-proved" not in out:
        return ["NOT REACHED", out[-300:].replace("\n", " ")]
    errors = re.findall(r"^(\S*): error(?:\[[^\]]*\])?:? ?(.*)$", out, re.M)
    notes = re.findall(r"^note: (\S+\.rt:\d+:\d+): (.*)$", out, re.M)
    if errors and "/proofs/" in errors[0][0]:
        return ["refused", errors[0][0], errors[0][1][:200], without(errors[0][0].split(":")[0], bug["crate"])]
    first = (errors or notes or [("", "")])[0]
    return ["refused", first[0], first[1][:200]]


def prints_the_same(program):
    """Whether a program, run without proof on what the gate gives it, prints what it must."""
    folder = os.path.join("crates", program)
    with open(os.path.join(folder, "stdin"), "rb") as given, open(os.path.join(folder, "stdout"), "rb") as wanted:
        done = subprocess.run(["rt", "try"], cwd=folder, stdin=given, capture_output=True)
        return done.returncode == 0 and done.stdout == wanted.read()


def run(bug, sound):
    """What the programs print with the bug. One that does not print what it must without it tells nothing."""
    answers = []
    for program in PROGRAMS.get(bug["crate"], []):
        if program not in sound:
            answers.append("%s cannot tell: rt try does not bring it to its end without the bug" % program)
        else:
            answers.append("%s %s" % (program, "prints the same" if prints_the_same(program) else "prints something else"))
    return answers or ["no program"]


def plant(bug, edits, work):
    kept = {}
    try:
        for name, old, new in edits:
            path = os.path.join("crates", bug["crate"], name)
            text = open(path, encoding="utf-8").read()
            kept.setdefault(path, text)
            if text.count(old) != 1:
                return ["BAD EDIT", "the old text stands %d times in %s" % (text.count(old), path)]
            open(path, "w", encoding="utf-8").write(text.replace(old, new))
        return work(bug)
    finally:
        for path, text in kept.items():
            open(path, "w", encoding="utf-8").write(text)


def main():
    table, words = sys.argv[1], [w for w in sys.argv[2:] if not w.startswith("--")]
    work = check
    if "--dry" in sys.argv:
        work = lambda bug: ["ok"]
    elif "--run" in sys.argv:
        sound = {program for program in sorted(set(sum(PROGRAMS.values(), []))) if prints_the_same(program)}
        work = lambda bug: run(bug, sound)
    for lines in blocks(table):
        bug, edits = parse(lines)
        if words and not any(word in bug["bug"] for word in words):
            continue
        print("\t".join([bug["crate"], bug["bug"]] + plant(bug, edits, work)), flush=True)


main()
