#!/usr/bin/env python3
"""Lists the places in crates/*/src that docs/DESIGN-PASS.md counts, a list for each point.

usage: tools/places.py [POINT] [--folder FOLDER]

Tests (files named tests.rt) are left out. A place is a line, a function, a struct or a pair of functions, as the point says. The lists
find candidates by their text; what each candidate is, the page says.
"""
import collections
import itertools
import os
import re
import sys

PROPAGATED = re.compile(r"Err\((\w+)\) => (return )?Err\(|None => (return )?None\b")
GUARD = re.compile(r"else \{\s*return (Err\([^)]*\)|None);\s*\};", re.S)
BOOL_FIELD = re.compile(r"^    (pub(\(crate\))? )?(\w+): bool,$", re.M)
NUMBER_FOR_KIND = re.compile(r"\b(kind|level|segment|register|show|host|number|question): (u8|u32|u64|String)\b")
SENTINEL = re.compile(r"=> 99\b|Origin \{ line: 0 \}|b\"\"")
ENUM = re.compile(r"^\s*(?:pub(?:\(crate\))? )?enum (\w+)", re.M)
LOOP = re.compile(r"^\s*(while|loop|for)\b[^\n]*\{$", re.M)
INDEX = re.compile(r"\bfor \w+ in [^\n]*\.\.|\.enumerate\(\)|(\w+) \+= 1;")
BY_HAND = re.compile(r"=> (true|false),?$", re.M)
CONVERSION = re.compile(r"fn (number|code|from_\w+|is_kind|is_open|meaning|\w+_from|show_\w+|is_filler\w*|put_decimal|put_signed)\b")
SOME_NONE = re.compile(r"Some\([^\n]*\)\n\s*\} else \{\n\s*None\n|\{ Some\([^}]*\) \} else \{ None \}|None => None,|None => (false|at|0),")
LENGTH = re.compile(r"^    (?:pub(?:\(crate\))? )?(len|length|at|count|taken|left|end|start|place|offset): usize,$", re.M)
ARRAY = re.compile(r"\[[\w:]+; [\w]+\]|\[0u8; \d+\]")
SWITCH = re.compile(r"\bdyn \w|impl Fn|\bfn\(|== \"\w+\"")
FN = re.compile(r"\bfn (\w+)(?:<[^{(]*?>)?\(([^)]*)\)", re.S)
CONTRACT = re.compile(r"^\s*(requires|ensures)(?: \w+)? \{ (.*) \};?$", re.M)


def parameters(text):
    """The parameters of a function, as `name: type`, without lifetimes."""
    depth, part = 0, ""
    for sign in " ".join(text.split()) + ",":
        if sign == "," and depth == 0:
            name, _, kind = part.strip().partition(": ")
            if kind:
                yield name.replace("mut ", "") + ": " + re.sub(r"'\w+(, )?( )?", "", kind).replace("<>", "")
            part = ""
            continue
        depth += {"<": 1, "[": 1, "(": 1, ">": -1, "]": -1, ")": -1}.get(sign, 0)
        part += sign


def sources(folder):
    for top, folders, files in os.walk(os.path.join(folder, "crates")):
        folders[:] = sorted(name for name in folders if name != "out")
        if "/src" not in top:
            continue
        for name in sorted(files):
            if name.endswith(".rt") and name != "tests.rt":
                path = os.path.join(top, name)
                with open(path, encoding="utf-8") as file:
                    yield os.path.relpath(path, os.path.join(folder, "crates")), file.read()


def found(folder, *patterns):
    for path, text in sources(folder):
        code = re.sub(r"//[^\n]*", "", text)
        for pattern in patterns:
            for match in pattern.finditer(code):
                line = code.count("\n", 0, match.start()) + 1
                shown = " ".join(match.group(0).split())
                yield f"{path}:{line}: {shown}"


def repeated_facts(folder):
    places = collections.defaultdict(list)
    for path, text in sources(folder):
        for match in CONTRACT.finditer(text):
            if match.group(1) == "requires":
                places[match.group(2)].append(path)
    for fact, paths in sorted(places.items(), key=lambda item: -len(item[1])):
        if len(paths) >= 3:
            yield f"{len(paths)} times required: {fact} ({', '.join(sorted(set(paths)))})"


def repeated_parameters(folder):
    places = collections.defaultdict(list)
    for path, text in sources(folder):
        for match in FN.finditer(text):
            for pair in itertools.combinations(parameters(match.group(2)), 2):
                places[pair].append(f"{path}:{match.group(1)}")
    for pair, where in sorted(places.items(), key=lambda item: -len(item[1])):
        if len(where) >= 3 and not any(p.startswith(("rt:", "heap:")) for p in pair):
            yield f"{len(where)} functions take ({pair[0]}, {pair[1]}): {', '.join(where)}"


def long_functions(folder):
    for path, text in sources(folder):
        for match in re.finditer(r"^( *)(?:pub(?:\(crate\))? )?fn (\w+)[^\n]*\n(?:.*\n)*?\1\}$", text, re.M):
            lines = match.group(0).count("\n") + 1
            if lines > 60:
                yield f"{path}: {match.group(2)} has {lines} lines"


POINTS = {
    "1": ("errors passed on by hand, flags, sentinels, numbers for kinds, enums to be judged",
          lambda f: found(f, PROPAGATED, BOOL_FIELD, SENTINEL, NUMBER_FOR_KIND, ENUM)),
    "1b": ("a guard that returns where `?` could", lambda f: found(f, GUARD)),
    "3": ("loops", lambda f: found(f, LOOP)),
    "3b": ("places counted by hand", lambda f: found(f, INDEX)),
    "4": ("true and false by a match", lambda f: found(f, BY_HAND)),
    "4b": ("conversions, comparisons and printing in functions of their own", lambda f: found(f, CONVERSION)),
    "4c": ("an Option made or mapped by hand", lambda f: found(f, SOME_NONE)),
    "5": ("facts required in three functions or more", repeated_facts),
    "5b": ("parameters that travel together", repeated_parameters),
    "6": ("lengths and places in structs", lambda f: found(f, LENGTH)),
    "6b": ("arrays", lambda f: found(f, ARRAY)),
    "6c": ("long tables", long_functions),
    "7": ("switches on text, function values", lambda f: found(f, SWITCH)),
}


def main(words):
    folder = "."
    if "--folder" in words:
        at = words.index("--folder")
        folder = words[at + 1]
        del words[at:at + 2]
    for point, (name, places) in POINTS.items():
        if words and point not in words:
            continue
        lines = list(places(folder))
        print(f"{point}. {name}: {len(lines)}")
        if words:
            for line in lines:
                print(f"  {line}")


if __name__ == "__main__":
    main(sys.argv[1:])
