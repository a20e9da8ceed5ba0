#!/usr/bin/env python3
"""Respells this repository's own antt names: definitions, lemmas, fields and constructors in snake case, types in camel case.

usage: python3 tools/respell.py [FOLDER]        once, after the kit's port.py; FOLDER is the top of a checkout (default: this folder)

A name counts as the repository's own where a file of specs/, or one right in proofs/, declares it, or where a let, a
lambda or a parameter of an .antt file binds it. Names that the kit or the Rust code makes stay: what stands behind `c.`,
`g.`, `goal.` in the files below proofs/F/, and everything in Rust code outside clauses. Two names that would fall
together in a file are told on a line `meet:` and stay as they are in every file.
"""

import collections
import os
import re
import sys

TOKEN = re.compile(r'--[^\n]*|"(?:[^"\\\n]|\\.)*"|[^\s(){}.;,@"«»\[\]|]+|.', re.S)
DECLARED = re.compile(
    r"^[ \t]*(?:(?:pub|abbrev|unfoldable)[ \t]+)*(?:(record|data|module)[ \t]+)?(?:pub[ \t]+)?([^\s(){}.;,@\"«»:=]+)(?=[ \t]*(?::(?=\s)|[({]))",
    re.M,
)
BOUND = re.compile(r"(?:let|in)\s+([^\s(){}.;,@\"«»:=]+)\s*[:=]|λ\s+([^.\n]*)\.|[({]([^\s(){}.;,@\"«»:=]+(?:\s+[^\s(){}.;,@\"«»:=]+)*)\s+:")
# what the kit's libraries lend
LENT = re.compile(r"use (?:Rattle\.std|borrow|denote|mir|lib|Prim|mathlib|native)\.[\w.+]*\{([^}]*)\}")
CAMEL = re.compile(r"^[a-z][a-z0-9]*[A-Z][A-Za-z0-9]*'*$")
# the path of an import: its parts are modules and functions of the Rust code
PATH = re.compile(r"(?<=use )[\w.+]+(?=\.| as )")
WORDS = ("let", "in", "where", "use", "module", "pub", "abbrev", "record", "data", "elim", "as", "mod", "unfolding")
# Where a lemma would meet the definition that it is about, the lemma takes another name.
LEMMAS = {
    "string-words": "string_words_counted",
    "labels-left": "labels_left_are",
    "code-size": "code_size_is",
    "constants-size": "constants_size_is",
    "stack-after": "stack_after_is",
    "is-stack": "is_stack_any",
    "code_by": "by_code_with",
    "line-text": "line_text_is",
    "line-says": "line_says_is",
    "parts-by": "parts_by_words",
    "number-line": "number_line_says",
}
# The same, of lemmas whose name is also that of other things elsewhere: by the end of the file's path.
LOCAL = {
    "assembler/proofs/Counts.antt": {"on_line": "on_line_counts"},
    "assembler/proofs/Firsthand.antt": {"on_line": "line_refused"},
    "roundtrip/proofs/Answered.antt": {"rebuiltLength": "length_is"},
    "roundtrip/proofs/Runs.antt": {"in_order": "in_order_yes"},
}


def spell(name):
    if name.startswith("returns") or not re.search(r"[A-Z-]", name[1:]):
        return name
    if not re.fullmatch(r"[A-Za-z][A-Za-z0-9'_-]*", name):
        return name
    if name[0].isupper():
        return "".join(p[:1].upper() + p[1:] for p in name.split("-")) if "-" in name else name
    snake = re.sub(r"(?<=[a-z0-9])([A-Z])", lambda m: "_" + m.group(1).lower(), name)
    return snake.replace("-", "_").lower()


def files(root):
    for folder, dirs, names in os.walk(os.path.join(root, "crates")):
        dirs[:] = sorted(d for d in dirs if d != "out")
        for n in sorted(names):
            if n.endswith((".antt", ".rt", ".edit")):
                yield os.path.join(folder, n)


def read(path):
    with open(path, encoding="utf-8") as f:
        return f.read()


def is_answers(path):
    return bool(re.search(r"/proofs/.+/[^/]*\.antt$", path))


def collect(root):
    own, local = collections.defaultdict(set), collections.defaultdict(set)
    lent = set()
    for p in files(root):
        for m in LENT.finditer(read(p)):
            lent.update(n.strip().split(" as ")[0] for n in m.group(1).split(","))
    for p in files(root):
        if not p.endswith(".antt"):
            continue
        t = re.sub(r"--[^\n]*", "", read(p))
        if not is_answers(p):
            for m in DECLARED.finditer(t):
                if m.group(2) not in WORDS:
                    own[m.group(2)].add(p)
        for m in BOUND.finditer(t):
            for n in " ".join(g for g in m.groups() if g).split():
                local[p].add(n)
    for n in lent & set(own):
        del own[n]
    for names in local.values():
        names -= lent
    return own, local


def main():
    root = os.path.abspath(sys.argv[1] if len(sys.argv) > 1 else ".")
    own, local = collect(root)
    table = {n: LEMMAS.get(n, spell(n)) for n in own if LEMMAS.get(n, spell(n)) != n}
    tokens = {}
    for p in files(root):
        t = read(p)
        tokens[p] = set(w for w in TOKEN.findall(PATH.sub("", t)) if not w.startswith(("--", '"')))
        if p.endswith((".rt", ".edit")):
            tokens[p] |= set(re.findall(r"[A-Za-z_][\w'-]*", t))
    here = {}
    for p in files(root):
        rows = dict(table)
        for end, names in LOCAL.items():
            if p.endswith(end):
                rows.update(names)
        if p.endswith(".antt"):
            for n in local[p] | {w for w in tokens[p] if CAMEL.match(w)}:
                if spell(n) != n and n not in rows:
                    rows[n] = spell(n)
        here[p] = {n: s for n, s in rows.items() if n in tokens[p]}
    stay = set()
    for p, rows in here.items():
        back = collections.defaultdict(list)
        for n, s in rows.items():
            back[s].append(n)
        for s, ns in back.items():
            if p.endswith(".antt") and (len(ns) > 1 or s in tokens[p] - set(rows)):
                print(f"meet: {os.path.relpath(p, root)}: {' '.join(ns)} -> {s}")
                stay.update(ns if len(ns) > 1 else ns)
    changed = 0
    # a name turns everywhere or nowhere
    for p, rows in here.items():
        rows = {n: s for n, s in rows.items() if n not in stay}
        if not rows:
            continue
        t = read(p)
        new = turn_antt(t, rows, is_answers(p), own) if p.endswith(".antt") else turn_rust(t, rows)
        if new != t:
            with open(p, "w", encoding="utf-8") as f:
                f.write(new)
            changed += 1
    print(f"respell: {len(table)} names of the repository, {changed} files, {len(stay)} names stay")
    for n in sorted(table):
        print(f"name: {n} {'stays' if n in stay else table[n]}")


def turn_antt(text, rows, answers, own):
    out, last, before = [], "", ""
    for w in TOKEN.findall(text):
        if w.startswith("--"):
            out.append(re.sub(r"[A-Za-z][\w'-]*", lambda m: rows.get(m.group(0), m.group(0)) if "-" not in m.group(0) else m.group(0), w))
        elif w in rows and not (answers and last == "." and "-" in w and before in ("goal", "need", "c", "g", "Goals", "Needs")):
            out.append(rows[w])
        else:
            out.append(w)
        if not w.isspace():
            before, last = last, w
    return "".join(out)


def turn_rust(text, rows):
    # in Rust code only camel case that begins small can be ours; strings stay
    def word(m):
        w = m.group(0)
        if w.startswith('"') or w.startswith('b"'):
            return w
        return rows.get(w, w) if "-" not in w and w[0].islower() and re.search(r"[A-Z]", w) else w

    return re.sub(r'b?"(?:[^"\\\n]|\\.)*"|[A-Za-z_][\w\']*', word, re.sub(r"(?<=[{(, ])([A-Z][a-z]+(?:-[a-z]+)+)(?=[},) ])", lambda m: rows.get(m.group(1), m.group(1)), text))


main()
