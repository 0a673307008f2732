#!/usr/bin/env python3
"""Brings the project's own definitions and lemmas to snake case, once, at the top: python3 tools/respell.py

A name that specs/ or proofs/ declare (a definition, a lemma, a field, a constructor in lower case, a let, a binder, an alias) loses its inner
capitals and its dashes: placeOf and place-of become place_of. Types and modules keep theirs. What stays: names of the library, the names of
goals, which the check makes from the source, and all of src/ but its clauses. In pages a name is turned where it stands between backticks.
It prints each pair of names that would fall together in a file, and then leaves both as they are in that file.
With --list it writes nothing, and prints the pairs.
"""

import collections
import glob
import os
import re
import sys

WORD = re.compile(r"[^\W\d][\w']*(?:-[\w']+)*")
DECLARED = re.compile(r"^\s*(?:abbrev |unfoldable )?(?:pub )?(?:unfoldable |abbrev )?(?:data |record )?([^\W\d][\w'-]*)(?: (?=:)|(?= \())")
GOAL = re.compile(r"^\s*(?:abbrev )?(?:pub )?([^\W\d][\w'-]*) : (?:\(.*\) → )?(?:tie|goal)\.")
BOUND = re.compile(r"\b(?:let|λ) ([^\W\d][\w'-]*)|[({]([^\W\d][\w' -]*) :|\bas ([^\W\d][\w'-]*)|λ \(([^)]*)\)")
IMPORT = re.compile(r"^\s*(?:ghost )?(?:pub )?use ([\w.'-]+)\.\{([^}]*)\}")

# A local name of another meaning than the definition that would get the same.
BY_HAND = {"on_line": "within_count", "in-turn": "in_turn"}


def snake(name):
    """The name in snake case, or itself where it is a type, or has a part in capitals."""
    if not name[:1].islower():
        return name
    name = re.sub(r"(?<=[a-z0-9'])([A-Z])(?![A-Z])", lambda m: "_" + m[1].lower(), name)
    return name.replace("-", "_")


def code_of(line):
    """A line of .antt in two: its code, and its comment."""
    m = re.search(r"(?:^|\s)--(?: .*)?$", line)
    return (line[: m.start()], line[m.start() :]) if m else (line, "")


def files(root, kind):
    found = glob.glob(os.path.join(root, "crates", "*", "**", "*" + kind), recursive=True)
    return sorted(f for f in found if "/out/" not in f)


def read(path):
    with open(path, encoding="utf-8") as f:
        return f.read()


def names_of(text):
    """What a file declares: names, and the goals among them."""
    names, goals = set(), set()
    for line in text.split("\n"):
        line = code_of(line)[0]
        g = GOAL.match(line)
        if g:
            goals.add(g[1])
            continue
        d = DECLARED.match(line)
        if d:
            names.add(d[1])
        for m in BOUND.finditer(line):
            for part in m.groups():
                names.update(w for w in re.split(r"[ ,:]+", part or "") if WORD.fullmatch(w))
    return names, goals


def foreign(text, crates):
    """What a file takes from the library."""
    found = set()
    for line in text.split("\n"):
        m = IMPORT.match(line)
        if m and not (m[1].split(".")[0] == "Rattle" and m[1].split(".")[1] in crates):
            for item in m[2].split(","):
                found.add(item.split(" as ")[0].strip())
    return found


def turn_code(text, table, keep):
    return WORD.sub(lambda m: m[0] if m[0] in keep else table.get(m[0], m[0]), text)


def turn_ticks(text, table):
    return re.sub(r"`[^`\n]*`", lambda m: turn_code(m[0], table, set()), text)


def clause_lines(lines):
    """The lines of a source file that a clause or a ghost use stands on."""
    depth = 0
    for i, line in enumerate(lines):
        bare = line.split("//")[0]
        if depth or re.match(r"\s*(requires|ensures|ghost|decreases)\b", bare):
            yield i
            depth += bare.count("{") - bare.count("}")


def main(root, write):
    crates = set(os.listdir(os.path.join(root, "crates")))
    antt = {f: read(f) for f in files(root, ".antt")}
    rt = {f: read(f) for f in files(root, ".rt")}
    declared = collections.Counter()
    goals = {}
    for f, text in antt.items():
        names, goals[f] = names_of(text)
        declared.update(names)
    table = {n: snake(n) for n in declared if snake(n) != n}
    # an alias in a clause of src/
    for text in rt.values():
        for m in re.finditer(r"^ghost use .*", text, re.M):
            for a in re.findall(r"\bas ([\w'-]+)", m[0]):
                if snake(a) != a:
                    table[a] = snake(a)
    table.update(BY_HAND)
    # A lemma with the name of the definition that it speaks of.
    plain = {n for n in declared if "-" not in n}
    spoken = {snake(n) for n in plain}
    for old in table:
        if "-" in old and old not in BY_HAND and table[old] in spoken:
            table[old] += "_lem"
    taken = collections.defaultdict(set)
    for old, new in table.items():
        taken[new].add(old)
    for new, olds in sorted(taken.items()):
        if len(olds) > 1 or new in declared:
            print("one name for", sorted(olds | ({new} & set(declared))), "->", new)
    turned = {}
    for f, text in antt.items():
        keep = foreign(text, crates) | goals[f]
        code = "\n".join(code_of(l)[0] for l in text.split("\n"))
        there = set(WORD.findall(re.sub(r"\bRattle(\.[\w+]+)+|\.[\w'-]+", "", code)))
        by_new = collections.defaultdict(set)
        for w in there:
            by_new[w if w in keep else table.get(w, w)].add(w)
        for new, olds in by_new.items():
            if len(olds) > 1:
                print(f"fall together in {os.path.relpath(f, root)}: {sorted(olds)} -> {new}")
        out = []
        for line in text.split("\n"):
            c, comment = code_of(line)
            out.append(turn_code(c, table, keep) + turn_ticks(comment, table))
        turned[f] = "\n".join(out)
    for f, text in rt.items():
        lines = text.split("\n")
        keep = foreign(text, crates)
        at = set(clause_lines(lines))
        out = []
        for i, line in enumerate(lines):
            c, slashes, comment = line.partition("//")
            out.append((turn_code(c, table, keep) if i in at else c) + slashes + turn_ticks(comment, table))
        turned[f] = "\n".join(out)
    pages = [os.path.join(root, "README.md")] + sorted(glob.glob(os.path.join(root, "docs", "**", "*.md"), recursive=True))
    for f in pages:
        turned[f] = turn_ticks(read(f), table)
    if not write:
        for old in sorted(table):
            print(old, table[old])
        return
    for f, text in turned.items():
        if text != read(f):
            with open(f, "w", encoding="utf-8") as to:
                to.write(text)
    print(f"{len(table)} names turned")


if __name__ == "__main__":
    main(os.getcwd(), "--list" not in sys.argv[1:])
