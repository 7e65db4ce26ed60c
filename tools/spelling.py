#!/usr/bin/env python3
"""Brings the repository's own definitions and lemmas to today's spelling: words in snake case, ′ as '.

usage: python3 tools/spelling.py [ROOT]      once, after port.py: rewrites specs/, proofs/, contracts and must-fail edits
       python3 tools/spelling.py --list      prints old and new, and rewrites nothing

What is renamed is what specs/ and proofs/ declare: `readBits` and `read-value` become `read_bits` and `read_value`.
Functions of src/, types, modules, and names of the library stay. Where two names would fall together, the definition
gets the plain name and the lemma `_lem` after it; a field of a record of specs/ may share its name with what is no field.
"""
import os
import re
import sys
from collections import defaultdict

# Fields, which fall together with a constructor or a function; a list of bytes that would with a constructor; and a
# function that would with a lemma of another crate.
CHOSEN = {
    "goesOn": "goes_on",
    "frame-marker": "frame_marker",
    "feature-enabled": "feature_enabled",
    "header-bytes": "header_bytes",
    "no-file": "no_file_bytes",
}
TOKEN = re.compile(r"[^\s(){}\[\].;,:\"«»\\λ|`@#]+")
DECLARED = re.compile(r"^\s*(?:(?:abbrev|unfoldable|pub|ruleset)\s+)*([^\s(){}:.;,\"]+)\s+:(?:\s|$)")


def texts(root, endings, inside=("src", "specs", "proofs", "must-fail")):
    for folder, dirs, files in os.walk(os.path.join(root, "crates")):
        dirs[:] = sorted(d for d in dirs if d != "out")
        for f in sorted(files):
            path = os.path.join(folder, f)
            parts = os.path.relpath(path, root).split(os.sep)
            if f.endswith(endings) and len(parts) > 3 and parts[2] in inside:
                yield path, parts


def read(path):
    with open(path, encoding="utf-8") as f:
        return f.read()


def code(line):
    """The line without its comment."""
    return re.split(r"(?:^|\s)--(?:\s|$)", line)[0]


def snake(name):
    name = name.replace("′", "'")
    name = re.sub(r"(?<=[a-z0-9₀-₉])([A-Z])", lambda m: "_" + m.group(1).lower(), name)
    return name.replace("-", "_")


def declared(root):
    """The names that specs/ and the lemma files of proofs/ declare, and whether each is a lemma's only."""
    names = defaultdict(set)
    for path, parts in texts(root, (".antt",), ("specs", "proofs")):
        if parts[-1] in ("Proof.antt", "Lib.antt", "Answers.antt", "Invariants.antt"):
            continue
        for line in read(path).splitlines():
            m = DECLARED.match(code(line))
            if m:
                names[m.group(1)].add(parts[2])
    return names


def foreign(root):
    """The names that are imported from the library."""
    out = set()
    for path, _ in texts(root, (".antt", ".rt")):
        for m in re.finditer(r"use ([\w.'-]+)\.\{([^}]*)\}", read(path)):
            if not m.group(1).startswith("Rattle.") or m.group(1).startswith(("Rattle.std", "Rattle.core")):
                out |= {w.strip().split(" as ")[0] for w in m.group(2).split(",")}
    return out


def renamings(root):
    names, lib = declared(root), foreign(root)
    to, took = {}, defaultdict(list)
    for name in names:
        if not re.match(r"[a-z]", name) or name in lib:
            continue
        if name in CHOSEN:
            to[name] = CHOSEN[name]
            continue
        took[snake(name)].append(name)
    for new, olds in took.items():
        # A definition goes before a lemma, and what already has the name before both.
        olds.sort(key=lambda n: ("specs" not in names[n], n != new, "-" in n, n))
        for i, old in enumerate(olds):
            it = new if i == 0 else new + "_lem" * i
            if it in lib:
                it += "_lem" if "specs" not in names[old] else "_of"
            if it != old:
                to[old] = it
    return to


def turn(text, to):
    return TOKEN.sub(lambda m: to.get(m.group(0), m.group(0)), text)


def main(argv):
    root = next((a for a in argv if not a.startswith("-")), ".")
    to = renamings(root)
    if "--list" in argv:
        for old in sorted(to):
            print(f"{old}\t{to[old]}")
        return
    n = 0
    for path, parts in texts(root, (".antt", ".rt", ".edit")):
        old = read(path)
        if path.endswith(".rt"):
            # In code a dash is an operator: names with one are only in what is ghost.
            plain = {a: b for a, b in to.items() if re.search(r"[A-Z]", a) and "-" not in a}
            new = "\n".join(turn(l, to if l.lstrip().startswith("ghost use") else plain) for l in old.split("\n"))
        else:
            new = turn(old, to)
        if new != old:
            n += 1
            with open(path, "w", encoding="utf-8") as f:
                f.write(new)
    print(f"spelling: {len(to)} names, {n} files")


main(sys.argv[1:])
