#!/usr/bin/env python3
"""Holds docs/PROMISES.md to the crates.

Every must-fail edit that it names must be there, in a crate of its section or in the crate named before a slash; every
edit must be named; every crate must have its section or stand among the exceptions; and each row of a table must name
two wrong programs or more, unless the page says otherwise.

By what it changes an edit is of one of these kinds:
  program      code of src/, and nothing else
  definition   specs/ alone
  both         code, and its definition or promise, alike
  promise      a promise, a comment or an import of src/, and no code
  proof        proofs/, whatever else
One of the last two is a fault unless the page lists it, with a reason, under EXCEPTED.

Exit 0 if all holds, 1 otherwise."""

import collections
import os
import re
import sys

ROOT = os.path.abspath(os.path.join(os.path.dirname(os.path.abspath(__file__)), "..", ".."))
CRATES = os.path.join(ROOT, "crates")
NAME = re.compile(r"`(?:([a-z_]+)/)?([a-z_0-9]+)`")
EXCEPTED = "Edits of a promise alone, or of a proof"

# What of a file of src/ is no code: comments, imports for promises, and promises, whose braces nest once at most. A
# trait's functions have their promises in ghost members.
NO_CODE = re.compile(r"//[^\n]*|^ghost use [^;]*;|"
                     r"\b(?:(?:requires|ensures)(?: \w+)?|ghost \w+ =) \{(?:[^{}]|\{[^{}]*\})*\}", re.M)


def read(*path):
    with open(os.path.join(*path), encoding="utf-8") as file:
        return file.read()


def replaced(edit):
    """The replacements of an edit: its file, the old text and the new one."""
    file = old = None
    for line in edit.split("\n"):
        word, _, text = line.partition(": ")
        if word == "file":
            file = text
        elif word == "old":
            old = text
        elif word.rstrip(":") == "new":
            yield file, old, text


def place(crate, file, old, new):
    """What a replacement changes: code, promise, definition or proof."""
    if not file.startswith("src/"):
        return {"specs": "definition", "proofs": "proof"}[file.split("/")[0]]
    text = read(CRATES, crate, file)
    before = len(os.path.commonprefix([old, new]))
    behind = len(os.path.commonprefix([old[before:][::-1], new[before:][::-1]]))
    start, end = text.index(old) + before, text.index(old) + len(old) - behind
    return "promise" if any(m.start() < start < m.end() and end <= m.end() for m in NO_CODE.finditer(text)) else "code"


def kind(crate, edit):
    places = {place(crate, *pair) for pair in replaced(edit)}
    if "proof" in places:
        return "proof"
    if "code" in places:
        return "program" if places == {"code"} else "both"
    return "promise" if "promise" in places else "definition"


def edits():
    """The crates of each edit's name, and the kind of each edit."""
    found, kinds = {}, {}
    for crate in sorted(os.listdir(CRATES)):
        folder = os.path.join(CRATES, crate, "must-fail")
        for file in sorted(os.listdir(folder)) if os.path.isdir(folder) else []:
            name = file[:-len(".edit")]
            found.setdefault(name, set()).add(crate)
            kinds[crate, name] = kind(crate, read(folder, file))
    return found, kinds


def sections(text):
    """The page's sections, of layers (##) and of crates (###): the words of the heading, and the lines."""
    for part in re.split(r"^###? ", text, flags=re.M)[1:]:
        head, *lines = part.split("\n")
        yield re.split(r", ", head), lines


def named(line, crates, known):
    """The edits that a line names, with their crates."""
    for crate, name in NAME.findall(line):
        homes = {crate} if crate else set(crates)
        if name in known and (crate or known[name] & homes):
            yield from ((home, name) for home in known[name] & homes) if known[name] & homes else [(crate, name)]


def check(text, known, kinds):
    wrong, seen, headed = [], set(), set()
    for crates, lines in sections(text):
        headed.update(crates)
        for line in lines:
            found = set(named(line, crates, known))
            seen |= found
            wrong += [f"{crate}/{name}: no such edit" for crate, name in sorted(found) if crate not in known[name]]
            if line.startswith("| `"):
                wrong += check_row(line, found, known, kinds)
    wrong += [f"{crate}/{name}: not named" for name in known for crate in known[name] if (crate, name) not in seen]
    mentioned = set(re.findall(r"`([a-z_0-9]+)`", text))
    wrong += [f"crate {c}: no section" for c in sorted(os.listdir(CRATES)) if c not in headed and c not in mentioned]
    return wrong + check_kinds(text, kinds)


def check_row(line, found, known, kinds):
    last = line.rstrip("| ").split(" | ")[-1]
    names = [name for _, name in NAME.findall(last)]
    missing = [n for n in names if n not in known and "_" in n and not n.startswith(("levels_of",))]
    shut = {pair for pair in found if kinds.get(pair) == "program" and pair[1] in names}
    head = line.split(" | ")[0][2:]
    return [f"{head}: no edit {name}" for name in missing] + \
        ([f"{head}: {len(shut)} wrong programs"] if len(shut) < 2 else [])


def check_kinds(text, kinds):
    """The edits that say nothing of the code must be those that the page lists."""
    listed = re.search(rf"^###? {EXCEPTED}\n(.*?)(?=^##|\Z)", text, re.M | re.S)
    if not listed:
        return [f"no section: {EXCEPTED}"]
    excepted = set(re.findall(r"^- `([a-z_]+)/([a-z_0-9]+)`: \S", listed[1], re.M))
    silent = {edit for edit, k in kinds.items() if k in ("promise", "proof")}
    return [f"{'/'.join(edit)}: of a {kinds[edit]}, and not listed" for edit in sorted(silent - excepted)] + \
        [f"{'/'.join(edit)}: listed, and of no promise alone and no proof" for edit in sorted(excepted - silent)]


def main():
    known, kinds = edits()
    wrong = check(read(ROOT, "docs", "PROMISES.md"), known, kinds)
    for line in wrong:
        print(f"docs/PROMISES.md: {line}")
    count = collections.Counter(kinds.values())
    print(f"{len(kinds)} must-fail edits: {count['program']} wrong programs, {count['definition']} wrong definitions, "
          f"{count['both']} wrong in both places, {count['promise']} of a promise alone, {count['proof']} of a proof; "
          f"{len(wrong)} faults of docs/PROMISES.md")
    sys.exit(1 if wrong else 0)


if __name__ == "__main__":
    main()
