#!/usr/bin/env python3
"""Draws the layers of the crates from crates.txt, for docs/ARCHITECTURE.md.

    draw.py               prints the drawing
    draw.py --write       puts it into docs/ARCHITECTURE.md
    draw.py --check       exit 1 where the page has another one, or crates.txt breaks a rule of the layers
    draw.py --again NAME  the crates that are proved again where NAME changes

The rules: a comment of crates.txt heads a layer, each crate's name begins with its layer's prefix, a crate comes after
those that it needs, so that it needs no crate of a higher layer, and it needs none that it doesn't list."""

import collections
import os
import re
import sys
import textwrap

ROOT = os.path.abspath(os.path.join(os.path.dirname(os.path.abspath(__file__)), "..", ".."))
PAGE = os.path.join(ROOT, "docs", "ARCHITECTURE.md")
START, END = "<!-- drawn by tests/layers/draw.py -->\n", "<!-- end of the drawing -->\n"
WIDTH = 100

Layer = collections.namedtuple("Layer", "prefix says crates")


def layers():
    """The layers of crates.txt, low to high, and what each crate needs."""
    found, needs = [], {}
    with open(os.path.join(ROOT, "crates.txt"), encoding="utf-8") as file:
        for line in file:
            if line.startswith("# "):
                found.append(Layer("", line[2:].strip(), []))
            elif line.strip():
                name, deps = line.split(":")
                needs[name] = deps.split()
                found[-1].crates.append(name)
    return [layer._replace(prefix=layer.crates[0].split("_")[0]) for layer in found], needs


def faults(found, needs):
    """Where crates.txt breaks a rule."""
    seen = set()
    for layer in found:
        for name in layer.crates:
            if not name.startswith(layer.prefix + "_"):
                yield f"{name} stands under `{layer.says}`, whose crates begin with {layer.prefix}_"
            yield from (f"{name} needs {dep}, which comes later" for dep in needs[name] if dep in needs and dep not in seen)
            yield from (f"{name} names {dep} and doesn't list it" for dep in sorted(named(name, needs) - set(needs[name])))
            seen.add(name)


def named(crate, needs):
    """The other crates that a crate's files name."""
    found = set()
    for folder, _, files in os.walk(os.path.join(ROOT, "crates", crate)):
        for file in files:
            if file.endswith((".rt", ".antt")):
                with open(os.path.join(folder, file), encoding="utf-8") as lines:
                    for line in lines:
                        code = re.split(r"//|--", line)[0]
                        found.update(re.findall(r"Rattle\.([a-z_]+)\.|\b([a-z_]+)::", code))
    return {name for pair in found for name in pair if name in needs and name != crate}


def box(layer, needs, order):
    """A layer's box: what it is, its crates without their prefix, and the layers that it stands on."""
    crates = " ".join(name[len(layer.prefix) + 1:] for name in layer.crates)
    below = {dep.split("_")[0] for name in layer.crates for dep in needs[name] if dep in needs} - {layer.prefix}
    kit = sorted({dep for name in layer.crates for dep in needs[name] if dep not in needs})
    stands = [prefix + "_" for prefix in order if prefix in below] + kit
    head = f"{layer.prefix}_".ljust(10)
    rows = [(head, layer.says), ("", crates)] + ([("", "stands on: " + " ".join(stands))] if stands else [])
    for left, text in rows:
        for i, line in enumerate(textwrap.wrap(text, WIDTH - 14)):
            yield "| " + (left if i == 0 else "").ljust(10) + line.ljust(WIDTH - 14) + " |"


def drawing(found, needs):
    """All boxes, the highest layer first."""
    order = [layer.prefix for layer in found]
    rule = "+" + "-" * (WIDTH - 2) + "+"
    lines = [rule]
    for layer in reversed(found):
        lines += list(box(layer, needs, order)) + [rule]
    return "```\n" + "\n".join(lines) + "\n```\n"


def again(name, needs):
    """A crate and all that reach it."""
    found = {name}
    for crate in needs:
        if found & set(needs[crate]):
            found.add(crate)
    return [crate for crate in needs if crate in found]


def parted(page):
    """The page before, in and after the drawing."""
    before, rest = page.split(START)
    drawn, after = rest.split(END)
    return before, drawn, after


def main():
    found, needs = layers()
    words = sys.argv[1:]
    if words[:1] == ["--again"] and len(words) == 2 and words[1] in needs:
        names = again(words[1], needs)
        print(f"{len(names)} of {len(needs)}: {' '.join(names)}")
        return
    if words not in ([], ["--write"], ["--check"]):
        sys.exit(__doc__)
    drawn = drawing(found, needs)
    if not words:
        print(drawn, end="")
        return
    with open(PAGE, encoding="utf-8") as file:
        before, old, after = parted(file.read())
    if words == ["--write"]:
        with open(PAGE, "w", encoding="utf-8") as file:
            file.write(before + START + drawn + END + after)
        return
    wrong = list(faults(found, needs)) + ([] if old == drawn else ["docs/ARCHITECTURE.md: the drawing isn't current: tests/layers/draw.py --write"])
    print("\n".join(wrong + [f"layers: {len(found)} with {len(needs)} crates, {len(wrong)} faults"]))
    sys.exit(1 if wrong else 0)


if __name__ == "__main__":
    main()
