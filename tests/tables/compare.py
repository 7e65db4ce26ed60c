#!/usr/bin/env python3
"""Compares the six quantizer tables with those inside built libraries.

usage: compare.py TABLES          tables from a text file: a line each, NAME and 256 numbers
       compare.py --rust FILE     tables from the text of lookups.rs
       compare.py --extract OUT   write the tables that libvpx holds to OUT

Each library's bytes are searched for each table. What libvpx holds is also kept in
libvpx.txt, so that a machine without libvpx can still compare. Exit 1 on a difference."""
import glob
import os
import re
import struct
import sys

HERE = os.path.dirname(os.path.abspath(__file__))
KEPT = os.path.join(HERE, "libvpx.txt")
NAMES = ["DC_QLOOKUP", "DC_QLOOKUP_10", "DC_QLOOKUP_12",
         "AC_QLOOKUP", "AC_QLOOKUP_10", "AC_QLOOKUP_12"]
# First and last entries of VP9's tables: enough to find each one without knowing the rest.
ENDS = {"DC_QLOOKUP": ((4, 8, 8, 9), 1336), "DC_QLOOKUP_10": ((4, 9, 10, 13), 5347),
        "DC_QLOOKUP_12": ((4, 12, 18, 25), 21387), "AC_QLOOKUP": ((4, 8, 9, 10), 1828),
        "AC_QLOOKUP_10": ((4, 9, 11, 13), 7312), "AC_QLOOKUP_12": ((4, 13, 19, 27), 29247)}
# How a library may hold an entry.
WIDTHS = [("int16", "h"), ("int32", "i")]


def read_text(path):
    lines = [line.split() for line in open(path) if line.strip() and line[0] != "#"]
    return {words[0]: [int(x) for x in words[1:]] for words in lines}


def read_rust(path):
    """The constants of the Rust text, comments left out."""
    text = re.sub(r"//.*", "", open(path).read())
    found = re.findall(r"const (\w+): \[i16; 256\] = \[([^\]]*)\]", text)
    return {name: [int(x) for x in body.replace(",", " ").split()] for name, body in found}


def library(name):
    """The newest built library of that name, or None."""
    files = glob.glob(f"/usr/lib/*/{name}.so.*") + glob.glob(f"/usr/lib/{name}.so.*")
    return max((os.path.realpath(x) for x in files), default=None)


def places(data, part):
    found, at = [], data.find(part)
    while at >= 0:
        found.append(at)
        at = data.find(part, at + 1)
    return found


def packed(numbers, code):
    return struct.pack(f"<{len(numbers)}{code}", *numbers)


def find_table(data, numbers):
    """Width and places of the whole table in the data."""
    for width, code in WIDTHS:
        found = places(data, packed(numbers, code))
        if found:
            return width, found
    return None, []


def show(label, name, width, found):
    if not found:
        print(f"{label} {name}: NOT FOUND")
        return False
    where = ", ".join(map(hex, found))
    unique = "unique" if len(found) == 1 else f"{len(found)} times"
    print(f"{label} {name}: found as {width} at {where}, {unique}")
    return True


def compare_library(name, tables):
    path = library(name)
    if path is None:
        print(f"skipped: no {name}")
        return True
    data = open(path, "rb").read()
    print(f"{name}: {path}, {len(data)} bytes")
    return all([show(name, x, *find_table(data, tables[x])) for x in NAMES])


def first_difference(left, right):
    for i, (a, b) in enumerate(zip(left, right)):
        if a != b:
            return f"entry {i}: {a}, kept {b}"
    return f"lengths {len(left)} and {len(right)}"


def compare_kept(tables):
    if not os.path.exists(KEPT):
        print("skipped: no libvpx.txt")
        return True
    kept, good = read_text(KEPT), True
    for name in NAMES:
        same = tables[name] == kept[name]
        good = good and same
        print(f"libvpx.txt {name}:", "same" if same else "DIFFERS, " + first_difference(tables[name], kept[name]))
    return good


def whole(tables):
    """Six tables of 256, or a word on what is missing."""
    wrong = [x for x in NAMES if len(tables.get(x, [])) != 256]
    for name in wrong:
        print(f"{name}: {len(tables.get(name, []))} numbers, not 256")
    return not wrong


def ends_match(numbers, name):
    start, last = ENDS[name]
    return numbers[:len(start)] == start and numbers[255] == last


def extract_table(data, name):
    """The one table in the data that starts and ends as VP9's does."""
    start, _ = ENDS[name]
    for _, code in WIDTHS:
        size = 256 * struct.calcsize(code)
        starts = [x for x in places(data, packed(start, code)) if x + size <= len(data)]
        tables = [struct.unpack_from(f"<256{code}", data, x) for x in starts]
        tables = {x for x in tables if ends_match(x, name)}
        if len(tables) == 1:
            return tables.pop()
    raise SystemExit(f"{name}: no single table found")


def extract(out):
    path = library("libvpx")
    if path is None:
        print("skipped: no libvpx")
        return
    data = open(path, "rb").read()
    lines = [" ".join(map(str, (name,) + extract_table(data, name))) for name in NAMES]
    with open(out, "w") as file:
        file.write(f"# from {os.path.basename(path)}\n" + "\n".join(lines) + "\n")


def main(args):
    if len(args) == 2 and args[0] == "--extract":
        extract(args[1])
        return 0
    if len(args) == 2 and args[0] == "--rust":
        tables = read_rust(args[1])
    elif len(args) == 1:
        tables = read_text(args[0])
    else:
        raise SystemExit(__doc__)
    if not whole(tables):
        return 1
    results = [compare_kept(tables), compare_library("libvpx", tables),
               compare_library("libavcodec", tables)]
    return 0 if all(results) else 1


if __name__ == "__main__":
    sys.exit(main(sys.argv[1:]))
