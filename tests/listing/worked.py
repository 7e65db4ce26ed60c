#!/usr/bin/env python3
"""The worked files of the listing: those of the proved rows (crates/listing_file/specs/Rows.antt) and the program's
own input (crates/tool_list/stdin).

usage: worked.py [--check | --write | --rows]

The bytes are made from field values (tests/handmade). The lines of frames and refused chunks are the second reader's
(tests/second), which was written without sight of crates/; the others are written here from docs/RULES.md.
--check   the rows and the program's input and output in the tree are these
--write   writes the program's input and output
--rows    prints the rows' bytes and text

Exit 0 if all agrees, 1 otherwise."""

import os
import re
import subprocess
import sys

sys.dont_write_bytecode = True
HERE = os.path.dirname(os.path.abspath(__file__))
ROOT = os.path.abspath(os.path.join(HERE, "..", ".."))
sys.path.append(os.path.join(HERE, "..", "handmade"))

from headers import superframe, write_header
from make import fields_of, inter, intra_only, key, show, sized

SECOND = os.path.join(ROOT, "target", "second", "second")
ROWS = os.path.join(ROOT, "crates", "listing_file", "specs", "Rows.antt")
PROGRAM = os.path.join(ROOT, "crates", "tool_list")
COLUMNS = "chunk frame kind at size width height refresh hdr"
LONGEST = 65536


def frame(spec, slots, behind=b""):
    return write_header(fields_of(spec, slots), slots)[0] + behind


def whole_file(records, tail=b""):
    head = b"DKIF" + bytes([0, 0, 32, 0]) + b"VP90" + bytes([64, 0, 48, 0, 30, 0, 0, 0, 1, 0, 0, 0, 0, 0, 0, 0, 0, 0, 0, 0])
    return head + b"".join(record(i, data) for i, data in enumerate(records)) + tail


def record(time, data):
    return len(data).to_bytes(4, "little") + time.to_bytes(8, "little") + data


def chunks():
    """Every kind of frame; sizes that aren't square; slots that differ; a refused chunk whose first frame is good."""
    slots = [(64, 48)] * 8
    yield frame(key(**sized(64, 48)), slots, b"\x01\x02\x03")
    yield frame(intra_only(refresh_frame_flags=2, **sized(32, 16)), slots)
    slots[1] = (32, 16)
    yield frame(inter(refresh_frame_flags=4, ref_frame_idx=[1, 0, 0]), slots)
    slots[2] = (32, 16)
    second = inter(refresh_frame_flags=128, ref_frame_idx=[0, 2, 3], found_ref=[0, 1, 0])
    yield superframe([frame(second, slots, b"\x07"), frame(show(1), slots)])
    yield superframe([frame(key(**sized(16, 80)), slots), b"\x00"])
    yield frame(inter(refresh_frame_flags=1, ref_frame_idx=[0, 1, 7]), slots)
    yield b""


def second_lines(records):
    """The second reader's lines, records over the limit left out."""
    calls = b"\x00" + b"".join(b"\x01" + len(r).to_bytes(4, "little") + r for r in records)
    out = subprocess.run([SECOND, "--trace"], input=calls, capture_output=True, check=True).stdout.decode()
    return [line for line in out.splitlines() if not line.startswith(" ")]


def text(records, cut=False):
    """docs/RULES.md's listing."""
    held = [r for r in records if len(r) <= LONGEST]
    numbers = [i for i, r in enumerate(records) if len(r) <= LONGEST]
    lines = [f"{i} refused 9 frame 0" for i, r in enumerate(records) if len(r) > LONGEST]
    for line in second_lines(held):
        number, rest = line.split(" ", 1)
        lines.append(f"{numbers[int(number)]} {rest}")
    lines.sort(key=lambda line: int(line.split()[0]))
    refused = sum(" refused " in line for line in lines)
    last = ["file refused 8"] * cut + [f"{len(records)} chunks {refused} refused"]
    return "\n".join([COLUMNS] + lines + last) + "\n"


CUT = record(9, bytes(5))[:-3]


def rows():
    """The proved rows: name, bytes and text."""
    k = bytes.fromhex("824983422003F003F40007800005")
    example = [k + bytes.fromhex("88C10E01C1"), b""]
    return [("example", whole_file(example), text(example)),
            ("worked", whole_file(list(chunks()), CUT), text(list(chunks()), True)),
            ("no-file", whole_file([])[:31], "file refused 7\n")]


def program():
    """The program's own input and output: the worked file, with a record over the limit and one at it."""
    records = list(chunks())
    records[3:3] = [bytes(LONGEST + 1)]
    records.append(bytes(LONGEST))
    return whole_file(records, CUT), text(records, True).encode()


def antt_bytes(data):
    return " ∷ ".join([f"0x{b:02X}" for b in data] + ["[]"])


def squeezed(source):
    return re.sub(r"\s+", " ", source)


def check():
    wrong = []
    source = squeezed(open(ROWS, encoding="utf-8").read())
    for name, data, listing in rows():
        if antt_bytes(data) not in source:
            wrong.append(f"{ROWS}: other bytes in {name}")
        if '"' + listing.replace("\n", "\\n") + '"' not in source:
            wrong.append(f"{ROWS}: another text of {name}")
    for name, data in zip(("stdin", "stdout"), program()):
        if open(os.path.join(PROGRAM, name), "rb").read() != data:
            wrong.append(f"{PROGRAM}/{name}: not the worked one")
    for line in wrong:
        print(line)
    print(f"worked listings: {len(rows())} rows and the program's own input, {len(wrong)} differences")
    return 1 if wrong else 0


def main():
    what = sys.argv[1] if len(sys.argv) == 2 else "--check"
    if what == "--check":
        sys.exit(check())
    if what == "--write":
        for name, data in zip(("stdin", "stdout"), program()):
            open(os.path.join(PROGRAM, name), "wb").write(data)
    elif what == "--rows":
        for name, data, listing in rows():
            print(name, antt_bytes(data), '"' + listing.replace("\n", "\\n") + '"', sep="\n")
    else:
        sys.exit(__doc__)


if __name__ == "__main__":
    main()
