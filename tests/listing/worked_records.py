#!/usr/bin/env python3
"""The worked file of the long form's proved rows (crates/listing_items/specs/Rows.antt).

usage: worked_records.py [--check | --rows]

The bytes are made from field values (tests/handmade), the segment records are the second reader's (tests/second),
which was written without sight of crates/.
--check   the rows in the tree are these
--rows    prints the rows' bytes and records

Exit 0 if all agrees, 1 otherwise."""

import os
import re
import subprocess
import sys

sys.dont_write_bytecode = True

import worked
from worked import antt_bytes, frame, squeezed, whole_file
from headers import superframe
from make import features, inter, key, lf_update, show, sized

ROWS = os.path.join(worked.ROOT, "crates", "listing_items", "specs", "Rows.antt")
NUMBERS = re.compile(r"-?\d+|true|false")


def chunks():
    """A frame after which all levels are set; a refused chunk whose first frame is good; a frame that keeps intra's
    second level; a show-existing frame, which sets all levels to 0, and behind it one that keeps intra's second."""
    slots = [(16, 8)] * 8
    data = features({(1, 1): 5, (2, 0): 30, (3, 2): 1, (4, 3): 0})
    yield frame(key(loop_filter_level=20, **data, **sized(16, 8)), slots)
    yield superframe([frame(key(**sized(8, 16)), slots), b"\x00"])
    yield frame(inter(loop_filter_level=10, **lf_update(refs={0: 3})), slots)
    yield superframe([frame(show(1), slots), frame(inter(loop_filter_level=33, loop_filter_delta_enabled=1), slots)])


def traced(records):
    """The lines of frames and refused chunks, and those of segment records."""
    calls = b"\x00" + b"".join(b"\x01" + len(r).to_bytes(4, "little") + r for r in records)
    out = subprocess.run([worked.SECOND, "--trace"], input=calls, capture_output=True, check=True).stdout.decode()
    return [line for line in out.splitlines() if not line.startswith(("  Header", "  state"))]


def antt_record(line):
    values = NUMBERS.findall(line.split("{", 1)[1])
    return f"made ({' ∷ '.join(values[:8])} ∷ []) {' '.join(values[8:])}"


def antt_records(records):
    """The records of each item: the first, of the columns, and the last have none."""
    items = [[]]
    for line in traced(records):
        if line.startswith("  seg"):
            items[-1].append(antt_record(line))
        else:
            items.append([])
    return [" ∷ ".join(item + ["[]"]) for item in items + [[]]]


def check():
    source = squeezed(open(ROWS, encoding="utf-8").read())
    records = list(chunks())
    wrong = [] if antt_bytes(whole_file(records)) in source else [f"{ROWS}: other bytes"]
    expected = " ∷ ".join([f"({item})" if item != "[]" else item for item in antt_records(records)] + ["[]"])
    if expected not in source:
        wrong.append(f"{ROWS}: other records")
    for line in wrong:
        print(line)
    print(f"worked long form: 1 file, {len(wrong)} differences")
    return 1 if wrong else 0


def main():
    what = sys.argv[1] if len(sys.argv) == 2 else "--check"
    if what == "--check":
        sys.exit(check())
    if what != "--rows":
        sys.exit(__doc__)
    records = list(chunks())
    print(antt_bytes(whole_file(records)), *antt_records(records), sep="\n")


if __name__ == "__main__":
    main()
