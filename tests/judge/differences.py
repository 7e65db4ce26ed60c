#!/usr/bin/env python3
"""Runs the inputs of docs/DIFFERENCES.md through the Rust again, and the refused ones through the model of the rules.

Usage: differences.py JUDGE CHECKED     CHECKED: the judge built with overflow checks on

The page must have each of them, and no other chunk. Exit 0 if the Rust does as the page says of each, 1 if not."""

import os
import re
import subprocess
import sys

sys.dont_write_bytecode = True

ROOT = os.path.abspath(os.path.join(os.path.dirname(os.path.abspath(__file__)), "..", ".."))
sys.path.insert(0, os.path.join(ROOT, "tests", "handmade"))

import expect

# Which of the two programs, and its options.
HEX, KEEP, CHECKED = (0, "--hex"), (0, "--hex", "--keep"), (1, "--hex")
FRAMES, BITS = (0, "--frames"), (0, "--bits")

# How it is run, the lines put, what the Rust's last answer has, and the rules' refusal of the last chunk, if any.
ENTRIES = [
    (HEX, "8700000900000146000000000000", r"feature_data: \[\[0, 0, -2, 0\]", None),
    (HEX, "870000090000015C80000000000000", r"feature_data: \[\[-56, 0, 0, 0\]", None),
    (HEX, "870000090000014D00000000000000", r"feature_data: \[\[0, -24, 0, 0\]", None),
    (HEX, "8700000900000145000000000000\n8600000240000014000000000000", r"feature_data: \[\[0, 0, 1, 0\]", None),
    (HEX, "88C000C0", r"accepted 1\nframe 0 0 0\n", (6, 0)),
    (HEX, "B4C001C0", r"accepted 1\nframe 0 0 1\n.* frame_to_show_map_idx: 1,", (6, 0)),
    (HEX, "B488C10101C1", r"accepted 2\nframe 0 0 1\n.* frame_to_show_map_idx: 1,", (6, 0)),
    (HEX, "88C002C0", r"accepted 1\nframe 0 0 2\n", (3, 0)),
    (HEX, "88C005C0", r"chunk 0 panic", (3, 0)),
    (HEX, "88C10600C1", r"chunk 0 panic", (3, 0)),
    (HEX, "00C10109C1", r"chunk 0 error .*frame marker", (3, 1)),
    (HEX, "", r"chunk 0 panic", (1, 0)),
    (HEX, "C0", r"chunk 0 panic", (2, 0)),
    (KEEP, "8249834220", r"chunk 0 error .*\nstate .*subsampling_x: true, subsampling_y: true, color_space: Bt601", (6, 0)),
    (KEEP, "824983422003F003F4000780000500C10E01C1", r"chunk 0 error .*\nstate .*(FrameSize { width: 64, height: 64 }(, )?){8}", (4, 1)),
    (CHECKED, "8700000900000142000000000000", r"chunk 0 panic", None),
    (HEX, "8700000900000142000000000000", r"chunk 0 accepted 1", None),
    (FRAMES, "0 0 88", r"accepted 0\n", None),
    (FRAMES, "0 2 88", r"accepted panic\n", None),
    (FRAMES, "2 0 88", r"^panic\n", None),
    (BITS, "8000 17 1", r"- 0\n", None),
]

# IVF files, behind the page's header H or not, and what the Rust's iterator prints of each.
H = "444B49460000200056503930010001001E000000010000000000000000000000"
FILES = [
    ("", "end"),
    (H[:-2], "end"),
    (H + "00", "end"),
    (H + "000000", "end"),
    (H + "00000000", "panic"),
    (H + "010000000000000000000000", "panic"),
    ("00" * 44, "44 44 end"),
]


def iterated(programs, file):
    """What the Rust's iterator makes of a file."""
    out = subprocess.run([programs[0], "--packets"], input=bytes.fromhex(file), stdout=subprocess.PIPE, check=True).stdout
    return " ".join(out.decode().split())


def rust(programs, how, lines):
    """The Rust's answer to the last line."""
    which, *options = how
    text = "fresh\n" * ("--hex" in options) + lines + "\n"
    out = subprocess.run([programs[which], *options], input=text, stdout=subprocess.PIPE, text=True, check=True).stdout
    return out[max(out.rfind("chunk "), 0):]


def rules(lines):
    """The model's refusal of the last chunk, or None."""
    state = expect.State()
    try:
        for line in lines.split("\n"):
            _, state = expect.read_chunk(bytes.fromhex(line), state)
    except expect.Refused as refused:
        return refused.number, refused.frame
    return None


def main(programs):
    with open(os.path.join(ROOT, "docs", "DIFFERENCES.md"), encoding="utf-8") as file:
        page = file.read()
    run = {word for entry in ENTRIES for word in entry[1].split()} | {H} | {file.removeprefix(H) for file, _ in FILES}
    others = set(re.findall(r"\b[0-9A-F]{8,}\b", page)) - run
    wrong = len(others)
    for chunk in sorted(others):
        print(f"{chunk}: on the page, and not run")
    for how, lines, wanted, refusal in ENTRIES:
        got = rust(programs, how, lines)
        named = all(line in page for line in lines.split("\n"))
        if not named or not re.search(wanted, got) or ("--hex" in how and rules(lines) != refusal):
            wrong += 1
            print(f"{lines!r} by {how}: {got[:200] if named else 'not on the page'}")
    for file, wanted in FILES:
        if iterated(programs, file) != wanted:
            wrong += 1
            print(f"the file {file}: {iterated(programs, file)}")
    print(f"docs/DIFFERENCES.md: {len(ENTRIES) + len(FILES)} inputs run, {wrong} not as it says")
    return 1 if wrong else 0


if __name__ == "__main__":
    if len(sys.argv) != 3:
        print(__doc__)
        sys.exit(2)
    sys.exit(main(sys.argv[1:]))
