#!/usr/bin/env python3
"""Holds the rows of the proved table (crates/test_cases/specs/Table.antt) to two other readers.

Usage: check.py [--judge PROGRAM] [--second PROGRAM]

The Rust (tests/judge) and the second reader (tests/second) are each asked what a row says; one that isn't given is
left out. README.md says how. Exit 0 if every row holds of each, 1 if not."""

import argparse
import os
import re
import struct
import subprocess
import sys

sys.dont_write_bytecode = True

ROOT = os.path.abspath(os.path.join(os.path.dirname(os.path.abspath(__file__)), "..", ".."))
TABLE = os.path.join(ROOT, "crates", "test_cases", "specs", "Table.antt")
sys.path.insert(0, os.path.join(ROOT, "tests", "handmade"))

import headers


# The table's own notation: words, numbers, lists by ∷ and ++, sizes by `by`.

def tokens(text):
    return re.findall(r"\(|\)|∷|\+\+|\[\]|[^\s()]+", text)


def value(words, names):
    """The value of an expression; takes its words off the list. ∷ and ++ go to the right, `by` binds closest."""
    parts = []
    while words and words[0] not in (")", "∷", "++"):
        word = words.pop(0)
        if word == "(":
            parts.append(value(words, names))
            words.pop(0)
        elif word == "by":
            parts[-1] = parts[-1], int(words.pop(0))
        else:
            parts.append([] if word == "[]" else names[word] if word in names else int(word, 0))
    head, *given = parts
    first = head(*given) if given else head
    if words and words[0] != ")":
        operator, rest = words.pop(0), value(words, names)
        return [first] + rest if operator == "∷" else first + rest
    return first


def form(name):
    return lambda *parts: (name, *parts)


def frame(kind):
    return lambda at, size, wide, refresh, length: (kind, at, size, *wide, refresh, length, 60)


FORMS = {name: form(name) for name in ("chunk", "refused", "bits", "columns", "levels")}
FRAMES = {kind: frame(kind) for kind in ("key", "intra", "inter")}
STATES = {name: name for name in ("fresh_state", "after_k", "eight")}


def rows():
    """The table's rows, and the definitions that they use: byte strings and lists of sizes."""
    names = {**FORMS, **FRAMES, **STATES, "replicate": lambda n, x: [x] * n,
             "show": lambda at, size: ("show", at, size, 0, 0, 0, 0, 0)}
    with open(TABLE, encoding="utf-8") as file:
        text = file.read()
    for name, body in re.findall(r"^abbrev pub \w+ : List (?:ℕ|FrameSize|Case)\n(\w+) =((?: .*\n|\n    .*)+)", text, re.M):
        names[name] = value(tokens(body), names)
    return names["table"], names


# The states, as chunks that lead to them; written from field values.

def spelled(**fields):
    whole = {**headers.no_fields(), "frame_marker": 2, "show_frame": 1, "refresh_frame_context": 1,
             "base_q_idx": 60, "header_size_in_bytes": 5, **fields}
    return headers.write_header(whole, [(0, 0)] * 8)[0]


def sized(wide, **fields):
    return spelled(frame_sync_code=headers.SYNC_CODE, frame_width_minus_1=wide[0] - 1,
                   frame_height_minus_1=wide[1] - 1, **fields)


def key(wide, **fields):
    return sized(wide, color_space=1, **fields)


def intra(wide, slot):
    return sized(wide, frame_type=1, show_frame=0, intra_only=1, refresh_frame_flags=1 << slot)


def inter(slots, flags, refresh):
    return spelled(frame_type=1, ref_frame_idx=slots, found_ref=flags, refresh_frame_flags=refresh,
                   is_filter_switchable=1)


def written():
    """The table's chunks that aren't docs/RULES.md's, from the field values that its comments name."""
    frames = {"key48": key((64, 48)), "intra40": intra((96, 40), 1), "second": inter([4, 1, 0], [0, 1, 0], 0x10)}
    return {**frames, "three": headers.superframe(list(frames.values()))}


def before(state, names):
    """A series of chunks that leads to a state: of `eight`, a key frame, then an intra-only one for each later slot."""
    if state == "eight":
        sizes = names["sizes"]
        return [key(sizes[0])] + [intra(sizes[slot], slot) for slot in range(1, 8)]
    return [names["k"]] if state == "after_k" else []


# What a reader answers to the last chunk of a series.

class Answer:
    """The frames as the table has them, the refusal's words, the sizes and the whole text of the state after."""

    def __init__(self, lines):
        self.records = [line.strip() for line in lines if line.startswith("  Header")]
        self.segments = [line.strip() for line in lines if line.startswith("  seg 0")]
        self.state = re.sub(r".*? \{", "", lines[-1], count=1)
        self.slots = [(int(w), int(h)) for w, h in re.findall(r"FrameSize \{ width: (\d+), height: (\d+)", self.state)]

    def frames(self):
        return [(kind(record), *place, *numbers(record)) for place, record in zip(self.places, self.records)]


def word(record, name):
    return re.search(rf"\b{name}: (\w+)", record).group(1)


def kind(record):
    if word(record, "show_existing_frame") == "true":
        return "show"
    if word(record, "frame_type") == "KeyFrame":
        return "key"
    return "intra" if word(record, "intra_only") == "true" else "inter"


def numbers(record):
    return [int(word(record, name)) for name in
            ("width", "height", "refresh_frame_flags", "uncompressed_header_size_in_bytes", "base_q_idx")]


class Rust:
    """The judge. It has no refusal numbers, and puts the state back itself."""
    numbered = False

    def __init__(self, program):
        self.program = program

    def ask(self, chunks):
        text = "fresh\n" + "".join(bytes(chunk).hex() + "\n" for chunk in chunks)
        out = subprocess.run([self.program, "--hex"], input=text, stdout=subprocess.PIPE, text=True, check=True).stdout
        lines = out[out.rindex("\nchunk ") + 1:].splitlines()
        answer = Answer(lines)
        answer.places = [tuple(map(int, line.split()[2:])) for line in lines if line.startswith("frame ")]
        answer.refusal = None if " accepted " in lines[0] else ()
        return answer


class Second:
    """The second reader, written from the documents alone."""
    numbered = True

    def __init__(self, program):
        self.program = program

    def ask(self, chunks):
        records = b"\0" + b"".join(b"\1" + struct.pack("<I", len(chunk)) + bytes(chunk) for chunk in chunks)
        out = subprocess.run([self.program, "--trace"], input=records, stdout=subprocess.PIPE, check=True).stdout
        *_, lines = re.findall(r"(?:.*\n)+?  state .*\n", out.decode())
        lines = lines.splitlines()
        answer = Answer(lines)
        words = lines[0].split()
        answer.refusal = (int(words[2]), int(words[4])) if words[1] == "refused" else None
        answer.places = [tuple(map(int, line.split()[3:5])) for line in lines if line[0] != " " and not answer.refusal]
        return answer


# The rows.

# Show-existing, which changes no state.
SHOW = b"\x88"


def bits_read(reader, series, chunk):
    """One more than the last bit that changes the record when it is turned over."""
    record = reader.ask(series + [chunk]).records
    for place in reversed(range(8 * len(chunk))):
        turned = list(chunk)
        turned[place // 8] ^= 128 >> place % 8
        if reader.ask(series + [turned]).records != record:
            return place + 1


def tile_columns(reader, width, ones):
    steps = [1] * ones + [0] * (8 - ones)
    return int(word(reader.ask([key((width, 64), increment_tile_cols_log2=steps)]).records[0], "tile_cols_log2"))


def levels(reader, level):
    answer = reader.ask([key((64, 64), loop_filter_level=level, loop_filter_delta_enabled=1)])
    grid = re.search(r"lvl_lookup: \[\[(\d+), \d+\], \[(\d+), \d+\], \[(\d+),", answer.segments[0])
    return [int(n) for n in grid.groups()]


def answered(reader, row, names):
    """What the reader says where the row says its last parts."""
    name, *parts = row
    if name == "columns":
        return [tile_columns(reader, parts[0], 0), tile_columns(reader, parts[0], 8)]
    if name == "levels":
        return levels(reader, parts[0])
    chunk, state = parts[:2]
    series = before(state, names)
    if name == "bits":
        return [bits_read(reader, series, chunk)]
    answer = reader.ask(series + [chunk])
    if name == "chunk":
        return [answer.frames(), answer.slots]
    kept = reader.ask(series + [SHOW]).state
    if answer.refusal is None or answer.records or answer.state != kept:
        return ["not refused, or not the state before"]
    return list(answer.refusal) if reader.numbered else parts[2:]


def said(row):
    return list(row[2:] if row[0] in ("columns", "levels") else row[3:])


def main():
    options = argparse.ArgumentParser(description="hold the proved table to the Rust and the second reader")
    options.add_argument("--judge", help="the judge, built by tests/judge/build")
    options.add_argument("--second", help="the second reader, built by tests/second/build")
    given = options.parse_args()
    readers = [make(program) for make, program in ((Rust, given.judge), (Second, given.second)) if program]
    table, names = rows()
    differing = [name for name, data in written().items() if bytes(names[name]) != data]
    wrong = len(differing)
    for name in differing:
        print(f"{name}: not what tests/handmade writes")
    for number, row in enumerate(table):
        for reader in readers:
            got = answered(reader, row, names)
            if got != said(row):
                wrong += 1
                print(f"row {number}, {type(reader).__name__}: {got}, and the table has {said(row)}")
    print(f"tests/cases: {len(table)} rows, {len(readers)} readers, {wrong} differ")
    sys.exit(1 if wrong else 0)


if __name__ == "__main__":
    main()
