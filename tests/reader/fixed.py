#!/usr/bin/env python3
"""Makes the fixed list of answers that `rt ci` replays with no Rust at hand:
crates/test_digest/stdin, some thousands of chunks, and crates/test_digest/stdout, the answers of the Rust.

Usage: fixed.py [--judge JUDGE] [--check]

JUDGE is the judge over the Rust (default target/judge/judge, made by tests/judge/build).
--check writes nothing and compares the kept files with what would be written.
README.md says which chunks are put. The proved reader has no part in this.

Exit 0 if done, or if the files are right; 1 if they aren't; 2 if something is missing."""

import argparse
import os
import subprocess
import sys

sys.dont_write_bytecode = True

import inputs
import program
from inputs import ROOT

sys.path.insert(0, os.path.join(ROOT, "tests", "handmade"))

import expect

KEPT = os.path.join(ROOT, "crates", "test_digest")
# A longer chunk of a recording is cut.
WHOLE = 120


# Recordings with the compressed data cut away.

def cut_frame(data, length):
    """The frame's header and what follows it up to a byte that can't end an index."""
    while length < len(data) and data[length - 1] >> 5 == 6:
        length += 1
    return data[:length]


def index(sizes, last):
    """An index of the form that the chunk's last byte gives."""
    width = (last >> 3 & 3) + 1
    return bytes([last]) + b"".join(size.to_bytes(width, "little") for size in sizes) + bytes([last])


def cut(chunk, frames):
    """The chunk with each frame cut to its header, and an index of the new sizes."""
    if len(chunk) <= WHOLE:
        return chunk
    parts = [cut_frame(chunk[frame.at:frame.at + frame.size],
                       max(frame.record.uncompressed_header_size_in_bytes, 1)) for frame in frames]
    if frames[0].size == len(chunk):
        return parts[0]
    return b"".join(parts) + index([len(part) for part in parts], chunk[-1])


def cut_recording(chunks):
    state, parts = expect.State(), []
    for chunk in chunks:
        frames, state = expect.read_chunk(chunk, state)
        parts.append(cut(chunk, frames))
    return parts


def all_series():
    """The series of chunks that are put, each from a fresh state."""
    recorded = [cut_recording(chunks) for _, chunks in inputs.recordings()]
    hand_made = inputs.hand_made()
    examples = [[*before, chunk] for _, before, chunk in inputs.EXAMPLES]
    chosen = recorded + hand_made + examples
    return chosen + inputs.bent_series(chosen, 1)


# What docs/RULES.md says of them, and the Rust.

class Asked:
    """A chunk, the model's refusal of it (None where it is accepted) and the state after."""

    def __init__(self, chunk, state):
        self.chunk, self.refusal, self.state = chunk, None, state
        try:
            frames, self.state = expect.read_chunk(chunk, state)
            self.outside = expect.outside_frames(frames)
        except expect.Refused as refused:
            self.refusal, self.outside = refused, expect.outside_refused(refused)


def on_the_domain(chunks):
    """The chunks of a series that lie on docs/RULES.md's domain; the others aren't put."""
    state, kept = expect.State(), []
    for chunk in chunks:
        asked = Asked(chunk, state)
        if not asked.outside:
            kept.append(asked)
            state = asked.state
    return kept


def answer(asked, line):
    """The Rust's line, with the model's number and frame for a refusal."""
    words = line.split()
    if (words[0] == "?") != (asked.refusal is not None):
        sys.exit(f"fixed: the Rust and the model differ on {asked.chunk.hex()}: {line}, {asked.refusal}")
    if asked.refusal:
        words[:2] = str(asked.refusal.number), str(asked.refusal.frame)
    return " ".join(words) + "\n"


def counted():
    """The records for benchmarks, on docs/RULES.md's accepted example chunks."""
    return [program.FRESH + b"".join(map(program.record, before)) + program.counted(kind, count, chunk)
            for _, before, chunk in inputs.EXAMPLES if not Asked(chunk, expect.State()).refusal
            for kind in (4, 5) for count in (0, 1, 3)]


def series_input(chunks):
    return program.FRESH + b"".join(program.record(asked.chunk) for asked in chunks)


def rust_lines(judge, given):
    run = subprocess.run([judge, "--digest"], input=given, stdout=subprocess.PIPE, check=True)
    return run.stdout.decode().splitlines()


def make(judge):
    """The input and the answers."""
    series = [chunks for chunks in map(on_the_domain, all_series()) if chunks]
    put = [asked for chunks in series for asked in chunks]
    given = b"".join(map(series_input, series)) + b"".join(counted())
    lines = rust_lines(judge, given)
    answers = [answer(asked, line) for asked, line in zip(put, lines)]
    answers += [line + "\n" for line in lines[len(put):]]
    refused = sum(asked.refusal is not None for asked in put)
    print(f"fixed list: {len(series)} series, {len(put)} chunks, {refused} of them refused; {len(answers)} lines")
    return {"stdin": given, "stdout": "".join(answers).encode()}


def write(made):
    for name, data in made.items():
        with open(os.path.join(KEPT, name), "wb") as file:
            file.write(data)


def differing(made):
    """The names of the files that aren't what is made."""
    found = []
    for name, data in made.items():
        with open(os.path.join(KEPT, name), "rb") as file:
            if file.read() != data:
                found.append(name)
    return found


def main():
    options = argparse.ArgumentParser(description="make the fixed list of the Rust's answers")
    options.add_argument("--judge", default=os.path.join(ROOT, "target", "judge", "judge"))
    options.add_argument("--check", action="store_true", help="compare the kept files, write nothing")
    given = options.parse_args()
    if not os.path.exists(given.judge):
        print(f"fixed: no {given.judge}", file=sys.stderr)
        sys.exit(2)
    made = make(given.judge)
    if not given.check:
        write(made)
        return
    found = differing(made)
    for name in found:
        print(f"WRONG: crates/test_digest/{name} isn't what fixed.py writes")
    sys.exit(1 if found else 0)


if __name__ == "__main__":
    main()
