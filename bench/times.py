"""Native times beside the Rust's, with a null test: the original against itself, in processes of their own, in turn with ours."""

import os
import tempfile

import chunks
from chunks import PARSES, STEPS
from inputs import RECORDINGS, ivf_chunks
from machine import ROOT, seconds

JUDGE = os.path.join(ROOT, "tests", "judge", "judge.rs")
# How often each chunk is parsed, and each header stepped, so that a run takes a second or two.
TURNS = {PARSES: 2000, STEPS: 5000}
# The listing is timed on this recording's records, repeated up to so many bytes.
LONG, BYTES = "altref.ivf", 100000000
# A null test that is off by more makes the row worthless.
LIMIT = 0.02


def least_times(sides, given, runs):
    """The least time of each side over `runs` processes each, in turn, after one of each that isn't counted."""
    with tempfile.NamedTemporaryFile() as file:
        file.write(given)
        file.flush()
        taken = [[seconds(words, file.name) for words in sides] for _ in range(1 + runs)]
    return [min(column) for column in zip(*taken[1:])]


def head(title, *columns):
    print(f"\n## {title}\n\n| {' | '.join(columns)} | Ratio | Null test off by |\n|{'---|' * (len(columns) + 2)}")


def row(name, turns, rust, here, given, runs, others=()):
    """Prints nanoseconds for a turn; whether the null test was good."""
    one, again, ours, *more = least_times([rust, rust, here, *others], given, runs)
    least, off = min(one, again), abs(again / one - 1)
    figures = " | ".join(f"{1e9 * time / turns:.0f}" for time in (least, ours, *more))
    print(f"| {name} | {figures} | {ours / least:.2f} | {100 * off:.1f} % |", flush=True)
    if off > LIMIT:
        print(f"\nWorthless: the null test is off by over {100 * LIMIT:.0f} %.")
    return off <= LIMIT


def counted(machine, title, what, runs):
    series = [one for _, one in chunks.recordings()]
    given = b"".join(chunks.each(what, TURNS[what], one) for one in series)
    rust, here = [machine.rust(JUDGE, native=True), "--digest"], machine.native("test_digest")
    head(title, "", "The Rust", "Here")
    return row("all recordings", TURNS[what] * sum(map(len, series)), rust, here, given, runs)


def parse(machine, runs):
    return counted(machine, "parse_chunk: nanoseconds for a chunk", PARSES, runs)


def segments(machine, runs):
    return counted(machine, "update_segmentation: nanoseconds for a step", STEPS, runs)


def listing(machine, runs):
    path = os.path.join(RECORDINGS, LONG)
    with open(path, "rb") as file:
        data = file.read()
    copies = BYTES // len(data) + 1
    rust, here = [machine.rust(JUDGE, native=True), "--list"], machine.native("tool_list")
    head("The listing: nanoseconds for a record", f"{BYTES // 1000000} MB", "The Rust", "Here", "cat")
    return row(LONG, copies * len(ivf_chunks(path)), rust, here, data[:32] + data[32:] * copies, runs, [["cat"]])
