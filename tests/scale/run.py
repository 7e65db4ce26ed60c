#!/usr/bin/env python3
"""Puts generated chunks by the million to the proved reader, to a second reader and to the Rust, and compares their digests.

Usage: run.py [--seed N] [--chunks N] [--minutes N] [--kinds KIND,..] [--jobs N] [--show N] [--table]
              [--no-rust] [--program PROGRAM] [--second SECOND] [--judge JUDGE] [--src SRC_DIR] [--tools DIR]
       run.py --explain KIND NUMBER [--seed N] ..

PROGRAM is the proved program test_digest (default crates/test_digest/out/test_digest, made by `rt run` there), SECOND the
second reader (target/second/second), JUDGE our driver over the Rust (target/judge/judge). What can be built
and isn't there is built. README.md says what is put and what each answer is held to.
--chunks is the number in all; --minutes ends the run in time. --explain prints what the readers say in full of one chunk,
by the kind and number that a difference is shown with.

Exit 0 if all agrees, 1 on a difference, 2 if something is missing."""

import argparse
import collections
import concurrent.futures
import glob
import os
import shutil
import subprocess
import sys
import tempfile
import time

sys.dont_write_bytecode = True

HERE = os.path.dirname(os.path.abspath(__file__))
ROOT = os.path.abspath(os.path.join(HERE, "..", ".."))
sys.path.insert(0, os.path.join(ROOT, "tests", "reader"))

import compare
import program

# Shares of the kinds, in percent.
KINDS = {"fields": 30, "refused": 15, "outside": 15, "real": 13, "random": 10, "states": 10, "short": 7}
# The answers that a kind is made for; all its chunks lie on the domain.
MADE_FOR = {"fields": b"0", "refused": b"045"}
# The Rust can't be set to any state.
NOT_WITH_RUST = ("states",)
PART = 50_000
STATE_BYTES = 234


class Part:
    """Some of a kind's chunks, in series of their own."""

    def __init__(self, kind, number, chunks):
        self.kind, self.number, self.chunks = kind, number, chunks

    def first(self):
        return self.number * PART


def parts(given):
    """The parts of all kinds, mixed, so that a run that ends early has put some of each."""
    planned, left = [], given.chunks
    kinds = given.kinds or list(KINDS)
    shares = sum(KINDS[kind] for kind in kinds)
    for kind in kinds:
        chunks = left * KINDS[kind] // shares
        left, shares = left - chunks, shares - KINDS[kind]
        count = -(-chunks // PART)
        planned += [((number + 0.5) / count, Part(kind, number, min(PART, chunks - number * PART)))
                    for number in range(count)]
    return [part for _, part in sorted(planned, key=lambda pair: pair[0])]


# The programs.

def generate_command(given, kind, number, chunks, *more):
    words = [given.generate, "--seed", str(given.seed), "--kind", kind, "--part", str(number), "--first", str(number * PART), "--chunks", str(chunks), *more]
    return words + (["--recordings", os.path.join(ROOT, "tests", "recordings")] if kind == "real" else [])


def lines_of(words, path):
    """The lines that a program prints of a file of records, and how it ended."""
    with open(path, "rb") as file:
        done = subprocess.run(words, stdin=file, stdout=subprocess.PIPE, stderr=subprocess.DEVNULL)
    return done.stdout.splitlines(), done.returncode


def records(data):
    """Each record: its first byte, and the place and length of what follows."""
    at = 0
    while at < len(data):
        kind, start, length = data[at], at + 1, 0
        if kind == 1:
            start, length = at + 5, int.from_bytes(data[at + 1:at + 5], "little")
        elif kind == 3:
            length = STATE_BYTES
        yield kind, start, length
        at = start + length


def read(path):
    with open(path, "rb") as file:
        return file.read()


def series_starts(path):
    """The numbers of the chunks that stand behind a fresh state."""
    starts, number = set(), 0
    for kind, _, _ in records(read(path)):
        if kind == 0:
            starts.add(number)
        number += kind == 1
    return starts


def chunks_numbered(path, numbers):
    """The bytes of some chunks, by their numbers."""
    data, found, number = read(path), {}, 0
    for kind, start, length in records(data):
        if kind == 1:
            if number in numbers:
                found[number] = data[start:start + length]
            number += 1
    return found


# The comparison of a part.

class Counts:
    def __init__(self):
        self.chunks = self.frames = self.second = self.rust = self.wrong = 0
        self.answers = collections.Counter()

    def add(self, other):
        for name in ("chunks", "frames", "second", "rust", "wrong"):
            setattr(self, name, getattr(self, name) + getattr(other, name))
        self.answers += other.answers

    def count(self, proved):
        """An answer and a frame number are one digit each."""
        for head, times in collections.Counter(line[:3] for line in proved).items():
            self.chunks += times
            self.answers[head[:1].decode()] += times
            if head.startswith(b"0 ") and head[2:].isdigit():
                self.frames += times * int(head[2:])

    def text(self):
        refused = ", ".join(f"{n} of {number}" for number, n in sorted(self.answers.items()) if number != "0")
        return (f"{self.chunks} chunks, {self.answers['0']} accepted with {self.frames} frames; {self.second} with the second reader, "
                f"{self.rust} also with the Rust; refused: {refused or 'none'}; {self.wrong} differ")

    def row(self, name):
        numbers = [self.chunks, self.answers["0"], self.frames, *(self.answers[str(n)] for n in range(1, 7)),
                   self.second, self.rust, self.wrong]
        return "| " + " | ".join([name, *(f"{n:,}" for n in numbers)]) + " |"


TABLE = ("| Kind | Chunks | Accepted | Frames | Refused 1 | 2 | 3 | 4 | 5 | 6 | With the second reader | With the Rust | Differences |\n"
         "|---" + "|---" * 12 + "|")


def memory(line):
    """The digests of the segment records and of the state."""
    return line.rsplit(b" ", 2)[1:]


def agrees(proved, rust):
    """The Rust has no refusal numbers."""
    if rust.startswith(b"? "):
        return not proved.startswith(b"0 ") and proved.split(b" ", 2)[2:] == rust.split(b" ", 2)[2:]
    return proved == rust


class Comparison:
    """A part's lines beside each other. `found` says, by the number of the chunk in the part, with whom it differs."""

    def __init__(self, part, path):
        self.part, self.path = part, path
        self.counts, self.found = Counts(), {}
        self.proved, self.second, self.rust = [], [], []
        self.ended = []

    def ask(self, who, words):
        lines, code = lines_of(words, self.path)
        if code or len(lines) != self.part.chunks:
            self.ended.append(f"{who}: {len(lines)} lines for {self.part.chunks} chunks, exit code {code}")
        return lines

    def run(self, given):
        self.proved = self.ask("digest", program.command(given.program, given.tools))
        self.second = self.ask("second", [given.second, "--digest"])
        self.counts.count(self.proved)
        reasons = self.with_second()
        if given.rust and self.part.kind not in NOT_WITH_RUST:
            self.rust = self.ask("judge", [given.judge, "--digest"])
            self.with_rust(reasons)
        self.counts.wrong = len(self.found) + len(self.ended)

    def differ(self, number, who):
        self.found.setdefault(number, []).append(who)

    def with_second(self):
        """Answers why each chunk lies outside the domain, as the second reader says, 0 for inside."""
        split = [line.rpartition(b" ") for line in self.second]
        fives = [five for five, _, _ in split]
        if fives != self.proved:
            for number, (proved, five) in enumerate(zip(self.proved, fives)):
                if proved != five:
                    self.differ(number, "the second reader")
        self.counts.second = min(len(self.proved), len(fives))
        reasons = [reason for _, _, reason in split]
        self.as_made(reasons)
        return reasons

    def as_made(self, reasons):
        """Is each chunk what it was made to be?"""
        answers = MADE_FOR.get(self.part.kind)
        if answers is None:
            return
        for number, (proved, reason) in enumerate(zip(self.proved, reasons)):
            if reason != b"0" or proved[:1] not in answers:
                self.differ(number, "the generator")

    def with_rust(self, reasons):
        """On the domain, where the Rust has the same memory before the chunk."""
        unlike = [number for number, (proved, rust, _) in enumerate(zip(self.proved, self.rust, reasons)) if proved != rust]
        parted = {number + 1 for number in unlike if memory(self.proved[number]) != memory(self.rust[number])}
        if parted:
            parted -= series_starts(self.path)
        inside = {number for number in parted.union(unlike) if number < len(reasons) and reasons[number] == b"0"}
        self.counts.rust = reasons.count(b"0") - len(inside & parted)
        for number in sorted(inside.intersection(unlike) - parted):
            if not agrees(self.proved[number], self.rust[number]):
                self.differ(number, "the Rust")

    def differences(self, most):
        """The first differences in full."""
        shown = sorted(self.found)[:most]
        chunks = chunks_numbered(self.path, set(shown)) if shown else {}
        texts = [f"{self.part.kind} part {self.part.number}: {line}" for line in self.ended]
        for number in shown:
            texts.append(f"{self.part.kind} {self.part.first() + number}: not as {', '.join(self.found[number])} has it: "
                         f"bytes {chunks[number].hex().upper()}")
            for name, lines in (("digest", self.proved), ("second", self.second), ("judge", self.rust)):
                if number < len(lines):
                    texts.append(f"  {name}: {lines[number].decode()}")
        return texts


def run_part(part, given):
    """Counts and differences of a part."""
    with tempfile.NamedTemporaryFile(prefix="scale-") as file:
        subprocess.run(generate_command(given, part.kind, part.number, part.chunks), stdout=file, check=True)
        comparison = Comparison(part, file.name)
        comparison.run(given)
        return comparison.counts, comparison.differences(given.show)


# The run.

class Run:
    def __init__(self, given):
        self.given = given
        self.counts = {kind: Counts() for kind in given.kinds or KINDS}
        self.left_to_show = given.show
        self.ends = time.monotonic() + 60 * given.minutes if given.minutes else None
        self.longest = 0
        self.left_out = 0

    def time_is_up(self):
        return self.ends is not None and time.monotonic() + self.longest > self.ends

    def timed(self, part):
        if self.time_is_up():
            return None
        start = time.monotonic()
        result = run_part(part, self.given)
        self.longest = max(self.longest, time.monotonic() - start)
        return result

    def take(self, part, result):
        if result is None:
            self.left_out += part.chunks
            return
        counts, texts = result
        self.counts[part.kind].add(counts)
        for text in texts:
            if not text.startswith("  "):
                self.left_to_show -= 1
            if self.left_to_show >= 0:
                print(text if text.startswith("  ") else f"WRONG: seed {self.given.seed}: {text}", flush=True)

    def all(self):
        planned = parts(self.given)
        with concurrent.futures.ThreadPoolExecutor(self.given.jobs) as pool:
            for part, result in zip(planned, pool.map(self.timed, planned)):
                self.take(part, result)

    def total(self):
        total = Counts()
        for counts in self.counts.values():
            total.add(counts)
        return total


# One chunk in full.

def last_block(words, path):
    """The last chunk of a series in the long form. Each chunk ends with the state."""
    lines = [line.decode() for line in lines_of(words, path)[0]]
    blocks = list(compare.program_answers(lines))
    return blocks[-1] if blocks else ["nothing"]


def rust_block(judge, data, proved):
    """The same of the Rust. It has no refusal numbers, so a refusal is printed as the proved reader's if that refuses too."""
    given = b"".join(b"fresh\n" if kind == 0 else data[start:start + length].hex().encode() + b"\n"
                     for kind, start, length in records(data))
    output = subprocess.run([judge, "--hex"], input=given, stdout=subprocess.PIPE, stderr=subprocess.DEVNULL, check=True).stdout
    answers = list(compare.judge_answers(output.decode().splitlines()))
    number, answer = len(answers) - 1, answers[-1]
    if not answer.accepted:
        return [proved[0] if " refused " in proved[0] else f"{number} refused: {answer.head}", answer.state]
    lines = [line for frame in answer.frames for line in compare.rust_frame(frame)]
    return [line if line.startswith("  ") else f"{number} {line}" for line in lines] + [answer.state]


def explain_blocks(given, path, data):
    """The proved reader's long form, and where the others' isn't the same."""
    proved = last_block(program.command(given.trace, given.tools, "series"), path)
    others = {"second": last_block([given.second, "--trace"], path)}
    if given.rust:
        others["the Rust"] = rust_block(given.judge, data, proved)
    print("\n".join(proved))
    for name, block in others.items():
        print(f"{name}: {'the same' if block == proved else 'not the same'}")
        if block != proved:
            print("\n".join(f"  {line}" for line in compare.differences(proved, block, name)))


def explain_lines(given, path):
    print("  its series sets states, which the proved program with the long form doesn't read; the second reader's, and both digests:")
    print("\n".join(last_block([given.second, "--trace"], path)))
    for name, words in (("digest", program.command(given.program, given.tools)), ("second", [given.second, "--digest"])):
        lines, _ = lines_of(words, path)
        print(f"  {name}: {lines[-1].decode() if lines else 'nothing'}")


def explain(given):
    kind, number = given.explain[0], int(given.explain[1])
    part, place = divmod(number, PART)
    with tempfile.NamedTemporaryFile(prefix="scale-") as file:
        subprocess.run(generate_command(given, kind, part, PART, "--only", str(place)), stdout=file, check=True)
        data = read(file.name)
        places = [(start, length) for record, start, length in records(data) if record == 1]
        start, length = places[-1]
        print(f"seed {given.seed}: {kind} {number}: chunk {len(places) - 1} of its series: bytes {data[start:start + length].hex().upper()}")
        if any(record == 3 for record, _, _ in records(data)):
            explain_lines(given, file.name)
        else:
            explain_blocks(given, file.name, data)


# What is needed.

def missing(what):
    print(f"run: {what}", file=sys.stderr)
    sys.exit(2)


def build_generator(given):
    source = os.path.join(HERE, "generate.c")
    if os.path.exists(given.generate) and os.path.getmtime(given.generate) >= os.path.getmtime(source):
        return
    compiler = os.environ.get("CC", "cc")
    if not shutil.which(compiler):
        missing(f"no {compiler} to build the generator")
    os.makedirs(os.path.dirname(given.generate), exist_ok=True)
    if subprocess.run([compiler, "-O2", "-Wall", "-Wextra", "-o", given.generate, source]).returncode:
        missing(f"{source} can't be built")


def build_reader(path, folder, *words):
    """By the folder's own build, if it isn't there."""
    build = os.path.join(ROOT, "tests", folder, "build")
    if not os.path.exists(path) and (not os.path.exists(build) or subprocess.run([build, *words]).returncode):
        missing(f"no {path}, and it can't be built")


def have_rust(given):
    """Says why where the Rust is left out."""
    if given.no_rust:
        print("without the Rust, as asked for")
    elif not os.path.exists(given.judge) and not shutil.which("rustc"):
        print("without the Rust: no rustc")
    elif not os.path.exists(given.judge) and not os.path.isdir(os.path.join(given.src, "src", "codec", "vp9")):
        print(f"without the Rust: no sources in {given.src}")
    else:
        return True
    return False


def make_ready(given):
    build_generator(given)
    build_reader(given.second, "second", given.second)
    given.rust = have_rust(given)
    if given.rust:
        build_reader(given.judge, "judge", given.src, given.judge)
    for needed in (given.program, given.tools):
        if not os.path.exists(needed):
            missing(f"no {needed}")
    if not glob.glob(os.path.join(ROOT, "tests", "recordings", "*.ivf")):
        missing("no recordings")


def read_options():
    target = os.path.join(ROOT, "target")
    options = argparse.ArgumentParser(description="compare the proved reader with a second one and the Rust, at scale")
    options.add_argument("--seed", type=int, default=1)
    options.add_argument("--chunks", type=int, default=1_000_000, help="how many chunks in all")
    options.add_argument("--minutes", type=float, help="start nothing that wouldn't end in so many minutes")
    options.add_argument("--kinds", type=lambda text: text.split(","), help="only these kinds")
    options.add_argument("--jobs", type=int, default=os.cpu_count() or 1, help="how many parts at a time")
    options.add_argument("--show", type=int, default=10, help="how many differences to print")
    options.add_argument("--table", action="store_true", help="print the counts as README.md's table")
    options.add_argument("--explain", nargs=2, metavar=("KIND", "NUMBER"))
    options.add_argument("--no-rust", action="store_true")
    options.add_argument("--program", default=program.built("test_digest"))
    options.add_argument("--trace", default=program.built("tool_trace"), help="the proved program that prints the long form")
    options.add_argument("--second", default=os.path.join(target, "second", "second"))
    options.add_argument("--judge", default=os.path.join(target, "judge", "judge"))
    options.add_argument("--generate", default=os.path.join(target, "scale", "generate"))
    options.add_argument("--src", default=os.path.join(ROOT, "..", "shared", "docs", "src"), help="the folder of the crate's sources")
    options.add_argument("--tools", default=program.kit_tools(), help="the kit's folder with bin/ and lib/ for programs")
    given = options.parse_args()
    for kind in (given.kinds or []) + (given.explain or [])[:1]:
        if kind not in KINDS:
            missing(f"no kind {kind}")
    return given


def main():
    given = read_options()
    make_ready(given)
    if given.explain:
        explain(given)
        return
    start = time.monotonic()
    run = Run(given)
    run.all()
    seconds, total = time.monotonic() - start, run.total()
    if given.table:
        print(TABLE)
    for kind, counts in [*run.counts.items(), ("in all", total)]:
        print(counts.row(kind) if given.table else f"{kind}: {counts.text()}")
    if run.left_out:
        print(f"{run.left_out} chunks left out, since the time was up")
    print(f"seed {given.seed}: {total.chunks} chunks compared in {seconds:.0f} seconds, {total.wrong} differences")
    sys.exit(1 if total.wrong else 0)


if __name__ == "__main__":
    main()
