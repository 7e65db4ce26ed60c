#!/usr/bin/env python3
"""Runs series.hex through the judge and compares it with docs/RULES.md.

Usage: check.py [--judge PROGRAM] [--src SRC_DIR]
Without --judge it is built by tests/judge/build from SRC_DIR, the folder of
the crate's sources (default ../shared/docs/src beside the repository).

On docs/RULES.md's domain for runs every field must agree. Outside of it what
the Rust does is printed beside what docs/RULES.md says. Exit 0 if all agrees,
1 if not, 2 if something is missing.
"""

import argparse
import os
import re
import subprocess
import sys

sys.dont_write_bytecode = True

import expect
import make

ROOT = os.path.abspath(os.path.join(make.HERE, "..", ".."))


# The judge's answers.

class Answer:
    """One chunk of the judge's output."""

    def __init__(self, line):
        self.head = line.split(" ", 2)[2]
        self.frames = []
        self.state = None

    @property
    def accepted(self):
        return self.head.startswith("accepted")


def read_answers(output):
    """The judge's output as a list of series of answers."""
    all_series = []
    for line in output.splitlines():
        if line == "fresh":
            all_series.append([])
        elif line.startswith("chunk "):
            all_series[-1].append(Answer(line))
        elif line.startswith("state "):
            all_series[-1][-1].state = line[len("state "):]
        elif line.startswith("frame "):
            all_series[-1][-1].frames.append([line])
        else:
            all_series[-1][-1].frames[-1].append(line)
    return all_series


def plain_state(state):
    """The state without the four block counts, which docs/RULES.md doesn't hold."""
    return re.sub(r"mi_cols: .*?, lf:", "lf:", state)


# Differences, field by field.

def tokens(text):
    return re.findall(r"[{}\[\],:]|[^\s{}\[\],:]+", text)


def flat(text):
    """A Debug text as {path: value}. The path's last step is the name of a
    record's field, or the place in a list."""
    out, path = {}, []
    words = tokens(text)
    for word, following in zip(words, words[1:] + [""]):
        if word == "[":
            path.append(0)
        elif word == "{":
            path.append("")
        elif word in "]}":
            path.pop()
        elif word == ",":
            if isinstance(path[-1], int):
                path[-1] += 1
        elif following == ":":
            path[-1] = word
        elif word != ":" and following != "{":
            out[path_text(path)] = word
    return out


def path_text(path):
    return "".join(f"[{step}]" if isinstance(step, int) else f".{step}" for step in path)


def field_differences(rust, document):
    """The fields in which two Debug texts differ."""
    one, two = flat(rust), flat(document)
    return [f"{path[1:]} {one.get(path)} (docs/RULES.md: {two.get(path)})"
            for path in sorted(set(one) | set(two)) if one.get(path) != two.get(path)]


def line_differences(rust_lines, document_lines):
    found = []
    for rust, document in zip(rust_lines, document_lines):
        if rust == document:
            continue
        name = re.match(r"\s*(seg \d|frame \d|\w+)", rust).group(1)
        if rust.startswith("frame"):
            found.append(f"{rust} (docs/RULES.md: {document})")
        else:
            found += [f"{name}: {d}" for d in field_differences(rust, document)]
    return found


def compare(answer, head, frames, state):
    """All differences between an answer of the judge and docs/RULES.md."""
    if answer.accepted != head.startswith("accepted"):
        return [f"Rust: {answer.head}; docs/RULES.md: {head}"]
    found = []
    if answer.accepted and answer.head != head:
        found.append(f"Rust: {answer.head}; docs/RULES.md: {head}")
    for rust, document in zip(answer.frames, frames):
        found += line_differences(rust, document)
    rust_state = plain_state(answer.state)
    if rust_state != state:
        found += [f"state: {d}" for d in field_differences(rust_state, state)]
    return found


class Totals:
    def __init__(self):
        self.series = self.chunks = self.inside = self.outside = 0
        self.accepted = self.refused = self.rust_accepted = 0
        self.outside_same = self.wrong = 0


def print_outside(number, place, series, chunk, answer, head, found):
    print(f"outside: series {number} chunk {place} ({chunk.outside}): {series.title}")
    print(f"  bytes {chunk.data.hex().upper()}")
    print(f"  Rust: {answer.head}; docs/RULES.md: {head}")
    for difference in found:
        if not difference.startswith("Rust:"):
            print(f"  {difference}")


def check_series(number, series, answers, tables, totals):
    model = expect.Model(tables)
    for place, (chunk, answer) in enumerate(zip(series.chunks, answers, strict=True)):
        head, frames = model.read(chunk.data)
        found = compare(answer, head, frames, model.state.debug())
        totals.chunks += 1
        totals.accepted += head.startswith("accepted")
        totals.refused += head.startswith("refused")
        totals.rust_accepted += answer.accepted
        if chunk.outside:
            totals.outside += 1
            if found:
                print_outside(number, place, series, chunk, answer, head, found)
            else:
                totals.outside_same += 1
        else:
            totals.inside += 1
            if found:
                totals.wrong += 1
                print(f"WRONG: series {number} chunk {place}: {series.title}")
                print(f"  bytes {chunk.data.hex().upper()}")
                for difference in found:
                    print(f"  {difference}")


def print_totals(t):
    print(f"{t.series} series {t.chunks} chunks: docs/RULES.md accepts {t.accepted}, "
          f"refuses {t.refused}; the Rust accepts {t.rust_accepted}, refuses "
          f"{t.chunks - t.rust_accepted}")
    print(f"inside the domain: {t.inside} chunks, {t.wrong} that differ")
    print(f"outside: {t.outside} chunks, {t.outside - t.outside_same} that differ (known), "
          f"{t.outside_same} that agree")


def build_judge(src):
    program = os.path.join(ROOT, "target", "judge", "judge")
    done = subprocess.run([os.path.join(ROOT, "tests", "judge", "build"), src, program])
    if done.returncode:
        sys.exit(2)
    return program


def main():
    options = argparse.ArgumentParser(description="compare the judge with docs/RULES.md")
    options.add_argument("--judge", help="the judge, if it is built already")
    options.add_argument("--src", default=os.path.join(ROOT, "..", "shared", "docs", "src"),
                         help="the folder of the crate's sources")
    given = options.parse_args()
    judge = given.judge or build_judge(given.src)
    if not os.path.exists(os.path.join(given.src, "src/codec/vp9/lookups.rs")):
        print(f"check: no source {given.src}/src/codec/vp9/lookups.rs", file=sys.stderr)
        sys.exit(2)
    all_series = make.build()
    with open(make.SERIES_FILE) as file:
        if file.read() != make.text(all_series):
            print("series.hex is not what make.py writes")
            sys.exit(1)
    output = subprocess.run([judge, "--hex", make.SERIES_FILE], stdout=subprocess.PIPE, text=True,
                            check=True).stdout
    tables, totals = expect.read_tables(given.src), Totals()
    answers = read_answers(output)
    totals.series = len(answers)
    for number, (series, series_answers) in enumerate(zip(all_series, answers, strict=True)):
        check_series(number, series, series_answers, tables, totals)
    print_totals(totals)
    sys.exit(1 if totals.wrong else 0)


if __name__ == "__main__":
    main()
