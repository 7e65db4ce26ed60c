#!/usr/bin/env python3
"""Compares the proved segment records with the Rust's and with the model's, on random headers and old records.

Usage: compare.py [--program PROGRAM] [--original ORIGINAL] [--src SRC_DIR] [--cases N] [--show N] [--write FILE]

PROGRAM is the proved program test_segments (default crates/test_segments/out/test_segments, made by
`rt run` there), ORIGINAL our driver over the Rust (default
target/segments/original, made by tests/segments/build). Both get the same cases and
must print the same records, and those must be the model's (tests/handmade/expect.py,
from docs/RULES.md's "Eight segment records"). Then PROGRAM is asked for the four scales of each segment
one by one (get_dc_quant, get_ac_quant), which must be the Rust's. The same run makes the same cases.
--write FILE keeps the cases.

Exit 0 if all agrees, 1 on a difference."""

import argparse
import os
import subprocess
import sys

sys.dont_write_bytecode = True

HERE = os.path.dirname(os.path.abspath(__file__))
ROOT = os.path.abspath(os.path.join(HERE, "..", ".."))
sys.path.insert(0, os.path.join(HERE, "..", "reader"))

from cases import Cases, case_bytes, expect, scales_bytes
from program import answer, built, command, kit_tools

SEED = 5


def line(s):
    numbers = [level for row in s.lvl_lookup for level in row] + [
        s.luma_ac_quant_scale, s.luma_dc_quant_scale, s.chroma_ac_quant_scale, s.chroma_dc_quant_scale,
        int(s.reference_frame_enabled), s.reference_frame, int(s.reference_skip_enabled)]
    return "".join(f" {n}" for n in numbers)


def lines(printed):
    return printed.decode().splitlines()


def model_lines(cases, tables):
    segments, lines = expect.default_segments(), []
    for old, header, _ in cases:
        segments = expect.segment_step(segments if old is None else old, header, tables)
        lines += map(line, segments)
    return lines


def scales(record):
    """Of a record's line, the four scales."""
    return " " + " ".join(record.split()[8:12])


def main():
    words = argparse.ArgumentParser(description=__doc__, formatter_class=argparse.RawDescriptionHelpFormatter)
    words.add_argument("--program", default=built("test_segments"))
    words.add_argument("--original", default=os.path.join(ROOT, "target", "segments", "original"))
    words.add_argument("--src", default=os.path.join(ROOT, "..", "shared", "docs", "src"))
    words.add_argument("--cases", type=int, default=20000)
    words.add_argument("--show", type=int, default=5)
    words.add_argument("--write")
    given = words.parse_args()

    source = Cases(SEED)
    cases = [source.case() for _ in range(given.cases)]
    data = b"".join(case_bytes(*case) for case in cases)
    if given.write:
        with open(given.write, "wb") as file:
            file.write(data)

    ours = lines(answer(command(given.program, kit_tools()), data))
    original = subprocess.run([given.original], input=data, stdout=subprocess.PIPE, check=True).stdout
    answers = {"the Rust": lines(original), "the model": model_lines(cases, expect.read_tables(given.src))}

    differences = 0
    for judge, theirs in answers.items():
        assert len(ours) == len(theirs) == 8 * len(cases), (len(ours), len(theirs), judge)
        for at, (a, b) in enumerate(zip(ours, theirs)):
            if a != b:
                differences += 1
                if differences <= given.show:
                    print(f"case {at // 8} segment {at % 8}: test_segments{a}, {judge}{b}")

    scales_of = b"".join(scales_bytes(header) for _, header, _ in cases)
    asked = lines(answer(command(given.program, kit_tools()), scales_of))
    for at, (a, b) in enumerate(zip(asked, map(scales, answers["the Rust"]), strict=True)):
        if a != b:
            differences += 1
            if differences <= given.show:
                print(f"case {at // 8} segment {at % 8}: scales{a}, the Rust{b}")

    own = sum(old is not None for old, _, _ in cases)
    spelled = sum(spelled for _, _, spelled in cases)
    print(f"segments: {len(cases)} settings, {spelled} that a header can spell and {len(cases) - spelled} beyond, {len(cases) - own} on records "
          f"carried along and {own} on random ones; {len(ours)} records, each compared with the Rust and the model, and {4 * len(asked)} scales asked for by themselves: {differences} differences")
    return 1 if differences else 0


sys.exit(main())
