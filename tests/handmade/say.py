#!/usr/bin/env python3
"""Says what docs/RULES.md says of a hex series, in the judge's form.

Usage: say.py [--src SRC_DIR] [FILE]      FILE as for `judge --hex`
A refused chunk prints `chunk N refused NUMBER frame FRAME`. The state line
lacks the judge's four block counts (mi_cols to sb64_rows).
"""

import argparse
import os
import sys

sys.dont_write_bytecode = True

import expect

ROOT = os.path.join(os.path.dirname(os.path.abspath(__file__)), "..", "..")


def say(lines, tables):
    model, number = expect.Model(tables), 0
    for line in lines:
        line = line.strip()
        if line.startswith("#"):
            continue
        if line == "fresh":
            model, number = expect.Model(tables), 0
            yield line
            continue
        head, frames = model.read(bytes.fromhex(line))
        yield f"chunk {number} {head}"
        for frame in frames:
            yield from frame
        yield "state " + model.state.debug()
        number += 1


def main():
    options = argparse.ArgumentParser(description="what docs/RULES.md says of a hex series")
    options.add_argument("--src", default=os.path.join(ROOT, "..", "shared", "docs", "src"),
                         help="the folder of the crate's sources, for the six tables")
    options.add_argument("file", nargs="?", default="-")
    given = options.parse_args()
    source = sys.stdin if given.file == "-" else open(given.file)
    for line in say(source, expect.read_tables(given.src)):
        print(line)


if __name__ == "__main__":
    main()
