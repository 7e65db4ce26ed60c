#!/usr/bin/env python3
"""Compares the rows of crates/test_segment_rows/specs/Rows.antt with what the Rust answers.

Usage: rows.py [--original ORIGINAL] [--write]

The settings of the rows stand below. ORIGINAL, our driver over the Rust (default target/segments/original, made by
tests/segments/build), gets each of them with the records of old_records(), and Rows.antt must have these settings,
these records and the Rust's answers. That the definitions give the same answers is proved
(crates/test_segment_rows/proofs/Table.antt). --write writes Rows.antt.

Exit 0 if it has, 1 if not."""

import argparse
import os
import subprocess
import sys

sys.dont_write_bytecode = True

from cases import case_bytes, expect

HERE = os.path.dirname(os.path.abspath(__file__))
ROOT = os.path.abspath(os.path.join(HERE, "..", ".."))
ROWS = os.path.join(ROOT, "crates", "test_segment_rows", "specs", "Rows.antt")

TOP = """\
-- Settings, and the eight records that the Rust makes of them from `old_records`. The numbers are the Rust's:
-- tests/segments/rows.py wrote this file from its answers, and the gate compares it with them.
-- Assumes nothing.
use Rattle.std.specs.Prelude.{true, false, List, [], ◌∷◌, pos}
use Rattle.base_enums.specs.declared.BitDepth.TheVariants.{Depth8, Depth10, Depth12}
use Rattle.segment_records.specs.declared.Segmentation.{Segmentation}
use Rattle.test_segment_rows.specs.Settings.{minus, off, on, features, filter, quantizers, segments, header_with, segment, SegmentRow}

"""

# By segment: the data of quantizer, level, reference and skip, or None where a feature is off.
ABSOLUTE = [(None, None, None, None), (200, None, None, None), (None, 20, None, None), (255, 63, None, None),
            (None, None, 2, None), (None, None, None, 0), (0, 0, None, None), (17, 40, 3, 0)]
RELATIVE = [(None, None, None, None), (-25, None, None, None), (None, -9, None, None), (215, 30, None, None),
            (None, None, 1, None), (None, None, None, 0), (-255, -63, None, None), (40, -20, 3, 0)]

# What the row is for, its name, and its settings: depth; level, deltas enabled, reference deltas, mode deltas; base,
# y-dc, uv-dc and uv-ac; segmentation on, absolute, features.
SETTINGS = [
    ("absolute features at level 31, where a delta counts once", "absolute_row", "Depth8",
     (31, True, [5, -3, 7, -11], [2, -6]), (60, 3, -7, 11), (True, True, ABSOLUTE)),
    ("features that are added, at level 40, where a delta counts twice", "relative_row", "Depth10",
     (40, True, [4, 1, -2, -8], [-3, 6]), (100, -5, 9, -14), (True, False, RELATIVE)),
    ("segmentation off, and no deltas", "off_row", "Depth12",
     (63, False, [1, 0, -1, -1], [7, 9]), (250, 15, -15, 8), (False, True, ABSOLUTE)),
    ("level 0", "zero_row", "Depth12",
     (0, True, [9, 8, 7, 6], [5, 4]), (5, -9, -2, 12), (True, True, ABSOLUTE)),
]


def old_records():
    """Eight records that differ in each level, and hold nothing that a frame leaves."""
    records = expect.default_segments()
    for i, s in enumerate(records):
        s.lvl_lookup = [[100 + 8 * i + 2 * r, 101 + 8 * i + 2 * r] for r in range(4)]
        s.luma_ac_quant_scale, s.luma_dc_quant_scale, s.chroma_ac_quant_scale, s.chroma_dc_quant_scale = -1, -2, -3, -4
        s.reference_frame = -5
    return records


def header(depth, lf, quant, seg):
    h = expect.default_header()
    h.bit_depth = expect.Name(depth)
    h.lf.level, h.lf.delta_enabled, h.lf.ref_deltas, h.lf.mode_deltas = lf
    h.quant.base_q_idx, h.quant.delta_q_y_dc, h.quant.delta_q_uv_dc, h.quant.delta_q_uv_ac = quant
    h.seg.enabled, h.seg.abs_or_delta_update, features = seg
    h.seg.feature_enabled = [[d is not None for d in four] for four in features]
    h.seg.feature_data = [[d or 0 for d in four] for four in features]
    return h


def answers(original):
    """The Rust's records, row by row, each as its numbers."""
    data = b"".join(case_bytes(old_records(), header(*settings), None) for _, _, *settings in SETTINGS)
    printed = subprocess.run([original], input=data, stdout=subprocess.PIPE, check=True).stdout
    lines = [[int(n) for n in line.split()] for line in printed.decode().splitlines()]
    assert len(lines) == 8 * len(SETTINGS)
    return [lines[8 * i:8 * i + 8] for i in range(len(SETTINGS))]


# As antt writes it.

def signed(n):
    return f"(minus {-n})" if n < 0 else f"(pos {n})"


def flag(yes):
    return "true" if yes else "false"


def items(texts):
    return " ∷ ".join([*texts, "[]"])


def item_lines(texts, space):
    """The items one below the other."""
    return "\n".join(space + ("∷ " if at else "") + text for at, text in enumerate([*texts, "[]"]))


def feature(data):
    return "off" if data is None else f"(on {signed(data)})"


def signed_items(numbers):
    return f"({items(signed(n).strip('()') for n in numbers)})"


def segment(numbers):
    levels, scales, (referenced, reference, skipped) = numbers[:8], numbers[8:12], numbers[12:]
    return (f"segment ({items(map(str, levels))}) {' '.join(map(signed, scales))} "
            f"{flag(referenced)} {signed(reference)} {flag(skipped)}")


def numbers_of(s):
    return [level for row in s.lvl_lookup for level in row] + [
        s.luma_ac_quant_scale, s.luma_dc_quant_scale, s.chroma_ac_quant_scale, s.chroma_dc_quant_scale,
        s.reference_frame_enabled, s.reference_frame, s.reference_skip_enabled]


def settings_lines(depth, lf, quant, seg):
    level, deltas, refs, modes = lf
    base, *added = quant
    enabled, absolute, fours = seg
    yield f"          header_with {depth}"
    yield f"          (filter {level} {flag(deltas)} {signed_items(refs)} {signed_items(modes)})"
    yield f"          (quantizers {base} {' '.join(map(signed, added))})"
    yield f"          (segments {flag(enabled)} {flag(absolute)} ("
    yield item_lines(("features " + " ".join(map(feature, four)) for four in fours), " " * 10)
    yield "          ));"


def row_lines(what, name, settings, records):
    yield f"\n-- {what}\nabbrev pub {name} : SegmentRow\n{name} =\n    record {{\n      header ="
    yield from settings_lines(*settings)
    yield "      after ="
    yield item_lines(map(segment, records), " " * 10) + ";"
    yield "    }"


def text(after):
    lines = [TOP + "abbrev pub old_records : List Segmentation\nold_records ="]
    lines.append(item_lines((segment(numbers_of(s)) for s in old_records()), " " * 4))
    for (what, name, *settings), records in zip(SETTINGS, after):
        lines += row_lines(what, name, settings, records)
    return "\n".join(lines) + "\n"


def main():
    words = argparse.ArgumentParser(description=__doc__, formatter_class=argparse.RawDescriptionHelpFormatter)
    words.add_argument("--original", default=os.path.join(ROOT, "target", "segments", "original"))
    words.add_argument("--write", action="store_true")
    given = words.parse_args()

    wanted = text(answers(given.original))
    if given.write:
        with open(ROWS, "w", encoding="utf-8") as file:
            file.write(wanted)
        return 0
    with open(ROWS, encoding="utf-8") as file:
        said = file.read()
    same = said == wanted
    print(f"segment rows: {8 * len(SETTINGS)} records of {len(SETTINGS)} rows in Rows.antt, {'as the Rust answers' if same else 'NOT as the Rust answers'}")
    return 0 if same else 1


sys.exit(main())
