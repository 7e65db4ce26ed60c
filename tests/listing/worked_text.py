#!/usr/bin/env python3
"""The worked texts of the long form, as the Rust prints them: a header's and a segment record's line
(crates/text_records/proofs/Example.antt), and all of an example file (crates/listing_printer/specs/Rows.antt).

usage: worked_text.py [--check | --write] [JUDGE]

JUDGE is the driver over the Rust (tests/judge; default target/judge/judge). The lines are those of a frame of
tests/recordings/regions.ivf; the records are taken from the lines by the rules of docs/LONG-FORM.md.
--check   the example in the tree is that
--write   writes what stands there below the imports; `rt fmt` lays it out

Exit 0 if all agrees, 1 otherwise."""

import os
import re
import subprocess
import sys

sys.dont_write_bytecode = True

from worked import ROOT, squeezed

EXAMPLE = os.path.join(ROOT, "crates", "text_records", "proofs", "Example.antt")
ROWS = os.path.join(ROOT, "crates", "listing_printer", "specs", "Rows.antt")
RECORDING = os.path.join(ROOT, "tests", "recordings", "regions.ivf")
# The third frame: features of every kind, data with and without a sign.
FRAME = 2
SEGMENT = 2
# Numbers of these fields have a sign.
SIGNED = {"ref_deltas", "mode_deltas", "delta_q_y_dc", "delta_q_uv_dc", "delta_q_uv_ac", "feature_data", "reference_frame",
          "luma_ac_quant_scale", "luma_dc_quant_scale", "chroma_ac_quant_scale", "chroma_dc_quant_scale"}
TOKEN = re.compile(r"-?\d+|\w+|[{}\[\]]")


def lines(judge):
    """The header's line and the segment's."""
    with open(RECORDING, "rb") as file:
        text = subprocess.run([judge, "--trace"], stdin=file, capture_output=True, check=True).stdout.decode()
    headers = [line for line in text.split("\n") if line.startswith("  Header")]
    segments = [line for line in text.split("\n") if line.startswith(f"  seg {SEGMENT} ")]
    return headers[FRAME], segments[FRAME]


def number(word, signed):
    if not signed:
        return word
    return f"negsuc {-int(word) - 1}" if word.startswith("-") else f"pos {word}"


def flat(tokens, signed):
    """A list, and the lists in it, as one list."""
    depth, found = 1, []
    while depth:
        word = next(tokens)
        depth += {"[": 1, "]": -1}.get(word, 0)
        if word not in "[]":
            found.append(number(word, signed) if word[-1].isdigit() else word)
    return " ∷ ".join(f"({w})" if " " in w else w for w in found) + " ∷ []"


def value(tokens, name):
    word = next(tokens)
    if word == "[":
        return flat(tokens, name in SIGNED)
    if word[-1].isdigit() and not word[0].isalpha():
        return number(word, name in SIGNED)
    return word if name in ("profile", "bit_depth") or word[0].islower() or name.endswith(("space", "range", "type", "filter")) \
        else fields(tokens)


def fields(tokens):
    """A record behind its name."""
    assert next(tokens) == "{"
    parts = []
    for name in tokens:
        if name == "}":
            break
        parts.append(f"{name} = {value(tokens, name)};")
    return "record {\n" + "\n".join(parts) + "\n}"


def made(line):
    tokens = iter(TOKEN.findall(line.split("{", 1)[0][-1:] + "{" + line.split("{", 1)[1]))
    return fields(tokens)


def indented(text, by):
    """Records laid out by their braces."""
    rows, depth = [], 0
    for row in text.split("\n"):
        depth -= row.startswith("}")
        rows.append(" " * (by + 2 * depth) + row)
        depth += row.endswith("{")
    return "\n".join(rows).lstrip()


def text(line):
    """A line as text of some hundred characters each."""
    pieces = re.findall(r".{1,100}", line)
    return "\n    ++ ".join([f'ascii "{piece}"' for piece in pieces] + ['ascii "\\n"'])


def example(judge):
    """What stands below the imports."""
    header, segment = lines(judge)
    return f"""abbrev pub worked_header : Header
worked_header =
    {indented(made(header), 4)}

abbrev pub worked_segment : Segmentation
worked_segment =
    {indented(made(segment), 4)}

pub header_line : header_text worked_header ≡
    {text(header)}
unfolding
    header_text profile_text color_text picture_text source_text end_text settings.filter_text settings.quantization_text
    settings.switches_text settings.features_text settings.data_text records.color_row records.picture_row records.source_row
    records.end_row rows.filter_row rows.quantization_row rows.segmentation_row rows.flag_row rows.data_row values_of
    form.formed form.formed_from form.mark_piece form.word_piece form.words_after form.is_mark lowered_text numeral numeral_of
header_line = refl

pub segment_line : segment_text {SEGMENT} worked_segment ≡
    {text(segment)}
unfolding
    segment_text segment_fields records.segment_row form.formed form.formed_from form.mark_piece form.word_piece
    form.words_after form.is_mark lowered_text numeral numeral_of
segment_line = refl
"""


def file_same(judge):
    """Whether the Rust prints of the example file what its row says."""
    with open(ROWS, encoding="utf-8") as rows:
        before, _, after = rows.read().partition("-- each segment's line")
    bytes_ = bytes(int(byte, 16) for byte in re.findall(r"0x(\w\w)", before))
    segment, _, whole = after.partition("abbrev pub key_text")
    pieces = re.compile(r'ascii "([^"]*)"|segment_line "(\d)"|ascii i\b')
    said = lambda text, i: "".join(m[1] if m[1] is not None else said(segment, m[2]) if m[2] else i
                                   for m in pieces.finditer(text)).replace("\\n", "\n")
    printed = subprocess.run([judge, "--trace"], input=bytes_, capture_output=True, check=True).stdout.decode()
    return said(whole, "") == printed


def main():
    words = [word for word in sys.argv[1:] if not word.startswith("--")]
    judge = words[0] if words else os.path.join(ROOT, "target", "judge", "judge")
    made_now = example(judge)
    with open(EXAMPLE, encoding="utf-8") as file:
        imports, mark, there = file.read().partition("abbrev pub ")
    if "--write" in sys.argv:
        with open(EXAMPLE, "w", encoding="utf-8") as file:
            file.write(imports + made_now)
        return 0
    same = squeezed(mark + there) == squeezed(made_now) and file_same(judge)
    print("the worked texts of the long form: " + ("as the Rust prints it" if same else "differs from what the Rust prints"))
    return 0 if same else 1


if __name__ == "__main__":
    sys.exit(main())
