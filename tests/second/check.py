#!/usr/bin/env python3
"""Checks the second reader by itself.

usage: check.py [PROGRAM]                       the cases below, and the six tables
       check.py --random COUNT SEED [PROGRAM]   COUNT random chunks: the text and the digests must agree
       check.py --records COUNT SEED            writes those random records to standard output

PROGRAM is target/second/second if none is given. Exit 1 on a difference."""
import os
import random
import re
import struct
import subprocess
import sys

sys.dont_write_bytecode = True

HERE = os.path.dirname(os.path.abspath(__file__))
PROGRAM = os.path.join(HERE, "..", "..", "target", "second", "second")
TABLES = os.path.join(HERE, "..", "tables", "libvpx.txt")

SYNC = 0x498342
FRESH = b"\x00"
K = bytes.fromhex("82498342 2003F003F400 07800005")
I = bytes.fromhex("86004002 60003C000028")
F = K + bytes.fromhex("88C10E01C1")

K_TEXT = """\
0 0 key 0 14 64 64 255 14
  Header { profile: Profile0, bit_depth: Depth8, subsampling_x: true, subsampling_y: true, \
color_space: Bt601, color_range: StudioSwing, show_existing_frame: false, frame_to_show_map_idx: 0, \
frame_type: KeyFrame, show_frame: true, error_resilient_mode: false, width: 64, height: 64, \
render_and_frame_size_different: false, render_width: 64, render_height: 64, intra_only: false, \
reset_frame_context: 0, refresh_frame_flags: 255, ref_frame_idx: [0, 0, 0], \
ref_frame_sign_bias: [0, 0, 0, 0], allow_high_precision_mv: false, interpolation_filter: EightTap, \
refresh_frame_context: true, frame_parallel_decoding_mode: false, frame_context_idx: 0, \
lf: LoopFilterParams { level: 0, sharpness: 0, delta_enabled: false, delta_update: false, \
update_ref_delta: [false, false, false, false], ref_deltas: [1, 0, -1, -1], \
update_mode_delta: [false, false], mode_deltas: [0, 0] }, \
quant: QuantizationParams { base_q_idx: 60, delta_q_y_dc: 0, delta_q_uv_dc: 0, delta_q_uv_ac: 0 }, \
seg: SegmentationParams { enabled: false, update_map: false, tree_probs: [0, 0, 0, 0, 0, 0, 0], \
pred_probs: [0, 0, 0], temporal_update: false, update_data: false, abs_or_delta_update: false, \
feature_enabled: [[false, false, false, false], [false, false, false, false], \
[false, false, false, false], [false, false, false, false], [false, false, false, false], \
[false, false, false, false], [false, false, false, false], [false, false, false, false]], \
feature_data: [[0, 0, 0, 0], [0, 0, 0, 0], [0, 0, 0, 0], [0, 0, 0, 0], [0, 0, 0, 0], \
[0, 0, 0, 0], [0, 0, 0, 0], [0, 0, 0, 0]] }, \
tile_cols_log2: 0, tile_rows_log2: 0, lossless: false, header_size_in_bytes: 5, \
uncompressed_header_size_in_bytes: 14 }
""" + "".join(f"""\
  seg {i} Segmentation {{ lvl_lookup: [[0, 0], [0, 0], [0, 0], [0, 0]], luma_ac_quant_scale: 67, \
luma_dc_quant_scale: 57, chroma_ac_quant_scale: 67, chroma_dc_quant_scale: 57, \
reference_frame_enabled: false, reference_frame: 0, reference_skip_enabled: false }}
""" for i in range(8))


# Spelling of headers and records.

def bits(*fields):
    """A string of 0 and 1 from pairs (width, value) and strings of bits."""
    return "".join(x if isinstance(x, str) else format(x[1], f"0{x[0]}b") for x in fields)


def packed(text):
    """Bytes from a string of bits, padded with 0."""
    text += "0" * (-len(text) % 8)
    return bytes(int(text[i:i + 8], 2) for i in range(0, len(text), 8))


def size(width, height):
    return bits((16, width - 1), (16, height - 1))


def tail(level=0, deltas="0", base=60, delta_q="000", seg="0", tiles="0"):
    """From the context fields to the end; not for an error-resilient frame."""
    return bits("1000", (6, level), (3, 0), deltas, (8, base), delta_q, seg, tiles, (16, 5))


def key(width=64, color="0010", profile="00", **rest):
    """profile: low bit first, and profile 3's reserved bit. color: all of the colour fields."""
    return packed(bits("10", profile, "0010", (24, SYNC), color, size(width, 64), "0", tail(**rest)))


def intra(profile="00", color="", refresh=0, **rest):
    return packed(bits("10", profile, "0100", "1", "00", (24, SYNC), color, (8, refresh), size(64, 64), "0",
                       tail(**rest)))


def inter(refs="000" + "0000" * 2 + "0", sizes="1", refresh=0, filters="1", **rest):
    """A shown inter frame; refs: three times slot and sign bias."""
    return packed(bits("10", "00", "0110", "00", (8, refresh), refs, sizes, "0", "0", filters, tail(**rest)))


def features(absolute, cells):
    """Segmentation with a data update; cells: the bits of feature (segment, feature), if enabled."""
    grid = ["1" + cells[i, j] if (i, j) in cells else "0" for i in range(8) for j in range(4)]
    return "1" + "0" + "1" + absolute + "".join(grid)


def superframe(frames, width=1):
    last = 0xC0 | (width - 1) << 3 | (len(frames) - 1)
    sizes = b"".join(len(x).to_bytes(width, "little") for x in frames)
    return b"".join(frames) + bytes([last]) + sizes + bytes([last])


def chunk(data):
    return b"\x01" + struct.pack("<I", len(data)) + data


def state(datum=(0, 0, 0), delta=(0, 0), slot=(0, 0), depth=0):
    """A state record with every feature enabled, and every datum, delta and size the same."""
    lf = [1, 2, 1, 1] + [1] * 4 + list(delta) * 4 + [1] * 2 + list(delta) * 2
    seg = [1, 1] + [9] * 10 + [1, 1, 1] + [1] * 32 + list(datum) * 32
    return b"\x03" + bytes([depth, 1, 0, 7, 1] + lf + seg) + struct.pack("<II", *slot) * 8


# Running the program and taking its text apart.

def run(program, option, records):
    done = subprocess.run([program, option], input=records, stdout=subprocess.PIPE, check=True)
    return done.stdout.decode()


def field(line, name):
    """The text of a field's value; of the first field so named."""
    value = re.search(rf"\b{name}: (\[\[.*?\]\]|\[.*?\]|[^,\]}}]*?)(?:,| \}})", line)
    return value.group(1)


class Results:
    """The chunks of a run, each as its lines and its digest's words."""

    def __init__(self, program, records):
        self.text = run(program, "--trace", records)
        self.chunks, lines = [], []
        for line in self.text.splitlines():
            lines.append(line)
            if line.startswith("  state "):
                self.chunks.append(lines)
                lines = []
        self.digests = [line.split() for line in run(program, "--digest", records).splitlines()]

    def header(self, number, frame=0):
        return self.chunks[number][1 + 10 * frame]

    def state(self, number):
        return self.chunks[number][-1]

    def segment(self, number, segment=0):
        return self.chunks[number][2 + segment]


class Checker:
    def __init__(self, program):
        self.program, self.count, self.failed = program, 0, 0

    def equal(self, what, got, wanted):
        self.count += 1
        if got != wanted:
            self.failed += 1
            print(f"{what}: got {got!r}, wanted {wanted!r}")

    def lines(self, what, data, wanted, before=()):
        """The lines of a chunk that aren't records, after the chunks before it."""
        records = FRESH + b"".join(map(chunk, before)) + chunk(data)
        lines = Results(self.program, records).chunks[len(before)]
        self.equal(what, [x for x in lines if x[0] != " "], wanted)

    def fields(self, what, line, **wanted):
        for name, value in wanted.items():
            self.equal(f"{what}: {name}", field(line, name), value)

    def domain(self, what, records, wanted):
        words = run(self.program, "--digest", FRESH + records).split()
        self.equal(f"domain: {what}", words[-1], str(wanted))


# The cases.

def document_cases(check):
    """docs/RULES.md's numbers on each side of the line."""
    check.lines("K", K, ["0 0 key 0 14 64 64 255 14"])
    check.lines("K cut", K[:13], ["0 refused 6 frame 0"])
    check.lines("I after K", I, ["1 0 inter 0 10 64 64 1 10"], before=[K])
    check.lines("I from fresh", I, ["0 0 inter 0 10 0 0 1 10"])
    check.lines("F", F, ["0 0 key 0 14 64 64 255 14", "0 1 show 14 1 0 0 0 0"])
    check.lines("no bytes", b"", ["0 refused 1 frame 0"])
    check.lines("C1", b"\xc1", ["0 refused 2 frame 0"])
    check.lines("C0 01 C0", b"\xc0\x01\xc0", ["0 refused 3 frame 0"])
    check.lines("C0 00 C0", b"\xc0\x00\xc0", ["0 refused 6 frame 0"])
    check.lines("00 00 C0", b"\x00\x00\xc0", ["0 refused 4 frame 0"])
    for width, least, most in (448, 0, 0), (449, 0, 1), (4096, 0, 4), (4097, 1, 4):
        tile_columns(check, width, least, most)
    for level, grid in (31, "[[32, 0], [31, 31], [30, 30], [30, 30]]"), (32, "[[34, 0], [32, 32], [30, 30], [30, 30]]"):
        got = Results(check.program, FRESH + chunk(key(level=level, deltas="10")))
        check.fields(f"level {level}", got.segment(0), lvl_lookup=grid)


def tile_columns(check, width, least, most):
    got = Results(check.program, FRESH + chunk(key(width, tiles="00")) + chunk(key(width, tiles="1" * (most - least) + "0")))
    check.fields(f"width {width}, least", got.header(0), width=str(width), tile_cols_log2=str(least))
    check.fields(f"width {width}, most", got.header(1), tile_cols_log2=str(most), tile_rows_log2="0",
                 header_size_in_bytes="5")


def example(check):
    text = Results(check.program, FRESH + chunk(K)).text
    check.equal("docs/LONG-FORM.md's example", text[:len(K_TEXT)], K_TEXT)
    records = FRESH + chunk(K) + chunk(b"") + FRESH + chunk(b"") + state() + chunk(b"")
    firsts = [x[0] for x in Results(check.program, records).chunks]
    check.equal("chunk numbers", firsts, ["0 0 key 0 14 64 64 255 14", "1 refused 1 frame 0",
                                          "0 refused 1 frame 0", "1 refused 1 frame 0"])


def refusals(check):
    wrong_sync = bytearray(K)
    wrong_sync[1] = 0
    check.lines("sync code", bytes(wrong_sync), ["0 refused 5 frame 0"])
    check.lines("sync code, cut", bytes(wrong_sync[:3]), ["0 refused 6 frame 0"])
    check.lines("second frame's marker", superframe([K, b"\x00"]), ["0 refused 4 frame 1"])
    check.lines("3 before 4", b"\x00\xc1\x01\x01\xc1", ["0 refused 3 frame 1"])
    check.lines("eight sizes of four bytes", b"\xdf" + b"\xff" * 32 + b"\xdf", ["0 refused 3 frame 0"])
    check.lines("room left over", K + b"\x00\x00" + b"\xc0\x0e\xc0", ["0 0 key 0 14 64 64 255 14"])
    check.lines("a frame runs into the next", superframe([K[:13], K[13:]]), ["0 refused 6 frame 0"])
    check.lines("eight frames", superframe([b"\x88"] * 8, 3), [f"0 {i} show {i} 1 0 0 0 0" for i in range(8)])


def colours(check):
    """Colour of each profile, and what intra-only frames and inter frames do with it."""
    full = key(color="0111")
    got = Results(check.program, FRESH + chunk(full) + chunk(intra()) + chunk(inter()))
    check.fields("intra-only, profile 0", got.header(1), color_range="StudioSwing", color_space="Bt601",
                 subsampling_x="true", bit_depth="Depth8", intra_only="true")
    check.fields("its state", got.state(1), color_range="FullSwing", color_space="Bt601")
    check.fields("inter after it", got.header(2), color_range="FullSwing", color_space="Bt601")
    got = Results(check.program, FRESH + chunk(key(color="111")) + chunk(intra("10", "111" + "1")))
    check.fields("space 7, profile 0", got.header(0), color_space="CsSrgb", color_range="FullSwing",
                 subsampling_x="false", subsampling_y="false", width="64")
    check.fields("space 7, profile 1", got.state(1), color_space="CsSrgb", color_range="FullSwing",
                 subsampling_x="false", subsampling_y="false")
    got = Results(check.program, FRESH + chunk(key(profile="01", color="1" + "1011")) + chunk(inter()))
    check.fields("profile 2", got.header(0), profile="Profile2", bit_depth="Depth12", color_space="Bt2020",
                 color_range="FullSwing", subsampling_x="true", subsampling_y="true")
    check.fields("inter after profile 2", got.header(1), profile="Profile0", bit_depth="Depth12")
    got = Results(check.program, FRESH + chunk(key(profile="111", color="0" + "0100" + "011")))
    check.fields("profile 3", got.header(0), profile="Profile3", bit_depth="Depth10", color_space="Bt709",
                 color_range="StudioSwing", subsampling_x="false", subsampling_y="true", width="64")


def references(check):
    refs = bits((3, 1), "1", (3, 2), "0", (3, 3), "1")
    slots = superframe([key(64), packed(bits("10", "00", "0110", "00", (8, 4), refs, "000", size(128, 96), "1",
                                             size(30, 20), "1", "0", "00", tail()))])
    got = Results(check.program, FRESH + chunk(slots) + chunk(inter(refs, "01", 3)) + chunk(inter(refs, "001", 3)))
    check.fields("a size of its own", got.header(0, 1), width="128", height="96", render_width="30",
                 render_height="20", refresh_frame_flags="4", ref_frame_idx="[1, 2, 3]",
                 ref_frame_sign_bias="[0, 1, 0, 1]", allow_high_precision_mv="true",
                 interpolation_filter="EightTapSmooth")
    check.fields("second flag", got.header(1), width="128", height="96", interpolation_filter="Switchable")
    check.fields("third flag", got.header(2), width="64", height="64")
    for raw, name in enumerate(["EightTapSmooth", "EightTap", "EightTapSharp", "Bilinear"]):
        got = Results(check.program, FRESH + chunk(inter(filters="0" + bits((2, raw)))))
        check.fields(f"filter {raw}", got.header(0), interpolation_filter=name)
    resilient = packed(bits("10", "00", "0111", (8, 0), refs, "1", "0", "0", "1", "10", tail()[4:]))
    got = Results(check.program, FRESH + chunk(key(level=9, deltas="11" + "1000101" + "0" * 5)) + chunk(resilient))
    check.fields("error resilient", got.header(1), ref_frame_sign_bias="[0, 0, 0, 0]", frame_context_idx="2",
                 refresh_frame_context="false", frame_parallel_decoding_mode="true", ref_deltas="[1, 0, -1, -1]")
    wide = (1 << 32) - 1
    for tiles, columns in ("00", "20"), ("1" * 4 + "0", "24"):
        got = Results(check.program, FRESH + state(slot=(wide, 7)) + chunk(inter(tiles=tiles)))
        check.fields("the widest slot", got.header(0), width=str(wide), height="7", render_width=str(wide),
                     tile_cols_log2=columns, header_size_in_bytes="5")


def settings(check):
    """Filter and segmentation settings that are read, kept and reset."""
    deltas = "11" + "10001010" + "10000001" + "0" + "0" + "11111111" + "0"
    got = Results(check.program, FRESH + chunk(key(level=5, deltas=deltas)) + chunk(inter(deltas="0")) + chunk(K))
    check.fields("filter deltas", got.header(0), update_ref_delta="[true, true, false, false]",
                 ref_deltas="[5, 0, -1, -1]", update_mode_delta="[true, false]", mode_deltas="[-63, 0]")
    check.fields("kept", got.header(1), level="0", delta_enabled="false", delta_update="true",
                 ref_deltas="[5, 0, -1, -1]", mode_deltas="[-63, 0]")
    check.fields("reset", got.header(2), delta_update="true", update_ref_delta="[true, true, false, false]",
                 ref_deltas="[1, 0, -1, -1]", mode_deltas="[0, 0]")
    got = Results(check.program, FRESH + chunk(key(base=0)) + chunk(key(base=0, delta_q="10000100")) +
                  chunk(key(base=0, delta_q="1111110000100")))
    check.fields("lossless", got.header(0), lossless="true")
    check.fields("minus 0", got.header(1), lossless="true", delta_q_y_dc="0")
    check.fields("a delta", got.header(2), lossless="false", delta_q_y_dc="-15", delta_q_uv_dc="0", delta_q_uv_ac="0")
    seg = "11" + "1" + "00000111" + "0" * 6 + "1" + "0" + "1" + "00001001" + "0" + "0"
    got = Results(check.program, FRESH + chunk(key(seg=seg)) + chunk(inter(seg="100")) + chunk(inter(seg="11" + "0" * 9)))
    check.fields("map", got.header(0), update_map="true", temporal_update="true", update_data="false",
                 tree_probs="[7, 255, 255, 255, 255, 255, 255]", pred_probs="[255, 9, 255]")
    check.fields("map kept", got.header(1), update_map="false", temporal_update="true",
                 tree_probs="[7, 255, 255, 255, 255, 255, 255]", pred_probs="[255, 9, 255]")
    check.fields("map, not temporal", got.header(2), temporal_update="false", pred_probs="[255, 255, 255]")


def feature_cases(check):
    cells = {(0, 0): bits((8, 200), "0"), (1, 0): bits((8, 200), "1"), (2, 1): bits((6, 0), "1"),
             (2, 2): "10", (2, 3): "", (3, 1): bits((6, 33), "1")}
    on = key(level=32, seg=features("0", cells))
    got = Results(check.program, FRESH + chunk(on) + chunk(inter(level=1, seg="0")) + chunk(inter(seg=features("1", {}))))
    data = "[[200, 0, 0, 0], [-200, 0, 0, 0], [0, 0, 2, 0], [0, -33, 0, 0]" + ", [0, 0, 0, 0]" * 4 + "]"
    check.fields("features", got.header(0), feature_data=data, abs_or_delta_update="false")
    check.fields("level 32 less 33", got.segment(0, 3), lvl_lookup="[[0, 0], [0, 0], [0, 0], [0, 0]]")
    check.fields("base 60 and 200", got.segment(0, 0), luma_ac_quant_scale="1828", luma_dc_quant_scale="1336")
    check.fields("base 60 less 200", got.segment(0, 1), luma_ac_quant_scale="4", luma_dc_quant_scale="4")
    check.fields("a reference", got.segment(0, 2), reference_frame_enabled="true", reference_frame="2",
                 reference_skip_enabled="true")
    check.fields("segmentation off", got.header(1), feature_data=data, enabled="false")
    check.fields("its records", got.segment(1, 2), reference_frame_enabled="true", reference_frame="2",
                 reference_skip_enabled="true", lvl_lookup="[[1, 1], [1, 1], [1, 1], [1, 1]]", luma_ac_quant_scale="67")
    zeros = "[" + ", ".join(["[0, 0, 0, 0]"] * 8) + "]"
    check.fields("switched off", got.header(2), feature_data=zeros, abs_or_delta_update="true")
    check.fields("switched off, records", got.segment(2, 2), reference_frame_enabled="false", reference_frame="0")


def level_cases(check):
    """Grids of levels: scaled by the frame's level, kept in intra mode 1, cleared by level 0."""
    deltas = "11" + "0" * 4 + "10000010" + "10000111"
    lower = features("0", {(1, 1): bits((6, 20), "1")})
    fixed = features("1", {(1, 1): bits((6, 7), "0")})
    got = Results(check.program, FRESH + chunk(key(level=9)) + chunk(key(level=40, deltas="10", seg=lower)) +
                  chunk(key(level=40, deltas=deltas)) + chunk(key(level=40, seg=fixed)) +
                  chunk(inter(level=40)) + chunk(key(level=0, deltas=deltas)))
    check.fields("less 20", got.segment(1, 1), lvl_lookup="[[22, 9], [20, 20], [18, 18], [18, 18]]")
    check.fields("without the feature", got.segment(1), lvl_lookup="[[42, 9], [40, 40], [38, 38], [38, 38]]")
    check.fields("mode deltas", got.segment(2), lvl_lookup="[[42, 9], [42, 34], [40, 32], [40, 32]]")
    check.fields("absolute", got.segment(3, 1), lvl_lookup="[[7, 7], [7, 7], [7, 7], [7, 7]]")
    check.fields("off", got.segment(4, 1), lvl_lookup="[[40, 40], [40, 40], [40, 40], [40, 40]]")
    check.fields("level 0", got.segment(5), lvl_lookup="[[0, 0], [0, 0], [0, 0], [0, 0]]")


def scale_cases(check):
    """Quantizer indexes, by entries of the first tables."""
    dc, ac = read_tables()["DC_QLOOKUP"], read_tables()["AC_QLOOKUP"]
    delta_q = bits("1", (4, 3), "0", "1", (4, 5), "1", "1", (4, 7), "0")
    low = features("1", {(1, 0): bits((8, 4), "1"), (2, 0): bits((8, 10), "0")})
    added = features("0", {(2, 0): bits((8, 10), "1")})
    got = Results(check.program, FRESH + chunk(key(base=100, delta_q=delta_q)) +
                  chunk(key(base=60, delta_q=delta_q, seg=low)) + chunk(inter(base=60)) +
                  chunk(key(base=60, delta_q=delta_q, seg=added)) + chunk(inter(base=60, seg="0")))
    for what, line, at in (("base", got.segment(0), 100), ("absolute, under 0", got.segment(1, 1), 0),
                           ("absolute", got.segment(1, 2), 10), ("added", got.segment(3, 2), 50)):
        check.fields(what, line, luma_ac_quant_scale=ac[at], luma_dc_quant_scale=dc[at + 3],
                     chroma_ac_quant_scale=ac[at + 7], chroma_dc_quant_scale=dc[max(at - 5, 0)])
    check.fields("segmentation off", got.segment(4, 2), luma_ac_quant_scale=ac[60])


def resets(check):
    """What each kind of frame does with a state that is set in every field."""
    resilient = packed(bits("10", "00", "0111", (8, 0), "0" * 12, "1", "0", "0", "1", "00", tail()[4:]))
    frames = ("key", K, True), ("intra-only", intra(), True), ("resilient", resilient, True), ("inter", inter(), False)
    for what, frame, cleared in frames:
        got = Results(check.program, FRESH + state((0, 0, 5), (1, 6)) + chunk(frame))
        flag, datum = ("false", "0") if cleared else ("true", "5")
        grid = "[" + ", ".join(["[" + ", ".join(["{0}"] * 4) + "]"] * 8) + "]"
        check.fields(f"{what} on a set state", got.header(0), enabled="false", update_map="false", update_data="false",
                     temporal_update="true", abs_or_delta_update=flag, feature_enabled=grid.format(flag),
                     feature_data=grid.format(datum), tree_probs="[9, 9, 9, 9, 9, 9, 9]", pred_probs="[9, 9, 9]",
                     delta_update="true", update_ref_delta="[true, true, true, true]",
                     ref_deltas="[1, 0, -1, -1]" if cleared else "[-6, -6, -6, -6]",
                     mode_deltas="[0, 0]" if cleared else "[-6, -6]")
    got = Results(check.program, FRESH + state((0, 0, 5), (1, 6), (3, 4)) + chunk(b"") + chunk(b"\x9d"))
    check.equal("show-existing keeps the state", got.state(1), got.state(0))
    check.fields("show-existing", got.header(1), profile="Profile2", show_existing_frame="true",
                 frame_to_show_map_idx="5", bit_depth="Depth8", ref_deltas="[0, 0, 0, 0]", width="0")
    check.fields("its records", got.segment(1), luma_ac_quant_scale="4", reference_frame="0")


def tile_rows(check):
    for rows, wanted in ("0", "0"), ("10", "1"), ("11", "2"):
        got = Results(check.program, FRESH + chunk(key(tiles=rows)))
        check.fields(f"tile rows {rows}", got.header(0), tile_rows_log2=wanted, header_size_in_bytes="5")


def any_state(check):
    """States that no stream reaches."""
    got = Results(check.program, FRESH + state((2, 0, 0), (2, 0)) + chunk(inter(level=63, deltas="10", seg="100")))
    check.fields("least data", got.segment(0), lvl_lookup="[[0, 0], [0, 0], [0, 0], [0, 0]]",
                 luma_ac_quant_scale="4", reference_frame="-32768")
    got = Results(check.program, FRESH + state((0, 255, 255), (0, 255)) + chunk(inter(level=63, deltas="10", seg="100")))
    check.fields("most data", got.segment(0), lvl_lookup="[[63, 0], [63, 63], [63, 63], [63, 63]]",
                 luma_ac_quant_scale="1828", reference_frame="32767")
    check.fields("most data, state", got.state(0), level="63", color_space="CsSrgb", temporal_update="true",
                 ref_deltas="[127, 127, 127, 127]", tree_probs="[9, 9, 9, 9, 9, 9, 9]")
    got = Results(check.program, FRESH + state(depth=2) + chunk(b""))
    check.fields("state record", got.state(0), bit_depth="Depth12", subsampling_x="true", subsampling_y="false",
                 color_range="FullSwing", level="1", sharpness="2")


def domains(check):
    top = key(seg=features("0", {(0, 1): bits((6, 32), "0")}))
    low = key(seg=features("0", {(0, 1): bits((6, 31), "0"), (7, 2): "01", (7, 3): ""}))
    off = inter(seg=features("0", {}))
    check.domain("K", chunk(K), 0)
    check.domain("a wrong marker", chunk(b"\x00"), 0)
    check.domain("no bytes", chunk(b""), 1)
    check.domain("C1", chunk(b"\xc1"), 1)
    check.domain("C0 01 C0", chunk(b"\xc0\x01\xc0"), 1)
    check.domain("K cut", chunk(K[:13]), 2)
    check.domain("low values", chunk(low), 0)
    check.domain("a top bit", chunk(top), 3)
    check.domain("a top bit, refused later", chunk(superframe([top, b"\x00"])), 3)
    check.domain("a top bit, cut later", chunk(superframe([top, b""])), 2)
    check.domain("a top bit, refused before", chunk(superframe([b"\x00", top])), 0)
    check.domain("switched off", chunk(low) + chunk(off), 4)
    check.domain("switched off in one chunk", chunk(superframe([low, off])), 4)
    check.domain("a top bit, then switched off", chunk(superframe([top, off])), 3)
    check.domain("switched off after a reset", chunk(low) + chunk(key(seg=features("0", {}))), 0)
    check.domain("switched off, nothing stored", chunk(K) + chunk(off), 0)
    check.domain("stored by a state", state((0, 0, 1)) + chunk(off), 4)


def read_tables():
    """The tables' numbers, as text."""
    lines = [line.split() for line in open(TABLES) if line.strip() and line[0] != "#"]
    return {words[0]: words[1:] for words in lines}


def tables(check):
    """Each entry of the six tables, by a key frame with that base index."""
    wanted = read_tables()
    for suffix, profile, color in ("", "00", "0010"), ("_10", "01", "00010"), ("_12", "01", "10010"):
        records = b"".join(chunk(key(profile=profile, color=color, base=i)) for i in range(256))
        got = Results(check.program, FRESH + records)
        for name, scale in ("DC", "dc_quant_scale"), ("AC", "ac_quant_scale"):
            for part in "luma_", "chroma_":
                values = [field(got.segment(i), part + scale) for i in range(256)]
                check.equal(f"{name}_QLOOKUP{suffix} by {part}{scale}", values, wanted[f"{name}_QLOOKUP{suffix}"])


# Random records.

def random_bits(rng, count):
    share = rng.choice([0.05, 0.3, 0.5, 0.5, 0.7, 0.95])
    return "".join("1" if rng.random() < share else "0" for _ in range(count))


def random_frame(rng):
    """A frame with a right marker and sync code, and anything after them."""
    kind = rng.random()
    if kind < 0.1:
        return packed("10" + random_bits(rng, rng.choice([2, 3])) + "1" + random_bits(rng, rng.randrange(20)))
    profile = rng.choice(["00", "00", "10", "01", "110", "111"])
    resilient = rng.random() < 0.2
    text = "10" + profile + "0"
    if kind < 0.4:
        text += "0" + random_bits(rng, 1) + str(int(resilient)) + bits((24, SYNC))
    elif kind < 0.6:
        text += "10" + str(int(resilient)) + "1" + ("" if resilient else random_bits(rng, 2)) + bits((24, SYNC))
    else:
        text += "11" + str(int(resilient))
    return packed(text + random_bits(rng, rng.choice([60, 150, 300, 900, 900, 900])))


def changed(rng, data):
    data = bytearray(data)
    for _ in range(rng.randrange(1, 4)):
        if not data:
            break
        way, at = rng.randrange(4), rng.randrange(len(data))
        if way == 0:
            data[at] ^= 1 << rng.randrange(8)
        elif way == 1:
            data[at] = rng.randrange(256)
        elif way == 2:
            del data[at:]
        else:
            data[at:at] = bytes([rng.choice([0, 255, rng.randrange(256)])])
    return bytes(data)


def random_chunk(rng):
    kind = rng.random()
    if kind < 0.05:
        return bytes(rng.randrange(256) for _ in range(rng.randrange(40)))
    if kind < 0.25:
        return changed(rng, rng.choice([K, I, F]))
    if kind < 0.3:
        return rng.choice([K, I, F])
    if kind < 0.7:
        return random_frame(rng)
    frames = [random_frame(rng) for _ in range(rng.randrange(1, 9))]
    whole = superframe(frames, rng.randrange(2, 5))
    return changed(rng, whole) if rng.random() < 0.2 else whole


def random_state(rng):
    """A state record; its flags and signs are mostly ones that mean something."""
    few = rng.random() < 0.7
    head = bytes(rng.choice([0, 1, 2]) if few else rng.randrange(256) for _ in range(170))
    edges = [0, 1, 63, 64, 4096, (1 << 31) - 1, 1 << 31, (1 << 32) - 63, (1 << 32) - 1]
    sizes = [rng.choice(edges) if rng.random() < 0.5 else rng.randrange(1 << 32) for _ in range(16)]
    return b"\x03" + head + struct.pack("<16I", *sizes)


def random_records(count, seed):
    rng = random.Random(seed)
    yield FRESH
    for _ in range(count):
        if rng.random() < 0.02:
            yield FRESH
        if rng.random() < 0.05:
            yield random_state(rng)
        yield chunk(random_chunk(rng))


# The digests from the text.

SIGNED = {"ref_deltas", "mode_deltas", "delta_q_y_dc", "delta_q_uv_dc", "delta_q_uv_ac", "feature_data",
          "luma_ac_quant_scale", "luma_dc_quant_scale", "chroma_ac_quant_scale", "chroma_dc_quant_scale",
          "reference_frame"}
NUMBERS = {"false": 0, "true": 1, "StudioSwing": 0, "FullSwing": 1, "KeyFrame": 0, "InterFrame": 1,
           "Depth8": 8, "Depth10": 10, "Depth12": 12}
for _names in (["Profile0", "Profile1", "Profile2", "Profile3"],
               ["Unknown", "Bt601", "Bt709", "Smpte170", "Smpte240", "Bt2020", "Reserved2", "CsSrgb"],
               ["EightTap", "EightTapSmooth", "EightTapSharp", "Bilinear", "Switchable"]):
    NUMBERS.update({name: i for i, name in enumerate(_names)})
WORD = re.compile(r"(\w+):|(-?\w+)")


def fold(digest, numbers):
    for x in numbers:
        digest = (digest * 1000003 + x) % 2147483647
    return digest


def numbers_of(record):
    """The numbers of a record's text, in its order."""
    name = ""
    for named, word in WORD.findall(record):
        if named:
            name = named
        elif word in NUMBERS:
            yield NUMBERS[word]
        elif word[0] in "-0123456789":
            yield int(word) + (65536 if name in SIGNED else 0)


def body(line):
    return line[line.index("{"):]


def digests_of(lines, segments):
    """The five numbers that a chunk's lines stand for; segments: the lines of the records before it."""
    frames = 0
    for at in range(0, len(lines) - 1 if "refused" not in lines[0] else 0, 10):
        words = lines[at].split()
        segments = lines[at + 2:at + 10]
        frames = fold(frames, [int(words[3]), int(words[4])])
        for line in lines[at + 1:at + 10]:
            frames = fold(frames, numbers_of(body(line)))
    refused = lines[0].split() if "refused" in lines[0] else None
    answer, which = (int(refused[2]), int(refused[4])) if refused else (0, (len(lines) - 1) // 10)
    carried = fold(0, [x for line in segments for x in numbers_of(body(line))])
    return [answer, which, frames, carried, fold(0, numbers_of(body(lines[-1])))], segments


BLANK = ["{ lvl_lookup: [[0, 0], [0, 0], [0, 0], [0, 0]], luma_ac_quant_scale: 0, luma_dc_quant_scale: 0, "
         "chroma_ac_quant_scale: 0, chroma_dc_quant_scale: 0, reference_frame_enabled: false, reference_frame: 0, "
         "reference_skip_enabled: false }"] * 8


def random_check(check, count, seed):
    got = Results(check.program, b"".join(random_records(count, seed)))
    check.equal("chunks", (len(got.chunks), len(got.digests)), (count, count))
    seen, segments = {}, BLANK
    for number, (lines, digest) in enumerate(zip(got.chunks, got.digests)):
        segments = BLANK if lines[0].startswith("0 ") else segments
        wanted, segments = digests_of(lines, segments)
        check.equal(f"chunk {number}", [int(x) for x in digest[:5]], wanted)
        domain = {1: "1", 2: "1", 3: "1", 6: "2"}.get(wanted[0])
        check.equal(f"chunk {number}, domain", digest[5] if domain or digest[5] in "12" else None, domain)
        seen[digest[0], digest[5]] = seen.get((digest[0], digest[5]), 0) + 1
    print(", ".join(f"answer {a} domain {d}: {n}" for (a, d), n in sorted(seen.items())))


CASES = [document_cases, example, refusals, colours, references, settings, resets, tile_rows, feature_cases,
         level_cases, scale_cases, any_state, domains, tables]


def main(args):
    if args[:1] == ["--records"] and len(args) == 3:
        for record in random_records(int(args[1]), int(args[2])):
            sys.stdout.buffer.write(record)
        return 0
    if args[:1] == ["--random"] and len(args) in (3, 4):
        check = Checker(args[3] if len(args) == 4 else PROGRAM)
        random_check(check, int(args[1]), int(args[2]))
    elif len(args) <= 1 and not args[:1] == ["--random"]:
        check = Checker(args[0] if args else PROGRAM)
        for case in CASES:
            case(check)
    else:
        print(__doc__)
        return 2
    print(f"tests/second: {check.count} compared, {check.failed} differ")
    return 1 if check.failed else 0


if __name__ == "__main__":
    sys.exit(main(sys.argv[1:]))
