"""What docs/RULES.md says of a chunk: a model over field values and the
remembered state. Written from docs/RULES.md and not made by running the Rust;
names and order in the records are the Rust's, so that the two can be compared.
"""

import copy
import os
import re

from bits import BitReader, OutOfBits
from headers import (MARKER, SYNC_CODE, FEATURE_BITS, holder, is_intra, no_fields,
                     profile_of, tile_limits, walk)


class Name(str):
    """An enum's variant, printed without quotes."""


class Record:
    """A record with named fields in order."""

    def __init__(self, kind, **fields):
        self.__dict__["kind"] = kind
        self.__dict__["fields"] = fields

    def __getattr__(self, name):
        try:
            return self.__dict__["fields"][name]
        except KeyError:
            raise AttributeError(name)

    def __setattr__(self, name, value):
        assert name in self.fields, name
        self.fields[name] = value

    def copy(self):
        return Record(self.kind, **copy.deepcopy(self.fields))

    def __deepcopy__(self, memo):
        return self.copy()


def debug(value):
    """A value in the form of Rust's derived Debug, on one line."""
    if isinstance(value, Record):
        inner = ", ".join(f"{name}: {debug(v)}" for name, v in value.fields.items())
        return f"{value.kind} {{ {inner} }}"
    if isinstance(value, list):
        return "[" + ", ".join(debug(v) for v in value) + "]"
    if isinstance(value, bool):
        return "true" if value else "false"
    return str(value)


SPACES = ("Unknown", "Bt601", "Bt709", "Smpte170", "Smpte240", "Bt2020", "Reserved2", "CsSrgb")
RANGES = ("StudioSwing", "FullSwing")
# By the two bits read: 0 smooth, 1 eight-tap, 2 sharp, 3 bilinear.
FILTERS = ("EightTapSmooth", "EightTap", "EightTapSharp", "Bilinear")


def grid(value):
    return [[value] * 4 for _ in range(8)]


def default_lf():
    return Record("LoopFilterParams", level=0, sharpness=0, delta_enabled=False,
                  delta_update=False, update_ref_delta=[False] * 4, ref_deltas=[0] * 4,
                  update_mode_delta=[False] * 2, mode_deltas=[0] * 2)


def default_seg():
    return Record("SegmentationParams", enabled=False, update_map=False, tree_probs=[0] * 7,
                  pred_probs=[0] * 3, temporal_update=False, update_data=False,
                  abs_or_delta_update=False, feature_enabled=grid(False), feature_data=grid(0))


def default_quant():
    return Record("QuantizationParams", base_q_idx=0, delta_q_y_dc=0, delta_q_uv_dc=0,
                  delta_q_uv_ac=0)


def default_header():
    return Record(
        "Header", profile=Name("Profile0"), bit_depth=Name("Depth8"), subsampling_x=False,
        subsampling_y=False, color_space=Name("Unknown"), color_range=Name("StudioSwing"),
        show_existing_frame=False, frame_to_show_map_idx=0, frame_type=Name("KeyFrame"),
        show_frame=False, error_resilient_mode=False, width=0, height=0,
        render_and_frame_size_different=False, render_width=0, render_height=0, intra_only=False,
        reset_frame_context=0, refresh_frame_flags=0, ref_frame_idx=[0] * 3,
        ref_frame_sign_bias=[0] * 4, allow_high_precision_mv=False,
        interpolation_filter=Name("EightTap"), refresh_frame_context=False,
        frame_parallel_decoding_mode=False, frame_context_idx=0, lf=default_lf(),
        quant=default_quant(), seg=default_seg(), tile_cols_log2=0, tile_rows_log2=0,
        lossless=False, header_size_in_bytes=0, uncompressed_header_size_in_bytes=0)


def default_segments():
    return [Record("Segmentation", lvl_lookup=[[0, 0] for _ in range(4)], luma_ac_quant_scale=0,
                   luma_dc_quant_scale=0, chroma_ac_quant_scale=0, chroma_dc_quant_scale=0,
                   reference_frame_enabled=False, reference_frame=0, reference_skip_enabled=False)
            for _ in range(8)]


class State:
    """A fresh state: depth 8, everything else 0 or false."""

    def __init__(self):
        self.bit_depth = Name("Depth8")
        self.subsampling_x = False
        self.subsampling_y = False
        self.color_space = Name("Unknown")
        self.color_range = Name("StudioSwing")
        self.lf = default_lf()
        self.seg = default_seg()
        self.slots = [(0, 0)] * 8

    def debug(self):
        """The Rust's Parser record without its four block counts, which
        docs/RULES.md's state doesn't hold."""
        slots = [Record("FrameSize", width=w, height=h) for w, h in self.slots]
        return debug(Record(
            "Parser", bit_depth=self.bit_depth, subsampling_x=self.subsampling_x,
            subsampling_y=self.subsampling_y, color_space=self.color_space,
            color_range=self.color_range, lf=self.lf, seg=self.seg, reference_frame_sz=slots))


def signed(value, sign):
    return -value if sign else value


def clamp(value, least, most):
    return max(least, min(most, value))


def fill_color(h, f):
    """The colour fields of the record, where the spelling has them."""
    profile = profile_of(f)
    if profile >= 2:
        h.bit_depth = Name("Depth12" if f["ten_or_twelve_bit"] else "Depth10")
    else:
        h.bit_depth = Name("Depth8")
    h.color_space = Name(SPACES[f["color_space"]])
    if f["color_space"] == 7:
        h.color_range = Name("FullSwing")
        h.subsampling_x = h.subsampling_y = False
        return
    h.color_range = Name(RANGES[f["color_range"]])
    if profile in (1, 3):
        h.subsampling_x = bool(f["subsampling_x"])
        h.subsampling_y = bool(f["subsampling_y"])
    else:
        h.subsampling_x = h.subsampling_y = True


def fill_read_size(h, f):
    h.width = f["frame_width_minus_1"] + 1
    h.height = f["frame_height_minus_1"] + 1


def fill_render_size(h, f):
    h.render_and_frame_size_different = bool(f["render_and_frame_size_different"])
    if h.render_and_frame_size_different:
        h.render_width = f["render_width_minus_1"] + 1
        h.render_height = f["render_height_minus_1"] + 1
    else:
        h.render_width, h.render_height = h.width, h.height


def fill_key(h, f):
    fill_color(h, f)
    fill_read_size(h, f)
    h.refresh_frame_flags = 255


def fill_intra_only(h, f):
    if profile_of(f) > 0:
        fill_color(h, f)
    else:
        h.color_space = Name("Bt601")
        h.subsampling_x = h.subsampling_y = True
        h.bit_depth = Name("Depth8")
        h.color_range = Name("StudioSwing")
    h.refresh_frame_flags = f["refresh_frame_flags"]
    fill_read_size(h, f)


def fill_inter(h, f, state):
    h.bit_depth = state.bit_depth
    h.subsampling_x, h.subsampling_y = state.subsampling_x, state.subsampling_y
    h.color_space, h.color_range = state.color_space, state.color_range
    h.refresh_frame_flags = f["refresh_frame_flags"]
    h.ref_frame_idx = list(f["ref_frame_idx"])
    h.ref_frame_sign_bias = [0] + list(f["ref_frame_sign_bias"])
    taken = [f["ref_frame_idx"][i] for i in range(3) if f["found_ref"][i]]
    if taken:
        h.width, h.height = state.slots[taken[0]]
    else:
        fill_read_size(h, f)
    h.allow_high_precision_mv = bool(f["allow_high_precision_mv"])
    if f["is_filter_switchable"]:
        h.interpolation_filter = Name("Switchable")
    else:
        h.interpolation_filter = Name(FILTERS[f["raw_interpolation_filter"]])


def reset(lf, seg, h):
    """What an intra or error resilient frame forgets."""
    seg.feature_enabled, seg.feature_data = grid(False), grid(0)
    seg.abs_or_delta_update = False
    lf.ref_deltas, lf.mode_deltas = [1, 0, -1, -1], [0, 0]
    h.ref_frame_sign_bias = [0] * 4


def fill_deltas(f, kind, flags, deltas):
    for i in range(len(deltas)):
        flags[i] = bool(f[f"update_{kind}_delta"][i])
        if flags[i]:
            deltas[i] = signed(f[f"loop_filter_{kind}_deltas"][i],
                               f[f"loop_filter_{kind}_deltas_sign"][i])


def fill_lf(lf, f):
    lf.level = f["loop_filter_level"]
    lf.sharpness = f["loop_filter_sharpness"]
    lf.delta_enabled = bool(f["loop_filter_delta_enabled"])
    if not lf.delta_enabled:
        return
    lf.delta_update = bool(f["loop_filter_delta_update"])
    if lf.delta_update:
        fill_deltas(f, "ref", lf.update_ref_delta, lf.ref_deltas)
        fill_deltas(f, "mode", lf.update_mode_delta, lf.mode_deltas)


def fill_quant(h, f):
    deltas = [signed(f["delta_q"][i], f["delta_q_sign"][i]) if f["delta_coded"][i] else 0
              for i in range(3)]
    q = h.quant
    q.base_q_idx = f["base_q_idx"]
    q.delta_q_y_dc, q.delta_q_uv_dc, q.delta_q_uv_ac = deltas
    h.lossless = q.base_q_idx == 0 and deltas == [0, 0, 0]


def prob(coded, value):
    return value if coded else 255


def fill_seg(seg, f):
    seg.enabled = bool(f["segmentation_enabled"])
    seg.update_map = seg.update_data = False
    if not seg.enabled:
        return
    seg.update_map = bool(f["segmentation_update_map"])
    if seg.update_map:
        seg.tree_probs = [prob(*both) for both in zip(f["tree_prob_coded"], f["tree_prob"])]
        seg.temporal_update = bool(f["segmentation_temporal_update"])
        if seg.temporal_update:
            seg.pred_probs = [prob(*both) for both in zip(f["pred_prob_coded"], f["pred_prob"])]
        else:
            seg.pred_probs = [255] * 3
    seg.update_data = bool(f["segmentation_update_data"])
    if seg.update_data:
        seg.abs_or_delta_update = bool(f["segmentation_abs_or_delta_update"])
        fill_features(seg, f)


def fill_features(seg, f):
    for i in range(8):
        for j in range(4):
            seg.feature_enabled[i][j] = bool(f["feature_enabled"][i][j])
            value = signed(f["feature_value"][i][j], f["feature_sign"][i][j])
            seg.feature_data[i][j] = value if seg.feature_enabled[i][j] else 0


def fill_tiles(h, f):
    least, most = tile_limits(h.width)
    ones = 0
    while ones < most - least and f["increment_tile_cols_log2"][ones]:
        ones += 1
    h.tile_cols_log2 = least + ones
    h.tile_rows_log2 = f["tile_rows_log2"] + f["increment_tile_rows_log2"]


def header(f, state, bits):
    """The record that the field values spell, after the state."""
    h = default_header()
    h.profile = Name(f"Profile{profile_of(f)}")
    h.show_existing_frame = bool(f["show_existing_frame"])
    if h.show_existing_frame:
        h.frame_to_show_map_idx = f["frame_to_show_map_idx"]
        return h
    h.frame_type = Name("InterFrame" if f["frame_type"] else "KeyFrame")
    h.show_frame = bool(f["show_frame"])
    h.error_resilient_mode = bool(f["error_resilient_mode"])
    h.intra_only = bool(f["intra_only"])
    h.reset_frame_context = f["reset_frame_context"]
    if not f["frame_type"]:
        fill_key(h, f)
    elif h.intra_only:
        fill_intra_only(h, f)
    else:
        fill_inter(h, f, state)
    fill_render_size(h, f)
    h.refresh_frame_context = bool(f["refresh_frame_context"])
    h.frame_parallel_decoding_mode = (h.error_resilient_mode
                                      or bool(f["frame_parallel_decoding_mode"]))
    h.frame_context_idx = f["frame_context_idx"]
    h.lf, h.seg = state.lf.copy(), state.seg.copy()
    if is_intra(f) or h.error_resilient_mode:
        reset(h.lf, h.seg, h)
    fill_lf(h.lf, f)
    fill_quant(h, f)
    fill_seg(h.seg, f)
    fill_tiles(h, f)
    h.header_size_in_bytes = f["header_size_in_bytes"]
    h.uncompressed_header_size_in_bytes = (bits + 7) // 8
    return h


def remember(state, h):
    """The state after an accepted header."""
    after = copy.copy(state)
    if h.show_existing_frame:
        return after
    after.bit_depth = h.bit_depth
    after.subsampling_x, after.subsampling_y = h.subsampling_x, h.subsampling_y
    after.color_space = h.color_space
    # An intra-only frame of profile 0 leaves the remembered range untouched.
    if not (h.intra_only and h.profile == "Profile0"):
        after.color_range = h.color_range
    after.lf, after.seg = h.lf, h.seg
    after.slots = [(h.width, h.height) if h.refresh_frame_flags >> i & 1 else state.slots[i]
                   for i in range(8)]
    return after


def level_grid(h, i, old):
    """The level grid of segment i."""
    frame_level = h.lf.level
    if frame_level == 0:
        return [[0, 0] for _ in range(4)]
    level = frame_level
    if h.seg.enabled and h.seg.feature_enabled[i][1]:
        data = h.seg.feature_data[i][1]
        level = data if h.seg.abs_or_delta_update else level + data
    level = clamp(level, 0, 63)
    if not h.lf.delta_enabled:
        return [[level, level] for _ in range(4)]
    scale = 2 ** (frame_level // 32)
    new = [[clamp(level + (ref + mode) * scale, 0, 63) for mode in h.lf.mode_deltas]
           for ref in h.lf.ref_deltas]
    new[0] = [clamp(level + h.lf.ref_deltas[0] * scale, 0, 63), old[0][1]]
    return new


def quantizer_index(h, i):
    base = h.quant.base_q_idx
    if not (h.seg.enabled and h.seg.feature_enabled[i][0]):
        return base
    data = h.seg.feature_data[i][0]
    return clamp(data if h.seg.abs_or_delta_update else base + data, 0, 255)


def segment_step(segments, h, tables):
    """The eight segment records after a frame. `tables` gives the row of 256
    for ("dc" or "ac", depth)."""
    dc, ac = tables["dc", h.bit_depth], tables["ac", h.bit_depth]
    after = []
    for i in range(8):
        index = quantizer_index(h, i)
        record = segments[i].copy()
        record.lvl_lookup = level_grid(h, i, segments[i].lvl_lookup)
        record.luma_ac_quant_scale = ac[index]
        record.luma_dc_quant_scale = dc[clamp(index + h.quant.delta_q_y_dc, 0, 255)]
        record.chroma_ac_quant_scale = ac[clamp(index + h.quant.delta_q_uv_ac, 0, 255)]
        record.chroma_dc_quant_scale = dc[clamp(index + h.quant.delta_q_uv_dc, 0, 255)]
        record.reference_frame_enabled = h.seg.feature_enabled[i][2]
        record.reference_frame = h.seg.feature_data[i][2]
        record.reference_skip_enabled = h.seg.feature_enabled[i][3]
        after.append(record)
    return after


class Refused(Exception):
    """docs/RULES.md's number and the frame it comes with."""

    def __init__(self, number, frame=0):
        super().__init__(f"refused {number} frame {frame}")
        self.number, self.frame = number, frame


def split(chunk):
    """The places of the chunk's frames by the index rule."""
    if not chunk:
        raise Refused(1)
    last = chunk[-1]
    if last >> 5 != 6:
        return [(0, len(chunk))]
    width, count = (last >> 3 & 3) + 1, (last & 7) + 1
    length = 2 + width * count
    if len(chunk) < length:
        raise Refused(2)
    index = chunk[-length:]
    if index[0] != last:
        return [(0, len(chunk))]
    room, at, places = len(chunk) - length, 0, []
    for i in range(count):
        size = int.from_bytes(index[1 + width * i:1 + width * (i + 1)], "little")
        if at + size > room:
            raise Refused(3, i)
        places.append((at, size))
        at += size
    return places


def read_fields(data, slots, frame):
    """Field values and length in bits of a frame's header, or its refusal."""
    fields = no_fields()
    reader = BitReader(data)

    def field(name, width, *index):
        value = reader.get(width)
        if name == "frame_marker" and value != MARKER:
            raise Refused(4, frame)
        if name == "frame_sync_code" and value != SYNC_CODE:
            raise Refused(5, frame)
        place, key = holder(fields, name, index)
        place[key] = value
        return value

    try:
        walk(field, fields, slots)
    except OutOfBits:
        raise Refused(6, frame)
    return fields, reader.length


class Frame:
    """An accepted frame: its place, field values, and record; the state after it."""

    def __init__(self, at, size, fields, record, before, after):
        self.at, self.size = at, size
        self.fields, self.record = fields, record
        self.before, self.after = before, after


def read_chunk(chunk, state):
    """The frames of an accepted chunk and the state after; raises Refused."""
    frames = []
    for i, (at, size) in enumerate(split(chunk)):
        fields, bits = read_fields(chunk[at:at + size], state.slots, i)
        record = header(fields, state, bits)
        after = remember(state, record)
        frames.append(Frame(at, size, fields, record, state, after))
        state = after
    return frames, state


def top_bits(fields):
    """Is a feature value's top bit set?"""
    return any(fields["feature_value"][i][j] >> (FEATURE_BITS[j] - 1)
               for i in range(8) for j in range(3))


def data_dropped(frame):
    """Does a data update switch off a feature whose stored data isn't 0?"""
    if not frame.fields["segmentation_update_data"]:
        return False
    if is_intra(frame.fields) or frame.fields["error_resilient_mode"]:
        return False
    return any(frame.before.seg.feature_data[i][j] and not frame.fields["feature_enabled"][i][j]
               for i in range(8) for j in range(4))


def outside_refused(refused):
    """Why a refused chunk lies outside the domain for runs, or None."""
    reasons = {1: "no bytes", 2: "index cut short", 3: "frame past the room",
               6: "header past its frame"}
    return reasons.get(refused.number)


def outside_frames(frames):
    """Why an accepted chunk of these frames lies outside the domain for runs, or None."""
    if any(top_bits(frame.fields) for frame in frames):
        return "feature value with its top bit set"
    if any(data_dropped(frame) for frame in frames):
        return "feature with data switched off"
    return None


def outside(chunk, state):
    """Why the chunk lies outside the domain for runs, or None."""
    try:
        frames, _ = read_chunk(chunk, state)
    except Refused as refused:
        return outside_refused(refused)
    return outside_frames(frames)


TABLES = {"DC_QLOOKUP": ("dc", "Depth8"), "AC_QLOOKUP": ("ac", "Depth8"),
          "DC_QLOOKUP_10": ("dc", "Depth10"), "AC_QLOOKUP_10": ("ac", "Depth10"),
          "DC_QLOOKUP_12": ("dc", "Depth12"), "AC_QLOOKUP_12": ("ac", "Depth12")}


def read_tables(src):
    """The six tables, taken from the text of lookups.rs as docs/RULES.md says."""
    with open(os.path.join(src, "src/codec/vp9/lookups.rs")) as file:
        source = file.read()
    tables = {}
    for name, row in re.findall(r"pub const (\w+): \[i16; 256\] = \[([^\]]*)\]", source):
        tables[TABLES[name]] = [int(n) for n in row.replace(",", " ").split()]
    assert len(tables) == 6 and all(len(row) == 256 for row in tables.values())
    return tables


class Model:
    """docs/RULES.md along a series, in the lines of the judge."""

    def __init__(self, tables):
        self.tables = tables
        self.state = State()
        self.segments = default_segments()

    def frame_lines(self, number, frame):
        self.segments = segment_step(self.segments, frame.record, self.tables)
        return ([f"frame {number} {frame.at} {frame.size}", "  " + debug(frame.record)]
                + [f"  seg {i} {debug(record)}" for i, record in enumerate(self.segments)])

    def read(self, data):
        """The answer to a chunk, and the lines of each frame."""
        try:
            frames, self.state = read_chunk(data, self.state)
        except Refused as refused:
            return str(refused), []
        lines = [self.frame_lines(i, frame) for i, frame in enumerate(frames)]
        return f"accepted {len(frames)}", lines
