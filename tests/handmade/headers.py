"""The VP9 uncompressed header as fields: one walk over the syntax, used to
write field values down and to read them back. Also chunks with an index.

The walk follows the syntax tables of the VP9 specification and docs/RULES.md.
It asks no conformance: reserved bits may be 1, a sign may stand on a 0.
"""

from bits import BitReader, BitWriter

MARKER = 2
SYNC_CODE = 0x498342
FEATURE_BITS = (8, 6, 2, 0)
FEATURE_SIGNED = (True, True, False, False)

# Every field, with its shape: () is one number, (n,) a row, (n, m) a grid.
# Signs are fields of their own; `color_reserved_zero` is the reserved bit of
# the colour fields, `reserved_zero` the one of profile 3.
SHAPES = {
    "frame_marker": (),
    "profile_low_bit": (),
    "profile_high_bit": (),
    "reserved_zero": (),
    "show_existing_frame": (),
    "frame_to_show_map_idx": (),
    "frame_type": (),
    "show_frame": (),
    "error_resilient_mode": (),
    "intra_only": (),
    "reset_frame_context": (),
    "frame_sync_code": (),
    "ten_or_twelve_bit": (),
    "color_space": (),
    "color_range": (),
    "subsampling_x": (),
    "subsampling_y": (),
    "color_reserved_zero": (),
    "refresh_frame_flags": (),
    "ref_frame_idx": (3,),
    "ref_frame_sign_bias": (3,),
    "found_ref": (3,),
    "frame_width_minus_1": (),
    "frame_height_minus_1": (),
    "render_and_frame_size_different": (),
    "render_width_minus_1": (),
    "render_height_minus_1": (),
    "allow_high_precision_mv": (),
    "is_filter_switchable": (),
    "raw_interpolation_filter": (),
    "refresh_frame_context": (),
    "frame_parallel_decoding_mode": (),
    "frame_context_idx": (),
    "loop_filter_level": (),
    "loop_filter_sharpness": (),
    "loop_filter_delta_enabled": (),
    "loop_filter_delta_update": (),
    "update_ref_delta": (4,),
    "loop_filter_ref_deltas": (4,),
    "loop_filter_ref_deltas_sign": (4,),
    "update_mode_delta": (2,),
    "loop_filter_mode_deltas": (2,),
    "loop_filter_mode_deltas_sign": (2,),
    "base_q_idx": (),
    "delta_coded": (3,),
    "delta_q": (3,),
    "delta_q_sign": (3,),
    "segmentation_enabled": (),
    "segmentation_update_map": (),
    "tree_prob_coded": (7,),
    "tree_prob": (7,),
    "segmentation_temporal_update": (),
    "pred_prob_coded": (3,),
    "pred_prob": (3,),
    "segmentation_update_data": (),
    "segmentation_abs_or_delta_update": (),
    "feature_enabled": (8, 4),
    "feature_value": (8, 4),
    "feature_sign": (8, 4),
    "increment_tile_cols_log2": (8,),
    "tile_rows_log2": (),
    "increment_tile_rows_log2": (),
    "header_size_in_bytes": (),
}


def empty(shape):
    if not shape:
        return 0
    return [empty(shape[1:]) for _ in range(shape[0])]


def no_fields():
    """All fields at 0, the value of a field that its spelling lacks."""
    return {name: empty(shape) for name, shape in SHAPES.items()}


def profile_of(fields):
    return fields["profile_high_bit"] << 1 | fields["profile_low_bit"]


def is_intra(fields):
    return fields["frame_type"] == 0 or fields["intra_only"] == 1


def tile_limits(width):
    """Least and most tile_cols_log2 for a width."""
    w = (width + 63) // 64
    least = 0
    while 64 << least < w:
        least += 1
    most = 0
    while w >> (most + 1) >= 4:
        most += 1
    return least, most


def frame_size(fields, slots):
    """The size that the fields give, with the remembered sizes `slots`."""
    if not is_intra(fields):
        for i in range(3):
            if fields["found_ref"][i]:
                return slots[fields["ref_frame_idx"][i]]
    return fields["frame_width_minus_1"] + 1, fields["frame_height_minus_1"] + 1


def walk(field, fields, slots):
    """Calls field(name, width, *index) for each field of the spelling in
    order. `fields` must hold a field's value once the call is back."""
    field("frame_marker", 2)
    field("profile_low_bit", 1)
    field("profile_high_bit", 1)
    if profile_of(fields) == 3:
        field("reserved_zero", 1)
    if field("show_existing_frame", 1):
        field("frame_to_show_map_idx", 3)
        return
    field("frame_type", 1)
    field("show_frame", 1)
    field("error_resilient_mode", 1)
    if fields["frame_type"] == 0:
        walk_key(field, fields)
    else:
        walk_other(field, fields)
    if not fields["error_resilient_mode"]:
        field("refresh_frame_context", 1)
        field("frame_parallel_decoding_mode", 1)
    field("frame_context_idx", 2)
    walk_loop_filter(field)
    walk_quantizer(field)
    walk_segmentation(field)
    walk_tiles(field, frame_size(fields, slots)[0])
    field("header_size_in_bytes", 16)


def walk_key(field, fields):
    field("frame_sync_code", 24)
    walk_color(field, fields)
    walk_size(field)
    walk_render_size(field)


def walk_other(field, fields):
    if not fields["show_frame"]:
        field("intra_only", 1)
    if not fields["error_resilient_mode"]:
        field("reset_frame_context", 2)
    if fields["intra_only"]:
        field("frame_sync_code", 24)
        if profile_of(fields) > 0:
            walk_color(field, fields)
        field("refresh_frame_flags", 8)
        walk_size(field)
        walk_render_size(field)
    else:
        walk_inter(field)


def walk_inter(field):
    field("refresh_frame_flags", 8)
    for i in range(3):
        field("ref_frame_idx", 3, i)
        field("ref_frame_sign_bias", 1, i)
    # any() stops at the first flag that is 1, as the syntax does.
    if not any(field("found_ref", 1, i) for i in range(3)):
        walk_size(field)
    walk_render_size(field)
    field("allow_high_precision_mv", 1)
    if not field("is_filter_switchable", 1):
        field("raw_interpolation_filter", 2)


def walk_color(field, fields):
    profile = profile_of(fields)
    if profile >= 2:
        field("ten_or_twelve_bit", 1)
    if field("color_space", 3) != 7:
        field("color_range", 1)
        if profile in (1, 3):
            field("subsampling_x", 1)
            field("subsampling_y", 1)
            field("color_reserved_zero", 1)
    elif profile in (1, 3):
        field("color_reserved_zero", 1)


def walk_size(field):
    field("frame_width_minus_1", 16)
    field("frame_height_minus_1", 16)


def walk_render_size(field):
    if field("render_and_frame_size_different", 1):
        field("render_width_minus_1", 16)
        field("render_height_minus_1", 16)


def walk_loop_filter(field):
    field("loop_filter_level", 6)
    field("loop_filter_sharpness", 3)
    if not field("loop_filter_delta_enabled", 1):
        return
    if not field("loop_filter_delta_update", 1):
        return
    for kind, count in (("ref", 4), ("mode", 2)):
        for i in range(count):
            if field(f"update_{kind}_delta", 1, i):
                field(f"loop_filter_{kind}_deltas", 6, i)
                field(f"loop_filter_{kind}_deltas_sign", 1, i)


def walk_quantizer(field):
    field("base_q_idx", 8)
    for i in range(3):
        if field("delta_coded", 1, i):
            field("delta_q", 4, i)
            field("delta_q_sign", 1, i)


def walk_segmentation(field):
    if not field("segmentation_enabled", 1):
        return
    if field("segmentation_update_map", 1):
        for i in range(7):
            if field("tree_prob_coded", 1, i):
                field("tree_prob", 8, i)
        if field("segmentation_temporal_update", 1):
            for i in range(3):
                if field("pred_prob_coded", 1, i):
                    field("pred_prob", 8, i)
    if field("segmentation_update_data", 1):
        field("segmentation_abs_or_delta_update", 1)
        for i in range(8):
            for j in range(4):
                if field("feature_enabled", 1, i, j):
                    field("feature_value", FEATURE_BITS[j], i, j)
                    if FEATURE_SIGNED[j]:
                        field("feature_sign", 1, i, j)


def walk_tiles(field, width):
    least, most = tile_limits(width)
    for i in range(most - least):
        if not field("increment_tile_cols_log2", 1, i):
            break
    if field("tile_rows_log2", 1):
        field("increment_tile_rows_log2", 1)


def holder(fields, name, index):
    """The list (or the fields) that a value stands in, and its place there."""
    place, key = fields, name
    for i in index:
        place, key = place[key], i
    return place, key


def spelling(fields, slots):
    """The fields in order, as (name, value, width)."""
    spelled = []

    def field(name, width, *index):
        place, key = holder(fields, name, index)
        spelled.append((name, place[key], width))
        return place[key]

    walk(field, fields, slots)
    return spelled


def write_header(fields, slots):
    """The header's bytes, padded with zeros, and its length in bits."""
    writer = BitWriter()
    for _, value, width in spelling(fields, slots):
        writer.put(value, width)
    return writer.bytes(), writer.length


def read_header(data, slots):
    """The field values that `data` spells; raises OutOfBits on a short one."""
    fields = no_fields()
    reader = BitReader(data)

    def field(name, width, *index):
        place, key = holder(fields, name, index)
        place[key] = reader.get(width)
        return place[key]

    walk(field, fields, slots)
    return fields


def index_bytes(sizes, bytes_per_size):
    """A superframe index for these sizes."""
    ends = bytes([0b110 << 5 | (bytes_per_size - 1) << 3 | (len(sizes) - 1)])
    middle = b"".join(size.to_bytes(bytes_per_size, "little") for size in sizes)
    return ends + middle + ends


def fewest_bytes(sizes):
    return max(1, (max(sizes).bit_length() + 7) // 8)


def superframe(frames, bytes_per_size=None, gap=b""):
    """Frames end to end, `gap` as room left over, then their index."""
    sizes = [len(frame) for frame in frames]
    return b"".join(frames) + gap + index_bytes(sizes, bytes_per_size or fewest_bytes(sizes))
