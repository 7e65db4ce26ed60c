"""Works out the headers from ffmpeg's elements alone, by the rules of VP9.

Beside VP9's feature data it keeps what the Rust is known to hold instead."""

COLOUR_SPACES = ["Unknown", "Bt601", "Bt709", "Smpte170", "Smpte240", "Bt2020", "Reserved2", "CsSrgb"]
FILTERS = ["EightTapSmooth", "EightTap", "EightTapSharp", "Bilinear"]
RANGES = ["StudioSwing", "FullSwing"]
FEATURE_BITS = [8, 6, 2, 0]

# Why the Rust may hold other feature data.
SIGN_EXTENDED = "the Rust reads a feature value as two's complement"
OLD_DATA_KEPT = "the Rust keeps the data of a feature that is switched off"


def flags(count):
    return [False] * count


def grid(value):
    return [[value] * 4 for _ in range(8)]


def copy(value):
    if isinstance(value, dict):
        return {k: copy(v) for k, v in value.items()}
    return [copy(v) for v in value] if isinstance(value, list) else value


class Memory:
    """What is remembered from frame to frame."""

    def __init__(self):
        self.colour = {"bit_depth": "Depth8", "subsampling_x": False, "subsampling_y": False,
                       "color_space": "Unknown", "color_range": "StudioSwing"}
        self.lf = {"level": 0, "sharpness": 0, "delta_enabled": False, "delta_update": False,
                   "update_ref_delta": flags(4), "ref_deltas": [0] * 4,
                   "update_mode_delta": flags(2), "mode_deltas": [0] * 2}
        self.seg = {"enabled": False, "update_map": False, "tree_probs": [0] * 7,
                    "pred_probs": [0] * 3, "temporal_update": False, "update_data": False,
                    "abs_or_delta_update": False, "feature_enabled": grid(False),
                    "feature_data": grid(0)}
        self.slots = [(0, 0)] * 8
        # What the Rust is known to hold in place of feature_data, and why.
        self.rust_data = grid(0)
        self.why = grid(None)


def default_header():
    fresh = Memory()
    header = dict(fresh.colour, profile="Profile0", show_existing_frame=False,
                  frame_to_show_map_idx=0, frame_type="KeyFrame", show_frame=False,
                  error_resilient_mode=False, width=0, height=0,
                  render_and_frame_size_different=False, render_width=0, render_height=0,
                  intra_only=False, reset_frame_context=0, refresh_frame_flags=0,
                  ref_frame_idx=[0] * 3, ref_frame_sign_bias=[0] * 4,
                  allow_high_precision_mv=False, interpolation_filter="EightTap",
                  refresh_frame_context=False, frame_parallel_decoding_mode=False,
                  frame_context_idx=0, lf=fresh.lf, seg=fresh.seg, tile_cols_log2=0,
                  tile_rows_log2=0, lossless=False, header_size_in_bytes=0,
                  uncompressed_header_size_in_bytes=0)
    header["quant"] = {"base_q_idx": 0, "delta_q_y_dc": 0, "delta_q_uv_dc": 0, "delta_q_uv_ac": 0}
    return header


def profile_number(frame):
    return frame.get("profile_high_bit") * 2 + frame.get("profile_low_bit")


def coded_colour(frame):
    profile, space = profile_number(frame), frame.get("color_space")
    depth = 8 if profile < 2 else 12 if frame.get("ten_or_twelve_bit") else 10
    return {"bit_depth": f"Depth{depth}",
            "color_space": COLOUR_SPACES[space],
            "color_range": RANGES[1 if space == 7 else frame.get("color_range")],
            "subsampling_x": space != 7 and bool(frame.get("subsampling_x", 1)),
            "subsampling_y": space != 7 and bool(frame.get("subsampling_y", 1))}


def colour(frame, memory):
    """The frame's colour values; remembers them."""
    if frame.has("color_space"):
        memory.colour = coded_colour(frame)
    elif frame.get("intra_only"):
        plain = {"bit_depth": "Depth8", "color_space": "Bt601",
                 "subsampling_x": True, "subsampling_y": True}
        memory.colour = dict(memory.colour, **plain)
        return dict(plain, color_range="StudioSwing")
    return memory.colour


def frame_size(frame, memory):
    for i in range(3):
        if frame.get(f"found_ref[{i}]"):
            return memory.slots[frame.get(f"ref_frame_idx[{i}]")]
    return frame.get("frame_width_minus_1") + 1, frame.get("frame_height_minus_1") + 1


def sizes(frame, memory):
    width, height = frame_size(frame, memory)
    different = bool(frame.get("render_and_frame_size_different"))
    render = (frame.get("render_width_minus_1") + 1, frame.get("render_height_minus_1") + 1)
    shown = render if different else (width, height)
    return {"width": width, "height": height, "render_and_frame_size_different": different,
            "render_width": shown[0], "render_height": shown[1]}


def references(frame):
    if not frame.has("ref_frame_idx[0]"):
        return {}
    name = "Switchable"
    if not frame.get("is_filter_switchable"):
        name = FILTERS[frame.fields["raw_interpolation_filter_type"]]
    return {"ref_frame_idx": [frame.get(f"ref_frame_idx[{i}]") for i in range(3)],
            "ref_frame_sign_bias": [frame.get(f"ref_frame_sign_bias[{i}]") for i in range(4)],
            "allow_high_precision_mv": bool(frame.get("allow_high_precision_mv")),
            "interpolation_filter": name}


def forget(memory):
    """What an intra or error-resilient frame sets back."""
    memory.seg.update(abs_or_delta_update=False, feature_enabled=grid(False), feature_data=grid(0))
    memory.rust_data, memory.why = grid(0), grid(None)
    memory.lf.update(ref_deltas=[1, 0, -1, -1], mode_deltas=[0, 0])


def read_filter(frame, lf):
    lf.update(level=frame.get("loop_filter_level"), sharpness=frame.get("loop_filter_sharpness"),
              delta_enabled=bool(frame.get("loop_filter_delta_enabled")))
    if lf["delta_enabled"]:
        lf["delta_update"] = bool(frame.get("loop_filter_delta_update"))
    for kind, count in (("ref", 4), ("mode", 2)):
        for i in range(count):
            if frame.has(f"update_{kind}_delta[{i}]"):
                lf[f"update_{kind}_delta"][i] = bool(frame.get(f"update_{kind}_delta[{i}]"))
            old = lf[f"{kind}_deltas"][i]
            lf[f"{kind}_deltas"][i] = frame.get(f"loop_filter_{kind}_deltas[{i}]", old)


def quantizer(frame):
    quant = {"base_q_idx": frame.get("base_q_idx")}
    for name in ("delta_q_y_dc", "delta_q_uv_dc", "delta_q_uv_ac"):
        quant[name] = frame.get(name + ".delta_q")
    return quant


def probabilities(frame, name, count):
    return [frame.get(f"{name}[{i}].prob", 255) for i in range(count)]


def sign_extended(value, bits):
    return value - (1 << bits) if bits and value >> (bits - 1) else value


def read_feature(frame, memory, i, j):
    place = f"[{i}][{j}]"
    enabled = bool(frame.get("feature_enabled" + place))
    memory.seg["feature_enabled"][i][j] = enabled
    if not enabled:
        memory.seg["feature_data"][i][j] = 0
        memory.why[i][j] = OLD_DATA_KEPT
        return
    value = frame.get("feature_value" + place)
    sign = -1 if frame.get("feature_sign" + place) else 1
    memory.seg["feature_data"][i][j] = sign * value
    memory.rust_data[i][j] = sign * sign_extended(value, FEATURE_BITS[j])
    memory.why[i][j] = SIGN_EXTENDED


def read_segmentation(frame, memory):
    seg = memory.seg
    for name in ("enabled", "update_map", "update_data"):
        seg[name] = bool(frame.get("segmentation_" + name))
    if seg["update_map"]:
        seg["tree_probs"] = probabilities(frame, "segmentation_tree_probs", 7)
        seg["temporal_update"] = bool(frame.get("segmentation_temporal_update"))
        seg["pred_probs"] = probabilities(frame, "segmentation_pred_prob", 3)
    if seg["update_data"]:
        seg["abs_or_delta_update"] = bool(frame.get("segmentation_abs_or_delta_update"))
        for i in range(8):
            for j in range(4):
                read_feature(frame, memory, i, j)


def store_sizes(header, memory):
    for i in range(8):
        if header["refresh_frame_flags"] >> i & 1:
            memory.slots[i] = header["width"], header["height"]


def start_of_header(frame):
    header = default_header()
    header["profile"] = f"Profile{profile_number(frame)}"
    header["show_existing_frame"] = bool(frame.get("show_existing_frame"))
    header["frame_to_show_map_idx"] = frame.get("frame_to_show_map_idx")
    return header


def expected_header(frame, memory):
    header = start_of_header(frame)
    if header["show_existing_frame"]:
        return header
    key = frame.get("frame_type") == 0
    resilient = bool(frame.get("error_resilient_mode"))
    header.update(colour(frame, memory), **sizes(frame, memory), **references(frame))
    header.update(
        frame_type="KeyFrame" if key else "InterFrame", show_frame=bool(frame.get("show_frame")),
        error_resilient_mode=resilient, intra_only=bool(frame.get("intra_only")),
        reset_frame_context=frame.get("reset_frame_context"),
        refresh_frame_flags=255 if key else frame.get("refresh_frame_flags"),
        refresh_frame_context=bool(frame.get("refresh_frame_context")),
        frame_parallel_decoding_mode=bool(frame.get("frame_parallel_decoding_mode", resilient)),
        frame_context_idx=frame.get("frame_context_idx"))
    if key or header["intra_only"] or resilient:
        forget(memory)
    read_filter(frame, memory.lf)
    read_segmentation(frame, memory)
    quant = quantizer(frame)
    header.update(lf=copy(memory.lf), seg=copy(memory.seg), quant=quant,
                  lossless=not any(quant.values()), tile_cols_log2=frame.get("tile_cols_log2"),
                  tile_rows_log2=frame.get("tile_rows_log2"),
                  header_size_in_bytes=frame.get("header_size_in_bytes"),
                  uncompressed_header_size_in_bytes=(frame.last_bit + 16 + 7) // 8)
    store_sizes(header, memory)
    return header


def expected_state(memory):
    slots = [{"width": w, "height": h} for w, h in memory.slots]
    return dict(memory.colour, lf=memory.lf, seg=memory.seg, reference_frame_sz=slots)


def summary(header):
    """The reader's header in the form of ffmpeg's own summary."""
    return (header["width"], header["height"], int(header["subsampling_x"]),
            int(header["subsampling_y"]), int(header["bit_depth"][5:]),
            1 << header["tile_cols_log2"], 1 << header["tile_rows_log2"])
