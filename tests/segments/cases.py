"""Random cases for the segment records, in the form that test_segments reads."""

import os
import random
import sys

sys.dont_write_bytecode = True

sys.path.insert(0, os.path.join(os.path.dirname(os.path.abspath(__file__)), "..", "handmade"))

import expect

DEPTHS = ("Depth8", "Depth10", "Depth12")

# On each side of a limit.
LEVELS = (0, 1, 31, 32, 33, 62, 63, 64, 95, 96, 127, 128, 254, 255)
INDICES = (0, 1, 15, 16, 127, 128, 239, 240, 254, 255)
DELTAS = (-128, -127, -64, -63, -32, -15, -1, 0, 1, 15, 31, 32, 63, 64, 127)
DATA = (-32768, -32767, -256, -255, -64, -63, -1, 0, 1, 3, 62, 63, 64, 254, 255, 256, 32767)

# What a header can spell, by feature.
SPELLED_DATA = ((-255, 255), (-63, 63), (0, 3), (0, 0))


class Cases:
    """Random cases. In one of three, each number is one that a header can spell; else any that its type holds. Every other number is near a limit."""

    def __init__(self, seed):
        self.random = random.Random(seed)

    def flag(self, chance=0.5):
        return self.random.random() < chance

    def number(self, limits, spelled, held):
        least, most = spelled if self.spelled or self.flag() else held
        if self.flag():
            return self.random.choice([n for n in limits if least <= n <= most])
        return self.random.randint(least, most)

    def level(self):
        return self.number(LEVELS, (0, 63), (0, 255))

    def delta(self, most):
        return self.number(DELTAS, (-most, most), (-128, 127))

    def data(self, feature):
        return self.number(DATA, SPELLED_DATA[feature], (-32768, 32767))

    def header(self):
        h = expect.default_header()
        h.bit_depth = expect.Name(self.random.choice(DEPTHS))
        h.lf.level = self.level()
        h.lf.delta_enabled = self.flag(0.75)
        h.lf.ref_deltas = [self.delta(63) for _ in range(4)]
        h.lf.mode_deltas = [self.delta(63) for _ in range(2)]
        h.quant.base_q_idx = self.number(INDICES, (0, 255), (0, 255))
        h.quant.delta_q_y_dc = self.delta(15)
        h.quant.delta_q_uv_dc = self.delta(15)
        h.quant.delta_q_uv_ac = self.delta(15)
        h.seg.enabled = self.flag()
        h.seg.abs_or_delta_update = self.flag()
        chance = self.random.choice((0, 0.5, 1))
        h.seg.feature_enabled = [[self.flag(chance) for _ in range(4)] for _ in range(8)]
        h.seg.feature_data = [[self.data(feature) for feature in range(4)] for _ in range(8)]
        return h

    def scale(self):
        return self.random.randint(-32768, 32767)

    def segment(self):
        s = expect.default_segments()[0]
        s.lvl_lookup = [[self.random.randrange(256), self.random.randrange(256)] for _ in range(4)]
        s.luma_ac_quant_scale, s.luma_dc_quant_scale = self.scale(), self.scale()
        s.chroma_ac_quant_scale, s.chroma_dc_quant_scale = self.scale(), self.scale()
        s.reference_frame_enabled, s.reference_skip_enabled = self.flag(), self.flag()
        s.reference_frame = self.scale()
        return s

    def case(self):
        """Old records of its own, or None for those that the last case left; a header; whether a header can spell it."""
        self.spelled = self.flag(1 / 3)
        old = [self.segment() for _ in range(8)] if self.flag(0.25) else None
        return old, self.header(), self.spelled


# The form that the programs read; crates/test_segments/src/main.rt says what it is.

def signed(n, size):
    if n == -(1 << (8 * size - 1)):
        return bytes([2]) + bytes(size)
    return bytes([n < 0]) + abs(n).to_bytes(size, "big")


def short(n):
    return signed(n, 2)


def segment_bytes(s):
    return (bytes(level for row in s.lvl_lookup for level in row)
            + short(s.luma_ac_quant_scale) + short(s.luma_dc_quant_scale)
            + short(s.chroma_ac_quant_scale) + short(s.chroma_dc_quant_scale)
            + bytes([s.reference_frame_enabled]) + short(s.reference_frame)
            + bytes([s.reference_skip_enabled]))


def header_bytes(h):
    quant, seg = h.quant, h.seg
    return (bytes([DEPTHS.index(h.bit_depth), h.lf.level, h.lf.delta_enabled])
            + b"".join(signed(d, 1) for d in h.lf.ref_deltas + h.lf.mode_deltas)
            + bytes([quant.base_q_idx])
            + b"".join(signed(d, 1) for d in (quant.delta_q_y_dc, quant.delta_q_uv_dc, quant.delta_q_uv_ac))
            + bytes([seg.enabled, seg.abs_or_delta_update])
            + bytes(on for row in seg.feature_enabled for on in row)
            + b"".join(short(d) for row in seg.feature_data for d in row))


def scales_bytes(header):
    """A header of which the scales are asked for."""
    return b"\3" + header_bytes(header)


def case_bytes(old, header, _):
    if old is None:
        return b"\0" + header_bytes(header)
    return b"\1" + b"".join(map(segment_bytes, old)) + header_bytes(header)
