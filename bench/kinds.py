"""Headers of every kind that update_segmentation goes by, in the form that test_segments reads."""

import os
import sys

from machine import ROOT

sys.path.insert(0, os.path.join(ROOT, "tests", "segments"))

from cases import expect, header_bytes

STEP, STAY = b"\0", b"\2"


def header(level, deltas, features, depth="Depth8", segments=8):
    """Base 60 and the deltas of a reset, as in docs/RULES.md's K; the features named are active in the first segments."""
    h = expect.default_header()
    h.bit_depth = expect.Name(depth)
    h.quant.base_q_idx = 60
    h.lf.level, h.lf.delta_enabled, h.lf.ref_deltas = level, deltas, [1, 0, -1, -1]
    h.seg.enabled = bool(features)
    h.seg.feature_enabled = [[i < segments and f in features for f in range(4)] for i in range(8)]
    h.seg.feature_data = [[-20, 3, 1, 0] for _ in range(8)]
    return h


HEADERS = (
    ("level 0, as K", header(0, True, ())),
    ("level 10, deltas", header(10, True, ())),
    ("level 10, no deltas", header(10, False, ())),
    ("level 10, deltas, depth 10", header(10, True, (), "Depth10")),
    ("level 10, deltas, depth 12", header(10, True, (), "Depth12")),
    ("level 10, deltas, quantizer feature in all segments", header(10, True, (0,))),
    ("level 10, deltas, level feature in two segments", header(10, True, (1,), segments=2)),
    ("level 10, deltas, level feature in all segments", header(10, True, (1,))),
    ("level 10, deltas, all features in all segments", header(10, True, (0, 1, 2, 3))),
    ("level 10, no deltas, all features in all segments", header(10, False, (0, 1, 2, 3))),
    ("level 0, all features in all segments", header(0, True, (0, 1, 2, 3))),
)


def cases(h, steps, more):
    """A header given 1 + more times, with a step the first 1 + steps times. A second step with the same header changes no record, so that
    any number of steps prints the same."""
    case = header_bytes(h)
    return (STEP + case) * (1 + steps) + (STAY + case) * (more - steps)
