"""The chunks of the benchmark, and the records that put them to the programs (tests/reader/DIGEST.md)."""

import os
import struct
import sys

from machine import ROOT

sys.path.insert(0, os.path.join(ROOT, "tests", "handmade"))

import expect
from inputs import F, I, K, recordings
from program import FRESH, record

# docs/RULES.md's example chunks: the name, the chunks before and the chunk.
EXAMPLES = (("K", [], K), ("I after K", [K], I), ("F", [], F), ("K cut to 13 bytes", [], K[:13]))

PARSES, STEPS = b"\4", b"\5"


def counted(what, n, chunk):
    """The chunk parsed n times, or n segment steps on its first header. Nothing of it is kept."""
    return what + struct.pack("<I", n) + record(chunk)[1:]


def after(before, put):
    """The records `put`, after the chunks before."""
    return FRESH + b"".join(map(record, before)) + put


def each(what, n, chunks):
    """Each chunk of a series, counted under the state that the chunks before it leave."""
    return FRESH + b"".join(counted(what, n, chunk) + record(chunk) for chunk in chunks)


# Refused chunks, made of the recordings' own.

def announces_index(chunk):
    return chunk[-1] >> 5 == 6


def without_marker(frame, header):
    return bytes([frame[0] ^ 0x80]) + frame[1:]


def without_sync(frame, header):
    """Only a key frame's is sure to stand in bytes 1 to 3."""
    if header.show_existing_frame or header.frame_type != "KeyFrame" or header.profile == "Profile3":
        return b""
    return frame[:2] + bytes([frame[2] ^ 0x10]) + frame[3:]


def without_end(frame, header):
    """Cut within its header's last byte. A show-existing frame says no length."""
    return frame[:max(header.uncompressed_header_size_in_bytes - 1, 0)]


SPOILT = ((4, "marker turned", without_marker), (5, "sync code turned, key frames", without_sync),
          (6, "cut before the header's last byte", without_end))


def spoilt(chunks, number, spoil):
    """Pairs of a chunk and its first frame spoilt, so that it is refused with the number. The chunk is b"" where that can't be."""
    state = expect.State()
    for chunk in chunks:
        frames, after_it = expect.read_chunk(chunk, state)
        first = frames[0]
        bad = spoil(chunk[first.at:first.at + first.size], first.record)
        yield chunk, bad if bad and not announces_index(bad) and refusal(bad, state) == number else b""
        state = after_it


def refusal(chunk, state):
    try:
        expect.read_chunk(chunk, state)
    except expect.Refused as refused:
        return refused.number
    return 0


def refused(n, pairs):
    """Each spoilt chunk, counted in the state before the chunk that it was made of."""
    return FRESH + b"".join((counted(PARSES, n, bad) if bad else b"") + record(chunk) for chunk, bad in pairs)
