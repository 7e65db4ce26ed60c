"""The inputs of the comparison: series of chunks, each from a fresh state, and chunks bent or cut."""

import glob
import os
import random

ROOT = os.path.abspath(os.path.join(os.path.dirname(os.path.abspath(__file__)), "..", ".."))
RECORDINGS = os.path.join(ROOT, "tests", "recordings")

# docs/RULES.md's example chunks, each with the chunks before it.
K = bytes.fromhex("824983422003F003F40007800005")
I = bytes.fromhex("8600400260003C000028")
F = K + bytes.fromhex("88C10E01C1")
EXAMPLES = [("K", [], K), ("I after K", [K], I), ("I", [], I), ("F", [], F)] + [
    (text, [], bytes.fromhex(text)) for text in ("C1", "C0 01 C0", "C0 00 C0", "00 00 C0")]

# A dozen chunks of real encoders, small and unlike: the recording and the chunk's number.
REAL = [
    ("1x1", 0),               # key
    ("wide-449", 0),          # key, tiles
    ("intra-first", 0),       # intra-only, then two inter frames, segmentation on
    ("17x33", 1),             # inter
    ("tiles-2x2", 1),         # inter, tiles
    ("resilient-altref", 2),  # error resilient
    ("aq-variance", 1),       # superframe with a hidden frame, segmentation on
    ("aq-variance", 2),       # segmentation on, nothing updated
    ("aq-cyclic", 3),         # segmentation with map and data
    ("p1-pyramid", 2),        # show-existing, profile 1
    ("p2-420-10", 2),         # profile 2
    ("p3-pyramid", 3),        # profile 3
    ("pyramid", 5),           # superframe with a hidden frame
]

# Of a long chunk only so many bytes of each frame are bent, and only so many cuts at either end are made.
BENT_BYTES = 60
ALL_CUTS = 500
CUTS = (100, 20)


def ivf_chunks(path):
    with open(path, "rb") as file:
        data = file.read()
    at, chunks = int.from_bytes(data[6:8], "little"), []
    while at < len(data):
        size = int.from_bytes(data[at:at + 4], "little")
        chunks.append(data[at + 12:at + 12 + size])
        at += 12 + size
    return chunks


def recording_paths():
    return sorted(glob.glob(os.path.join(RECORDINGS, "*.ivf")))


def recordings():
    """Names and chunks of all recordings."""
    return [(os.path.basename(path), ivf_chunks(path)) for path in recording_paths()]


def real_chunks():
    """Name, chunks before and chunk of each of REAL."""
    for name, number in REAL:
        chunks = ivf_chunks(os.path.join(RECORDINGS, name + ".ivf"))
        yield f"{name}.ivf chunk {number}", chunks[:number], chunks[number]


def hand_made():
    """The series of tests/handmade."""
    all_series = []
    with open(os.path.join(ROOT, "tests", "handmade", "series.hex")) as file:
        for line in file:
            line = line.strip()
            if line == "fresh":
                all_series.append([])
            elif not line.startswith("#"):
                all_series[-1].append(bytes.fromhex(line))
    return all_series


def bent(chunk, dice):
    """The chunk with one to three of its first bits turned over."""
    data = bytearray(chunk)
    for _ in range(dice.randint(1, 3) if data else 0):
        place = dice.randrange(min(len(data), 24) * 8)
        data[place // 8] ^= 128 >> place % 8
    return bytes(data)


def bent_series(all_series, copies):
    """Copies of the series, each chunk bent. The same run bends the same bits."""
    dice = random.Random(9)
    return [[bent(chunk, dice) for chunk in chunks] for _ in range(copies) for chunks in all_series]


def cuts(chunk):
    """The chunk cut short, to every length or, of a long one, at both ends."""
    lengths = range(len(chunk))
    if len(chunk) > ALL_CUTS:
        lengths = [*lengths[:CUTS[0]], *lengths[-CUTS[1]:]]
    for length in lengths:
        yield f"cut to {length}", chunk[:length]


def flips(chunk, places):
    """The chunk with one bit turned over: every bit of the first bytes of each frame and of
    what stands behind the last frame. `places` are the frames' offsets and sizes."""
    end = max((at + size for at, size in places), default=0)
    bytes_bent = set(range(end, len(chunk)))
    for at, size in places or [(0, len(chunk))]:
        bytes_bent.update(range(at, at + min(size, BENT_BYTES)))
    for place in sorted(bytes_bent):
        for bit in range(8):
            data = bytearray(chunk)
            data[place] ^= 128 >> bit
            yield f"byte {place} bit {bit}", bytes(data)


def lent(frame, dice):
    """A chunk that has the frame between other bytes, and where it starts."""
    before, behind = (bytes(dice.choices(range(256), k=dice.randrange(20))) for _ in range(2))
    return before + frame + behind, len(before)


def frame_places(chunk, at, size, dice):
    """Offsets and sizes by which a frame is asked for: one that ends past the chunk, one that starts past it, and the frame cut short."""
    far = 2 ** 64 - 1
    yield at, dice.choice((len(chunk) - at + 1, far - at, far))
    yield dice.choice((len(chunk) + 1, far)), dice.choice((0, 1, far))
    yield at, dice.randrange(min(size, 24) or 1)


def short_chunks():
    """All chunks of one and of two bytes."""
    for length in (1, 2):
        for number in range(256 ** length):
            data = number.to_bytes(length, "big")
            yield data.hex().upper(), data
