#!/usr/bin/env python3
"""Compares a reader's answers with ffmpeg's kept traces, field by field.

usage: compare.py [--judge PROGRAM] [--listing PROGRAM] [--brief] [NAME ...]

  --judge PROGRAM    the Rust, called as `PROGRAM --ivf FILE`
                     (default target/judge/judge, built by tests/judge/build)
  --listing PROGRAM  a reader with the long listing instead, called as
                     `PROGRAM --trace FILE`; it gets no leave for what the Rust does wrong
  --brief            count explained differences, don't list them

What each field should be is worked out from ffmpeg's elements alone. Exit 1 on a
difference that no rule below explains."""
import glob
import os
import re
import subprocess
import sys

sys.dont_write_bytecode = True
from answers import read_judge, read_listing
from expected import Memory, expected_header, expected_state, summary
from traces import read_trace

HERE = os.path.dirname(os.path.abspath(__file__))
JUDGE = os.path.join(HERE, "../../target/judge/judge")

# Why a reader may differ from ffmpeg; more reasons stand in expected.py.
BIAS_CLEARED = "sign biases are cleared in error-resilient frames, kept from the source"
EMPTY_SLOT = "ffmpeg takes the colour of an empty slot; the reader keeps the last one"


def leaves(value, path=""):
    if isinstance(value, dict):
        for name, part in value.items():
            yield from leaves(part, f"{path}.{name}" if path else name)
    elif isinstance(value, list):
        for i, part in enumerate(value):
            yield from leaves(part, f"{path}[{i}]")
    else:
        yield path, value


class Tally:
    def __init__(self, rust):
        self.rust = rust
        self.recordings = self.packets = self.frames = self.fields = 0
        self.explained = {}
        self.lines = []
        self.unexplained = []

    def differ(self, where, path, ffmpeg, reader, reason):
        line = f"{where} {path}: ffmpeg {ffmpeg}, reader {reader}"
        if reason is None:
            self.unexplained.append(line)
            return
        self.explained[reason] = self.explained.get(reason, 0) + 1
        self.lines.append(f"{line} ({reason})")

    def check(self, where, path, ffmpeg, reader, reason=None):
        self.fields += 1
        if ffmpeg != reader or type(ffmpeg) is not type(reader):
            self.differ(where, path, ffmpeg, reader, reason)


FEATURE = re.compile(r"seg\.feature_data\[(\d)\]\[(\d)\]$")


def reason_for(path, reader, memory, frame, rust):
    """The rule that foretells this very value, if there is one."""
    feature = FEATURE.search(path)
    if feature and rust:
        i, j = int(feature[1]), int(feature[2])
        return memory.why[i][j] if reader == memory.rust_data[i][j] else None
    cleared = path.startswith("ref_frame_sign_bias") and reader == 0
    if cleared and frame and frame.get("error_resilient_mode"):
        return BIAS_CLEARED
    return None


def check_record(tally, where, expected, record, memory, frame, all_fields):
    """Every field of `expected`; `record` may hold no other if all_fields."""
    found = dict(leaves(record))
    wanted = dict(leaves(expected))
    for path, value in wanted.items():
        reader = found.get(path)
        tally.check(where, path, value, reader,
                    reason_for(path, reader, memory, frame, tally.rust))
    if all_fields:
        for path in found.keys() - wanted.keys():
            tally.differ(where, path, None, found[path], None)


def check_sum(tally, where, ffmpeg, reader):
    # ffmpeg says 0x0 and depth 0 only of a slot that no frame has filled.
    empty = (0, 0, 0, 0, 0)
    same = reader[:2] == (0, 0) and ffmpeg[5:] == reader[5:]
    tally.check(where, "sum", ffmpeg, reader, EMPTY_SLOT if ffmpeg[:5] == empty and same else None)


def check_frame(tally, where, frame, place, answer, memory):
    tally.frames += 1
    tally.check(where, "offset", place[0], answer[0])
    tally.check(where, "size", place[1], answer[1])
    expected = expected_header(frame, memory)
    check_record(tally, where, expected, answer[2], memory, frame, True)
    if frame.sum:
        check_sum(tally, where, frame.sum, summary(answer[2]))


def check_packet(tally, where, packet, chunk, length, memory):
    tally.packets += 1
    tally.check(where, "record length", packet.size, length)
    tally.check(where, "refusal", None, chunk.refusal)
    tally.check(where, "frames", len(packet.places()), len(chunk.frames))
    tally.check(where, "frames in trace", len(packet.frames), len(packet.places()))
    parts = zip(packet.frames, packet.places(), chunk.frames)
    for j, (frame, place, answer) in enumerate(parts):
        check_frame(tally, f"{where} frame {j}", frame, place, answer, memory)
    if chunk.state:
        check_record(tally, where + " state", expected_state(memory), chunk.state, memory, None, False)


def record_lengths(path):
    data, place, lengths = open(path, "rb").read(), 32, []
    while place < len(data):
        lengths.append(int.from_bytes(data[place:place + 4], "little"))
        place += 12 + lengths[-1]
    return lengths


def check_recording(tally, path, chunks):
    name = os.path.basename(path)[:-4]
    packets, lengths = read_trace(path[:-4] + ".trace"), record_lengths(path)
    tally.recordings += 1
    tally.check(name, "records", len(lengths), len(packets))
    tally.check(name, "chunks", len(packets), len(chunks))
    memory = Memory()
    for i, (packet, chunk, length) in enumerate(zip(packets, chunks, lengths)):
        check_packet(tally, f"{name} packet {i}", packet, chunk, length, memory)


def answers(program, option, path):
    command = [program, option, path]
    return subprocess.run(command, stdout=subprocess.PIPE, text=True, check=True).stdout


def report(tally, brief):
    for line in [] if brief else tally.lines:
        print("explained:", line)
    for reason, count in tally.explained.items():
        print(f"{count} explained: {reason}")
    for line in tally.unexplained:
        print("UNEXPLAINED:", line)
    print(f"{tally.recordings} recordings, {tally.packets} packets, {tally.frames} frames,"
          f" {tally.fields} fields compared, {len(tally.lines)} explained differences,"
          f" {len(tally.unexplained)} unexplained")
    return 1 if tally.unexplained or not tally.recordings else 0


def take_option(args, name, default=None):
    if name not in args:
        return default
    at = args.index(name)
    value = args[at + 1]
    del args[at:at + 2]
    return value


def main(args):
    listing = take_option(args, "--listing")
    judge = take_option(args, "--judge", JUDGE)
    brief = "--brief" in args
    names = [x for x in args if x != "--brief"]
    paths = [os.path.join(HERE, x + ".ivf") for x in names] or sorted(glob.glob(HERE + "/*.ivf"))
    tally = Tally(rust=listing is None)
    for path in paths:
        if listing:
            chunks = read_listing(answers(listing, "--trace", path))
        else:
            chunks = read_judge(answers(judge, "--ivf", path))
        check_recording(tally, path, chunks)
    return report(tally, brief)


if __name__ == "__main__":
    sys.exit(main(sys.argv[1:]))
