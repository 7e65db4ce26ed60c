#!/usr/bin/env python3
"""Compares the listing program with a model of docs/RULES.md, the Rust and ffmpeg.

usage: compare.py [--judge JUDGE]

Runs crates/tool_list/out/tool_list (made by `rt run` in crates/tool_list) on docs/RULES.md's example, on every recording of
tests/recordings and on damaged files, and compares its lines with the model below, which is written
from docs/RULES.md over tests/handmade/expect.py. The recordings are also held to ffmpeg's kept traces.
Then bin/list: its statuses and its help. With --judge the recordings are held to the Rust, and nothing else is run.

Exit 0 if all agrees, 1 on a difference."""

import argparse
import glob
import itertools
import os
import random
import subprocess
import sys

sys.dont_write_bytecode = True
HERE = os.path.dirname(os.path.abspath(__file__))
ROOT = os.path.abspath(os.path.join(HERE, "..", ".."))
sys.path += [os.path.join(HERE, "..", "handmade"), os.path.join(HERE, "..", "recordings"), os.path.join(HERE, "..", "reader")]

import expect
import inputs
import program
from traces import read_trace

COLUMNS = "chunk frame kind at size width height refresh hdr"
LONGEST = 65536
K = bytes.fromhex("824983422003F003F40007800005")
I = bytes.fromhex("860040026000 3C000028")
SHOW = b"\x88"
F = K + SHOW + bytes.fromhex("C10E01C1")
# docs/RULES.md, "IVF, picture choice, listing": superframe F, then a record of length 0.
EXAMPLE = """chunk frame kind at size width height refresh hdr
0 0 key 0 14 64 64 255 14
0 1 show 14 1 0 0 0 0
1 refused 1 frame 0
2 chunks 1 refused
"""


# docs/RULES.md's listing, as a model.

def le(data, at, n):
    return int.from_bytes(data[at:at + n], "little")


def is_ivf(data):
    return len(data) >= 32 and data[:4] == b"DKIF" and le(data, 6, 2) == 32 and data[8:12] == b"VP90"


def kind(header):
    if header.show_existing_frame:
        return "show"
    if header.frame_type == "KeyFrame":
        return "key"
    return "intra" if header.intra_only else "inter"


def chunk_lines(number, chunk, state):
    """The lines of a chunk, and the state after it."""
    try:
        if len(chunk) > LONGEST:
            raise expect.Refused(9)
        frames, after = expect.read_chunk(chunk, state)
    except expect.Refused as refusal:
        return [f"{number} refused {refusal.number} frame {refusal.frame}"], state
    lines = []
    for i, frame in enumerate(frames):
        h = frame.record
        lines.append(f"{number} {i} {kind(h)} {frame.at} {frame.size} {h.width} {h.height} "
                     f"{h.refresh_frame_flags} {h.uncompressed_header_size_in_bytes}")
    return lines, after


def model(data):
    if not is_ivf(data):
        return "file refused 7\n"
    lines, state, at, chunks, refused = [COLUMNS], expect.State(), 32, 0, 0
    while at < len(data):
        end = at + 12 + le(data, at, 4)
        if at + 12 > len(data) or end > len(data):
            lines.append("file refused 8")
            break
        more, state = chunk_lines(chunks, data[at + 12:end], state)
        lines += more
        refused += " refused " in more[0]
        chunks += 1
        at = end
    return "\n".join(lines + [f"{chunks} chunks {refused} refused"]) + "\n"


# Files.

def file_header(**other):
    fields = dict(mark=b"DKIF", version=0, size=32, codec=b"VP90")
    fields.update(other)
    return (fields["mark"] + fields["version"].to_bytes(2, "little") + fields["size"].to_bytes(2, "little")
            + fields["codec"] + bytes([64, 0, 64, 0]) + bytes(16))


def record(data, length=None):
    return (len(data) if length is None else length).to_bytes(4, "little") + bytes(8) + data


def ivf(*chunks):
    return file_header() + b"".join(map(record, chunks))


def padded(n):
    """K with bytes after it that no header reads."""
    return K + bytes(n - len(K))


def damaged_files():
    small = ivf(K, F, I, b"", SHOW, b"\xC1", I)
    yield from ((f"cut at {n}", small[:n]) for n in range(len(small) + 1))
    yield "lengths at the limit", ivf(K, b"", padded(65535), padded(65536), padded(65537), I)
    for n in (65537, 65548, 262144, 262145, 300000, 1000000):
        whole = ivf(K, padded(n), I)
        yield f"a record of {n}", whole
        for cut in (1, 10, 12, 22, 23, 50, n // 2):
            yield f"a record of {n}, the file {cut} bytes shorter", whole[:-cut]
        yield f"a record of {n} last", whole[:-22]
    for n in (1, 100, 65536, 65537, 2 ** 31, 2 ** 32 - 1, 2 ** 32 - 12):
        yield f"a length of {n} past the end", ivf(K) + record(I, max(n, len(I) + 1))
        yield f"a length of {n} with no data", ivf(K, F) + record(b"", n)
    for name, other in (("mark", dict(mark=b"DKIG")), ("size", dict(size=31)), ("size high", dict(size=32 + 256)),
                        ("codec", dict(codec=b"VP80")), ("codec last", dict(codec=b"VP91")),
                        ("mark low", dict(mark=b"dkif"))):
        yield f"a bad header, {name}", file_header(**other) + record(K)
    yield "another version", file_header(version=7) + record(K)
    for n in range(1, 12):
        yield f"{n} trailing bytes", ivf(K, I) + b"\xff" * n
    yield "trailing zeros", ivf(K, I) + bytes(12)
    yield "no bytes", b""
    yield "zeros", bytes(100)


def long_files():
    """Files that pass the ends of the buffers, in and out."""
    chance = random.Random(1)
    yield "many lines", ivf(K, *[SHOW] * 20000)
    yield "many refusals", ivf(*[b""] * 20000)
    sizes = [chance.choice([0, 1, 10, 14, 100, 5000, 60000, 65536, 65537, 70000]) for _ in range(300)]
    yield "records of every size", ivf(*[padded(n) if n >= 14 else I[:n] for n in sizes])
    for extra in range(-14, 3):
        yield f"a record at the buffer's end {extra}", ivf(padded(65000), padded(65000), padded(65000),
                                                             padded(262144 - 32 - 4 * 12 - 195000 + extra), I, K)
    series = [K, I, F, SHOW, I[:5], b"\xC1", K[:13], b"\x00", padded(65536)]
    yield "a long series", ivf(*[chance.choice(series) for _ in range(5000)])


# The program.

def command(name="tool_list"):
    return program.command(program.built(name), program.kit_tools())


def printed(words, data):
    """What a program prints of a file. It says last whether the file is refused."""
    done = subprocess.run(words, input=data, capture_output=True, check=True)
    program.hold_status(done, 1 if b"file refused " in done.stdout else 0)
    return done.stdout.decode()


def listing(data):
    return printed(command(), data)


def trace(data):
    """The long form."""
    return printed(command("tool_trace"), data)


class Tally:
    def __init__(self):
        self.files = self.lines = 0
        self.wrong = []

    def same(self, name, want, got):
        self.files += 1
        self.lines += want.count("\n")
        if want == got:
            return
        pairs = zip(want.split("\n") + [""], got.split("\n") + [""])
        where = next(((i, a, b) for i, (a, b) in enumerate(pairs) if a != b), (0, "", ""))
        self.wrong.append(f"{name}: line {where[0]}: want {where[1]!r}, got {where[2]!r}")

    def report(self, what):
        print(f"{what}: {self.files} files, {self.lines} lines, {len(self.wrong)} differences")
        for line in self.wrong[:10]:
            print("  " + line)
        return not self.wrong


def compare(what, files):
    tally = Tally()
    for name, data in files:
        tally.same(name, model(data), listing(data))
    return tally.report(what)


def example():
    tally = Tally()
    tally.same("the example", EXAMPLE, listing(ivf(F, b"")))
    tally.same("the model's example", EXAMPLE, model(ivf(F, b"")))
    return tally.report("docs/RULES.md's example")


# The recordings.

def recordings():
    return sorted(glob.glob(os.path.join(HERE, "..", "recordings", "*.ivf")))


def read(path):
    with open(path, "rb") as file:
        return file.read()


def judge_lines(judge, path):
    """The Rust's listing without the records. It has no refusal numbers."""
    out = subprocess.run([judge, "--trace", path], capture_output=True, check=True).stdout.decode()
    return [line for line in out.split("\n") if line[:1].isdigit() or line.startswith(("chunk ", "file "))]


def with_judge(judge):
    tally = Tally()
    for path in recordings():
        lines = listing(read(path)).split("\n")[:-1]
        tally.same(os.path.basename(path), "\n".join(judge_lines(judge, path)) + "\n", "\n".join(lines) + "\n")
    return tally.report("recordings with the Rust")


def in_domain(path):
    """Whether the Rust is a judge of every record."""
    state = expect.State()
    for chunk in inputs.ivf_chunks(path):
        frames, state = expect.read_chunk(chunk, state)
        if expect.outside_frames(frames):
            return False
    return True


def traces_with_judge(judge):
    tally = Tally()
    for path in filter(in_domain, recordings()):
        rust = subprocess.run([judge, "--trace", path], capture_output=True, check=True).stdout.decode()
        tally.same(os.path.basename(path), rust, trace(read(path)))
    return tally.report("recordings in the long form with the Rust, byte for byte")


def traces(files):
    """Without its records the long form is the listing."""
    tally = Tally()
    for name, data in files:
        tally.same(name, listing(data), "".join(line for line in trace(data).splitlines(True) if not line.startswith("  ")))
    return tally.report("the long form without its records")


def is_key(frame):
    return not frame.get("show_existing_frame") and frame.get("frame_type") == 0


def trace_lines(path):
    """Of each frame: chunk, frame, at, size, and key or not."""
    for number, packet in enumerate(read_trace(path)):
        for i, (frame, (at, size)) in enumerate(zip(packet.frames, packet.places())):
            yield f"{number} {i} {at} {size} {'key' if is_key(frame) else 'other'}"


def brief(line):
    words = line.split()
    return " ".join(words[:2] + words[3:5] + ["key" if words[2] == "key" else "other"])


def with_ffmpeg():
    tally = Tally()
    for path in recordings():
        lines = listing(read(path)).split("\n")[1:-2]
        want = "\n".join(trace_lines(path[:-4] + ".trace")) + "\n"
        tally.same(os.path.basename(path), want, "\n".join(map(brief, lines)) + "\n")
    return tally.report("recordings with ffmpeg")


# Memory, and bin/list.

def peak(data):
    """The program's largest memory in kB, once it has read this and waits."""
    running = subprocess.Popen(command(), stdin=subprocess.PIPE, stdout=subprocess.DEVNULL,
                               stderr=subprocess.DEVNULL)
    running.stdin.write(data)
    running.stdin.flush()
    with open(f"/proc/{running.pid}/status") as file:
        most = next(int(line.split()[1]) for line in file if line.startswith("VmHWM"))
    running.stdin.close()
    running.wait()
    return most


def memory():
    small, large = peak(ivf(*[padded(60000)] * 20)), peak(ivf(*[padded(60000)] * 1000))
    print(f"memory: {small} kB for 1.2 MB, {large} kB for 60 MB, the C library included")
    return large - small < 100


def status(words, data=b"", out=subprocess.PIPE):
    run = subprocess.run([os.path.join(ROOT, "bin", "list")] + words, input=data, stdout=out,
                         stderr=subprocess.DEVNULL)
    return run.returncode, (run.stdout or b"").decode()


def with_bin():
    good, cut = ivf(F, b""), ivf(F, b"")[:-1]
    path = recordings()[0]
    runs = [("a good file", (0, EXAMPLE), status([], good)), ("a cut file", (1, model(cut)), status([], cut)),
            ("no file", (1, model(b"")), status([], b"")), ("a name", (0, model(read(path))), status([path])),
            ("no such file", (2, ""), status([path + "x"])), ("an option", (2, ""), status(["--what"])),
            ("the long form", (0, trace(read(path))), status(["--trace", path])),
            ("help", (0, "usage: bin/list"), (lambda s: (s[0], s[1][:15]))(status(["--help"])))]
    with open("/dev/full", "wb") as full:
        runs.append(("a full device", True, status([], good, full)[0] > 1))
    wrong = [f"{name}: want {want!r}, got {got!r}" for name, want, got in runs if want != got]
    print(f"bin/list: {len(runs)} runs, {len(wrong)} differences")
    print("".join(f"  {line}\n" for line in wrong), end="")
    return not wrong


def main():
    parser = argparse.ArgumentParser()
    parser.add_argument("--judge")
    options = parser.parse_args()
    if options.judge:
        right = [with_judge(options.judge), traces_with_judge(options.judge)]
    else:
        right = [example(), compare("damaged files", damaged_files()), compare("long files", long_files()),
                 compare("recordings", ((os.path.basename(p), read(p)) for p in recordings())), with_ffmpeg(),
                 traces(itertools.chain([("example", ivf(F, b""))], damaged_files(), long_files())), memory(), with_bin()]
    sys.exit(0 if all(right) else 1)


if __name__ == "__main__":
    main()
