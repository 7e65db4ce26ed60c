#!/usr/bin/env python3
"""Compares the calls that no other program makes with the Rust and with docs/RULES.md: the enums' try_from, choose_picture, read_record
and RecordReader.

Usage: compare.py [--program PROGRAM] [--records RECORDS] [--judge JUDGE] [--write DIR]

PROGRAM is the proved program test_calls (default crates/test_calls/out/test_calls, made by `rt run` there);
crates/test_calls/src/main.rt says what it reads. RECORDS is the program test_records.rt.txt beside this file (default
target/programs/test_records, made by `tests/programs/build test_records`). JUDGE is our driver over the Rust (tests/judge), which has
try_from and the records of an IVF file; without it those are held to docs/RULES.md alone. The same run makes the same calls.
--write DIR makes crates/test_calls' stdin and stdout, a few of the calls with docs/RULES.md's answers.

Exit 0 if all agrees, 1 on a difference."""

import argparse
import os
import random
import struct
import subprocess
import sys

sys.dont_write_bytecode = True

ROOT = os.path.abspath(os.path.join(os.path.dirname(os.path.abspath(__file__)), "..", ".."))
sys.path.insert(0, os.path.join(ROOT, "tests", "reader"))

import inputs
import program

# The program's buffer, and that of test_records.
LONGEST = 65536
LONGEST_FILE = 262144
LARGE = (2 ** 31, 2 ** 63, 2 ** 64 - 1)


class Call:
    """What the program is asked, and docs/RULES.md's answer."""

    def __init__(self, asked, answer):
        self.asked, self.answer = asked, answer

    def record(self):
        return struct.pack("<I", len(self.asked)) + self.asked


# The enums: interpolation filter, reference, frame type, profile, depth, colour space, colour range.
VARIANTS = [range(5), range(4), range(2), range(4), (8, 10, 12), range(8), range(2)]
NUMBERS = [*range(300), 2 ** 16, 2 ** 31, 2 ** 32 - 1]


def number_call(n):
    # A frame type's number is a byte.
    tried = [n % 256 if i == 2 else n for i in range(len(VARIANTS))]
    words = [str(m) if m in variants else "-" for m, variants in zip(tried, VARIANTS)]
    return Call(struct.pack("<BQ", 0, n), " ".join(words).encode())


def choice_call(new, last_good, yes, offset, size):
    chunk = new if yes else last_good
    part = chunk[offset:offset + size] if offset + size <= len(chunk) else b""
    return Call(struct.pack("<BBQQQ", 1, yes, offset, size, len(new)) + new + last_good, b"%d %s" % (len(part), part))


def choices(dice):
    """Every place in and around two short chunks, some in longer ones, and places that no sum of 64 bits holds."""
    new, last_good = b"abcd", b"uvw"
    near = [*range(6), *LARGE]
    for yes in (True, False):
        yield from (choice_call(new, last_good, yes, offset, size) for offset in near for size in near)
        yield from (choice_call(b"", b"", yes, offset, 0) for offset in (0, 1))
    for _ in range(500):
        new, last_good = (bytes(dice.choices(range(97, 123), k=dice.randrange(200))) for _ in range(2))
        yield choice_call(new, last_good, dice.random() < 0.5, dice.randrange(210), dice.randrange(210))


def record_call(file, place):
    return Call(struct.pack("<BQ", 2, place) + file, record_answer(file, place))


def record_answer(file, place):
    left = len(file) - place
    if left == 0:
        return b"end"
    if left < 12:
        return b"cut"
    length, time = struct.unpack_from("<IQ", file, place)
    if left - 12 < length:
        return b"cut"
    return b"%d %d %d %d" % (length, time, place + 12, place + 12 + length)


def answers(file):
    """What a RecordReader answers: each record of a file, and its end or the cut record, twice."""
    place, lines = 32, []
    while True:
        answer = record_answer(file, place)
        if answer in (b"end", b"cut"):
            return [*lines, b"%s %s" % (answer, answer)]
        lines.append(answer)
        place = int(answer.split()[3])


def whole_files(recordings):
    """The recordings, each less the last 1 to 14 bytes; two small files cut everywhere; a length that passes every end."""
    for file in recordings:
        yield from (file[:len(file) - n] for n in range(15))
    for file in (small_file(), min(recordings, key=len)):
        yield from (file[:n] for n in range(len(file)))
    yield bytes(32) + b"\xff" * 4 + bytes(8)


def rust_answer(file, lines):
    """What the Rust prints where docs/RULES.md has these lines: it ends on no or on 1 to 3 bytes, and panics on other cut records."""
    places = [b" ".join(line.split()[2:]) for line in lines[:-1]]
    left = len(file) - (int(places[-1].split()[1]) if places else 32)
    return [*places, b"end" if left < 4 else b"panic"]


def reader_differences(files, words, judge, show=3):
    """Where a RecordReader's answers aren't docs/RULES.md's, and where the Rust's aren't those expected."""
    wanted = [answers(file) for file in files]
    got = run(words, b"".join(struct.pack("<I", len(file)) + file for file in files)).split(b"\n")[:-1]
    want = [b" " + line for lines in wanted for line in lines]
    wrong = [(a, b) for a, b in zip(got, want) if a != b] + [(b"", b"")] * abs(len(got) - len(want))
    for a, b in wrong[:show]:
        print(f"RecordReader:{a.decode()}, docs/RULES.md{b.decode()}")
    differing = [file for file, lines in zip(files, wanted)
                 if judge and run([judge, "--packets"], file).splitlines() != rust_answer(file, lines)]
    for file in differing[:show]:
        print(f"the Rust's iterator on a file of {len(file)} bytes, {file[32:64].hex()}")
    return len(wrong) + len(differing)


def records(file):
    """A call at each record of a file, and at its end."""
    place = 32
    while place < len(file):
        call = record_call(file, place)
        yield call
        if call.answer == b"cut":
            return
        place = int(call.answer.split()[3])
    yield record_call(file, place)


def small_file():
    return bytes(32) + struct.pack("<IQ", 3, 7) + b"abc" + struct.pack("<IQ", 0, 2 ** 64 - 1)


def damaged():
    """A small file cut everywhere, at every place in and around it; lengths that pass its end; places far past it."""
    file = small_file()
    for length in range(32, len(file) + 1):
        yield from (record_call(file[:length], place) for place in range(30, len(file) + 3))
    for length in (1, 2 ** 31, 2 ** 32 - 1):
        yield record_call(bytes(32) + struct.pack("<IQ", length, 0), 32)
    yield from (record_call(file, place) for place in LARGE)


def run(words, data):
    return subprocess.run(words, input=data, stdout=subprocess.PIPE, check=True).stdout


def differences(name, calls, program_words, show=3):
    got = program.answer(program_words, b"".join(call.record() for call in calls)).split(b"\n")[:-1]
    assert len(got) == len(calls), f"{name}: {len(calls)} calls, {len(got)} lines"
    wrong = [(call, line) for call, line in zip(calls, got) if line != b" " + call.answer]
    for call, line in wrong[:show]:
        print(f"{name}: asked {call.asked[:64].hex()}: program{line.decode()}, docs/RULES.md {call.answer.decode()}")
    return len(wrong)


def rust_differences(judge, numbers, files):
    """Where docs/RULES.md's answers, which the program's are held to, aren't the Rust's."""
    words = run([judge, "--numbers"], "".join(f"{n}\n" for n in NUMBERS).encode()).splitlines()
    wrong = sum(call.answer != line for call, line in zip(numbers, words, strict=True))
    for file, calls in files:
        places = [b" ".join(call.answer.split()[2:]) for call in calls[:-1]]
        wrong += run([judge, "--packets"], file).splitlines() != [*places, b"end"]
    return wrong


def write_example(folder):
    calls = [number_call(n) for n in (0, 3, 8, 12)] + [
        choice_call(b"abcd", b"uvw", True, 1, 2), choice_call(b"abcd", b"uvw", False, 0, 3), choice_call(b"abcd", b"uvw", False, 2, 2),
        *records(small_file()), record_call(small_file()[:-1], 47), record_call(small_file(), 2 ** 64 - 1)]
    with open(os.path.join(folder, "stdin"), "wb") as file:
        file.write(b"".join(call.record() for call in calls))
    with open(os.path.join(folder, "stdout"), "wb") as file:
        file.write(b"".join(b" " + call.answer + b"\n" for call in calls))


def main():
    options = argparse.ArgumentParser(description=__doc__, formatter_class=argparse.RawDescriptionHelpFormatter)
    options.add_argument("--program", default=program.built("test_calls"))
    options.add_argument("--records", default=os.path.join(ROOT, "target", "programs", "test_records"))
    options.add_argument("--judge")
    options.add_argument("--write")
    given = options.parse_args()
    if given.write:
        write_example(given.write)
        return 0
    words = program.command(given.program, program.kit_tools())

    numbers = [number_call(n) for n in NUMBERS]
    recordings = []
    for path in inputs.recording_paths():
        with open(path, "rb") as file:
            recordings.append(file.read())
    files = [(data, list(records(data))) for data in recordings if len(data) + 9 <= LONGEST]
    read = [call for _, calls in files for call in calls]
    groups = {"try_from": numbers, "choose_picture": list(choices(random.Random(7))), "read_record": read + list(damaged())}
    wrong = sum(differences(name, calls, words) for name, calls in groups.items())
    held = "docs/RULES.md"
    if given.judge:
        wrong += rust_differences(given.judge, numbers, files)
        held = f"docs/RULES.md, try_from and the records of {len(files)} whole files and of those of RecordReader with the Rust too"
    counts = ", ".join(f"{len(calls)} of {name}" for name, calls in groups.items())
    if os.path.exists(given.records):
        read = [file for file in whole_files(recordings) if len(file) <= LONGEST_FILE]
        wrong += reader_differences(read, program.command(given.records, program.kit_tools()), given.judge)
        counts += f", {len(read)} whole files by RecordReader"
    else:
        print(f"skipped: no {given.records}, so RecordReader is not run")
    print(f"calls: {counts}; compared with {held}: {wrong} differences")
    return 1 if wrong else 0


sys.exit(main())
