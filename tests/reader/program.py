"""Runs one of the programs, as `rt` does."""

import os
import shutil
import struct
import subprocess

ROOT = os.path.abspath(os.path.join(os.path.dirname(os.path.abspath(__file__)), "..", ".."))
# A longer chunk ends the program.
LONGEST = 65536
FRESH = b"\0"


def built(name):
    """The path of a program: in the folder that VP9_READER_PROGRAMS names, or where `rt run` puts the proved one."""
    return os.path.join(os.environ.get("VP9_READER_PROGRAMS") or os.path.join(ROOT, "crates", name, "out"), name)


def sized(chunk):
    """A chunk with its length."""
    if len(chunk) > LONGEST:
        raise ValueError(f"a chunk of {len(chunk)} bytes: the program ends at one over {LONGEST}")
    return struct.pack("<I", len(chunk)) + chunk


def record(chunk):
    """A chunk as the program reads it."""
    return b"\1" + sized(chunk)


def frame_record(chunk, offset, size):
    """A single frame of a chunk as the program tool_trace reads it."""
    return b"\3" + struct.pack("<QQ", offset, size) + sized(chunk)


def counted(kind, count, chunk):
    """A chunk for a benchmark, as DIGEST.md has it: kind 4, so many parses; kind 5, so many segment steps."""
    return bytes([kind]) + struct.pack("<I", count) + sized(chunk)


def kit_tools():
    """The folder of the kit's loader and emulator, found as `rt` finds it."""
    rt = shutil.which("rt") or "/opt/rattle/bin/rt"
    home = os.environ.get("RATTLE_HOME") or os.path.dirname(os.path.dirname(os.path.realpath(rt)))
    return os.path.join(home, "toolchain")


def command(program, tools, *words):
    """It and its arguments, under the kit's loader, and its emulator where there is one."""
    emulator = os.path.join(tools, "bin", "qemu-x86_64")
    loader = os.path.join(tools, "lib", "ld-linux-x86-64.so.2")
    return [*([emulator] if os.access(emulator, os.X_OK) else []), loader, "--library-path", os.path.join(tools, "lib"),
            program, *words]


def hold_status(done, status=0):
    """A program can't return a status: it says last how it ended."""
    if done.stderr != b"status %d\n" % status:
        raise RuntimeError(f"{done.args}: want status {status}, got {done.stderr!r}")


def answer(words, data):
    """What a program prints of some bytes."""
    done = subprocess.run(words, input=data, capture_output=True, check=True)
    hold_status(done)
    return done.stdout


def run(program, tools, given, output, *words):
    """Runs it from file to file."""
    words = command(program, tools, *words)
    hold_status(subprocess.run(words, stdin=given, stdout=output, stderr=subprocess.PIPE, check=True))
