"""How programs are built, counted and timed on this machine.

The proved programs are x86-64 programs. On x86-64 valgrind counts their instructions, or perf where there is no
valgrind, and they are timed as they are. On another machine the counting emulator of the folder TOOLS
(../shared/tools/perf, see its README.md) counts them, with the Rust compiled for x86-64 too; for times, the proved
program's LLVM module is compiled for this machine (native.sh)."""

import os
import platform
import re
import shutil
import subprocess
import sys
import tempfile
import time

HERE = os.path.dirname(os.path.abspath(__file__))
ROOT = os.path.dirname(HERE)
sys.path.insert(0, os.path.join(ROOT, "tests", "reader"))

import program

BUILT = os.path.join(ROOT, "target", "bench")
UNPACKED = os.path.join(ROOT, "target", "perf")
X86 = platform.machine() == "x86_64"
SOURCES = ("src/bitstream_utils.rs", "src/codec/vp9/lookups.rs", "src/codec/vp9/parser.rs")
# As the judge is built: docs/RULES.md's oracle has no overflow checks.
OPTIONS = ("--edition", "2021", "-O", "-C", "overflow-checks=off")


class Missing(Exception):
    """Something that the benchmark needs isn't at hand."""


def need(there, what):
    if not there:
        raise Missing(what)


def run(words, given=None, **more):
    """Runs a program on bytes. They go by a file, since a pipe is read in other pieces each time."""
    with tempfile.TemporaryFile() as file:
        file.write(given or b"")
        file.seek(0)
        return subprocess.run(words, stdin=file, stdout=subprocess.PIPE, stderr=subprocess.PIPE, check=True, **more)


class Machine:
    def __init__(self, tools, src, processor):
        self.tools, self.src, self.processor = tools, src, processor

    def unpack(self):
        """The emulator and the compiler for x86-64, unpacked once."""
        if X86 or os.path.exists(os.path.join(UNPACKED, "libinsncount.so")):
            return
        need(os.path.isdir(self.tools), f"no folder {self.tools} with the counting tools")
        subprocess.run([os.path.join(self.tools, "setup.sh"), UNPACKED], check=True, stdout=subprocess.DEVNULL)

    # Instructions.

    def counter(self):
        if not X86:
            self.unpack()
            return [os.path.join(self.tools, "count"), UNPACKED, "-cpu", self.processor], rb"total insns (\d+)"
        if shutil.which("valgrind"):
            return ["valgrind", "--tool=callgrind", "--callgrind-out-file=/dev/null"], rb"Collected : (\d+)"
        need(shutil.which("perf"), "neither valgrind nor perf")
        return ["perf", "stat", "-x,", "-e", "instructions:u"], rb"(\d+),,instructions:u"

    def instructions(self, words, given):
        """The x86-64 instructions of a run, and what it printed."""
        counter, form = self.counter()
        done = run([*counter, *words], given)
        counted = re.search(form, done.stderr)
        need(counted, f"{counter[0]} counted nothing: {done.stderr.decode().strip()}")
        return int(counted.group(1)), done.stdout

    def by_function(self, name, given):
        """The instructions of a run of a proved program, by function. The C library's, and the loader's, count as "?"."""
        if X86:
            need(shutil.which("valgrind"), "no valgrind")
            with tempfile.NamedTemporaryFile("r") as kept:
                run(["valgrind", "--tool=callgrind", f"--callgrind-out-file={kept.name}", *self.proved(name)], given)
                return own_costs(kept, name)
        self.unpack()
        plugin = os.path.join(BUILT, "libfunctions.so")
        os.makedirs(BUILT, exist_ok=True)
        subprocess.run(["cc", "-O2", "-fPIC", "-shared", "-o", plugin, os.path.join(HERE, "functions.c")], check=True)
        loader, _, library, path = self.proved(name)
        lib64 = os.path.join(BUILT, "root", "lib64")
        os.makedirs(lib64, exist_ok=True)
        if not os.path.lexists(os.path.join(lib64, os.path.basename(loader))):
            os.symlink(loader, os.path.join(lib64, os.path.basename(loader)))
        # The emulator knows the symbols of a program that it starts itself, without the kit's loader before it.
        root = os.path.join(UNPACKED, "deb", "root", "usr")
        done = run([os.path.join(root, "bin", "qemu-x86_64"), "-cpu", self.processor, "-L", os.path.join(BUILT, "root"),
                    "-E", "LD_LIBRARY_PATH=" + library, "-plugin", plugin, path], given,
                   env={**os.environ, "LD_LIBRARY_PATH": os.path.join(root, "lib", f"{platform.machine()}-linux-gnu")})
        # Beside the counts the program says how it ended.
        said = [line.split(" ", 1) for line in done.stderr.decode().splitlines() if line != "status 0"]
        return {function: int(count) for count, function in said}

    # Programs.

    def proved(self, name):
        """The words that run a proved program where instructions are counted: under the kit's loader."""
        path = os.path.join(ROOT, "crates", name, "out", name)
        need(os.path.exists(path), f"no {path}: rt run in crates/{name}")
        return program.command(path, program.kit_tools())[-4:]

    def rust(self, driver, native=False):
        """The path of a driver over the Rust, built for counting or for this machine."""
        name = os.path.basename(os.path.dirname(driver)) + "-" + os.path.basename(driver)[:-3]
        kind = "native" if native or X86 else "x86"
        out = os.path.join(BUILT, kind, name)
        self.copy_sources(driver, out + ".src")
        subprocess.run([*self.rustc(kind), *OPTIONS, "--crate-name", "driver", "-o", out,
                        os.path.join(out + ".src", os.path.basename(driver))], check=True)
        return out

    def rustc(self, kind):
        if kind == "native":
            need(shutil.which("rustc"), "rustc is not on the PATH")
            return ["rustc"]
        self.unpack()
        return [os.path.join(self.tools, "rustc-for"), UNPACKED, "x86", "-C", "target-feature=+crt-static"]

    def copy_sources(self, driver, folder):
        """A literal module path can't name a folder given here, so the files are copied, unchanged, to where the driver finds them."""
        for name in SOURCES:
            source = os.path.join(self.src, name)
            need(os.access(source, os.R_OK), f"no source {source}")
            copy = os.path.join(folder, name[len("src/"):])
            os.makedirs(os.path.dirname(copy), exist_ok=True)
            shutil.copyfile(source, copy)
        shutil.copy(driver, folder)

    # Times.

    def native(self, name):
        """The words that run a proved program where times are taken."""
        if X86:
            return self.proved(name)
        shipped, out = self.proved(name)[-1], os.path.join(BUILT, "native", name)
        if not os.path.exists(out) or os.path.getmtime(out) < os.path.getmtime(shipped):
            subprocess.run([os.path.join(HERE, "native.sh"), name, out], check=True)
        return [out]


def own_costs(kept, name):
    """What callgrind kept, by function of the program `name`."""
    names, costs, here, function, called = {}, {}, False, "?", False
    for line in kept:
        kind, _, rest = line.rstrip("\n").partition("=")
        if kind in ("ob", "cob", "fn", "cfn"):
            number, _, said = rest.partition(" ")
            # A name is said once, where its number first stands.
            said = names.setdefault((kind[-2:], number), said)
            if kind == "ob":
                here = os.path.basename(said) == name
            elif kind == "fn":
                function = said.split("'")[0] if here else "?"
        elif kind == "calls":
            called = True
        elif line[0] in "0123456789+-*":
            if not called:
                costs[function] = costs.get(function, 0) + int(line.split()[1])
            called = False
    return costs


def seconds(words, path):
    """The time of a run that reads the file."""
    with open(path, "rb") as file:
        start = time.perf_counter()
        subprocess.run(words, stdin=file, stdout=subprocess.DEVNULL, stderr=subprocess.DEVNULL, check=True)
        return time.perf_counter() - start
