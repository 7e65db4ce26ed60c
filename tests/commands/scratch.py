"""What the cases share: a scratch repository with a made-up kit, and how a command is run and held to its answer."""

import contextlib
import fcntl
import os
import pty
import shutil
import signal
import stat
import subprocess
import tempfile
import termios
import threading
import time
import uuid

ROOT = os.path.abspath(os.path.join(os.path.dirname(os.path.abspath(__file__)), "..", ".."))
NOBODY = 65534
# Far longer than any case takes: what hangs is a failure.
PATIENCE = 60

# The crates that tool_list reaches are four, tool_trace three; the last line's isn't reached.
CRATES = """# the crates
base_bits:
text_line: base_bits   # not test_tables
text_listing: text_line base_bits io
tool_list: text_listing io os
tool_trace: text_line os
test_tables: base_bits
"""
# It says which program it is, what it was given as arguments, and what it read.
PROGRAM = """#!/bin/sh
echo "${0##*/}" "$@"
cat
echo 'status 0' >&2
"""
RT = """#!/bin/sh
kit=$(dirname "$(dirname "$(readlink -f "$0")")")
name=${PWD##*/}
echo "$* $name" >> "$kit/calls"
proved() { mkdir -p "../$1/out/rlib"; : > "../$1/out/rlib/stamp"; }
proved base_bits
proved text_line
%s
echo "logic=proved functions=1"
mkdir -p out
cp "$kit/program" "out/$name"
: > "out/$name.stamp"
echo "rt: running out/$name; to give it other input, run that file yourself"
%s
"""
# In such a script: it waits until a case lets it go on, so that no case goes by the machine's speed.
WAIT = 'until [ -e "%s" ]; do sleep 0.05; done'


class Cases(list):
    """The cases of a group: a function with this as its decorator is one."""

    def __call__(self, function):
        self.append(function)
        return function


class Wrong(Exception):
    """An answer that isn't the one that is held."""


class Skipped(Exception):
    """A case that can't be tried here."""


class Done:
    """How a command ended, what it printed, and what it said."""

    def __init__(self, status, out, said):
        self.status, self.out, self.said = status, out, said

    def __repr__(self):
        return f"status {self.status}, printed {self.out[:200]!r}, said {self.said[:400]!r}"


def hold(done, status, out=None, said=None):
    """Holds a command to its status, what it printed, and its line on standard error (without the line end)."""
    if done.status != status:
        raise Wrong(f"want status {status}: {done}")
    if out is not None and done.out != out:
        raise Wrong(f"want {out[:200]!r}: {done}")
    if said is not None and done.said != (said and said + "\n"):
        raise Wrong(f"want it to say {said!r}: {done}")


def same(what, want, got):
    if want != got:
        raise Wrong(f"{what}: want {want!r}, got {got!r}")


def write(path, text, mode=0o644):
    os.makedirs(os.path.dirname(path), exist_ok=True)
    with open(path, "wb") as file:
        file.write(text if isinstance(text, bytes) else text.encode())
    os.chmod(path, mode)
    return path


def lines(path):
    if not os.path.exists(path):
        return []
    with open(path) as file:
        return file.read().splitlines()


class Scratch:
    """A repository with a copy of bin/ and a few crates, and a kit whose rt and loader are scripts."""

    def __init__(self, folder):
        self.folder = folder
        self.root, self.kit = os.path.join(folder, "repository"), os.path.join(folder, "kit")
        self.mark = uuid.uuid4().hex
        self.env = {name: value for name, value in os.environ.items()
                    if name not in ("VP9_READER_PROGRAMS", "RATTLE_HOME") and not name.startswith("GIT_")}
        self.env.update(PATH=os.path.join(self.kit, "bin") + os.pathsep + os.environ["PATH"], COMMANDS_CASE=self.mark)
        shutil.copytree(os.path.join(ROOT, "bin"), os.path.join(self.root, "bin"))
        write(os.path.join(self.root, "crates.txt"), CRATES)
        for line in CRATES.splitlines()[1:]:
            write(self.source(line.split(":")[0]), "")
        tools = os.path.join(self.kit, "toolchain")
        write(os.path.join(tools, "lib", "ld-linux-x86-64.so.2"), '#!/bin/sh\nshift 2\nexec "$@"\n', 0o755)
        self.make_rt()
        self.make_program(PROGRAM)

    def source(self, crate):
        return os.path.join(self.root, "crates", crate, "src", "lib.rt")

    def make_rt(self, proving="", running=""):
        """The made-up rt, with what it does meanwhile."""
        write(os.path.join(self.kit, "bin", "rt"), RT % (proving, running), 0o755)

    def make_program(self, text):
        write(os.path.join(self.kit, "program"), text, 0o755)

    def build(self):
        """As after a first launch."""
        for name in ("tool_list", "tool_trace"):
            subprocess.run(["rt", "run"], cwd=os.path.join(self.root, "crates", name), env=self.env,
                           stdout=subprocess.DEVNULL, check=True)
        os.remove(os.path.join(self.kit, "calls"))

    def waits(self, name="go"):
        """What lets a script wait for `go`."""
        return WAIT % os.path.join(self.folder, name)

    def go(self, name="go"):
        self.file(name)

    def file(self, name, data=b"data\n", mode=0o644):
        return write(os.path.join(self.folder, name), data, mode)

    def calls(self):
        """What rt was called with."""
        return lines(os.path.join(self.kit, "calls"))

    def target(self, *names):
        return os.path.join(self.root, "target", *names)

    def program(self, name="tool_list"):
        """Where rt puts a program."""
        return os.path.join(self.root, "crates", name, "out", name)

    def command(self, *words):
        return [os.path.join(self.root, "bin", "list"), *words]

    def list(self, *words, **other):
        return run(self.command(*words), env={**self.env, **other.pop("env", {})}, **other)

    def list_on_terminal(self, *words, **other):
        return on_terminal(self.command(*words), {**self.env, **other.pop("env", {})}, **other)

    def left(self):
        """The processes that outlived the command."""
        end = time.time() + 5
        while found := list(self.running().values()):
            if time.time() > end:
                return found
            time.sleep(0.02)
        return []

    def running(self):
        """The words of each process of this case by its number: it has the case's mark in its environment."""
        found = {}
        for number in filter(str.isdigit, os.listdir("/proc")):
            if f"COMMANDS_CASE={self.mark}\0".encode() in of_process(number, "environ"):
                found[int(number)] = of_process(number, "cmdline").replace(b"\0", b" ").decode()
        return {number: words for number, words in found.items() if words}


def of_process(number, name):
    try:
        with open(f"/proc/{number}/{name}", "rb") as file:
            return file.read()
    except OSError:
        return b""


class Room:
    """A scratch repository for the time of a case, open to nobody, as whom some cases run."""

    def __enter__(self):
        self.folder = tempfile.mkdtemp(prefix="commands-")
        os.chmod(self.folder, 0o755)
        self.scratch = Scratch(self.folder)
        return self.scratch

    def __exit__(self, *_):
        """What a case that failed has left running is ended too."""
        for number in self.scratch.running():
            with contextlib.suppress(ProcessLookupError):
                os.kill(number, signal.SIGKILL)
        shutil.rmtree(self.folder)


def run(words, given=b"", env=None, **other):
    """Runs a command to its end, with no terminal."""
    if "stdin" not in other:
        other["input"] = given
    other.setdefault("stdout", subprocess.PIPE)
    done = subprocess.run(words, env=env, stderr=subprocess.PIPE, timeout=PATIENCE, **other)
    return Done(done.returncode, (done.stdout or b"").decode(), done.stderr.decode())


class Terminal:
    """A terminal of its own, which keeps what is shown on it."""

    def __init__(self):
        self.master, self.slave = pty.openpty()
        modes = termios.tcgetattr(self.slave)
        modes[3] &= ~termios.ECHO
        termios.tcsetattr(self.slave, termios.TCSANOW, modes)
        self.shown = b""
        self.reader = threading.Thread(target=self.read, daemon=True)
        self.reader.start()

    def read(self):
        try:
            while data := os.read(self.master, 4096):
                self.shown += data
        except OSError:
            pass

    def own(self):
        """In the process that is started there: it is the one whose keys send it signals."""
        fcntl.ioctl(2, termios.TIOCSCTTY, 0)

    def wait_for(self, text):
        end = time.time() + PATIENCE
        while text not in self.shown:
            if time.time() > end:
                raise Wrong(f"want {text!r} on the terminal, got {self.shown!r}")
            time.sleep(0.02)

    def close(self):
        os.close(self.slave)
        self.reader.join()
        os.close(self.master)


def start_on(terminal, words, env, given=subprocess.DEVNULL, out=subprocess.PIPE):
    return subprocess.Popen(words, env=env, stdin=given, stdout=out, stderr=terminal.slave, start_new_session=True,
                            preexec_fn=terminal.own)


def on_terminal(words, env, given=subprocess.DEVNULL, meanwhile=lambda terminal: None):
    """Runs a command to its end with standard error on a terminal; what it says is all that was shown there."""
    terminal = Terminal()
    running = start_on(terminal, words, env, given)
    meanwhile(terminal)
    out, _ = running.communicate(timeout=PATIENCE)
    terminal.close()
    return Done(running.returncode, out.decode(), terminal.shown.decode())


def screen(shown):
    """What is left to be seen on a terminal: a line's later text stands over its earlier."""
    left = []
    for line in shown.replace("\r\n", "\n").split("\n"):
        seen = ""
        for text in line.split("\r"):
            seen = text + seen[len(text):]
        left.append(seen.rstrip())
    return "\n".join(left).rstrip("\n")


def is_root():
    return os.geteuid() == 0


def as_nobody():
    """How a command is started that may not read and write everything, which root may."""
    return {"user": NOBODY, "group": NOBODY, "extra_groups": []} if is_root() else {}


def make_fifo(path):
    os.mkfifo(path, stat.S_IRUSR | stat.S_IWUSR)
    return path
