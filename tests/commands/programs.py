"""bin/list with its real programs: what the system does to them while they read and write."""

import os
import pty
import signal
import subprocess
import sys
import time
import tty

from scratch import PATIENCE, ROOT, Cases, Done, Terminal, Wrong, hold, run, same, screen, start_on

sys.path += [os.path.join(ROOT, "tests", "listing"), os.path.join(ROOT, "tests", "reader")]

import compare
import program

case = Cases()
LIST = os.path.join(ROOT, "bin", "list")
FORMS = ([], ["--trace"])
# Files: some records, with a refused one; the same cut short; no such file.
RECORDS = compare.F, b"", compare.I
GOOD = compare.ivf(*RECORDS)
CUT, OTHER = GOOD[:-1], b"RIFF" + bytes(40)
LONG = compare.ivf(compare.K, *[compare.SHOW] * 20000)
LAST = "3 chunks 1 refused\n"


def lists(*words, **other):
    return run([LIST, *words], **other)


def to(given, stdout, *words, **other):
    """What it says where it can't write."""
    done = lists(*words, given=given, stdout=stdout, **other)
    return Done(done.status, "", done.said)


# Statuses.

@case
def a_good_file(_):
    for form in FORMS:
        done = lists(*form, given=GOOD)
        hold(done, 0, said="")
        same("the last line", LAST, done.out[-len(LAST):])


@case
def a_refused_file(_):
    for form in FORMS:
        hold(lists(*form, given=OTHER), 1, "file refused 7\n", "")
        done = lists(*form, given=CUT)
        hold(done, 1, said="")
        same("the last lines", "file refused 8\n2 chunks 1 refused\n", "".join(done.out.splitlines(True)[-2:]))


@case
def a_file_by_name(scratch):
    path = scratch.file("a.ivf", GOOD)
    for form in FORMS:
        same("of a file and of standard input", repr(lists(*form, given=GOOD)), repr(lists(*form, path)))


# Reads that fail.

def failing(data):
    """A descriptor that gives some bytes, and then an error."""
    master, slave = pty.openpty()
    tty.setraw(slave)
    os.write(slave, data)
    os.close(slave)
    return master


def listed(form, size):
    """The listing of the whole records among the first bytes of GOOD, without its last line."""
    whole = [n for n in range(len(RECORDS) + 1) if len(compare.ivf(*RECORDS[:n])) <= size]
    if not whole:
        return ""
    return "".join(lists(*form, given=compare.ivf(*RECORDS[:whole[-1]])).out.splitlines(True)[:-1])


def reads(data, said):
    """What is said of a file whose reading fails after some bytes, and that what came before is listed."""
    for form in FORMS:
        master = failing(data)
        done = lists(*form, stdin=master)
        os.close(master)
        hold(done, 2, listed(form, len(data)), said)


READ_ERRORS = (("at the end of a record", 32 + 12 + len(compare.F)), ("at the end of the file", len(GOOD)),
               ("in a record", 50), ("in the header of a record", 40), ("behind the header of the file", 32),
               ("in the header of the file", 20), ("at once", 0))


def read_error(where, at):
    def a_read_error(_):
        reads(GOOD[:at], "bin/list: can't read standard input: Input/output error")
    a_read_error.__name__ = "a_read_error_" + where.replace(" ", "_")
    return case(a_read_error)


for read_error_case in READ_ERRORS:
    read_error(*read_error_case)


@case
def a_folder_as_standard_input(scratch):
    for form in FORMS:
        folder = os.open(scratch.folder, os.O_RDONLY)
        done = lists(*form, stdin=folder)
        os.close(folder)
        hold(done, 2, said="bin/list: can't read standard input: Is a directory")


# Writes that fail.

@case
def a_full_device(_):
    for form in FORMS:
        for given in (GOOD, LONG, OTHER):
            with open("/dev/full", "wb") as full:
                hold(to(given, full, *form), 2, said="bin/list: can't write: No space left on device")


@case
def a_closed_output(scratch):
    path = scratch.file("a.ivf", GOOD)
    for form in FORMS:
        done = run(["sh", "-c", 'exec "$0" "$@" >&-', LIST, *form, path])
        hold(done, 2, "", "bin/list: can't write: Bad file descriptor")


@case
def a_reader_that_goes(scratch):
    """As `bin/list FILE | head -n 1`, where the pipe's signal ends the program, and where it is ignored."""
    path = scratch.file("a.ivf", LONG)
    for form in FORMS:
        for restored in (True, False):
            running = subprocess.Popen([LIST, *form, path], stdout=subprocess.PIPE, stderr=subprocess.PIPE,
                                       restore_signals=restored)
            running.stdout.readline()
            running.stdout.close()
            said = running.stderr.read().decode()
            running.stderr.close()
            hold(Done(running.wait(PATIENCE), "", said), 2, said="bin/list: can't write: Broken pipe")


# Writes in blocks.

def writes(words, data):
    """How often a program writes, in blocks of up to 4,096 bytes, and how much: such a pipe keeps writes apart."""
    end, start = os.pipe2(os.O_DIRECT)
    running = subprocess.Popen(words, stdin=subprocess.PIPE, stdout=start, stderr=subprocess.DEVNULL)
    os.close(start)
    running.stdin.write(data)
    running.stdin.close()
    sizes = []
    while size := len(os.read(end, 65536)):
        sizes.append(size)
    os.close(end)
    running.wait(PATIENCE)
    return len(sizes), sum(sizes)


@case
def few_writes(_):
    for form in FORMS:
        for data in (GOOD, compare.ivf(compare.K, *[compare.SHOW] * 300)):
            count, size = writes([LIST, *form], data)
            if count > 2 + size // 2048:
                raise Wrong(f"{form}: {count} writes of {size} bytes")


# The long form's program.

@case
def a_series_of_records(_):
    """As tests/reader puts it: an IVF file is no series, and a series no IVF file."""
    words = program.command(program.built("tool_trace"), program.kit_tools())
    series = program.FRESH + program.record(compare.K)
    done = run([*words, "series"], series)
    same("a series", "0 0 key 0 14 64 64 255 14", done.out.split("\n")[0])
    same("a file without a word", "file refused 7\n", run(words, series).out)
    same("a byte 2 before a file", "file refused 7\n", lists("--trace", given=b"\2" + GOOD).out)


# Ended.

@case
def ctrl_c(scratch):
    """The program waits for more of its input, by a pipe that stays open."""
    for form in FORMS:
        terminal = Terminal()
        running = start_on(terminal, [LIST, *form], {**os.environ, "COMMANDS_CASE": scratch.mark}, subprocess.PIPE)
        running.stdin.write(GOOD)
        running.stdin.flush()
        program_of(scratch)
        os.write(terminal.master, b"\x03")
        same("status", 130, running.wait(PATIENCE))
        running.stdin.close()
        running.stdout.close()
        same("processes left", [], scratch.left())
        terminal.close()
        same("what is left to be seen", "", screen(terminal.shown.decode()))


def program_of(scratch):
    """The process of the program, once it is there."""
    end = time.time() + PATIENCE
    while time.time() < end:
        for number, words in scratch.running().items():
            if " --library-path " in words:
                return number
        time.sleep(0.02)
    raise Wrong("no program was started")


@case
def a_program_that_is_killed(scratch):
    running = subprocess.Popen([LIST], env={**os.environ, "COMMANDS_CASE": scratch.mark}, stdin=subprocess.PIPE,
                               stdout=subprocess.PIPE, stderr=subprocess.PIPE)
    os.kill(program_of(scratch), signal.SIGKILL)
    same("said", b"bin/list: the program was ended by signal KILL\n", running.stderr.read())
    same("status", 2, running.wait(PATIENCE))
    for stream in (running.stdin, running.stdout, running.stderr):
        stream.close()
