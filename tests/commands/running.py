"""How a program's end becomes the command's: what it says last, signals, and the line that shows how far it is."""

import os
import signal
import subprocess

from scratch import PATIENCE, Cases, Terminal, hold, run, same, screen, start_on

case = Cases()
# It says that it is there, and reads no more.
WAITS = "#!/bin/sh\necho here\nexec sleep 600\n"


def ended(scratch, text, *words, **other):
    """How a command ends whose program is a script."""
    scratch.make_program("#!/bin/sh\n" + text)
    scratch.build()
    return scratch.list(*words, **other)


# The last line says how it ended.

@case
def status_0(scratch):
    hold(ended(scratch, "echo listed; echo status 0 >&2"), 0, "listed\n", "")


@case
def status_1(scratch):
    hold(ended(scratch, "echo file refused 7; echo status 1 >&2"), 1, "file refused 7\n", "")


@case
def a_read_error_of_a_file(scratch):
    path = scratch.file("a.ivf")
    done = ended(scratch, 'echo "can\'t read: Input/output error" >&2', path)
    hold(done, 2, "", f"bin/list: can't read {path}: Input/output error")


@case
def a_read_error_of_standard_input(scratch):
    for words in ([], ["-"]):
        done = ended(scratch, 'echo "can\'t read: Input/output error" >&2', *words)
        hold(done, 2, "", "bin/list: can't read standard input: Input/output error")


@case
def a_write_error(scratch):
    done = ended(scratch, 'echo "can\'t write: No space left on device" >&2')
    hold(done, 2, "", "bin/list: can't write: No space left on device")


@case
def lines_before_the_last_are_passed_on(scratch):
    lines = "line 3: wrong\n line  4\\"
    hold(ended(scratch, f"printf '%s\n' '{lines}' 'status 1' >&2"), 1, "", lines)


@case
def no_last_line(scratch):
    hold(ended(scratch, "echo listed"), 2, "listed\n", "bin/list: the program didn't say how it ended")


@case
def another_last_line(scratch):
    for line in ("status 2", "status 01", "status", "status 0 ", "error while loading"):
        done = ended(scratch, f"echo '{line}' >&2")
        hold(done, 2, "", f"bin/list: the program didn't say how it ended: {line}")


@case
def a_last_line_without_its_end(scratch):
    hold(ended(scratch, "printf 'status 1' >&2"), 1, "", "")


@case
def another_exit_status(scratch):
    hold(ended(scratch, "echo status 0 >&2; exit 3"), 2, "", "bin/list: the program didn't say how it ended: status 0")


@case
def a_program_ended_by_a_signal(scratch):
    for name in ("KILL", "SEGV", "TERM"):
        hold(ended(scratch, f"kill -{name} $$"), 2, "", f"bin/list: the program was ended by signal {name}")


@case
def a_pipe_that_is_closed(scratch):
    hold(ended(scratch, "kill -PIPE $$"), 2, "", "bin/list: can't write: Broken pipe")


@case
def a_program_that_cannot_be_run(scratch):
    scratch.make_program("#!/nonexistent\n")
    scratch.build()
    done = scratch.list()
    same("status", 2, done.status)
    same("lines said", 1, done.said.count("\n"))


@case
def standard_error_that_is_closed(scratch):
    scratch.build()
    words = ["sh", "-c", 'exec "$0" "$@" 2>&-', *scratch.command(scratch.file("a.ivf"))]
    hold(run(words, env=scratch.env), 0, "tool_list\ndata\n")


@case
def descriptors_of_the_program(scratch):
    """It has the three that it uses, and no other of the command's."""
    listed = "cd /proc/self/fd; for n in 3 4 5 6 7 8 9; do [ ! -e $n ] || echo $n; done; echo status 0 >&2"
    hold(ended(scratch, listed), 0, "", "")


@case
def the_current_folder_and_the_environment(scratch):
    done = ended(scratch, 'pwd; echo "$SAID"; echo status 0 >&2', cwd=scratch.folder, env={"SAID": "so"})
    hold(done, 0, f"{scratch.folder}\nso\n", "")


@case
def no_files_are_left(scratch):
    """Neither in the repository nor where temporary files go."""
    temporary = os.path.join(scratch.folder, "tmp")
    os.mkdir(temporary)
    scratch.build()
    before = sorted(os.walk(scratch.root))
    hold(scratch.list(env={"TMPDIR": temporary}), 0, "tool_list\n", "")
    same("the repository", before, sorted(os.walk(scratch.root)))
    same("temporary files", [], os.listdir(temporary))


# How far it is.

def slow(scratch, wait=""):
    """A program that reads half of its input and waits, two seconds where nothing else is said."""
    reads, prints = "head -c 5000 > /dev/null", "echo file refused 8; echo status 1 >&2"
    scratch.make_program(f"#!/bin/sh\n{reads}\n{wait or 'sleep 2'}\n{prints}\n")
    scratch.build()
    return scratch.file("a.ivf", bytes(10000))


def shows_half(scratch, *words, **other):
    """On a terminal it shows that half is read, and leaves nothing of that behind."""
    def meanwhile(terminal):
        terminal.wait_for(b"\r50 % read\r")
        scratch.go()
    done = scratch.list_on_terminal(*words, meanwhile=meanwhile, **other)
    hold(done, 1, "file refused 8\n")
    same("what is left to be seen", "", screen(done.said))
    same("line ends", 0, done.said.count("\n"))
    same("processes left", [], scratch.left())


@case
def a_line_on_a_terminal(scratch):
    shows_half(scratch, slow(scratch, scratch.waits()))


@case
def a_line_for_standard_input(scratch):
    with open(slow(scratch, scratch.waits()), "rb") as file:
        shows_half(scratch, given=file)


@case
def no_line_for_a_pipe(scratch):
    slow(scratch)
    hold(scratch.list_on_terminal(), 1, "file refused 8\n", "")


@case
def no_line_where_it_is_quick(scratch):
    scratch.build()
    hold(scratch.list_on_terminal(scratch.file("a.ivf")), 0, "tool_list\ndata\n", "")


@case
def no_line_without_a_terminal(scratch):
    hold(scratch.list(slow(scratch)), 1, "file refused 8\n", "")


@case
def a_line_under_what_is_printed(scratch):
    """Printed to the same terminal, the next line stands over it."""
    path = slow(scratch, scratch.waits())
    terminal = Terminal()
    running = start_on(terminal, scratch.command(path), scratch.env, out=terminal.slave)
    terminal.wait_for(b"50 % read")
    scratch.go()
    same("status", 1, running.wait(PATIENCE))
    terminal.close()
    same("what is left to be seen", "file refused 8", screen(terminal.shown.decode()))


# Ended by a signal.

def ends(scratch, status, end, program=WAITS):
    """Ends a command whose program waits: both are gone, and nothing is said."""
    scratch.make_program(program)
    scratch.build()
    terminal = Terminal()
    running = start_on(terminal, scratch.command(scratch.file("a.ivf")), scratch.env)
    running.stdout.readline()
    end(terminal, running)
    same("status", status, running.wait(PATIENCE))
    running.stdout.close()
    same("processes left", [], scratch.left())
    terminal.close()
    same("what is left to be seen", "", screen(terminal.shown.decode()))


@case
def ctrl_c(scratch):
    ends(scratch, 130, lambda terminal, _: os.write(terminal.master, b"\x03"))


@case
def ctrl_c_after_a_line(scratch):
    def end(terminal, _):
        terminal.wait_for(b"% read")
        os.write(terminal.master, b"\x03")
    ends(scratch, 130, end)


@case
def ctrl_backslash(scratch):
    ends(scratch, 131, lambda terminal, _: os.write(terminal.master, b"\x1c"))


@case
def a_signal_to_the_command_alone(scratch):
    for number in (signal.SIGINT, signal.SIGTERM, signal.SIGHUP, signal.SIGQUIT):
        ends(scratch, 128 + number, lambda _, running: running.send_signal(number))


@case
def a_terminal_as_input(scratch):
    """The program reads from it, as one that is started by hand."""
    scratch.build()
    terminal = Terminal()
    running = start_on(terminal, scratch.command(), scratch.env, given=terminal.slave)
    os.write(terminal.master, b"typed\n\x04")
    out, _ = running.communicate(timeout=PATIENCE)
    terminal.close()
    same("printed", b"tool_list\ntyped\n", out)


@case
def a_reader_that_goes(scratch):
    """A closed output ends the command, and not only its program."""
    scratch.make_program("#!/bin/sh\nwhile echo line; do :; done 2> /dev/null\nkill -PIPE $$\n")
    scratch.build()
    running = subprocess.Popen(scratch.command(), env=scratch.env, stdin=subprocess.DEVNULL, stdout=subprocess.PIPE,
                               stderr=subprocess.PIPE)
    running.stdout.readline()
    running.stdout.close()
    same("said", b"bin/list: can't write: Broken pipe\n", running.stderr.read())
    same("status", 2, running.wait(PATIENCE))
    running.stderr.close()
