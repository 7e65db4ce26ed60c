"""Building a program that isn't there or is older than its sources."""

import os
import shutil
import signal
import subprocess
import time

from scratch import (PATIENCE, Cases, Done, Skipped, Terminal, Wrong, as_nobody, hold, is_root, run, same, screen,
                     start_on, write)
from words import path_without

case = Cases()
LISTED = "tool_list\ndata\n"
START = "bin/list: proving and building tool_list: 4 crates, which takes some minutes"
ADVICE = "make it writable, or let VP9_READER_PROGRAMS name a folder of built programs"
# What a prover is to rt: a process beside it.
PROVER = "sleep 600 &\nsleep 600"


def older(path, seconds=10):
    then = time.time() - seconds
    os.utime(path, (then, then))


def older_sources(scratch):
    for folder, _, names in os.walk(scratch.root):
        for path in (folder, *(os.path.join(folder, name) for name in names)):
            older(path)


def builds(scratch, calls, said, given=b"data\n", **other):
    """Lists with so many calls of rt in all."""
    hold(scratch.list(given=given, **other), 0, LISTED, said)
    same("calls of rt", calls, scratch.calls())


# When it is built.

@case
def the_first_launch(scratch):
    builds(scratch, ["run tool_list"], START)


@case
def built_once(scratch):
    older_sources(scratch)
    builds(scratch, ["run tool_list"], START)
    builds(scratch, ["run tool_list"], "")


@case
def the_long_form(scratch):
    said = START.replace("tool_list", "tool_trace").replace("4", "3")
    hold(scratch.list("--trace", given=b"data\n"), 0, "tool_trace\ndata\n", said)


@case
def a_newer_source(scratch):
    scratch.build()
    older(scratch.program())
    older_sources(scratch)
    write(scratch.source("base_bits"), "changed")
    builds(scratch, ["run tool_list"], START)
    builds(scratch, ["run tool_list"], "")


@case
def a_newer_source_of_another(scratch):
    older_sources(scratch)
    scratch.build()
    older(scratch.program(), 5)
    write(scratch.source("test_tables"), "changed")
    builds(scratch, [], "")


@case
def a_source_that_changes_meanwhile(scratch):
    """What was changed during a build isn't in the program."""
    scratch.make_rt(proving="sleep 0.1; touch ../base_bits/src/lib.rt")
    builds(scratch, ["run tool_list"], START)
    scratch.make_rt()
    builds(scratch, ["run tool_list"] * 2, START)


@case
def a_program_that_was_removed(scratch):
    """rt links no program whose stamp is there."""
    scratch.build()
    os.remove(scratch.program())
    scratch.make_rt(proving='[ ! -f "out/$name.stamp" ] || exit 0')
    builds(scratch, ["run tool_list"], START)


@case
def another_folder_of_programs(scratch):
    folder = os.path.join(scratch.folder, "programs")
    shutil.copy(os.path.join(scratch.kit, "program"), os.path.join(os.makedirs(folder) or folder, "tool_list"))
    builds(scratch, [], "", env={"VP9_READER_PROGRAMS": folder})
    same("target", False, os.path.exists(scratch.target()))
    said = f"bin/list: no program {folder}/tool_trace: VP9_READER_PROGRAMS names the folder of the programs"
    hold(scratch.list("--trace", env={"VP9_READER_PROGRAMS": folder}), 2, "", said)


@case
def a_common_name_changes_nothing(scratch):
    scratch.build()
    builds(scratch, [], "", env={"PROGRAMS": "/nonexistent"})


# What is said meanwhile.

@case
def a_line_on_a_terminal(scratch):
    proved = "proved text_listing"
    scratch.make_rt(proving=f"{scratch.waits('first')}\n{proved}\n{scratch.waits()}")

    def meanwhile(terminal):
        terminal.wait_for(b"\rproving and building: 2 of 4 crates\r")
        scratch.go("first")
        terminal.wait_for(b"\rproving and building: 3 of 4 crates\r")
        scratch.go()
    done = scratch.list_on_terminal(scratch.file("a.ivf"), meanwhile=meanwhile)
    hold(done, 0, LISTED)
    same("line ends", 0, done.said.count("\n"))
    same("what is left to be seen", "", screen(done.said))
    same("processes left", [], scratch.left())


@case
def nothing_on_a_terminal_where_it_is_quick(scratch):
    done = scratch.list_on_terminal(scratch.file("a.ivf"))
    hold(done, 0, LISTED, "")


# What goes wrong.

@case
def a_build_that_fails(scratch):
    scratch.make_rt(proving='echo "logic=not-proved"; exit 1')
    for _ in range(2):
        hold(scratch.list(), 2, "", f"{START}\nbin/list: the build failed: see {scratch.target('build.log')}")
    same("calls of rt", ["run tool_list"] * 2, scratch.calls())
    with open(scratch.target("build.log")) as file:
        if "logic=not-proved\n" not in (said := file.read()):
            raise Wrong(f"want rt's words in the log, got {said!r}")


@case
def a_build_that_fails_on_a_terminal(scratch):
    scratch.make_rt(proving=scratch.waits() + "; exit 1")

    def meanwhile(terminal):
        terminal.wait_for(b"2 of 4 crates")
        scratch.go()
    done = scratch.list_on_terminal(meanwhile=meanwhile)
    same("what is left to be seen", f"bin/list: the build failed: see {scratch.target('build.log')}", screen(done.said))


@case
def a_program_that_ran_badly(scratch):
    """It is linked, and isn't taken by the next launch either."""
    scratch.make_rt(running="exit 1")
    for calls in (1, 2):
        hold(scratch.list(), 2, "", f"{START}\nbin/list: the build failed: see {scratch.target('build.log')}")
        same("calls of rt", ["run tool_list"] * calls, scratch.calls())


@case
def a_build_without_a_program(scratch):
    scratch.make_rt(proving="exit 0")
    said = f"{START}\nbin/list: the build left no program: remove {scratch.target()} and try again"
    hold(scratch.list(), 2, "", said)


@case
def no_kit(scratch):
    loader = "/nonexistent/toolchain/lib/ld-linux-x86-64.so.2"
    said = f"bin/list: the kit has no {loader}: let RATTLE_HOME name the kit's folder"
    hold(scratch.list(env={"RATTLE_HOME": "/nonexistent"}), 2, "", said)


@case
def a_copy_outside_its_repository(scratch):
    os.remove(os.path.join(scratch.root, "crates.txt"))
    said = f"bin/list: no {scratch.root}/crates.txt: bin/list works in its repository, or by a link to it"
    hold(scratch.list(), 2, "", said)


@case
def a_file_where_target_belongs(scratch):
    write(scratch.target(), "")
    hold(scratch.list(), 2, "", f"bin/list: can't build in {scratch.target()}: File exists; {ADVICE}")
    same("calls of rt", [], scratch.calls())


@case
def a_tree_that_may_not_be_written(scratch):
    if not is_root():
        os.chmod(scratch.root, 0o555)
    done = scratch.list(**as_nobody())
    os.chmod(scratch.root, 0o755)
    hold(done, 2, "", f"bin/list: can't build in {scratch.target()}: Permission denied; {ADVICE}")


@case
def a_target_that_may_not_be_written(scratch):
    os.makedirs(scratch.target())
    os.chmod(scratch.target(), 0o555)
    said = f"bin/list: can't build in {scratch.target()}: Permission denied; {ADVICE}"
    hold(scratch.list(**as_nobody()), 2, "", said)


def on_read_only_tree(scratch, **other):
    """Runs it with the repository mounted so that nothing can be written, or says that this can't be tried here."""
    mount = 'mount --bind "$1" "$1" && mount -o remount,bind,ro "$1" || exit 77; shift; exec "$@"'
    if not shutil.which("unshare"):
        raise Skipped("no unshare")
    done = run(["unshare", "-m", "sh", "-c", mount, "sh", scratch.root, *scratch.command()], env=scratch.env, **other)
    if done.status == 77 or "unshare" in done.said:
        raise Skipped(f"no mount here: {done.said.strip()}")
    return done


@case
def a_read_only_tree(scratch):
    done = on_read_only_tree(scratch)
    hold(done, 2, "", f"bin/list: can't build in {scratch.target()}: Read-only file system; {ADVICE}")


@case
def a_read_only_tree_that_is_built(scratch):
    scratch.build()
    hold(on_read_only_tree(scratch, given=b"data\n"), 0, LISTED, "")


# Two at once.

def start(scratch, **env):
    return subprocess.Popen(scratch.command(scratch.file("a.ivf")), env={**scratch.env, **env},
                            stdin=subprocess.DEVNULL, stdout=subprocess.PIPE, stderr=subprocess.PIPE)


def both_list(scratch, first, second):
    """Each lists, and rt is called once."""
    scratch.go()
    for one in (first, second):
        out, said = one.communicate(timeout=PATIENCE)
        hold(Done(one.returncode, out.decode(), said.decode()), 0, LISTED, "")
    same("calls of rt", ["run tool_list"], scratch.calls())
    same("locks left", False, os.path.lexists(scratch.target("build.lock.held")))


@case
def two_launches_at_once(scratch):
    scratch.make_rt(proving=scratch.waits())
    first = start(scratch)
    same("the first says", START + "\n", first.stderr.readline().decode())
    second = start(scratch)
    waiting = "bin/list: waiting for another launch, which is building\n"
    same("the second says", waiting, second.stderr.readline().decode())
    both_list(scratch, first, second)


@case
def two_launches_without_flock(scratch):
    path = path_without(scratch, "flock", "setsid")
    scratch.make_rt(proving=scratch.waits())
    first = start(scratch, PATH=path)
    same("the first says", START + "\n", first.stderr.readline().decode())
    second = start(scratch, PATH=path)
    # It says nothing; a call of rt would be there by then.
    time.sleep(1)
    both_list(scratch, first, second)


@case
def a_lock_that_was_left_behind(scratch):
    """Its owner was killed: no process has such a number."""
    os.makedirs(scratch.target())
    os.symlink("4194305", scratch.target("build.lock.held"))
    builds(scratch, ["run tool_list"], START, env={"PATH": path_without(scratch, "flock")})


# Ended meanwhile.

def ends_a_build(scratch, status, end):
    """Ends a launch that builds; nothing is left of it, and the next one builds."""
    scratch.make_rt(proving=PROVER)
    terminal = Terminal()
    running = start_on(terminal, scratch.command(), scratch.env)
    terminal.wait_for(b"proving and building: 2 of 4 crates")
    end(terminal, running)
    same("status", status, running.wait(PATIENCE))
    same("processes left", [], scratch.left())
    terminal.close()
    same("what is left to be seen", "", screen(terminal.shown.decode()))
    scratch.make_rt()
    builds(scratch, ["run tool_list"] * 2, START)


@case
def ctrl_c_during_a_build(scratch):
    ends_a_build(scratch, 130, lambda terminal, _: os.write(terminal.master, b"\x03"))


@case
def a_build_whose_launch_alone_is_ended(scratch):
    ends_a_build(scratch, 143, lambda _, running: running.send_signal(signal.SIGTERM))


@case
def ctrl_c_while_waiting_for_a_build(scratch):
    scratch.make_rt(proving=PROVER)
    first = subprocess.Popen(scratch.command(), env=scratch.env, stdin=subprocess.DEVNULL, stdout=subprocess.DEVNULL,
                             stderr=subprocess.PIPE)
    first.stderr.readline()
    ends_waiting(scratch)
    first.send_signal(signal.SIGTERM)
    same("status", 143, first.wait(PATIENCE))
    first.stderr.close()
    same("processes left", [], scratch.left())


def ends_waiting(scratch):
    terminal = Terminal()
    second = start_on(terminal, scratch.command(), scratch.env)
    terminal.wait_for(b"proving and building: 2 of 4 crates")
    os.write(terminal.master, b"\x03")
    same("status", 130, second.wait(PATIENCE))
    terminal.close()
    same("calls of rt", ["run tool_list"], scratch.calls())
