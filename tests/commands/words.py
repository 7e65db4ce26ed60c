"""A command's words: links, options, files, help and version. None of them is looked at after a build."""

import os
import shutil
import subprocess
import threading

from scratch import Cases, Skipped, Wrong, as_nobody, hold, make_fifo, run, same

case = Cases()
HINT = "bin/list --help says what there is"


# Links.

def by_link(scratch, link, name=None):
    """Runs it by a link, which gets no folder beside it."""
    scratch.build()
    folder = os.path.dirname(link)
    hold(run([name or link], b"data\n", {**scratch.env, "PATH": folder + os.pathsep + scratch.env["PATH"]}, cwd=folder),
         0, "tool_list\ndata\n", "")
    same("beside the link", [os.path.basename(link)], os.listdir(folder))


def link_to(scratch, target, *names):
    link = os.path.join(scratch.folder, *names)
    os.makedirs(os.path.dirname(link), exist_ok=True)
    os.symlink(target, link)
    return link


@case
def a_link_in_another_folder(scratch):
    by_link(scratch, link_to(scratch, scratch.command()[0], "links", "list"))


@case
def a_link_of_another_name(scratch):
    by_link(scratch, link_to(scratch, scratch.command()[0], "links", "vp9"))


@case
def a_relative_link(scratch):
    by_link(scratch, link_to(scratch, "../repository/bin/list", "links", "list"))


@case
def a_link_to_a_link(scratch):
    first = link_to(scratch, scratch.command()[0], "first", "list")
    by_link(scratch, link_to(scratch, first, "second", "list"))


@case
def a_link_found_by_the_path(scratch):
    by_link(scratch, link_to(scratch, scratch.command()[0], "links", "vp9list"), "vp9list")


@case
def a_link_to_the_repository(scratch):
    link = link_to(scratch, scratch.root, "links", "reader")
    scratch.build()
    hold(run([os.path.join(link, "bin", "list")], b"data\n", scratch.env), 0, "tool_list\ndata\n", "")


@case
def a_folder_with_odd_characters(scratch):
    moved = os.path.join(scratch.folder, "a folder's *name\n")
    os.rename(scratch.root, moved)
    scratch.root = moved
    scratch.build()
    hold(scratch.list(given=b"data\n"), 0, "tool_list\ndata\n", "")


# What is wrong is said before a build.

def refused(scratch, said, *words, **other):
    """Nothing is built, nothing printed, one line said."""
    hold(scratch.list(*words, **other), 2, "", "bin/list: " + said)
    same("calls of rt", [], scratch.calls())
    same("target", False, os.path.exists(scratch.target()))


@case
def no_such_file(scratch):
    path = os.path.join(scratch.folder, "none.ivf")
    refused(scratch, f"can't read {path}: No such file or directory", path)


@case
def no_such_folder(scratch):
    path = scratch.file("a.ivf") + "/b.ivf"
    refused(scratch, f"can't read {path}: Not a directory", path)


@case
def a_folder(scratch):
    refused(scratch, f"can't read {scratch.folder}: Is a directory", scratch.folder)


@case
def a_forbidden_file(scratch):
    path = scratch.file("a.ivf", mode=0)
    refused(scratch, f"can't read {path}: Permission denied", path, **as_nobody())


@case
def a_link_to_nothing(scratch):
    path = link_to(scratch, "/nonexistent", "a.ivf")
    refused(scratch, f"can't read {path}: No such file or directory", path)


@case
def an_empty_name(scratch):
    refused(scratch, "can't read : No such file or directory", "")


@case
def a_name_of_two_lines(scratch):
    refused(scratch, "can't read one?two: No such file or directory", "one\ntwo")


@case
def reasons_in_another_language(scratch):
    refused(scratch, "can't read /none: No such file or directory", "/none",
            env={"LANG": "de_DE.UTF-8", "LANGUAGE": "de"})


@case
def closed_standard_input(scratch):
    words = ["sh", "-c", 'exec "$0" <&-', *scratch.command()]
    hold(run(words, env=scratch.env), 2, "", "bin/list: can't read standard input: Bad file descriptor")


@case
def an_unknown_option(scratch):
    for words in (["--what"], ["-t"], ["--trace", "--what"], [scratch.file("a.ivf"), "--what"], ["--trace=yes"]):
        unknown = words[-1]
        refused(scratch, f"no option {unknown}; {HINT}", *words)


@case
def two_files(scratch):
    path = scratch.file("a.ivf")
    for words in ([path, path], [path, "-"], ["--trace", path, "--", path]):
        refused(scratch, f"one file at a time; {HINT}", *words)


# Options and files.

def takes(scratch, printed, *words, **other):
    scratch.build()
    hold(scratch.list(*words, **other), 0, printed, "")
    same("calls of rt", [], scratch.calls())


@case
def a_file(scratch):
    takes(scratch, "tool_list\ndata\n", scratch.file("a.ivf"))


@case
def a_dash_is_standard_input(scratch):
    takes(scratch, "tool_list\ngiven\n", "-", given=b"given\n")


@case
def no_file_is_standard_input(scratch):
    takes(scratch, "tool_trace\ngiven\n", "--trace", given=b"given\n")


@case
def options_before_the_file(scratch):
    takes(scratch, "tool_trace\ndata\n", "--trace", scratch.file("a.ivf"))


@case
def options_after_the_file(scratch):
    takes(scratch, "tool_trace\ndata\n", scratch.file("a.ivf"), "--trace")


@case
def options_before_two_dashes(scratch):
    takes(scratch, "tool_trace\ndata\n", "--trace", "--", scratch.file("a.ivf"))


@case
def options_after_a_dash(scratch):
    takes(scratch, "tool_trace\ngiven\n", "-", "--trace", given=b"given\n")


@case
def a_name_behind_two_dashes(scratch):
    takes(scratch, "tool_list\ndata\n", "--", "--trace", cwd=os.path.dirname(scratch.file("--trace")))


@case
def two_dashes_alone(scratch):
    takes(scratch, "tool_list\ngiven\n", "--", given=b"given\n")


@case
def an_option_twice(scratch):
    takes(scratch, "tool_trace\ngiven\n", "--trace", "--trace", given=b"given\n")


@case
def a_name_with_odd_characters(scratch):
    takes(scratch, "tool_list\ndata\n", scratch.file("a 'b\" $c *\\d\n.ivf"))


@case
def a_pipe_with_a_name(scratch):
    path = make_fifo(os.path.join(scratch.folder, "pipe"))
    writer = threading.Thread(target=lambda: open(path, "wb").write(b"piped\n"))
    writer.start()
    takes(scratch, "tool_list\npiped\n", path)
    writer.join()


# Help and version.

def has_help(scratch, *words):
    done = scratch.list(*words)
    hold(done, 0, said="")
    for text in ("usage: bin/list ", "--trace ", "--version ", "`file refused 8`", "\nEnds with 0 "):
        if text not in done.out:
            raise Wrong(f"want {text!r} in the help: {done}")
    same("calls of rt", [], scratch.calls())


@case
def help_without_a_build(scratch):
    for words in ("--help", "-h", "--trace --help", "--help --what", "/nonexistent -h", "--help a b"):
        has_help(scratch, *words.split())


@case
def help_without_a_kit(scratch):
    os.remove(os.path.join(scratch.kit, "bin", "rt"))
    scratch.env["RATTLE_HOME"] = "/nonexistent"
    has_help(scratch, "--help")


@case
def help_that_cannot_be_written(scratch):
    for word in ("--help", "--version"):
        with open("/dev/full", "wb") as full:
            hold(scratch.list(word, stdout=full), 2, said="bin/list: can't write: No space left on device")
        words = ["sh", "-c", 'exec "$0" "$@" >&-', *scratch.command(word)]
        hold(run(words, env=scratch.env), 2, said="bin/list: can't write: Bad file descriptor")


def git(scratch, *words):
    if not shutil.which("git"):
        raise Skipped("no git")
    words = ["git", "-C", scratch.root, "-c", "user.name=a", "-c", "user.email=a@b", *words]
    return subprocess.run(words, env=scratch.env, stdout=subprocess.PIPE, check=True).stdout.decode().strip()


def has_version(scratch, commit, **other):
    line = f"list, VP9 header reader after cros-codecs 0.0.6, commit {commit}\n"
    hold(scratch.list("--version", **other), 0, line, "")


@case
def version_of_a_commit(scratch):
    git(scratch, "init", "--quiet")
    git(scratch, "add", ".")
    git(scratch, "commit", "--quiet", "-m", "one")
    commit = git(scratch, "rev-parse", "--short=7", "HEAD")
    has_version(scratch, commit)
    has_version(scratch, commit, env={"GIT_DIR": "/nonexistent"})
    os.remove(scratch.source("base_bits"))
    has_version(scratch, commit + ", changed")


@case
def version_without_a_repository(scratch):
    has_version(scratch, "unknown")


@case
def version_without_a_commit(scratch):
    git(scratch, "init", "--quiet")
    has_version(scratch, "unknown")


@case
def version_in_another_repository(scratch):
    """A tree without a .git in another's: that one's commit isn't this one's."""
    git(scratch, "init", "--quiet", scratch.folder)
    git(scratch, "-C", scratch.folder, "commit", "--quiet", "--allow-empty", "-m", "another")
    has_version(scratch, "unknown")


@case
def version_without_git(scratch):
    git(scratch, "init", "--quiet")
    git(scratch, "commit", "--quiet", "--allow-empty", "-m", "one")
    has_version(scratch, "unknown", env={"PATH": path_without(scratch, "git")})


def path_without(scratch, *missing):
    """A folder with every command of the PATH but some."""
    folder = os.path.join(scratch.folder, "commands")
    os.makedirs(folder)
    for place in scratch.env["PATH"].split(os.pathsep):
        for name in os.listdir(place) if os.path.isdir(place) else []:
            if name not in missing and not os.path.lexists(os.path.join(folder, name)):
                os.symlink(os.path.join(place, name), os.path.join(folder, name))
    return folder
