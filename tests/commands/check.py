#!/usr/bin/env python3
"""Runs the commands of bin/ in every way that is held, and prints a line for each group of cases.

usage: check.py [GROUP[.CASE] ...]

The groups `words`, `building` and `running` run bin/ in a scratch repository with a made-up kit; `programs` runs
bin/list with the programs of the folder that VP9_READER_PROGRAMS names, or else the proved ones.

Exit 0 if all is as held, 1 if not."""

import os
import signal
import sys
import traceback

sys.dont_write_bytecode = True

import building
import programs
import running
import words
from scratch import Room, Skipped, Wrong

GROUPS = (words, building, running, programs)
# No case takes more than a few seconds; one that hangs must not hold up the gate.
LIMIT = 120


def too_long(_number, _frame):
    raise Wrong(f"it took over {LIMIT} seconds")


def tried(case):
    """What is wrong with a case, or that it was skipped, or nothing."""
    try:
        with Room() as scratch:
            signal.alarm(LIMIT)
            case(scratch)
            signal.alarm(0)
    except Skipped as reason:
        return f"skipped: {reason}"
    except Wrong as wrong:
        return f"WRONG: {wrong}"
    except Exception:
        return f"WRONG: {traceback.format_exc()}"
    return ""


def check(group, cases):
    """Tries a group's cases, and answers how many failed."""
    found = [(case.__name__, tried(case)) for case in cases]
    wrong = [text for _, text in found if text.startswith("WRONG")]
    print(f"{group}: {len(found)} cases, {len(wrong)} failures")
    for name, text in found:
        if text:
            print(f"  {name.replace('_', ' ')}: {text}")
    sys.stdout.flush()
    return len(wrong)


def main():
    # A command can't trap a signal that whoever started it ignores, as `nohup` and a shell's `&` do.
    for each in (signal.SIGHUP, signal.SIGINT, signal.SIGQUIT, signal.SIGTERM):
        signal.signal(each, signal.SIG_DFL)
    signal.signal(signal.SIGALRM, too_long)
    wanted = sys.argv[1:]
    failures = 0
    for group in GROUPS:
        name = group.__name__
        cases = [case for case in group.case if not wanted or name in wanted or f"{name}.{case.__name__}" in wanted]
        if cases:
            failures += check(f"commands, {name}", cases)
    sys.exit(1 if failures else 0)


if __name__ == "__main__":
    os.environ.pop("COMMANDS_CASE", None)
    main()
