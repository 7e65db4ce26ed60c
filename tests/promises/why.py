#!/usr/bin/env python3
"""Says why the prover refused each must-fail edit, from what `rt must-fail` and `rt ci` print.

An edit shows that a promise shuts a wrong program out only if a fact fails that the promise rests on. So what failed
first, which is printed, is sorted by its kind:
  promise   what a function promises where it returns
  loop      what holds at every turn of a loop
  theorem   a statement of proofs/
  safety    an index, a sum, a cast, the end of a loop, or what a callee demands
  shape     none: the proof no longer fits the code, as where a name that is made from the code is gone
An edit is at fault where it is of one of the last two.

Usage: why.py [-a] FILE   FILE: what was printed; -a prints every edit, and not those at fault alone
Exit 0 if no edit is at fault, 1 otherwise."""

import collections
import re
import sys

# What stands in brackets says that no contract was shown: only a name or a limit.
REFUSED = re.compile(r"^rt: must-fail (\S+)\.edit: refused, as it must be(?: \((only[^)]*)\))?:? ?(.*)$", re.M)
ERROR = re.compile(r"\S*?((?:src|specs|proofs)/\S*?):\d+:\d+: error: `([^`]*)`: (.*)$")
UNPROVED = re.compile(r"note: \S*?(src/\S*?):\d+:\d+: it is not proved that .*?\(`([^`]*)`\)")
LOOP = re.compile(r"^loop(-.*)?-(init|preserved)(-\d+)?$")
FACTS = {"promise", "loop", "theorem"}


def kind(file, name, says):
    if "that can be named from here" in says:
        return "shape"
    if file.startswith("src/") or file.endswith(("/Answers.antt", "/Invariants.antt", "/Proof.antt")):
        if name.startswith("returns"):
            return "promise"
        return "loop" if LOOP.search(name) else "safety"
    return "theorem" if file.startswith("proofs/") else "shape"


def refusal(said):
    """What failed: its kind, its file and its name."""
    found = ERROR.match(said) or UNPROVED.match(said)
    if not found:
        return "shape", "", said[:60]
    file, name, *says = found.groups()
    return kind(file, name, says[0] if says else ""), file, name


def main():
    words = [word for word in sys.argv[1:] if word != "-a"]
    if len(words) != 1:
        sys.exit(__doc__)
    with open(words[0], encoding="utf-8") as file:
        edits = REFUSED.findall(file.read())
    count = collections.Counter()
    for edit, only, said in edits:
        failed, file, name = refusal(said)
        failed = "shape" if only else failed
        fault = failed not in FACTS
        count[fault] += 1
        if fault or "-a" in sys.argv:
            print(f"{edit}: {failed} ({file}, {name})")
    print(f"{count[True] + count[False]} refused edits, {count[True]} of them not for a fact that a promise rests on")
    sys.exit(1 if count[True] else 0)


if __name__ == "__main__":
    main()
