#!/usr/bin/env python3
"""Compares the proved reader of chunks with the Rust and with a model of docs/RULES.md.

Usage: compare.py [--program PROGRAM] [--judge JUDGE] [--src SRC_DIR] [--tools DIR]
                  [--bent N] [--every N] [--show N]

PROGRAM is the proved program tool_trace (default crates/tool_trace/out/tool_trace, made by
`rt run` there). README.md says what is put to it and what each answer is held to.
--bent N adds N bent copies of the hand-made series. --every N takes only each N-th of the
cut and bent example and real chunks and of the short chunks.

Exit 0 if all agrees, 1 on a difference, 2 if something is missing."""

import argparse
import collections
import itertools
import os
import random
import re
import subprocess
import sys
import tempfile

sys.dont_write_bytecode = True

import inputs
import program
from inputs import ROOT

sys.path.insert(0, os.path.join(ROOT, "tests", "handmade"))

import expect
from check import Answer, field_differences, plain_state


# What docs/RULES.md says, as the program prints it, but for the chunk's number.

def state_line(text):
    return "  state " + text.replace("Parser {", "ReaderState {", 1)


def segment_lines(segments):
    return [f"  seg {i} {expect.debug(record)}" for i, record in enumerate(segments)]


class Memory:
    """What is remembered from chunk to chunk, with its lines."""

    def __init__(self, state, segments):
        self.state, self.segments = state, segments
        self.state_line = state_line(state.debug())
        self.segment_lines = segment_lines(segments)

    def lines(self):
        return self.state_line, self.segment_lines


def kind(header):
    if header.show_existing_frame:
        return "show"
    if header.frame_type == "KeyFrame":
        return "key"
    return "intra" if header.intra_only else "inter"


class Question:
    """A chunk put to the program, with the model's answer. `again`: put before, and now only
    to reach a state."""

    def __init__(self, group, where, chunk, before, tables, record=None):
        self.group, self.where, self.chunk, self.before = group, where, chunk, before
        self.record = record or program.record(chunk)
        self.fresh = self.again = False
        self.frames = self.refusal = 0
        try:
            frames, state = expect.read_chunk(chunk, before.state)
        except expect.Refused as refused:
            self.refusal, self.after = refused.number, before
            self.outside = expect.outside_refused(refused)
            self.lines = [str(refused), before.state_line]
            return
        self.frames, self.outside = len(frames), expect.outside_frames(frames)
        self.accept(frames, state, tables)

    def accept(self, frames, state, tables):
        self.lines, segments = [], self.before.segments
        for i, frame in enumerate(frames):
            h, segments = frame.record, expect.segment_step(segments, frame.record, tables)
            self.lines.append(f"{i} {kind(h)} {frame.at} {frame.size} {h.width} {h.height} "
                              f"{h.refresh_frame_flags} {h.uncompressed_header_size_in_bytes}")
            self.lines.append("  " + expect.debug(h))
            self.lines += segment_lines(segments)
        self.after = Memory(state, segments)
        self.lines.append(self.after.state_line)

    def repeated(self):
        copy = Question.__new__(Question)
        copy.__dict__.update(self.__dict__, again=True)
        return copy


class Plan:
    """All questions in the order in which they are put."""

    def __init__(self, tables):
        self.tables, self.questions = tables, []
        self.nothing = Memory(expect.State(), expect.default_segments())

    def ask(self, group, where, chunk, before, record=None):
        question = Question(group, where, chunk, before, self.tables, record)
        self.questions.append(question)
        return question

    def series(self, group, name, chunks):
        """Chunks in a row from a fresh state. Answers the questions."""
        memory, asked = self.nothing, []
        for number, chunk in enumerate(chunks):
            asked.append(self.ask(group, f"{name} chunk {number}", chunk, memory))
            memory = asked[-1].after
        if asked:
            asked[0].fresh = True
        return asked

    def single_frames(self, name, chunks, dice, refused):
        """Each frame of the chunks, asked for by its offset and size, from a fresh state on; `refused`: after some that are refused."""
        group = "single frames, refused ones between" if refused else "single frames"
        memory, fresh = self.nothing, True
        for frame in (chunk[at:at + size] for chunk in chunks for at, size in places(chunk)):
            lent, at = inputs.lent(frame, dice)
            outside = inputs.frame_places(lent, at, len(frame), dice) if refused else ()
            for offset, size in [*outside, (at, len(frame))]:
                record = program.frame_record(lent, offset, size)
                question = self.ask(group, f"{name} at {offset} of {size}", alone(lent, offset, size), memory, record)
                question.fresh, fresh, memory = fresh, False, question.after

    def variants(self, group, name, before, chunks):
        """Each of the chunks in the state that the chunks `before` leave. A refused one leaves
        it, so it is reached anew only after an accepted one."""
        path, memory = [], self.nothing
        for chunk in before:
            path.append(Question(group, name, chunk, memory, self.tables))
            memory = path[-1].after
        moved = True
        for what, chunk in chunks:
            if moved:
                self.questions += [question.repeated() for question in path]
            question = self.ask(group, f"{name} {what}", chunk, memory)
            if moved:
                self.questions[-1 - len(path)].fresh = True
            moved = not question.refusal


def make_plan(tables, given):
    plan = Plan(tables)
    for name, chunks in inputs.recordings():
        plan.series("recordings", name, chunks)
    hand_made = inputs.hand_made()
    for number, chunks in enumerate(hand_made):
        plan.series("hand-made", f"series {number}", chunks)
    for number, chunks in enumerate(inputs.bent_series(hand_made, given.bent)):
        plan.series("hand-made, bent", f"bent series {number}", chunks)
    dice = random.Random(11)
    for refused in (False, True):
        for name, chunks in [*inputs.recordings(), *((f"series {number}", chunks) for number, chunks in enumerate(hand_made))]:
            plan.single_frames(name, chunks, dice, refused)
    for group, chosen in (("examples", inputs.EXAMPLES), ("real", inputs.real_chunks())):
        for name, before, chunk in chosen:
            put = [("", chunk), *inputs.cuts(chunk), *inputs.flips(chunk, places(chunk))]
            plan.variants(f"{group}, cut and bent", name, before, put[::given.every])
    plan.variants("one and two bytes", "chunk", [],
                  itertools.islice(inputs.short_chunks(), 0, None, given.every))
    return plan


def alone(lent, offset, size):
    """A chunk that says the same as a single frame: with an index of that frame alone, or, where it lies outside, refused with 3."""
    if offset + size > len(lent):
        return bytes.fromhex("C001C0")
    return lent[offset:offset + size] + b"\xD8" + size.to_bytes(4, "little") + b"\xD8"


def places(chunk):
    try:
        return expect.split(chunk)
    except expect.Refused:
        return []


# What the program and the Rust answer.

def write_inputs(plan, for_program, for_judge):
    for question in plan.questions:
        if question.fresh:
            for_program.write(program.FRESH)
            for_judge.write(b"fresh\n")
        for_program.write(question.record)
        for_judge.write(question.chunk.hex().encode() + b"\n")
    for file in (for_program, for_judge):
        file.seek(0)


def program_answers(lines):
    """The program's lines, by chunk: each chunk's end with the state."""
    block = []
    for line in lines:
        block.append(line.rstrip("\n"))
        if line.startswith("  state "):
            yield block
            block = []
    if block:
        yield block


def judge_answers(lines):
    """The judge's answers, chunk by chunk."""
    answer = None
    for line in lines:
        line = line.rstrip("\n")
        if line.startswith("chunk "):
            answer = Answer(line)
        elif line.startswith("frame "):
            answer.frames.append([line])
        elif line.startswith("  "):
            answer.frames[-1].append(line)
        elif line.startswith("state "):
            answer.state = state_line(plain_state(line[len("state "):]))
            yield answer


HEADER = re.compile(r"show_existing_frame: (\w+), .*frame_type: (\w+), .* width: (\d+), height: (\d+), .*"
                    r"intra_only: (\w+), .*refresh_frame_flags: (\d+), .*"
                    r"uncompressed_header_size_in_bytes: (\d+) }")


def rust_frame(frame):
    """The lines of a frame of the judge as the program prints them."""
    shown, frame_type, width, height, intra, refresh, length = HEADER.search(frame[1]).groups()
    if shown == "true":
        name = "show"
    elif frame_type == "KeyFrame":
        name = "key"
    else:
        name = "intra" if intra == "true" else "inter"
    _, number, at, size = frame[0].split()
    return [f"{number} {name} {at} {size} {width} {height} {refresh} {length}", *frame[1:]]


def rust_lines(question, answer):
    """The lines that the Rust asks for. It has no refusal numbers; those are the model's."""
    if question.refusal:
        return [question.lines[0], answer.state]
    lines = [line for frame in answer.frames for line in rust_frame(frame)]
    return lines + [answer.state]


# The comparison.

class Counts:
    def __init__(self):
        self.chunks = self.frames = self.rust = self.model_only = self.wrong = 0
        self.refused = collections.Counter()

    def add(self, question, judged):
        self.chunks += 1
        self.frames += question.frames
        self.rust += judged
        self.model_only += not judged
        if question.refusal:
            self.refused[question.refusal] += 1

    def text(self):
        refused = ", ".join(f"{n} of {number}" for number, n in sorted(self.refused.items())) or "none"
        return (f"{self.chunks} chunks, {self.frames} frames; {self.rust} with the Rust and the model, "
                f"{self.model_only} with the model only; refused: {refused}; {self.wrong} differ")


def differences(got, wanted, who):
    """In which lines and fields the program's answer isn't the wanted one."""
    if [line.split()[0] for line in got] != [line.split()[0] for line in wanted] \
            or "refused" in got[0] or "refused" in wanted[0]:
        return [f"program: {got[0][:70]} .. ({len(got)} lines); {who}: {wanted[0][:70]} .. ({len(wanted)} lines)"]
    found = []
    for mine, other in zip(got, wanted):
        if mine != other:
            found += [d.replace("docs/RULES.md:", f"{who}:") for d in field_differences(mine, other)] \
                or [f"program: {mine}", f"{who}: {other}"]
    return found


class Comparison:
    def __init__(self, show):
        self.show, self.counts = show, {}
        self.rust_before = None
        self.number = 0

    def compare(self, question, got, answer):
        if question.fresh:
            self.number, self.rust_before = 0, None
        judged = not question.outside and (self.rust_before or question.before.lines()) == question.before.lines()
        found = self.found(question, got, answer, judged)
        self.remember(question, answer)
        self.number += 1
        counts = self.counts.setdefault(question.group, Counts())
        if not question.again:
            counts.add(question, judged)
        if found:
            counts.wrong += 1
            self.report(question, found)

    def found(self, question, got, answer, judged):
        wanted = self.numbered(question.lines)
        found = differences(got, wanted, "docs/RULES.md") if got != wanted else []
        if not judged:
            return found
        if answer.accepted == bool(question.refusal):
            return found + [f"the Rust: {answer.head}; docs/RULES.md: {question.lines[0]}"]
        wanted = self.numbered(rust_lines(question, answer))
        return found + (differences(got, wanted, "the Rust") if got != wanted else [])

    def numbered(self, lines):
        return [line if line.startswith("  ") else f"{self.number} {line}" for line in lines]

    def remember(self, question, answer):
        """The Rust's state and segment records after this chunk."""
        state, segments = self.rust_before or question.before.lines()
        if answer.accepted:
            segments = answer.frames[-1][2:]
        self.rust_before = answer.state, segments

    def report(self, question, found):
        if self.show > 0:
            self.show -= 1
            print(f"WRONG: {question.group}: {question.where}: bytes {question.chunk[:64].hex().upper()}")
            for line in found[:10]:
                print(f"  {line}")


def run_judge(judge, given, output):
    subprocess.run([judge, "--hex"], stdin=given, stdout=output, stderr=subprocess.DEVNULL, check=True)


def compare_all(plan, given):
    comparison = Comparison(given.show)
    with tempfile.TemporaryFile() as for_program, tempfile.TemporaryFile() as for_judge, \
            tempfile.TemporaryFile("w+") as from_program, tempfile.TemporaryFile("w+") as from_judge:
        write_inputs(plan, for_program, for_judge)
        program.run(given.program, given.tools, for_program, from_program, "series")
        run_judge(given.judge, for_judge, from_judge)
        from_program.seek(0)
        from_judge.seek(0)
        answers = zip(program_answers(from_program), judge_answers(from_judge), strict=True)
        for question, (got, answer) in zip(plan.questions, answers, strict=True):
            comparison.compare(question, got, answer)
    return comparison


def main():
    options = argparse.ArgumentParser(description="compare the proved reader with the Rust and the model")
    options.add_argument("--program", default=program.built("tool_trace"))
    options.add_argument("--judge", default=os.path.join(ROOT, "target", "judge", "judge"))
    options.add_argument("--src", default=os.path.join(ROOT, "..", "shared", "docs", "src"),
                         help="the folder of the crate's sources")
    options.add_argument("--tools", default=program.kit_tools(),
                         help="the kit's folder with bin/ and lib/ for programs")
    options.add_argument("--bent", type=int, default=0, help="how many bent copies of the series")
    options.add_argument("--every", type=int, default=1, help="take each N-th variant and short chunk")
    options.add_argument("--show", type=int, default=20, help="how many differences to print")
    given = options.parse_args()
    for needed in (given.program, given.judge, given.src, given.tools):
        if not os.path.exists(needed):
            print(f"compare: no {needed}", file=sys.stderr)
            sys.exit(2)
    plan = make_plan(expect.read_tables(given.src), given)
    comparison = compare_all(plan, given)
    for group, counts in comparison.counts.items():
        print(f"{group}: {counts.text()}")
    again = sum(question.again for question in plan.questions)
    wrong = sum(counts.wrong for counts in comparison.counts.values())
    print(f"{len(plan.questions) - again} chunks compared, {again} put again to reach a state, {wrong} differences")
    sys.exit(1 if wrong else 0)


if __name__ == "__main__":
    main()
