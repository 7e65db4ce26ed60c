#!/usr/bin/env python3
"""Works out which definitions a reader must believe, counts their lines for docs/ASSUMED.md, and prints them.

From the promises of each part's functions on, every name is followed, through specs/ and to the types of src/
(closure.py). What several parts reach is of the first of them.

A comment at the margin of a file of specs/ that begins with one of some words says what the lines below it are for,
down to the next such comment: `spelling` which bits are a header, `record` what is answered of its values, `refusals`
which number a refused one gets, and what is demanded of an answer. What stands under `reading` and `the code's answer`
is tied to these by theorems and needs no belief, so nothing that a promise reaches may stand there, but for the
definitions of TIED: of these the theorems are followed instead. What stands under `numbers` and `segments` is of calls
that read no header.

Usage: lines.py                   how many lines are to be believed; comments, imports and empty lines aren't counted
       lines.py --text [PART..]   these lines themselves, in the order of reading, of the parts of PARTS that are named,
                                  of `all`, or of `header` if none is
       lines.py --check           exit 1, with the faults, where something is reached that isn't among these lines,
                                  where two definitions of specs/ have one name, or where docs/ASSUMED.md has other
                                  numbers"""

import collections
import fnmatch
import os
import re
import sys

from closure import KIT, MEMBER, ROOT, Reached, World, is_comment, lost_lines, mentions, parts, taken

PROVED = ("reading", "the code's answer")
TOLD = "-- what it answers is said by theorems: see `promised` below"

# Definitions that theorems tie to others: who reads these statements needs no more of such a definition than its type.
TIED = {
    "header_parser/specs/Answer.parsed":
        "header_parser/proofs/Theorems.demanded header_parser/proofs/Theorems.no_other",
    "chunk_frame/specs/Place.frame_placed":
        "chunk_frame/proofs/Theorems.demanded chunk_frame/proofs/Theorems.no_other",
    "chunk_parser/specs/Answer.chunk_of":
        "chunk_parser/proofs/Theorems.demanded chunk_parser/proofs/Theorems.no_other",
    "segment_records/specs/Segmentation.segment_of":
        "segment_records/proofs/Vp9.each_segment_is segment_records/proofs/Vp9.one_after",
}

# What is said of a header, in the order of reading, with what a file is for down to its first such comment.
HEADER = [
    ("spelling", "base_shared/specs/Choice base_bits/specs/Bit"),
    ("refusals", "base_bits/src/lib"),
    ("spelling", "base_bits/specs/Refusal base_syntax/specs/Syntax base_syntax/specs/Many"),
    ("spelling", "base_shared/specs/Lists grammar_tables/specs/Tables"),
    ("spelling", "base_size/* grammar_tables/specs/Header"),
    ("record", "base_enums/src/* base_loop_filter/src/* base_quantization/src/* base_segmentation/src/*"),
    ("record", "base_types/src/*"),
    ("record", "grammar_settings/specs/* grammar_record/specs/* base_enums/specs/*"),
    ("record", "base_loop_filter/specs/* base_quantization/specs/* base_segmentation/specs/*"),
    ("record", "base_types/specs/Header base_slots/specs/*"),
    ("refusals", "header_verdict/*"),
    ("record", "header_answer/* header_parser/src/* header_parser/specs/Answer"),
    ("refusals", "base_syntax/specs/Fault header_parser/specs/Demand"),
]

Part = collections.namedtuple("Part", "rows roots reading")

# Of each part: its rows in docs/ASSUMED.md, by what the lines are for, or one for all; what it starts from, functions
# with their promises or definitions; and the files where it may be said, in the order of reading.
PARTS = {
    "header": Part(
        {"spelling": "which bits are a header: fields, field values, spelling",
         "record": "its record and the state after, with every default",
         "refusals": "the number of a refusal, and the demand"},
        "header_parser/src/lib.parse_frame_header header_verdict/src/lib.header_number",
        HEADER),
    "state": Part({"": "a fresh state"}, "base_types/src/state.ReaderState::Default::*", [("", "base_types/*")]),
    "numbers": Part(
        {"": "the enums' numbers, a segment's features"},
        "base_enums/src/lib.*::* base_segmentation/src/lib.SegmentationParams::*feature*",
        [("", "base_enums/* base_segmentation/*")]),
    "frame": Part(
        {"": "a single frame of a chunk"},
        "chunk_frame/src/lib.parse_frame header_verdict/src/lib.frame_*",
        [("", "header_verdict/* chunk_frame/*")]),
    "chunk": Part(
        {"": "a chunk"},
        "chunk_parser/src/lib.parse_chunk chunk_answer/src/lib.Answer::*",
        [("", "base_shared/* base_types/src/lib base_little/specs/* chunk_index/specs/* chunk_answer/*"),
         ("", "chunk_judged/specs/Demand chunk_parser/*")]),
    "choice": Part(
        {"": "the picture choice"},
        "chunk_choice/src/lib.choose_picture",
        [("", "base_shared/* chunk_choice/*")]),
    "segments": Part(
        {"": "the segment records"},
        "segment_records/src/lib.Segmentation::* segment_quant/src/lib.get_*",
        [("", "base_shared/* base_enums/* base_segmentation/* segment_*/*")]),
    "ivf": Part(
        {"": "IVF files"},
        "ivf_file/src/lib.parse_ivf_header ivf_file/specs/File.file_number ivf_file/src/lib.read_record "
        "ivf_file/specs/Record.record_number ivf_file/src/lib.record_length ivf_reader/src/lib.RecordReader::* "
        "ivf_arriving/src/lib.next_record ivf_arriving/specs/Next.next_number ivf_file/specs/File.file_frame "
        "ivf_file/specs/Records.records_of ivf_reader/specs/Yields.yields ivf_reader/specs/Yields.all_in_turn",
        [("", "base_shared/* base_little/* ivf_*/*")]),
    "listing": Part(
        {"": "the listing"},
        "listing_file/specs/Listing.listing text_frame_line/src/lib.frame_line text_listing/src/lib.*",
        [("", "base_shared/* base_bytes/* ivf_file/specs/Records ivf_walk/specs/Said text_*/* listing_file/specs/*")]),
    "long": Part(
        {"": "what the long form prints"},
        "listing_items/specs/Items.long_form listing_items/specs/Items.item_line",
        [("", "listing_items/specs/*")]),
    "lister": Part(
        {"": "how a lister is fed, and what it wants"},
        "listing_lister/src/lib.Lister::new listing_lister/src/lib.feed listing_lister/specs/Arrival.put_out "
        "listing_lister/specs/Arrival.joined",
        [("", "base_shared/* base_bytes/* ivf_*/* listing_lister/*")]),
}
# base_arrival says of any machine what listing_lister says of its own, under the same names.
GENERAL = {"base_arrival/specs/Arrival", "listing_lister/specs/Arrival"}

PROMISES = "the promises of these functions, and the theorems' statements"

# A field that is declared, given a value, or spelled: a line for each.
ONE_FIELD = re.compile(r"\s+(?:pub \S+ : |pub \w+: |[\w«»-]+ = .*;$|(?:(?:∷|then) )?\w+ .*(?<!= )\bv\.\w)")
FIELDS_SAID = "Of the %d lines of the first two, %d name one field each"
FIELDS = re.compile(FIELDS_SAID.replace(" ", r"\s+").replace("%d", r"(\d+)"))


def matching(world, patterns):
    """The keys of some definitions; where a star stands in one, those of the public functions and theorems it fits."""
    for pattern in patterns.split():
        keys = [key for key in world.definitions if fnmatch.fnmatchcase(key, pattern)]
        keys = [key for key in keys if "*" not in pattern or is_promise(world.definitions[key])]
        yield from keys or [pattern]


def is_promise(definition):
    """A public function of src/ or a public theorem of proofs/."""
    return definition.public and definition.kind in ("fn", "theorem")


def crate_order():
    """The crates from the foundations up, as crates.txt has them."""
    with open(os.path.join(ROOT, "crates.txt"), encoding="utf-8") as text:
        return re.findall(r"^(\w+):", text.read(), re.M)


def module_order(crate):
    """The files of a crate's specs/, as its Lib.antt has them."""
    path = os.path.join(ROOT, "crates", crate, "specs", "Lib.antt")
    if not os.path.exists(path):
        return []
    with open(path, encoding="utf-8") as text:
        return re.findall(r"^pub mod (\w+)", text.read(), re.M)


def in_order(world):
    """All files of src/ and specs/: crate after crate, its types first, and then its specs in their order."""
    keys = []
    for crate in crate_order():
        keys += [key for key in world.files if key.startswith(f"{crate}/src/")]
        keys += [f"{crate}/specs/{name}" for name in module_order(crate)]
    return [key for key in keys if key in world.files]


def files_of(order, reading):
    """The files of a part in the order of reading, and what each is for."""
    words = {}
    for word, patterns in reading:
        for pattern in patterns.split():
            for key in order:
                if fnmatch.fnmatchcase(key, pattern):
                    words.setdefault(key, word)
    return words


class Imports:
    """Which imports have to be told: those that rename, and of names that have two homes."""

    def __init__(self, world):
        self.world = world
        self.homes, self.kit = collections.defaultdict(set), collections.defaultdict(collections.Counter)
        for key, each in world.definitions.items():
            if not re.match(r"(test|tool)_|\w+/proofs/", key) and each.kind != "fn":
                for name in [each.name] + each.constructors:
                    self.homes[name].add(key)
        for file in world.files.values():
            for line in file.uses if "/specs/" in file.key else []:
                for name, target in world.brought_in(line):
                    self.kit[name].update([path_of(line)] if target == KIT else [])

    def told(self, file, names):
        """The imports of a file without which one of these names could be taken for another."""
        return [line for line in file.uses if any(self.is_doubtful(line, name) for name in self.used(line, names))]

    def used(self, line, names):
        """The names among these that an import brings in."""
        brought = [name for _, name in taken(line)] or [name for name, _ in self.world.brought_in(line)]
        return [name for name in brought if any(is_used(part, names) for part in parts(name))]

    def is_doubtful(self, line, name):
        if re.search(r" as %s\b" % re.escape(name.split(".")[0]), line):
            return True
        from_kit = self.world.offered_by(path_of(line).partition("use ")[2]) is None and "::" not in line
        usual = [path for path, _ in self.kit[name].most_common(1)] == [path_of(line)]
        return bool(self.homes[name]) or not usual if from_kit else len(self.homes[name]) > 1


def path_of(line):
    return re.sub(r"\.\{.*| as .*", "", line.replace("ghost ", ""))


def is_used(part, names):
    return part in names or (part.endswith(".") and any(name.startswith(part) for name in names))


class Text:
    """What is to be read of a part: its definitions in order, each with what it is for, and then its promises."""

    def __init__(self, world, imports, order, name, homes):
        self.world, self.imports, self.name = world, imports, name
        self.words = files_of(order, PARTS[name].reading)
        self.tied = {key: list(matching(world, theorems)) for key, theorems in TIED.items()}
        self.reached = Reached(world, self.tied).follow(matching(world, PARTS[name].roots))
        self.whole = self.reached.whole
        self.earlier = [part for part in PARTS if part in {homes.get(key) for key in self.whole}]
        new = [world.definitions[key] for key in self.whole if key in world.definitions and key not in homes]
        self.promises = self.sorted(each for each in new if each.kind == "fn" or is_proof(each))
        rest = [each for each in new if each not in self.promises]
        self.definitions = self.sorted(each for each in rest if self.is_to_be_read(each))
        self.missing = [each for each in rest if each not in self.definitions]

    def is_to_be_read(self, definition):
        return definition.file.key in self.words and not (self.is_apart(definition) and self.whole[definition.key])

    def is_apart(self, definition):
        """Whether the comment above it says that it needs no belief, or is of something else than a header."""
        rows = PARTS[self.name].rows
        return definition.word in PROVED or ("" not in rows and definition.word not in ("", *rows))

    def sorted(self, definitions):
        """In the order of reading, and in a file in its own."""
        theorems = [key.rpartition(".")[0] for keys in self.tied.values() for key in keys]
        files = list(dict.fromkeys([*self.words, *theorems, *sorted(self.world.files)]))
        return sorted(definitions, key=lambda each: (files.index(each.file.key), each.file.definitions.index(each)))

    def row(self, definition):
        """The row of docs/ASSUMED.md that a definition counts in, by the comment above it, or else by its file."""
        rows = PARTS[self.name].rows
        if definition in self.promises:
            return PROMISES
        return rows.get("") or rows.get(definition.word) or rows[self.words[definition.file.key]]

    def faults(self):
        """What is reached and isn't to be read, or can't be followed."""
        for each in self.missing:
            below = f"below `-- {each.word}`" if self.is_apart(each) else "in none of the files that are read"
            yield f"{each.key} is reached by the promises of {self.name}, and stands {below}"
        yield from (f"{each.key} promises nothing" for each in self.promises if not promises_something(each))
        yield from self.reached.wrong + self.reached.lost_fields()

    def shown(self, definition):
        """Its lines; of a theorem its statement, and of a definition that theorems tie its type."""
        if self.whole[definition.key]:
            return [line for line in definition.code if line.strip()]
        return definition.head() + ([] if is_proof(definition) else [TOLD])

    def lines(self):
        """The text line by line, each with its definition, or with None where it is a comment, an import or a name."""
        yield None, f"######## {self.name}\n"
        if self.earlier:
            yield None, f"(What an earlier part says isn't printed again: --text {' '.join(self.earlier)})\n"
        for definitions in (self.definitions, self.promises):
            for file in dict.fromkeys(each.file for each in definitions):
                mine = [each for each in definitions if each.file is file]
                yield from ((None, line) for line in self.top(file, mine))
                yield from self.bodies(mine)

    def top(self, file, definitions):
        """The name of a file, what it says of itself, and the imports that have to be told."""
        promised = definitions[0] in self.promises
        yield f"==== {'promised: ' if promised else ''}{file.path}"
        yield from (line for line in file.top if not promised and "Assumes nothing" not in line)
        yield from self.imports.told(file, {name for each in definitions for name in self.names(each)})
        yield ""

    def names(self, definition):
        return mentions(definition, self.whole[definition.key]).names

    def bodies(self, definitions):
        """The definitions of a file, with what they stand in, and an empty line between two."""
        before = None
        for each in definitions:
            outer = before.outer if before else ()
            if before:
                yield from ((before, line) for line in closing(outer, each.outer))
                yield None, ""
            yield from ((each, line) for line in each.outer if line not in outer)
            yield from ((None, line) for line in each.comment)
            yield from ((each, line) for line in self.shown(each))
            before = each
        yield from ((before, line) for line in closing(before.outer, ()))
        yield None, ""

    def counted(self):
        """How many lines count in which row, and how many of these name one field."""
        count, fields = collections.Counter(), collections.Counter()
        for each, line in self.lines():
            if each and line.strip() and not is_comment(line):
                count[self.row(each)] += 1
                fields[self.row(each)] += ONE_FIELD.match(line) is not None
        return count, fields


def is_proof(definition):
    return "/proofs/" in definition.file.key


def promises_something(definition):
    return is_proof(definition) or any("ensures" in line or MEMBER.match(line) for line in definition.code)


def closing(outer, following):
    """The end of a block of src/ that what follows doesn't stand in."""
    return ["}"] if outer and outer != following and outer[-1].startswith("impl") else []


def all_texts():
    """The parts in their order; what a part has is left out of the later ones."""
    world = World()
    imports, order, homes, texts = Imports(world), in_order(world), {}, []
    for name in PARTS:
        texts.append(Text(world, imports, order, name, homes))
        homes.update({key: name for key in texts[-1].whole if key not in homes})
    return world, texts


def rows(texts):
    """The numbers for docs/ASSUMED.md, row by row, and how many of the lines of each name one field."""
    count = {row: 0 for part in PARTS.values() for row in part.rows.values()}
    count[PROMISES] = 0
    fields = collections.Counter()
    for text in texts:
        lines, named = text.counted()
        fields.update(named)
        for row, number in lines.items():
            count[row] += number
    return count, fields


def first_two(count, fields):
    """The lines that say which bits are a header and what its record is, and how many of these name one field."""
    both = list(PARTS["header"].rows.values())[:2]
    return sum(count[row] for row in both), sum(fields[row] for row in both)


def doubled(world):
    """Names that two definitions of specs/ have."""
    keys = collections.defaultdict(list)
    for each in (each for file in world.files.values() for each in file.definitions if "/specs/" in file.key):
        keys[each.name].append(each)
    return [f"{name} has {len(found)} definitions: {', '.join(each.key for each in found)}"
            for name, found in sorted(keys.items())
            if len(found) > 1 and {each.file.key for each in found} != GENERAL]


def untied(world):
    """Definitions that none of their theorems names."""
    for key, patterns in TIED.items():
        theorems = [world.definitions[each] for each in matching(world, patterns) if each in world.definitions]
        if not any(key in mentions(each, False).keys for each in theorems):
            yield f"{key}: none of its theorems names it"


def page_faults(count, fields):
    """Where docs/ASSUMED.md says other numbers."""
    with open(os.path.join(ROOT, "docs", "ASSUMED.md"), encoding="utf-8") as text:
        page = text.read()
    table = re.search(r"^\| Part \| Lines to believe \|\n.*\n((?:\|.*\n)*)", page, re.M)
    said = dict(re.findall(r"^\| (.*?) \| ([\d,]+) \|$", table.group(1) if table else "", re.M))
    for row, number in count.items():
        if said.pop(row, "no").replace(",", "") != str(number):
            yield f"docs/ASSUMED.md: this row should stand in its table: | {row} | {number} |"
    yield from (f"docs/ASSUMED.md: nothing is counted for the row | {row} |" for row in said)
    for found in FIELDS.finditer(page):
        if tuple(map(int, found.groups())) != first_two(count, fields):
            yield "docs/ASSUMED.md should say: " + FIELDS_SAID % first_two(count, fields)


def check():
    """Prints all that is wrong, and answers 1 if there is something."""
    world, texts = all_texts()
    wrong = [fault for text in texts for fault in text.faults()]
    wrong += [*lost_lines(world), *untied(world), *doubled(world), *page_faults(*rows(texts))]
    wrong = list(dict.fromkeys(wrong))
    for fault in wrong:
        print(fault)
    found = sum(len(text.definitions) for text in texts)
    print(f"{found} definitions are to be believed, in {len(texts)} parts; {len(wrong) or 'no'} faults")
    return 1 if wrong else 0


def print_text(names):
    """Prints the lines of some parts, and answers 1 if something that they reach is missing."""
    names = list(PARTS) if "all" in names else names or ["header"]
    if set(names) - set(PARTS):
        sys.exit(f"no such part: {' '.join(set(names) - set(PARTS))}; there are {' '.join(PARTS)} and all")
    texts = [text for text in all_texts()[1] if text.name in names]
    for text in texts:
        print("\n".join(line for _, line in text.lines()))
    wrong = dict.fromkeys(fault for text in texts for fault in text.faults())
    print("".join(fault + "\n" for fault in wrong), end="", file=sys.stderr)
    return 1 if wrong else 0


def print_rows():
    """Prints the table for docs/ASSUMED.md."""
    count, fields = rows(all_texts()[1])
    for row, number in count.items():
        print(f"| {row} | {number} |")
    print(FIELDS_SAID % first_two(count, fields))
    return 0


def main():
    arguments = sys.argv[1:]
    if arguments == ["--check"]:
        return check()
    if arguments[:1] == ["--text"]:
        return print_text(arguments[1:])
    if arguments:
        sys.exit(__doc__)
    return print_rows()


if __name__ == "__main__":
    sys.exit(main())
