"""Reads what a reader answers: the judge's form and the long listing."""
import re


TOKEN = re.compile(r"\s*([A-Za-z_][A-Za-z_0-9]*|-?\d+|[{}\[\],:])")


def parse_debug(text):
    """Records as dicts, lists as lists, numbers, flags and names as they are."""
    tokens = TOKEN.findall(text)
    value, end = parse_value(tokens, 0)
    if end != len(tokens):
        raise ValueError("more than one value: " + text[:60])
    return value


def parse_value(tokens, at):
    token = tokens[at]
    if token == "[":
        return parse_list(tokens, at + 1)
    if token in ("true", "false"):
        return token == "true", at + 1
    if token.lstrip("-").isdigit():
        return int(token), at + 1
    if at + 1 < len(tokens) and tokens[at + 1] == "{":
        return parse_record(tokens, at + 2)
    return token, at + 1


def parse_list(tokens, at):
    items = []
    while tokens[at] != "]":
        item, at = parse_value(tokens, at)
        items.append(item)
        at += tokens[at] == ","
    return items, at + 1


def parse_record(tokens, at):
    record = {}
    while tokens[at] != "}":
        name = tokens[at]
        record[name], at = parse_value(tokens, at + 2)
        at += tokens[at] == ","
    return record, at + 1


class Chunk:
    """One chunk's answer: frames as (offset, size, header), or a refusal."""

    def __init__(self, refusal=None):
        self.refusal = refusal
        self.frames = []
        self.state = None


def read_judge(text):
    chunks = []
    for line in text.splitlines():
        words = line.split()
        if words[0] == "chunk":
            chunks.append(Chunk(None if words[2] == "accepted" else line))
        elif words[0] == "frame":
            place = int(words[2]), int(words[3])
        elif line.startswith("  Header "):
            chunks[-1].frames.append(place + (parse_debug(line),))
        elif words[0] == "state":
            chunks[-1].state = parse_debug(line[6:])
        elif words[0] == "file":
            chunks.append(Chunk(line))
    return chunks


def read_listing(text):
    chunks = {}
    for line in text.splitlines()[1:]:
        words = line.split()
        if line.startswith("  Header "):
            chunk.frames.append(place + (parse_debug(line),))
        elif words[1] == "refused" or words[0] == "file":
            chunks[words[0]] = Chunk(line)
        elif words[0].isdigit() and words[1].isdigit():
            chunk = chunks.setdefault(words[0], Chunk())
            place = int(words[3]), int(words[4])
    return list(chunks.values())
