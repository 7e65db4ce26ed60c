"""The definitions of the crates, and what each of them names: for lines.py.

A file of specs/ or proofs/ is read into its definitions, a file of src/ into its types, constants and functions; of a
function the head with its promise is kept. A function of a trait is promised by the trait's ghost members, which are
kept with it; its name is TYPE::TRAIT::FUNCTION, as `u32::From<Profile>::from`. A name is looked up as the prover does
it: among the file's own, and what its `use` lines bring in. What comes from the kit is a leaf. A name that is found
nowhere is a fault, so that nothing is passed over. A field's name isn't followed: its record is reached by the types,
and that it is one is checked."""

import os
import re

ROOT = os.path.abspath(os.path.join(os.path.dirname(os.path.abspath(__file__)), "..", ".."))
CRATES = os.path.join(ROOT, "crates")
WORDS = re.compile(r"-- (spelling|record|refusals|reading|the code's answer|numbers|segments)\b")

KIT = "the kit"
# What the language itself has, and what a promise may say.
LANGUAGE = set("Type → × Unit ⊥ tt λ let in record do ← = : where _ . ⌜ ⌝ requires ensures".split())
PROMISE = {"result", "self"}
# The fields of a reference.
REFERENCE = {"now", "old", "new", "entry", "exit", "ref_ptr"}
RUST = set("pub mut self usize isize bool true false u8 u16 u32 u64 i8 i16 i32 i64".split())
# Types that the kit has, unless a crate has its own of that name.
KIT_TYPES = {"Result", "Option"}

TOKEN = re.compile(r'"(?:\\.|[^"\\])*"|--.*|[(){};,]|(?:(?<=\s)|(?<=[({]))\.[^\s(){};,.]+|[^\s(){};,"]+')
HEAD = re.compile(r"\s*(?:(?:abbrev|unfoldable) )?(?:pub )?(?:(data|record) (\S+)|(\S+) :(?: |$))")
IMPL = re.compile(r"impl(?:<.*?>)? (?:(\w+(?:<.*?>)?) for )?(\w+)")
MEMBER = re.compile(r"\s*ghost (?!use )(\w+) = (.*)")
USE = re.compile(r"(?:ghost )?use (\S+?)(?:\.\{(.*)\}| as (\S+?))?;?$", re.S)


class Definition:
    """A definition, type, constant, function or theorem: where it stands, its lines, and what it is for."""

    def __init__(self, file, name, kind, outer, word):
        self.file, self.name, self.kind, self.outer, self.word = file, name, kind, tuple(outer), word
        self.comment, self.code, self.in_body = [], [], False
        self.constructors, self.fields = [], []

    @property
    def key(self):
        return f"{self.file.key}.{self.name}"

    @property
    def public(self):
        return any(re.match(r"\s*(abbrev |unfoldable )?pub ", line) for line in self.code) or self.of_trait

    @property
    def of_trait(self):
        """Whether it stands in an `impl` of a trait, whose functions are public though no `pub` says so."""
        return any(IMPL.match(line) and IMPL.match(line).group(1) for line in self.outer)

    def head(self):
        """The lines down to the first equation: of a definition its type, of a theorem its statement."""
        lines = [line for line in self.code if not is_comment(line)]
        start = next(i for i, line in enumerate(lines) if not line.lstrip().startswith("infix"))
        stop = start + 1
        while stop < len(lines) and (not lines[stop].strip() or indent(lines[stop]) > indent(lines[start])):
            stop += 1
        return lines[start:stop]


class File:
    """A file's definitions in its order, and the names that it knows."""

    def __init__(self, key):
        self.key = key
        self.crate = key.split("/")[0]
        self.path = os.path.join("crates", key + (".rt" if "/src/" in key else ".antt"))
        self.top, self.uses, self.definitions = [], [], []
        self.scope = {}


def indent(line):
    return len(line) - len(line.lstrip())


def is_comment(line):
    return re.match(r"\s*(--|//)", line) is not None


# Reading a file of definitions.

def read_definitions(file, lines):
    """The definitions of a file of specs/ or proofs/, each with the comment just above it."""
    word, outer, waiting, current = "", [], [], None
    for line in whole_uses(lines):
        said = WORDS.match(line)
        word = said.group(1) if said else word
        while line.strip() and outer and indent(line) <= indent(outer[-1]):
            outer.pop()
        level = indent(outer[-1]) + 2 if outer else 0
        if line.startswith("use ") or line.startswith("pub mod "):
            file.top, waiting = file.top or waiting, []
            file.uses += [line] if line.startswith("use ") else []
        elif not line.strip():
            file.top, waiting = file.top or ([] if file.definitions else waiting), []
        elif line.lstrip().startswith("module "):
            outer.append(line)
            waiting, current = [], None
        elif indent(line) == level and (is_comment(line) or line.lstrip().startswith("infix")):
            waiting.append(line)
        elif indent(line) == level and HEAD.match(line):
            kind, *names = HEAD.match(line).groups()
            current = Definition(file, names[0] or names[1], kind or plain_kind(file, line), outer, word)
            current.comment = [each for each in waiting if is_comment(each)]
            current.code = [each for each in waiting if not is_comment(each)] + [line]
            file.definitions.append(current)
            waiting = []
        elif current:
            current.code += waiting + [line]
            waiting = []
    for each in file.definitions:
        name_parts(each)


def plain_kind(file, line):
    """In proofs/, what isn't written as a definition is a theorem."""
    is_theorem = "/proofs/" in file.key and not re.match(r"\s*(abbrev|unfoldable) ", line)
    return "theorem" if is_theorem else "definition"


def whole_uses(lines):
    """The lines, a `use` that runs over several being one."""
    waiting = ""
    for line in lines:
        waiting += line.rstrip("\n") if not waiting else " " + line.strip()
        if re.match(r"(ghost )?use ", waiting) and waiting.count("{") > waiting.count("}"):
            continue
        yield waiting
        waiting = ""


def name_parts(definition):
    """The constructors of data, and the fields of a record."""
    if definition.kind in ("data", "record"):
        names = [words(item)[0] for item in inner_items(definition)]
        names = [name for name in names if name]
        definition.constructors = names if definition.kind == "data" else []
        definition.fields = names if definition.kind == "record" else []


def inner_items(definition):
    """What stands inside data or a record: each constructor or field with its type."""
    return items(split_inside(definition)[1])


def split_inside(definition):
    """The lines of data or a record down to its `where`, and those behind it."""
    lines = [line for line in definition.code if not is_comment(line)]
    stop = next((i for i, line in enumerate(lines) if re.search(r"\bwhere$", line)), len(lines))
    return lines[:stop + 1], lines[stop + 1:]


def items(lines):
    """Lines in groups, a group being a line and those further in below it."""
    groups = []
    for line in lines:
        if line.strip() and (not groups or indent(line) <= indent(groups[0][0])):
            groups.append([line])
        elif line.strip():
            groups[-1].append(line)
    return ["\n".join(group) for group in groups]


# Reading a file of code.

def read_code(file, lines):
    """The types, constants and functions of a file of src/; of a function the head with its promise."""
    outer, waiting, members, current = [], [], [], None
    for place, line in enumerate(whole_uses(lines)):
        bare = line.strip()
        if current:
            current = add_line(current, line)
        elif bare.startswith("//"):
            file.top += [line] if place == len(file.top) else []
            waiting.append(line)
        elif re.match(r"(pub |ghost )*use ", bare):
            file.uses.append(bare)
            waiting = []
        elif bare.startswith("#"):
            continue
        elif bare.startswith("impl"):
            outer, waiting, members = [line], [], []
        elif MEMBER.match(line) or (members and not members[-1].endswith("};")):
            members.append(line)
        elif line == "}":
            outer, waiting, members = [], [], []
        else:
            current = begin(file, line, outer, waiting, members)
            waiting = []
    for each in file.definitions:
        code_parts(each)


def begin(file, line, outer, comment, members):
    """A definition of src/ that starts on this line, or None; what ends on it is put away at once."""
    found = re.match(r"\s*(?:pub )?(struct|enum|type|const|fn) (\w+)", line)
    if not found:
        return None
    trait, owner = IMPL.match(outer[0]).groups() if outer else (None, None)
    name = "::".join(each for each in (owner, trait, found.group(2)) if each)
    current = Definition(file, name, found.group(1), outer, "")
    current.comment = list(comment)
    current.code = list(members) if current.kind == "fn" else []
    file.definitions.append(current)
    return add_line(current, line)


def add_line(current, line):
    """The definition with one more line, or None where it has ended. The body of a function is passed by."""
    level = indent(current.code[0]) if current.code else indent(line)
    if current.in_body:
        return None if line == " " * level + "}" else current
    if current.kind == "fn" and line.endswith("{") and not re.match(r"\s*(requires|ensures)\b", line):
        current.code += [line.rstrip("{ ")] if line.strip() != "{" else []
        current.in_body = True
        return current
    current.code.append(line)
    ends = {"type": (";",), "const": (";",), "struct": (";", "}")}.get(current.kind, ("}",))
    ended = current.kind != "fn" and line.endswith(ends) and indent(line) == level
    return None if ended else current


def code_parts(definition):
    """The fields of a struct, and the variants of an enum."""
    lines = [line.strip() for line in definition.code[1:] if not is_comment(line)]
    if definition.kind == "struct":
        definition.fields = [found.group(1) for found in map(re.compile(r"(?:pub )?(\w+):").match, lines) if found]
    if definition.kind == "enum":
        definition.constructors = [re.match(r"\w+", line).group(0) for line in lines if re.match(r"\w", line)]


# What a text names.

def words(text):
    """The name that a text begins with, behind `pub`, and the other tokens; comments and strings are left out."""
    tokens = [token for token in TOKEN.findall(text) if not token.startswith("--") and not token.startswith('"')]
    while tokens and tokens[0] in ("pub", "abbrev", "unfoldable", "data", "record"):
        tokens = tokens[1:]
    return (tokens[0], tokens[1:]) if tokens else (None, [])


def is_name(token):
    return token not in "(){};," and not token.startswith(".") and token not in LANGUAGE and not is_number(token)


def is_number(token):
    return re.fullmatch(r"0x[0-9a-fA-F]+|\d+", token) is not None


def bound(tokens):
    """The names that are bound in a text: by λ, let, an arrow, or with a type in brackets."""
    names = set()
    for place, token in enumerate(tokens):
        rest = tokens[place + 1:]
        if token == "λ":
            names |= set(outside(up_to(rest, lambda t: t.endswith("."), True)))
        elif token == "let":
            names |= set(up_to(rest, lambda t: t in ("=", ":")))
        elif token in "({":
            names |= set(typed(rest))
        elif token == "←":
            names.add(tokens[place - 1])
    return {name.rstrip(".") for name in names if is_name(name.rstrip("."))}


def up_to(tokens, stop, last=False):
    """The tokens down to the first that stops, that one too if `last` holds."""
    for place, token in enumerate(tokens):
        if stop(token):
            return tokens[:place + last]
    return tokens


def outside(tokens):
    """The tokens outside brackets."""
    depth, found = 0, []
    for token in tokens:
        depth += (token in "({") - (token in ")}")
        found += [token] if depth == 0 else []
    return found


def typed(tokens):
    """The names right behind a bracket that a colon follows."""
    names = up_to(tokens, lambda t: not is_name(t))
    return names if tokens[len(names):len(names) + 1] == [":"] else []


def split_at_equals(tokens):
    """What stands before and behind the first `=` outside brackets."""
    depth = 0
    for place, token in enumerate(tokens):
        depth += (token in "({") - (token in ")}")
        if token == "=" and depth == 0:
            return tokens[:place], tokens[place + 1:]
    return tokens, []


def sort_out(tokens):
    """The names in a text, and the fields: those behind a dot, and those that a record is written with."""
    names, fields, braces = set(), set(), []
    for place, token in enumerate(tokens):
        before, after = tokens[place - 1:place], tokens[place + 1:place + 2]
        if token == "{":
            braces.append(before == ["record"])
        elif token == "}":
            braces.pop()
        elif token.startswith(".") and len(token) > 1:
            fields.add(token[1:].strip("«»"))
        elif braces and before and before[0] in "{;" and after == ["="]:
            fields |= {token.strip("«»")} if braces[-1] else set()
        elif is_name(token.rstrip(".") or token):
            names.add(token.rstrip("."))
    return names, {field for field in fields if not is_number(field)}


class Named:
    """What a text names: definitions, fields, what isn't known, and names that it binds though the file knows them."""

    def __init__(self):
        self.keys, self.names, self.fields, self.unknown, self.hidden = set(), set(), set(), set(), set()

    def take(self, scope, tokens, local, known=()):
        names, fields = sort_out(tokens)
        for name in [name for name in names if "." in name and meaning(scope, name) is None]:
            first, *rest = name.split(".")
            names = names - {name} | {first}
            fields = fields | {field.strip("«»") for field in rest if not is_number(field)}
        self.fields |= fields
        for name in names - local - set(known):
            self.look_up(scope, name)
        if "do" in tokens:
            self.look_up(scope, ">>=")
        self.hidden |= {name for name in names & local if scope.get(name, KIT) != KIT}

    def look_up(self, scope, name):
        target = meaning(scope, name)
        self.names.add(name)
        if target is None:
            self.unknown.add(name)
        elif target != KIT:
            self.keys.add(target[0])


def meaning(scope, name):
    """What a name stands for in a file; behind another name for a part of the kit everything is the kit's."""
    return scope.get(name) or scope.get(name.split(".")[0] + ".")


def mentions(definition, whole=True):
    """What a definition names; of its type or statement alone where it isn't to be read whole."""
    named = Named()
    if "/src/" in definition.file.key:
        code_mentions(definition, named)
        return named
    scope = definition.file.scope
    local = set()
    for line in definition.outer:
        tokens = words(line)[1]
        local |= bound(tokens)
        named.take(scope, tokens, local, ("module",))
    if definition.kind in ("data", "record"):
        record_mentions(definition, named, scope, local)
        return named
    head = words("\n".join(definition.head()))[1]
    named.take(scope, head, local | bound(head))
    for equation in equations(definition) if whole else []:
        equation_mentions(definition, equation, named, scope, local)
    return named


def equations(definition):
    lines = [line for line in definition.code if not is_comment(line)]
    lines = [line for line in lines if not line.lstrip().startswith("infix")]
    return items(lines[len(definition.head()):])


def record_mentions(definition, named, scope, local):
    """Of data and of a record: the parameters, and the types of constructors and fields."""
    head = words("\n".join(split_inside(definition)[0]))[1]
    local = local | set(definition.fields) | bound(head)
    named.take(scope, head, local)
    for item in inner_items(definition):
        tokens = words(item)[1]
        named.take(scope, tokens, local | bound(tokens))


def equation_mentions(definition, text, named, scope, local):
    """Of an equation: the constructors that it takes apart, what it says, and its own definitions behind `where`."""
    main, _, inner = re.sub(r"--.*", "", text).partition("\n" + " " * (indent(text) + 2) + "where\n")
    pieces = [main] + items(inner.split("\n"))
    local = set(local)
    sides = []
    for place, piece in enumerate(pieces):
        first, rest = words(piece)
        if rest[:1] == [":"]:
            local |= {first} | bound(rest)
            sides.append(rest)
            continue
        left, right = split_at_equals([first] + rest)
        patterns = {name for name in sort_out(left)[0] if not is_pattern(scope, name)} - parts(definition.name)
        local |= patterns | bound(right) | ({first} if place else set())
        sides += [left, right]
    for side in sides:
        named.take(scope, side, local, parts(definition.name) if side is sides[0] else ())


def is_pattern(scope, name):
    """A name in a pattern that binds nothing: a constructor, or one of the kit's."""
    target = meaning(scope, name)
    return target == KIT or (target is not None and target[1])


def parts(name):
    """A name as it stands in a text: an operator's without its places."""
    return {name} | {part for part in name.split("◌") if part and name.strip("◌") != name}


def code_mentions(definition, named):
    """Of a type, constant or function of src/: the types and constants, and what the promise names."""
    text = "\n".join(line for line in definition.code if not is_comment(line))
    members, text = re.match(r"((?:\s*ghost .*?\};\n)*)(.*)$", text, re.S).groups()
    text, promise = re.match(r"(.*?)((?:\n\s*(?:requires|ensures)\b.*)?)$", text, re.S).groups()
    local = set(re.findall(r"(\w+):", text)) | {f"«{name}»" for name in re.findall(r"(\w+):", text)}
    promise = re.sub(r"\b(requires|ensures) \w+ \{", r"\1 {", promise)
    promise = re.sub(r"\bghost \w+ = (.*?\});", r"\1", members, flags=re.S) + promise
    tokens = [token for token in TOKEN.findall(promise) if not token.startswith('"')]
    named.take(definition.file.scope, tokens, local | bound(tokens) | PROMISE)
    generic = re.search(r"\b(?:fn|struct|enum|type) \w+<(.*?)>", text)
    generic = re.findall(r"\w+", generic.group(1)) if generic else []
    text = re.sub(r"'\w+", "", re.sub(r"(\w+):(?!:)", "", re.sub(r"\b(fn|struct|enum|type|const) \w+", "", text)))
    own = definition.name.split("::")[0]
    named.keys |= look_up_path(definition.file, [own]) if definition.outer else set()
    for path in re.findall(r"\w+(?:::\w+)*", text):
        steps = [own if step == "Self" else step for step in path.split("::")]
        if steps[0] in RUST or is_number(steps[0]) or steps[0] in definition.constructors + generic:
            continue
        keys = look_up_path(definition.file, steps)
        named.names.add(steps[0])
        named.keys |= keys
        named.unknown |= set() if keys or steps[0] in KIT_TYPES else {path}


def taken(line):
    """The crate or module, and the name, of each item that a `use` line of code brings in."""
    found = re.match(r"(?:pub )?use (\w+)::(?:(\w+)|\{(.*)\});", line)
    for name in re.findall(r"\w+", found.group(2) or found.group(3)) if found else []:
        yield found.group(1), name


def look_up_path(file, steps):
    """The type of a path, and its constant where it names one."""
    crates = file.world.crates
    if steps[0] in crates and len(steps) > 1:
        names, steps = crates[steps[0]], steps[1:]
    else:
        names = {**crates[file.crate], **file.rust}
    keys = {names[steps[0]]} if steps[0] in names else set()
    for key in list(keys) if len(steps) > 1 else []:
        constant = f"{key}::{steps[1]}"
        keys |= {constant} if constant in file.world.definitions else set()
    return keys


# All files.

class World:
    """All definitions by their keys, and all files."""

    def __init__(self):
        self.files, self.definitions, self.crates = {}, {}, {}
        for crate in sorted(os.listdir(CRATES)):
            self.crates[crate] = {}
            for part in ("specs", "src", "proofs"):
                self.read_folder(crate, part)
        for file in self.files.values():
            file.world = self
            file.rust = self.rust_names(file)
            file.scope = self.known(file)

    def read_folder(self, crate, part):
        folder = os.path.join(CRATES, crate, part)
        for name in sorted(os.listdir(folder)) if os.path.isdir(folder) else []:
            base, end = os.path.splitext(name)
            if end in (".antt", ".rt") and base != "Lib":
                self.read_file(File(f"{crate}/{part}/{base}"))

    def read_file(self, file):
        with open(os.path.join(ROOT, file.path), encoding="utf-8") as text:
            (read_code if "/src/" in file.key else read_definitions)(file, [line.rstrip("\n") for line in text])
        self.files[file.key] = file
        for each in file.definitions:
            self.definitions[each.key] = each
            if "/src/" in file.key and "::" not in each.name and each.kind != "fn":
                self.crates[file.crate].setdefault(each.name, each.key)

    def rust_names(self, file):
        """The types and constants that a file of src/ brings in."""
        names = {}
        for line in file.uses:
            for crate, name in taken(line):
                home = self.crates.get(crate, self.crates[file.crate])
                names.update({name: home[name]} if name in home else {})
        return names

    def known(self, file):
        """What each name stands for in a file: a definition's key and whether it is a constructor, or the kit."""
        scope = {}
        for line in file.uses:
            for name, target in self.brought_in(line):
                scope.update({part: target for part in parts(name)})
        own = self.offered(file.key) if "/src/" not in file.key else self.types(file)
        for name, target in own.items():
            scope.update({part: target for part in parts(name)})
        return scope

    def types(self, file):
        """The types that a promise may name as its file of src/ does, and their variants."""
        names = {}
        for name, key in {**self.crates[file.crate], **file.rust}.items():
            names[name] = (key, False)
            names.update({f"{name}.{each}": (key, True) for each in self.definitions[key].constructors})
        return names

    def brought_in(self, line):
        """The names that a `use` line brings in, and what each stands for."""
        found = USE.match(line)
        if not found or "::" in line:
            return
        path, names, alias = found.groups()
        offered = self.offered_by(path)
        for name in re.split(r"\s*,\s*", names.strip().strip(",")) if names else []:
            name, _, other = name.partition(" as ")
            target = KIT if offered is None else offered.get(name)
            if target:
                yield other or name, target
        if alias and offered is None:
            yield f"{alias}.", KIT
        elif alias:
            yield from ((f"{alias}.{name}", target) for name, target in offered.items())

    def offered_by(self, path):
        """What a path of a `use` line has to offer, or None where it is the kit's."""
        found = re.match(r"Rattle\.(\w+)\.(specs|proofs)\.(.*)", path)
        if not found or found.group(1) not in self.crates:
            return None
        crate, part, module = found.groups()
        if not module.startswith("declared."):
            return self.offered(f"{crate}/{part}/{module}")
        steps = module.split(".")[1:]
        variants = steps[-1] == "TheVariants"
        steps = steps[:-1] if variants else steps
        key = f"{crate}/src/{'/'.join(steps[:-1]) or 'lib'}.{steps[-1]}"
        if key not in self.definitions:
            return {}
        names = self.definitions[key].constructors if variants else [steps[-1]]
        return {name: (key, variants) for name in names}

    def offered(self, key):
        """The definitions of a file, and their constructors."""
        names = {}
        for each in self.files[key].definitions if key in self.files else []:
            names[each.name] = (each.key, False)
            names.update({name: (each.key, True) for name in each.constructors})
        return names


def lost_lines(world):
    """Lines of specs/ that aren't of any definition: then this file can't read them."""
    for file in world.files.values():
        if "/specs/" not in file.key:
            continue
        kept = {line for each in file.definitions for line in each.code + each.comment + list(each.outer)}
        with open(os.path.join(ROOT, file.path), encoding="utf-8") as text:
            for line in text.read().split("\n"):
                if line.strip() and not is_comment(line) and not line.startswith("use ") and line not in kept:
                    yield f"{file.path}: isn't of any definition: {line.strip()}"


class Reached:
    """All that some roots reach, by key, and whether it is to be read whole; and what was wrong on the way."""

    def __init__(self, world, tied):
        self.world, self.tied = world, tied
        self.whole, self.wrong, self.fields = {}, [], {}

    def follow(self, keys):
        """Follows names from these on. Of a definition that theorems tie to others, these theorems are followed."""
        waiting = list(keys)
        while waiting:
            key = waiting.pop()
            if key in self.whole:
                continue
            theorems = self.tied.get(key)
            self.whole[key] = theorems is None and key not in self.theorems()
            waiting += theorems or []
            waiting += sorted(self.named(key))
        return self

    def theorems(self):
        return {theorem for theorems in self.tied.values() for theorem in theorems}

    def named(self, key):
        """What a definition names, and the faults in it."""
        definition = self.world.definitions.get(key)
        if definition is None:
            self.wrong.append(f"{key}: there is no such definition")
            return set()
        named = mentions(definition, self.whole[key])
        self.wrong += [f"{key} names {name}, which is found nowhere" for name in sorted(named.unknown)]
        self.wrong += [f"{key} binds {name}, which is a definition too" for name in sorted(named.hidden)]
        self.fields.update({field: key for field in named.fields})
        return named.keys

    def lost_fields(self):
        """Fields that no type among the reached has: then a type would be missing."""
        known = REFERENCE | {field for key in self.whole if key in self.world.definitions
                             for field in self.world.definitions[key].fields}
        return [f"{key} names the field {field}, which nothing reached has"
                for field, key in sorted(self.fields.items()) if field not in known]
