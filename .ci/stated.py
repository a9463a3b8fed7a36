"""What the files of a crate state and what they bring in of crates below: all that decides whether a body keeps its clauses.

Definitions decide it, what called functions require and ensure, and types; lemmas and the bodies of other functions don't. So of the crates below there
is what a crate's sources and definitions bring in by name, and what that names in turn: definitions of specs/, heads and clauses of
functions, and types with their models. Names are taken by the word, so there may be more than is read, and not less.
"""

import re
from dataclasses import dataclass, field
from functools import cache
from pathlib import Path

TOP = Path(__file__).resolve().parent.parent
CRATES = TOP / "crates"
WORD = re.compile(r"[^\s(){}\[\],;:.&<>'\"!?|=]+|[≤<>=|&!?]+")
# A text literal, or a character.
LITERAL = re.compile(r"""r#".*?"#|"(?:[^"\\]|\\.)*"|'(?:[^'\\\n]|\\[^'\n]+)'""", re.DOTALL)
USED = re.compile(r"^ *(?:pub )?(?:ghost )?use Rattle\.(\w+)\.(?:specs|proofs)((?:\.[^\s.{;]+)*)(?:\.\{([^}]*)\})?", re.MULTILINE)
BROUGHT = re.compile(r"^ *(?:pub )?use (\w+)((?:::\w+)*)(?:::\{([^}]*)\})?;", re.MULTILINE)
# A declaration of a definition file, and the names that one declares.
DEFINED = re.compile(r"(?:(?:pub|abbrev|unfoldable) )*(?:(?:record|data|module) (\S+)|([^\s:(){}]+) :)(?: |$)")
NAMED = re.compile(r"^ *(?:(?:pub|abbrev|unfoldable) )*(?:(?:record|data) (\S+)|([^\s:(){}]+) :)(?: |$)", re.MULTILINE)
# An item of a source, and what an impl is of.
ITEM = re.compile(r"(?:pub(?:\(\w+\))? )?(?:const |unsafe )*(?:struct|enum|trait|fn|const|static|type|macro_rules!) (\w+)|impl\b|#\[|(?:pub )?mod ")
HELD = re.compile(r"impl(?:<.*?>)? (?:(?:\w+::)*(\w+)(?:<.*?>)? for )?(?:\w+::)*(\w+)")
FUNCTION = re.compile(r"( *)(?:pub(?:\(\w+\))? )?(?:const |unsafe )*fn (\w+)")
CALLED = re.compile(r"(?:\.|::)(\w+)")


@dataclass(eq=False)
class Item:
    """A definition, a type, or a function by its head and clauses; of a method, the type that it is of."""

    file: "File"
    names: set
    text: str
    holder: str = ""


@dataclass(eq=False)
class File:
    """A file of a crate with its items, and where each name that it brings in stands: the crate, and the name with the modules above it."""

    crate: str
    brings: dict = field(default_factory=dict)
    items: list = field(default_factory=list)


def folded(text):
    """A text without what is white, but for what stands in literals."""
    parts, at = [], 0
    for literal in LITERAL.finditer(text):
        parts += ["".join(text[at : literal.start()].split()), literal[0]]
        at = literal.end()
    return "".join([*parts, "".join(text[at:].split())])


def code_of(path):
    """The lines of a file without empty ones and comments that have a line of their own."""
    mark = "//" if path.suffix == ".rt" else "--"
    return [line for line in path.read_text(encoding="utf-8").splitlines() if line.strip() and not line.lstrip().startswith(mark)]


@cache
def crate_names():
    """Each crate with what it names, in the order of crates.txt."""
    lines = (line.partition("#")[0].partition(":") for line in (TOP / "crates.txt").read_text(encoding="utf-8").splitlines())
    return {name.split()[0]: others.split() for name, colon, others in lines if colon}


def pieces(lines, begins):
    """The lines in pieces: each begins at a line that does so, but for what stands before the first."""
    found = [[]]
    for line in lines:
        if begins(line):
            found.append([])
        found[-1].append(line)
    return [piece for piece in found if piece]


def heads(lines):
    """The lines of a source without the bodies of its functions."""
    kept, indent, is_body = [], None, False
    for line in lines:
        if is_body:
            is_body = line != indent + "}"
            continue
        function = FUNCTION.match(line)
        indent = function[1] if function else indent
        kept.append(line)
        if indent is not None and line.endswith(";"):
            indent = None
        elif indent is not None and line.endswith("{") and (line == indent + "{" or line.startswith((indent + ")", indent + "fn", indent + "pub"))):
            is_body = True
    return kept


def source_items(file, lines):
    """The items of a source: attributes belong to what follows them, and methods are items of their own."""
    ready = []
    for piece in pieces(lines, lambda line: ITEM.match(line)):
        ready += piece
        if piece[0].startswith("#["):
            continue
        begun = next(line for line in ready if not line.startswith("#["))
        impl, named = HELD.match(begun), ITEM.match(begun)
        if impl and not impl[1]:
            for part in pieces(ready, lambda line: FUNCTION.match(line)):
                function = FUNCTION.match(part[0])
                text = "\n".join(heads(part))
                yield Item(file, {function[2]}, text, impl[2]) if function else Item(file, {impl[2]}, text)
        elif impl or named and named[1]:
            yield Item(file, {impl[2] if impl else named[1]}, "\n".join(heads(ready)))
        ready = []


def read_file(crate, path):
    file, lines = File(crate), code_of(path)
    text = "\n".join(lines)
    brought = [(other, modules.split(".")[1:], names) for other, modules, names in USED.findall(text)]
    if path.suffix == ".rt":
        named = crate_names()[crate]
        brought += [(other if other in named else crate, modules.split("::")[1:], names) for other, modules, names in BROUGHT.findall(text)]
    for other, modules, names in brought:
        listed = [name.strip() for name in names.split(",") if name.strip()] or modules[-1:]
        for name in listed:
            first, _, own = name.partition(" as ")
            file.brings[(own or first).strip()] = (other, first.strip(), tuple(modules))
    if path.suffix == ".rt":
        file.items = list(source_items(file, lines))
    else:
        for piece in pieces(lines, lambda line: DEFINED.match(line)):
            if DEFINED.match(piece[0]):
                whole = "\n".join(piece)
                file.items.append(Item(file, {name for found in NAMED.findall(whole) for name in found if name}, whole))
    return file


@cache
def files_of(crate):
    folder = CRATES / crate
    return [read_file(crate, path) for part in ("src", "specs") for path in sorted((folder / part).rglob("*")) if path.suffix in (".rt", ".antt")]


@cache
def passed_on(crate):
    return sorted({other for file in files_of(crate) for other, _, _ in file.brings.values() if other != crate and other in crate_names()})


@cache
def items_named(crate, name):
    """The items of a crate of that name that are no methods, or of a crate that it passes on."""
    own = [item for file in files_of(crate) for item in file.items if name in item.names and not item.holder]
    if own:
        return own
    return [item for other in passed_on(crate) for item in items_named(other, name)]


def is_in(name, words):
    parts = [part for part in name.split("◌") if part]
    return all(part in words for part in parts)


@cache
def brought_items(place):
    """What a name leads to that was brought in: an item, or that of a module above it, as of a type's variants."""
    crate, name, modules = place
    if crate not in crate_names():
        return []
    for wanted in (name, *reversed(modules)):
        if found := items_named(crate, wanted):
            return found
    return []


@cache
def names_of(item):
    """The items that an item names."""
    words = set(WORD.findall(item.text))
    brought = [other for name, place in item.file.brings.items() if is_in(name, words) for other in brought_items(place)]
    return brought + [other for other in item.file.items if not other.holder and any(is_in(name, words) for name in other.names)]


@cache
def methods_of(crate, name):
    return [item for file in files_of(crate) for item in file.items if item.holder == name]


@cache
def stated_below(crate):
    """What the sources and definitions of a crate bring in of crates below, and what that names in turn, as pairs of its place and its text."""
    called = {word for path in (CRATES / crate / "src").rglob("*.rt") for word in CALLED.findall("\n".join(code_of(path)))}
    waiting = [item for file in files_of(crate) for place in file.brings.values() for item in brought_items(place)]
    seen = set()
    while waiting:
        item = waiting.pop()
        if item in seen:
            continue
        seen.add(item)
        waiting += names_of(item)
        waiting += [other for name in item.names for other in methods_of(item.file.crate, name) if other.names & called]
    below = [item for item in seen if item.file.crate != crate]
    return sorted((item.file.crate, min(item.names), folded(item.text)) for item in below)
