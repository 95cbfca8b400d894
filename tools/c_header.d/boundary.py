"""What crosses between crates/gix_config_c and programs in other languages: numbers, structs and calls, as all of these languages have them.

It is read off the sources (rattle.py); in_c.py, in_rust.py and in_python.py write it down. A slice is two parameters here, as in C: where
it lies, and its length.
"""
from dataclasses import dataclass
from pathlib import Path
from typing import Dict, List, NoReturn, Optional

import rattle

# The kinds of handles, each with what is said of it. A parameter that is a handle has the kind as the last word of its name, as `other_file`.
HANDLES = {
    "file": "A place for a file, {0} at first. It is never copied, and closed with gix_config_file_close.",
    "list": "A place for a list of texts, entries, sections or differences, {0} at first. It is never copied, and closed with gix_config_list_close.",
    "told": "A place for what a program tells of files and of variables, {0} at first. It is never copied, and closed with gix_config_told_close.",
}

# The structs that cross, in the order in which they are written: the name in the source, and that elsewhere.
STRUCTS = {"Block": "bytes", "Span": "text", "Key": "key", "SectionKey": "section", "EntryPlace": "entry", "SectionPlace": "listed_section",
           "DifferencePlace": "difference", "Fault": "place", "Filter": "filter", "Folders": "folders", "Layout": "layout", "Includes": "includes",
           "Load": "load", "TextMeta": "metadata", "KnownPlaces": "places", "Repository": "repository", "Origin": "origin", "Line": "line",
           "Assigned": "assigned", "Part": "part", "EntryRow": "entry_row", "OriginRow": "origin_row", "SectionRow": "section_row", "View": "view"}

# What is said of a struct besides what the source says of it.
MORE = {"Block": " {0} at first; never copied; freed with gix_config_bytes_free.",
        "View": " {0} at first; never copied; freed with gix_config_view_free."}

NUMBERS = {"u8", "u32", "i64", "usize", "bool"}

# What is said of the parts of the version.
VERSION = {"VERSION_MAJOR": "Its first number.", "VERSION_MINOR": "Its second number.", "VERSION_PATCH": "Its third number."}

# The modules whose numbers cross, each with what is said of them.
CONSTANTS = {"lib": "The numbers that calls answer. Up to 27 they are those of docs/refusals.md; no call answers 10 or 28.",
             "origin": "Where sections come from, and how far that is trusted. The numbers of sources add up."}


@dataclass(frozen=True)
class Kind:
    """A type that crosses."""

    of: str
    """`number`, `handle`, `struct`, `text` (that a program gives), `span` (a text that is returned), or `owner` (of bytes)."""
    name: str = ""
    """Which number, handle or struct."""


@dataclass(frozen=True)
class Value:
    """A field or a parameter, with what is said of it."""

    name: str
    kind: Kind
    pointer: Optional[str] = None
    """`const` or `mut` for a pointer to such."""
    says: str = ""
    stays: bool = False
    """Whether a text that is returned stays for good."""


@dataclass(frozen=True)
class Struct:
    name: str
    fields: List[Value]
    says: str


@dataclass(frozen=True)
class Call:
    name: str
    given: List[Value]
    answer: Optional[Kind]
    says: List[str]


@dataclass(frozen=True)
class Constants:
    """Numbers with names, and what is said of all."""

    about: str
    named: List[Value]
    numbers: Dict[str, int]


@dataclass(frozen=True)
class Boundary:
    about: List[str]
    """What is said of the library, by lines."""
    constants: List[Constants]
    version: Constants
    structs: List[Struct]
    calls: List[Call]

    def numbers(self) -> List[Constants]:
        return [*self.constants, self.version]

    def struct(self, name: str) -> Struct:
        return next(it for it in self.structs if it.name == name)


def refuse(where: str, type_: rattle.Type) -> NoReturn:
    raise rattle.Refused(f"{where}: {type_}: no type of another language stands for it")


def number(type_: rattle.Type) -> Optional[Kind]:
    return Kind("number", type_.name) if isinstance(type_, rattle.Named) and type_.name in NUMBERS else None


def text_of(type_: rattle.Type) -> Optional[Kind]:
    """A text that is given: `&[u8]`."""
    is_text = isinstance(type_, rattle.Pointer) and type_.to == rattle.Slice(rattle.Named("u8")) and not type_.is_mut
    return Kind("text") if is_text else None


def named(type_: rattle.Type) -> Optional[Kind]:
    """A number or a struct by its name."""
    if not isinstance(type_, rattle.Named):
        return None
    if type_.name == "Span":
        return Kind("span")
    return Kind("struct", STRUCTS[type_.name]) if type_.name in STRUCTS else number(type_)


def field(where: str, it: rattle.Value) -> Value:
    says = " ".join(it.says)
    if it.type == rattle.Named("Slot"):
        return Value(it.name, Kind("owner"), None, says)
    if isinstance(it.type, rattle.Pointer) and it.type.is_raw:
        return Value(it.name, named(it.type.to) or refuse(where, it.type), "mut" if it.type.is_mut else "const", says)
    return Value(it.name, text_of(it.type) or named(it.type) or refuse(f"{where}.{it.name}", it.type), None, says)


def handle(where: str, name: str) -> Kind:
    kind = name.split("_")[-1]
    if kind not in HANDLES:
        raise rattle.Refused(f"{where}: {name}: a handle's name ends with one of: {', '.join(HANDLES)}")
    return Kind("handle", kind)


def parameters(where: str, it: rattle.Value, is_same: bool) -> List[Value]:
    """A parameter as it crosses: a slice is two. A handle that has afterwards what it had is `const`."""
    type_ = it.type
    if number(type_):
        return [Value(it.name, number(type_) or refuse(where, type_))]
    if not isinstance(type_, rattle.Pointer) or type_.is_raw:
        refuse(f"{where}: {it.name}", type_)
    pointer = "mut" if type_.is_mut else "const"
    if isinstance(type_.to, rattle.Slice):
        of = number(type_.to.of) or text_of(type_.to.of) or refuse(f"{where}: {it.name}", type_)
        return [Value(it.name, of, pointer), Value(f"{it.name}_len", Kind("number", "usize"))]
    if type_.to == rattle.Named("Slot"):
        return [Value(it.name, handle(where, it.name), "const" if is_same else "mut")]
    # (a text of the library's own)
    if isinstance(type_.to, rattle.Pointer) and type_.to.is_static and text_of(type_.to):
        return [Value(it.name, Kind("span"), pointer, stays=True)]
    return [Value(it.name, named(type_.to) or refuse(f"{where}: {it.name}", type_), pointer)]


def constants(source: rattle.Source, about: str) -> Constants:
    for it in source.constants:
        if not it.says:
            raise rattle.Refused(f"nothing is said of {it.name}")
    named_ = [Value(it.name, Kind("number", "u32"), None, " ".join(it.says)) for it in source.constants]
    return Constants(about, named_, {it.name: int(it.value) for it in source.constants})


def version_of(words: str) -> Constants:
    """The numbers of a version such as `0.1.0`."""
    parts = dict(zip(VERSION, map(int, words.split("."))))
    return Constants("The version of this library.", [Value(name, Kind("number", "u32"), None, VERSION[name]) for name in parts], parts)


def call(it: rattle.Function) -> Call:
    given = [value for each in it.given if each.type != rattle.Named("Global") for value in parameters(it.name, each, each.name in it.same)]
    answer = None if it.answer is None else number(it.answer) or refuse(it.name, it.answer)
    return Call(it.name, given, answer, it.says)


def structs(sources: Dict[str, rattle.Source]) -> List[Struct]:
    found = {it.name: it for source in sources.values() for it in source.structs}
    if set(found) != set(STRUCTS):
        raise rattle.Refused(f"STRUCTS in boundary.py has other structs than the sources: {', '.join(sorted(set(found) ^ set(STRUCTS)))}")
    return [Struct(name, [field(found[it].name, value) for value in found[it].fields], " ".join(found[it].says) + MORE.get(it, ""))
            for it, name in STRUCTS.items()]


def boundary(texts: Dict[str, str], version: str) -> Boundary:
    """What crosses, of the sources by their modules and of the version. The calls are in the order of the modules in lib.rt."""
    sources = {name: rattle.read(text, f"{name}.rt") for name, text in texts.items()}
    calls = [call(it) for module in sources["lib"].modules for it in sources[module].functions]
    lost = {it.name for source in sources.values() for it in source.functions} - {it.name for it in calls}
    if lost:
        raise rattle.Refused(f"lib.rt names no module of {', '.join(sorted(lost))}")
    numbers = [constants(sources[it], about) for it, about in CONSTANTS.items()]
    return Boundary(sources["lib"].about, numbers, version_of(version), structs(sources), calls)


def read(directory: Path, version: str) -> Boundary:
    """What crosses, of the sources in a directory and of the version."""
    return boundary({it.stem: it.read_text(encoding="utf-8") for it in sorted(directory.glob("*.rt"))}, version)
