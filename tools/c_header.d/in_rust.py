"""The structs and calls for Rust."""
import textwrap
from typing import List

from boundary import HANDLES, Boundary, Call, Constants, Kind, Struct, Value

WIDTH = 100

FRONT = """//! What crosses between Rust and libgix_config, as include/gix_config.h has it, with its words.
//!
//! Made by tools/c_header of crates/gix_config_c.
// (all calls of the library, also those that the crate doesn't make)
#![allow(dead_code)]
use std::ffi::c_void;
use std::marker::PhantomData;

"""


def type_name(name: str) -> str:
    return "".join(word.capitalize() for word in name.split("_"))


def is_lent(kind: Kind, boundary: Boundary) -> bool:
    """Whether a type borrows bytes."""
    if kind.of != "struct":
        return kind.of in ("text", "span")
    return any(is_lent(value.kind, boundary) for value in boundary.struct(kind.name).fields)


def type_of(kind: Kind, boundary: Boundary, lifetime: str) -> str:
    if kind.of == "number":
        return kind.name
    if kind.of == "owner":
        return "*mut c_void"
    name = type_name(kind.name if kind.name else "text")
    return f"{name}<{lifetime}>" if is_lent(kind, boundary) else name


def crosses_as(value: Value, boundary: Boundary, lifetime: str) -> str:
    """A field or a parameter."""
    pointer = f"*{value.pointer} " if value.pointer else ""
    return pointer + type_of(value.kind, boundary, lifetime)


def says(text: str, indent: str = "") -> str:
    return "".join(f"{indent}/// {line}\n" for line in textwrap.wrap(text, WIDTH - 4 - len(indent), break_long_words=False, break_on_hyphens=False))


def constants(them: Constants) -> str:
    return f"// {them.about}\n" + "".join(f"{says(it.says)}pub(crate) const {it.name}: u32 = {them.numbers[it.name]};\n" for it in them.named) + "\n"


def struct_of(name: str, about: str, fields: List[str], derived: List[str]) -> str:
    derive = f"#[derive({', '.join(derived)})]\n" if derived else ""
    return f"{says(about)}#[repr(C)]\n{derive}pub(crate) struct {name} {{\n{''.join(fields)}}}\n\n"


def struct(it: Struct, boundary: Boundary) -> str:
    """A struct. One with a pointer is filled and read by the safe calls over these alone."""
    has_pointer = any(value.pointer or value.kind.of == "owner" for value in it.fields)
    seen = "pub(super)" if has_pointer else "pub(crate)"
    fields = [says(value.says, "    ") + f"    {seen} {value.name}: {crosses_as(value, boundary, chr(39) + 'a')},\n" for value in it.fields]
    is_text = it.name == "text"
    if is_text:
        fields.append("    /// For as long as they lie there.\n    pub(super) lent: PhantomData<&'a [u8]>,\n")
    lifetime = "<'a>" * (is_text or is_lent(Kind("struct", it.name), boundary))
    is_owner = any(value.kind.of == "owner" for value in it.fields)
    is_plain = all(value.kind.of == "number" and not value.pointer for value in it.fields)
    derived = [] if is_owner else ["Clone", "Copy", *["Default"] * is_plain]
    return struct_of(type_name(it.name) + lifetime, it.says, fields, derived)


def call(it: Call, boundary: Boundary) -> str:
    given = [f"{value.name}: " + crosses_as(value, boundary, "'static" if value.stays else "'_") for value in it.given]
    answer = f" -> {type_of(it.answer, boundary, chr(39) + '_')}" if it.answer else ""
    line = f"    pub(super) fn {it.name}({', '.join(given)}){answer};\n"
    if len(line) <= WIDTH:
        return line
    return f"    pub(super) fn {it.name}(\n" + "".join(f"        {value},\n" for value in given) + f"    ){answer};\n"


def module(it: Boundary) -> str:
    handles = [struct_of(type_name(kind), about, ["    pub(super) at: *mut c_void,\n"], []) for kind, about in HANDLES.items()]
    structs = [struct(each, it) for each in it.structs]
    calls = "extern \"C\" {\n" + "".join(call(each, it) for each in it.calls) + "}\n"
    return FRONT + "".join(map(constants, it.numbers())) + "".join(handles) + "".join(structs) + calls
