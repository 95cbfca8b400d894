"""The structs and calls for Python, by ctypes."""
import textwrap
from typing import List

from boundary import HANDLES, Boundary, Call, Constants, Kind, Struct, Value

NUMBERS = {"u8": "c_uint8", "u32": "c_uint32", "i64": "c_int64", "usize": "c_size_t", "bool": "c_bool"}
SEEN_AS = {"c_uint8": "int", "c_uint32": "int", "c_int64": "int", "c_size_t": "int", "c_bool": "bool", "c_void_p": "Optional[int]", "c_char_p": "bytes"}
WIDTH = 150

FRONT = '''"""What crosses between Python and libgix_config, as include/gix_config.h has it, with its words.

Made by tools/c_header of crates/gix_config_c.
"""
from ctypes import POINTER, Structure, c_bool, c_char_p, c_int64, c_size_t, c_uint32, c_void_p
from typing import Any, Dict, Optional, Sequence, Tuple

'''


def class_of(name: str) -> str:
    return "".join(word.capitalize() for word in name.split("_"))


def type_of(kind: Kind) -> str:
    if kind.of == "number":
        return NUMBERS[kind.name]
    return "c_void_p" if kind.of == "owner" else class_of(kind.name or kind.of)


def crosses_as(value: Value) -> str:
    """A field or a parameter."""
    if value.pointer is None:
        return type_of(value.kind)
    if value.kind == Kind("number", "u8"):
        return "c_char_p"
    return f"POINTER({type_of(value.kind)})"


def says(text: str) -> str:
    return "\n    ".join(textwrap.wrap(f'"""{text}"""', WIDTH - 4, break_long_words=False, break_on_hyphens=False))


def constants(them: Constants) -> str:
    return f"# {them.about}\n" + "".join(f"{it.name} = {them.numbers[it.name]}\n" for it in them.named)


def class_(name: str, about: str, fields: List[List[str]]) -> str:
    """A class of a struct. What it has are pairs of names and types."""
    seen = "".join(f"    {it}: {SEEN_AS.get(type_, type_)}\n" for it, type_ in fields)
    pairs = "".join(f'        ("{it}", {type_}),\n' for it, type_ in fields)
    return f"\n\nclass {name}(Structure):\n    {says(about)}\n\n{seen}\n    _fields_ = [\n{pairs}    ]\n"


def struct(it: Struct) -> str:
    """A struct. A text is two: one whose bytes Python holds on to, and one that lies in the library or a handle."""
    if it.name != "text":
        # (bytes that are returned lie elsewhere than in Python's own)
        return class_(class_of(it.name), it.says, [[value.name, "c_void_p" if value.pointer else crosses_as(value)] for value in it.fields])
    return class_("Text", "Bytes that a program gives.", [[value.name, crosses_as(value)] for value in it.fields]) + \
        class_("Span", it.says, [[value.name, "c_void_p" if value.pointer else crosses_as(value)] for value in it.fields])


def call(it: Call) -> str:
    given = ", ".join(map(crosses_as, it.given))
    line = f'"{it.name}": ([{given}], {type_of(it.answer) if it.answer else None}),'
    return "\n".join(textwrap.wrap(line, WIDTH, initial_indent="    ", subsequent_indent=" " * 8, break_long_words=False)) + "\n"


def module(it: Boundary) -> str:
    handles = [class_(class_of(kind), about, [["at", "c_void_p"]]) for kind, about in HANDLES.items()]
    calls = "\n\n# The calls: what each takes, and what it answers.\nCALLS: Dict[str, Tuple[Sequence[Any], Any]] = {\n" + "".join(map(call, it.calls)) + "}\n"
    return FRONT + "\n".join(map(constants, it.numbers())) + "".join(handles) + "".join(map(struct, it.structs)) + calls
