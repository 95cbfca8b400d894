"""Compares what crosses as three compilers have it: C's by the header, ctypes' in Python, and Rust's.

Of each struct the size, and of each field the place and the size; each number; and each call, which is declared to the compiler for C once
more, by the types that Python and Rust give it. None of it asks for the library.
"""
import ctypes
import importlib.util
import re
import shutil
import subprocess
from pathlib import Path
from types import ModuleType
from typing import Any, Callable, Dict, Iterable, List, NamedTuple, Tuple

from boundary import HANDLES, Boundary
from in_python import class_of
from in_rust import type_name

# What is compared: for each struct, field and number what it is, such as `key.section` to `at 0, 16 bytes`.
Facts = Dict[str, str]


class Files(NamedTuple):
    """The three files that say what crosses."""

    header: Path
    python: Path
    rust: Path


class Failed(Exception):
    """A compiler refuses."""


def run(words: Iterable[object]) -> str:
    ran = subprocess.run([str(it) for it in words], stdin=subprocess.DEVNULL, stdout=subprocess.PIPE, stderr=subprocess.STDOUT, encoding="utf-8",
                         errors="replace", check=False)
    if ran.returncode:
        raise Failed(ran.stdout.strip())
    return ran.stdout


def structs(boundary: Boundary) -> Dict[str, List[str]]:
    """The structs and handles with their fields."""
    return {**{kind: ["at"] for kind in HANDLES}, **{it.name: [value.name for value in it.fields] for it in boundary.structs}}


def numbers(boundary: Boundary) -> List[str]:
    return [it.name for them in boundary.numbers() for it in them.named]


def facts(told: str) -> Facts:
    """What a program told, in lines of a name and what it is."""
    return dict(line.split(": ", 1) for line in told.splitlines())


def calls_of_header(header: Path) -> List[str]:
    text = re.sub(r"/\*.*?\*/", "", header.read_text(encoding="utf-8"), flags=re.S)
    return re.findall(r"\b(gix_config_\w+)\(", text)


def in_c(boundary: Boundary, files: Files, room: Path) -> Facts:
    lines = [f'printf("GIX_CONFIG_{name}: %d\\n", GIX_CONFIG_{name});' for name in numbers(boundary)]
    for name, fields in structs(boundary).items():
        made = f"gix_config_{name}"
        lines.append(f'printf("{name}: %zu bytes\\n", sizeof({made}));')
        lines += [f'printf("{name}.{it}: at %zu, %zu bytes\\n", offsetof({made}, {it}), sizeof((({made} *)0)->{it}));' for it in fields]
    program = room / "facts.c"
    program.write_text(f'#include "{files.header}"\n#include <stdio.h>\nint main(void)\n{{\n' + "\n".join(lines) + "\nreturn 0;\n}\n", encoding="utf-8")
    run(["cc", "-std=c99", "-Wall", "-Wextra", "-Werror", program, "-o", room / "facts-of-c"])
    return facts(run([room / "facts-of-c"]))


def module_of(path: Path) -> ModuleType:
    spec = importlib.util.spec_from_file_location("compared_calls", path)
    assert spec and spec.loader
    module = importlib.util.module_from_spec(spec)
    try:
        spec.loader.exec_module(module)
    except (SyntaxError, NameError, TypeError) as error:
        raise Failed(f"{path.name}: {error}") from error
    return module


def classes(boundary: Boundary, module: ModuleType) -> List[Tuple[str, Any]]:
    """The struct that each class of Python's stands for."""
    named = [*((name, class_of(name)) for name in structs(boundary)), ("text", "Span")]
    lacking = [it for _name, it in named if not hasattr(module, it)]
    if lacking:
        raise Failed(f"Python has no {', '.join(lacking)}")
    return [(name, getattr(module, it)) for name, it in named]


def in_python(boundary: Boundary, module: ModuleType) -> List[Tuple[str, str]]:
    """As facts, of which a text has two: that of a program, and that of the library."""
    found = [(f"GIX_CONFIG_{name}", str(getattr(module, name, None))) for name in numbers(boundary)]
    for name, class_ in classes(boundary, module):
        found.append((name, f"{ctypes.sizeof(class_)} bytes"))
        for field, _type in class_._fields_:
            found.append((f"{name}.{field}", f"at {getattr(class_, field).offset}, {getattr(class_, field).size} bytes"))
    return found


# A program in Rust: the functions that tell a field's size and a call's types, whatever these are.
RUST = """#[path = "{raw}"]
mod raw;
use std::any::type_name;
use std::mem::{{size_of, MaybeUninit}};
use std::ptr::addr_of;

fn size<T>(_: *const T) -> usize {{
    size_of::<T>()
}}
{telling}
fn main() {{
{lines}
}}
"""


def telling(count: int) -> str:
    """The function that tells the types of a call of so many parameters."""
    names = [f"T{index}" for index in range(count)]
    types = ", ".join(f"type_name::<{it}>()" for it in [*names, "R"])
    return (f"fn told{count}<{', '.join([*names, 'R'])}>(name: &str, _: unsafe extern \"C\" fn({', '.join(names)}) -> R) {{\n"
            f'    println!("{{}}: {{}}", name, [{types}].join("|"));\n}}\n')


def program_in_rust(boundary: Boundary, files: Files) -> str:
    lines = [f'println!("GIX_CONFIG_{name}: {{}}", raw::{name});' for name in numbers(boundary)]
    for name, fields in structs(boundary).items():
        made = f"raw::{type_name(name)}"
        lines.append(f'println!("{name}: {{}} bytes", size_of::<{made}>());')
        lines.append(f"let it = MaybeUninit::<{made}>::uninit();\nlet (it, from) = (it.as_ptr(), it.as_ptr() as usize);")
        for field in fields:
            lines.append(f"let at = unsafe {{ addr_of!((*it).{field}) }};")
            lines.append(f'println!("{name}.{field}: at {{}}, {{}} bytes", at as usize - from, size(at));')
    counts = {len(it.given) for it in boundary.calls}
    lines += [f'told{len(it.given)}("{it.name}", raw::{it.name});' for it in boundary.calls]
    return RUST.format(raw=files.rust, telling="".join(map(telling, sorted(counts))), lines="\n".join(lines))


def in_rust(boundary: Boundary, files: Files, room: Path) -> Facts:
    """What Rust tells. Its calls are linked with stubs, and none is made."""
    stubs, program = room / "stubs.c", room / "facts.rs"
    stubs.write_text("".join(f"char {it.name};\n" for it in boundary.calls), encoding="utf-8")
    program.write_text(program_in_rust(boundary, files), encoding="utf-8")
    run(["cc", "-c", stubs, "-o", room / "stubs.o"])
    run(["rustc", "--edition", "2021", "-A", "warnings", "-C", f"link-arg={room / 'stubs.o'}", program, "-o", room / "facts-of-rust"])
    return facts(run([room / "facts-of-rust"]))


RUST_TO_C = {"u8": "uint8_t", "u32": "uint32_t", "i64": "int64_t", "usize": "size_t", "bool": "bool", "()": "void"}
PYTHON_TO_C = {ctypes.c_uint8: "uint8_t", ctypes.c_uint32: "uint32_t", ctypes.c_int64: "int64_t", ctypes.c_size_t: "size_t", ctypes.c_bool: "bool",
               ctypes.c_char_p: "uint8_t *", None: "void"}


def types_of_rust(boundary: Boundary) -> Callable[[str], str]:
    """How a type of Rust's is written in C."""
    made = {type_name(name): f"gix_config_{name}" for name in structs(boundary)}

    def of(type_: str) -> str:
        if type_.startswith("*"):
            mutability, _blank, to = type_[1:].partition(" ")
            return f"{'const ' * (mutability == 'const')}{of(to)} *"
        name = type_.rpartition("::")[2].partition("<")[0]
        return {**made, **RUST_TO_C}.get(name, f"unknown_{name}")
    return of


def types_of_python(boundary: Boundary, module: ModuleType) -> Callable[[Any], str]:
    """How a type of Python's is written in C, which has no `const` there."""
    made = {class_: f"gix_config_{name}" for name, class_ in classes(boundary, module)}

    def of(type_: Any) -> str:
        if type_ in PYTHON_TO_C or type_ in made:
            return PYTHON_TO_C[type_] if type_ in PYTHON_TO_C else made[type_]
        return f"{of(type_._type_)} *" if hasattr(type_, "_type_") else f"unknown_{type_.__name__}"
    return of


def declared(name: str, given: List[str], answer: str) -> str:
    return f"{answer} {name}({', '.join(given) or 'void'});\n"


def declare(files: Files, lines: List[str], room: Path, before: str) -> None:
    """Declares calls once more behind the header. The compiler refuses one that has other types there."""
    program = room / "declared.c"
    front = "#include <stdbool.h>\n#include <stddef.h>\n#include <stdint.h>\n"
    program.write_text(f'{front}{before}#include "{files.header}"\n{"".join(lines)}', encoding="utf-8")
    run(["cc", "-std=c99", "-fsyntax-only", program])


def differing(language: str, found: Iterable[Tuple[str, str]], wanted: Facts) -> List[str]:
    """What a language has otherwise than C, or not at all."""
    has = list(found)
    other = [f"{name}: {it} in {language}, {wanted.get(name, 'nothing')} in C" for name, it in has if wanted.get(name) != it]
    return other + [f"{name}: not in {language}" for name in wanted if name not in dict(has)]


def compare_python(boundary: Boundary, files: Files, wanted: Facts, room: Path) -> List[str]:
    module = module_of(files.python)
    of = types_of_python(boundary, module)
    lines = [declared(name, [of(it) for it in given], of(answer)) for name, (given, answer) in module.CALLS.items()]
    declare(files, lines, room, "#define const\n")
    return differing("Python", in_python(boundary, module), wanted) + other_calls("Python", module.CALLS, files)


def compare_rust(boundary: Boundary, files: Files, wanted: Facts, room: Path) -> List[str]:
    told = in_rust(boundary, files, room)
    of = types_of_rust(boundary)
    calls = {name: told.pop(name).split("|") for name in list(told) if name.startswith("gix_config_")}
    declare(files, [declared(name, [of(it) for it in types[:-1]], of(types[-1])) for name, types in calls.items()], room, "")
    names = re.findall(r"\bfn (gix_config_\w+)\(", files.rust.read_text(encoding="utf-8"))
    return differing("Rust", told.items(), wanted) + other_calls("Rust", names, files)


def other_calls(language: str, names: Iterable[str], files: Files) -> List[str]:
    differ = set(names) ^ set(calls_of_header(files.header))
    return [f"the header or {language} lacks {', '.join(sorted(differ))}"] * bool(differ)


def compare(boundary: Boundary, files: Files, room: Path) -> Dict[str, List[str]]:
    """What differs from C, by languages. Rust isn't compared where its compiler isn't installed."""
    ways = {"Python": compare_python, **({"Rust": compare_rust} if shutil.which("rustc") else {})}
    found: Dict[str, List[str]] = {}
    for language, way in ways.items():
        try:
            found[language] = way(boundary, files, in_c(boundary, files, room), room)
        except Failed as failed:
            found[language] = [str(failed)]
    return found
