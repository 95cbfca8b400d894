"""The header for C, and the manual page."""
import textwrap
from typing import List

import rattle
import roff
from boundary import HANDLES, Boundary, Call, Constants, Kind, Struct, Value

PREFIX = "gix_config_"
NUMBERS = {"u8": "uint8_t", "u32": "uint32_t", "i64": "int64_t", "usize": "size_t", "bool": "bool"}
WIDTH = 110


def wrapped(text: str, width: int = WIDTH) -> List[str]:
    return textwrap.wrap(text, width, break_long_words=False, break_on_hyphens=False)


def comment(paragraphs: List[str], indent: str = "") -> str:
    lines: List[str] = []
    for paragraph in paragraphs:
        lines += [""] * bool(lines) + wrapped(paragraph, WIDTH - len(indent))
    return f"{indent}/* " + f"\n{indent} * ".join(lines).replace(" * \n", " *\n") + " */\n"


def type_of(kind: Kind) -> str:
    if kind.of == "number":
        return NUMBERS[kind.name]
    if kind.of in ("text", "span"):
        return f"{PREFIX}text"
    return "void *" if kind.of == "owner" else PREFIX + kind.name


def declared(value: Value) -> str:
    """A field or a parameter."""
    if value.pointer is None:
        return f"{type_of(value.kind)} {value.name}".replace("* ", "*")
    return f"{'const ' * (value.pointer == 'const')}{type_of(value.kind)} *{value.name}"


def constants(them: Constants) -> str:
    lines = [comment([it.says], "    ") + f"    GIX_CONFIG_{it.name} = {them.numbers[it.name]}" for it in them.named]
    return comment([them.about]) + "enum {\n" + ",\n".join(lines) + "\n};\n"


def macros(version: Constants) -> str:
    """The version, which the preprocessor can compare."""
    whole = ".".join(str(version.numbers[it.name]) for it in version.named)
    lines = [f'VERSION "{whole}"', *[f"{it.name} {version.numbers[it.name]}" for it in version.named]]
    says = comment(["The version of this header; gix_config_version tells that of the library."])
    return says + "".join(f"#define GIX_CONFIG_{it}\n" for it in lines)


def struct(it: Struct) -> str:
    fields = "".join(comment([value.says], "    ") + f"    {declared(value)};\n" for value in it.fields)
    return comment([it.says]) + f"typedef struct {PREFIX}{it.name} {{\n{fields}}} {PREFIX}{it.name};\n"


def prototype(it: Call) -> str:
    # (a line breaks between parameters alone)
    given = [declared(value).replace(" ", "\0") for value in it.given]
    line = f"{type_of(it.answer) if it.answer else 'void'}\0{it.name}({', '.join(given) or 'void'});"
    return "\n".join(textwrap.wrap(line, WIDTH, subsequent_indent="    ")).replace("\0", " ") + "\n"


def header(it: Boundary) -> str:
    about = rattle.paragraphs(it.about) + ["Made by tools/c_header of crates/gix_config_c. docs/c.md says what a program owes."]
    parts = [comment(about) + "#ifndef GIX_CONFIG_H\n#define GIX_CONFIG_H\n\n#include <stdbool.h>\n#include <stddef.h>\n#include <stdint.h>\n",
             macros(it.version), '#ifdef __cplusplus\nextern "C" {\n#endif\n']
    parts += map(constants, it.constants)
    for kind, says in HANDLES.items():
        parts.append(comment([says]) + f"typedef struct {PREFIX}{kind} {{\n    void *at;\n}} {PREFIX}{kind};\n")
    parts += map(struct, it.structs)
    parts += [comment(call.says) + prototype(call) for call in it.calls]
    parts.append("#ifdef __cplusplus\n}\n#endif\n\n#endif\n")
    return "\n".join(parts)


def told(line: str) -> str:
    """A line as man reads it."""
    return roff.at_front(roff.escaped(line))


def manual(it: Boundary) -> str:
    """The manual page: each call with its line and what is said of it, and the numbers."""
    lines = [".\\\" Made by tools/c_header of crates/gix_config_c.", ".TH gix_config 3", ".SH NAME", "gix_config \\- git's configuration files, read and edited",
             ".SH SYNOPSIS", ".B #include <gix_config.h>", ".PP", "Link with", ".IR \\-lgix_config .", ".SH DESCRIPTION",
             *[told(line) if line else ".PP" for line in it.about],
             ".PP", "Structs and what a program owes are in the header and in docs/c.md."]
    for call in it.calls:
        lines += [f".SS {told(call.name)}", ".EX", *map(told, prototype(call).splitlines()), ".EE"]
        for paragraph in call.says:
            lines += [".PP", *map(told, wrapped(paragraph))]
    lines.append(".SH RETURN VALUE")
    for value in it.constants[0].named:
        lines += [".TP", f".BR GIX_CONFIG_{value.name} \" ({it.constants[0].numbers[value.name]})\"", told(value.says)]
    lines += [".PP", "Those up to 27 are errors of docs/refusals.md, which says more of each; gix_config_refusal_text has words for all.",
              ".SH SEE ALSO", ".BR gixcfg (1)"]
    return "\n".join(lines) + "\n"
