"""Shows that c_header refuses sources that it doesn't understand, and that it tells where the languages differ."""
import shutil
import tempfile
from pathlib import Path
from typing import Dict, List, Tuple

import boundary
import compared
import rattle
from report import Report

# A source that is read whole: what crosses stands among what looks like it, and like brackets.
WHOLE = '''//! All.
//!
//! Of it.
ghost use a.specs.B.{◌≡◌, Some};
mod one;
pub mod two;
/* a comment /* in one */ with { */
/// A number,
/// in words.
///
/// And more.
pub const ONE: u32 = 1;
pub const NAMES: [&str; 1] = ["}"];
const OPEN: u8 = b'{';
#[derive(Drop)]
#[repr(C)]
pub struct Pair<'a> {
    /// The first.
    pub first: &'a [u8],
    /// The second.
    pub second: *const u8,
}
#[repr(C)]
pub struct Own {
    at: *mut u8,
    pub ghost it: { Option Object },
}
impl<'a> Pair<'a> {
    fn odd(&self, c: char) -> bool
        ensures answer { λ x. x ≡ self.now }
    {
        c == '}' || c == '\\'' // }
    }
}
/// Does it.
#[unsafe(no_mangle)]
pub extern "C" fn do_it<'a>(alloc: Global, pair: &mut Pair<'_>, names: &[&[u8]], text: &mut &'static [u8]) -> u32
    requires { 0 < 1 }
    ensures answer { result ≡ 0 }
    ensures same { pair.new.it ≡ pair.old.it }
    ensures kept { (result ≡ 0 → ⊥) → text.new.it ≡ text.old.it }
{
    0
}
/// Ends.
#[unsafe(no_mangle)]
pub extern "C" fn end(many: usize) {}
'''

SAID = "/// Said.\n"
EXPORTED = SAID + '#[unsafe(no_mangle)]\npub extern "C" fn f'

# Sources that are refused, each with words of why.
REFUSED: Dict[str, Tuple[str, str]] = {
    "a bracket that stays open": ("fn f() {", "never closed"),
    "a bracket that closes another": ("fn f() { (] }", "is missing"),
    "a comment that stays open": ("/* /* */", "never closed"),
    "a text that stays open": ('const A: &str = "', "never closed"),
    "a field that programs can't see": (SAID + "#[repr(C)]\npub struct A {\n/// A.\npub a: u8,\n/// B.\nb: u8,\n}", "has to be `pub`"),
    "a field without words": (SAID + "#[repr(C)]\npub struct A {\npub a: u8,\n}", "nothing is said"),
    "a struct without names of fields": (SAID + "#[repr(C)]\npub struct A(u8);", "fields with names"),
    "a call without words": ('#[unsafe(no_mangle)]\npub extern "C" fn f() {}', "nothing is said"),
    "a call that isn't exported": (SAID + 'pub extern "C" fn f() {}', "no_mangle"),
    "a call of Rust's own": (SAID + '#[unsafe(no_mangle)]\npub extern "Rust" fn f() {}', 'extern "C"'),
    "a number that has to be worked out": (SAID + "pub const A: u32 = 1 << 3;", "`;` is missing"),
    "a parameter of a type's own": (EXPORTED + "(a: Vec<u8>) {}", "lifetimes"),
}

# Sources that can be read, with something that no other language has.
NO_SUCH: Dict[str, Tuple[str, str]] = {
    "a handle without a kind": (EXPORTED + "(thing: &mut Slot) {}", "a handle's name"),
    "a parameter that no language has": (EXPORTED + "(a: char) {}", "no type"),
    "a text that is written": (EXPORTED + "(a: &mut String) {}", "no type"),
    "an answer that no language has": (EXPORTED + "() -> Key {}", "no type"),
    "a number without words": ("pub const A: u32 = 1;", "nothing is said"),
    "a struct without a name elsewhere": (SAID + "#[repr(C)]\npub struct New {\n/// A.\npub a: u8,\n}", "New"),
}

# Faults in the three files: what is replaced, and by what.
FAULTS: Dict[str, Dict[str, Tuple[str, str]]] = {
    "header": {
        "a field is moved": ("    /* How many they are. */\n    size_t len;\n    /* Their owner. */\n    void *owner;",
                             "    /* Their owner. */\n    void *owner;\n    /* How many they are. */\n    size_t len;"),
        "a field more": ("    /* How many entries it has. */", "    size_t more;\n    /* How many entries it has. */"),
        "a number is another": ("GIX_CONFIG_NOT_TOLD = 103", "GIX_CONFIG_NOT_TOLD = 106"),
        "the version is another": ("GIX_CONFIG_VERSION_MAJOR ", "GIX_CONFIG_VERSION_MAJOR 7"),
        "a parameter has another type": ("size_t place, uint32_t trust);", "size_t place, uint64_t trust);"),
        "a call less": ("uint32_t gix_config_told_new(gix_config_told *told);", ""),
    },
    "python": {
        "a field is moved": ('        ("source", c_uint32),\n        ("level", c_uint32),', '        ("level", c_uint32),\n        ("source", c_uint32),'),
        "a field is wider": ('("least_trust", c_uint32)', '("least_trust", c_size_t)'),
        "a field of what is returned is moved": ('        ("at", c_void_p),\n        ("len", c_size_t),\n    ]\n\n\nclass Key',
                                                   '        ("len", c_size_t),\n        ("at", c_void_p),\n    ]\n\n\nclass Key'),
        "a number is another": ("NOT_TOLD = 103", "NOT_TOLD = 106"),
        "a parameter less": ('"gix_config_told_new": ([POINTER(Told)]', '"gix_config_told_new": ([]'),
        "a parameter has another type": ('"gix_config_told_new": ([POINTER(Told)]', '"gix_config_told_new": ([POINTER(File)]'),
        "an answer has another type": ('"gix_config_list_len": ([POINTER(List)], c_size_t)', '"gix_config_list_len": ([POINTER(List)], c_uint32)'),
        "a call less": ('    "gix_config_told_new": ([POINTER(Told)], c_uint32),\n', ""),
    },
    "rust": {
        "a field is moved": ("    pub(crate) line: usize,\n    /// The column in bytes, from 1.\n    pub(crate) column: usize,",
                             "    pub(crate) column: usize,\n    /// The column in bytes, from 1.\n    pub(crate) line: usize,"),
        "a struct lies as Rust likes": ("#[repr(C)]\n#[derive(Clone, Copy)]\npub(crate) struct Key", "#[derive(Clone, Copy)]\npub(crate) struct Key"),
        "a field less": ("    /// Whether there is a branch.\n    pub(crate) has_branch: bool,\n", ""),
        "a number is another": ("NOT_TOLD: u32 = 103", "NOT_TOLD: u32 = 106"),
        "a parameter is written": ("filter: *const Filter", "filter: *mut Filter"),
        "an answer has another type": ("fn gix_config_list_len(list: *const List) -> usize", "fn gix_config_list_len(list: *const List) -> u32"),
        "a call more": ('extern "C" {\n', 'extern "C" {\n    pub(super) fn gix_config_more() -> u32;\n'),
    },
}


def try_whole(report: Report) -> None:
    source = rattle.read(WHOLE, "whole.rt")
    types = [it.type for it in source.functions[0].given]
    byte = rattle.Slice(rattle.Named("u8"))
    same = [
        (source.about, ["All.", "", "Of it."]), (source.modules, ["one", "two"]),
        ([(it.name, it.value, it.says) for it in source.constants], [("ONE", "1", ["A number, in words.", "And more."])]),
        ([(it.name, [value.name for value in it.fields]) for it in source.structs], [("Pair", ["first", "second"])]),
        ([it.name for it in source.functions], ["do_it", "end"]),
        (types, [rattle.Named("Global"), rattle.Pointer(rattle.Named("Pair"), True), rattle.Pointer(rattle.Slice(rattle.Pointer(byte, False)), False),
                 rattle.Pointer(rattle.Pointer(byte, False, is_static=True), True)]),
        ([it.answer for it in source.functions], [rattle.Named("u32"), None]),
        ([it.same for it in source.functions], [["pair"], []]),
    ]
    for found, wanted in same:
        tell(report, found == wanted, f"a source that is read whole: {found} is not {wanted}")


def tell(report: Report, holds: bool, fault: str) -> None:
    if holds:
        report.row_passed()
    else:
        report.fault(f"c_header: {fault}")


def error_of(text: str, is_read: bool) -> str:
    """Why a source is refused, if it is."""
    try:
        source = rattle.read(text, "some.rt")
        if is_read:
            boundary.constants(source, "")
            for function in source.functions:
                boundary.call(function)
            if source.structs:
                boundary.structs({"some": source})
    except rattle.Refused as refused:
        return str(refused)
    return ""


def try_refused(report: Report) -> None:
    for is_read, sources in ((False, REFUSED), (True, NO_SUCH)):
        for name, (text, words) in sources.items():
            said = error_of(text, is_read)
            tell(report, words in said, f"{name}: {said or 'it is read'}")
            tell(report, not is_read or not error_of(text, False), f"{name}: it can't be read at all")


def with_fault(texts: Dict[str, str], language: str, old: str, new: str, room: Path) -> compared.Files:
    """The three files, with a fault in that of a language."""
    files = compared.Files(room / "gix_config.h", room / "_calls.py", room / "raw.rs")
    for path, kind in zip(files, compared.Files._fields):
        path.write_text(texts[kind].replace(old, new, 1) if kind == language else texts[kind], encoding="utf-8")
    return files


def try_faults(report: Report, crossing: boundary.Boundary, texts: Dict[str, str]) -> None:
    """Each fault is told of just the languages that differ from C then: of a header's fault of both others."""
    languages: List[str] = ["Python", *(["Rust"] if shutil.which("rustc") else [])]
    faults = [(language, name, *fault) for language, named in FAULTS.items() for name, fault in named.items()]
    for language, name, old, new in [("header", "no fault", "", ""), *faults]:
        if language == "rust" and "Rust" not in languages:
            continue
        tell(report, old in texts[language], f"{language}: {name}: the file hasn't what is replaced")
        with tempfile.TemporaryDirectory(prefix="c-header-") as room:
            told = compared.compare(crossing, with_fault(texts, language, old, new, Path(room)), Path(room))
        wanted = [it for it in languages if old and language in ("header", it.lower())]
        tell(report, [it for it in languages if told[it]] == wanted, f"{language}: {name}: told {told}")


def run(crossing: boundary.Boundary, made: Dict[Path, str], files: compared.Files) -> int:
    report = Report()
    try_whole(report)
    try_refused(report)
    try_faults(report, crossing, {kind: made[path] for kind, path in zip(compared.Files._fields, files)})
    return int(report.close())
