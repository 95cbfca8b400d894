"""How far the crate for Rust has the public items of gix-config: usual calls of these are compiled over it."""
import json
import re
from pathlib import Path

ITEMS = Path(__file__).with_name("items.txt")
PAGE = Path(__file__).resolve().parents[2] / "docs/from-gix-config.md"
COUNT = re.compile(r"Of (\d+) public items of gix-config (\d+) ")

MANIFEST = """[package]
name = "items"
version = "0.1.0"
edition = "2021"

[dependencies]
bstr = { version = ">=0.2.17, <2", default-features = false, features = ["std"] }
gix-config = { path = "../crate" }
"""

FRONT = "#![allow(warnings)]\n"
PROBE = ("mod probe{number} {{ use gix_config::{{File, AsKey, KeyRef, Source, file::Metadata}}; use bstr::{{BStr, BString, ByteSlice}}; "
         "pub fn probe(f: &File, m: &mut File) {{ {call} }} }}\n")


class Item:
    """An item: its name with its part, how far it is told to be there, and calls of it."""

    def __init__(self, line):
        self.name, _, self.told = line.rpartition(": ")
        self.calls = []

    def found(self, compiles):
        """How far it is there."""
        there = [it in compiles for it in self.calls]
        return "same" if all(there) else "part" if any(there) else "missing"


def read():
    items = []
    for line in ITEMS.read_text(encoding="utf-8").splitlines():
        if line.startswith("    "):
            items[-1].calls.append((len(items), line.strip()))
        elif line and not line.startswith("#"):
            items.append(Item(line))
    return items


def refused(said, where):
    """The calls that a compiler's messages are about."""
    found = set()
    for line in said.splitlines():
        told = json.loads(line) if line.startswith("{") else {}
        if told.get("reason") == "compiler-message" and told["message"]["level"] == "error":
            own = [it["line_start"] for it in told["message"]["spans"] if it["file_name"] == "src/lib.rs"]
            found.update(where[line] for line in own if line in where)
    return found


def compiling(calls, room, check):
    """Those of the calls that compile. A compiler that refuses some may not come to look at others, so it is asked again without these."""
    directory = room / "items"
    (directory / "src").mkdir(parents=True)
    (directory / ".cargo").mkdir()
    (directory / ".cargo/config.toml").write_bytes((room / "crate/.cargo/config.toml").read_bytes())
    (directory / "Cargo.toml").write_text(MANIFEST, encoding="utf-8")
    left = list(calls)
    while True:
        text, where = FRONT, {}
        for number, call in enumerate(left):
            text += PROBE.format(number=number, call=call[1].replace("$TRUST", "gix_config::Trust::Full"))
            where[text.count("\n")] = call
        (directory / "src/lib.rs").write_text(text, encoding="utf-8")
        status, said = check(directory)
        others = refused(said, where)
        if not others:
            return left if status == 0 else None
        left = [it for it in left if it not in others]


def faults(room, check):
    """What is told of the items otherwise than it is, each as a line. `check` compiles a directory, and returns its status and what is said."""
    items = read()
    compiles = compiling([call for item in items for call in item.calls], room, check)
    if compiles is None:
        return ["the calls of items.txt can't be compiled at all"]
    compiles = set(compiles)
    found = [f"{it.name}: {it.found(compiles)}, and items.txt says {it.told}" for it in items if it.found(compiles) != it.told]
    told, same = COUNT.search(PAGE.read_text(encoding="utf-8")), sum(it.told == "same" for it in items)
    if not told or (int(told[1]), int(told[2])) != (len(items), same):
        found.append(f"docs/from-gix-config.md has to say: Of {len(items)} public items of gix-config {same} ..")
    return found
