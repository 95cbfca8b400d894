"""Shows that tools/public_calls tells each kind of fault: a made library, and sources that run its calls or not."""

import tempfile
from pathlib import Path

from report import Report

LIBRARY = {
    "crates/lib/src/lib.rt": """
pub mod file;
pub mod laws;
pub use below::part::{Part, helper as help};
pub fn free() {}
fn hidden() {}
""",
    "crates/lib/src/laws.rt": "pub fn a_law() {}\n",
    "crates/lib/src/file.rt": """
pub struct File {
    text: Vec<u8>,
}

impl<T: Into<Vec<u8>>> File {
    pub fn new(text: T) -> File {
        File { text }
    }

    pub fn print(&self) {}

    pub(crate) fn hidden(&self) {}

    // pub fn commented(&self) {}
}

impl Drop for File {
    fn drop(self) {}
}

pub trait Told {
    fn told(&self) -> u8;
}
""",
    "crates/below/src/lib.rt": "pub mod part;\nmod inner;\npub fn unseen() {}\n",
    "crates/below/src/part.rt": """
pub struct Part;

pub fn helper() {}
""",
    "crates/below/src/inner.rt": """
use crate::part::Part;

impl Part {
    pub fn print(&self) {}

    pub fn rare(&self) {}
}
""",
}
RUN = """
use lib::file::{self, Told};
use lib::{Part, free, help};

fn run(part: &Part) {
    // file::File::hidden(x)
    free();
    help();
    let file = file::File::new(b"");
    file.print();
    part.print();
    of(part).rare();
}

fn show(shown: u8) -> u8 {
    shown.told()
}
"""
TOLD = "show_tests/lib.rt shown is file::Told\n"


def faults_of(look, run, told):
    """What is told of the library with this source and this table."""
    with tempfile.TemporaryDirectory() as directory:
        top = Path(directory)
        files = LIBRARY | {"crates/show_tests/src/lib.rt": run, "crates/bench/src/main.rt": RUN, "told.txt": told}
        for name, text in files.items():
            path = top / name
            path.parent.mkdir(parents=True, exist_ok=True)
            path.write_text(text, encoding="utf-8")
        faults = []
        look(top, top / "told.txt", "lib", Report(tell=faults.append))
        return faults


# What is changed of source and table, and the only fault that is told then.
ROWS = [
    ((), (), None),
    (("    free();\n", ""), (), "free is run by nothing"),
    (("    free();\n", "    // free();\n"), (), "free is run by nothing"),
    (("    help();\n", ""), (), "help is run by nothing"),
    (("file::File::new(b\"\")", "made()"), ("shown is file::Told\n", "shown is file::Told\nshow_tests/lib.rt file is file::File\n"),
     "file::File::new is run by nothing"),
    (("    part.print();\n", ""), (), "Part::print is run by nothing"),
    (("    file.print();\n", ""), (), "file::File::print is run by nothing"),
    (("    of(part).rare();\n", ""), (), "Part::rare is run by nothing"),
    ((), ("shown is file::Told", "shown is File"), "told.txt:1 says nothing, or of a type that isn't public"),
    ((), ("\n", "\nPart::rare at show_tests/lib.rt: of(part).rare()\n"), "told.txt: Part::rare is found without it"),
    ((), ("\n", "\nPart::gone by Part::print\n"), "told.txt: Part::gone is no public call"),
    ((), ("\n", "\nshow_tests/lib.rt other is Part\n"), "told.txt: no public call in show_tests/lib.rt needs to know what other is"),
    (("    of(part).rare();\n", ""), ("\n", "\nPart::rare by Part::print\n"), None),
    (("    of(part).rare();\n", "    let rare = Rare;\n"), ("\n", "\nPart::rare at show_tests/lib.rt: let rare = Rare\n"), None),
]


def run(look):
    report = Report()
    for number, (source, table, wanted) in enumerate(ROWS):
        faults = faults_of(look, RUN.replace(*source) if source else RUN, TOLD.replace(*table) if table else TOLD)
        if wanted is None and not faults or wanted and wanted in faults:
            report.row_passed()
        else:
            report.fault(f"test case {number}: wanted {wanted}, told: {faults}")
    return report.close()
