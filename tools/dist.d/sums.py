"""dist/SHA256SUMS: the sums of the programs that the sources give, with the line of the kit that gave them."""
import re
from dataclasses import dataclass

from release import TOP

FILE = TOP / "dist/SHA256SUMS"

HEAD = """\
# The sums of the programs that these sources give. tools/dist --sums writes this file, tools/dist --check holds what was built to it,
# and where archives of a release were unpacked, sha256sum --ignore-missing -c reads it. docs/releases.md says more.
"""
KIT = "# Proved, compiled, and for x86_64 linked, by: "
SOURCES = "# Of the sources with this sum over crates.txt and crates/: "
LINKED = "# gixcfg.o is what that kit gives for aarch64, and gixcfg was linked of it with: "


@dataclass(frozen=True)
class Sums:
    """The kit's line, the sum of the sources, what linked the program for aarch64, and the sum of each file."""
    kit: str
    sources: str
    linked: str
    files: dict

    def text(self):
        lines = [HEAD.rstrip("\n"), KIT + self.kit, SOURCES + self.sources]
        is_told = False
        for name, sum in self.files.items():
            if "aarch64" in name and not is_told:
                lines.append(LINKED + self.linked)
                is_told = True
            lines.append(f"{sum}  {name}")
        return "\n".join(lines) + "\n"


def read(text):
    """The sums of a text."""
    def told(head):
        return next((line.removeprefix(head) for line in text.splitlines() if line.startswith(head)), "")

    files = {name: sum for sum, name in re.findall(r"^([0-9a-f]{64})  (.+)$", text, re.MULTILINE)}
    return Sums(told(KIT), told(SOURCES), told(LINKED), files)


def compare(wanted, got):
    """Compares the files that were made with the sums that are wanted of them: for each file its name, whether it passes (None where
    nothing can be said), and why not."""
    if got.kit != wanted.kit:
        for name in got.files:
            yield name, None, f"not compared: the sums are of the kit {wanted.kit!r}, and this is {got.kit!r}"
        return
    if got.sources != wanted.sources:
        for name in got.files:
            yield name, None, "not compared: the sums are of other sources; tools/dist --sums writes those of these, as each release has to"
        return
    for name, sum in got.files.items():
        stands = wanted.files.get(name)
        if sum == stands:
            yield name, True, ""
        elif stands is None:
            yield name, False, "has no sum there"
        elif "aarch64" in name and not name.endswith(".o") and got.linked != wanted.linked:
            yield name, None, f"not compared: linked there with {wanted.linked}, and here with {got.linked}"
        else:
            yield name, False, f"its sum is {sum}, and {stands} is wanted"
