"""The lines of names.txt, and the table in Rattle that is made of them."""

import re
import sys

from patterns import is_any, split
from sources import canonical, facts_in

VERSIONS = re.compile(r"(?:RelNotes-)?(\d+(?:\.\d+)+)")
# What a list of words has beside words.
STANDS_FOR = {"<bool>", "<int>"}
WORD = re.compile(r"[\w./-]+")
QUOTED = re.compile(r"\"([^\"\n]+)\"|'([^'\n]+)'")
NOTE_WORD = re.compile(r"[A-Za-z][\w-]*(?:\.(?:[\w*-]+|<[\w -]+>))+")


def noted_in(source):
    """For each name the version in whose release notes it is named first."""
    notes = {}
    for page in source.glob("Documentation/RelNotes/*.txt"):
        match = VERSIONS.fullmatch(page.stem)
        if match:
            notes[tuple(map(int, match[1].split(".")))] = page
    first = {}
    for version in sorted(notes):
        for word in NOTE_WORD.findall(notes[version].read_text(encoding="utf-8", errors="replace")):
            first.setdefault(canonical(word), re.sub(r"(\.0)+$", "", ".".join(map(str, version))) if version[0] > 1 else ".".join(map(str, version)))
    return first


def quoted_in(source):
    """The texts, in lower case, that stand in quotes in what git is built of."""
    texts = set()
    for file in sorted(source.rglob("*")):
        if file.suffix in (".c", ".h", ".sh", ".perl") and file.relative_to(source).parts[0] not in ("t", "contrib", "gitk-git", "git-gui"):
            for match in QUOTED.finditer(file.read_text(encoding="utf-8", errors="replace")):
                texts.add((match[1] or match[2]).lower())
    return texts


def hold_words(name, words, row, quoted):
    """Stops where a list of words doesn't fit its name, or has a word that git's source hasn't."""
    if not row or row[1] != "text":
        sys.exit(f"facts.txt: {name}, which has words, isn't read as a text")
    for word in words:
        if word not in STANDS_FOR and not (WORD.fullmatch(word) and word.lower() in quoted):
            sys.exit(f"facts.txt: {name}: git's source has no `{word}` in quotes")
    if len({word.lower() for word in words}) < len(words):
        sys.exit(f"facts.txt: {name}: a word stands twice")


class Table:
    """The names, by their canonical form: each with how it is spelled, its kind, which entries count, and what took its place."""

    def __init__(self, facts, quoted):
        self.quoted = quoted
        self.rows = {name: [fact.name, *told(fact), "-"] for name, fact in facts.items()}

    def section(self, stem):
        """The rows whose names are this and one word."""
        begin = canonical(f"{stem}.x")[:-1]
        return {name[len(begin):]: row for name, row in self.rows.items() if name.startswith(begin) and "." not in name[len(begin):]}

    def name_placeholders(self):
        """Gives what anybody names the word that the documentation has for it in this section."""
        words = {}
        for row in self.rows.values():
            section, inner, _ = split(row[0])
            if inner and is_any(inner) and inner != "<>":
                words.setdefault(section, row[0].split(".")[1])
        for row in self.rows.values():
            section, inner, _ = split(row[0])
            if inner == "<>":
                row[0] = row[0].replace("<>", words[section])

    def apply(self, word, name, rest):
        """Applies a line of facts.txt, and tells whether it changed something."""
        key = canonical(name)
        before = list(self.rows.get(key, ()))
        if word == "no":
            self.rows.pop(key, None)
            return bool(before)
        if word == "like":
            own = self.section(name)
            for last, row in self.section(rest).items():
                own.setdefault(last, None)
                spelled = f"{name}.{row[0].rsplit('.', 1)[1]}"
                instead = row[3] if row[3] in ("-", "none") else f"{name}.{row[3].rsplit('.', 1)[1]}"
                self.rows.setdefault(canonical(spelled), [spelled, row[1], row[2], instead])
            return True
        if word == "words":
            hold_words(name, rest.split(","), self.rows.get(key), self.quoted)
            self.rows[key][1] = f"words:{rest}"
            return True
        row = self.rows.setdefault(key, [name, "text", "all", "-"])
        if word == "is":
            row[:3] = name, rest, row[2] if rest == "text" else "last"
        elif word == "all":
            row[2] = "all"
        elif word == "for":
            row[0], row[3] = name, rest
        elif word == "by":
            return not before
        else:
            sys.exit(f"facts.txt: {word}")
        return before != row


def told(fact):
    """The type of a name's value, and which of its entries count."""
    kinds = fact.kinds - {"many"}
    kind = next(iter(kinds)) if len(kinds) == 1 else "text"
    return kind, "last" if kinds and "many" not in fact.kinds else "all"


def rows_of(source, facts_file):
    """The rows of names.txt."""
    facts = facts_in(source)
    sections = {name.split(".")[0] for name, fact in facts.items() if fact.is_documented}
    table = Table({name: fact for name, fact in facts.items() if name.split(".")[0] in sections}, quoted_in(source))
    lines = [line for line in facts_file.read_text(encoding="utf-8").splitlines() if line and not line.startswith("#")]
    # What holds for names of one section in another comes last.
    for line in sorted(lines, key=lambda line: line.startswith("like ")):
        word, name, *rest = line.split(" ")
        if not table.apply(word, name, " ".join(rest)):
            print(f"facts.txt: `{line}` changes nothing", file=sys.stderr)
    table.name_placeholders()
    noted = noted_in(source)
    return [row + [noted.get(name, "-")] for name, row in sorted(table.rows.items())]


def table_of(rows, version):
    """The source of the table."""
    lines = "".join(f"{' '.join(row[:4])}\\n\\\n" for row in rows)
    return f'''//! The names that git {version} knows, by its documentation and its sources. Made by tools/git_names of tools/git_names.d/names.txt.

/// A line for each name, in the order of their bytes without case: the name, the type of its value, which of its entries count, and what
/// took its place. It is one text, since the prover goes over a list of so many names element by element wherever it is used.
pub(crate) const TABLE: &str = "\\
{lines}";
'''
