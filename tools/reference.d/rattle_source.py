"""What stands in a file of Rattle: types, functions and blocks with their comments, signatures and clauses."""
import re

HEAD = re.compile(r"^(?P<indent> *)(?P<pub>pub(?:\([^)]*\))? )?(?:const )?(?P<kind>fn|struct|enum|trait|impl)\b(?:\s+(?P<name>\w+))?")
CLAUSE = re.compile(r"^\s*(?:requires|ensures)\b")
USED = re.compile(r"ghost use Rattle\.(\w+)\.specs\.([\w.]+?)\.\{([^}]*)\}")


class Piece:
    """A type, a function or a block: its comment, what stands above its clauses, its clauses, and its lines."""

    def __init__(self, found, docs, lines):
        self.is_public, self.kind, self.name, self.indent = found["pub"] == "pub ", found["kind"], found["name"], len(found["indent"])
        self.docs, self.lines = "\n".join(docs), lines

    def head(self):
        """The signature of a function, the head of a block."""
        head = []
        for line in self.lines:
            if CLAUSE.match(line) or line.strip() == "{":
                break
            head.append(line[self.indent:].rstrip(" {;") if line.endswith(("{", ";")) else line[self.indent:])
            if line.endswith(("{", ";")):
                break
        return "\n".join(head)

    def clauses(self):
        """The clauses of a function, with the comments between them."""
        text = []
        for line in self.lines:
            if text and line.strip() == "{":
                break
            if text or CLAUSE.match(line):
                text.append(line)
        wide = min((len(line) - len(line.lstrip()) for line in text if line.strip()), default=0)
        return "\n".join(line[wide:] for line in text).rstrip(";")

    def shown(self):
        """A type as its users see it: its public fields, its variants, or what contracts ask a trait for, with their comments."""
        if self.kind == "trait":
            asked = [line for line in self.lines[1:] if re.match(r"    ghost (?!use)", line)]
            return "\n".join([self.lines[0], *asked, "    // and the calls below", "}"])
        if len(self.lines) == 1 or self.kind == "enum":
            return "\n".join(self.lines)
        kept, above, hides = [self.lines[0]], [], False
        for line in self.lines[1:-1]:
            if line.strip().startswith(("///", "//", "#[")):
                above.append(line)
            elif line.strip().startswith("pub "):
                kept += [*(it for it in above if "///" in it), line]
                above = []
            else:
                above, hides = [], hides or bool(line.strip()) and "ghost" not in line
        return "\n".join([*kept, *(["    // private fields"] if hides else []), self.lines[-1]])


def end_of(lines, at):
    """The line with which an item that begins in line `at` ends: the first one behind it that is a brace at its indent, or its only one."""
    indent = len(lines[at]) - len(lines[at].lstrip())
    for n in range(at, len(lines)):
        closes_here = lines[n].endswith((";", "}") if n == at else ";") and not opened(lines[at:n + 1])
        if closes_here or n > at and lines[n].startswith(" " * indent + "}"):
            return n
    return len(lines) - 1


def opened(lines):
    """How many braces of some lines stay open."""
    text = re.sub(r"//.*|'[{}]'|\"(?:[^\"\\]|\\.)*\"", "", "\n".join(lines))
    return text.count("{") - text.count("}")


def pieces(lines, indent=0):
    """The types, functions and blocks that stand at an indent, in order."""
    docs, at = [], 0
    while at < len(lines):
        line = lines[at]
        stripped = line.strip()
        found = HEAD.match(line)
        if stripped.startswith("///"):
            docs.append(stripped[4:])
        elif stripped.startswith("#["):
            while not lines[at].rstrip().endswith("]"):
                at += 1
        elif found and len(found["indent"]) == indent:
            end = end_of(lines, at)
            yield Piece(found, docs, lines[at:end + 1])
            docs, at = [], end
        else:
            docs = []
        at += 1


class Source:
    """A file: what it is about, its pieces, and where the definitions that its clauses name stand."""

    def __init__(self, path):
        text = path.read_text(encoding="utf-8")
        lines = text.splitlines()
        self.about = "\n".join(line[4:] for line in lines if line.startswith("//!"))
        self.pieces = [*pieces(lines)]
        self.definitions = {name.strip(): f"crates/{crate}/specs/{where.replace('.', '/')}.antt"
                            for crate, where, names in USED.findall(text) for name in names.split(",")}

    def named(self, name):
        """The type or the function of this name."""
        return next((it for it in self.pieces if it.name == name and it.kind != "impl"), None)

    def calls_of(self, block):
        """The functions of a block that its users can call."""
        inner = block.lines[1:-1]
        return [it for it in pieces(inner, 4) if it.kind == "fn" and (it.is_public or block.kind == "trait")]
