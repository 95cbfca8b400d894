"""Which definitions the clauses of a crate reach: those that they name, those that these name, and so on.

Names are looked up as the prover does: in the file itself, else by its `use` lines. A constructor or a field stands for its type.
"""
import os
import re

HEAD = re.compile(r"^(?:(?:abbrev|unfoldable|pub|record|data)\s+)*([A-Za-z_]\w*)")
MEMBER = re.compile(r"^\s+(?:pub )?([A-Za-z_]\w*)(?: [^:=]*)? :")
USE = re.compile(r"^[ \t]*(?:pub )?(?:ghost )?use ([\w.:]+)(?:[.:]+\{([^}]*)\}| as (\w+))", re.MULTILINE)
CLAUSE = re.compile(r"^\s*(?:requires|ensures|ghost(?! use))\b[^{\n]*\{", re.MULTILINE)
NAME = re.compile(r"[A-Za-z_]\w*(?:\.[A-Za-z_]\w*)?")


def files(top, ending):
    for directory, inner, names in os.walk(top):
        inner[:] = sorted(name for name in inner if name != "out")
        yield from (os.path.join(directory, name) for name in sorted(names) if name.endswith(ending))


def imports(text, crate):
    """What each name of a text stands for: a name of a file of specs/, or with None the file itself."""
    found = {}
    for path, names, alias in USE.findall(text):
        parts = path.replace("::", ".").split(".")
        parts = parts[1:] if parts[0] == "Rattle" else [crate, *parts[1:]] if parts[0] == "crate" else parts
        if len(parts) < 3 or parts[1] != "specs" or parts[2] == "declared":
            continue
        file = os.path.join("crates", parts[0], "specs", *parts[2:]) + ".antt"
        for name in filter(None, (name.strip() for name in names.split(","))):
            first, _, other = name.partition(" as ")
            found[other or first] = file, first
        if alias:
            found[alias] = file, None
    return found


class Definitions:
    """All definitions of specs/: the lines of each, without comments and `use` lines."""

    def __init__(self):
        self.lines, self.owners, self.imports = {}, {}, {}
        for path in files("crates", ".antt"):
            if "/specs/" in path:
                self.read(path)

    def read(self, path):
        with open(path, encoding="utf-8") as file:
            text = file.read()
        self.imports[path] = imports(text, path.split(os.sep)[1])
        now = None
        for line in re.sub(r"^(?:pub )?(?:use|mod) [^{\n]*(?:\{[^}]*\})?.*$", "", text, flags=re.MULTILINE).splitlines():
            head = HEAD.match(line)
            if not line.strip():
                now = None
            elif not line.lstrip().startswith("--"):
                now = (path, head[1]) if head else now
                if now:
                    self.lines.setdefault(now, []).append(line)
                    member = MEMBER.match(line)
                    self.owners.update({(path, member[1]): now} if member else {})

    def named(self, path, name):
        """The definition that a name of a file stands for, if it is one."""
        first, _, second = name.partition(".")
        place = self.imports[path].get(first)
        if place and place[1] is None:
            place = place[0], second
        for _ in range(5):
            for found in ((path, first), place):
                if found in self.lines:
                    return found
                if found in self.owners:
                    return self.owners[found]
            # (a file may pass on what it imports)
            place = self.imports.get(place[0], {}).get(place[1]) if place else None
        return None

    def in_text(self, path, text):
        return set(filter(None, (self.named(path, name) for name in NAME.findall(text))))

    def of_clauses(self, crate):
        """Those that the clauses of a crate name."""
        found = set()
        for path in files(os.path.join("crates", crate, "src"), ".rt"):
            with open(path, encoding="utf-8") as file:
                text = file.read()
            self.imports[path] = imports(text, crate)
            for clause in CLAUSE.finditer(text):
                end, depth = clause.end(), 1
                while depth:
                    depth += {"{": 1, "}": -1}.get(text[end], 0)
                    end += 1
                found |= self.in_text(path, text[clause.end():end])
        return found

    def reached(self, crate):
        """Those that the clauses of a crate reach, and how many lines each has."""
        left, found = list(self.of_clauses(crate)), {}
        while left:
            now = left.pop()
            if now not in found:
                found[now] = len(self.lines[now])
                left += self.in_text(now[0], "\n".join(self.lines[now]))
        return found
