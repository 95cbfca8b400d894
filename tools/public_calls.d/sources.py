"""Sources of crates, as text tells them: their modules, what stands in these, and what a path names."""

import re

VISIBILITY = r"(?P<pub>pub(?:\([^)]*\))? )?"
MODULE = re.compile(rf"^{VISIBILITY}mod (?P<name>\w+);", re.M)
ITEM = re.compile(rf"^{VISIBILITY}(?:const )?(?P<kind>fn|struct|enum|trait) (?P<name>\w+)", re.M)
USE = re.compile(rf"^{VISIBILITY}use (?P<tree>[^;]+);", re.M)


def without_comments(text):
    return re.sub(r"//.*", "", text)


def parts_of(braced):
    """What stands between the commas of a `use` tree's braces."""
    depth, part = 0, ""
    for char in braced:
        depth += (char == "{") - (char == "}")
        if char == "," and depth == 0:
            yield part
            part = ""
        else:
            part += char
    yield part


def names_of(tree, before=()):
    """The names that a `use` brings in, each with its path."""
    tree = tree.strip()
    braced = re.fullmatch(r"(.*?)\{(.*)\}", tree, re.S)
    if braced:
        before += tuple(part.strip() for part in braced[1].split("::") if part.strip())
        for part in parts_of(braced[2]):
            if part.strip():
                yield from names_of(part, before)
        return
    renamed = re.fullmatch(r"(.*?)\s+as\s+(\w+)", tree, re.S)
    path = before + tuple(part.strip() for part in (renamed[1] if renamed else tree).split("::"))
    if path[-1] == "self":
        path = path[:-1]
    yield renamed[2] if renamed else path[-1], path


class Item:
    """A function, a type or a trait, by the module that it stands in. Two are equal where they are the same one."""

    def __init__(self, module, name, kind):
        self.module, self.name, self.kind = module, name, kind

    def key(self):
        return self.module.crate, self.module.path, self.name

    def __eq__(self, other):
        return isinstance(other, Item) and self.key() == other.key()

    def __hash__(self):
        return hash(self.key())


class Module:
    """A module: its text without comments, its modules, its items, and the names that it brings in."""

    def __init__(self, crates, crate, path, file):
        self.crates, self.crate, self.path, self.file = crates, crate, path, file
        self.text = without_comments(file.read_text(encoding="utf-8"))
        directory = file.parent if file.stem in ("lib", "main") and not path else file.with_suffix("")
        self.modules, self.items, self.uses = {}, {}, {}
        for found in MODULE.finditer(self.text):
            name = found["name"]
            inner = Module(crates, crate, (*path, name), directory / f"{name}.rt")
            self.modules[name] = found["pub"] == "pub ", inner
        for found in ITEM.finditer(self.text):
            self.items[found["name"]] = found["pub"] == "pub ", Item(self, found["name"], found["kind"])
        for found in USE.finditer(self.text):
            for name, used in names_of(found["tree"]):
                self.uses[name] = found["pub"] == "pub ", used

    def all(self):
        """This module, and all that stand in it."""
        yield self
        for _, module in self.modules.values():
            yield from module.all()

    def named(self, path):
        """The module or the item that a path names here, or None where text doesn't tell."""
        if path[0] == "crate":
            at, path = self.crates.root(self.crate), path[1:]
        elif path[0] == "self":
            at, path = self, path[1:]
        elif path[0] == "super":
            at, path = self.crates.at(self.crate, self.path[:-1]), path[1:]
        elif path[0] in self.modules or path[0] in self.items or self.uses.get(path[0], (False, path))[1] != path:
            at = self
        else:
            at, path = self.crates.root(path[0]), path[1:]
        return at and at.within(path)

    def within(self, path):
        """What a path names that begins in this module."""
        if not path:
            return self
        name, rest = path[0], path[1:]
        if name in self.items and not rest:
            return self.items[name][1]
        if name in self.modules:
            return self.modules[name][1].within(rest)
        if name not in self.uses:
            return None
        found = self.named(self.uses[name][1])
        if isinstance(found, Module):
            return found.within(rest)
        return None if rest else found


class Crates:
    """The crates of a directory, each read when it is asked for."""

    def __init__(self, directory):
        self.directory = directory
        self.roots = {}

    def root(self, name):
        """The crate's root module, or None where there is no such crate."""
        if name not in self.roots:
            files = [self.directory / name / "src" / f"{stem}.rt" for stem in ("lib", "main")]
            found = [file for file in files if file.is_file()]
            self.roots[name] = Module(self, name, (), found[0]) if found else None
        return self.roots[name]

    def at(self, name, path):
        module = self.root(name)
        for part in path:
            module = module.modules[part][1]
        return module
