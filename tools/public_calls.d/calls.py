"""The public calls of a crate: functions, and what its types and traits have, also those that it hands on."""

import re

from sources import Module

BLOCK = re.compile(r"^(?P<head>(?:pub trait|impl)\b[^{;]*)\{\n(?P<body>.*?)^\}", re.M | re.S)
METHOD = re.compile(r"^    (?P<pub>pub )?(?:const )?fn (?P<name>\w+)(?:<.*?>)?\(\s*(?P<first>[^,)]*)", re.M | re.S)
LAWS = "laws"


class Call:
    """A public call: a function, or one of a type or a trait; with the shortest path that a user may write for it."""

    def __init__(self, label, owner, name, takes_self):
        self.label, self.owner, self.name, self.takes_self = label, owner, name, takes_self


def without_generics(head):
    """The head of an `impl` without the parameters behind that word, and without what it asks of them."""
    head = re.sub(r"\bwhere\b.*", "", head, flags=re.S).removeprefix("impl").strip()
    if not head.startswith("<"):
        return head
    depth = 0
    for place, char in enumerate(head):
        depth += (char == "<") - (char == ">" and head[place - 1] != "-")
        if depth == 0:
            return head[place + 1:].strip()
    return head


def implemented(module, head):
    """The type that an `impl` is for, and whether it is that of a trait."""
    of_trait, _, of_type = without_generics(head).rpartition(" for ")
    path = re.match(r"[\w:]+", of_type.strip().lstrip("&"))
    return (module.named(tuple(path[0].split("::"))) if path else None), bool(of_trait)


def public_items(root):
    """All that a user of a crate can name, each with its shortest path. Modules of laws are left out."""
    paths, seen = {}, set()

    def put(item, path):
        if item not in paths or len(path) < len(paths[item]):
            paths[item] = path

    def walk(module, path):
        if module in seen or LAWS in module.path:
            return
        seen.add(module)
        for name, (is_public, inner) in module.modules.items():
            if is_public:
                walk(inner, (*path, name))
        for name, (is_public, item) in module.items.items():
            if is_public:
                put(item, (*path, name))
        for name, (is_public, used) in module.uses.items():
            found = module.named(used) if is_public else None
            if isinstance(found, Module):
                walk(found, (*path, name))
            elif found:
                put(found, (*path, name))

    walk(root, ())
    return paths


def methods_of(module, items):
    """The public calls that the types and traits of `items` have in a module."""
    for block in BLOCK.finditer(module.text):
        if block["head"].startswith("impl"):
            owner, is_of_trait = implemented(module, block["head"])
            needs_pub = True
        else:
            owner, is_of_trait = module.items[re.match(r"pub trait (\w+)", block["head"])[1]][1], False
            needs_pub = False
        if is_of_trait or isinstance(owner, Module) or owner not in items:
            continue
        for method in METHOD.finditer(block["body"]):
            if method["pub"] or not needs_pub:
                label = "::".join((*items[owner], method["name"]))
                yield Call(label, owner, method["name"], "self" in method["first"])


def public_calls(crates, name):
    """The public calls of a crate, in the order of their labels."""
    items = public_items(crates.root(name))
    calls = [Call("::".join(path), item, item.name, False) for item, path in items.items() if item.kind == "fn"]
    for crate in {item.module.crate for item in items}:
        for module in crates.root(crate).all():
            calls += methods_of(module, items)
    return sorted(calls, key=lambda call: call.label), items
