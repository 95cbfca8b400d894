"""Where calls stand in the sources of programs and tests, as far as text tells whose they are."""

import re

from calls import BLOCK, implemented
from sources import Item

FUNCTION = re.compile(r"^(?P<indent> *)(?:pub(?:\([^)]*\))? )?(?:const )?fn \w+.*?^(?P=indent)\}", re.M | re.S)
TYPED = re.compile(r"\b(\w+): (?:&(?:'\w+ )?)?(?:mut )?(?:Result<|Option<)?&?(?:mut )?([\w:]+)")
METHOD = r"\.\s*(\w+)\s*(?:::<[^;]*?>)?\("
METHOD_NAME = re.compile(METHOD)
MADE = re.compile(r"\blet (?:mut )?(\w+) = ([\w:]+)::\w+\(")
# What stands before the dot is a name, or a call without arguments.
METHOD_CALL = re.compile(rf"(\w+)(\(\))?\??(?=\s*{METHOD})")
PATH_CALL = re.compile(r"(?<![\w.:])((?:\w+::)*\w+)(?:::<[^;(]*?>)?::(\w+)\b|(?<![\w.:])(\w+)\s*(?:::<[^;(]*?>)?\(")
OWN_METHOD = re.compile(r"\bfn (\w+)(?:<[^(]*>)?\(\s*&?(?:'\w+ )?(?:mut )?self\b")


def typed_names(module, text):
    """The names of a function that it says the type of, or that it makes by a call of a type, where that is a type of ours."""
    found = {}
    for name, path in MADE.findall(text) + TYPED.findall(text):
        item = module.named(tuple(path.split("::")))
        if isinstance(item, Item):
            found[name] = item
    return found


def functions_of(module):
    """The functions of a module: the text of each, and what `self` is in it."""
    for block in BLOCK.finditer(module.text):
        owner = implemented(module, block["head"])[0] if block["head"].startswith("impl") else None
        for function in FUNCTION.finditer(block["body"]):
            yield function[0], owner
    for function in FUNCTION.finditer(BLOCK.sub("", module.text)):
        yield function[0], None


class Runs:
    """The calls that stand in sources: those whose type is told, and the names of all others."""

    def __init__(self, crates, names, receivers):
        self.told, self.names, self.own = set(), set(), set()
        self.unused = dict(receivers)
        for name in names:
            for module in crates.root(name).all():
                place = f"{name}/{module.file.relative_to(crates.directory / name / 'src')}"
                self._read(module, {what: item for (at, what), item in receivers.items() if at == place}, place)

    def _read(self, module, receivers, place):
        self.own.update(OWN_METHOD.findall(module.text))
        self.names.update(METHOD_NAME.findall(module.text))
        for text, owner in functions_of(module):
            names = {**receivers, **typed_names(module, text)}
            if isinstance(owner, Item):
                names["self"] = owner
            for name, is_call, method in METHOD_CALL.findall(text):
                item = names.get(name + is_call)
                if item is not None:
                    self.told.add((item, method))
                    if receivers.get(name + is_call) == item:
                        self.unused.pop((place, name + is_call), None)
        for path, method, name in PATH_CALL.findall(module.text):
            if name:
                self.told.add((module.named((name,)), None))
                continue
            owner = module.named(tuple(path.split("::")))
            if isinstance(owner, Item):
                self.told.add((owner, method))
            elif owner is not None:
                self.told.add((owner.within((method,)), None))

    def has(self, call):
        """Whether a call stands in the sources, told by its type or its path."""
        return (call.owner, None if call.owner.kind == "fn" else call.name) in self.told
