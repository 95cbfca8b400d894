"""Which variables git knows, and how it reads each: read out of its documentation and its sources."""

import re
from collections import defaultdict

# What the calls that read a variable make of its value.
KINDS = {
    "bool": "bool", "bool_multi": "bool", "int": "int", "ulong": "int", "ssize_t": "int", "int64": "int", "unsigned": "int",
    "bool_or_int": "bool-or-int", "color": "color", "pathname": "path", "expiry": "expiry-date", "expiry_date": "expiry-date",
    "string": "text", "string_dup": "text", "string_tmp": "text", "value": "text", "colorbool": "text", "maybe_bool": "text",
    "push_string": "text", "alloc_string": "text", "value_multi": "many", "string_multi": "many",
}
# A documented name: a line of a list, with what the list may say about it.
DOCUMENTED = re.compile(r"^`?([a-zA-Z][^`\n]*\.[^`\n]*?)`?( \(deprecated\))?::$", re.M)
# The calls that ask for a variable by its name.
ASKED = re.compile(r'\b(?:git|repo|git_protected|repo_cfg|git_config_from_parameters)_?config_get_?(\w*)\s*\(\s*(?:[\w>.&-]+,\s*)?"([\w-]+(?:\.[\w-]+)+)"')
ASKED_BY_REPO = re.compile(r'\brepo_cfg_(\w+)\s*\(\s*\w+,\s*"([\w-]+(?:\.[\w-]+)+)"')
# A name that a function which is told each variable compares with, either way round.
COMPARED = re.compile(r'\bstr(?:case)?cmp\s*\(\s*(?:[\w>.-]+\s*,\s*"([A-Za-z][\w.-]*)"|"([A-Za-z][\w.-]*)"\s*,\s*[\w>.-]+)\s*\)')
# What is done with its value.
READ = re.compile(r"\bgit_(?:parse|config)_(\w+)\s*\(|\b(string_list_\w+|strvec_push\w*|add_\w+|parse_\w+|git_default_\w+|\w+_append\w*)\s*\(")
FUNCTION = re.compile(r"^\{\n(.*?)^\}", re.M | re.S)
IN_SECTION = re.compile(r'parse_config_key\(\w+, "(\w+)", (&|NULL)')
# Functions that take the section off before they compare: their file, what they hold, and what stands before the names there.
BARE = [
    ("credential.c", 'skip_prefix(var, "credential.", &key)', ["credential", "credential.<url>"]),
    ("submodule-config.c", "name_and_item_from_var", ["submodule.<name>"]),
    ("setup.c", "handle_extension_v0", []),
    ("bundle-uri.c", '"bundle", &subsection', ["bundle", "bundle.<id>"]),
]
IN_SHELL = re.compile(r"\bgit config\b((?: --?[\w=-]+)*) [\"']?([a-z]\w*(?:\.[A-Za-z][\w-]*)+)\b(?![.$*])")
IN_TCL = re.compile(r"(?:default_config\(|get_config |is_config_true |is_config_false |git config )([a-z]\w*(?:\.\w+)+)")
IN_PERL = re.compile(r"(?:config(?:_\w+)?\(|git_config_\w+\(|'config', )(?:'--\w+', )?[\"']([a-z]\w*(?:\.\w+)+)[\"']")
MAIL_TABLE = re.compile(r"^my %config_(bool_|path_)?settings = \((.*?)^\);", re.M | re.S)
# Lists of words that stand for the last name.
ADVICE = re.compile(r'\{ "(\w+)" \}')
SLOTS = re.compile(r"\bcolor_(\w+)_slots\[\] = \{(.*?)\};", re.S)
MORE_SLOTS = re.compile(r"define_list_config_array_extra\(color_(\w+)_slots, \{(.*?)\}\)")
FSCK = re.compile(r"\bFUNC\(([A-Z_0-9]+), \w+\)")


class Fact:
    """How a name is spelled, how it is read, and whether the documentation has it."""

    def __init__(self, name):
        self.name = name
        self.is_documented = False
        self.is_deprecated = False
        self.kinds = set()


def canonical(name):
    """A name as it is compared: what is no subsection in lower case, and each placeholder alike."""
    section, *between, last = name.split(".")
    inner = ".".join(between)
    last = "*" if last.startswith("<") else last.lower()
    return ".".join(part for part in (section.lower(), "<>" if inner.startswith("<") else inner, last) if part)


class Facts:
    """The names by their canonical form."""

    def __init__(self):
        self.by_name = {}

    def of(self, name):
        return self.by_name.setdefault(canonical(name), Fact(name))

    def add(self, name, kind=None):
        if kind is not None and kind not in KINDS.values():
            kind = KINDS.get(kind)
        fact = self.of(name)
        if kind:
            fact.kinds.add(kind)


def read_documentation(source, facts):
    pages = sorted(source.glob("Documentation/*config.txt")) + sorted(source.glob("Documentation/config/*.txt"))
    for page in pages:
        text = page.read_text(encoding="utf-8", errors="replace")
        found = list(DOCUMENTED.finditer(text))
        for at, match in enumerate(found):
            end = found[at + 1].start() if at + 1 < len(found) else len(text)
            for name in re.split(r",\s*", match[1]):
                fact = facts.of(name.replace("<vimdiff variant>", "<variant>"))
                fact.name = name.replace("<vimdiff variant>", "<variant>")
                fact.is_documented = True
                fact.is_deprecated = bool(match[2])
                if re.search(r"multi-?valued|multiple (?:times|values)|more than once|many times|several times|specified multiple", text[match.end():end]):
                    fact.kinds.add("many")


def kinds_of_rest(text):
    """What is done with a value, by the text behind the comparison with its name: up to the next one."""
    end = re.search(r"\n\t*\}? ?(?:else )?if \(|\n\}", text)
    kinds = set()
    for match in READ.finditer(text[:end.start()] if end else text[:400]):
        if match[1]:
            kind = KINDS.get(match[1])
            if kind:
                kinds.add(kind)
        elif "append" in match[2] or "list" in match[2] or "push" in match[2]:
            kinds.add("many")
    return kinds


def read_function(body, name, facts):
    """The names that a function compares with."""
    sections = [(match.start(), [f"{match[1]}.<>" if match[2] == "&" else match[1]]) for match in IN_SECTION.finditer(body)]
    sections += [(0, before) for file, mark, before in BARE if name == file and mark in body]
    for match in COMPARED.finditer(body):
        word = match[1] or match[2]
        stems = max(((at, before) for at, before in sections if at <= match.start()), default=(0, []))[1]
        names = [word] if "." in word else [f"{stem}.{word}" for stem in stems]
        for full in names:
            fact = facts.of(full)
            fact.kinds |= kinds_of_rest(body[match.end():match.end() + 800])


def read_c(source, facts):
    for file in sorted(source.rglob("*.[ch]")):
        path = file.relative_to(source)
        if path.parts[0] in ("t", "contrib", "compat") and path.name not in ("mingw.c",):
            continue
        text = file.read_text(encoding="utf-8", errors="replace")
        for match in list(ASKED.finditer(text)) + list(ASKED_BY_REPO.finditer(text)):
            facts.add(match[2], match[1] or "value")
        for body in FUNCTION.finditer(text):
            read_function(body[1], path.name, facts)
        for match in list(SLOTS.finditer(text)) + list(MORE_SLOTS.finditer(text)):
            for slot in re.findall(r'"(\w+)"', match[2]):
                facts.add(f"color.{match[1]}.{slot}", "color")
    for match in ADVICE.finditer((source / "advice.c").read_text(encoding="utf-8")):
        facts.add(f"advice.{match[1]}", "bool")
    for match in re.finditer(r'^\t\{ "(\w+)",', (source / "sideband.c").read_text(encoding="utf-8"), re.M):
        facts.add(f"color.remote.{match[1]}", "color")
    for match in FSCK.finditer((source / "fsck.h").read_text(encoding="utf-8")):
        first, *others = match[1].lower().split("_")
        for stem in ("fsck", "receive.fsck", "fetch.fsck"):
            facts.add(f"{stem}.{first}{''.join(it.capitalize() for it in others)}", "text")


def read_scripts(source, facts):
    for file in sorted(source.glob("*.sh")) + sorted(source.glob("git-gui/**/*.sh")):
        for match in IN_SHELL.finditer(file.read_text(encoding="utf-8", errors="replace")):
            facts.add(match[2], "bool" if "bool" in match[1] else None)
    for file in sorted(source.glob("git-gui/**/*.tcl")) + [source / "git-gui/git-gui.sh"]:
        for match in IN_TCL.finditer(file.read_text(encoding="utf-8", errors="replace")):
            facts.add(match[1])
    mail = (source / "git-send-email.perl").read_text(encoding="utf-8")
    for table in MAIL_TABLE.finditer(mail):
        for match in re.finditer(r'"(\w+)"\s*=> \\(\S)', table[2]):
            for stem in ("sendemail", "sendemail.<identity>"):
                facts.add(f"{stem}.{match[1]}", "many" if match[2] == "@" else "bool" if table[1] == "bool_" else "text")
    for file in sorted(source.glob("*.perl")) + sorted(source.glob("perl/**/*.pm")):
        for match in IN_PERL.finditer(file.read_text(encoding="utf-8", errors="replace")):
            facts.add(match[1])


def facts_in(source):
    facts = Facts()
    read_documentation(source, facts)
    read_c(source, facts)
    read_scripts(source, facts)
    return facts.by_name
