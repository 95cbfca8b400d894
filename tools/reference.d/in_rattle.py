"""The reference for Rattle: a page for each module of gix_config that a user can name."""
import re
from html import escape
from textwrap import dedent

from calls import implemented, public_items
from html_page import comment, inline, page, place
from rattle_source import Source
from sources import Crates

LIBRARY = "gix_config"
# How many words the first sentence of a comment may have.
MOST_WORDS = 15
# The functions of the guide's program, which the gate compiles and runs; and what names a call in them, with the label that it has here.
FUNCTION = re.compile(r"^fn \w+.*? \{\n(.*?)^\}\n", re.MULTILINE | re.DOTALL)
CALLED = {
    r"\bfile\.(\w+)\(": "File.{}", r"\bFile::(\w+)\(": "File.{}", r"\borigin\.(\w+)\(": "SectionMut.{}",
    r"\bsection\.(\w+)\(": "SectionRef.{}", r"\bpath\.(interpolate)\(": "Path.{}", r"(?<!\.)\b(normalize)\(": "{}",
    r"\bMemFiles::(\w+)\(": "MemFiles.{}", r"\bfiles\.(insert)\(": "MemFiles.{}",
}


class Library:
    """What a user of gix_config can name, by module, with the sources of it."""

    def __init__(self, crates_directory):
        self.top = crates_directory.parent
        self.crates = Crates(crates_directory)
        self.items = public_items(self.crates.root(LIBRARY))
        self.sources = {}
        self.modules = {}
        for item, path in sorted(self.items.items(), key=lambda one: one[1]):
            self.modules.setdefault(path[:-1], []).append((path[-1], item))
        self.calls = {item: [*self.blocks_of(item)] for item in self.items}
        self.examples = {**examples_of(self.top / "docs/guide/calls.txt"), **examples_of(self.top / "docs/guide/main.txt")}

    def source(self, file):
        if file not in self.sources:
            self.sources[file] = Source(file)
        return self.sources[file]

    def blocks_of(self, item):
        """The blocks of an item that have calls: of each what its file is about, and its calls with their source."""
        for module in self.crates.root(item.module.crate).all():
            source = self.source(module.file)
            for block in source.pieces:
                if block.kind == "impl":
                    owner, is_of_trait = implemented(module, re.sub(r"\s+", " ", block.head()))
                    is_own = owner == item and not is_of_trait
                else:
                    is_own = block.kind == "trait" and module == item.module and block.name == item.name
                calls = source.calls_of(block) if is_own else []
                if calls:
                    yield source, calls

    def traits_of(self, item):
        """The traits that a type has, as far as its crate says."""
        for module in self.crates.root(item.module.crate).all():
            for block in self.source(module.file).pieces:
                if block.kind == "impl":
                    owner, is_of_trait = implemented(module, re.sub(r"\s+", " ", block.head()))
                    if owner == item and is_of_trait:
                        yield re.sub(r"^impl(?:<.*?>)? | for .*$", "", " ".join(block.head().split()))

    def link_of(self, name, here):
        """Where a name of a comment is told, seen from the page of a module, or None."""
        words = name.removesuffix("()").split("::")
        for item, path in self.items.items():
            page_of = file_name(path[:-1])
            there = "" if page_of == here else page_of
            if path[-1] == words[-1] and len(words) == 1:
                return f"{there}#{place(path[-1])}"
            if len(words) > 1 and path[-1] == words[-2] and any(call.name == words[-1] for _, calls in self.calls[item] for call in calls):
                return f"{there}#{place(path[-1] + '.' + words[-1])}"
        return None


def examples_of(guide):
    """By the label of a call, the shortest function of the guide's program that makes it."""
    found = {}
    for body in FUNCTION.findall(guide.read_text(encoding="utf-8")):
        for form, label in CALLED.items():
            for name in re.findall(form, body):
                found[label.format(name)] = min(dedent(body), found.get(label.format(name), dedent(body)), key=len)
    return found


def file_name(module):
    return f"{'.'.join(module) or 'index'}.html"


def contract(source, call):
    """The clauses of a call, folded away, each definition with its file."""
    clauses = escape(call.clauses(), quote=False)
    if not clauses:
        return "<p><small>No contract: it is proved to be safe and to end.</small></p>"

    def with_file(word):
        file = source.definitions.get(word[0])
        return f'<abbr title="{file}">{word[0]}</abbr>' if file else word[0]

    told = re.sub(r"\w+", with_file, clauses)
    return f"<details><summary>Contract</summary>\n<pre>{told}</pre>\n</details>"


def call_lines(library, source, call, label, here):
    yield f'<h3 id="{place(label)}"><code>{escape(label.replace(".", "::"))}</code></h3>'
    yield f"<pre>{escape(call.head())}</pre>"
    yield comment(call.docs, lambda name: library.link_of(name, here))
    if label in library.examples:
        yield f"<details><summary>Example</summary>\n<pre>{escape(library.examples[label])}</pre>\n</details>"
    yield contract(source, call)


def item_lines(library, name, item, here):
    """An item with its calls, a group a file."""
    source = library.source(item.module.file)
    piece = source.named(item.name)
    if item.kind == "fn":
        yield from call_lines(library, source, piece, name, here)
        return
    yield f'<h2 id="{place(name)}">{item.kind} <code>{escape(name)}</code></h2>'
    yield comment(piece.docs, lambda word: library.link_of(word, here))
    yield f"<pre>{escape(piece.shown())}</pre>"
    traits = sorted(set(library.traits_of(item)))
    if traits:
        yield f"<p><small>Traits: {', '.join(f'<code>{escape(it)}</code>' for it in traits)}</small></p>"
    for of_file, calls in library.calls[item]:
        if len(library.calls[item]) > 1:
            yield f"<p><b>{inline(' '.join(of_file.about.split()))}</b></p>"
        for call in calls:
            yield from call_lines(library, of_file, call, f"{name}.{call.name}", here)


def contents(library, module):
    for name, item in library.modules[module]:
        yield f'<a href="#{place(name)}"><b>{escape(name)}</b></a><br>'
        for _, calls in library.calls[item]:
            yield from (f'<a href="#{place(f"{name}.{call.name}")}">{call.name}</a><br>' for call in calls)


def pages(crates_directory):
    """The pages by their names."""
    library = Library(crates_directory)
    made = {}
    for module, items in library.modules.items():
        here = file_name(module)
        title = "::".join([LIBRARY, *module])
        lines = [comment(about_of(library, module))]
        if not module:
            others = (f'<a href="{file_name(it)}"><code>{"::".join(it)}</code></a>' for it in sorted(library.modules) if it)
            lines.append(f"<p>Modules: {', '.join(others)}</p>")
        lines += ["<nav>", *contents(library, module), "</nav>"]
        for name, item in items:
            lines += item_lines(library, name, item, here)
        made[here] = page(title, "\n".join(lines), "index.html" if module else "../index.html")
    return {**made, "index.html": made["index.html"].replace('href="../index.html"', 'href="index.html"', 1)}


def about_of(library, module):
    """What the file of a module says of it, where the module is one of the library's own."""
    found = library.crates.root(LIBRARY).within(module) if module else library.crates.root(LIBRARY)
    return library.source(found.file).about if hasattr(found, "file") else ""


def first_sentence(docs):
    """The first sentence of a comment; what follows a colon is one of its own."""
    text = " ".join(docs.strip().split("\n\n")[0].split())
    return re.split(r"(?<=[.:!?])\s", text)[0]


def of_comment(label, docs):
    """Whether an item has a comment, and whether its first sentence is short."""
    yield bool(docs.strip()), f"{label} has no comment"
    yield len(first_sentence(docs).split()) <= MOST_WORDS, f"the first sentence on {label} has over {MOST_WORDS} words"


def results(crates_directory, made):
    """Whether each public item and call has its place and a comment."""
    library = Library(crates_directory)
    labels = {f"{path[-1]}.{call.name}" for item, path in library.items.items() for _, calls in library.calls[item] for call in calls}
    labels |= {path[-1] for path in library.items.values()}
    for label in sorted(library.examples):
        yield label in labels, f"the guide has an example of {label}, which isn't public"
    for item, path in library.items.items():
        text = made[f"rattle/{file_name(path[:-1])}"]
        label = "::".join(path)
        source = library.source(item.module.file)
        piece = source.named(item.name)
        yield f'id="{place(path[-1])}"' in text, f"{label} isn't on its page"
        yield from of_comment(label, piece.docs if piece else "")
        for _, calls in library.calls[item]:
            for call in calls:
                yield f'id="{place(path[-1] + "." + call.name)}"' in text, f"{label}::{call.name} isn't on its page"
                yield from of_comment(f"{label}::{call.name}", call.docs)
