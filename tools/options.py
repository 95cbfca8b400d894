"""The commands and options that the program gixcfg knows, read from its sources."""
import re
from pathlib import Path
from typing import List, NamedTuple, Optional

SOURCES = Path(__file__).resolve().parent.parent / "crates/gixcfg_words/src"

# What a value may be where its option names no list of them in the sources.
INDENTS = ["tabs:1", "spaces:2", "spaces:4", "spaces:8"]


class Option(NamedTuple):
    """An option: its name in the sources, its word behind two dashes, its letter behind one, and whether it is followed by a word."""

    name: str
    long: str
    letter: Optional[str]
    takes_word: bool

    def words(self):
        """The words of it that are completed. (What is done without an option is one as it is taken back.)"""
        if self.long == "sync":
            return ["--no-sync"]
        return [f"--{self.long}"] + [f"-{self.letter}"] * bool(self.letter) + ["--no-includes"] * (self.long == "includes")


class Command(NamedTuple):
    """A command: its word, its help as lines, and the options that it takes."""

    word: str
    help: List[str]
    options: List[Option]

    def synopsis(self):
        """How it is called, in one line."""
        lines = [self.help[0].removeprefix("usage: ")]
        for line in self.help[1:]:
            if not line.startswith("     "):
                break
            lines.append(line.strip())
        return " ".join(lines)

    def sentences(self):
        """What its help says of each option's word."""
        said, words = {}, []
        for line in self.help[1:]:
            found = re.match(r"    ((?:-\w, )?--[\w-]+)(?: [A-Z]+)?(?:\s+(.*))?$", line)
            if found:
                words = found[1].split(", ")
                said.update((word, found[2]) for word in words)
            elif not line.startswith("     "):
                words = []
            for word in words if not found else []:
                said[word] += " " + line.strip()
        return said


def text_of(name):
    return (SOURCES / f"{name}.rt").read_text(encoding="utf-8")


def _between(text, begin, end):
    """What stands between two patterns."""
    found = re.search(f"{begin}(.*?){end}", text, re.MULTILINE | re.DOTALL)
    if found is None:
        raise ValueError(f"{SOURCES}: nothing is like {begin}")
    return found[1]


def _table(text, name):
    """What stands in a table."""
    return _between(text, rf"^(?:pub(?:\(crate\))? )?static {name}: [^=]*= \[", r"\];")


def _body(text, name):
    """What stands in a function."""
    return _between(text, rf"^(?:pub(?:\(crate\))? )?fn {name}\([^{{]*\{{", r"^\}")


def all_options():
    """All options, in the order of the sources."""
    text = text_of("options")
    with_word = _body(text, "takes_word")
    rows = re.findall(r'\("([\w-]+)", (?:None|Some\(\'(.)\'\)), (Opt::.*)\),\n', _table(text, "OPTIONS"))
    return [Option(name, long, letter or None, bool(re.search(rf"{name}\b", with_word))) for long, letter, name in rows]


def plain_calls():
    """The calls without options: by the first word how many words there are."""
    text = text_of("plain")
    counts = {word: at for at, name in ((1, "command_alone"), (2, "key_command")) for word in re.findall(r'"(\w+)" => Some', _body(text, f"{name}<'a>"))}
    return counts | {word: others.count(",") + 1 for others, word in re.findall(r'\[(\w+(?:, \w+)+)\] if \*word == "(\w+)"', text)}


class Words:
    """The words that the program knows."""

    def __init__(self):
        verbs, words = text_of("verbs"), text_of("words")
        named = re.findall(r'\("([^"]+)", Verb::(\w+)\)', _table(verbs, "COMMANDS"))
        self.overview = _text("OVERVIEW")
        # each command that takes no options, with how it is called
        self.plain = dict(re.findall(r'\("(\w+)", "([^"]*)"', _table(verbs, "PLAIN")))
        self.commands = [Command(word, _help(verb), list(_taken(verb))) for word, verb in named]
        # calls in which an option says what is done
        self.forms = Command("forms", _help("Forms"), [])
        self.options = {it.word: [word for option in it.options for word in option.words()] for it in self.commands}
        # what a call may begin with, beside the options that say what is done
        self.dashed = re.findall(r'"(-[^"]*)"', _body(words, "read_call<'a>") + _body(words, "is_help"))
        self.first = [*self.options, *self.plain, *self.dashed]
        # the values of options that have a list of them
        self.values = {
            "type": re.findall(r'"([^"]+)" => Some\(Kind::', text_of("kinds")),
            "newline": re.findall(r'"(\w+)" => Some', _body(text_of("spelled"), "newline_named")),
            "indent": INDENTS,
        }
        # options that exclude each other, each with the others
        pairs = re.findall(r'Fault::Both\("(--[\w-]+)", "(--[\w-]+)"\)', words)
        pairs += [(it, "--url") for it in re.findall(r'Some\("(--[\w-]+)"\)', _body(words, "beside_url"))]
        self.excluded = {it: {pair[pair[0] == it] for pair in pairs if it in pair} for it in {it for pair in pairs for it in pair}}
        if not (named and self.plain and pairs and all(self.values.values()) and all(self.options.values())):
            raise ValueError(f"{SOURCES}: not all of the commands, their options and the words of these were found")


def _text(name):
    """A text of the help."""
    return _between(text_of("help"), rf'^(?:pub )?const {name}: &str = "\\\n', '^";')


def _help(verb):
    """The lines of a command's help."""
    return _text(_between(text_of("help"), rf"Some.Verb::{verb}. => ", ",")).split("\n")


def _taken(verb):
    """The options of a command, but for those that only git has, and for types as options of their own."""
    text = text_of("options")
    arms = re.findall(r"^        Verb::([\w: |]+) => \{?(.*?)(?=^        Verb|^    \})", _body(text, "takes"), re.MULTILINE | re.DOTALL)
    body = next(it for names, it in arms if verb in names.replace("Verb::", "").split(" | "))
    marks = ["Opt::Help", *_marks(text, body)]
    for option in all_options():
        if not option.name.startswith(("Opt::Alone", "Opt::Kind")) and any(_is(option.name, mark) for mark in marks):
            yield option


def _marks(text, body):
    """The options that an expression asks for, also by a function."""
    found = re.findall(r"Opt::\w+(?:\([\w:]+\))?", body)
    for name in re.findall(r"\b(\w+)\(option\)", body):
        found += _marks(text, _body(text, name))
    return found


def _is(option, mark):
    """Whether an option is one of those that a pattern stands for."""
    return option == mark or mark.endswith("(_)") and option.startswith(mark[:-2])
