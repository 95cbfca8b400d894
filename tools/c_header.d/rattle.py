"""Reads a source in Rattle, as far as what crosses to other languages goes: constants, structs and functions with their words.

A source is cut into tokens, and these into items. What has to be understood is: anything else there is refused with file and line, and
is never skipped. Bodies, contracts and items of other kinds are skipped as whole groups of tokens.
"""
import re
from dataclasses import dataclass, field
from typing import Iterator, List, NamedTuple, NoReturn, Optional, Tuple, Union

CLOSES = {"(": ")", "[": "]", "{": "}"}

# The words before the groups of a contract.
CLAUSES = {"requires", "ensures", "decreases"}

# The clause that a handle has afterwards what it had.
SAME = re.compile(r"\{(\w+)\.new\.it≡\1\.old\.it\}")


class Refused(Exception):
    """A source has what isn't understood."""


class Token(NamedTuple):
    kind: str
    """`word`, `lifetime`, `number`, `text` (also a character), `says` (a line of `///`), `about` (one of `//!`), or `mark`."""
    text: str
    line: int


@dataclass(frozen=True)
class Named:
    """A type by its name, such as `u32` or `Key<'a>`."""

    name: str


@dataclass(frozen=True)
class Slice:
    """`[T]`."""

    of: "Type"


@dataclass(frozen=True)
class Pointer:
    """`&T`, `&mut T`, `*const T` or `*mut T`."""

    to: "Type"
    is_mut: bool
    is_raw: bool = False
    is_static: bool = False


Type = Union[Named, Slice, Pointer]


@dataclass
class Value:
    """A field, or a parameter: its name, its type and what is said of it."""

    name: str
    type: Type
    says: List[str] = field(default_factory=list)


@dataclass
class Constant:
    """A number of 32 bits."""

    name: str
    value: str
    says: List[str]


@dataclass
class Struct:
    name: str
    fields: List[Value]
    says: List[str]


@dataclass
class Function:
    """A function that is exported."""

    name: str
    given: List[Value]
    answer: Optional[Type]
    says: List[str]
    same: List[str] = field(default_factory=list)
    """The handles of which its contract says, whatever it answers, that they have afterwards what they had."""


@dataclass
class Source:
    """What a file has of these, in its order."""

    about: List[str]
    modules: List[str]
    constants: List[Constant]
    structs: List[Struct]
    functions: List[Function]


def tokens(text: str, name: str) -> List[Token]:
    """A text's tokens. Comments are none, but for those that are documentation."""
    found: List[Token] = []
    at, line = 0, 1
    while at < len(text):
        token, end = next_token(text, at, line, name)
        if token is not None:
            found.append(token)
        line += text.count("\n", at, end)
        at = end
    return found


def next_token(text: str, at: int, line: int, name: str) -> Tuple[Optional[Token], int]:
    """The token at a place, if one is there and not whitespace or a comment; and where the next one begins."""
    if text[at].isspace():
        return None, at + 1
    if text.startswith("//", at):
        end = text.find("\n", at)
        end = len(text) if end < 0 else end
        said = text[at:end]
        kind = "about" if said.startswith("//!") else "says" if said.startswith("///") and not said.startswith("////") else None
        return (Token(kind, said[4:], line) if kind else None), end
    if text.startswith("/*", at):
        return None, comment_end(text, at, line, name)
    if text[at] == '"' or text.startswith('b"', at):
        return quoted(text, at, '"', line, name)
    if text.startswith("b'", at):
        return quoted(text, at, "'", line, name)
    if text[at] == "'":
        if text[at + 1:at + 2] == "\\" or text[at + 2:at + 3] == "'":
            return quoted(text, at, "'", line, name)
        end = word_end(text, at + 1)
        return Token("lifetime" if end > at + 1 else "mark", text[at:max(end, at + 1)], line), max(end, at + 1)
    if text[at].isdigit():
        end = word_end(text, at)
        return Token("number", text[at:end], line), end
    end = word_end(text, at)
    if end > at:
        return Token("word", text[at:end], line), end
    for mark in ("->", "::", "=>"):
        if text.startswith(mark, at):
            return Token("mark", mark, line), at + len(mark)
    return Token("mark", text[at], line), at + 1


def word_end(text: str, at: int) -> int:
    while at < len(text) and (text[at] == "_" or text[at].isalnum()):
        at += 1
    return at


def comment_end(text: str, at: int, line: int, name: str) -> int:
    """Where a comment of `/*` ends, in which others may stand."""
    depth, end = 0, at
    while end < len(text):
        if text.startswith("/*", end):
            depth, end = depth + 1, end + 2
        elif text.startswith("*/", end):
            depth, end = depth - 1, end + 2
            if depth == 0:
                return end
        else:
            end += 1
    raise Refused(f"{name}:{line}: a comment is never closed")


def quoted(text: str, at: int, quote: str, line: int, name: str) -> Tuple[Token, int]:
    """A text or a character, with its quotes."""
    end = text.index(quote, at) + 1
    while end < len(text):
        if text[end] == "\\":
            end += 2
        elif text[end] == quote:
            return Token("text", text[at:end + 1], line), end + 1
        else:
            end += 1
    raise Refused(f"{name}:{line}: a quote is never closed")


class Attributes(NamedTuple):
    """What stands before an item: its words, and its attributes as texts."""

    says: List[str]
    marks: List[str]


class Reader:
    """Reads the items of a source off its tokens."""

    def __init__(self, text: str, name: str) -> None:
        self.name = name
        self.left = tokens(text, name)
        self.at = 0

    def refuse(self, reason: str) -> NoReturn:
        last = self.left[min(self.at, len(self.left) - 1)] if self.left else Token("mark", "", 1)
        raise Refused(f"{self.name}:{last.line}: {reason}, at `{last.text}`")

    def is_done(self) -> bool:
        return self.at >= len(self.left)

    def seen(self, *texts: str) -> bool:
        """Whether these tokens come next."""
        here = self.left[self.at:self.at + len(texts)]
        return len(here) == len(texts) and all(token.text == text and token.kind in ("word", "mark") for token, text in zip(here, texts))

    def take(self, *texts: str) -> bool:
        """Takes these tokens if they come next."""
        if not self.seen(*texts):
            return False
        self.at += len(texts)
        return True

    def want(self, *texts: str) -> None:
        if not self.take(*texts):
            self.refuse(f"`{' '.join(texts)}` is missing")

    def next(self, kind: str) -> str:
        """Takes the next token, which has to be of a kind."""
        if self.is_done() or self.left[self.at].kind != kind:
            self.refuse(f"a {kind} is missing")
        self.at += 1
        return self.left[self.at - 1].text

    def says(self) -> List[str]:
        """The lines of documentation that come next, as paragraphs."""
        lines = []
        while not self.is_done() and self.left[self.at].kind == "says":
            lines.append(self.left[self.at].text)
            self.at += 1
        return paragraphs(lines)

    def group(self) -> str:
        """Takes all from a bracket to the one that closes it, and returns it without whitespace."""
        begun, open_ = self.at, [CLOSES.get(self.left[self.at].text) if not self.is_done() else None]
        if open_[0] is None:
            self.refuse("a bracket is missing")
        self.at += 1
        while open_:
            if self.is_done():
                raise Refused(f"{self.name}:{self.left[begun].line}: a bracket is never closed")
            kind, text, _line = self.left[self.at]
            self.at += 1
            if kind != "mark":
                continue
            if text in CLOSES:
                open_.append(CLOSES[text])
            elif text == open_[-1]:
                open_.pop()
            elif text in CLOSES.values():
                self.at -= 1
                self.refuse(f"`{open_[-1]}` is missing")
        return "".join(token.text for token in self.left[begun:self.at])

    def before_item(self) -> Attributes:
        says, marks = self.says(), []
        while self.take("#"):
            self.take("!")
            marks.append(self.group())
            says += self.says()
        return Attributes(says, marks)

    def skip_item(self) -> List[str]:
        """Skips an item: up to its `;`, or its group in braces, but for those of contracts, which are returned."""
        clauses: List[str] = []
        while not self.is_done():
            if self.take(";"):
                return clauses
            if self.left[self.at].kind == "word" and self.left[self.at].text in CLAUSES:
                clauses.append(self.clause())
            elif self.seen("{"):
                self.group()
                # (as `use a::{b, c};`)
                self.take(";")
                return clauses
            elif self.left[self.at].kind == "mark" and self.left[self.at].text in CLOSES:
                self.group()
            else:
                self.at += 1
        self.refuse("an item is never closed")

    def clause(self) -> str:
        self.at += 1
        if not self.seen("{"):
            self.next("word")
        return self.group()

    def type(self) -> Type:
        """A type, as far as one can cross."""
        if self.take("&"):
            is_static = self.lifetime() == "'static"
            is_mut = self.take("mut")
            return Pointer(self.type(), is_mut, is_static=is_static)
        if self.take("*", "const"):
            return Pointer(self.type(), False, is_raw=True)
        if self.take("*", "mut"):
            return Pointer(self.type(), True, is_raw=True)
        if self.take("["):
            of = self.type()
            self.want("]")
            return Slice(of)
        name = self.next("word")
        self.lifetimes()
        return Named(name)

    def lifetime(self) -> Optional[str]:
        if self.is_done() or self.left[self.at].kind != "lifetime":
            return None
        self.at += 1
        return self.left[self.at - 1].text

    def lifetimes(self) -> None:
        """Takes the lifetimes of a type, such as `<'a>`. Other arguments of types don't cross."""
        if self.take("<"):
            if self.lifetime() is None:
                self.refuse("only lifetimes can be the arguments of a type that crosses")
            self.want(">")

    def visibility(self) -> bool:
        """Takes `pub` and what it is said of; returns whether it is `pub` for all."""
        if not self.take("pub"):
            return False
        if self.seen("("):
            self.group()
            return False
        return True

    def values(self, close: str, are_documented: bool) -> List[Value]:
        """Fields or parameters up to the bracket that closes them."""
        found = []
        while not self.take(close):
            says = self.says()
            if are_documented and not self.visibility():
                self.refuse("a field that crosses has to be `pub`")
            if are_documented and not says:
                self.refuse("nothing is said of the field")
            name = self.next("word")
            self.want(":")
            found.append(Value(name, self.type(), says))
            if not self.take(","):
                self.want(close)
                break
        return found

    def items(self) -> Source:
        about = []
        while not self.is_done() and self.left[self.at].kind == "about":
            about.append(self.left[self.at].text)
            self.at += 1
        source = Source(about, [], [], [], [])
        while not self.is_done():
            self.item(source)
        return source

    def item(self, source: Source) -> None:
        before = self.before_item()
        if self.is_done():
            return
        is_public = self.visibility()
        if self.take("mod"):
            source.modules.append(self.next("word"))
            if not self.take(";"):
                self.group()
        elif is_public and self.seen("const") and not self.seen("const", "fn"):
            self.constant(before, source)
        elif "[repr(C)]" in before.marks and self.take("struct"):
            self.struct(before, is_public, source)
        elif "[unsafe(no_mangle)]" in before.marks:
            self.function(before, source)
        elif self.seen("extern") and not self.seen("extern", "crate"):
            self.refuse("a function that is called from elsewhere has to be exported by `#[unsafe(no_mangle)]`")
        else:
            self.skip_item()

    def constant(self, before: Attributes, source: Source) -> None:
        """A number. Constants of other types don't cross."""
        self.want("const")
        name = self.next("word")
        self.want(":")
        if not self.take("u32", "="):
            self.skip_item()
            return
        value = self.next("number")
        self.want(";")
        source.constants.append(Constant(name, value, before.says))

    def struct(self, before: Attributes, is_public: bool, source: Source) -> None:
        name = self.next("word")
        self.lifetimes()
        if not self.seen("{"):
            self.refuse("a struct that crosses has fields with names")
        # (a handle's fields are its own)
        if not is_public or all(token.text != "pub" or self.left[self.at + index + 1].text == "ghost"
                                for index, token in enumerate(self.braced())):
            self.group()
            return
        self.want("{")
        source.structs.append(Struct(name, self.values("}", True), before.says))

    def braced(self) -> Iterator[Token]:
        """The tokens of the group in braces that comes next."""
        begun = self.at
        self.group()
        end, self.at = self.at, begun
        return iter(self.left[begun:end])

    def function(self, before: Attributes, source: Source) -> None:
        self.want("extern")
        if self.next("text") != '"C"':
            self.refuse("a function that is exported is `extern \"C\"`")
        self.want("fn")
        name = self.next("word")
        self.lifetimes()
        if not before.says:
            self.refuse(f"nothing is said of {name}")
        self.want("(")
        given = self.values(")", False)
        answer = self.type() if self.take("->") else None
        same = [found[1] for found in map(SAME.fullmatch, self.skip_item()) if found]
        source.functions.append(Function(name, given, answer, before.says, same))


def paragraphs(lines: List[str]) -> List[str]:
    """Lines of documentation as paragraphs, each one line."""
    found: List[List[str]] = [[]]
    for line in lines:
        if line.strip():
            found[-1].append(line.strip())
        elif found[-1]:
            found.append([])
    return [" ".join(" ".join(it).split()) for it in found if it]


def read(text: str, name: str) -> Source:
    """What a source has that may cross."""
    return Reader(text, name).items()
