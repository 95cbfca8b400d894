"""Texts and keys as the library takes them, and what its numbers say."""
import functools
import os
from typing import Dict, Iterator, List, NamedTuple, NoReturn, Optional, Tuple, Type, Union, cast

from gixcfg import _calls as c
from gixcfg._errors import ConfigError, IncludeError, KeyNotFound, NotOfType, ParseError, Refused, VariableError
from gixcfg._library import LIBRARY, bytes_at, words_of

# "remote.origin.url", or its names: ("remote", "origin", "url"), ("core", "editor"), ("core", None, "editor").
Key = Union[str, Tuple[str, str], Tuple[str, Optional[str], str]]

KINDS: Dict[int, Type[ConfigError]] = {
    **dict.fromkeys([c.SECTION_MISSING, c.SUBSECTION_MISSING, c.KEY_MISSING, c.NOTHING_THERE], KeyNotFound), c.BAD_VALUE: NotOfType,
    **dict.fromkeys([c.MISSING_FOLDER, c.PATH_NOT_UTF8, c.USER_NOT_UTF8, c.INCLUDE_DEPTH_EXCEEDED, c.MISSING_CONFIG_PATH, c.MISSING_GIT_DIR,
                     c.REALPATH, c.INCLUDE_NOT_OPENED, c.INCLUDE_NOT_READ, c.FILE_NOT_READ], IncludeError),
    **dict.fromkeys([c.ILLFORMED_VARIABLE, c.INVALID_CONFIG_COUNT, c.INVALID_KEY_ID, c.INVALID_KEY_VALUE, c.INVALID_VALUE_ID], VariableError),
}


class Name(NamedTuple):
    """The names of a key, as a `Config` lists them: those of its section and its own in lower case, and its subsection's. As a `str` it is
    written as git writes it."""

    section: str
    subsection: Optional[str]
    name: str

    def __str__(self) -> str:
        return ".".join(it for it in self if it is not None)


class Entry(NamedTuple):
    """An entry of a file: the names of its section and its own in lower case, and what it means; `None` for one without `=`."""

    section: str
    subsection: Optional[str]
    name: str
    value: Optional[str]

    @property
    def key(self) -> Name:
        """The names of the entry's key."""
        return Name(*self[:3])


def encoded(text: str) -> bytes:
    return text.encode("utf-8", "surrogateescape")


def decoded(text: bytes) -> str:
    return text.decode("utf-8", "surrogateescape")


def text_of(text: str) -> c.Text:
    """A text that is given."""
    given = encoded(text)
    return c.Text(given, len(given))


def text_at(span: c.Span) -> str:
    """A text that was returned."""
    return decoded(bytes_at(span))


def names_of(key: Key) -> Name:
    """The names of a key. In a text the subsection is all between the first dot and the last. Raises ValueError for a text without a dot."""
    if not isinstance(key, str):
        first, *between, last = cast(Tuple[str, ...], key)
        return Name(first, between[0] if between else None, last)
    section, dot, rest = key.partition(".")
    if not dot:
        raise ValueError(f"{key!r} names no value in a section: it has no dot")
    subsection, dot, name = rest.rpartition(".")
    return Name(section, subsection if dot else None, name)


def is_key(key: object) -> bool:
    """Whether something names a value in a section."""
    if isinstance(key, str):
        return "." in key
    return isinstance(key, tuple) and len(key) in (2, 3) and all(isinstance(it, str) or (it is None and at == 1 and len(key) == 3) for at, it in enumerate(key))


@functools.lru_cache(maxsize=1024)
def key_of(key: Key) -> c.Key:
    """A key as the library takes it, which only reads it: so that of a key that is asked for again is the same."""
    section, subsection, name = names_of(key)
    return c.Key(text_of(section), subsection is not None, text_of(subsection or ""), text_of(name))


def section_of(name: str, subsection: Optional[str]) -> c.Section:
    return c.Section(text_of(name), subsection is not None, text_of(subsection or ""))


def taken(block: c.Bytes) -> bytes:
    """What a block has, which is freed."""
    try:
        return bytes_at(block)
    finally:
        LIBRARY.gix_config_bytes_free(block)


def listed(handle: c.List) -> Iterator[int]:
    """The numbers of what a list has. The list is closed at their end."""
    try:
        yield from range(LIBRARY.gix_config_list_len(handle))
    finally:
        LIBRARY.gix_config_list_close(handle)


def texts_of(handle: c.List) -> List[str]:
    """The texts of a list, which is closed."""
    span, found = c.Span(), []
    for index in listed(handle):
        LIBRARY.gix_config_list_at(handle, index, span)
        found.append(text_at(span))
    return found


def entry_of(entry: c.Entry) -> Entry:
    """An entry that the library lists."""
    return Entry(text_at(entry.section), text_at(entry.subsection) if entry.has_subsection else None, text_at(entry.name),
                 text_at(entry.value) if entry.has_value else None)


def entries_of(handle: c.List) -> List[Entry]:
    """The entries of a list, which is closed."""
    entry, found = c.Entry(), []
    for index in listed(handle):
        LIBRARY.gix_config_list_entry(handle, index, entry)
        found.append(entry_of(entry))
    return found


def is_missing(number: int) -> bool:
    """Whether a number says that there is no such section, subsection or value."""
    return KINDS.get(number) is KeyNotFound


def refuse(number: int, about: Optional[str] = None, kind: Optional[Type[ConfigError]] = None) -> NoReturn:
    """Raises what stands for the number of an error, or this kind."""
    if number == c.OUT_OF_MEMORY:
        raise MemoryError
    raised = KINDS.get(number, Refused) if kind is None else kind
    raise raised(number, ("" if about is None else f"{about}: ") + words_of(number))


def done(number: int, about: Optional[str] = None) -> None:
    """Raises what stands for the number of a call, unless it is done."""
    if number != c.DONE:
        refuse(number, about)


def done_of(number: int, key: Key) -> None:
    """As `done`, of a call that a key was given."""
    if number != c.DONE:
        refuse(number, str(names_of(key)))


def refuse_text(number: int, place: c.Place, path: Optional[str] = None) -> NoReturn:
    """Raises what stands for the number of a refused text, which is that of the file at the path if there is one."""
    if number == c.OUT_OF_MEMORY:
        raise MemoryError
    error = ParseError(number, words_of(number), place.line, place.column, place.offset)
    error.path = path
    raise error


def path_of(path: "Union[str, os.PathLike[str]]") -> c.Text:
    """A path that is given, from the root."""
    return text_of(os.path.abspath(os.fspath(path)))
