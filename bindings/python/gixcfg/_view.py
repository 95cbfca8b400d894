"""All sections and entries of a file, told by one call."""
import contextlib
import ctypes
import functools
import gc
import os
import struct
from itertools import islice, repeat
from typing import Any, Dict, Iterator, List, Optional, Tuple, Type

from gixcfg import _calls as c
from gixcfg._library import LIBRARY
from gixcfg._names import Entry, Name, done, encoded
from gixcfg._sources import SOURCES, Origin, Section

FORMATS: Dict[Any, str] = {ctypes.c_size_t: "N", ctypes.c_uint32: "I", ctypes.c_bool: "?"}

# (as `Entry` and the others of a tuple, but in a third of the time)
_new: Any = tuple.__new__
_entry = functools.partial(_new, Entry)
_section = functools.partial(_new, Section)


def _format(row: Type[ctypes.Structure]) -> str:
    return "".join(_format(it[1]) if issubclass(it[1], ctypes.Structure) else FORMATS[it[1]] for it in row._fields_)


def _layout(row: Type[ctypes.Structure]) -> struct.Struct:
    """How the numbers of a row lie, which ends where the next one begins."""
    return struct.Struct(_format(row) + "0N")


SECTION, ENTRY, ORIGIN = _layout(c.SectionRow), _layout(c.EntryRow), _layout(c.OriginRow)


def _copied(at: Optional[int], size: int) -> bytes:
    return ctypes.string_at(at or 0, size) if size else b""


@contextlib.contextmanager
def _no_collections() -> Iterator[None]:
    """While many tuples are made that all stay, which the collector would look through again and again, for half of the time."""
    was_on = gc.isenabled()
    gc.disable()
    try:
        yield
    finally:
        if was_on:
            gc.enable()


def _told(text: Optional[str]) -> Any:
    """The text whose bytes are these characters, if there is one."""
    return text if text is None or text.isascii() else text.encode("latin-1").decode("utf-8", "surrogateescape")


class View:
    """The sections and entries of a file as they were when it was made."""

    def __init__(self, file: c.File) -> None:
        view = c.View()
        done(LIBRARY.gix_config_view_file(file, view))
        try:
            text = _copied(view.text, view.text_len)
            self._sections = _copied(view.sections, view.sections_len * SECTION.size)
            self._entries = _copied(view.entries, view.entries_len * ENTRY.size)
            self._origins = _copied(view.origins, view.origins_len * ORIGIN.size)
        finally:
            LIBRARY.gix_config_view_free(view)
        # (a character for each byte, so that what a row says is a slice)
        self._is_ascii, self._text, self._lower = text.isascii(), text.decode("latin-1"), text.lower().decode("latin-1")

    def places(self, name: str, subsection: Optional[str]) -> List[int]:
        """The places of the sections of the names."""
        text, lower = self._text, self._lower
        wanted = encoded(name).lower().decode("latin-1"), None if subsection is None else encoded(subsection).decode("latin-1")
        return [place for place, (at, length, behind, more, is_there, *_rest) in enumerate(SECTION.iter_unpack(self._sections))
                if wanted == (lower[at:at + length], text[behind:behind + more] if is_there else None)]

    def _origin(self, row: Tuple[Any, ...]) -> Origin:
        at, length, has_path, source, level, trust = row
        path = os.fsdecode(self._text[at:at + length].encode("latin-1")) if has_path else None
        return Origin(SOURCES[source.bit_length() - 1], level, trust == c.TRUST_FULL, path)

    @_no_collections()
    def sections(self) -> List[Section]:
        """All sections, in order."""
        text, lower, found = self._text, self._lower, []
        origins, rows = list(map(self._origin, ORIGIN.iter_unpack(self._origins))), ENTRY.iter_unpack(self._entries)
        for place, (at, length, behind, more, is_there, origin, _first, count, _number) in enumerate(SECTION.iter_unpack(self._sections)):
            name, subsection = lower[at:at + length], text[behind:behind + more] if is_there else None
            # (the entries of all sections stand in one array, in order)
            own = [_entry((name, subsection, lower[i:i + m], text[j:j + n] if has_value else None)) for i, m, j, n, has_value in islice(rows, count)]
            found.append(_section((text[at:at + length], subsection, own, origins[origin], place)))
        return found if self._is_ascii else list(map(self._decoded, found))

    @staticmethod
    def _decoded(section: Section) -> Section:
        entries = [_entry(map(_told, it)) for it in section.entries]
        return section._replace(name=_told(section.name), subsection=_told(section.subsection), entries=entries)

    def _parts(self) -> List[Tuple[Optional[str], ...]]:
        """What the entries of all sections have, in order."""
        text, lower, rows = self._text, self._lower, ENTRY.iter_unpack(self._entries)
        found: List[Tuple[Optional[str], ...]] = []
        for at, length, behind, more, is_there, _origin, _first, count, _number in SECTION.iter_unpack(self._sections):
            name, subsection = lower[at:at + length], text[behind:behind + more] if is_there else None
            found += [(name, subsection, lower[i:i + m], text[j:j + n] if has_value else None) for i, m, j, n, has_value in islice(rows, count)]
        return found if self._is_ascii else [tuple(map(_told, it)) for it in found]

    @_no_collections()
    def entries(self) -> List[Entry]:
        """The entries of all sections, in order."""
        return list(map(_new, repeat(Entry), self._parts()))

    @_no_collections()
    def names(self) -> List[Name]:
        """The keys, each once, in the order in which they first occur."""
        return list(map(_new, repeat(Name), dict.fromkeys([it[:3] for it in self._parts()])))

    @_no_collections()
    def values(self) -> Dict[Name, str]:
        """The keys with their last values, as a look-up finds them: an entry without `=` that is the last one of its section leaves the
        value to the sections before, and is empty where these have none."""
        found: Dict[Tuple[str, Optional[str], str], Optional[str]] = {}
        for section in self.sections():
            for name, value in {it[:3]: it.value for it in section.entries}.items():
                if value is not None or name not in found:
                    found[name] = value
        return {_new(Name, name): value or "" for name, value in found.items()}
