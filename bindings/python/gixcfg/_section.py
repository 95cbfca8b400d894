"""Editors of one section."""
import ctypes
import sys
from typing import TYPE_CHECKING, List, Optional, Tuple, Union

from gixcfg import _calls as c
from gixcfg._library import LIBRARY
from gixcfg._names import Entry, decoded, done, encoded, entries_of, section_of, taken, text_of
from gixcfg._sources import Section

if TYPE_CHECKING:
    from gixcfg._config import Config

# What a value can be given as: a boolean is written as git writes it, `true` or `false`, and an integer in decimal digits.
Value = Union[str, bool, int]


def written(value: Value) -> str:
    """A value as it is written. Raises TypeError for what is none."""
    if isinstance(value, bool):
        return "true" if value else "false"
    if isinstance(value, (str, int)):
        return str(value)
    raise TypeError(f"{value!r} is no str, bool or int")


class SectionEditor:
    """Edits one section of a file, by its place: also where others have the same name. It is for the place and not for the section: it is
    done with once a section is made or removed before that."""

    def __init__(self, config: "Config", place: int) -> None:
        self._config = config
        self._file = config._file
        self._place = place

    def __repr__(self) -> str:
        return f"<gixcfg.SectionEditor of the section at {self._place} of {self._config!r}>"

    @property
    def section(self) -> Section:
        """The section as it is now. Raises IndexError if none is at the place any more."""
        return self._config.sections()[self._place]

    def _entries(self) -> List[Entry]:
        entries = c.List()
        done(LIBRARY.gix_config_section_entries(self._file, self._place, entries), "a section")
        return entries_of(entries)

    def add(self, name: str, value: Optional[Value] = None, comment: Optional[str] = None) -> None:
        """Adds an entry after all others, also of a name that is there, with the whitespace that the section uses. Raises Refused.

        >>> config = Config.parse("[a] k = 1")
        >>> config.edit("a").add("k", 2, comment="why")
        >>> config.get_all("a.k")
        ['1', '2']
        """
        text = "" if value is None else written(value)
        line = c.Line(text_of(name), value is not None, text_of(text), comment is not None, text_of(comment or ""))
        done(LIBRARY.gix_config_push_line_at(self._file, self._place, line), name)

    def set(self, name: str, value: Value) -> Optional[str]:
        """Gives the last entry of a name a value, or adds one. Returns the raw text of the value that was there. Raises Refused.

        >>> Config.parse("[a] k = 1").edit("a").set("k", 2)
        '1'
        """
        had, old, assigned = ctypes.c_bool(), c.Bytes(), c.Assigned(text_of(name), text_of(written(value)))
        done(LIBRARY.gix_config_set_value_at(self._file, self._place, assigned, had, old), name)
        text = decoded(taken(old))
        return text if had.value else None

    def remove(self, name: str) -> str:
        """Removes the last entry of a name, and returns the raw text of its value. Raises KeyNotFound.

        >>> Config.parse("[a] k = 1").edit("a").remove("k")
        '1'
        """
        old, given = c.Bytes(), encoded(name)
        done(LIBRARY.gix_config_remove_value_at(self._file, self._place, given, len(given), old), name)
        return decoded(taken(old))

    def add_below(self, name: str, value: Value) -> None:
        """Adds an entry below the last one, before the comments and blank lines behind that, as `git config` does. Raises Refused."""
        assigned = c.Assigned(text_of(name), text_of(written(value)))
        done(LIBRARY.gix_config_push_below_last_at(self._file, self._place, assigned), name)

    def add_blank_line(self) -> None:
        """Adds a line ending after all that the section has."""
        done(LIBRARY.gix_config_push_newline_at(self._file, self._place), "a blank line")

    def remove_all(self, name: str) -> int:
        """Removes all entries of a name, and returns how many these were."""
        return self.remove_last(name, sys.maxsize)

    def remove_last(self, name: str, count: int) -> int:
        """Removes so many of the last entries of a name, all if these are fewer. Returns how many were removed."""
        given, removed = encoded(name), ctypes.c_size_t()
        there = sum(encoded(it.name) == given.lower() for it in self._entries())
        flags = (ctypes.c_bool * max(there, 1))(*[index >= there - count for index in range(there)])
        done(LIBRARY.gix_config_remove_marked_at(self._file, self._place, given, len(given), flags, there, removed), name)
        return removed.value

    def pop(self) -> Tuple[str, str]:
        """Removes the last entry, with all that is after it, and returns its name and what its value means. Raises KeyNotFound.

        >>> Config.parse("[a] k = 1").edit("a").pop()
        ('k', '1')
        """
        name, value = c.Bytes(), c.Bytes()
        done(LIBRARY.gix_config_pop_value_at(self._file, self._place, name, value), "an entry")
        return decoded(taken(name)), decoded(taken(value))

    def rename(self, name: str, subsection: Optional[str] = None) -> None:
        """Gives the section another name and subsection. Raises Refused."""
        done(LIBRARY.gix_config_section_rename_at(self._file, self._place, section_of(name, subsection)), name)

    def set_trusted(self, is_trusted: bool) -> None:
        """Says whether the section is fully trusted, which look-ups with `trusted_only` go by. It isn't written into the text."""
        trust = c.TRUST_FULL if is_trusted else c.TRUST_REDUCED
        done(LIBRARY.gix_config_section_set_trust_at(self._file, self._place, trust), "a section")

