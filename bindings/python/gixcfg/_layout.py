"""Texts that are formatted."""
from typing import AnyStr, Optional, Tuple

from gixcfg import _calls as c
from gixcfg._library import LIBRARY
from gixcfg._names import decoded, encoded, refuse_text, taken


def _formatted(text: bytes, layout: c.Layout) -> bytes:
    block, place = c.Bytes(), c.Place()
    number = LIBRARY.gix_config_normalize(text, len(text), layout, block, place)
    if number != c.DONE:
        refuse_text(number, place)
    return taken(block)


def _indent(indent: str) -> Tuple[bool, int]:
    """Whether an indent is of tabs, and how many."""
    if indent.strip("\t") and indent.strip(" "):
        raise ValueError(f"{indent!r} is not of tabs alone or of spaces alone")
    return "\t" in indent, len(indent)


def _limit(count: Optional[int]) -> Tuple[bool, int]:
    """Whether there is a limit, and which."""
    if count is not None and count < 0:
        raise ValueError(f"{count} is no number of lines")
    return count is not None, count or 0


def normalize(text: AnyStr, *, indent: str = "\t", newline: Optional[str] = None, root_indent: Optional[str] = "", spaces: bool = True,
              final_newline: bool = True, max_leading_blank_lines: Optional[int] = None, max_blank_lines: Optional[int] = None) -> AnyStr:
    """The text formatted as `gixcfg fmt` does it: an indent before each name, one space on either side of `=`, one line ending at the end; with
    the same sections, entries and comments. Lines end with the newline, LF or CR LF, or as the first line of the text does.

    The root indent stands before comments ahead of the first header; with None the whitespace stays that is there. Without `spaces` none is
    around `=`, and without `final_newline` the end stays as it is. Blank lines are limited ahead of the first line that isn't blank, and where
    they stand together behind it; with None all stay. An indent is of tabs alone or of spaces alone.

    Raises ParseError for a text that can't be read on at some place, and ValueError for another indent, newline or limit.

    >>> normalize("[a]\\nk=1")
    '[a]\\n\\tk = 1\\n'
    """
    if newline not in (None, "\n", "\r\n"):
        raise ValueError(f"{newline!r} ends no line")
    layout = c.Layout()
    LIBRARY.gix_config_layout_default(layout)
    layout.has_tabs, layout.indent = _indent(indent)
    layout.keeps_root_blanks = root_indent is None
    layout.has_root_tabs, layout.root_indent = _indent(root_indent or "")
    layout.spaces_around_separator, layout.ensures_trailing_newline = spaces, final_newline
    layout.detects_newline, layout.is_crlf = newline is None, newline == "\r\n"
    layout.limits_leading_blank_lines, layout.max_leading_blank_lines = _limit(max_leading_blank_lines)
    layout.limits_blank_lines, layout.max_blank_lines = _limit(max_blank_lines)
    if isinstance(text, str):
        return decoded(_formatted(encoded(text), layout))
    return _formatted(text, layout)
