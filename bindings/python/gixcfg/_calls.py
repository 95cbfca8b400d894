"""What crosses between Python and libgix_config, as include/gix_config.h has it, with its words.

Made by tools/c_header of crates/gix_config_c.
"""
from ctypes import POINTER, Structure, c_bool, c_char_p, c_int64, c_size_t, c_uint32, c_void_p
from typing import Any, Dict, Optional, Sequence, Tuple

# The numbers that calls answer. Up to 27 they are those of docs/refusals.md; no call answers 10 or 28.
DONE = 0
UNEXPECTED_TOKEN = 1
INPUT_TOO_LARGE = 2
SPAN_TOO_LARGE = 3
INVALID_SECTION_NAME = 4
INVALID_SUBSECTION = 5
INVALID_VALUE_NAME = 6
SECTION_MISSING = 7
SUBSECTION_MISSING = 8
KEY_MISSING = 9
BAD_VALUE = 11
MISSING_FOLDER = 12
PATH_NOT_UTF8 = 13
USER_NOT_UTF8 = 14
INCLUDE_DEPTH_EXCEEDED = 15
MISSING_CONFIG_PATH = 16
MISSING_GIT_DIR = 17
REALPATH = 18
INCLUDE_NOT_OPENED = 19
INCLUDE_NOT_READ = 20
FILE_NOT_READ = 21
ILLFORMED_VARIABLE = 22
INVALID_CONFIG_COUNT = 23
INVALID_KEY_ID = 24
INVALID_KEY_VALUE = 25
INVALID_VALUE_ID = 26
OUT_OF_MEMORY = 27
NOTHING_THERE = 100
NOT_UTF8 = 101
WRONG_HANDLE = 102
NOT_TOLD = 103
NO_SUCH_NUMBER = 104
VARIABLE_NOT_TOLD = 105

# Where sections come from, and how far that is trusted. The numbers of sources add up.
SOURCE_GIT_INSTALLATION = 1
SOURCE_SYSTEM = 2
SOURCE_GIT = 4
SOURCE_USER = 8
SOURCE_LOCAL = 16
SOURCE_WORKTREE = 32
SOURCE_ENV = 64
SOURCE_CLI = 128
SOURCE_API = 256
SOURCE_ENV_OVERRIDE = 512
SOURCES_ALL = 1023
TRUST_REDUCED = 0
TRUST_FULL = 1

# The version of this library.
VERSION_MAJOR = 0
VERSION_MINOR = 1
VERSION_PATCH = 0


class File(Structure):
    """A place for a file, {0} at first. It is never copied, and closed with gix_config_file_close."""

    at: Optional[int]

    _fields_ = [
        ("at", c_void_p),
    ]


class List(Structure):
    """A place for a list of texts, entries, sections or differences, {0} at first. It is never copied, and closed with gix_config_list_close."""

    at: Optional[int]

    _fields_ = [
        ("at", c_void_p),
    ]


class Told(Structure):
    """A place for what a program tells of files and of variables, {0} at first. It is never copied, and closed with gix_config_told_close."""

    at: Optional[int]

    _fields_ = [
        ("at", c_void_p),
    ]


class Bytes(Structure):
    """Bytes that are the program's to read until it frees them. {0} at first; never copied; freed with gix_config_bytes_free."""

    at: Optional[int]
    len: int
    owner: Optional[int]

    _fields_ = [
        ("at", c_void_p),
        ("len", c_size_t),
        ("owner", c_void_p),
    ]


class Text(Structure):
    """Bytes that a program gives."""

    at: bytes
    len: int

    _fields_ = [
        ("at", c_char_p),
        ("len", c_size_t),
    ]


class Span(Structure):
    """Bytes that lie in a handle, until it is edited or closed."""

    at: Optional[int]
    len: int

    _fields_ = [
        ("at", c_void_p),
        ("len", c_size_t),
    ]


class Key(Structure):
    """The names of a value: its section's, its subsection's if there is one, and its own."""

    section: Text
    has_subsection: bool
    subsection: Text
    name: Text

    _fields_ = [
        ("section", Text),
        ("has_subsection", c_bool),
        ("subsection", Text),
        ("name", Text),
    ]


class Section(Structure):
    """The names of a section: its own, and its subsection's if there is one."""

    name: Text
    has_subsection: bool
    subsection: Text

    _fields_ = [
        ("name", Text),
        ("has_subsection", c_bool),
        ("subsection", Text),
    ]


class Entry(Structure):
    """Where the parts of an entry lie: in the list that it was taken from, until that is closed."""

    section: Span
    has_subsection: bool
    subsection: Span
    name: Span
    has_value: bool
    value: Span

    _fields_ = [
        ("section", Span),
        ("has_subsection", c_bool),
        ("subsection", Span),
        ("name", Span),
        ("has_value", c_bool),
        ("value", Span),
    ]


class ListedSection(Structure):
    """Where the names of a section lie: in the list that it was taken from, until that is closed. And where the section comes from."""

    name: Span
    has_subsection: bool
    subsection: Span
    has_path: bool
    path: Span
    source: int
    level: int
    trust: int
    entries: int

    _fields_ = [
        ("name", Span),
        ("has_subsection", c_bool),
        ("subsection", Span),
        ("has_path", c_bool),
        ("path", Span),
        ("source", c_uint32),
        ("level", c_uint32),
        ("trust", c_uint32),
        ("entries", c_size_t),
    ]


class Difference(Structure):
    """Where the parts of a difference lie: in the list that it was taken from, until that is closed."""

    is_other: bool
    entry: Entry

    _fields_ = [
        ("is_other", c_bool),
        ("entry", Entry),
    ]


class Place(Structure):
    """Where a text can't be read on."""

    line: int
    column: int
    offset: int

    _fields_ = [
        ("line", c_size_t),
        ("column", c_size_t),
        ("offset", c_size_t),
    ]


class Filter(Structure):
    """Which sections are asked: those of some sources that are trusted enough."""

    sources: int
    least_trust: int

    _fields_ = [
        ("sources", c_uint32),
        ("least_trust", c_uint32),
    ]


class Folders(Structure):
    """The directories that the shorthands of paths stand for. One that is not known refuses the paths that need it."""

    has_installation: bool
    installation: Text
    has_home: bool
    home: Text

    _fields_ = [
        ("has_installation", c_bool),
        ("installation", Text),
        ("has_home", c_bool),
        ("home", Text),
    ]


class Layout(Structure):
    """How a text is formatted. gix_config_layout_default fills it."""

    keeps_root_blanks: bool
    has_root_tabs: bool
    root_indent: int
    has_tabs: bool
    indent: int
    spaces_around_separator: bool
    detects_newline: bool
    is_crlf: bool
    ensures_trailing_newline: bool
    limits_leading_blank_lines: bool
    max_leading_blank_lines: int
    limits_blank_lines: bool
    max_blank_lines: int

    _fields_ = [
        ("keeps_root_blanks", c_bool),
        ("has_root_tabs", c_bool),
        ("root_indent", c_size_t),
        ("has_tabs", c_bool),
        ("indent", c_size_t),
        ("spaces_around_separator", c_bool),
        ("detects_newline", c_bool),
        ("is_crlf", c_bool),
        ("ensures_trailing_newline", c_bool),
        ("limits_leading_blank_lines", c_bool),
        ("max_leading_blank_lines", c_size_t),
        ("limits_blank_lines", c_bool),
        ("max_blank_lines", c_size_t),
    ]


class Includes(Structure):
    """How includes are followed: ten files deep; deeper ones are refused, and so is a path relative to the directory of a file that has no path."""

    strict: bool
    lossy: bool
    folders: Folders
    has_git_folder: bool
    git_folder: Text
    real_git_folder: Text
    has_branch: bool
    branch: Text

    _fields_ = [
        ("strict", c_bool),
        ("lossy", c_bool),
        ("folders", Folders),
        ("has_git_folder", c_bool),
        ("git_folder", Text),
        ("real_git_folder", Text),
        ("has_branch", c_bool),
        ("branch", Text),
    ]


class Load(Structure):
    """Which file is loaded, and how includes are followed."""

    path: Text
    source: int
    trust: int
    includes: Includes

    _fields_ = [
        ("path", Text),
        ("source", c_uint32),
        ("trust", c_uint32),
        ("includes", Includes),
    ]


class Metadata(Structure):
    """Where a text comes from that is parsed: its sections come from there, too."""

    has_path: bool
    path: Text
    source: int
    trust: int

    _fields_ = [
        ("has_path", c_bool),
        ("path", Text),
        ("source", c_uint32),
        ("trust", c_uint32),
    ]


class Places(Structure):
    """The places of configuration that a program knows: what variables of the environment say comes before it."""

    has_installation: bool
    installation: Text
    system_prefix: Text
    has_home: bool
    home: Text

    _fields_ = [
        ("has_installation", c_bool),
        ("installation", Text),
        ("system_prefix", Text),
        ("has_home", c_bool),
        ("home", Text),
    ]


class Repository(Structure):
    """A repository: its directories, and the places of configuration besides."""

    git_folder: Text
    real_git_folder: Text
    places: Places

    _fields_ = [
        ("git_folder", Text),
        ("real_git_folder", Text),
        ("places", Places),
    ]


class Origin(Structure):
    """Where a whole file comes from."""

    source: int
    level: int
    trust: int
    has_path: bool

    _fields_ = [
        ("source", c_uint32),
        ("level", c_uint32),
        ("trust", c_uint32),
        ("has_path", c_bool),
    ]


class Line(Structure):
    """A line of a section: a name, with a value, a comment behind it, both or none."""

    name: Text
    has_value: bool
    value: Text
    has_comment: bool
    comment: Text

    _fields_ = [
        ("name", Text),
        ("has_value", c_bool),
        ("value", Text),
        ("has_comment", c_bool),
        ("comment", Text),
    ]


class Assigned(Structure):
    """A name with its value."""

    name: Text
    value: Text

    _fields_ = [
        ("name", Text),
        ("value", Text),
    ]


class Part(Structure):
    """Where some bytes lie in the text of a view. A zero byte is behind them, which they don't count."""

    at: int
    len: int

    _fields_ = [
        ("at", c_size_t),
        ("len", c_size_t),
    ]


class EntryRow(Structure):
    """An entry in a view."""

    name: Part
    value: Part
    has_value: bool

    _fields_ = [
        ("name", Part),
        ("value", Part),
        ("has_value", c_bool),
    ]


class OriginRow(Structure):
    """Where sections in a view come from."""

    path: Part
    has_path: bool
    source: int
    level: int
    trust: int

    _fields_ = [
        ("path", Part),
        ("has_path", c_bool),
        ("source", c_uint32),
        ("level", c_uint32),
        ("trust", c_uint32),
    ]


class SectionRow(Structure):
    """A section in a view."""

    name: Part
    subsection: Part
    has_subsection: bool
    origin: int
    entries_at: int
    entries_len: int
    number: int

    _fields_ = [
        ("name", Part),
        ("subsection", Part),
        ("has_subsection", c_bool),
        ("origin", c_size_t),
        ("entries_at", c_size_t),
        ("entries_len", c_size_t),
        ("number", c_size_t),
    ]


class View(Structure):
    """All sections and entries of a file as it was when the view was made. They are the program's to read until it frees the view. {0} at first;
    never copied; freed with gix_config_view_free."""

    sections: Optional[int]
    sections_len: int
    entries: Optional[int]
    entries_len: int
    origins: Optional[int]
    origins_len: int
    text: Optional[int]
    text_len: int
    owner: Optional[int]

    _fields_ = [
        ("sections", c_void_p),
        ("sections_len", c_size_t),
        ("entries", c_void_p),
        ("entries_len", c_size_t),
        ("origins", c_void_p),
        ("origins_len", c_size_t),
        ("text", c_void_p),
        ("text_len", c_size_t),
        ("owner", c_void_p),
    ]


# The calls: what each takes, and what it answers.
CALLS: Dict[str, Tuple[Sequence[Any], Any]] = {
    "gix_config_file_append": ([POINTER(File), POINTER(File)], c_uint32),
    "gix_config_file_equal": ([POINTER(File), POINTER(File), POINTER(c_bool)], c_uint32),
    "gix_config_differences": ([POINTER(File), POINTER(File), POINTER(List)], c_uint32),
    "gix_config_list_difference": ([POINTER(List), c_size_t, POINTER(Difference)], c_uint32),
    "gix_config_push_value": ([POINTER(File), POINTER(Key), c_bool, c_char_p, c_size_t], c_uint32),
    "gix_config_remove_value": ([POINTER(File), POINTER(Key), POINTER(Bytes)], c_uint32),
    "gix_config_entries": ([POINTER(File), POINTER(List)], c_uint32),
    "gix_config_list_entry": ([POINTER(List), c_size_t, POINTER(Entry)], c_uint32),
    "gix_config_load_env_told": ([POINTER(Told), POINTER(Includes), POINTER(File), POINTER(Bytes)], c_uint32),
    "gix_config_set_existing_value": ([POINTER(File), POINTER(Key), c_char_p, c_size_t], c_uint32),
    "gix_config_set_existing_values": ([POINTER(File), POINTER(Key), POINTER(Text), c_size_t], c_uint32),
    "gix_config_file_text": ([POINTER(File), POINTER(Bytes)], c_uint32),
    "gix_config_bytes_free": ([POINTER(Bytes)], None),
    "gix_config_refusal_text": ([c_uint32, POINTER(Span)], None),
    "gix_config_value_filter": ([POINTER(File), POINTER(Key), POINTER(Filter), POINTER(Bytes)], c_uint32),
    "gix_config_values_filter": ([POINTER(File), POINTER(Key), POINTER(Filter), POINTER(List)], c_uint32),
    "gix_config_boolean_filter": ([POINTER(File), POINTER(Key), POINTER(Filter), POINTER(c_bool)], c_uint32),
    "gix_config_integer_filter": ([POINTER(File), POINTER(Key), POINTER(Filter), POINTER(c_int64)], c_uint32),
    "gix_config_file_text_filter": ([POINTER(File), POINTER(Filter), POINTER(Bytes)], c_uint32),
    "gix_config_load_globals_told": ([POINTER(Told), POINTER(Places), POINTER(File), POINTER(Bytes)], c_uint32),
    "gix_config_layout_default": ([POINTER(Layout)], None),
    "gix_config_normalize": ([c_char_p, c_size_t, POINTER(Layout), POINTER(Bytes), POINTER(Place)], c_uint32),
    "gix_config_wildmatch": ([c_char_p, c_size_t, c_char_p, c_size_t, c_bool, POINTER(c_bool)], c_uint32),
    "gix_config_push_below_last_at": ([POINTER(File), c_size_t, POINTER(Assigned)], c_uint32),
    "gix_config_push_newline_at": ([POINTER(File), c_size_t], c_uint32),
    "gix_config_remove_marked_at": ([POINTER(File), c_size_t, c_char_p, c_size_t, POINTER(c_bool), c_size_t, POINTER(c_size_t)], c_uint32),
    "gix_config_list_len": ([POINTER(List)], c_size_t),
    "gix_config_list_at": ([POINTER(List), c_size_t, POINTER(Span)], c_uint32),
    "gix_config_list_close": ([POINTER(List)], None),
    "gix_config_load_told": ([POINTER(Told), POINTER(Load), POINTER(File), POINTER(Bytes)], c_uint32),
    "gix_config_resolve_includes_told": ([POINTER(Told), POINTER(File), POINTER(Includes), POINTER(Bytes)], c_uint32),
    "gix_config_value": ([POINTER(File), POINTER(Key), POINTER(Bytes)], c_uint32),
    "gix_config_values": ([POINTER(File), POINTER(Key), POINTER(List)], c_uint32),
    "gix_config_boolean": ([POINTER(File), POINTER(Key), POINTER(c_bool)], c_uint32),
    "gix_config_integer": ([POINTER(File), POINTER(Key), POINTER(c_int64)], c_uint32),
    "gix_config_file_origin": ([POINTER(File), POINTER(Origin), POINTER(Bytes)], c_uint32),
    "gix_config_set_nth_value": ([POINTER(File), POINTER(Key), c_size_t, c_char_p, c_size_t], c_uint32),
    "gix_config_delete_nth_value": ([POINTER(File), POINTER(Key), c_size_t], c_uint32),
    "gix_config_push_line_at": ([POINTER(File), c_size_t, POINTER(Line)], c_uint32),
    "gix_config_set_value_at": ([POINTER(File), c_size_t, POINTER(Assigned), POINTER(c_bool), POINTER(Bytes)], c_uint32),
    "gix_config_remove_value_at": ([POINTER(File), c_size_t, c_char_p, c_size_t, POINTER(Bytes)], c_uint32),
    "gix_config_pop_value_at": ([POINTER(File), c_size_t, POINTER(Bytes), POINTER(Bytes)], c_uint32),
    "gix_config_section_rename_at": ([POINTER(File), c_size_t, POINTER(Section)], c_uint32),
    "gix_config_section_remove_at": ([POINTER(File), c_size_t], c_uint32),
    "gix_config_section_set_trust_at": ([POINTER(File), c_size_t, c_uint32], c_uint32),
    "gix_config_file_parse": ([c_char_p, c_size_t, c_bool, POINTER(File), POINTER(Place)], c_uint32),
    "gix_config_file_parse_as": ([c_char_p, c_size_t, POINTER(Metadata), c_bool, POINTER(File), POINTER(Place)], c_uint32),
    "gix_config_file_close": ([POINTER(File)], None),
    "gix_config_file_clone": ([POINTER(File), POINTER(File)], c_uint32),
    "gix_config_path": ([POINTER(File), POINTER(Key), POINTER(Folders), POINTER(Bytes)], c_uint32),
    "gix_config_key_parse": ([c_char_p, c_size_t, POINTER(Key)], c_uint32),
    "gix_config_boolean_parse": ([c_char_p, c_size_t, POINTER(c_bool)], c_uint32),
    "gix_config_integer_parse": ([c_char_p, c_size_t, POINTER(c_int64)], c_uint32),
    "gix_config_load_repository_told": ([POINTER(Told), POINTER(Repository), POINTER(File), POINTER(Bytes)], c_uint32),
    "gix_config_sections": ([POINTER(File), POINTER(List)], c_uint32),
    "gix_config_list_section": ([POINTER(List), c_size_t, POINTER(ListedSection)], c_uint32),
    "gix_config_section_entries": ([POINTER(File), c_size_t, POINTER(List)], c_uint32),
    "gix_config_section_text": ([POINTER(File), c_size_t, POINTER(Bytes)], c_uint32),
    "gix_config_section_remove": ([POINTER(File), POINTER(Section)], c_uint32),
    "gix_config_section_new": ([POINTER(File), POINTER(Section)], c_uint32),
    "gix_config_section_rename": ([POINTER(File), POINTER(Section), POINTER(Section)], c_uint32),
    "gix_config_set_value": ([POINTER(File), POINTER(Key), c_char_p, c_size_t, POINTER(c_bool), POINTER(Bytes)], c_uint32),
    "gix_config_told_new": ([POINTER(Told)], c_uint32),
    "gix_config_told_text": ([POINTER(Told), c_char_p, c_size_t, c_char_p, c_size_t], c_uint32),
    "gix_config_told_missing": ([POINTER(Told), c_char_p, c_size_t], c_uint32),
    "gix_config_told_fault": ([POINTER(Told), c_char_p, c_size_t, c_bool], c_uint32),
    "gix_config_told_variable": ([POINTER(Told), c_char_p, c_size_t, c_char_p, c_size_t], c_uint32),
    "gix_config_told_no_variable": ([POINTER(Told), c_char_p, c_size_t], c_uint32),
    "gix_config_told_close": ([POINTER(Told)], None),
    "gix_config_text_value": ([c_char_p, c_size_t, POINTER(Key), POINTER(Bytes), POINTER(Place)], c_uint32),
    "gix_config_text_values": ([c_char_p, c_size_t, POINTER(Key), POINTER(List), POINTER(Place)], c_uint32),
    "gix_config_told_place": ([POINTER(Told), c_char_p, c_size_t, POINTER(Place)], c_uint32),
    "gix_config_version": ([POINTER(Span)], None),
    "gix_config_view_file": ([POINTER(File), POINTER(View)], c_uint32),
    "gix_config_view_free": ([POINTER(View)], None),
}
