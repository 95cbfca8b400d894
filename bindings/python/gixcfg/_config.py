"""A file of configuration."""
import contextlib
import ctypes
import os
import pickle
import weakref
from types import TracebackType
from typing import (Any, Callable, Dict, ItemsView, Iterable, Iterator, List, MutableMapping, NamedTuple, Optional, Sequence, Tuple, Type,
                    TypeVar, Union, ValuesView, cast, overload)

from gixcfg import _calls as c
from gixcfg._errors import NotOfType, ParseError
from gixcfg._including import Asked, alone
from gixcfg._library import LIBRARY
from gixcfg._names import (Entry, Key, Name, decoded, done, done_of, encoded, entry_of, is_key, is_missing, key_of, listed, names_of,
                           path_of, refuse, refuse_text, section_of, taken, text_of, texts_of)
from gixcfg._saving import Lock, PathName
from gixcfg._section import SectionEditor, Value, written
from gixcfg._sources import SOURCES, Includes, Origin, Section, Source, directories, includes_of, origin_of, places_of
from gixcfg._view import View

T = TypeVar("T")

# Blocks for what look-ups return: the next one frees what the last one got, which spares a call. A value of more bytes is freed at once.
BLOCKS: List[c.Bytes] = []
LARGE = 4096


class Difference(NamedTuple):
    """A key of which two files say different things: its names, and what all values of it mean in either file, in order; `None` for an entry
    without `=`."""

    section: str
    subsection: Optional[str]
    name: str
    values: List[Optional[str]]
    other_values: List[Optional[str]]


class Config(MutableMapping[Key, str]):
    """A file of configuration. It is a text whose values are found by their keys; an edit changes what it names, and nothing else.

    As a mapping it has each key once, with its last value, as git takes it; `get_all` has all values of a key, `entries` all entries. A key
    is `"remote.origin.url"` or `("remote", "origin", "url")`, and without a subsection `"core.editor"` or `("core", "editor")`.

    Bytes that are not UTF-8 are kept: in a `str` they are lone surrogates, as in the names of files (PEP 383).

    >>> config = Config.parse("[remote \\"origin\\"] url = https://example.com/a.git")
    >>> config["remote.origin.url"]
    'https://example.com/a.git'
    """

    path: Optional[str]
    """Where the file was loaded from, from the root, which is where `save` writes it."""

    def __init__(self) -> None:
        """An empty file."""
        self.path = None
        self._file = c.File()
        # (bound to the handle, not to the object, which it outlives)
        self._closing = weakref.finalize(self, LIBRARY.gix_config_file_close, self._file)
        self._read(b"")

    def _read(self, text: bytes) -> None:
        place = c.Place()
        number = LIBRARY.gix_config_file_parse(text, len(text), False, self._file, place)
        if number != c.DONE:
            refuse_text(number, place)

    def _read_of(self, text: bytes, path: PathName, source: Source) -> None:
        """Reads the text of the file at a path, which is then the path of its sections. No include is followed: the library is told that
        what is included is missing."""
        load = c.Load(path_of(path), Source(source).number, c.TRUST_FULL, includes_of(Includes()))
        asked = Asked(lambda told, block: int(LIBRARY.gix_config_load_told(told, load, self._file, block)), alone(text))
        if asked.number in (c.PATH_NOT_UTF8, c.USER_NOT_UTF8, c.NOT_UTF8):
            # (a path that isn't UTF-8, of the file or of an include, can't be told)
            self._read(text)
        elif asked.place is not None:
            refuse_text(asked.number, asked.place, os.fspath(path))
        else:
            done(asked.number, os.fspath(path))

    @classmethod
    def parse(cls, text: Union[str, bytes]) -> "Config":
        """The file of a text. Raises ParseError, with line, column and reason, for one that can't be read on at some place.

        >>> Config.parse("[core] editor = vi")["core.editor"]
        'vi'
        """
        made = cls()
        made._read(encoded(text) if isinstance(text, str) else text)
        return made

    @classmethod
    def load(cls, path: PathName, *, source: Source = Source.API) -> "Config":
        """The file at a path, whose sections come from the source. No include is followed, until `resolve_includes` does. Raises OSError for
        one that can't be read, and ParseError.

        >>> with Config.editing("loaded.gitconfig") as config:
        ...     config["user.name"] = "Ada"
        >>> Config.load("loaded.gitconfig")["user.name"]
        'Ada'
        """
        with open(path, "rb") as file:
            text = file.read()
        made = cls()
        try:
            made._read_of(text, path, source)
        except ParseError as error:
            error.path = os.fspath(path)
            raise
        made.path = os.path.abspath(path)
        return made

    @classmethod
    def load_with_includes(cls, path: PathName, includes: Includes = Includes(), *, source: Source = Source.API) -> "Config":
        """The file at a path, with the sections of the files that it includes, each where it is included. It is for look-ups: `path` is None,
        so that `save` doesn't write what others have into it. Raises IncludeError for a file that can't be opened or read, and for an include
        that is refused; ParseError, with the path of the file, for one that can't be read on at some place."""
        made = cls()
        load = c.Load(path_of(path), Source(source).number, c.TRUST_FULL, includes_of(includes))
        made._follow(lambda told, asked: int(LIBRARY.gix_config_load_told(told, load, made._file, asked)))
        return made

    @classmethod
    def load_globals(cls, installation: Optional[PathName] = None, prefix: PathName = "/", home: Optional[PathName] = None) -> "Config":
        """The configuration of the machine and of the user, with what it includes: the file that was installed with git, if its path is given,
        `etc/gitconfig` below the prefix, and the user's two, as the variables of the process say it (`GIT_CONFIG_NOSYSTEM`,
        `GIT_CONFIG_SYSTEM`, `GIT_CONFIG_GLOBAL`, `XDG_CONFIG_HOME`, `HOME`). An empty file if there is none. It is for look-ups, as that of
        `load_with_includes`, and raises as that does. The home directory is that for `~/` in the paths of includes."""
        made, places = cls(), places_of(installation, prefix, home)
        made._follow(lambda told, asked: int(LIBRARY.gix_config_load_globals_told(told, places, made._file, asked)))
        return made

    @classmethod
    def load_environment(cls, includes: Includes = Includes()) -> "Config":
        """The entries that variables of the process set (`GIT_CONFIG_COUNT`, `GIT_CONFIG_KEY_0`, `GIT_CONFIG_VALUE_0` and so on), with what
        they include; an empty file if they set none. Raises VariableError for a count that is no number, a key or a value that isn't set or
        isn't UTF-8, and a key without a dot; else as `load_with_includes`."""
        made, given = cls(), includes_of(includes)
        made._follow(lambda told, asked: int(LIBRARY.gix_config_load_env_told(told, given, made._file, asked)), c.NOTHING_THERE)
        return made

    @classmethod
    def load_repository(cls, git_folder: PathName, installation: Optional[PathName] = None, prefix: PathName = "/",
                        home: Optional[PathName] = None) -> "Config":
        """The configuration of a repository by its directory, as `.git`: that of `load_globals`, its own, that of its worktree if
        `extensions.worktreeConfig` is true, and the entries of `load_environment`, one after the other. Raises as these do, and IncludeError
        if the repository's `config` is missing."""
        git = os.path.abspath(os.fspath(git_folder))
        made, repository = cls(), c.Repository(text_of(git), text_of(os.path.realpath(git)), places_of(installation, prefix, home))
        made._follow(lambda told, asked: int(LIBRARY.gix_config_load_repository_told(told, repository, made._file, asked)))
        return made

    def resolve_includes(self, includes: Includes = Includes()) -> None:
        """Reads the files that the sections include, and puts the sections of each where it is included. A file that was parsed from a text has
        no path, so that relative paths of includes are refused. Raises as `load_with_includes`; the file is then as it was."""
        given = includes_of(includes)
        self._follow(lambda told, asked: int(LIBRARY.gix_config_resolve_includes_told(told, self._file, given, asked)))
        self.path = None

    @staticmethod
    def _follow(call: Callable[[c.Told, c.Bytes], int], *others: int) -> None:
        """Makes a call that follows includes, and raises what stands for its answer, but for others that are well."""
        asked = Asked(call)
        if asked.place is not None:
            refuse_text(asked.number, asked.place, os.fsdecode(asked.about))
        if asked.number not in others:
            done(asked.number, os.fsdecode(asked.about) if asked.about else None)

    @classmethod
    @contextlib.contextmanager
    def editing(cls, path: PathName) -> Iterator["Config"]:
        """The file at a path, for a `with` statement at whose end it is saved: under FILE.lock from before it is read, so that nobody's edit
        is lost. A file that isn't there yet is empty. An exception in the statement saves nothing.

        >>> with Config.editing("edited.gitconfig") as config:
        ...     config["user.name"] = "Ada"
        >>> open("edited.gitconfig").read().split()
        ['[user]', 'name', '=', 'Ada']
        """
        with Lock(path) as lock:
            config = cls.load(lock.path) if os.path.exists(lock.path) else cls()
            yield config
            lock.commit(bytes(config))

    def save(self, path: Optional[PathName] = None) -> None:
        """Writes the file, as git does: the text goes into FILE.lock, made exclusively, then down to the disk, and is renamed to FILE, which
        keeps its rights. So a crash leaves the old file or the new one. Without a path FILE is the one that was loaded. Raises Locked if
        FILE.lock is there, and OSError; then FILE is as it was. What others wrote since the file was loaded is lost: `editing` keeps it.

        >>> Config.parse("[a] k = 1").save("saved.gitconfig")
        >>> Config.load("saved.gitconfig").get_int("a.k")
        1
        """
        target = self.path if path is None else path
        if target is None:
            raise ValueError("the file was not loaded from a path, and none is given")
        with Lock(target) as lock:
            lock.commit(bytes(self))

    def close(self) -> None:
        """Frees the file, as the end of a `with` statement of it does, and else its last use. Each later call of it but this raises
        Refused."""
        self._closing()

    def __enter__(self) -> "Config":
        return self

    def __exit__(self, kind: Optional[Type[BaseException]], error: Optional[BaseException], trace: Optional[TracebackType]) -> None:
        self.close()

    def copy(self) -> "Config":
        """A copy: edits of the one don't show in the other.

        >>> config = Config.parse("[a] k = 1")
        >>> other = config.copy()
        >>> other["a.k"] = 2
        >>> config["a.k"], other["a.k"]
        ('1', '2')
        """
        made = type(self)()
        done(LIBRARY.gix_config_file_clone(self._file, made._file))
        made.path = self.path
        return made

    __copy__ = copy

    def __deepcopy__(self, memo: Dict[int, Any]) -> "Config":
        return self.copy()

    def __reduce__(self) -> Tuple[Any, ...]:
        """The text, the path and the trust of each section, of which the same is made again. Raises PicklingError for what can't be: where
        sections come from more than one file, or from variables."""
        text, origin, sections = bytes(self), self.origin, self.sections()
        trusted = [it.origin.is_trusted for it in sections]
        is_same = all(it.origin[:2] == origin[:2] and it.origin.path == origin.path for it in sections)
        if not is_same or (origin.path is None and origin.source != Source.API) or _pickled(type(self), text, origin, trusted, self.path) != self:
            raise pickle.PicklingError("a Config whose sections come from more than one place can't be pickled: its text can, by bytes(config)")
        return _pickled, (type(self), text, origin, trusted, self.path)

    def __repr__(self) -> str:
        sections = c.List()
        if LIBRARY.gix_config_sections(self._file, sections) != c.DONE:
            return f"<gixcfg.{type(self).__name__}, closed>"
        count = len(list(listed(sections)))
        path = "" if self.path is None else f" of {self.path!r}"
        return f"<gixcfg.{type(self).__name__}{path}, {count} section{'s' * (count != 1)}>"

    def __bytes__(self) -> bytes:
        """The text of the file as it was read, but for what was edited: without a byte order mark, and with missing line endings put in."""
        block = c.Bytes()
        done(LIBRARY.gix_config_file_text(self._file, block))
        return taken(block)

    @property
    def text(self) -> str:
        """The text of the file.

        >>> config = Config.parse("[a]\\n  k = 1\\n")
        >>> config["a.k"] = 2
        >>> print(config.text, end="")
        [a]
          k = 2
        """
        return decoded(bytes(self))

    @property
    def origin(self) -> Origin:
        """Where the file comes from."""
        origin, block = c.Origin(), c.Bytes()
        done(LIBRARY.gix_config_file_origin(self._file, origin, block))
        return origin_of(origin, taken(block))

    # What a key has.

    def __getitem__(self, key: Key) -> str:
        """What the last value of a key means: quotes and escapes are undone; an entry without `=` is empty, as git prints it. Raises
        KeyNotFound, which is a KeyError.

        >>> Config.parse("[a] k = 1\\n[a] k = \\"2\\"")["a.k"]
        '2'
        """
        number, found = self._value(key, None, False)
        if found is None:
            done_of(number, key)
        return found or ""

    def __contains__(self, key: object) -> bool:
        """Whether a key has an entry, with or without `=`.

        >>> "a.k" in Config.parse("[a] k"), "a.j" in Config.parse("[a] k")
        (True, False)
        """
        if not is_key(key):
            return False
        values = c.List()
        number = LIBRARY.gix_config_values(self._file, key_of(cast(Key, key)), values)
        if is_missing(number) or number == c.NOT_UTF8:
            return False
        done(number)
        LIBRARY.gix_config_list_close(values)
        return True

    def _found(self, call: str, key: Key, sources: Optional[Iterable[Source]], trusted_only: bool, found: Any) -> int:
        """Looks a key up by a call of the library, in the sections that are kept. Returns the answer."""
        if sources is None and not trusted_only:
            return int(getattr(LIBRARY, f"gix_config_{call}")(self._file, key_of(key), found))
        numbers = sum(it.number for it in set(SOURCES if sources is None else map(Source, sources)))
        given = c.Filter(numbers, c.TRUST_FULL if trusted_only else c.TRUST_REDUCED)
        return int(getattr(LIBRARY, f"gix_config_{call}_filter")(self._file, key_of(key), given, found))

    def _value(self, key: Key, sources: Optional[Iterable[Source]], trusted_only: bool) -> Tuple[int, Optional[str]]:
        """The answer of a look-up of the last value, and the value: empty where the key has just entries without `=`."""
        kept = None if sources is None else list(sources)
        # (no two look-ups have one at the same time, wherever they are made)
        try:
            block = BLOCKS.pop()
        except IndexError:
            block = c.Bytes()
        try:
            if kept is None and not trusted_only:
                number = LIBRARY.gix_config_value(self._file, key_of(key), block)
            else:
                number = self._found("value", key, kept, trusted_only, block)
            if number == c.DONE:
                size = block.len
                value = ctypes.string_at(cast(int, block.at), size).decode("utf-8", "surrogateescape") if size else ""
                if size > LARGE:
                    LIBRARY.gix_config_bytes_free(block)
                return number, value
        finally:
            BLOCKS.append(block)
        is_there = is_missing(number) and self.get_all(key, sources=kept, trusted_only=trusted_only)
        return number, "" if is_there else None

    @overload
    def get(self, key: Key, default: None = None, *, sources: Optional[Iterable[Source]] = None, trusted_only: bool = False) -> Optional[str]: ...

    @overload
    def get(self, key: Key, default: Union[str, T], *, sources: Optional[Iterable[Source]] = None, trusted_only: bool = False) -> Union[str, T]: ...

    def get(self, key: Key, default: Any = None, *, sources: Optional[Iterable[Source]] = None, trusted_only: bool = False) -> Any:
        """What the last value of a key means, or the default if there is none; an entry without `=` is empty. With `sources` only sections that
        come from these places count, with `trusted_only` only those that are fully trusted.

        >>> Config.parse("[a] k = 1").get("a.j", "none")
        'none'
        """
        number, found = self._value(key, sources, trusted_only)
        if found is None and not is_missing(number):
            done_of(number, key)
        return default if found is None else found

    def get_all(self, key: Key, *, sources: Optional[Iterable[Source]] = None, trusted_only: bool = False) -> List[str]:
        """What all values of a key mean, in the file's order; an entry without `=` counts as empty. `sources` and `trusted_only` are as for
        `get`.

        >>> Config.parse("[a] k = 1\\n[a] k = 2").get_all("a.k")
        ['1', '2']
        """
        values = c.List()
        number = self._found("values", key, sources, trusted_only, values)
        if is_missing(number):
            return []
        done_of(number, key)
        return texts_of(values)

    @overload
    def get_bool(self, key: Key, default: None = None, *, sources: Optional[Iterable[Source]] = None,
                 trusted_only: bool = False) -> Optional[bool]: ...

    @overload
    def get_bool(self, key: Key, default: T, *, sources: Optional[Iterable[Source]] = None, trusted_only: bool = False) -> Union[bool, T]: ...

    def get_bool(self, key: Key, default: Any = None, *, sources: Optional[Iterable[Source]] = None, trusted_only: bool = False) -> Any:
        """The last value of a key as a boolean, as git takes it: yes, on, true and an entry without `=` are true, also a number but 0.
        The default if there is none; raises NotOfType for a value that is no boolean. `sources` and `trusted_only` are as for `get`.

        >>> Config.parse("[core] bare = on").get_bool("core.bare")
        True
        """
        value = ctypes.c_bool()
        number = self._found("boolean", key, sources, trusted_only, value)
        if number == c.NOTHING_THERE:
            return default
        done_of(number, key)
        return value.value

    @overload
    def get_int(self, key: Key, default: None = None, *, sources: Optional[Iterable[Source]] = None,
                trusted_only: bool = False) -> Optional[int]: ...

    @overload
    def get_int(self, key: Key, default: T, *, sources: Optional[Iterable[Source]] = None, trusted_only: bool = False) -> Union[int, T]: ...

    def get_int(self, key: Key, default: Any = None, *, sources: Optional[Iterable[Source]] = None, trusted_only: bool = False) -> Any:
        """The last value of a key as an integer of 64 bits, times 1024 for a `k` behind it, and so on for `m` and `g`. The default if there
        is none; raises NotOfType for a value that is no integer. `sources` and `trusted_only` are as for `get`.

        >>> Config.parse("[core] bigFileThreshold = 2k").get_int("core.bigFileThreshold")
        2048
        """
        value = ctypes.c_int64()
        number = self._found("integer", key, sources, trusted_only, value)
        if number == c.NOTHING_THERE:
            return default
        done_of(number, key)
        return value.value

    @overload
    def get_path(self, key: Key, default: None = None, *, home: Optional[PathName] = None, prefix: Optional[PathName] = None) -> Optional[str]: ...

    @overload
    def get_path(self, key: Key, default: T, *, home: Optional[PathName] = None, prefix: Optional[PathName] = None) -> Union[str, T]: ...

    def get_path(self, key: Key, default: Any = None, *, home: Optional[PathName] = None, prefix: Optional[PathName] = None) -> Any:
        """The last value of a key as a path, as git takes it: `~/` at its front is the home directory, which is the user's if none is given, and
        `%(prefix)/` the directory where git is installed. The default if there is none, as for an entry without `=`. Raises NotOfType for a value
        that is empty, that needs the directory of another user or a prefix that isn't given, or that is not UTF-8; Refused for a directory that is
        not UTF-8.

        >>> Config.parse("[core] excludesFile = ~/.ignore").get_path("core.excludesFile", home="/home/ada")
        '/home/ada/.ignore'
        """
        block = c.Bytes()
        number = LIBRARY.gix_config_path(self._file, key_of(key), directories(prefix, home), block)
        if number == c.NOTHING_THERE:
            return default
        if number in (c.MISSING_FOLDER, c.PATH_NOT_UTF8, c.USER_NOT_UTF8):
            refuse(number, str(names_of(key)), NotOfType)
        done_of(number, key)
        return os.fsdecode(taken(block))

    # What the file has.

    def __iter__(self) -> Iterator[Name]:
        """The keys as they are now, each once, in the order in which they first occur."""
        return iter(View(self._file).names())

    def __len__(self) -> int:
        """How many keys there are.

        >>> len(Config.parse("[a] k = 1\\n[A] K = 2\\n[b] k = 3"))
        2
        """
        return len(View(self._file).names())

    def items(self) -> ItemsView[Key, str]:
        """The keys with their last values, as they are when a loop begins."""
        return _Items(self)

    def values(self) -> ValuesView[str]:
        """The last values of the keys, as they are when a loop begins.

        >>> list(Config.parse("[a] k = 1\\n[b] k = 3").values())
        ['1', '3']
        """
        return _Values(self)

    def entries(self) -> List[Entry]:
        """All entries, in the file's order.

        >>> [it.value for it in Config.parse("[a] k = 1\\n[a] k = 2\\n[b] j").entries()]
        ['1', '2', None]
        """
        return View(self._file).entries()

    def sections(self, name: Optional[str] = None) -> List[Section]:
        """All sections, in the file's order, also those without entries and those of a name that others have too; with a name those that have
        it, with any subsection or none.

        >>> [(it.name, it.subsection) for it in Config.parse("[a]\\n[a \\"s\\"]\\n[b]").sections("A")]
        [('a', None), ('a', 's')]
        """
        found = View(self._file).sections()
        return found if name is None else [it for it in found if encoded(it.name).lower() == encoded(name).lower()]

    def _places(self, name: str, subsection: Optional[str]) -> List[int]:
        """The places of the sections of the names."""
        return View(self._file).places(name, subsection)

    def append(self, other: "Config") -> None:
        """Appends a copy of another file, whose sections then come after all others, so that their values count.

        >>> config = Config.parse("[a] k = 1")
        >>> config.append(Config.parse("[a] k = 2"))
        >>> config["a.k"]
        '2'
        """
        if other._file is self._file:
            other = self.copy()
        done(LIBRARY.gix_config_file_append(self._file, other._file))

    def __eq__(self, other: object) -> bool:
        """Whether the files have the same sections in order, with the same keys that mean the same. Names are compared without case. Comments,
        whitespace, what is before the first section and where sections come from don't count. As it changes with edits, a `Config` has no hash.

        >>> Config.parse("[A] k = 1") == Config.parse("[a]\\nK = 1 # one")
        True
        """
        if not isinstance(other, Config):
            return NotImplemented
        if other._file is self._file:
            return True
        equal = ctypes.c_bool()
        done(LIBRARY.gix_config_file_equal(self._file, other._file, equal))
        return equal.value

    __hash__ = None  # type: ignore[assignment]

    def differences(self, other: "Config") -> List[Difference]:
        """The keys of which the files say different things, sorted by their names. There are none if and only if both say the same of every
        key: the values mean the same in order, and look-ups find the same one.

        >>> Config.parse("[a] k = 1").differences(Config.parse("[a] k = 2"))
        [Difference(section='a', subsection=None, name='k', values=['1'], other_values=['2'])]
        """
        if other._file is self._file:
            return []
        differences, difference = c.List(), c.Difference()
        done(LIBRARY.gix_config_differences(self._file, other._file, differences))
        found: List[Difference] = []
        for index in listed(differences):
            LIBRARY.gix_config_list_difference(differences, index, difference)
            entry = entry_of(difference.entry)
            if not found or found[-1][:3] != entry.key:
                found.append(Difference(*entry.key, [], []))
            (found[-1].other_values if difference.is_other else found[-1].values).append(entry.value)
        return found

    # Edits of entries.

    def set(self, key: Key, value: Value) -> Optional[str]:
        """Gives a key a value: in the last section of its names, whose last entry of the name gets it; entry and section are made if there
        are none. Returns the raw text of the value that was there, if there was an entry. Raises Refused.

        >>> config = Config.parse("[a] k = 1")
        >>> config.set("a.k", 2)
        '1'
        >>> config["a.k"]
        '2'
        """
        had, old, given = ctypes.c_bool(), c.Bytes(), encoded(written(value))
        done_of(LIBRARY.gix_config_set_value(self._file, key_of(key), given, len(given), had, old), key)
        text = decoded(taken(old))
        return text if had.value else None

    def set_existing(self, key: Key, value: Value) -> None:
        """Gives the last entry of a key a value; none is made. Raises KeyNotFound, and Refused.

        >>> config = Config.parse("[a] k = 1")
        >>> config.set_existing("a.k", True)
        >>> config["a.k"]
        'true'
        """
        given = encoded(written(value))
        done_of(LIBRARY.gix_config_set_existing_value(self._file, key_of(key), given, len(given)), key)

    def set_all(self, key: Key, values: Sequence[Value]) -> None:
        """Gives the entries of a key these values, the first entry the first value and so on, up to the end of the shorter list; none is made.
        Raises KeyNotFound, and Refused: for a file that would be too long after the entries before have their values.

        >>> config = Config.parse("[a] k = 1\\n[a] k = 2")
        >>> config.set_all("a.k", ["3", "4"])
        >>> config.get_all("a.k")
        ['3', '4']
        """
        texts = (c.Text * max(len(values), 1))(*[text_of(written(it)) for it in values])
        done_of(LIBRARY.gix_config_set_existing_values(self._file, key_of(key), texts, len(values)), key)

    def replace_all(self, key: Key, values: Sequence[Value]) -> None:
        """Gives a key these values and no others: entries that are there get the first of them, the last entries are removed if there are more,
        and entries are added to the last section of the key's names if there are fewer. Raises Refused, after a part of it is done if the file
        would be too long.

        >>> config = Config.parse("[a] k = 1\\n[a] k = 2")
        >>> config.replace_all("a.k", ["3"])
        >>> config.get_all("a.k")
        ['3']
        """
        texts, there = [written(it) for it in values], len(self.get_all(key))
        self._remove_last(key, there - len(texts))
        if there and texts:
            self.set_all(key, texts[:there])
        elif texts:
            self.set(key, texts[0])
        for text in texts[max(there, 1):]:
            self.add(key, text)

    def __setitem__(self, key: Key, value: Value) -> None:
        """As `set`."""
        self.set(key, value)

    def add(self, key: Key, value: Optional[Value] = None) -> None:
        """Adds an entry to the last section of the key's names, also where there is one of the name already. Without a value it is the name
        alone, which is true as a boolean. Raises KeyNotFound if there is no such section, and Refused.

        >>> config = Config.parse("[a] k = 1")
        >>> config.add("a.k", 2)
        >>> config.get_all("a.k")
        ['1', '2']
        """
        given = encoded("" if value is None else written(value))
        done_of(LIBRARY.gix_config_push_value(self._file, key_of(key), value is not None, given, len(given)), key)

    def remove(self, key: Key) -> str:
        """Removes the last entry of the key from the last section of its names, and returns the raw text of its value. Raises KeyNotFound.

        >>> Config.parse("[a] k = 1\\n[a] k = 2").remove("a.k")
        '2'
        """
        old = c.Bytes()
        done_of(LIBRARY.gix_config_remove_value(self._file, key_of(key), old), key)
        return decoded(taken(old))

    def remove_all(self, key: Key) -> int:
        """Removes all entries of the key, and returns how many these were.

        >>> Config.parse("[a] k = 1\\n[a] k = 2").remove_all("a.k")
        2
        """
        count = len(self.get_all(key))
        self._remove_last(key, count)
        return count

    def _remove_last(self, key: Key, count: int) -> None:
        """Removes so many of the last entries of a key."""
        section, subsection, name = names_of(key)
        for place in reversed(self._places(section, subsection)):
            if count <= 0:
                return
            count -= SectionEditor(self, place).remove_last(name, count)

    def __delitem__(self, key: Key) -> None:
        """Removes all entries of the key. Raises KeyNotFound if there is none.

        >>> config = Config.parse("[a] k = 1\\n[a] k = 2\\n[b] k = 3")
        >>> del config["a.k"]
        >>> list(config.values())
        ['3']
        """
        self[key]
        self.remove_all(key)

    def clear(self) -> None:
        """Removes all entries. Sections and comments stay."""
        for key in self:
            self.remove_all(key)

    # Edits of sections.

    def edit_section(self, place: int) -> SectionEditor:
        """The editor of a section by its place in `sections()`, from 0. Raises IndexError."""
        sections = c.List()
        done(LIBRARY.gix_config_sections(self._file, sections))
        if place not in listed(sections):
            raise IndexError(f"no section is at {place}")
        return SectionEditor(self, place)

    def edit(self, name: str, subsection: Optional[str] = None) -> SectionEditor:
        """The editor of the last section of a name and a subsection, or none. Raises KeyNotFound.

        >>> config = Config.parse("[remote \\"origin\\"] url = a")
        >>> config.edit("remote", "origin").set("url", "b")
        'a'
        """
        places = self._places(name, subsection)
        if not places:
            refuse(c.SUBSECTION_MISSING if self.sections(name) else c.SECTION_MISSING, name if subsection is None else f"{name}.{subsection}")
        return SectionEditor(self, places[-1])

    def new_section(self, name: str, subsection: Optional[str] = None) -> SectionEditor:
        """Makes a section after all others, and returns its editor. Raises Refused.

        >>> config = Config()
        >>> config.new_section("a", "s").add("k", 1)
        >>> config["a.s.k"]
        '1'
        """
        done(LIBRARY.gix_config_section_new(self._file, section_of(name, subsection)), name)
        return SectionEditor(self, self._places(name, subsection)[-1])

    def rename_section(self, names: Tuple[str, Optional[str]], new_names: Tuple[str, Optional[str]]) -> None:
        """Gives all sections of a name and a subsection, or None, another name and subsection. Raises KeyNotFound, and Refused.

        >>> config = Config.parse("[branch \\"old\\"] remote = origin")
        >>> config.rename_section(("branch", "old"), ("branch", "new"))
        >>> config["branch.new.remote"]
        'origin'
        """
        done(LIBRARY.gix_config_section_rename(self._file, section_of(*names), section_of(*new_names)), names[0])

    def remove_section(self, place: int) -> None:
        """Removes a section by its place in `sections()`, from 0. Raises IndexError.

        >>> config = Config.parse("[a] k = 1\\n[b] k = 2")
        >>> config.remove_section(0)
        >>> [it.name for it in config.sections()]
        ['b']
        """
        number = LIBRARY.gix_config_section_remove_at(self._file, place)
        if number == c.NOTHING_THERE:
            raise IndexError(f"no section is at {place}")
        done(number)


class _Items(ItemsView[Key, str]):
    """The keys of a file with their last values."""

    _mapping: Config

    def __iter__(self) -> Iterator[Tuple[Key, str]]:
        return iter(View(self._mapping._file).values().items())


class _Values(ValuesView[str]):
    """The last values of a file's keys."""

    _mapping: Config

    def __iter__(self) -> Iterator[str]:
        return iter(View(self._mapping._file).values().values())


def _pickled(kind: Type[Config], text: bytes, origin: Origin, trusted: List[bool], path: Optional[str]) -> Config:
    """The Config that was pickled."""
    made = kind()
    if origin.path is None:
        made._read(text)
    else:
        made._read_of(text, origin.path, origin.source)
    for place, is_trusted in enumerate(trusted):
        if not is_trusted:
            SectionEditor(made, place).set_trusted(False)
    made.path = path
    return made
