"""Reads and edits git's configuration files. Comments, whitespace and layout stay as they are.

    >>> import gixcfg
    >>> config = gixcfg.Config.parse('[remote "origin"]\\n\\turl = https://example.org/a.git\\n')
    >>> config["remote", "origin", "url"]
    'https://example.org/a.git'
"""
from gixcfg._config import Config, Difference
from gixcfg._errors import ConfigError, IncludeError, KeyNotFound, Locked, NotOfType, ParseError, Refused, VariableError
from gixcfg._layout import normalize
from gixcfg._names import Entry, Key, Name
from gixcfg._section import SectionEditor, Value
from gixcfg._sources import Includes, Origin, Section, Source

__version__ = "0.1.0"

__all__ = [
    "Config", "ConfigError", "Difference", "Entry", "IncludeError", "Includes", "Key", "KeyNotFound", "Locked", "Name", "NotOfType", "Origin",
    "ParseError", "Refused", "Section", "SectionEditor", "Source", "Value", "VariableError", "normalize",
]
