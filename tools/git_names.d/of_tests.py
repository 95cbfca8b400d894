"""The settings that git's own tests make."""

import re

NAME = r"""["']?([A-Za-z][\w-]*(?:\.[^\s"'$`=\\]+)*\.[A-Za-z][\w-]*)["']?"""
VALUE = r"""(?:"([^"\n$`\\]*)"|'([^'\n$`\\]*)'|([^\s"'$`\\|;&()<>]+))"""
SETS = re.compile(r"\b(?:git(?: -C \S+)? config|test_config|test_config_global)(?: --?(?:global|local|add|bool|int|worktree|replace-all|type=\w+))* "
                  + NAME + " " + VALUE + r"(?=\s|$|\))")
GIVES = re.compile("-c " + NAME + "=" + VALUE)


def settings_of(source):
    """Each name with a value that a test gives it, both as plain words."""
    found = set()
    for script in source.glob("t/*.sh"):
        text = script.read_text(encoding="utf-8", errors="replace")
        for match in [*SETS.finditer(text), *GIVES.finditer(text)]:
            value = next(group for group in match.groups()[1:] if group is not None)
            if re.fullmatch(r"[\w-]+", match[1].split(".")[0]):
                found.add((match[1], value))
    return sorted(found)
