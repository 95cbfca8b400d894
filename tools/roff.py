"""Text as man reads it."""
import re

# How to write what groff would print as something else.
SPECIAL = {"\\": "\\e", "-": "\\-", "~": "\\(ti", "^": "\\(ha"}


def escaped(text):
    """A text whose characters all stand for themselves."""
    return re.sub(r"[\\~^-]", lambda found: SPECIAL[found[0]], text)


def at_front(line):
    """A line with an escaped text, whose dot or quote at the front stands for itself."""
    return "\\&" + line if line[:1] in (".", "'") else line
