"""Files and variables that the library asks for while it loads."""
import os
from typing import Callable, Optional

from gixcfg import _calls as c
from gixcfg._library import LIBRARY, bytes_at

# Tells what is at a path, and returns the answer.
Teller = Callable[[c.Told, bytes], int]


def tell_missing(told: c.Told, path: bytes) -> int:
    """Tells that nothing is at a path, so that an include of it is left out."""
    return int(LIBRARY.gix_config_told_missing(told, path, len(path)))


def tell_text(told: c.Told, path: bytes, text: bytes) -> int:
    return int(LIBRARY.gix_config_told_text(told, path, len(path), text, len(text)))


def tell_from_disk(told: c.Told, path: bytes) -> int:
    """Tells what is at a path on the disk. What is no file, as a directory, is missing."""
    if not os.path.isfile(path):
        return tell_missing(told, path)
    try:
        file = open(path, "rb")
    except OSError:
        return int(LIBRARY.gix_config_told_fault(told, path, len(path), False))
    with file:
        try:
            text = file.read()
        except OSError:
            return int(LIBRARY.gix_config_told_fault(told, path, len(path), True))
    return tell_text(told, path, text)


def alone(text: bytes) -> Teller:
    """Tells the text of the file that is asked for first, and nothing of those that it includes."""
    texts = [text]

    def tell(told: c.Told, path: bytes) -> int:
        return tell_text(told, path, texts.pop()) if texts else tell_missing(told, path)
    return tell


def tell_variable(told: c.Told, name: bytes) -> int:
    """Tells what a variable of the process is set to, if it is. Returns the answer."""
    value = os.environb.get(name)
    if value is None:
        return int(LIBRARY.gix_config_told_no_variable(told, name, len(name)))
    return int(LIBRARY.gix_config_told_variable(told, name, len(name), value, len(value)))


class Asked:
    """A call that asks for files and variables: it is made again and again, each time with one more, until it asks for none."""

    number: int
    """What the call answers at last."""
    place: Optional[c.Place]
    """Where its text can't be read on, if the call is refused for that."""
    about: bytes
    """The file or the variable that the call named last: what it asked for, or what it is refused for."""

    def __init__(self, call: Callable[[c.Told, c.Bytes], int], tell: Teller = tell_from_disk) -> None:
        told, asked = c.Told(), c.Bytes()
        self.place, self.about = None, b""
        try:
            self.number = LIBRARY.gix_config_told_new(told)
            while self.number == c.DONE:
                self.number = call(told, asked)
                self.about = bytes_at(asked)
                if self.number == c.NOT_TOLD:
                    self.number = tell(told, self.about)
                elif self.number == c.VARIABLE_NOT_TOLD:
                    self.number = tell_variable(told, self.about)
                else:
                    break
            if self.number in (c.UNEXPECTED_TOKEN, c.INPUT_TOO_LARGE):
                self._find_place(told)
        finally:
            LIBRARY.gix_config_told_close(told)
            LIBRARY.gix_config_bytes_free(asked)

    def _find_place(self, told: c.Told) -> None:
        """Finds where the text of the file that the call named can't be read on."""
        place = c.Place()
        number = LIBRARY.gix_config_told_place(told, self.about, len(self.about), place)
        if number == self.number:
            self.place = place
        elif number == c.OUT_OF_MEMORY:
            self.number = number
