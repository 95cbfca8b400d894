"""Files that are written under a lock, as git writes them."""
import contextlib
import os
import stat
from types import TracebackType
from typing import Optional, Type, Union

from gixcfg._errors import Locked

PathName = Union[str, "os.PathLike[str]"]


class Lock:
    """FILE.lock, which is this program's alone while it stands: git and other programs wait for it, or give up.

    Where FILE is a symbolic link, the file that it leads to is locked and written.
    """

    def __init__(self, path: PathName) -> None:
        self.path = os.path.realpath(path)
        self.name = f"{self.path}.lock"
        self.file: Optional[int] = None

    def __enter__(self) -> "Lock":
        try:
            self.file = os.open(self.name, os.O_WRONLY | os.O_CREAT | os.O_EXCL | os.O_CLOEXEC, 0o666)
        except FileExistsError as error:
            raise Locked(error.errno, "another program edits the file", self.name) from None
        return self

    def commit(self, text: bytes) -> None:
        """Writes the text down to the disk, with the rights of the file that was there, and puts it in its place. It raises nothing once the
        text is in its place."""
        assert self.file is not None
        with contextlib.suppress(FileNotFoundError):
            os.fchmod(self.file, stat.S_IMODE(os.stat(self.path).st_mode))
        with open(self.file, "wb", closefd=False) as out:
            out.write(text)
        os.fsync(self.file)
        os.rename(self.name, self.path)
        # (from here on the name of the lock is no longer this program's)
        file, self.file = self.file, None
        # (the text is on the disk; the new name may follow later, where a directory can't be synced, and a crash until then leaves the old file)
        with contextlib.suppress(OSError):
            os.close(file)
        with contextlib.suppress(OSError):
            sync_directory(os.path.dirname(self.path))

    def __exit__(self, kind: Optional[Type[BaseException]], error: Optional[BaseException], trace: Optional[TracebackType]) -> None:
        if self.file is not None:
            os.close(self.file)
            self.file = None
            os.unlink(self.name)


def sync_directory(path: str) -> None:
    """Syncs a directory, so that new names are on the disk. Raises OSError for one that can't be opened to be read, and where the disk fails."""
    directory = os.open(path, os.O_RDONLY | os.O_DIRECTORY)
    try:
        os.fsync(directory)
    finally:
        os.close(directory)
