"""Files written whole or not at all."""

from __future__ import annotations

import os
import pathlib
import stat
import tempfile


class Outlet:
    """A file that is written beside its place and then put there in one step, over what stood there.

    It is opened before the work starts, so that a place that cannot be written is told then. Where nothing is put, what stood
    there stays, and nothing is left beside it."""

    def __init__(self, name: str) -> None:
        # what a link leads to is replaced, and not the link
        self.place = pathlib.Path(os.path.realpath(name))
        try:
            mode = os.stat(self.place).st_mode
        except FileNotFoundError:
            mode = None
        if mode is not None and not stat.S_ISREG(mode):
            raise IsADirectoryError(0, "is a folder" if stat.S_ISDIR(mode) else "is no file that can be replaced", name)
        if mode is not None and not os.access(self.place, os.W_OK):
            raise PermissionError(0, "may not be written", name)
        number, self.beside = tempfile.mkstemp(prefix=f".{self.place.name}.", dir=self.place.parent)
        self.file = os.fdopen(number, "wb")
        os.chmod(self.beside, stat.S_IMODE(mode) if mode is not None else 0o666 & ~_mask())

    def put(self, data: bytes) -> None:
        """These bytes, in one step."""
        self.file.write(data)
        self.file.flush()
        os.fsync(self.file.fileno())
        self.file.close()
        os.replace(self.beside, self.place)
        self.beside = ""

    def close(self) -> None:
        """Leaves nothing behind where nothing was put."""
        self.file.close()
        if self.beside:
            os.unlink(self.beside)
            self.beside = ""


def _mask() -> int:
    """The rights that a new file is not given; there is no way to ask for them alone."""
    mask = os.umask(0o077)
    os.umask(mask)
    return mask
