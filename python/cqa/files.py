"""Files that are never half written: beside their place first, then moved to it."""

from __future__ import annotations

import contextlib
import errno
import io
import os
import sys
import tempfile
from typing import BinaryIO, Iterator, Optional, Sequence

from . import underway
from .errors import OutputFault


_is_unwritten = False


@contextlib.contextmanager
def unwritten() -> Iterator[None]:
    """Within it no file and no standard output is written; where a file's folder isn't there, or can't be written, that is raised."""
    global _is_unwritten
    before, _is_unwritten = _is_unwritten, True
    try:
        yield
    finally:
        _is_unwritten = before


@contextlib.contextmanager
def written(path: str) -> Iterator[BinaryIO]:
    """A file to write, which takes the place of the one at a path where all went well, and else is gone.

    Where the path is no ordinary file, as /dev/stdout, it is written as it is.
    """
    is_file = os.path.isfile(path) or not os.path.exists(path)
    if _is_unwritten:
        folder = os.path.dirname(os.path.realpath(path))
        if is_file and not os.access(folder, os.W_OK):
            fault = errno.EACCES if os.path.exists(folder) else errno.ENOENT
            raise OSError(fault, os.strerror(fault), folder)
        yield io.BytesIO()
        return
    if not is_file:
        with open(path, "wb") as stream:
            yield stream
        return
    folder = os.path.dirname(os.path.realpath(path))
    try:
        number, beside = tempfile.mkstemp(prefix="." + os.path.basename(path) + ".", dir=folder)
    except OSError as fault:
        takes_none = fault.errno == errno.ENOENT and os.path.isdir(folder)
        raise OSError(fault.errno, "it takes no new file" if takes_none else fault.strerror, folder) from None
    try:
        with os.fdopen(number, "wb") as file:
            yield file
            file.flush()
            os.fsync(file.fileno())
        os.chmod(beside, _mode_of(path))
        os.replace(beside, os.path.realpath(path))
    except BaseException:
        with contextlib.suppress(OSError):
            os.unlink(beside)
        raise


def check_output(path: Optional[str], read: Sequence[str]) -> None:
    """Raises OutputFault where the file to write, if one is named, is one of those that are read."""
    for name in read if path is not None and os.path.isfile(path) else ():
        if path is not None and os.path.exists(name) and os.path.samefile(path, name):
            raise OutputFault("%s is read, and -o would write over it: nothing is written" % name)


def said(fault: Exception) -> str:
    """What a fault says, in a line: of one of the system the file and the cause."""
    if isinstance(fault, OSError) and fault.strerror:
        return "%s%s" % (fault.filename + ": " if isinstance(fault.filename, str) else "", fault.strerror.lower())
    return str(fault)


@contextlib.contextmanager
def standard_output() -> Iterator[BinaryIO]:
    """Standard output as bytes, through a buffer of its own: where Python runs unbuffered, its own may write a part and drop the rest."""
    if _is_unwritten:
        yield io.BytesIO()
        return
    sys.stdout.flush()
    underway.hold()
    with open(1, "wb", closefd=False) as stream:
        yield stream


def _mode_of(path: str) -> int:
    """The rights of a file that is there, or those of a new one."""
    try:
        return os.stat(path).st_mode & 0o777
    except OSError:
        mask = os.umask(0)
        os.umask(mask)
        return 0o666 & ~mask
