"""Files of a repository and of a store, in folders, and an artifact in a memory map."""
import contextlib
import errno
import io
import mmap
import os
import secrets
import stat
from collections.abc import Iterable, Iterator, Mapping
from typing import Protocol

MOST_OF_FILE = 64 << 20
_PIECE = 1 << 20
# What stands in the name of a file that isn't yet in its place.
_BESIDE = b".new~"


class Repository(Protocol):
    """What fetches files of a repository."""

    def __call__(self, name: bytes, most: int) -> bytes | None:
        """The file of this name, or nothing where the repository doesn't have it. No more than `most` bytes are of use, and one more
        tells that it is too long. What is raised ends the verification."""


class Store(Protocol):
    """What keeps documents between verifications."""

    def load(self) -> Mapping[bytes, bytes]:
        """All files, by their names."""

    def keep(self, files: Iterable[tuple[bytes, bytes]]) -> None:
        """Puts each file in place of the one of its name, all before the next verification over this store begins."""


def _is_below(name: bytes) -> bool:
    """Whether a name leads to a place below a folder."""
    return 0 not in name and all(part not in (b"", b".", b"..") for part in name.split(b"/"))


def _opened(path: str | bytes | os.PathLike[str]) -> io.FileIO:
    """A regular file."""
    file = io.FileIO(path, opener=lambda name, flags: os.open(name, flags | os.O_NONBLOCK))
    if not stat.S_ISREG(os.fstat(file.fileno()).st_mode):
        file.close()
        raise OSError(errno.EINVAL, "not a regular file", os.fsdecode(path))
    return file


def _read(file: io.FileIO, most: int) -> bytes:
    """The bytes of a file, `most` and one more at most."""
    read = bytearray()
    with file:
        while len(read) <= most and (piece := file.read(min(_PIECE, most + 1 - len(read)))):
            read += piece
    return bytes(read)


def read_input(path: str, most: int) -> bytes:
    """The bytes of a file of any sort, `most` and one more at most."""
    return _read(io.FileIO(path), most)


class FolderRepository:
    """The files of a folder, targets below targets/."""

    def __init__(self, folder: str | os.PathLike[str]) -> None:
        self._folder = os.fsencode(folder)

    def __call__(self, name: bytes, most: int) -> bytes | None:
        if not _is_below(name):
            return None
        try:
            return _read(_opened(os.path.join(self._folder, name)), most)
        except OSError as fault:
            if fault.errno in (errno.ENOENT, errno.ENOTDIR, errno.ENAMETOOLONG):
                return None
            raise

    def all(self) -> dict[bytes, bytes]:
        """All files, by their names."""
        return dict(_files_of(self._folder, b""))


def _files_of(folder: bytes, below: bytes) -> Iterator[tuple[bytes, bytes]]:
    """The files of a folder that is there, and of those in it. One that can't be read raises."""
    for name in sorted(os.listdir(os.path.join(folder, below))):
        inside = os.path.join(below, name)
        path = os.path.join(folder, inside)
        if os.path.isdir(path):
            yield from _files_of(folder, inside)
            continue
        try:
            octets = _read(_opened(path), MOST_OF_FILE)
        except FileNotFoundError:
            # (another process has put it in its place)
            if _BESIDE not in name:
                raise
        else:
            yield inside, octets


class FolderStore:
    """A folder that keeps documents; the first verification makes it."""

    def __init__(self, folder: str | os.PathLike[str]) -> None:
        self._folder = os.fsencode(folder)

    def load(self) -> dict[bytes, bytes]:
        return dict(_files_of(self._folder, b"")) if os.path.lexists(self._folder) else {}

    def keep(self, files: Iterable[tuple[bytes, bytes]]) -> None:
        for name, octets in files:
            if not _is_below(name):
                raise OSError(errno.EINVAL, "a name that leads out of the store", os.fsdecode(name))
            _put(os.path.join(self._folder, name), octets)


def _put(path: bytes, octets: bytes) -> None:
    """Writes a file beside its place, flushes it, renames it, and flushes its folder."""
    folder = os.path.dirname(path) or b"."
    os.makedirs(folder, exist_ok=True)
    beside = path + _BESIDE + secrets.token_hex(8).encode()
    try:
        with open(beside, "xb") as file:
            file.write(octets)
            file.flush()
            os.fsync(file.fileno())
        os.replace(beside, path)
    except BaseException:
        with contextlib.suppress(OSError):
            os.unlink(beside)
        raise
    at = os.open(folder, os.O_RDONLY | os.O_DIRECTORY | os.O_CLOEXEC)
    try:
        os.fsync(at)
    finally:
        os.close(at)


def mapped(path: str | os.PathLike[str]) -> mmap.mmap | bytes:
    """A memory map of a regular file, to which nobody may write meanwhile."""
    with _opened(path) as file:
        size = os.fstat(file.fileno()).st_size
        return mmap.mmap(file.fileno(), size, access=mmap.ACCESS_READ) if size else b""
