"""The call of the C library, over ctypes."""
import ctypes
import functools
from collections.abc import Mapping, Sequence
from ctypes import POINTER, Structure, c_bool, c_char_p, c_int, c_int64, c_size_t, c_ssize_t, c_uint32, c_uint64, c_void_p
from mmap import mmap
from typing import Any, TypeAlias

NAME = "libratmanganese.so.0"
ACCEPTED, REFUSED, USAGE, INPUT, SHORT, MEMORY, ASKS = range(7)
Octets: TypeAlias = bytes | bytearray | memoryview | mmap


class _Bytes(Structure):
    _fields_ = [("at", c_void_p), ("length", c_size_t)]


class _File(Structure):
    _fields_ = [("name", _Bytes), ("bytes", _Bytes)]


class _Request(Structure):
    _fields_ = [(name, _Bytes) for name in "root bundle artifact policy repository absent store good bad".split()]
    _fields_ += [("seconds", c_int64), ("nanoseconds", c_uint32), ("whole", c_bool)]


class _Lengths(Structure):
    _fields_ = [("out", c_size_t), ("kept", c_size_t)]


class _Buffer(Structure):
    """A Py_buffer."""

    _fields_ = [("buf", c_void_p), ("obj", c_void_p), ("len", c_ssize_t), ("itemsize", c_ssize_t), ("readonly", c_int), ("ndim", c_int)]
    _fields_ += [("format", c_char_p), ("shape", c_void_p), ("strides", c_void_p), ("suboffsets", c_void_p), ("internal", c_void_p)]


_get_buffer = ctypes.PYFUNCTYPE(c_int, ctypes.py_object, POINTER(_Buffer), c_int)(("PyObject_GetBuffer", ctypes.pythonapi))
_release_buffer = ctypes.PYFUNCTYPE(None, POINTER(_Buffer))(("PyBuffer_Release", ctypes.pythonapi))
_nothing = (c_uint64 * 1)()


class _Held:
    """Buffers that don't move while a call looks at them."""

    def __init__(self) -> None:
        self._buffers: list[_Buffer] = []
        self._arrays: list[Any] = []

    def octets(self, octets: Octets) -> _Bytes:
        buffer = _Buffer()
        if _get_buffer(octets, ctypes.byref(buffer), 0):
            raise BufferError("no bytes in one piece")
        self._buffers.append(buffer)
        return _Bytes(buffer.buf, buffer.len) if buffer.len else _Bytes(ctypes.addressof(_nothing), 0)

    def array(self, kind: type[Structure], entries: Sequence[Structure]) -> _Bytes:
        if not entries:
            return _Bytes(ctypes.addressof(_nothing), 0)
        array = (kind * len(entries))(*entries)
        self._arrays.append(array)
        return _Bytes(ctypes.addressof(array), len(entries))

    def files(self, files: Mapping[bytes, Octets]) -> _Bytes:
        return self.array(_File, [_File(self.octets(name), self.octets(octets)) for name, octets in files.items()])

    def release(self) -> None:
        while self._buffers:
            _release_buffer(ctypes.byref(self._buffers.pop()))


@functools.cache
def _function(path: str) -> Any:
    function = ctypes.CDLL(path).ratmanganese_verify
    function.restype = c_uint32
    function.argtypes = [POINTER(_Request), c_void_p, c_size_t, c_void_p, c_size_t, POINTER(_Lengths)]
    return function


def call(
    path: str, inputs: Sequence[Octets], repository: Mapping[bytes, Octets], absent: Sequence[bytes], store: Mapping[bytes, Octets],
    rows: Sequence[Octets], moment: tuple[int, int], whole: bool,
) -> tuple[int, bytes, bytes]:
    """The status of a call and its two texts; the buffers are made anew until both fit. What is handed in stands in the order of the
    header's request."""
    function, held = _function(path), _Held()
    sizes, lengths = [65536, 1 << 20], _Lengths()
    try:
        files = held.files(repository), held.array(_Bytes, [held.octets(name) for name in absent]), held.files(store)
        asked = _Request(*map(held.octets, inputs), *files, *map(held.octets, rows), *moment, whole)
        while True:
            out, kept = (ctypes.create_string_buffer(size) for size in sizes)
            status = function(ctypes.byref(asked), out, sizes[0], kept, sizes[1], ctypes.byref(lengths))
            wanted = [max(sizes[0], lengths.out), max(sizes[1], lengths.kept)]
            if wanted == sizes:
                return status, ctypes.string_at(out, lengths.out), ctypes.string_at(kept, lengths.kept)
            if status != SHORT:
                raise RuntimeError(f"the library answers {status} with texts longer than their buffers")
            sizes = wanted
    finally:
        held.release()
