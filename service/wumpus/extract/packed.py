"""Documents that are packed by themselves: gz, xz, bz2 and zst."""

import bz2
import ctypes
import gzip
import lzma
from collections.abc import Callable, Iterator
from io import BytesIO
from typing import BinaryIO, cast

from .documents import DOCUMENT_MAX
from .frames import Output
from .reasons import Reason, Refusal

_PIECE = 1 << 18
_WINDOW_LOG = 100  # the parameter ZSTD_d_windowLogMax
_WINDOW_LOG_MAX = 26  # 64 MiB


def _pieces_of(file: BinaryIO) -> Iterator[bytes]:
    """What a reader unpacks. What is cut off, or has something else behind it, is read so far."""
    count = 0
    while True:
        try:
            piece = file.read(_PIECE)
        except (EOFError, OSError, lzma.LZMAError):
            if not count:
                raise
            return
        if not piece:
            return
        count += 1
        yield piece


def _by_gzip(data: bytes) -> Iterator[bytes]:
    return _pieces_of(cast(BinaryIO, gzip.GzipFile(fileobj=BytesIO(data))))


def _by_lzma(data: bytes) -> Iterator[bytes]:
    return _pieces_of(cast(BinaryIO, lzma.LZMAFile(BytesIO(data))))


def _by_bz2(data: bytes) -> Iterator[bytes]:
    return _pieces_of(cast(BinaryIO, bz2.BZ2File(BytesIO(data))))


class _Buffer(ctypes.Structure):
    """Both of the library's buffers have this form."""

    _fields_ = [("start", ctypes.c_void_p), ("size", ctypes.c_size_t), ("place", ctypes.c_size_t)]


def _zstandard() -> ctypes.CDLL | None:
    """The library; None where it isn't there."""
    try:
        library = ctypes.CDLL("libzstd.so.1")
    except OSError:
        return None
    library.ZSTD_createDCtx.restype = ctypes.c_void_p
    library.ZSTD_DCtx_setParameter.argtypes = [ctypes.c_void_p, ctypes.c_int, ctypes.c_int]
    library.ZSTD_decompressStream.argtypes = [ctypes.c_void_p] * 3
    library.ZSTD_decompressStream.restype = ctypes.c_size_t
    library.ZSTD_isError.argtypes = [ctypes.c_size_t]
    return library


_LIBRARY = _zstandard()


def _by_zstandard(data: bytes) -> Iterator[bytes]:
    """What the library unpacks, with windows of a bounded size. The process ends after it."""
    if _LIBRARY is None:
        raise Refusal(Reason.BROKEN)
    context = _LIBRARY.ZSTD_createDCtx()
    if not context:
        raise MemoryError
    _LIBRARY.ZSTD_DCtx_setParameter(context, _WINDOW_LOG, _WINDOW_LOG_MAX)
    room = ctypes.create_string_buffer(_PIECE)
    packed = _Buffer(ctypes.cast(ctypes.c_char_p(data), ctypes.c_void_p), len(data), 0)
    count = 0
    while True:
        piece = _Buffer(ctypes.addressof(room), _PIECE, 0)
        before = packed.place
        status = _LIBRARY.ZSTD_decompressStream(
            context, ctypes.addressof(piece), ctypes.addressof(packed)
        )
        if _LIBRARY.ZSTD_isError(status):
            if not count:
                raise Refusal(Reason.BROKEN)
            return
        if piece.place:
            count += 1
            yield room.raw[: piece.place]
        elif packed.place == before:
            return


def _unpacked(pieces: Iterator[bytes]) -> bytes:
    """All of it. Raises `Refusal` where that is more than a document may be."""
    whole = bytearray()
    for piece in pieces:
        whole += piece
        if len(whole) > DOCUMENT_MAX:
            raise Refusal(Reason.WITHIN)
    return bytes(whole)


def _filter(by: Callable[[bytes], Iterator[bytes]]) -> Callable[[bytes, Output], None]:
    """The filter that gives what is unpacked as a document within this one."""

    def unpack(data: bytes, output: Output) -> None:
        output.within("", _unpacked(by(data)))

    return unpack


unpack_gz = _filter(_by_gzip)
unpack_xz = _filter(_by_lzma)
unpack_bz2 = _filter(_by_bz2)
unpack_zst = _filter(_by_zstandard)
