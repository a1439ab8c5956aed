"""The calls of the library, each over bytes (rombixela.h)."""

from __future__ import annotations

import contextlib
import ctypes
import json
import mmap
import os
import re
from pathlib import Path
from typing import Any, Dict, Iterable, Iterator, List, Mapping, Sequence, Union

Bytes = Union[bytes, bytearray, memoryview]

NO_MEMORY = 1
BAD_SETTINGS = 2

TEXTS: Dict[int, str] = {
    NO_MEMORY: "memory ran out",
    BAD_SETTINGS: "a default is no variable of the job language with a value that it knows",
    111: "an image is no P4 file (raw PBM)",
    112: "an image has a side of 0 or above 16,384 dots",
    113: "an image ends too early",
    304: "a file of the session is not there",
    401: "a line of the text has no form",
    402: "a value of the text is no number",
    403: "data of the text does not fit",
    601: "the ticket is no JSON object",
    602: "a key of the ticket is unknown or missing, or has a value that it may not have",
    603: "the ticket is of another process",
    604: "the pages of the ticket are out of range",
    605: "the copies of the ticket are out of range",
    611: "there are fewer images than the ticket has pages",
    612: "an image is wider than the room on its page",
    613: "an image is taller than the room on its page",
    701: "a press has 1 to 4 engines",
    702: "the press has no such engine",
}

LINES = 1 << 16     # bytes of room for lines at first
PAGES = 1 << 25     # and for pages, with so many more for each byte of a stream, and at most so many
FOR_A_BYTE, MOST = 512, 1 << 32
SMALL = 1 << 22     # bytes at the front of the room for pages that are not taken in large pieces of memory
HEADER = re.compile(rb"P4\n(\d+) (\d+)\n")


class Fault(Exception):
    """A call had a fault: its number (docs/FAULTS.md; 1: memory ran out, 2: a default is refused), what it means, and what there was before it."""

    def __init__(self, number: int, text: str, written: bytes = b"") -> None:
        super().__init__(f"fault {number}: {text}")
        self.number = number
        self.text = text
        self.written = written


class _Answer(ctypes.Structure):
    _fields_ = [("fault", ctypes.c_uint32), ("bytes", ctypes.c_uint64), ("put", ctypes.c_uint64)]


_TAKEN = {"print": 2, "list": 2, "sums": 2, "trace": 2, "disasm": 1, "asm": 1, "write": 2, "session": 2, "version": 0}   # the lists of bytes that each call takes
_NUMBERS = {"session": 1}   # and how many numbers stand before them


def _opened() -> ctypes.CDLL:
    """The shared object: that of ROMBIXELA_LIBRARY, or the one of this package."""
    library = ctypes.CDLL(os.environ.get("ROMBIXELA_LIBRARY") or str(Path(__file__).with_name("librombixela.so")))
    for name, taken in _TAKEN.items():
        function = getattr(library, f"rombixela_{name}")
        function.argtypes = [ctypes.c_uint64] * _NUMBERS.get(name, 0) + [ctypes.c_char_p, ctypes.c_size_t] * taken + [ctypes.c_void_p, ctypes.c_size_t]
        function.restype = _Answer
    return library


_LIBRARY = _opened()


def _asked(name: str, buffer: Any, *given: Bytes, before: Sequence[int] = ()) -> _Answer:
    """A call with this buffer as its room."""
    words: List[Any] = list(before)
    for one in given:
        one = bytes(one)
        words += [one, len(one)]
    place = (ctypes.c_char * len(buffer)).from_buffer(buffer)
    return getattr(_LIBRARY, f"rombixela_{name}")(*words, ctypes.addressof(place), len(buffer))


def _fault(number: int, written: Bytes) -> Fault:
    return Fault(number, TEXTS.get(number, "see docs/FAULTS.md"), bytes(written))


def _written(name: str, room: int, *given: Bytes, before: Sequence[int] = ()) -> bytearray:
    """What a call writes. The room is made as large as it has to be."""
    while True:
        buffer = bytearray(room)
        answer = _asked(name, buffer, *given, before=before)
        if answer.bytes == answer.put:
            del buffer[answer.put:]
            if answer.fault:
                raise _fault(answer.fault, buffer)
            return buffer
        room = answer.bytes


def _memory(size: int) -> mmap.mmap:
    """Room that takes no memory before it is written to, and then in large pieces, where the system has them."""
    room = mmap.mmap(-1, size, mmap.MAP_PRIVATE | mmap.MAP_ANONYMOUS)
    if size > SMALL:
        with contextlib.suppress(AttributeError, OSError):
            room.madvise(mmap.MADV_HUGEPAGE, SMALL)
    return room


def _printed(settings: bytes, data: Bytes) -> memoryview:
    """The P4 files of the pages of a stream, one behind the other. Most streams need one call, since the room that is not written to costs nothing."""
    size = min(PAGES + FOR_A_BYTE * len(data), MOST)
    while True:
        room = _memory(size)
        answer = _asked("print", room, settings, data)
        if answer.bytes == answer.put:
            files = memoryview(room).toreadonly()[:answer.put]
            if answer.fault:
                raise _fault(answer.fault, files)
            return files
        room.close()
        size = answer.bytes


def _settings(defaults: Mapping[str, object]) -> bytes:
    """Defaults as the words that the library takes."""
    words = [f"{name}={value}" for name, value in defaults.items()]
    if any(" " in word for word in words):
        raise Fault(BAD_SETTINGS, TEXTS[BAD_SETTINGS])
    return " ".join(words).encode()


class Page:
    """One side of a sheet: so many dots wide and high, each black or white. Its rows are bytes, the leftmost dot in the highest bit, black as 1."""

    def __init__(self, width: int, height: int, rows: memoryview) -> None:
        self.width = width
        self.height = height
        self._rows = rows

    @property
    def stride(self) -> int:
        """How many bytes a row has."""
        return (self.width + 7) // 8

    @property
    def rows(self) -> List[bytes]:
        """The rows from the top."""
        return [bytes(self._rows[at:at + self.stride]) for at in range(0, len(self._rows), self.stride)]

    def is_black(self, column: int, line: int) -> bool:
        """Whether a dot is black; columns and lines are counted from 0."""
        if not (0 <= column < self.width and 0 <= line < self.height):
            raise IndexError(f"the page has no dot {column}, {line}")
        return bool(self._rows[line * self.stride + column // 8] & 0x80 >> column % 8)

    def black(self) -> int:
        """How many dots are black."""
        return bin(int.from_bytes(self._rows, "big")).count("1")

    def pbm(self) -> bytes:
        """The page as a P4 file (raw PBM)."""
        return b"P4\n%d %d\n" % (self.width, self.height) + bytes(self._rows)

    def pixels(self) -> memoryview:
        """The rows as one buffer, `height` by `stride`, which is not copied: `numpy.asarray(page.pixels())`, or
        `PIL.Image.frombuffer("1", (page.width, page.height), page.pixels().cast("B"), "raw", "1;I")`."""
        return self._rows.cast("B", (self.height, self.stride)) if len(self._rows) else self._rows

    def __repr__(self) -> str:
        return f"<Page {self.width}x{self.height}>"


def _pages(files: memoryview) -> Iterator[Page]:
    """The pages of P4 files that stand one behind the other."""
    at = 0
    while at < len(files):
        header = HEADER.match(files, at)
        assert header
        width, height = int(header[1]), int(header[2])
        begin = header.end()
        at = begin + (width + 7) // 8 * height
        yield Page(width, height, files[begin:at])


def print_stream(data: Bytes, defaults: Mapping[str, object] = {}) -> List[Page]:
    """The pages that a stream prints: the sides of its sheets in order, a back behind its front. `defaults` are the printer's own settings, as
    `{"RESOLUTION": 600, "PAPER": "A4"}`."""
    return list(_pages(_printed(_settings(defaults), data)))


def listing(data: Bytes, defaults: Mapping[str, object] = {}, sums: bool = False) -> str:
    """A line for each side that a stream prints, and its replies behind them. With `sums` the SHA-256 of its P4 file stands in the line of a side."""
    return bytes(_written("sums" if sums else "list", LINES, _settings(defaults), data)).decode("latin-1")


def trace(data: Bytes, defaults: Mapping[str, object] = {}) -> Iterator[Dict[str, Any]]:
    """What a stream does, a record for each step (docs/TRACE.md)."""
    lines = _written("trace", LINES + 512 * len(data), _settings(defaults), data)
    return (json.loads(line) for line in bytes(lines).splitlines())


def disasm(data: Bytes) -> str:
    """The assembly text of a stream (docs/ASSEMBLY.md)."""
    return bytes(_written("disasm", LINES + 8 * len(data), data)).decode("latin-1")


def asm(text: str) -> bytes:
    """The stream of an assembly text. Of a text that is refused, Fault 401 to 403."""
    given = text.encode("latin-1", "strict")
    return bytes(_written("asm", LINES + len(given), given))


def write(ticket: Union[str, Bytes, Mapping[str, Any]], images: Iterable[Union[Bytes, Page]]) -> bytes:
    """The stream that prints a job ticket (docs/TICKETS.md) with the images of its pages, each a P4 file or a page."""
    if isinstance(ticket, Mapping):
        ticket = json.dumps(ticket)
    if isinstance(ticket, str):
        ticket = ticket.encode()
    files = b"".join(image.pbm() if isinstance(image, Page) else bytes(image) for image in images)
    return bytes(_written("write", LINES + len(files), ticket, files))


def session(lines: str, files: Mapping[str, Bytes] = {}, engines: int = 1) -> str:
    """What a press of so many engines answers to lines of events (docs/QUEUE.md), with the messages and images that they name, by their names."""
    block = b"".join(name.encode() + b"\n%d\n" % len(content) + bytes(content) for name, content in files.items())
    return bytes(_written("session", LINES, block, lines.encode("latin-1"), before=(engines,))).decode("latin-1")


def version() -> str:
    """The version of the press, and by which kit it was proved."""
    return bytes(_written("version", 64)).decode()
