"""The bytes of asks, and what the bytes of replies and refusals mean (docs/FORMATS.md)."""

from __future__ import annotations

import struct
from dataclasses import dataclass
from typing import List, Optional, Tuple, Type, Union

from .errors import Fault, InvalidArgument, Malformed, Refusal

MAX_BODY = 65_536
MAX_TEXT = 64
MAX_ROWS = 256
MAX_ROW_SET = 32
MAX_SET = 8_192
MAX_U32 = 2**32 - 1
MAX_U64 = 2**64 - 1
# No node takes a request beyond it.
MAX_REQUEST = 2**62

_ASK, _REPLY, _REFUSED = 3, 4, 5


@dataclass(frozen=True)
class Row:
    """What a node has stored: the number of its last write, its text, maximum, flag and set, which ascends."""

    node: int
    number: int
    text: bytes
    max: int
    flag: bool
    set: Tuple[int, ...]


@dataclass(frozen=True)
class Stored:
    """A write was done."""


@dataclass(frozen=True)
class Seen:
    """The rows of a collect, by ascending node."""

    rows: Tuple[Row, ...]


@dataclass(frozen=True)
class Max:
    """The greatest maximum of all nodes."""

    value: int


@dataclass(frozen=True)
class Flag:
    """Whether any node has set its flag."""

    value: bool


@dataclass(frozen=True)
class NumberSet:
    """The numbers that were added at any node, ascending."""

    numbers: Tuple[int, ...]


Answer = Union[Stored, Seen, Max, Flag, NumberSet]


@dataclass(frozen=True)
class Command:
    """The bytes of a command, and which answer it gets."""

    encoded: bytes
    answer: Type[Answer]

    @property
    def is_reading(self) -> bool:
        """Whether it changes nothing."""
        return self.answer is not Stored


COLLECT = Command(b"\x02", Seen)
READ_MAX = Command(b"\x04", Max)
SET_FLAG = Command(b"\x05", Stored)
READ_FLAG = Command(b"\x06", Flag)
READ_SET = Command(b"\x08", NumberSet)


def store(text: Union[str, bytes]) -> Command:
    """A str is taken as UTF-8."""
    encoded = _text_bytes(text)
    if len(encoded) > MAX_TEXT:
        raise InvalidArgument(f"a text has {MAX_TEXT} bytes at most, not {len(encoded)}")
    return Command(bytes([1, len(encoded)]) + encoded, Stored)


def _text_bytes(text: Union[str, bytes]) -> bytes:
    if isinstance(text, (bytes, bytearray, memoryview)):
        return bytes(text)
    if not isinstance(text, str):
        raise InvalidArgument(f"a text is a str or bytes, not {text!r}")
    try:
        return text.encode()
    except UnicodeEncodeError as why:
        raise InvalidArgument(f"a text that is no UTF-8: {why}") from None


def write_max(number: int) -> Command:
    return Command(b"\x03" + struct.pack(">Q", whole(number, MAX_U64, "a maximum")), Stored)


def add(number: int) -> Command:
    return Command(b"\x07" + struct.pack(">I", whole(number, MAX_U32, "a number of a set")), Stored)


def whole(number: int, greatest: int, what: str) -> int:
    """The number itself, where it is a whole one from 0 to `greatest`."""
    if isinstance(number, bool) or not isinstance(number, int) or not 0 <= number <= greatest:
        raise InvalidArgument(f"{what} is a whole number from 0 to {greatest}, not {number!r}")
    return number


def encode_ask(session: int, request: int, command: Command) -> bytes:
    """The frame of an ask."""
    body = struct.pack(">BQQ", _ASK, session, request) + command.encoded
    return struct.pack(">I", len(body)) + body


@dataclass(frozen=True)
class Reply:
    """The answer to a request."""

    session: int
    request: int
    answer: Answer


@dataclass(frozen=True)
class Refusing:
    """A request was refused: why, and the number that the refusal carries, else 0."""

    session: int
    request: int
    refusal: Refusal
    carried: int


Told = Union[Reply, Refusing]


def decode_length(prefix: bytes) -> int:
    """The length of a frame's body, by the frame's first four bytes."""
    length = int.from_bytes(prefix, "big")
    if length == 0:
        raise Malformed(Fault.SHORT)
    if length > MAX_BODY:
        raise Malformed(Fault.TOO_LARGE)
    return length


def decode_body(body: bytes) -> Told:
    """What a node tells a client by the body of a frame. Malformed for any other bytes."""
    reader = _Reader(body)
    kind = reader.number(1)
    if kind not in (_REPLY, _REFUSED):
        raise Malformed(Fault.BAD_KIND)
    session, request = reader.number(8), reader.number(8)
    told: Told
    if kind == _REPLY:
        told = Reply(session, request, _answer(reader))
    else:
        told = Refusing(session, request, _refusal(reader), reader.number(8))
    reader.end()
    return told


class _Reader:
    """Takes fields from the front of bytes."""

    def __init__(self, data: bytes) -> None:
        self._data = data
        self._at = 0

    def take(self, count: int) -> bytes:
        taken = self._data[self._at : self._at + count]
        if len(taken) < count:
            raise Malformed(Fault.SHORT)
        self._at += count
        return taken

    def number(self, size: int) -> int:
        return int.from_bytes(self.take(size), "big")

    def count(self, size: int, most: int) -> int:
        count = self.number(size)
        if count > most:
            raise Malformed(Fault.TOO_LARGE)
        return count

    def flag(self) -> bool:
        byte = self.number(1)
        if byte > 1:
            raise Malformed(Fault.BAD_KIND)
        return byte == 1

    def ascending(self, count: int) -> Tuple[int, ...]:
        numbers: List[int] = []
        for _ in range(count):
            numbers.append(_above(self.number(4), numbers[-1] if numbers else None))
        return tuple(numbers)

    def end(self) -> None:
        if self._at < len(self._data):
            raise Malformed(Fault.TRAILING)


def _above(number: int, before: Optional[int]) -> int:
    if before is not None and number <= before:
        raise Malformed(Fault.NOT_ASCENDING)
    return number


def _refusal(reader: _Reader) -> Refusal:
    number = reader.number(1)
    try:
        return Refusal(number)
    except ValueError:
        raise Malformed(Fault.BAD_KIND) from None


def _answer(reader: _Reader) -> Answer:
    kind = reader.number(1)
    if kind == 1:
        return Stored()
    if kind == 2:
        return Seen(_rows(reader))
    if kind == 3:
        return Max(reader.number(8))
    if kind == 4:
        return Flag(reader.flag())
    if kind == 5:
        return NumberSet(reader.ascending(reader.count(2, MAX_SET)))
    raise Malformed(Fault.BAD_KIND)


def _rows(reader: _Reader) -> Tuple[Row, ...]:
    rows: List[Row] = []
    for _ in range(reader.count(2, MAX_ROWS)):
        # 0 stands before the first node.
        node = _above(reader.number(4), rows[-1].node if rows else 0)
        rows.append(_row(node, reader))
    return tuple(rows)


def _row(node: int, reader: _Reader) -> Row:
    return Row(
        node=node,
        number=reader.number(8),
        text=reader.take(reader.count(1, MAX_TEXT)),
        max=reader.number(8),
        flag=reader.flag(),
        set=reader.ascending(reader.count(1, MAX_ROW_SET)),
    )
