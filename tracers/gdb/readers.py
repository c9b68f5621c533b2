"""How values are read from memory.

A reader gives the values of its variables, in their order, from bytes: `read(data, offset, values)` appends one for each, and None for a
missing one. `data` is None where the memory can't be read.
"""

from __future__ import annotations

import struct
from typing import Callable, List, Optional, Sequence, Tuple

from dtrace import boolean, integer, quote_bytes, sequence
from process import Process

Values = List[Optional[str]]
# How one thing is read from bytes: a value or an element of a sequence, and a length.
Convert = Callable[[bytes, int], Optional[str]]
ReadLength = Callable[[bytes, int], Optional[int]]

POINTER_SIZE = 8
# Longer strings are cut.
LONGEST_STRING = 200
# A record that is larger is read field by field.
LARGEST_PIECE = 16_384
# More elements than any memory has are no length.
LARGEST_LENGTH = 1 << 40


# ---------------------------------------------------------------- single values

def read_pointer(data: bytes, offset: int) -> int:
    """The address that lies there."""
    return int.from_bytes(data[offset:offset + POINTER_SIZE], "little")


def convert_pointer(data: bytes, offset: int) -> str:
    """The hash code of a pointer."""
    address = read_pointer(data, offset)
    return hex(address) if address else "null"


def convert_boolean(data: bytes, offset: int) -> str:
    """The truth value of a byte."""
    return boolean(data[offset] != 0)


def convert_long_double(data: bytes, offset: int) -> Optional[str]:
    """The number of 80 bits, as near as one of 64 bits comes to it."""
    mantissa, exponent = struct.unpack_from("<QH", data, offset)
    size = exponent & 0x7FFF
    if size == 0x7FFF:
        return None
    try:
        number = mantissa * 2.0 ** (size - 16_383 - 63)
    except OverflowError:
        return None
    return repr(-number if exponent >> 15 else number)


def length_reader(distance: int, size: int, signed: bool) -> ReadLength:
    """Reads a length that lies so many bytes after its array. It isn't known of a record that is read field by field."""

    def read(data: bytes, offset: int) -> Optional[int]:
        start = offset + distance
        if start < 0 or start + size > len(data):
            return None
        return int.from_bytes(data[start:start + size], "little", signed=signed)

    return read


def sequence_text(read_element: Convert, data: bytes, offset: int, size: int, count: int) -> Optional[str]:
    """The value of so many elements in a row; it is missing where one of them is."""
    texts = [read_element(data, offset + index * size) for index in range(count)]
    known = [text for text in texts if text is not None]
    return sequence(known) if len(known) == count else None


# ---------------------------------------------------------------- readers

class Reader:
    """Reads the values of some variables. `extent` is how many bytes it looks at, `count` how many values it gives."""

    count = 1
    extent = POINTER_SIZE

    def read(self, data: Optional[bytes], offset: int, values: Values) -> None:
        """Appends a value for each variable."""
        raise NotImplementedError


class Single(Reader):
    """A single value."""

    def __init__(self, convert: Convert, size: int) -> None:
        self.convert = convert
        self.extent = size

    def read(self, data: Optional[bytes], offset: int, values: Values) -> None:
        values.append(None if data is None else self.convert(data, offset))


class Bits(Reader):
    """A whole number or a truth value of a few bits."""

    def __init__(self, first: int, size: int, signed: bool, is_boolean: bool) -> None:
        self.first = first
        self.size = size
        self.signed = signed
        self.is_boolean = is_boolean
        self.extent = (first + size + 7) // 8

    def read(self, data: Optional[bytes], offset: int, values: Values) -> None:
        values.append(None if data is None else self.text(int.from_bytes(data[offset:offset + self.extent], "little")))

    def text(self, word: int) -> Optional[str]:
        """The value in the word."""
        number = word >> self.first & (1 << self.size) - 1
        if self.is_boolean:
            return boolean(number != 0)
        return integer(number - (1 << self.size) if self.signed and number >> self.size - 1 else number)


class Text(Reader):
    """An array of characters, up to the first that is 0."""

    def __init__(self, size: int) -> None:
        self.extent = min(size, LONGEST_STRING)

    def read(self, data: Optional[bytes], offset: int, values: Values) -> None:
        values.append(None if data is None else quote_bytes(data[offset:offset + self.extent].split(b"\0", 1)[0]))


class Elements(Reader):
    """Elements in a row: so many, of which one of this extent lies each so many bytes."""

    def __init__(self, read_element: Convert, extent: int, size: int, count: int) -> None:
        self.read_element = read_element
        self.size = size
        self.length = count
        self.extent = size * (count - 1) + extent

    def read(self, data: Optional[bytes], offset: int, values: Values) -> None:
        values.append(None if data is None else sequence_text(self.read_element, data, offset, self.size, self.length))


class Members(Reader):
    """Some values at their places: fields of a record, or parameters of a call."""

    def __init__(self, members: Sequence[Tuple[int, Reader]]) -> None:
        self.members = list(members)
        self.count = sum(reader.count for _, reader in members)
        self.extent = max((place + reader.extent for place, reader in members), default=0)

    def read(self, data: Optional[bytes], offset: int, values: Values) -> None:
        if data is None:
            values += [None] * self.count
            return
        for place, reader in self.members:
            reader.read(data, offset + place, values)


class Target(Reader):
    """What a pointer points to, after the pointer itself where that is a variable."""

    def __init__(self, process: Process, inner: Reader, tells_pointer: bool) -> None:
        self.process = process
        self.inner = inner
        self.tells_pointer = tells_pointer
        self.count = inner.count + tells_pointer

    def read(self, data: Optional[bytes], offset: int, values: Values) -> None:
        if data is None:
            values += [None] * self.count
            return
        if self.tells_pointer:
            values.append(convert_pointer(data, offset))
        self.read_at(read_pointer(data, offset), values)

    def read_at(self, address: int, values: Values) -> None:
        """Appends the values of what lies at the address."""
        inner = self.inner
        if inner.extent <= LARGEST_PIECE or not isinstance(inner, Members):
            inner.read(self.process.read(address, inner.extent) if address else None, 0, values)
            return
        for place, reader in inner.members:
            reader.read(self.process.read(address + place, reader.extent) if address else None, 0, values)


class Fixed(Target):
    """What lies at a fixed address, whichever bytes are read."""

    def __init__(self, process: Process, address: int, inner: Reader) -> None:
        super().__init__(process, inner, False)
        self.address = address

    def read(self, data: Optional[bytes], offset: int, values: Values) -> None:
        self.read_at(self.address, values)


class String(Reader):
    """The string that a pointer points to."""

    def __init__(self, process: Process) -> None:
        self.process = process

    def read(self, data: Optional[bytes], offset: int, values: Values) -> None:
        values.append(None if data is None else self.text(read_pointer(data, offset)))

    def text(self, address: int) -> Optional[str]:
        """The value of the string at the address."""
        if not address:
            return "null"
        data = self.process.read_up_to(address, LONGEST_STRING)
        text, end, _ = data.partition(b"\0")
        return quote_bytes(text) if end or len(data) == LONGEST_STRING else None


class Counted(Reader):
    """The array that a pointer points to, after the pointer itself; `length` tells how many elements it has."""

    count = 2

    def __init__(self, process: Process, read_element: Convert, size: int, most: int,
                 length: ReadLength) -> None:
        self.process = process
        self.read_element = read_element
        self.size = size
        self.most = most
        self.length = length

    def read(self, data: Optional[bytes], offset: int, values: Values) -> None:
        if data is None:
            values += [None] * self.count
            return
        values.append(convert_pointer(data, offset))
        values.append(self.text(read_pointer(data, offset), self.length(data, offset)))

    def text(self, address: int, length: Optional[int]) -> Optional[str]:
        """The value of so many elements, or of the first of them."""
        if not address or length is None or not 0 <= length <= LARGEST_LENGTH:
            return None
        count = min(length, self.most)
        data = self.process.read(address, count * self.size)
        return None if data is None else sequence_text(self.read_element, data, 0, self.size, count)


class Vector(Reader):
    """The elements of a `std::vector`: those between its first two pointers."""

    extent = 2 * POINTER_SIZE

    def __init__(self, process: Process, read_element: Convert, size: int, most: int) -> None:
        self.inner = Counted(process, read_element, size, most, lambda data, offset: None)

    def read(self, data: Optional[bytes], offset: int, values: Values) -> None:
        values.append(None if data is None else self.text(read_pointer(data, offset), read_pointer(data, offset + POINTER_SIZE)))

    def text(self, first: int, end: int) -> Optional[str]:
        """The value of the elements between two addresses."""
        if first == end:
            return "[]"
        return self.inner.text(first, (end - first) // self.inner.size)


class StandardString(Reader):
    """A `std::string`: a pointer to its characters and their number."""

    extent = 2 * POINTER_SIZE

    def __init__(self, process: Process) -> None:
        self.process = process

    def read(self, data: Optional[bytes], offset: int, values: Values) -> None:
        values.append(None if data is None else self.at(data, offset))

    def at(self, data: bytes, offset: int) -> Optional[str]:
        """The value of the string that lies there."""
        return self.text(read_pointer(data, offset), read_pointer(data, offset + POINTER_SIZE))

    def text(self, address: int, length: int) -> Optional[str]:
        """The value of so many characters at the address."""
        if length > LARGEST_LENGTH:
            return None
        data = self.process.read(address, min(length, LONGEST_STRING))
        return None if data is None else quote_bytes(data)
