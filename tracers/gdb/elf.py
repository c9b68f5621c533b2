"""What a compiled program's file says of itself: its machine, its entry, its sections and its functions' addresses."""

from __future__ import annotations

import struct
from dataclasses import dataclass
from typing import Dict, Iterator

MAGIC = b"\x7fELF"
CLASS_64 = 2
LITTLE_ENDIAN = 1
X86_64 = 62
HEADER = struct.Struct("<16sHHIQQQIHHHHHH")
SECTION = struct.Struct("<IIQQQQIIQQ")
SYMBOL = struct.Struct("<IBBHQQ")
FUNCTION_TYPE = 2


class NoProgram(Exception):
    """The file is no program that can be traced; the text says why."""


@dataclass
class Section:
    """A section of the file: where it lies, how large it is."""

    offset: int
    size: int


class Elf:
    """A program's file. Only 64-bit programs for x86-64 are taken."""

    def __init__(self, path: str) -> None:
        with open(path, "rb") as file:
            self.data = file.read()
        if self.data[:2] == b"#!":
            raise NoProgram("it is a script; of libtool's, the program lies in the folder .libs")
        if self.data[:4] != MAGIC or len(self.data) < HEADER.size:
            raise NoProgram("it is no compiled program")
        fields = HEADER.unpack_from(self.data)
        if self.data[4] != CLASS_64 or self.data[5] != LITTLE_ENDIAN or fields[2] != X86_64:
            raise NoProgram("it isn't compiled for x86-64")
        self.entry = fields[4]
        self.sections = self.read_sections(offset=fields[6], count=fields[12], names=fields[13])

    def read_sections(self, offset: int, count: int, names: int) -> Dict[str, Section]:
        """The sections by their names; `names` is the number of the one that has these."""
        headers = [SECTION.unpack_from(self.data, offset + index * SECTION.size) for index in range(count)]
        sections = {}
        for header in headers:
            start = headers[names][4] + header[0]
            name = self.data[start:self.data.index(b"\0", start)].decode("latin-1")
            sections[name] = Section(header[4], header[5])
        return sections

    def has_lines(self) -> bool:
        """Whether the file has debugging information."""
        return ".debug_info" in self.sections or ".zdebug_info" in self.sections

    def functions(self) -> Iterator[int]:
        """The addresses of the functions in the symbol table, as they are in the file."""
        table = self.sections.get(".symtab", Section(0, 0))
        for _, info, _, section, value, _ in SYMBOL.iter_unpack(self.data[table.offset:table.offset + table.size]):
            if info & 15 == FUNCTION_TYPE and section != 0:
                yield value


def entry_of_process(pid: int) -> int:
    """The address at which the process's program begins: the entry of its file, moved to where it was loaded."""
    with open("/proc/%d/auxv" % pid, "rb") as file:
        pairs = [(key, value) for key, value in struct.iter_unpack("<QQ", file.read())]
    entry_kind = 9
    return dict(pairs)[entry_kind]
