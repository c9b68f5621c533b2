"""From the types of parameters, fields and global variables to the variables of points, and to readers of their values. A reader is made
once a function."""

from __future__ import annotations

from dataclasses import dataclass
from typing import Callable, Dict, List, Optional, Sequence, Tuple

import gdb

from dtrace import BOOLEAN, HASHCODE, INT, STRING, Kinds, Variable
from kinds import (INTEGER_CODES, RECORD_CODES, REFERENCE_CODES, Member, converter, fields_of, is_char, is_signed, is_standard,
                   is_standard_string, kind_of, plain, short_name)
from process import Process
from readers import (Bits, Convert, Counted, Elements, Members, Reader, ReadLength, Single, StandardString, String, Target, Text, Vector,
                     length_reader, read_pointer)


@dataclass
class Found:
    """Variables with what reads them."""

    reader: Reader
    variables: List[Variable]


@dataclass
class Options:
    """What the user asked for: the depth of fields, the most elements of a sequence, the lengths of arrays."""

    depth: int
    elements: int
    arrays: Dict[str, str]


class Shapes:
    """Makes variables and readers of types."""

    def __init__(self, process: Process, kinds: Kinds, options: Options) -> None:
        self.process = process
        self.kinds = kinds
        self.options = options

    def variable(self, name: str, kind: gdb.Type, rep_type: str, comparability: str, var_kind: str, enclosing: str) -> Variable:
        """A variable with its declaration."""
        return Variable(name, rep_type, short_name(str(kind)), var_kind, comparability, enclosing)

    def number(self, kind: gdb.Type) -> str:
        """The comparability of the type's values."""
        return str(self.kinds.number(kind_of(kind)))

    def members(self, members: Sequence[Member], depth: int, name_of: Callable[[str], str], var_kind: str,
                enclosing: str = "") -> Optional[Found]:
        """The variables of members, and the reader of all of them."""
        variables: List[Variable] = []
        readers = []
        for member in members:
            found = self.member(member, members, depth, name_of, var_kind, enclosing)
            if found is not None:
                variables += found.variables
                readers.append((member.place, found.reader))
        return Found(Members(readers), variables) if variables else None

    def member(self, member: Member, siblings: Sequence[Member], depth: int, name_of: Callable[[str], str], var_kind: str,
               enclosing: str) -> Optional[Found]:
        """The variables of one member."""
        name = name_of(member.name) if member.name else ""
        if member.bits is not None:
            return self.bits(name, member, var_kind, enclosing)
        if not member.name:
            return None if is_standard(plain(member.kind)) else self.members(fields_of(member.kind), depth, name_of, var_kind, enclosing)
        length = self.length_of(member, name, siblings)
        if length is not None:
            return self.counted(name, member.kind, length, var_kind, enclosing)
        return self.value(name, member.kind, depth, var_kind, enclosing)

    def bits(self, name: str, member: Member, var_kind: str, enclosing: str) -> Optional[Found]:
        """The variable of a bit-field."""
        inner = plain(member.kind)
        is_boolean = inner.code == gdb.TYPE_CODE_BOOL
        if member.bits is None or not (is_boolean or inner.code in INTEGER_CODES):
            return None
        reader = Bits(member.bits[0], member.bits[1], not is_boolean and is_signed(inner), is_boolean)
        rep_type = BOOLEAN if is_boolean else INT
        return Found(reader, [self.variable(name, member.kind, rep_type, self.number(member.kind), var_kind, enclosing)])

    def value(self, name: str, kind: gdb.Type, depth: int, var_kind: str, enclosing: str = "") -> Optional[Found]:
        """The variables of a value of this name and type."""
        inner = plain(kind)
        if inner.code == gdb.TYPE_CODE_PTR:
            return self.pointer(name, kind, inner.target(), depth, var_kind, enclosing)
        if inner.code in REFERENCE_CODES:
            found = self.value(name, inner.target(), depth, var_kind, enclosing)
            return found and Found(Target(self.process, found.reader, False), found.variables)
        if inner.code == gdb.TYPE_CODE_ARRAY:
            return self.array(name, inner, depth, var_kind, enclosing)
        if inner.code in RECORD_CODES:
            return self.record(name, inner, depth, var_kind, enclosing)
        return self.single(name, kind, var_kind, enclosing)

    def single(self, name: str, kind: gdb.Type, var_kind: str, enclosing: str) -> Optional[Found]:
        """The variable of a single value."""
        found = converter(kind)
        if found is None:
            return None
        rep_type, convert = found
        return Found(Single(convert, plain(kind).sizeof), [self.variable(name, kind, rep_type, self.number(kind), var_kind, enclosing)])

    def string(self, name: str, kind: gdb.Type, reader: Reader, var_kind: str, enclosing: str) -> Found:
        """The variable of a string."""
        return Found(reader, [self.variable(name, kind, STRING, str(self.kinds.number("string")), var_kind, enclosing)])

    def pointer(self, name: str, kind: gdb.Type, target: gdb.Type, depth: int, var_kind: str, enclosing: str) -> Optional[Found]:
        """The variables of a pointer and of what it points to."""
        if is_char(target):
            return self.string(name, kind, String(self.process), var_kind, enclosing)
        single = self.single(name, kind, var_kind, enclosing)
        inner = self.target(name, target, depth - 1) if depth > 0 else None
        if single is None or inner is None:
            return single
        return Found(Target(self.process, inner.reader, True), single.variables + inner.variables)

    def target(self, name: str, target: gdb.Type, depth: int) -> Optional[Found]:
        """The variables of what a pointer of this name points to."""
        inner = plain(target)
        if inner.code in RECORD_CODES and not is_standard(inner):
            return self.members(fields_of(inner), depth, lambda field: wrapped(name) + "->" + field, "field", name)
        if inner.code in (gdb.TYPE_CODE_VOID, gdb.TYPE_CODE_FUNC, gdb.TYPE_CODE_METHOD):
            return None
        return self.value("*" + name, target, depth, "variable", name)

    def record(self, name: str, inner: gdb.Type, depth: int, var_kind: str, enclosing: str) -> Optional[Found]:
        """The variables of a structure or a class."""
        if is_standard(inner):
            return self.standard(name, inner, var_kind, enclosing)
        if depth == 0:
            return None
        return self.members(fields_of(inner), depth - 1, lambda field: wrapped(name) + "." + field, "field", enclosing)

    def standard(self, name: str, inner: gdb.Type, var_kind: str, enclosing: str) -> Optional[Found]:
        """The variable of a string, a vector or an array of the standard library."""
        text = inner.name or ""
        if is_standard_string(inner):
            return self.string(name, inner, StandardString(self.process), var_kind, enclosing)
        if text.startswith("std::array<"):
            arrays = [field.type for field in inner.fields() if field.name == "_M_elems"]
            return self.value(name, arrays[0], 0, var_kind, enclosing) if arrays else None
        if text.startswith("std::vector<") and not text.startswith("std::vector<bool"):
            return self.vector(name, inner, var_kind, enclosing)
        return None

    def element(self, kind: gdb.Type) -> Optional[Tuple[str, Convert, str]]:
        """The representation of elements of this type, how one is read, and its comparability."""
        inner = plain(kind)
        if inner.code == gdb.TYPE_CODE_PTR and is_char(inner.target()):
            string = String(self.process)
            return STRING, lambda data, offset: string.text(read_pointer(data, offset)), str(self.kinds.number("string"))
        if is_standard_string(inner):
            return STRING, StandardString(self.process).at, str(self.kinds.number("string"))
        found = converter(kind)
        if found is None:
            return None
        rep_type, convert = found
        return rep_type, convert, self.number(kind)

    def array(self, name: str, inner: gdb.Type, depth: int, var_kind: str, enclosing: str) -> Optional[Found]:
        """The variables of an array of a fixed length."""
        target = inner.target()
        first, last = inner.range()
        length = last - first + 1
        if length <= 0:
            return None
        if is_char(target):
            return self.string(name, inner, Text(length), var_kind, enclosing)
        count = min(length, self.options.elements)
        size = plain(target).sizeof
        if plain(target).code in RECORD_CODES and not is_standard(plain(target)):
            return self.record_array(wrapped(name) + "[..]", plain(target), count, var_kind, enclosing) if depth > 0 else None
        return self.elements(wrapped(name) + "[..]", target, size, count, var_kind, enclosing)

    def elements(self, name: str, kind: gdb.Type, size: int, count: int, var_kind: str, enclosing: str) -> Optional[Found]:
        """The variable of so many elements, of which one lies each so many bytes."""
        found = self.element(kind)
        if found is None:
            return None
        rep_type, read_element, number = found
        variable = self.variable(name, kind, rep_type + "[]", number + "[-1]", var_kind, enclosing)
        return Found(Elements(read_element, plain(kind).sizeof, size, count), [variable])

    def record_array(self, name: str, record: gdb.Type, count: int, var_kind: str, enclosing: str) -> Optional[Found]:
        """The variables of an array of structures: a sequence for each field that is a single value."""
        variables: List[Variable] = []
        readers = []
        for field in [field for field in fields_of(record) if field.name and field.bits is None]:
            found = self.elements(name + "." + field.name, field.kind, record.sizeof, count, var_kind, enclosing)
            if found is not None:
                variables += found.variables
                readers.append((field.place, found.reader))
        return Found(Members(readers), variables) if variables else None

    def vector(self, name: str, inner: gdb.Type, var_kind: str, enclosing: str) -> Optional[Found]:
        """The variable of a vector."""
        kind = inner.template_argument(0)
        found = self.element(kind)
        if found is None:
            return None
        rep_type, read_element, number = found
        reader = Vector(self.process, read_element, plain(kind).sizeof, self.options.elements)
        index = "[%d]" % self.kinds.number("size")
        return Found(reader, [self.variable(wrapped(name) + "[..]", inner, rep_type + "[]", number + index, var_kind, enclosing)])

    def length_of(self, member: Member, name: str, siblings: Sequence[Member]) -> Optional[Tuple[str, ReadLength]]:
        """The length that the user gives the array of this name: its comparability, and how it is read."""
        text = self.options.arrays.get(name, self.options.arrays.get(member.name))
        if text is None or plain(member.kind).code != gdb.TYPE_CODE_PTR:
            return None
        if text.isdigit():
            length = int(text)
            return "-1", lambda data, offset: length
        last = text.replace("->", ".").rsplit(".", 1)[-1]
        for sibling in siblings:
            inner = plain(sibling.kind)
            if sibling.name == last and sibling.bits is None and inner.code in INTEGER_CODES:
                return self.number(sibling.kind), length_reader(sibling.place - member.place, inner.sizeof, is_signed(inner))
        return None

    def counted(self, name: str, kind: gdb.Type, length: Tuple[str, ReadLength], var_kind: str,
                enclosing: str) -> Optional[Found]:
        """The variables of a pointer to an array of a known length."""
        target = plain(kind).target()
        found = self.element(target)
        if found is None:
            return self.value(name, kind, self.options.depth, var_kind, enclosing)
        rep_type, read_element, number = found
        index, read_length = length
        reader = Counted(self.process, read_element, plain(target).sizeof, self.options.elements, read_length)
        pointer = self.variable(name, kind, HASHCODE, self.number(kind), var_kind, enclosing)
        elements = self.variable(wrapped(name) + "[..]", kind, rep_type + "[]", "%s[%s]" % (number, index), "array", name)
        return Found(reader, [pointer, elements])


def wrapped(name: str) -> str:
    """The name as something can be put after it."""
    return "(" + name + ")" if name.startswith("*") else name
