"""What gdb tells of a program's types, and what values of them are."""

from __future__ import annotations

import re
import struct
from dataclasses import dataclass
from functools import lru_cache
from typing import List, Optional, Tuple

import gdb

from dtrace import BOOLEAN, DOUBLE, HASHCODE, INT, integer
from readers import POINTER_SIZE, Convert, convert_boolean, convert_long_double, convert_pointer

# Where the sources of libraries lie.
LIBRARIES = ("/usr/include/", "/usr/lib/", "/usr/local/include/")
SIZE_NAMES = ("size_t", "ssize_t", "std::size_t")

LONG_STRING = "std::__cxx11::basic_string<char, std::char_traits<char>, std::allocator<char> >"
DEFAULT_ARGUMENT = re.compile(r", std::(?:allocator|less|hash|equal_to|char_traits|default_delete)<[^<>]*> *>")

INTEGER_CODES = (gdb.TYPE_CODE_INT, gdb.TYPE_CODE_CHAR, gdb.TYPE_CODE_ENUM, gdb.TYPE_CODE_RANGE)
RECORD_CODES = (gdb.TYPE_CODE_STRUCT, gdb.TYPE_CODE_UNION)
REFERENCE_CODES = (gdb.TYPE_CODE_REF, gdb.TYPE_CODE_RVALUE_REF)


def type_of(symbol: gdb.Symbol) -> gdb.Type:
    """The type of a function, a parameter or a variable."""
    kind = symbol.type
    assert kind is not None
    return kind


def plain(kind: gdb.Type) -> gdb.Type:
    """The type that the names stand for, without `const` and `volatile`."""
    return kind.strip_typedefs().unqualified()


def is_signed(kind: gdb.Type) -> bool:
    """Whether the type of whole numbers has negative ones. gdb doesn't reckon with those of 128 bits."""
    if kind.sizeof > POINTER_SIZE:
        return "unsigned" not in str(kind)
    return int(gdb.Value(-1).cast(kind)) < 0


def is_char(kind: gdb.Type) -> bool:
    """Whether it is the type of the characters of strings."""
    return plain(kind).name == "char"


def is_size(kind: gdb.Type) -> bool:
    """Whether the type is one of sizes, by the name that it was given."""
    kind = kind.unqualified()
    while kind.code == gdb.TYPE_CODE_TYPEDEF:
        if kind.name in SIZE_NAMES:
            return True
        kind = kind.target().unqualified()
    return False


def type_name(kind: gdb.Type) -> str:
    """The name that tells kinds of things apart."""
    return short_name(str(plain(kind)))


def short_name(text: str) -> str:
    """The name of a type or of a function without the arguments that templates of the standard library have by default."""
    text = text.replace(LONG_STRING, "std::string")
    shorter = DEFAULT_ARGUMENT.sub(">", text)
    return text if shorter == text else short_name(shorter)


def kind_of(kind: gdb.Type) -> str:
    """What values of the type are comparable with: those of the same kind."""
    inner = plain(kind)
    if inner.code == gdb.TYPE_CODE_PTR:
        return "pointer to " + type_name(inner.target())
    if inner.code in (gdb.TYPE_CODE_ENUM, gdb.TYPE_CODE_BOOL):
        return type_name(inner)
    if inner.code == gdb.TYPE_CODE_FLT:
        return "floating-point number"
    if is_char(inner):
        return "character"
    return "size" if is_size(kind) else "number"


def is_standard_string(inner: gdb.Type) -> bool:
    """Whether the class is that of strings."""
    return (inner.name or "").startswith("std::__cxx11::basic_string<char,")


def is_standard(inner: gdb.Type) -> bool:
    """Whether the class is one of the standard library's, or a structure that the C library keeps to itself, as that of FILE is."""
    name = inner.name or inner.tag or ""
    return name.startswith(("std::", "__gnu_cxx::")) or (name.startswith("_") and lies_in_library(name))


@lru_cache(maxsize=1000)
def lies_in_library(name: str) -> bool:
    """Whether the structure of this name is declared in a library's header."""
    symbol = gdb.lookup_symbol(name, domain=gdb.SYMBOL_STRUCT_DOMAIN)[0]
    return symbol is not None and symbol.symtab is not None and symbol.symtab.filename.startswith(LIBRARIES)


# ---------------------------------------------------------------- single values

def integer_converter(kind: gdb.Type) -> Convert:
    """How a whole number is read."""
    signed = is_signed(kind)
    code = {1: "b", 2: "h", 4: "i", 8: "q"}.get(kind.sizeof)
    if code is None:
        return lambda data, offset: integer(int.from_bytes(data[offset:offset + kind.sizeof], "little", signed=signed))
    unpack = struct.Struct("<" + (code if signed else code.upper())).unpack_from
    if signed or kind.sizeof < POINTER_SIZE:
        return lambda data, offset: str(unpack(data, offset)[0])
    return lambda data, offset: integer(unpack(data, offset)[0])


def float_converter(kind: gdb.Type) -> Convert:
    """How a floating-point number is read. Its text is for readers of the trace alone."""
    code = {2: "<e", 4: "<f", 8: "<d"}.get(kind.sizeof)
    if code is None:
        return convert_long_double
    unpack = struct.Struct(code).unpack_from
    return lambda data, offset: repr(unpack(data, offset)[0])


def converter(kind: gdb.Type) -> Optional[Tuple[str, Convert]]:
    """The representation of a single value of the type and how it is read, or None where it has none."""
    inner = plain(kind)
    if inner.code == gdb.TYPE_CODE_BOOL:
        return BOOLEAN, convert_boolean
    if inner.code in INTEGER_CODES:
        return INT, integer_converter(inner)
    if inner.code == gdb.TYPE_CODE_FLT:
        return DOUBLE, float_converter(inner)
    if inner.code == gdb.TYPE_CODE_PTR or inner.code in REFERENCE_CODES:
        return HASHCODE, convert_pointer
    return None


# ---------------------------------------------------------------- fields

@dataclass
class Member:
    """A parameter, a field or a global variable: its name, its type and its place among its siblings, in bytes."""

    name: str
    kind: gdb.Type
    place: int
    bits: Optional[Tuple[int, int]] = None


def fields_of(inner: gdb.Type) -> List[Member]:
    """The fields of a structure or a class, those of its bases among them. Static ones, and what a compiler adds, are left out."""
    members = []
    for field in plain(inner).fields():
        place = place_of(field)
        if place is None or field.artificial or (field.name or "").startswith("_vptr"):
            continue
        bits = (place % 8, field.bitsize) if field.bitsize else None
        members.append(Member("" if field.is_base_class else field.name or "", field.type, place // 8, bits))
    return members


def place_of(field: gdb.Field) -> Optional[int]:
    """Where in its record the field lies, in bits, or None where only a run knows."""
    try:
        return int(field.bitpos)
    except (AttributeError, TypeError, ValueError, gdb.error):
        return None
