"""What is seen of the traced program's values, by reading alone: none of its code runs.

A value is *encoded* as tokens and data. A token is the number of a description, which tells the value's kind and class; data are plain
values, which the description tells how to read:

    ("unset",)                          a local variable, a field or a global that isn't set     no data
    ("none",)                                                                                    no data
    ("boolean", CLASS), ("int", CLASS), ("double", CLASS), ("string", CLASS)                     the value
    ("sequence", CLASS, ELEMENTS, IS_CUT, HAS_FIELDS)        its identity, its length, its first elements
    ("container", CLASS, HAS_FIELDS)                         its identity, its length
    ("object", CLASS, HAS_FIELDS)                            its identity
    ("fields", NAMES)                   after one that has fields; the encoded fields follow    no data

CLASS is the class's place in `classes`, which has the names. ELEMENTS are the descriptions of the kinds of elements that the sequence has.

Classes are told apart by `id`, since a metaclass may define `__hash__`, and all is read by descriptors of built-in types, never by `.`.
"""

from __future__ import annotations

import sys
from _collections import deque  # type: ignore[import]
from binascii import crc32
from types import BuiltinFunctionType, FunctionType, GetSetDescriptorType, MemberDescriptorType, ModuleType, SimpleNamespace

# `typing` isn't loaded into the program
TYPE_CHECKING = False
if TYPE_CHECKING:
    from typing import Any, Callable, Dict, Iterable, List, Optional, Tuple

    # takes a value, how deep its fields are read, and where its tokens and its data go
    Encoder = Callable[[Any, int, List[int], List[Any]], None]
    Converter = Callable[[Any], Any]
    # the tokens without and with fields, whether the elements are told, and how they are converted
    Variant = Tuple[int, int, bool, Optional[Dict[int, Optional[Converter]]]]
    # the token of the fields, how many values are read, and the places of those that are told, where not all are
    Layout = Tuple[int, int, Optional[List[int]]]

class_dict = vars(type)["__dict__"].__get__
class_bases = vars(type)["__mro__"].__get__
class_module = vars(type)["__module__"].__get__
class_qualname = vars(type)["__qualname__"].__get__
class_flags = vars(type)["__flags__"].__get__
module_dict = vars(ModuleType)["__dict__"].__get__
slot_value = MemberDescriptorType.__get__

HEAP_TYPE = 1 << 9
INTEGER_CODES = frozenset("bBhHiIlLqQ")
LENGTHS = [(base, base.__len__) for base in (dict, set, frozenset, deque)]

# A longer string is cut, and what was left out is told by its length and a checksum, so that different strings stay different.
LONGEST_STRING = 300
KEPT_OF_STRING = 200
MOST_FIELDS = 32
MOST_LAYOUTS = 1000
NO_VARIABLES = (FunctionType, BuiltinFunctionType, ModuleType)


class Unset:
    """Stands for what isn't set."""


UNSET = Unset()


class Globals:
    """Stands for the global variables of a module, as fields: those that are neither functions nor classes nor modules."""

    def __init__(self, variables: dict) -> None:
        self.variables = variables
        self.count = -1
        self.names: list = []

    def values(self) -> list:
        """The values of the variables. Their names are those of the time when the module had as many as now."""
        if len(self.variables) != self.count:
            found = tuple(self.variables.items())
            self.count = len(found)
            self.names = [name for name, value in found if type(name) is str and is_field(name) and is_variable(value)][:MOST_FIELDS]
        return [self.variables.get(name, UNSET) for name in self.names]


def is_variable(value: object) -> bool:
    """Whether a global's value isn't a function, a class or a module."""
    kind = type(value)
    return not any(kind is each for each in NO_VARIABLES) and not is_subclass(kind, type)


def member(module: str, name: str) -> Any:
    """A member of a module that is loaded, or None."""
    found = sys.modules.get(module)
    return module_dict(found).get(name) if type(found) is ModuleType else None


def is_subclass(kind: type, base: object) -> bool:
    """Whether the base is among the class's bases."""
    return any(each is base for each in class_bases(kind))


def plain_text(name: object) -> str:
    """A name that is a str, without what a subclass does."""
    return str.__str__(name) if is_subclass(type(name), str) else "?"


def cut_text(text: str) -> str:
    """The string, cut where it is long."""
    if len(text) <= LONGEST_STRING:
        return text
    return "%s... (%d characters, %08x)" % (text[:KEPT_OF_STRING], len(text), crc32(text.encode("utf-8", "surrogatepass")))


def attribute(bases: tuple, name: str) -> Any:
    """What the first of the classes that has the name has there, or None."""
    for base in bases:
        if name in class_dict(base):
            return class_dict(base)[name]
    return None


def dict_reader(bases: tuple) -> Callable[[Any], Any] | None:
    """What reads the `__dict__` of a class's instances, or None. A property of this name is passed over."""
    for base in bases:
        found = class_dict(base).get("__dict__")
        if type(found) is GetSetDescriptorType or type(found) is MemberDescriptorType:
            return found.__get__
    return None


class Looker:
    """Encodes values. `owns(module, qualname)` tells of which classes fields are read, `module_name(name)` how modules are named."""

    def __init__(self, elements: int, owns: Callable[[str, str], bool], module_name: Callable[[str], str]) -> None:
        self.elements = elements
        self.owns = owns
        self.module_name = module_name
        self.descriptions: list = []
        self.tokens: dict = {}
        self.classes: list = []
        self.class_numbers: dict = {}
        # what encodes the values of a class, by the class's id, and the classes, so that they keep their ids
        self.encoders: dict = {}
        self.kept: list = []
        self.none = self.token(("none",))
        self.add(Globals, self.encode_globals)
        self.add(Unset, self.nothing(self.token(("unset",))))
        self.add(type(None), self.nothing(self.none))
        self.int = self.scalar(int, "int", None)
        self.scalar(bool, "boolean", None)
        self.scalar(float, "double", None)
        self.scalar(str, "string", cut_text)
        # the scalars whose values are their own data
        self.plain = frozenset(map(id, (int, bool, float)))
        self.conversions: dict[int, Converter | None] = {id(int): None, id(bool): None, id(type(None)): None, id(str): cut_text}
        self.element_kinds = {id(kind): self.descriptions[self.token_of(kind)] for kind in (int, bool, type(None), str)}

    # ------------------------------------------------------------ tables

    def token(self, description: tuple) -> int:
        """The description's number."""
        number = self.tokens.get(description)
        if number is None:
            number = self.tokens[description] = len(self.descriptions)
            self.descriptions.append(description)
        return number

    def class_number(self, kind: type) -> int:
        """The class's place in `classes`."""
        number = self.class_numbers.get(id(kind))
        if number is None:
            number = self.class_numbers[id(kind)] = len(self.classes)
            module = self.module_name(plain_text(class_module(kind)))
            name = plain_text(class_qualname(kind))
            self.classes.append(name if module == "builtins" else module + "." + name)
            self.kept.append(kind)
        return number

    def token_of(self, kind: type) -> int:
        """The token of None and of plain scalars."""
        names = {int: "int", bool: "boolean", str: "string"}
        return self.token((names[kind], self.class_number(kind))) if kind in names else self.none

    def add(self, kind: type, encoder: Encoder) -> Encoder:
        """From now on the encoder encodes the values of the class."""
        self.kept.append(kind)
        self.encoders[id(kind)] = encoder
        return encoder

    # ------------------------------------------------------------ encoders

    def encode(self, values: Iterable[Any], depth: int, tokens: list, data: list) -> None:
        """Encodes the values one after another, with fields down to the depth."""
        encoders = self.encoders
        for value in values:
            kind = type(value)
            if kind is int:
                tokens.append(self.int)
                data.append(value)
            elif value is None:
                tokens.append(self.none)
            else:
                encoder = encoders.get(id(kind))
                if encoder is None:
                    encoder = self.add(kind, self.encoder_of(kind))
                encoder(value, depth, tokens, data)

    def encoder_of(self, kind: type) -> Encoder:
        """What encodes the values of a class that is met for the first time."""
        bases = class_bases(kind)
        if is_subclass(type(kind), member("enum", "EnumMeta")):
            return self.enumeration(kind, bases)
        for base, encoder in ((int, self.number), (float, self.fraction), (str, self.text)):
            if is_subclass(kind, base):
                return encoder(kind)
        if is_subclass(kind, tuple) and is_named_tuple(bases):
            return self.named_tuple(kind, bases)
        fields = self.fields_of(kind, bases)
        if kind is memoryview:
            return self.sequence(kind, view_length, view_elements, fields)
        for known in (list, tuple, range, bytes, bytearray, member("array", "array")):
            if is_subclass(kind, known):
                return self.sequence(kind, known.__len__, known.__getitem__, fields)
        for base, length in LENGTHS:
            if is_subclass(kind, base):
                return self.container(kind, length, fields)
        return self.object(kind, fields)

    def encode_globals(self, value: Globals, depth: int, tokens: list[int], data: list[Any]) -> None:
        """Global variables, as fields of nothing."""
        values = value.values()
        tokens.append(self.token(("fields", tuple(value.names))))
        self.encode(values, depth, tokens, data)

    @staticmethod
    def nothing(token: int) -> Encoder:
        """Values that the token tells alone."""

        def encode(value: Any, depth: int, tokens: list[int], data: list[Any]) -> None:
            tokens.append(token)

        return encode

    def scalar(self, kind: type, name: str, convert: Converter | None, told_as: type | None = None) -> int:
        """Values that are data, as they are or converted, told as those of another class where one is named. Answers their token."""
        token = self.token((name, self.class_number(told_as or kind)))

        def encode(value: Any, depth: int, tokens: list[int], data: list[Any]) -> None:
            tokens.append(token)
            data.append(convert(value) if convert else value)

        self.add(kind, encode)
        return token

    def number(self, kind: type) -> Encoder:
        """Numbers of a class of whole numbers."""
        self.scalar(kind, "int", int.__pos__)
        self.element_kinds[id(kind)] = ("int", self.class_number(kind))
        self.conversions[id(kind)] = int.__pos__
        return self.encoders[id(kind)]

    def fraction(self, kind: type) -> Encoder:
        """Numbers of a class of floating point."""
        self.scalar(kind, "double", float.__float__)
        return self.encoders[id(kind)]

    def text(self, kind: type) -> Encoder:
        """Strings of a class of strings. All strings are compared with each other."""

        def convert(value: str) -> str:
            return cut_text(str.__str__(value))

        self.scalar(kind, "string", convert, str)
        self.element_kinds[id(kind)] = ("string", self.class_number(str))
        self.conversions[id(kind)] = convert
        return self.encoders[id(kind)]

    def enumeration(self, kind: type, bases: tuple) -> Encoder:
        """Members of an enumeration: the number of an integer or of flags, the string of strings, and else the member's name."""
        if is_subclass(kind, int):
            return self.number(kind)
        if is_subclass(kind, str):
            return self.text(kind)
        read = dict_reader(bases)
        is_flag = is_subclass(kind, member("enum", "Flag"))
        key, name, expected = ("_value_", "int", int) if is_flag else ("_name_", "string", str)
        token = self.token((name, self.class_number(kind)))
        bare = self.token(("object", self.class_number(kind), False))

        def encode(value: Any, depth: int, tokens: list[int], data: list[Any]) -> None:
            found = dict.get(read(value), key) if read else None
            if type(found) is expected:
                tokens.append(token)
                data.append(found)
            else:
                tokens.append(bare)
                data.append(id(value))

        return encode

    def sequence(self, kind: type, length_of: Callable[[Any], int], items_of: Callable[[Any, slice], Any],
                 fields: Encoder | None) -> Encoder:
        """Sequences of whole numbers, truth values or strings; containers where elements are others."""
        number = self.class_number(kind)
        unreadable = self.token(("object", number, False))
        elements = slice(0, self.elements)
        most = self.elements
        # for each set of the elements' classes: the tokens with and without fields, and how the elements are converted
        variants: dict = {}

        def variant_of(key: tuple[frozenset[int], bool], items: list[Any]) -> Variant:
            kinds, is_cut = key
            for item in items:
                if id(type(item)) not in self.encoders:
                    self.add(type(item), self.encoder_of(type(item)))
            known = kinds <= self.element_kinds.keys()
            if known:
                descriptions = tuple(sorted(self.element_kinds[each] for each in kinds))
                bare, full = (self.token(("sequence", number, descriptions, is_cut, has_fields)) for has_fields in (False, True))
            else:
                bare, full = (self.token(("container", number, has_fields)) for has_fields in (False, True))
            conversions = {each: self.conversions[each] for each in kinds} if known else {}
            variants[key] = variant = (bare, full, known, conversions if any(conversions.values()) else None)
            return variant

        def encode(value: Any, depth: int, tokens: list[int], data: list[Any]) -> None:
            data.append(id(value))
            try:
                length = length_of(value)
                items = list(items_of(value, elements))
            except (TypeError, ValueError, NotImplementedError):
                tokens.append(unreadable)
                return
            key = (frozenset(map(id, map(type, items))), length > most)
            bare, full, is_sequence, conversions = variants.get(key) or variant_of(key, items)
            data.append(length)
            if is_sequence:
                data.append(convert_each(items, conversions) if conversions else items)
            if depth and fields:
                tokens.append(full)
                fields(value, depth - 1, tokens, data)
            else:
                tokens.append(bare)

        return encode

    def container(self, kind: type, length_of: Callable[[Any], int], fields: Encoder | None) -> Encoder:
        """Other containers, which are told by identity and length."""
        bare, full = (self.token(("container", self.class_number(kind), has_fields)) for has_fields in (False, True))

        def encode(value: Any, depth: int, tokens: list[int], data: list[Any]) -> None:
            data.append(id(value))
            data.append(length_of(value))
            if depth and fields:
                tokens.append(full)
                fields(value, depth - 1, tokens, data)
            else:
                tokens.append(bare)

        return encode

    def object(self, kind: type, fields: Encoder | None) -> Encoder:
        """Other objects, which are told by identity and fields."""
        bare, full = (self.token(("object", self.class_number(kind), has_fields)) for has_fields in (False, True))

        def encode(value: Any, depth: int, tokens: list[int], data: list[Any]) -> None:
            data.append(id(value))
            if depth and fields:
                tokens.append(full)
                fields(value, depth - 1, tokens, data)
            else:
                tokens.append(bare)

        return encode

    def named_tuple(self, kind: type, bases: tuple) -> Encoder:
        """Named tuples, whose fields are their elements."""
        bare, full = (self.token(("object", self.class_number(kind), has_fields)) for has_fields in (False, True))
        names = attribute(bases, "_fields")[:MOST_FIELDS]
        fields = self.token(("fields", names))
        count = len(names)

        def encode(value: Any, depth: int, tokens: list[int], data: list[Any]) -> None:
            data.append(id(value))
            items = tuple.__getitem__(value, slice(0, count))
            if depth and len(items) == count:
                tokens.append(full)
                tokens.append(fields)
                self.encode(items, depth - 1, tokens, data)
            else:
                tokens.append(bare)

        return encode

    # ------------------------------------------------------------ fields

    def fields_of(self, kind: type, bases: tuple) -> Encoder | None:
        """What encodes the fields of a class's instances, or None where they aren't read."""
        if not class_flags(kind) & HEAP_TYPE and kind is not SimpleNamespace:
            return None
        if not self.owns(plain_text(class_module(kind)), plain_text(class_qualname(kind))):
            return None
        read = dict_reader(bases)
        slots = [slot for base in bases if class_flags(base) & HEAP_TYPE for slot in slots_of(base)]
        if read is None and not slots:
            return None
        return self.fields_by(read, slots)

    def fields_by(self, read: Callable[[Any], Any] | None, slots: list) -> Encoder:
        """What encodes the fields in these slots and those in the dictionary that is read."""
        layouts: dict = {}
        slot_names = [name for name, _ in slots]
        known: set = set()

        def is_known(name: str) -> bool:
            if is_field(name) and len(known) < MOST_FIELDS:
                known.add(name)
            return name in known

        def layout_of(joined: str, values: tuple[Any, ...]) -> Layout:
            names = slot_names + (joined.split("\0") if joined or len(values) > len(slots) else [])
            if len(names) != len(values):
                return self.token(("fields", ())), len(values), []
            picked = [place for place, name in enumerate(names) if names.index(name) == place and is_known(name)]
            token = self.token(("fields", tuple(names[place] for place in picked)))
            layout = (token, len(values), None if len(picked) == len(values) else picked)
            if len(layouts) < MOST_LAYOUTS:
                layouts[joined] = layout
            return layout

        def encode(value: Any, depth: int, tokens: list[int], data: list[Any]) -> None:
            joined = ""
            values = tuple([read_slot(slot, value) for _, slot in slots]) if slots else ()
            dictionary = read(value) if read else None
            if type(dictionary) is dict:
                try:
                    joined = "\0".join(dictionary)
                    values += tuple(dictionary.values())
                except (TypeError, RuntimeError):
                    joined = ""
            token, count, picked = layouts.get(joined) or layout_of(joined, values)
            if count != len(values):
                token, _, picked = layout_of("\0", values)
            tokens.append(token)
            self.encode([values[place] for place in picked] if picked is not None else values, depth, tokens, data)

        return encode


def is_named_tuple(bases: tuple) -> bool:
    """Whether a class of tuples is one of named tuples."""
    names = attribute(bases, "_fields")
    return type(names) is tuple and all(type(name) is str for name in names)


def is_field(name: str) -> bool:
    """Whether a name in an object's dictionary is told as its field."""
    return not (name.startswith("__") and name.endswith("__"))


def slots_of(kind: type) -> list:
    """The class's own slots, with their names."""
    return [(name, slot) for name, slot in class_dict(kind).items()
            if type(slot) is MemberDescriptorType and type(name) is str and is_field(name)]


def read_slot(slot: MemberDescriptorType, value: object) -> object:
    """What the slot holds."""
    try:
        return slot_value(slot, value)
    except AttributeError:
        return UNSET


def convert_each(items: list, conversions: dict) -> list:
    """The elements, each converted as its class asks."""
    return [convert(item) if (convert := conversions[id(type(item))]) else item for item in items]


def view_length(view: memoryview) -> int:
    """A view's length, where it is one of whole numbers in one row."""
    if view.ndim != 1 or view.format[-1] not in INTEGER_CODES:
        raise ValueError
    return len(view)


def view_elements(view: memoryview, elements: slice) -> list:
    """A view's first elements."""
    return view[elements].tolist()
