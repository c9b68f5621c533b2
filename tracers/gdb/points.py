"""The program points of functions: their names, their variables, and what reads these."""

from __future__ import annotations

import os
from dataclasses import dataclass, field, replace
from typing import Dict, Iterable, List, Optional, Set, Tuple

import gdb

from calls import Parameters, Result
from dtrace import Point, Variable, fitting
from functions import Function
from kinds import LIBRARIES, Member, plain, short_name, type_of
from readers import Fixed, Reader, Values
from variables import Found, Shapes

OBJECT_EDGE = 1
GLOBALS_EDGE = 2


# ---------------------------------------------------------------- names

def file_labels(paths: Iterable[str]) -> Dict[str, str]:
    """How the files are called: by their last names, and those that share it by their paths below the folder of all."""
    paths = sorted(set(paths))
    names = [os.path.basename(path) for path in paths]
    top = os.path.commonpath([os.path.dirname(path) for path in paths]) if paths else ""
    return {path: name if names.count(name) == 1 else os.path.relpath(path, top) for path, name in zip(paths, names)}


def split_parameters(name: str) -> Tuple[str, str]:
    """The function's name in C++, and the list of its parameters' types with what stands after it."""
    end = name.rfind(")")
    depth = 0
    for place in range(end, -1, -1):
        depth += (name[place] == ")") - (name[place] == "(")
        if depth == 0 and end >= 0:
            return name[:place], name[place:]
    return name, ""


def class_of(function: Function, name: str) -> Optional[str]:
    """The class that the function of this name is a method of."""
    parts = split_scope(name)
    if parts is None:
        return None
    for symbol in function.symbols():
        if symbol.is_argument and symbol.name == "this":
            return parts[0]
    try:
        return parts[0] if plain(gdb.lookup_type(parts[0])).code in (gdb.TYPE_CODE_STRUCT, gdb.TYPE_CODE_UNION) else None
    except gdb.error:
        return None


def split_scope(name: str) -> Optional[Tuple[str, str]]:
    """What stands before the last `::` outside of brackets, and what after it."""
    before, operator, rest = name.rpartition("::operator")
    if operator:
        return before, "operator" + rest
    depth = 0
    for place in range(len(name) - 1, 0, -1):
        depth += (name[place] in ">)}") - (name[place] in "<({")
        if depth == 0 and name[place - 1:place + 1] == "::":
            return name[:place - 1], name[place + 1:]
    return None


def c_parameters(function: Function) -> str:
    """The list of the parameters' types of a function in C."""
    kind = type_of(function.symbol)
    texts = [str(each.type) for each in kind.fields()]
    if str(kind).endswith("...)"):
        texts.append("...")
    return "(" + ", ".join(texts) + ")"


@dataclass
class Name:
    """A function's name: as it is called, with its class, and what its parameters are."""

    short: str
    parameters: str
    owner: Optional[str] = None

    @property
    def full(self) -> str:
        """The name of its points."""
        return self.short + self.parameters

    @property
    def is_constructor(self) -> bool:
        """Whether it makes an object."""
        return self.owner is not None and self.method == bare_class(self.owner)

    @property
    def is_destructor(self) -> bool:
        """Whether it ends an object."""
        return self.owner is not None and self.method.startswith("~")

    @property
    def method(self) -> str:
        """The method's name without its class."""
        return self.short[len(self.owner or "") + 1:]


def bare_class(owner: str) -> str:
    """The class's name without namespaces and arguments of templates."""
    scope = split_scope(owner)
    return (scope[1] if scope else owner).split("<")[0]


def name_of(function: Function, label: str) -> Name:
    """The name of a function in the file that is called by the label."""
    text = short_name(function.symbol.name.replace("[abi:cxx11]", ""))
    name, parameters = split_parameters(text)
    if not parameters:
        return Name(label + "." + text, c_parameters(function))
    if any(symbol.is_argument and symbol.name == "__closure" for symbol in function.symbols()):
        return Name("%s.<lambda>@%d" % (label, gdb.find_pc_line(function.block.start).line), parameters)
    owner = class_of(function, name)
    if owner is None:
        return Name(label + "." + name, parameters)
    return Name(owner + "." + name[len(owner) + 2:], parameters, owner)


# ---------------------------------------------------------------- points

@dataclass
class Family:
    """The points of a class or of a file, which others have as their parent."""

    point: Point
    edge: int
    found: Found


@dataclass
class Method:
    """A function with its points, which it has when it was reached. Copies of it in the program share them."""

    name: Name
    enter: Optional[Point] = None
    exits: Dict[int, Point] = field(default_factory=dict)

    def declare(self, enter: Point, leave: Point, lines: Iterable[int]) -> Point:
        """Makes the points that there aren't yet, of two without names, for returns on these lines. Answers that of the entry."""
        full = self.name.full
        if self.enter is None:
            self.enter = Point(full + ":::ENTER", "enter", enter.parents, enter.variables)
        for line in lines:
            self.exits.setdefault(line, Point("%s:::EXIT%d" % (full, line), "subexit", leave.parents, leave.variables))
        return self.enter

    def points(self) -> List[Point]:
        """The points in the order of declarations."""
        return [self.enter, *(self.exits[line] for line in sorted(self.exits))] if self.enter is not None else []


def level(variable: Variable) -> int:
    """How deep the variable lies; global ones lie deeper than others."""
    name = variable.name.replace("[..]", "")
    return name.count("->") + name.count(".") + name.count("*") + name.startswith("::")


def places_kept(variables: List[Variable]) -> List[int]:
    """The places of the variables that a point is to have: where there are too many, those that lie deepest are left out."""
    places = sorted(range(len(variables)), key=lambda place: level(variables[place]))
    return sorted(places[:fitting([variables[place] for place in places])])


def keep(variables: List[Variable]) -> List[Variable]:
    """The variables that a point is to have."""
    return [variables[place] for place in places_kept(variables)]


class Look:
    """What is read at an entry or at exits: the values of the variables, each by a reader from a place in a piece of bytes."""

    def __init__(self, parts: List[Tuple[int, int, Reader]], kept: List[int]) -> None:
        self.parts = parts
        self.kept = kept

    def values(self, pieces: List[Optional[bytes]]) -> Values:
        """The values of the variables."""
        values: Values = []
        for piece, place, reader in self.parts:
            reader.read(pieces[piece], place, values)
        return values if len(self.kept) == len(values) else [values[place] for place in self.kept]


class Making:
    """Makes the points of functions as these are reached."""

    def __init__(self, shapes: Shapes, globals_of: Dict[str, List[gdb.Symbol]], labels: Dict[str, str]) -> None:
        self.shapes = shapes
        self.globals_of = globals_of
        self.labels = labels
        self.families: Dict[str, Family] = {}
        self.cut: Set[str] = set()

    def look(self, function: Function, name: Name, parameters: Parameters, result: Optional[Result]) -> Tuple[Look, Point]:
        """What is read at the function's entry, or with a result at its exits, and a point without a name that it is read for. The result's
        bytes are the piece after those of the parameters. Of an object that isn't made yet, or is no more, the address alone is read."""
        depth = self.shapes.options.depth
        is_bare = name.is_destructor if result else name.is_constructor
        owner = None if is_bare else self.object_family(name, parameters)
        shared = self.globals_family(function)
        variables: List[Variable] = []
        parts: List[Tuple[int, int, Reader]] = []

        def add(piece: int, place: int, found: Optional[Found], family: Optional[Family] = None) -> None:
            if found is not None:
                variables.extend(inherited(found.variables, family))
                parts.append((piece, place, found.reader))

        for piece, member in parameters.members:
            siblings = [each for number, each in parameters.members if number == piece]
            is_this = member.name == "this"
            found = self.shapes.member(member, siblings, 0 if is_this and is_bare else depth, str, "variable", "")
            add(piece, member.place, found, owner if is_this else None)
        if result is not None and result.kind is not None:
            add(parameters.pieces, 0, self.shapes.value("return", result.kind, depth, "return"))
        if shared is not None:
            add(0, 0, shared.found, shared)
        kept = places_kept(variables)
        if len(kept) < len(variables):
            self.cut.add(name.full)
        parents = [(family.point.name, family.edge) for family in (owner, shared) if family is not None]
        return Look(parts, kept), Point("", "", parents, [variables[place] for place in kept])

    def object_family(self, name: Name, parameters: Parameters) -> Optional[Family]:
        """The point of the objects of the method's class."""
        own = [member for _, member in parameters.members if member.name == "this"]
        if name.owner is None or not own:
            return None
        if name.owner not in self.families:
            found = self.shapes.members([Member("this", own[0].kind, 0)], self.shapes.options.depth, str, "variable")
            if found is None:
                return None
            point = Point(name.owner + ":::OBJECT", "object", [], keep(found.variables))
            self.families[name.owner] = Family(point, OBJECT_EDGE, found)
        return self.families[name.owner]

    def globals_family(self, function: Function) -> Optional[Family]:
        """The point of the global variables of the function's file."""
        symbols = self.globals_of.get(function.file, [])
        if not symbols:
            return None
        label = self.labels[function.file]
        if label not in self.families:
            found = joined([self.global_variable(symbol) for symbol in symbols])
            if found is None:
                return None
            point = Point(label + ":::GLOBALS", "class", [], keep(found.variables))
            self.families[label] = Family(point, GLOBALS_EDGE, found)
        return self.families[label]

    def global_variable(self, symbol: gdb.Symbol) -> Optional[Found]:
        """The variables of a global variable."""
        address = symbol.value().address
        found = self.shapes.value("::" + symbol.name, type_of(symbol), self.shapes.options.depth, "variable")
        return found and Found(Fixed(self.shapes.process, int(address), found.reader), found.variables)


def joined(parts: List[Optional[Found]]) -> Optional[Found]:
    """The variables of several parts."""
    found = [part for part in parts if part is not None]
    if not found:
        return None
    variables = [variable for part in found for variable in part.variables]
    return Found(Pieces([part.reader for part in found]), variables)


class Pieces(Reader):
    """Several readers of the same bytes."""

    def __init__(self, readers: List[Reader]) -> None:
        self.readers = readers
        self.count = sum(reader.count for reader in readers)
        self.extent = max(reader.extent for reader in readers)

    def read(self, data: Optional[bytes], offset: int, values: Values) -> None:
        """The values of the part whose piece has these bytes."""
        for reader in self.readers:
            reader.read(data, offset, values)


def inherited(variables: List[Variable], family: Optional[Family]) -> List[Variable]:
    """The variables with their counterparts at the parent."""
    if family is None:
        return variables
    names = {variable.name: variable.rep_type for variable in family.point.variables}
    copies = []
    for each in variables:
        parents = [(family.point.name, family.edge, each.name)] if names.get(each.name) == each.rep_type else []
        copies.append(replace(each, parents=parents))
    return copies


def is_own(function: Function) -> bool:
    """Whether the function lies in the program's own sources."""
    return not function.file.startswith(LIBRARIES)
