"""Table of points, edges, partners, derived variables, matching entries, history.

The table holds each point with its declaration (an implicit exit has none), its variables, its
entry and its edges. The history adds the comparability word, the grammar and the samples.
"""

from __future__ import annotations

import re
from dataclasses import dataclass, field
from typing import TYPE_CHECKING, Any, Callable, Sequence, Tuple

from input_language import (ELEMENT, MISSING, Block, Comparability, Declaration, Fault, Record, Value, Variable, first_word_and_rest,
                            read_declare_block, read_headers, read_ppt_block, read_record)

if TYPE_CHECKING:
    from samples import Compact

# the values of a point's variables
Sample = Tuple[Value, ...]
# a word and the positions of bases
Form = Tuple[Any, ...]

POINTS_LIMIT = 65_535
DECLARED_LIMIT = 1_024
VARIABLES_LIMIT = 16_384


@dataclass(frozen=True)
class VarInfo:
    """A variable of a point. The form is its word, for a derived one with the positions of its
    bases. `plain` is the name without `orig( )` around it; `orig` tells whether it stands for the
    value at the entry."""
    name: bytes
    kind: str
    form: Form
    comparability: Comparability
    plain: bytes
    orig: bool

    def is_base(self) -> bool:
        """Whether the variable isn't derived."""
        return self.form[0] in ("declared", "orig")


@dataclass
class Edge:
    """An edge of a point to a parent of that name. `source` is the declaration whose parent lines
    name the partners, or None for a made edge, and `position` the edge's place there."""
    parent: bytes
    source: Declaration | None = None
    position: int = 0

    def named(self) -> tuple[bytes, int] | None:
        """The PPT and ID of the parent line, where the edge has one."""
        return self.source.edges[self.position] if self.source is not None else None


@dataclass(eq=False)
class Point:
    """A point of the table."""
    index: int
    name: bytes
    declaration: Declaration | None
    variables: list[VarInfo]
    entry: Point | None
    edges: list[Edge]

    def base(self) -> list[VarInfo]:
        """The point's variables that aren't derived."""
        return [variable for variable in self.variables if variable.is_base()]


def method_and_tag(name: bytes) -> tuple[bytes, bytes] | tuple[None, None]:
    """The method is what stands before the last `:::`, the tag what follows."""
    method, colons, tag = name.rpartition(b":::")
    return (method, tag) if colons else (None, None)


def beside(name: bytes, tag: bytes) -> bytes:
    """The name of the point of the same method with this tag."""
    return name.rpartition(b":::")[0] + b":::" + tag


def is_entry(name: bytes) -> bool:
    """Whether it is the name of an entry."""
    return method_and_tag(name)[1] == b"ENTER"


def is_combined_exit(name: bytes) -> bool:
    """Whether it is the name of an exit that all numbered ones have in common."""
    return method_and_tag(name)[1] == b"EXIT"


def is_subexit(name: bytes) -> bool:
    """Whether it is the name of a numbered exit."""
    tag = method_and_tag(name)[1]
    return tag is not None and re.fullmatch(rb"EXIT[0-9]+", tag) is not None


class Table:
    """`second_form` tells whether declarations of format 1.0 are read at all."""

    def __init__(self, second_form: bool = True) -> None:
        self.second_form = second_form
        self.points: list[Point] = []
        self.by_name: dict[bytes, Point] = {}

    def find(self, name: bytes) -> Point | None:
        """The point of this name, if there is one."""
        return self.by_name.get(name)

    def declare(self, declaration: Declaration, line: int) -> bool:
        """Adds the declared point, before it an implicit exit where one is made. Gives False
        where the same block was there before."""
        known = self.find(declaration.name)
        if known is not None:
            if known.declaration == declaration:
                return False
            raise Fault(5, line)
        added = self.points_of(declaration)
        if len(self.points) + len(added) > POINTS_LIMIT:
            raise Fault(15, line)
        if (len(declaration.variables) > DECLARED_LIMIT
                or len(added[-1].variables) > VARIABLES_LIMIT):
            raise Fault(16, line)
        for point in added:
            self.points.append(point)
            self.by_name[point.name] = point
        # There was no cycle before, so a cycle goes through a point that was added.
        if any(self.has_cycle_through(point) for point in added):
            for point in added:
                self.points.remove(point)
                del self.by_name[point.name]
            raise Fault(6, line)
        return True

    def points_of(self, declaration: Declaration) -> list[Point]:
        """The points that a new declaration brings."""
        name = declaration.name
        entry = self.entry_of_exit(name)
        variables = variables_of(declaration, entry, self.second_form)
        declared = [Edge(parent, declaration, position)
                    for position, (parent, _) in enumerate(declaration.edges)]
        index = len(self.points)
        if not is_subexit(name):
            return [Point(index, name, declaration, variables, entry, declared)]
        combined = beside(name, b"EXIT")
        exit_point = self.find(combined)
        added = []
        if exit_point is None:
            taken_over = [edge for edge in declared if edge.parent != combined]
            exit_point = Point(index, combined, None, variables, None, taken_over)
            added.append(exit_point)
            index += 1
        kept = [edge for edge in declared
                if edge.parent != combined and not is_taken_over(exit_point, edge)]
        kept.append(Edge(combined))
        added.append(Point(index, name, declaration, variables, entry, kept))
        return added

    def entry_of_exit(self, name: bytes) -> Point | None:
        """The entry of an exit, where it was declared before."""
        if not (is_combined_exit(name) or is_subexit(name)):
            return None
        return self.find(beside(name, b"ENTER"))

    def edges_from(self, point: Point) -> list[tuple[Edge, Point]]:
        """The point's edges to points of the table, as (edge, parent)."""
        found = [(edge, self.find(edge.parent)) for edge in point.edges]
        return [(edge, parent) for edge, parent in found if parent is not None]

    def edges_into(self, point: Point) -> list[tuple[Edge, Point]]:
        """The edges into the point, as (edge, child)."""
        return [(edge, child) for child in self.points for edge in child.edges
                if edge.parent == point.name]

    def has_cycle_through(self, point: Point) -> bool:
        """Whether the edges of the table lead from the point back to it."""
        reached = set()
        ahead = [parent for _, parent in self.edges_from(point)]
        while ahead:
            here = ahead.pop()
            if here is point:
                return True
            if here not in reached:
                reached.add(here)
                ahead += [parent for _, parent in self.edges_from(here)]
        return False

    def partners(self, edge: Edge, child: Point, parent: Point) -> list[int | None]:
        """For each variable of the parent the position of its partner in the child, or None."""
        found: dict[int, int | None] = {}
        for position, variable in enumerate(parent.variables):
            found[position] = partner(edge, child, parent, variable, found)
        return [found[position] for position in range(len(parent.variables))]


def is_taken_over(exit_point: Point, edge: Edge) -> bool:
    """Whether the implicit exit has an edge with this PPT and ID."""
    if exit_point.declaration is not None:
        return False
    return any(edge.named() == other.named() for other in exit_point.edges)


def partner(edge: Edge, child: Point, parent: Point, variable: VarInfo, found: dict[int, int | None]) -> int | None:
    """`found` holds the partners of the parent's earlier variables."""
    if not variable.is_base():
        bases = tuple(found[base] for base in variable.form[1:])
        if None in bases:
            return None
        return position_of(child, lambda v: v.form == (variable.form[0],) + bases)
    if edge.source is None:
        return position_of(child, lambda v: (v.name, v.kind, v.form)
                           == (variable.name, variable.kind, variable.form))
    named = first_with_line(edge.source, edge.position, variable.plain)
    if named is None or named.kind != variable.kind:
        return None
    name = named.name
    return position_of(child, lambda v: v.is_base() and v.plain == name
                       and v.kind == variable.kind and v.orig == variable.orig)


def first_with_line(declaration: Declaration, edge: int, name: bytes) -> Variable | None:
    """The first declared variable with a counting parent line of the edge that gives the name."""
    for variable in declaration.variables:
        if (edge, name) in variable.parents:
            return variable
    return None


def position_of(point: Point, condition: Callable[[VarInfo], bool]) -> int | None:
    """The position of the first variable that meets the condition."""
    for position, variable in enumerate(point.variables):
        if condition(variable):
            return position
    return None


# ---------------------------------------------------------------- variables

def variables_of(declaration: Declaration, entry: Point | None, second_form: bool) -> list[VarInfo]:
    """Declared variables that aren't opaque, orig variables, then derived ones. Where there would
    be too many, the list is longer than allowed and has no derived ones."""
    base = [VarInfo(v.name, v.kind, ("declared",), v.comparability, v.name, False)
            for v in declaration.variables if v.kind is not None]
    for old in entry.base() if entry is not None else []:
        for now in list(base):
            if not now.orig and (now.name, now.kind) == (old.name, old.kind):
                base.append(VarInfo(b"orig(" + now.name + b")", now.kind, ("orig",),
                                    now.comparability, now.name, True))
    if number_of_variables(base) > VARIABLES_LIMIT:
        return base[:1] * (VARIABLES_LIMIT + 1)
    return base + derived_variables(base, second_form)


def number_of_variables(base: list[VarInfo]) -> int:
    """How many variables there are with the derived ones."""
    total = len(base)
    for orig in (False, True):
        sequences = sum(v.kind in ELEMENT and v.orig == orig for v in base)
        numbers = sum(v.kind == "Int" and v.orig == orig for v in base)
        total += 3 * sequences + 5 * sequences * numbers
    return total


def derived_variables(base: list[VarInfo], second_form: bool) -> list[VarInfo]:
    """The derived variables of these, in their order."""
    found = []
    for s, sequence in enumerate(base):
        if sequence.kind not in ELEMENT:
            continue
        element = ELEMENT[sequence.kind]
        elem, index = sequence.comparability
        name = short_name(sequence.plain, second_form)

        def add(form: Form, kind: str, text: bytes, comparability: Comparability) -> None:
            printed = b"orig(" + text + b")" if sequence.orig else text
            found.append(VarInfo(printed, kind, form, comparability, text, sequence.orig))

        add(("size", s), "Int", b"size(" + sequence.plain + b")", (index, -1))
        add(("first", s), element, name + b"[0]", (elem, -1))
        add(("last", s), element, name + b"[-1]", (elem, -1))
        for i, number in enumerate(base):
            if number.kind != "Int" or number.orig != sequence.orig:
                continue
            at = number.plain
            add(("at", s, i), element, name + b"[" + at + b"]", (elem, -1))
            add(("upto", s, i), sequence.kind, name + b"[0.." + at + b"]", (elem, index))
            add(("before", s, i), sequence.kind, name + b"[0.." + at + b"-1]", (elem, index))
            add(("since", s, i), sequence.kind, name + b"[" + at + b"..]", (elem, index))
            add(("after", s, i), sequence.kind, name + b"[" + at + b"+1..]", (elem, index))
    return found


def short_name(name: bytes, second_form: bool) -> bytes:
    """The name without a final `[..]` or, where it has none, without a final `[]`."""
    for ending in (b"[..]", b"[]") if second_form else (b"[..]",):
        if name.endswith(ending):
            return name[:-len(ending)]
    return name


def derived_value(form: Form, values: Sequence[Value]) -> Value:
    """The value of a derived form over the values of its bases; a missing base makes it missing."""
    bases = [values[base] for base in form[1:]]
    if any(base is MISSING for base in bases):
        return MISSING
    s = bases[0]
    n = len(s)
    i = bases[1] if len(bases) > 1 else None
    if form[0] == "size":
        return n
    if form[0] == "first":
        return s[0] if n > 0 else MISSING
    if form[0] == "last":
        return s[n - 1] if n > 0 else MISSING
    if form[0] == "at":
        return s[i] if 0 <= i < n else MISSING
    if form[0] == "upto":
        return s[:i + 1] if -1 <= i < n else MISSING
    if form[0] == "before":
        return s[:i] if 0 <= i <= n else MISSING
    if form[0] == "since":
        return s[i:] if 0 <= i <= n else MISSING
    return s[i + 1:] if -1 <= i < n else MISSING


def with_derived(variables: list[VarInfo], base_values: list[Value]) -> Sample:
    """The values of all variables."""
    values = list(base_values)
    for variable in variables[len(base_values):]:
        values.append(derived_value(variable.form, base_values))
    return tuple(values)


# ---------------------------------------------------------------- history

@dataclass
class History:
    """A table, the comparability word in force, a grammar, and for each point its own samples:
    those that a state file stands for, and the list of those that were read. A sample holds base
    and derived values. `newest` is what the last block brought, as its record's first line, its
    point and its sample, or None."""
    table: Table = field(default_factory=Table)
    implicit: bool = True
    grammar: int = 2
    loaded: dict[int, Compact] = field(default_factory=dict)
    own: dict[int, list[Sample]] = field(default_factory=dict)
    newest: tuple[int, Point, Sample] | None = None


@dataclass
class Entry:
    """An entry that waits for its exit."""
    method: bytes | None
    nonce: int | None
    values: list[Value]


def taken_by(waiting: list[Entry], method: bytes | None, nonce: int | None) -> list[int]:
    """The positions of the waiting entries that an exit takes, the latest of its method first."""
    of_method = [k for k, entry in enumerate(waiting)
                 if entry.method == method and entry.nonce == nonce]
    if not of_method:
        return []
    latest = of_method[-1]
    if nonce is not None:
        return [latest]
    return [latest] + [k for k in range(latest + 1, len(waiting)) if waiting[k].nonce is None]


def effect_of(block: Block, history: History, waiting: list[Entry], ignore_missing_entry: bool) -> bool:
    """Adds the effect of a block to the history. Gives False where it is no block. `waiting` is
    the list of the file's entries that wait before it."""
    history.newest = None
    lines = block.each_line()
    anything, first = read_headers(lines, history)
    if first is None:
        return anything
    number, line = first
    word, rest = first_word_and_rest(line)
    if word == b"ppt":
        history.table.declare(read_ppt_block(number, rest, lines, history.implicit), number)
    elif line == b"DECLARE" and history.table.second_form:
        history.table.declare(read_declare_block(number, lines, history.implicit), number)
    elif line == b"ListImplementors":
        for _ in lines:
            pass
    else:
        record = read_record(number, line, lines, history.table, block.end)
        add_record(record, history, waiting, ignore_missing_entry)
    return True


def add_record(record: Record, history: History, waiting: list[Entry], ignore_missing_entry: bool) -> None:
    """Adds what a sample record says."""
    point = record.point
    method = method_and_tag(point.name)[0]
    values = list(record.values)
    if point.entry is not None:
        taken = taken_by(waiting, method, record.nonce)
        if not taken:
            if ignore_missing_entry:
                return
            raise Fault(14, record.line)
        values += orig_values(point, point.entry, waiting[taken[0]])
        waiting[:] = [entry for k, entry in enumerate(waiting) if k not in taken]
    if is_entry(point.name):
        waiting.append(Entry(method, record.nonce, list(record.values)))
    sample = with_derived(point.variables, values)
    history.own.setdefault(point.index, []).append(sample)
    history.newest = (record.line, point, sample)


def orig_values(point: Point, entry_point: Point, entry: Entry) -> list[Value]:
    """The entry's values of the exit's orig variables."""
    names = [variable.name for variable in entry_point.base()]
    return [entry.values[names.index(variable.plain)]
            for variable in point.base() if variable.orig]
