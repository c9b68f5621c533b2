"""Makes the trace of what `tracing.py` has recorded: declarations, whose types are joined over the run, and then the records.

It runs as a process of its own when the traced program ends, with the settings as its one argument.
"""

from __future__ import annotations

import gc
import hashlib
import marshal
import os
import sys
from functools import partial
from typing import Callable, Iterable, Iterator

HERE = os.path.dirname(os.path.abspath(__file__))
sys.path[:0] = [HERE, os.path.dirname(HERE)]

import dtrace  # noqa: E402
from source import Definition, Source  # noqa: E402
from tracing import MOST_SHAPES  # noqa: E402

LIMIT = 1 << 63
DIGITS_OF_LIMIT = len(str(LIMIT))
LONGEST_VALUE = (1 << 24) - 1
DATA = {"unset": 0, "none": 0, "fields": 0, "boolean": 1, "int": 1, "double": 1, "string": 1, "object": 1, "container": 2, "sequence": 3}
NUMBERS = {"boolean", "int"}
# containers whose elements have places
WITH_PLACES = {"list", "tuple", "collections.deque", "array.array"}


# ---------------------------------------------------------------- values of a shape

class Node:
    """A value in a shape: its description, the place of its data in a record, and its fields."""

    def __init__(self, description: tuple, place: int) -> None:
        self.description = description
        self.kind = description[0]
        self.place = place
        self.fields: dict = {}


class Parser:
    """Reads a shape's tokens."""

    def __init__(self, descriptions: list, tokens: tuple) -> None:
        self.rest = iter([descriptions[token] for token in tokens])
        # in front stand the shape's number and the nonce
        self.place = 2

    def node(self) -> Node:
        """The next value."""
        node = Node(next(self.rest), self.place)
        self.place += DATA[node.kind]
        if node.kind == "fields":
            self.read_fields(node, node.description)
        elif node.kind in ("sequence", "container", "object") and node.description[-1]:
            self.read_fields(node, next(self.rest))
        return node

    def read_fields(self, node: Node, description: tuple) -> None:
        """Reads the fields of a value."""
        for name in description[1]:
            node.fields[name] = self.node()


# ---------------------------------------------------------------- variables over the run

class Seen:
    """What was seen of a variable over the run."""

    def __init__(self) -> None:
        self.descriptions: set = set()
        self.fields: dict = {}
        # whether a whole number is a length or a place in a sequence
        self.is_length = False

    def below(self, path: tuple) -> Seen | None:
        """What was seen of a field of a field of the variable, if anything was."""
        seen: Seen | None = self
        for name in path:
            seen = seen.fields.get(name) if seen else None
        return seen

    def field(self, name: str) -> Seen:
        """What was seen of the variable's field."""
        return self.fields.setdefault(name, Seen())

    def join(self, node: Node) -> None:
        """Adds a value."""
        self.descriptions.add(node.description)
        for name, field in node.fields.items():
            self.field(name).join(field)

    def kinds(self) -> set:
        """The kinds of values that were there."""
        return {description[0] for description in self.descriptions} - {"unset", "none", "fields"}

    def was_none(self) -> bool:
        """Whether the value was ever None."""
        return ("none",) in self.descriptions

    def was_cut(self) -> bool:
        """Whether a sequence was longer than what was read of it."""
        return any(description[0] == "sequence" and description[3] for description in self.descriptions)

    def elements(self) -> list:
        """The descriptions of the elements of sequences."""
        return [element for description in self.descriptions if description[0] == "sequence" for element in description[2]]

    def rep_type(self) -> str:
        """The type that holds all values."""
        kinds = self.kinds()
        if kinds == {"boolean"}:
            return dtrace.BOOLEAN
        if kinds and kinds <= NUMBERS:
            return dtrace.INT
        if kinds and kinds <= NUMBERS | {"double"}:
            return dtrace.DOUBLE
        if kinds == {"string"}:
            return dtrace.STRING
        element = element_type({element[0] for element in self.elements()}) if kinds == {"sequence"} else None
        return element + "[]" if element else dtrace.HASHCODE


def element_type(kinds: set) -> str | None:
    """The type that holds all elements, or None where they are told as no sequence."""
    if kinds == {"boolean"}:
        return dtrace.BOOLEAN
    if kinds <= NUMBERS:
        return dtrace.INT
    return dtrace.STRING if kinds <= {"string", "none"} else None


# ---------------------------------------------------------------- declared variables

class Declared:
    """A variable of a point: the path to its value, and what of the value it is (`value`, `length`, or `is None`)."""

    def __init__(self, path: tuple, aspect: str, seen: Seen, variable: dtrace.Variable) -> None:
        self.path = path
        self.aspect = aspect
        self.seen = seen
        self.variable = variable


class Lister:
    """Lists the variables that a point declares."""

    def __init__(self, classes: list) -> None:
        self.classes = classes
        self.kinds = dtrace.Kinds()

    def variables(self, seen: Seen, name: str, path: tuple, present: set, var_kind: str) -> list:
        """The variables of a value and of its fields, as far as they were ever there."""
        if path not in present:
            return []
        rep_type = seen.rep_type()
        is_sequence = rep_type.endswith("[]")
        found = []
        if seen.descriptions - {("unset",)} and {description[0] for description in seen.descriptions} != {"fields"}:
            found.append(self.value(seen, name + "[..]" if is_sequence else name, path, rep_type, "array" if is_sequence else var_kind))
            if seen.was_cut() if is_sequence else rep_type == dtrace.HASHCODE and seen.kinds() & {"sequence", "container"}:
                found.append(self.extra(seen, "len(%s)" % name, path, "length", dtrace.INT, "length"))
            if rep_type not in (dtrace.HASHCODE, dtrace.STRING) and seen.was_none():
                found.append(self.extra(seen, name + " is None", path, "is None", dtrace.BOOLEAN, "is None"))
        for field, below in seen.fields.items():
            found += self.variables(below, "%s.%s" % (name, field), (*path, field), present, "field " + dtrace.escape_name(field))
        return found

    def value(self, seen: Seen, name: str, path: tuple, rep_type: str, var_kind: str) -> Declared:
        """The variable of a value itself."""
        self.kinds.join(self.kinds_of(seen, rep_type))
        names = sorted({self.classes[description[1]] for description in seen.descriptions
                        if len(description) > 1 and description[0] != "fields"})
        dec_type = "|".join(names + ["None"] * seen.was_none())
        return Declared(path, "value", seen, dtrace.Variable(name, rep_type, dec_type, var_kind))

    def extra(self, seen: Seen, name: str, path: tuple, aspect: str, rep_type: str, kind: str) -> Declared:
        """A variable beside that of a value."""
        self.kinds.join([kind])
        return Declared(path, aspect, seen, dtrace.Variable(name, rep_type, rep_type, "function " + dtrace.escape_name(kind)))

    def kinds_of(self, seen: Seen, rep_type: str) -> list:
        """The kinds of things that a value or its elements are: what is compared with what."""
        if rep_type == dtrace.HASHCODE:
            return sorted("class " + self.classes[description[1]] for description in seen.descriptions if len(description) > 1) or ["None"]
        descriptions = seen.elements() if rep_type.endswith("[]") else list(seen.descriptions)
        names = {self.kind_of(description, rep_type) for description in descriptions if len(description) > 1}
        if seen.is_length and rep_type == dtrace.INT:
            names = {"length" if name == "number" else name for name in names}
        return sorted(names) or ["number"]

    def kind_of(self, description: tuple, rep_type: str) -> str:
        """The kind of thing that a scalar is: numbers and names of an enumeration are of its own kind."""
        class_name = self.classes[description[1]]
        if class_name == "str":
            return "text"
        if class_name == "bool":
            return "truth" if rep_type.startswith(dtrace.BOOLEAN) else "number"
        return "number" if class_name in ("int", "float") else "class " + class_name

    def comparability(self, declared: Declared) -> str:
        """The variable's comparability, when all kinds are joined."""
        if declared.aspect != "value":
            return str(self.kinds.number(declared.aspect))
        rep_type = declared.variable.rep_type
        number = self.kinds.number(self.kinds_of(declared.seen, rep_type)[0])
        return "%d[%d]" % (number, self.kinds.number("length")) if rep_type.endswith("[]") else str(number)


# ---------------------------------------------------------------- points

class Function:
    """A function of the traced program: what was seen of its variables, and where they were there."""

    def __init__(self, name: str, module: str, path: str, line: int, definition: Definition, parameters: tuple) -> None:
        self.name = name
        self.module = module
        self.path = path
        self.line = line
        self.definition = definition
        self.parameters = parameters
        self.roots: dict = {}
        self.at_entry: set = set()
        self.at_exits: set = set()
        self.exits: set = set()

    def object_point(self) -> str | None:
        """The name of the point of the class's objects, which has the samples of its public methods."""
        method = self.name.rsplit("(", 1)[0].rsplit(".", 1)[-1]
        is_public = not method.startswith("_") or method.startswith("__") and method.endswith("__")
        return "%s.%s:::OBJECT" % (self.module, self.definition.class_name) if self.definition.class_name and is_public else None

    def is_constructor(self) -> bool:
        """Whether the object has no fields yet at the entry."""
        return self.definition.qualname.endswith(".__init__")


class Place:
    """An entry or an exit: the function, the point's name, and the names of the values that are read there."""

    def __init__(self, function: Function, line: int, with_globals: bool) -> None:
        self.function = function
        self.is_entry = line == 0
        self.point = function.name + (":::ENTER" if self.is_entry else ":::EXIT%d" % line)
        self.names = [*function.parameters, *([""] if with_globals else []), *([] if self.is_entry else ["return"])]
        self.present = function.at_entry if self.is_entry else function.at_exits


def add_present(present: set, path: tuple, node: Node) -> None:
    """Takes down which of a value's parts are there."""
    if node.kind != "unset":
        present.add(path)
    for name, field in node.fields.items():
        add_present(present, (*path, name), field)


class Program:
    """The traced program: its functions, places, classes and modules."""

    def __init__(self, tables: list, settings: dict) -> None:
        places, self.shapes, self.descriptions, self.classes, self.failures = tables
        self.settings = settings
        self.functions: dict = {}
        self.class_roots: dict = {}
        self.module_roots: dict = {}
        self.places = [self.place(*known) for known in places]
        for number, tokens in self.shapes:
            self.join(self.places[number], tokens)

    # ------------------------------------------------------------ lengths

    def mark_lengths(self) -> None:
        """Finds the variables whose whole numbers are lengths, or places in sequences, by what the source does with them."""
        for path in {function.path for function in self.functions.values()}:
            functions = [function for function in self.functions.values() if function.path == path]
            relations = Source.of(path).relations
            nodes = dict(self.nodes_of(functions))
            lengths = relations.lengths(partial(self.is_sequence, nodes))
            for node, seen in nodes.items():
                seen.is_length = seen.is_length or relations.first(node) in lengths

    def nodes_of(self, functions: list) -> Iterator[tuple[tuple, Seen]]:
        """The variables of a file's functions as nodes of its relations, and what was seen of them."""
        for function in functions:
            for name in (*function.parameters, "return"):
                yield from nodes_below((function.definition.owner, name), self.root(function, name))
            if function.definition.class_name:
                for name, seen in self.root(function, function.parameters[0]).fields.items():
                    yield from nodes_below((function.definition.class_name, name), seen)

    def is_sequence(self, nodes: dict, node: tuple) -> bool:
        """Whether the node is one of these, with values that have places."""
        return node in nodes and self.has_places(nodes[node])

    def has_places(self, seen: Seen) -> bool:
        """Whether the values are strings, lists and the like."""
        descriptions = [description for description in seen.descriptions if description[0] not in ("unset", "none")]
        return bool(descriptions) and all(
            description[0] in ("sequence", "string") or description[0] == "container" and self.classes[description[1]] in WITH_PLACES
            for description in descriptions)

    # ------------------------------------------------------------ places

    def place(self, module: str, path: str, name: str, qualname: str, line: int, parameters: tuple, starred: list[str],
              lines: list) -> Place:
        """The place that the tracer tells of."""
        source = Source.of(path)
        definition = source.find(line, name, qualname)
        label = definition.qualname + ("@%d" % line if source.is_ambiguous(definition.qualname, parameters) else "")
        point = "%s.%s(%s)" % (module, label, ", ".join(starred))
        if point not in self.functions:
            self.functions[point] = Function(point, module, path, line, definition, parameters)
        function = self.functions[point]
        return Place(function, definition.exit_line(lines) if lines else 0, self.settings["globals"])

    def nodes(self, place: Place, tokens: tuple) -> tuple:
        """The values of a shape, with their names, and how many data a record of it has."""
        parser = Parser(self.descriptions, tokens)
        return [(name, parser.node()) for name in place.names], parser.place

    def root(self, function: Function, name: str) -> Seen:
        """What was seen of a value of the function. Its class's methods have the object in common, and its module's functions the
        globals."""
        if name == "":
            return self.module_roots.setdefault(function.module, Seen())
        if function.definition.class_name and name == function.parameters[0]:
            return self.class_roots.setdefault((function.module, function.definition.class_name), Seen())
        return function.roots.setdefault(name, Seen())

    def join(self, place: Place, tokens: tuple) -> None:
        """Takes down what a shape says of its place's variables."""
        if not place.is_entry:
            place.function.exits.add(place.point)
        nodes, _ = self.nodes(place, tokens)
        for name, node in nodes:
            self.root(place.function, name).join(node)
            add_present(place.present, (name,), node)


def nodes_below(node: tuple, seen: Seen) -> Iterator[tuple[tuple, Seen]]:
    """A variable and its fields, as nodes."""
    yield node, seen
    for name, field in seen.fields.items():
        yield from nodes_below((*node, name), field)


class Declarations:
    """The points that are declared, with their variables."""

    def __init__(self, program: Program) -> None:
        self.program = program
        self.lister = Lister(program.classes)
        self.variables: dict = {}
        self.points: list = []
        self.cut: list = []
        functions = sorted(program.functions.values(), key=lambda each: (each.module, each.line, each.name))
        for module in sorted({function.module for function in functions}):
            self.add_module(module, [function for function in functions if function.module == module])
        for point, declared in self.points:
            for each in declared:
                each.variable.comparability = self.lister.comparability(each)
            point.variables = [each.variable for each in declared]

    def add_module(self, module: str, functions: list) -> None:
        """Adds the points of a module: of its variables, of its classes' objects, and of its functions."""
        if self.program.settings["globals"]:
            self.add_globals(module, functions)
        for function in functions:
            if function.object_point() and function.object_point() not in self.variables:
                name = function.object_point()
                self.add_objects(name, [each for each in functions if each.object_point() == name])
            self.add_function(function)

    def add(self, name: str, kind: str, parents: list, declared: list) -> None:
        """Adds a point, with as many of the variables as it may have."""
        fitting = dtrace.fitting([each.variable for each in declared])
        if fitting < len(declared):
            self.cut.append("%s has %d variables, of which the first %d are told" % (name, len(declared), fitting))
        declared = declared[:fitting]
        self.variables[name] = declared
        self.points.append((dtrace.Point(name, kind, parents), declared))

    def add_globals(self, module: str, functions: list) -> None:
        """Adds the point of a module's variables."""
        present = set().union(*(function.at_entry | function.at_exits for function in functions))
        seen = self.program.module_roots.get(module, Seen())
        self.add(module + ":::GLOBALS", "class", [], self.lister.variables(seen, module, ("",), present, "variable"))

    def add_objects(self, name: str, methods: list) -> None:
        """Adds the point of a class's objects."""
        present: set = set()
        for method in methods:
            paths = method.at_exits | (set() if method.is_constructor() else method.at_entry)
            present |= {("self", *path[1:]) for path in paths if path[0] == method.parameters[0]}
        seen = self.program.root(methods[0], methods[0].parameters[0])
        self.add(name, "object", [], self.lister.variables(seen, "self", ("self",), present, "variable"))

    def add_function(self, function: Function) -> None:
        """Adds a function's entry and exits."""
        self.add_place(function, function.name + ":::ENTER", "enter", function.at_entry, not function.is_constructor())
        for point in sorted(function.exits, key=lambda name: int(name.rsplit(":::EXIT", 1)[1])):
            self.add_place(function, point, "subexit", function.at_exits, True)

    def add_place(self, function: Function, name: str, kind: str, present: set, has_object: bool) -> None:
        """Adds a function's entry or exit."""
        declared = []
        for parameter in function.parameters:
            declared += self.lister.variables(self.program.root(function, parameter), parameter, (parameter,), present, "variable")
        if self.program.settings["globals"]:
            declared += self.lister.variables(self.program.root(function, ""), function.module, ("",), present, "variable")
        if kind == "subexit" and function.definition.gives_value:
            declared += self.lister.variables(self.program.root(function, "return"), "return", ("return",), present, "return")
        parents = self.add_parents(function, declared, has_object)
        self.add(name, kind, parents, declared)

    def add_parents(self, function: Function, declared: list, has_object: bool) -> list:
        """Names the variables' counterparts at the points above, and answers the edges to these."""
        found = []
        point = function.object_point() if has_object else None
        if point in self.variables:
            found.append((point, 1))
            first = function.parameters[0]
            counterparts = {(each.path, each.aspect): each.variable.name for each in self.variables[point]}
            for each in declared:
                name = counterparts.get((("self", *each.path[1:]), each.aspect)) if each.path[0] == first else None
                if name:
                    each.variable.parents.append((point, 1, name))
        point = function.module + ":::GLOBALS"
        if point in self.variables:
            found.append((point, 2))
            for each in declared:
                if each.path[0] == "":
                    each.variable.parents.append((point, 2, each.variable.name))
        return found


# ---------------------------------------------------------------- records

def code_of(value: object) -> str:
    """The hash code of a scalar at a variable that also has other values: the same for equal values, and not null."""
    return str(1 + int.from_bytes(hashlib.blake2b(repr((type(value).__name__, value)).encode(), digest_size=7).digest(), "big"))


def fraction(value: float) -> str:
    """The value of a number of floating point."""
    return {"nan": "NaN", "inf": "Infinity", "-inf": "-Infinity"}.get(repr(float(value)), repr(float(value)))


def list_of(texts: Iterable[str]) -> str | None:
    """A sequence's value; one that is longer than a line may be is missing."""
    text = dtrace.sequence(texts)
    return text if len(text) * 4 < LONGEST_VALUE else None


def integers(items: list) -> str | None:
    """The value of a sequence of whole numbers."""
    return list_of(map(str, map(int, items)))


def booleans(items: list) -> str | None:
    """The value of a sequence of truth values."""
    return list_of(map(dtrace.boolean, items))


def strings(items: list) -> str | None:
    """The value of a sequence of strings and None."""
    return list_of("null" if item is None else dtrace.quote(item) for item in items)


TEXTS = {
    dtrace.INT: dtrace.integer, dtrace.BOOLEAN: dtrace.boolean, dtrace.DOUBLE: fraction, dtrace.STRING: dtrace.quote,
    dtrace.INT + "[]": integers, dtrace.BOOLEAN + "[]": booleans, dtrace.STRING + "[]": strings,
}
SCALARS = ("boolean", "int", "double", "string")


def source_of(declared: Declared, node: Node | None) -> tuple:
    """How a variable's value is made of a record: a text that is always the same, or None; the place of its data; and the function of
    it."""
    if node is None or node.kind == "unset":
        return None, 0, None
    if declared.aspect == "is None":
        return dtrace.boolean(node.kind == "none"), 0, None
    if declared.aspect == "length":
        return (None, node.place + 1, dtrace.integer) if node.kind in ("sequence", "container") else (None, 0, None)
    rep_type = declared.variable.rep_type
    if node.kind == "none":
        return ("null" if rep_type in (dtrace.HASHCODE, dtrace.STRING) else None), 0, None
    if rep_type == dtrace.HASHCODE:
        return None, node.place, code_of if node.kind in SCALARS else str
    return None, node.place + (2 if node.kind == "sequence" else 0), TEXTS[rep_type]


class Plan:
    """How the records of a shape are written."""

    def __init__(self, name: str, declared: list, nodes: list, width: int) -> None:
        found = dict(paths_of((), {each: node for each, node in nodes}))
        sources = [(each.variable.name, *source_of(each, found.get(each.path))) for each in declared]
        self.parts = [(place, function) for _, _, place, function in sources if function]
        values = [(each, dtrace.VALUE_WITH_MARK if function else text) for each, text, _, function in sources]
        self.template = dtrace.record_template(name, values)
        self.text: Callable[[tuple], str] = self.general_text
        places = [place for place, _ in self.parts]
        if places == list(range(2, width)) and all(function is dtrace.integer for _, function in self.parts):
            numbers = [(each, "%d" if function else text) for each, text, _, function in sources]
            self.text = self.integers_text(dtrace.record_template(name, numbers))

    def general_text(self, data: tuple) -> str:
        """The text of a record."""
        return self.template % (data[1], *[dtrace.with_mark(function(data[place])) for place, function in self.parts])

    def integers_text(self, template: str) -> Callable[[tuple], str]:
        """What makes the text of a record that has whole numbers alone: at once, where none has more than 64 bits."""
        general = self.general_text
        # the shape's number is formatted to nothing
        template = "%.0s" + template
        # in a text that isn't longer no number has so many digits
        most = len(template % ((0,) * (2 + len(self.parts)))) + DIGITS_OF_LIMIT - 2

        def text(data: tuple) -> str:
            text = template % data
            return text if len(text) <= most or max(data) < LIMIT and min(data) >= -LIMIT else general(data)

        return text


def paths_of(path: tuple, nodes: dict) -> Iterator[tuple[tuple, Node]]:
    """The values and their fields, with the paths to them."""
    for name, node in nodes.items():
        yield (*path, name), node
        yield from paths_of((*path, name), node.fields)


class Writer:
    """Writes a trace."""

    def __init__(self, settings: dict, spool: dtrace.Spool) -> None:
        self.program = Program(spool.read(settings["end"])[0], settings)
        self.spool = spool
        self.numbered_plans: dict = {}

    def join_unnumbered(self) -> None:
        """Takes down the shapes of the records that bring their tokens along."""
        if len(self.program.shapes) >= MOST_SHAPES:
            for record in self.spool.records():
                if record[0] < 0:
                    self.program.join(self.program.places[record[1]], record[2])

    def plan(self, place: Place, tokens: tuple, variables: dict) -> Plan:
        """How a shape's records are written."""
        nodes, width = self.program.nodes(place, tokens)
        return Plan(place.point, variables[place.point], nodes, width)

    def write(self, output: dtrace.Output) -> int:
        """Writes the trace, and answers how many samples the point with most has."""
        self.join_unnumbered()
        self.program.mark_lengths()
        declarations = Declarations(self.program)
        output.write(dtrace.header("Python"))
        for point, _ in declarations.points:
            output.write(dtrace.declaration(point))
        variables = declarations.variables
        texts = [self.plan(self.program.places[place], tokens, variables).text for place, tokens in self.program.shapes]
        counts = [0] * len(texts)
        for batch in self.spool.batches():
            parts = []
            for record in batch:
                number = record[0]
                if number >= 0:
                    parts.append(texts[number](record))
                    counts[number] += 1
                else:
                    _, place, tokens, data = record
                    parts.append(self.plan(self.program.places[place], tokens, variables).text(data))
            output.write("".join(parts))
        for line in self.program.failures + declarations.cut:
            print("dk_python: " + line, file=sys.stderr)
        return self.most_samples(counts)

    def most_samples(self, counts: list) -> int:
        """How many samples the point with most has."""
        by_point: dict = {}
        for (place, _), count in zip(self.program.shapes, counts):
            name = self.program.places[place].point
            by_point[name] = by_point.get(name, 0) + count
        return max(by_point.values(), default=0)


def main(arguments: list) -> int:
    """Writes the trace, and the report where it is asked for."""
    settings = marshal.loads(bytes.fromhex(arguments[0]))
    os.chdir(settings["start"])
    # the records that are read hold no circles
    gc.disable()
    output = dtrace.Output(settings["out"])
    most = Writer(settings, dtrace.Spool(settings["spool"], settings["end"])).write(output)
    output.close()
    if settings["report"]:
        dtrace.report("dk_python", settings["file"], most)
    return 0


if __name__ == "__main__":
    sys.exit(main(sys.argv[1:]))
