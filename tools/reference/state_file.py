"""State files: their one spelling of a history, and reading it back.

A text is a spelling exactly where it is read, meets the conditions, and is written again with the
same bytes.
"""

from __future__ import annotations

import re
from typing import Iterable, Iterator

from input_language import (ELEMENT, MISSING, REP_TYPES, Declaration, Fault, NoValue, Value, Variable, escape, fits_i64,
                            items_between_blanks, unescape, value_of)
from points import History, Table, VarInfo
from rows import BROKEN, EMPTY, ROWS, Places, State, admits, is_proper, is_suppressed, is_written, rows_of
from samples import Compact, capped, own_samples

SAMPLES_LIMIT = 1 << 40
REP_OF_KIND = {"Bool": b"boolean", "Int": b"int", "Hash": b"hashcode", "Str": b"java.lang.String",
               "BoolSeq": b"boolean[]", "IntSeq": b"int[]", "HashSeq": b"hashcode[]",
               "StrSeq": b"java.lang.String[]", None: b"double"}
NUMBERS_OF_WORD = {"empty": 0, "holds": 0, "least": 1, "greatest": 1, "one": 1, "modulus": 2,
                   "spot": 2, "straight": 3, "span": 6, "plane": 4, "offset": 1}


class BadState(Exception):
    """The bytes are no spelling."""


def demand(condition: object) -> None:
    """Ends the reading where the condition isn't met."""
    if not condition:
        raise BadState


# ---------------------------------------------------------------- writing

def spelled(kind: str | None, value: Value) -> bytes:
    """The one spelling of a value of the kind."""
    if value is MISSING:
        return b"missing"
    if kind is not None and kind in ELEMENT:
        return b"[" + b" ".join(spelled(ELEMENT[kind], item) for item in value) + b"]"
    if kind == "Bool":
        return b"true" if value else b"false"
    if kind == "Hash":
        return b"null" if value == 0 else b"0x%x" % value
    return value if kind == "Str" else b"%d" % value


def spelled_state(state: State) -> bytes:
    """The one spelling of a state."""
    word = state[0].encode()
    if word == b"truth":
        return b"truth " + spelled("Bool", state[1])
    if word == b"code":
        return b"code " + spelled("Hash", state[1])
    if word == b"ints":
        return b"ints " + spelled_numbers(state[1])
    if word == b"texts":
        return b"texts " + b" ".join(state[1])
    return word + (b" " + spelled_numbers(state[1:]) if state[1:] else b"")


def spelled_numbers(numbers: Iterable[int]) -> bytes:
    """Numbers with a blank between them."""
    return b" ".join(b"%d" % number for number in numbers)


def declaration_lines(declaration: Declaration) -> Iterator[bytes]:
    """The lines of a declaration."""
    yield b"point " + escape(declaration.name)
    for name, number in declaration.edges:
        yield b"edge %d %s" % (number, escape(name))
    for variable in declaration.variables:
        yield b"var %s %d %d %s" % ((REP_OF_KIND[variable.kind],) + variable.comparability
                                    + (escape(variable.name),))
        if variable.constant_line:
            yield b"constant " + spelled(variable.kind, variable.constant)
        for edge, name in variable.parents:
            yield b"mapped %d %s" % (edge, escape(name))
    yield b"end"


def compact_lines(index: int, form: Compact) -> Iterator[bytes]:
    """The lines of a point's samples."""
    yield b"samples %d %d" % (index, capped(form.number))
    for group in sorted(sorted(group) for group in form.classes):
        yield b"class " + spelled_numbers(group)
    bits = {b"".join(b"1" if bit else b"0" for bit in pattern): count
            for pattern, count in form.patterns.items()}
    for text in sorted(bits):
        yield b"pattern %d" % capped(bits[text]) + (b" " + text if text else b"")
    for leader in sorted(form.known):
        yield b"known %d %s" % (leader, spelled(form.variables[leader].kind, form.known[leader]))
    for number, places in sorted(form.slots):
        yield b"slot %d %s %s" % (number, spelled_numbers(places),
                                  spelled_state(form.slots[number, places]))
    yield b"end"


def state_lines(history: History, forms: list[tuple[int, Compact]]) -> Iterator[bytes]:
    """The lines of a state file."""
    declarations = [point.declaration for point in history.table.points
                    if point.declaration is not None]
    yield b"daikon-state %d" % history.grammar
    yield b"comparability " + (b"implicit" if history.implicit else b"none")
    yield b"points %d" % len(declarations)
    for declaration in declarations:
        yield from declaration_lines(declaration)
    for index, form in forms:
        yield from compact_lines(index, form)
    yield b"end-state"


def written(history: History, forms: list[tuple[int, Compact]]) -> bytes:
    """The text of a state file."""
    return b"".join(line + b"\n" for line in state_lines(history, forms))


def state_file(history: History) -> bytes:
    """The text of the history: the compact form of each point with samples of its own."""
    forms = []
    for point in history.table.points:
        samples = own_samples(history, point)
        if samples.number() > 0:
            forms.append((point.index, samples.compact_form()))
    return written(history, forms)


# ---------------------------------------------------------------- reading

class Lines:
    """The lines that are still to be read."""

    def __init__(self, data: bytes) -> None:
        demand(data.endswith(b"\n"))
        self.lines = data[:-1].split(b"\n")
        self.at = 0

    def next_word(self) -> bytes | None:
        """The first word of the next line."""
        return self.lines[self.at].split(b" ", 1)[0] if self.at < len(self.lines) else None

    def rest_of(self, word: bytes) -> bytes:
        """The next line, which must begin with the word; what follows the word and a blank."""
        demand(self.next_word() == word)
        line = self.lines[self.at]
        self.at += 1
        return line[len(word) + 1:]

    def all_of(self, word: bytes) -> list[bytes]:
        """What follows the word in each of the next lines that begin with it."""
        found = []
        while self.next_word() == word:
            found.append(self.rest_of(word))
        return found


def number_of(text: bytes) -> int:
    """The number that the text is."""
    demand(re.fullmatch(rb"-?[0-9]+", text))
    return int(text)


def fields(text: bytes, most: int) -> list[bytes]:
    """At most so many fields, the last one with all that is left."""
    found = text.split(b" ", most - 1)
    demand(len(found) == most)
    return found


def load(data: bytes, second_grammar: bool = True, second_form: bool = True) -> History:
    """The history that the bytes stand for, or BadState."""
    try:
        history, forms = read_state(data, second_grammar, second_form)
    except (Fault, NoValue, IndexError):
        raise BadState from None
    demand(written(history, forms) == data)
    history.loaded = dict(forms)
    return history


def read_state(data: bytes, second_grammar: bool, second_form: bool) -> tuple[History, list[tuple[int, Compact]]]:
    """The history, and the compact forms of its points."""
    lines = Lines(data)
    history = History(Table(second_form))
    version = lines.rest_of(b"daikon-state")
    demand(version == b"1" or (version == b"2" and second_grammar))
    history.grammar = int(version)
    word = lines.rest_of(b"comparability")
    demand(word in (b"implicit", b"none"))
    history.implicit = word == b"implicit"
    for _ in range(min(number_of(lines.rest_of(b"points")), len(lines.lines))):
        declaration = read_declaration(lines)
        demand(history.table.declare(declaration, 0))
    forms = []
    while lines.next_word() == b"samples":
        forms.append(read_samples(lines, history))
    indices = [index for index, _ in forms]
    demand(indices == sorted(set(indices)))
    demand(lines.rest_of(b"end-state") == b"" and lines.at == len(lines.lines))
    return history, forms


def demand_name(name: bytes) -> None:
    """Ends the reading where it can't be a name."""
    demand(name != b"" and not name.startswith(b"\t") and not name.endswith(b"\t"))


def read_declaration(lines: Lines) -> Declaration:
    """The next declaration."""
    declaration = Declaration(unescape(lines.rest_of(b"point")))
    demand_name(declaration.name)
    for text in lines.all_of(b"edge"):
        number, name = fields(text, 2)
        edge = (unescape(name), number_of(number))
        demand_name(edge[0])
        demand(b"\t" not in edge[0] and 0 <= edge[1] < 1 << 32)
        demand(edge not in declaration.edges)
        declaration.edges.append(edge)
    while lines.next_word() == b"var":
        variable = read_variable(lines, declaration)
        demand(all(variable.name != other.name for other in declaration.variables))
        declaration.variables.append(variable)
    demand(lines.rest_of(b"end") == b"")
    return declaration


def read_variable(lines: Lines, declaration: Declaration) -> Variable:
    """The next variable of a declaration."""
    rep_type, elem, index, name = fields(lines.rest_of(b"var"), 4)
    demand(rep_type in REP_TYPES)
    variable = Variable(unescape(name), REP_TYPES[rep_type], (number_of(elem), number_of(index)))
    demand_name(variable.name)
    demand(all(fits_i64(number) for number in variable.comparability))
    if lines.next_word() == b"constant":
        text = lines.rest_of(b"constant")
        variable.constant_line = True
        if variable.kind is not None:
            variable.constant = value_of(variable.kind, text)
            demand(variable.constant is not MISSING)
    for text in lines.all_of(b"mapped"):
        edge, name = fields(text, 2)
        demand(0 <= number_of(edge) < len(declaration.edges))
        name = unescape(name)
        demand_name(name)
        demand(b"\t" not in name or name == variable.name)
        variable.parents.append((number_of(edge), name))
    return variable


def read_samples(lines: Lines, history: History) -> tuple[int, Compact]:
    """The samples of the next point."""
    index, number = [number_of(text) for text in fields(lines.rest_of(b"samples"), 2)]
    demand(0 <= index < len(history.table.points) and 1 <= number <= SAMPLES_LIMIT)
    point = history.table.points[index]
    demand(point.declaration is not None)
    variables = point.variables
    form = Compact(variables, history.grammar, number, [], {}, {}, {})
    for text in lines.all_of(b"class"):
        form.classes.append([number_of(place) for place in text.split(b" ")])
    demand_classes(form.classes, variables)
    form.prepare()
    for text in lines.all_of(b"pattern"):
        read_pattern(form, text)
    demand(sum(form.patterns.values()) == number)
    for text in lines.all_of(b"known"):
        read_known(form, text)
    for text in lines.all_of(b"slot"):
        read_slot(form, text)
    demand(lines.rest_of(b"end") == b"")
    demand(not any(is_suppressed(form, number, places) for number, places in form.slots))
    return index, form


def demand_classes(classes: list[list[int]], variables: list[VarInfo]) -> None:
    """The classes hold each variable once, each class of one kind."""
    demand(sorted(place for group in classes for place in group) == list(range(len(variables))))
    for group in classes:
        demand(group == sorted(group))
        demand(len({variables[place].kind for place in group}) == 1)
    demand(classes == sorted(classes))


def read_pattern(form: Compact, text: bytes) -> None:
    """Patterns differ and count at least one sample."""
    count, bits = fields(text, 2) if form.classes else (text, b"")
    demand(len(bits) == len(form.classes) and re.fullmatch(rb"[01]*", bits))
    pattern = tuple(bit == ord("1") for bit in bits)
    demand(pattern not in form.patterns and number_of(count) >= 1)
    form.patterns[pattern] = number_of(count)


def read_known(form: Compact, text: bytes) -> None:
    """A leader known as missing is absent from every pattern, another one is in every pattern."""
    place, value = fields(text, 2)
    leader = number_of(place)
    demand(leader in form.rank and leader not in form.known)
    form.known[leader] = value_of(form.variables[leader].kind, value)
    there = form.known[leader] is not MISSING
    demand(all(form.is_present(bits, leader) == there for bits in form.patterns))


def read_slot(form: Compact, text: bytes) -> None:
    """Reads a slot."""
    row_text, rest = fields(text, 2)
    number = number_of(row_text)
    demand(number in rows_of(form.grammar))
    arity = len(ROWS[number].takes)
    *place_texts, state_text = fields(rest, arity + 1)
    places = tuple(number_of(place) for place in place_texts)
    demand(all(place in form.rank for place in places))
    demand(admits(number, form.variables, places) and is_written(number, places))
    demand((number, places) not in form.slots)
    demand(not all(place in form.known for place in places))
    state = read_state_text(state_text)
    demand(is_proper(number, state) and state != BROKEN)
    demand_empty(form, number, places, state)
    form.slots[number, places] = state


def demand_empty(form: Compact, number: int, places: Places, state: State) -> None:
    """Where no pattern has all the leaders the state is empty; a plain row's is empty only
    there."""
    if form.count(places) == 0:
        demand(state == EMPTY)
    elif ROWS[number].relation is not None:
        demand(state != EMPTY)


def read_state_text(text: bytes) -> State:
    """The state that the text spells."""
    word, _, rest = text.partition(b" ")
    if word == b"truth":
        value = value_of("Bool", rest)
        demand(value is not MISSING)
        return ("truth", value)
    if word == b"code":
        value = value_of("Hash", rest)
        demand(value is not MISSING)
        return ("code", value)
    if word == b"ints":
        return ("ints", tuple(number_of(item) for item in rest.split(b" ")))
    if word == b"texts":
        return ("texts", tuple(items_between_blanks(rest)))
    name = word.decode("latin-1")
    demand(name in NUMBERS_OF_WORD)
    numbers = tuple(number_of(item) for item in rest.split(b" ")) if rest else ()
    demand(len(numbers) == NUMBERS_OF_WORD[name])
    return (name,) + numbers
