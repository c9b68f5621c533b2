"""Lines, blocks, names, values, headers, declarations and sample records.

Everything here is a function of whole lists: a file's bytes give its lines, its lines give its
blocks, and a block is read line after line. A faulty line ends the reading by raising Fault.
"""

from __future__ import annotations

import re
import sys
from dataclasses import dataclass, field
from typing import TYPE_CHECKING, Any, Iterator, Tuple

if TYPE_CHECKING:
    from points import History, Point, Table

if hasattr(sys, "set_int_max_str_digits"):
    sys.set_int_max_str_digits(0)

# of a variable: a bool, an int or bytes by its kind, a tuple of such for a sequence, or MISSING
Value = Any
MISSING = None

# its number within the file, and its bytes
NumberedLine = Tuple[int, bytes]
# the numbers of elements and of the index
Comparability = Tuple[int, int]

WHY = {
    1: "LongLine", 2: "BadHeader", 3: "BadPoint", 4: "BadVariable", 5: "DuplicatePoint",
    6: "CyclicParents", 7: "UnknownPoint", 8: "BadNonce", 9: "WrongName", 10: "BadValue",
    11: "BadMark", 12: "Truncated", 13: "ExtraLine", 14: "UnmatchedExit", 15: "TooManyPoints",
    16: "TooManyVariables", 17: "TooLong", 18: "BadState",
}

LINE_LIMIT = 16_777_216
TOTAL_LIMIT = 1 << 40

REP_TYPES = {
    b"boolean": "Bool", b"int": "Int", b"hashcode": "Hash", b"double": None,
    b"java.lang.String": "Str", b"String": "Str",
    b"boolean[]": "BoolSeq", b"int[]": "IntSeq", b"hashcode[]": "HashSeq", b"double[]": None,
    b"java.lang.String[]": "StrSeq", b"String[]": "StrSeq",
}
ELEMENT = {"BoolSeq": "Bool", "IntSeq": "Int", "HashSeq": "Hash", "StrSeq": "Str"}
POINT_TYPES = {b"point", b"class", b"object", b"enter", b"exit", b"subexit"}
MISSING_WORDS = {b"nonsensical", b"uninit", b"missing"}

DECIMAL = re.compile(rb"-?[0-9]+")
HEXADECIMAL = re.compile(rb"0x[0-9a-fA-F]+")
STRING = re.compile(rb'"(?:[^"\\\n]|\\[^\n])*"')
COMPARABILITY = re.compile(rb"(-?[0-9]+)((?:\[-?[0-9]+\])*)")


class Fault(Exception):
    """A refusal: its line within the file, and its number."""

    def __init__(self, why: int, line: int) -> None:
        super().__init__(why, line)
        self.why = why
        self.line = line


class NoValue(Exception):
    """A text that is no value of the kind."""


# ---------------------------------------------------------------- lines and blocks

def lines_of(data: bytes, bytes_before: int = 0, line_limit: int = LINE_LIMIT,
             total_limit: int = TOTAL_LIMIT) -> tuple[list[NumberedLine], Fault | None]:
    """The file's lines as (number, bytes without CR and without blanks and tabs at the ends), and
    the fault of the first byte that is one too many, after the lines before it, or None."""
    lines: list[NumberedLine] = []
    start = bytes_before
    pieces = data.split(b"\n")
    for number, piece in enumerate(pieces, 1):
        last = number == len(pieces)
        if last and piece == b"":
            break
        size = len(piece) + (0 if last else 1)
        too_long = total_limit if start + size > total_limit else None
        long_line = start + line_limit if len(piece) > line_limit else None
        if long_line is not None and (too_long is None or long_line <= too_long):
            return lines, Fault(1, number)
        if too_long is not None:
            return lines, Fault(17, number)
        start += size
        if piece.endswith(b"\r"):
            piece = piece[:-1]
        lines.append((number, piece.strip(b" \t")))
    return lines, None


@dataclass
class Block:
    """A longest run of lines that aren't blank. `end` is the number of the blank line that ends
    it, or one more than the file's last line. `cut` is the fault of a byte that is one too many,
    met before the block's end."""
    lines: list[NumberedLine]
    end: int
    cut: Fault | None = None

    def each_line(self) -> Iterator[NumberedLine]:
        """The lines; the fault comes after them."""
        yield from self.lines
        if self.cut is not None:
            raise self.cut


def blocks_of(lines: list[NumberedLine], cut: Fault | None) -> list[Block]:
    """The blocks of a file."""
    blocks = []
    current = []
    for number, line in lines:
        if line != b"":
            current.append((number, line))
        elif current:
            blocks.append(Block(current, number))
            current = []
    if current or cut is not None:
        blocks.append(Block(current, len(lines) + 1, cut))
    return blocks


def words_of(line: bytes) -> list[bytes]:
    """The words between blanks and tabs."""
    return [word for word in re.split(rb"[ \t]+", line) if word]


def first_word_and_rest(line: bytes) -> tuple[bytes, bytes]:
    """The rest is what follows the first word and the blanks and tabs after it."""
    word = re.split(rb"[ \t]", line, maxsplit=1)[0]
    return word, line[len(word):].lstrip(b" \t")


# ---------------------------------------------------------------- names and values

def unescape(text: bytes) -> bytes:
    """`\\_` stands for a blank and `\\\\` for a backslash; any other backslash stays."""
    return re.sub(rb"\\([_\\])", lambda m: b" " if m.group(1) == b"_" else b"\\", text)


def escape(name: bytes) -> bytes:
    """A name as a state file spells it."""
    return name.replace(b"\\", b"\\\\").replace(b" ", b"\\_")


def fits_i64(number: int) -> bool:
    """Whether the number has 64 bits with a sign."""
    return -(1 << 63) <= number < 1 << 63


def fits_u64(number: int) -> bool:
    """Whether the number has 64 bits without a sign."""
    return 0 <= number < 1 << 64


def scalar_of(kind: str, text: bytes) -> Value:
    """The value of a text of a scalar kind. A number outside its 64-bit type is missing."""
    if text in MISSING_WORDS:
        return MISSING
    if kind == "Int":
        if text in (b"true", b"false"):
            return int(text == b"true")
        if DECIMAL.fullmatch(text):
            return int(text) if fits_i64(int(text)) else MISSING
    if kind == "Bool" and text in (b"true", b"1", b"false", b"0"):
        return text in (b"true", b"1")
    if kind == "Hash":
        if text == b"null":
            return 0
        if DECIMAL.fullmatch(text):
            return int(text) if fits_u64(int(text)) else MISSING
        if HEXADECIMAL.fullmatch(text):
            return int(text, 16) if fits_u64(int(text, 16)) else MISSING
    if kind == "Str" and (text == b"null" or STRING.fullmatch(text)):
        return text
    raise NoValue


def items_of(text: bytes) -> list[bytes]:
    """The items of a text between brackets, separated by one or more blanks."""
    if len(text) < 2 or text[:1] != b"[" or text[-1:] != b"]":
        raise NoValue
    return items_between_blanks(text[1:-1])


def items_between_blanks(inner: bytes) -> list[bytes]:
    """The items of a sequence's inner text; a string is one item with its blanks."""
    items = []
    at = 0
    while at < len(inner):
        if inner[at:at + 1] == b" ":
            at += 1
            continue
        string = STRING.match(inner, at)
        end = string.end() if string else inner.find(b" ", at)
        end = len(inner) if end < 0 else end
        if end < len(inner) and inner[end:end + 1] != b" ":
            raise NoValue
        items.append(inner[at:end])
        at = end
    return items


def value_of(kind: str, text: bytes) -> Value:
    """The value of a text, MISSING, or NoValue. A missing item makes a sequence missing; an item
    that is no text of its kind makes the whole text no value."""
    if kind not in ELEMENT:
        return scalar_of(kind, text)
    if text == b"null" or text in MISSING_WORDS:
        return MISSING
    values = [scalar_of(ELEMENT[kind], item) for item in items_of(text)]
    return MISSING if any(value is MISSING for value in values) else tuple(values)


# ---------------------------------------------------------------- headers

def read_headers(lines: Iterator[NumberedLine], history: History) -> tuple[bool, NumberedLine | None]:
    """Reads comments and header lines before the record. Gives whether anything but comments
    was there, and the record's first line or None."""
    anything = False
    awaited_since = None
    for number, line in lines:
        if line.startswith(b"#") or line.startswith(b"//"):
            continue
        anything = True
        word, rest = first_word_and_rest(line)
        if awaited_since is not None:
            set_comparability(history, line, number)
            awaited_since = None
        elif line == b"VarComparability" and history.table.second_form:
            awaited_since = number
        elif word == b"decl-version":
            if rest != b"2.0":
                raise Fault(2, number)
        elif word == b"var-comparability":
            set_comparability(history, rest, number)
        elif word != b"input-language":
            return True, (number, line)
    if awaited_since is not None:
        raise Fault(2, awaited_since)
    return anything, None


def set_comparability(history: History, word: bytes, number: int) -> None:
    """Takes the word of comparability."""
    if word not in (b"none", b"implicit"):
        raise Fault(2, number)
    history.implicit = word == b"implicit"


# ---------------------------------------------------------------- declarations

NO_COMPARABILITY = (-1, -1)


@dataclass
class Variable:
    """A declared variable. Kind None is opaque. `parents` lists the position of an edge of the
    block and the name of the parent's variable, one for each parent line that counts."""
    name: bytes
    kind: str | None = None
    comparability: Comparability = NO_COMPARABILITY
    constant_line: bool = False
    constant: Value = MISSING
    parents: list[tuple[int, bytes]] = field(default_factory=list)


@dataclass
class Declaration:
    """Two declarations are the same exactly where they are equal."""
    name: bytes
    edges: list[tuple[bytes, int]] = field(default_factory=list)
    variables: list[Variable] = field(default_factory=list)


def comparability_of(text: bytes) -> Comparability | None:
    """An integer counts as E with index -1; `E[I]` is both, further brackets have no effect."""
    match = COMPARABILITY.fullmatch(text)
    if not match:
        return None
    numbers = [int(match.group(1))] + [int(part) for part in DECIMAL.findall(match.group(2))]
    if not all(fits_i64(number) for number in numbers):
        return None
    return (numbers[0], numbers[1] if len(numbers) > 1 else -1)


def edge_number_of(text: bytes) -> int | None:
    """A decimal number below 2^32, without a sign."""
    if not re.fullmatch(rb"[0-9]+", text) or int(text) >= 1 << 32:
        return None
    return int(text)


@dataclass
class OpenVariable:
    """A variable of a `ppt` block whose lines are still being read."""
    line: int
    variable: Variable
    has_rep_type: bool = False
    constant_at: int = 0
    constant_text: bytes = b""


def read_ppt_block(number: int, rest: bytes, lines: Iterator[NumberedLine], implicit: bool) -> Declaration:
    """A declaration of format 2.0, whose first line is `ppt NAME`."""
    if rest == b"":
        raise Fault(3, number)
    declaration = Declaration(unescape(rest))
    opened = None
    for at, line in lines:
        word, text = first_word_and_rest(line)
        if word == b"variable":
            end_variable(declaration, opened)
            opened = begin_variable(declaration, at, text)
        elif opened is None:
            point_line(declaration, at, word, text)
        else:
            variable_line(declaration, opened, at, word, text, implicit)
    end_variable(declaration, opened)
    return declaration


def point_line(declaration: Declaration, at: int, word: bytes, text: bytes) -> None:
    """Reads a line of a declaration before its first variable."""
    words = words_of(text)
    if word == b"ppt-type":
        if len(words) != 1 or words[0].lower() not in POINT_TYPES:
            raise Fault(3, at)
    if word == b"parent":
        if len(words) != 3 or edge_number_of(words[2]) is None:
            raise Fault(3, at)
        if words[0] == b"parent":
            edge = (unescape(words[1]), int(words[2]))
            if edge in declaration.edges:
                raise Fault(3, at)
            declaration.edges.append(edge)


def begin_variable(declaration: Declaration, at: int, text: bytes) -> OpenVariable:
    """The variable that a `variable` line begins."""
    name = unescape(text)
    if name == b"" or any(variable.name == name for variable in declaration.variables):
        raise Fault(4, at)
    return OpenVariable(at, Variable(name))


def variable_line(declaration: Declaration, opened: OpenVariable, at: int, word: bytes, text: bytes, implicit: bool) -> None:
    """Reads a line of a variable."""
    variable = opened.variable
    words = words_of(text)
    if word == b"rep-type":
        if len(words) != 1 or words[0] not in REP_TYPES:
            raise Fault(4, at)
        opened.has_rep_type = True
        variable.kind = REP_TYPES[words[0]]
    elif word == b"comparability" and implicit:
        pair = comparability_of(text)
        if pair is None:
            raise Fault(4, at)
        variable.comparability = pair
    elif word == b"constant":
        opened.constant_at = at
        opened.constant_text = text
        variable.constant_line = True
    elif word == b"parent":
        if len(words) not in (2, 3) or edge_number_of(words[1]) is None:
            raise Fault(4, at)
        edge = (unescape(words[0]), int(words[1]))
        if edge in declaration.edges:
            name = unescape(words[2]) if len(words) == 3 else variable.name
            variable.parents.append((declaration.edges.index(edge), name))


def end_variable(declaration: Declaration, opened: OpenVariable | None) -> None:
    """A variable without `rep-type` is judged before its constant."""
    if opened is None:
        return
    if not opened.has_rep_type:
        raise Fault(4, opened.line)
    if opened.variable.constant_line:
        opened.variable.constant = constant_of(opened.variable.kind, opened.constant_text,
                                               opened.constant_at)
    declaration.variables.append(opened.variable)


def constant_of(kind: str | None, text: bytes, at: int) -> Value:
    """A constant's text must be a value of the kind that isn't missing; for an opaque variable it
    isn't read."""
    if kind is None:
        return MISSING
    try:
        value = value_of(kind, text)
    except NoValue:
        value = MISSING
    if value is MISSING:
        raise Fault(4, at)
    return value


def read_declare_block(number: int, lines: Iterator[NumberedLine], implicit: bool) -> Declaration:
    """A declaration of format 1.0: `DECLARE`, the point's name, and four lines a variable."""
    declaration = None
    variable = None
    name_at = 0
    position = 0
    for at, line in lines:
        if declaration is None:
            declaration = Declaration(unescape(line))
            continue
        if position == 0:
            name_at = at
            variable = begin_variable(declaration, at, line).variable
        elif position == 2:
            read_representation(variable, at, line)
        elif position == 3:
            if implicit:
                variable.comparability = comparability_of(line)
                if variable.comparability is None:
                    raise Fault(4, at)
            declaration.variables.append(variable)
        position = (position + 1) % 4
    if declaration is None:
        raise Fault(3, number)
    if position != 0:
        raise Fault(4, name_at)
    return declaration


def read_representation(variable: Variable, at: int, line: bytes) -> None:
    """A rep-type, or a rep-type, `=` as a word of its own, and a constant's text."""
    rep_type, rest = first_word_and_rest(line)
    if rep_type not in REP_TYPES:
        raise Fault(4, at)
    variable.kind = REP_TYPES[rep_type]
    if rest == b"":
        return
    equals, text = first_word_and_rest(rest)
    if equals != b"=":
        raise Fault(4, at)
    variable.constant_line = True
    variable.constant = constant_of(variable.kind, text, at)


# ---------------------------------------------------------------- sample records

@dataclass
class Record:
    """`values` are those of the declared variables that aren't opaque, constants filled in."""
    line: int
    point: Point
    nonce: int | None
    values: list[Value]


NONCE_LINE = b"this_invocation_nonce"


def read_record(number: int, line: bytes, lines: Iterator[NumberedLine], table: Table, end: int) -> Record:
    """A sample record: the point's name, perhaps a nonce, then name, value and mark of each
    declared variable without a constant. A block that ends too early is Truncated at `end`."""
    point = table.find(unescape(line))
    if point is None or point.declaration is None:
        raise Fault(7, number)
    following = next(lines, None)
    nonce = None
    if following is not None and following[1] == NONCE_LINE:
        nonce = read_nonce(needed(lines, end))
        following = next(lines, None)
    values = []
    for variable in point.declaration.variables:
        value = variable.constant
        if not variable.constant_line:
            if following is None:
                raise Fault(12, end)
            value = read_value(variable, following, lines, end)
            following = next(lines, None)
        if variable.kind is not None:
            values.append(value)
    if following is not None:
        raise Fault(13, following[0])
    return Record(number, point, nonce, values)


def needed(lines: Iterator[NumberedLine], end: int) -> NumberedLine:
    """The next line, which must be there."""
    line = next(lines, None)
    if line is None:
        raise Fault(12, end)
    return line


def read_nonce(line: NumberedLine) -> int:
    """The nonce of a line."""
    at, text = line
    if not DECIMAL.fullmatch(text) or not fits_i64(int(text)):
        raise Fault(8, at)
    return int(text)


def read_value(variable: Variable, name_line: NumberedLine, lines: Iterator[NumberedLine], end: int) -> Value:
    """A value is judged when its mark is read; with mark 2 it is missing, whatever the text."""
    at, name = name_line
    if unescape(name) != variable.name:
        raise Fault(9, at)
    value_at, text = needed(lines, end)
    mark_at, mark = needed(lines, end)
    if mark not in (b"0", b"1", b"2"):
        raise Fault(11, mark_at)
    if mark == b"2" or variable.kind is None:
        return MISSING
    try:
        return value_of(variable.kind, text)
    except NoValue:
        raise Fault(10, value_at) from None
