"""The grammar: rows, states of a list of tuples, rules of suppression, texts.

A state is a tuple whose first item is its word in a state file:
('empty',) ('broken',) ('holds',) ('least', k) ('greatest', k) ('ints', values) ('truth', b)
('code', h) ('texts', values) ('one', v) ('modulus', m, r) ('spot', x, y) ('straight', a, b, c)
('span', x1, y1, z1, x2, y2, z2) ('plane', a, b, c, d) ('offset', k)
"""

from __future__ import annotations

from dataclasses import dataclass
from math import gcd
from typing import TYPE_CHECKING, Any, Callable, Collection, Iterable, Protocol, Sequence, Tuple

from input_language import ELEMENT, STRING, Value, fits_i64, fits_u64

if TYPE_CHECKING:
    from points import VarInfo

State = Tuple[Any, ...]
Numbers = Tuple[int, ...]
# the positions of variables, by the roles of a row
Places = Tuple[int, ...]
# the values of variables in one sample
Values = Tuple[Value, ...]
Tuples = Collection[Values]
Relation = Callable[..., bool]
StateOfValues = Callable[[Collection[Value]], State]
StateOfTuples = Callable[[Tuples], State]
TextOfState = Callable[[Sequence[bytes], State], bytes]
# of each role the kind, and ANY or BASE
Takes = Tuple[Tuple[str, str], ...]
Premise = Tuple[Any, ...]

EMPTY = ("empty",)
BROKEN = ("broken",)
HOLDS = ("holds",)

ANY = "any"
BASE = "base"
LINEAR_RANGE = 1 << 62
PLANE_RANGE = 1 << 30


@dataclass(frozen=True)
class Row:
    """`takes` has for each role its kind and whether derived variables are taken. `exchange`
    lists the roles that may be exchanged. A plain row has a relation, another one the function
    that gives the state of a list of tuples, and the words that its states may have."""
    number: int
    takes: Takes
    exchange: Places
    relation: Relation | None
    state_of_tuples: StateOfTuples | None
    words: tuple[str, ...]
    text: TextOfState


# ---------------------------------------------------------------- states of a list of values

def least(values: Collection[int]) -> State:
    """The least value."""
    return ("least", min(values)) if values else EMPTY


def greatest(values: Collection[int]) -> State:
    """The greatest value."""
    return ("greatest", max(values)) if values else EMPTY


def few_of(word: str, most: int) -> StateOfValues:
    """The distinct values, ascending, if there are at most so many."""
    def state(values: Iterable[Value]) -> State:
        """The state of a list of values."""
        values = sorted(set(values))
        if not values:
            return EMPTY
        return (word, tuple(values)) if len(values) <= most else BROKEN
    return state


def single_of(word: str) -> StateOfValues:
    """The value, if there is only one."""
    def state(values: Iterable[Value]) -> State:
        """The state of a list of values."""
        values = set(values)
        if not values:
            return EMPTY
        return (word, values.pop()) if len(values) == 1 else BROKEN
    return state


def modulus(values: Iterable[int]) -> State:
    """For several values the greatest common divisor of all differences and the remainder."""
    values = list(set(values))
    if not values:
        return EMPTY
    if len(values) == 1:
        return ("one", values[0])
    m = 0
    for value in values:
        m = gcd(m, value - values[0])
    return BROKEN if m == 1 else ("modulus", m, values[0] % m)


def signed(numbers: Numbers, constant: int) -> Numbers:
    """Divides by the greatest common divisor; the first number that isn't 0 becomes positive."""
    divisor = 0
    for number in numbers:
        divisor = gcd(divisor, number)
    if next(number for number in numbers if number != 0) < 0:
        divisor = -divisor
    return tuple(number // divisor for number in numbers) + (constant // divisor,)


def line_through(p: Numbers, q: Numbers) -> Numbers:
    """The equation of the line through two points."""
    a, b = q[1] - p[1], p[0] - q[0]
    return signed((a, b), -(a * p[0] + b * p[1]))


def is_on(equation: Numbers, point: Numbers) -> bool:
    """Whether the point meets the equation."""
    return sum(c * x for c, x in zip(equation, point)) + equation[-1] == 0


def linear(points: Iterable[Numbers]) -> State:
    """The point, or the line that all points are on."""
    points = list(set(points))
    if any(abs(number) > LINEAR_RANGE for point in points for number in point):
        return BROKEN
    if len(points) <= 1:
        return ("spot",) + points[0] if points else EMPTY
    line = line_through(points[0], points[1])
    return ("straight",) + line if all(is_on(line, point) for point in points) else BROKEN


def difference(p: Numbers, q: Numbers) -> Numbers:
    """What leads from one point to another."""
    return tuple(b - a for a, b in zip(p, q))


def cross(u: Numbers, v: Numbers) -> Numbers:
    """The cross product."""
    return (u[1] * v[2] - u[2] * v[1], u[2] * v[0] - u[0] * v[2], u[0] * v[1] - u[1] * v[0])


def plane(points: Iterable[Numbers]) -> State:
    """The ends of a line that all points are on, or the plane that they are on."""
    points = sorted(set(points))
    if any(abs(number) > PLANE_RANGE for point in points for number in point):
        return BROKEN
    if not points:
        return EMPTY
    first, last = points[0], points[-1]
    direction = difference(first, last)
    for point in points:
        normal = cross(direction, difference(first, point))
        if normal != (0, 0, 0):
            constant = -sum(c * x for c, x in zip(normal, first))
            equation = signed(normal, constant)
            on_it = all(is_on(equation, other) for other in points)
            return ("plane",) + equation if on_it else BROKEN
    return ("span",) + first + last


def offset(pairs: Tuples) -> State:
    """The one difference of elements at the same place."""
    if any(len(s) != len(t) for s, t in pairs):
        return BROKEN
    return single_of("offset")([y - x for s, t in pairs for x, y in zip(s, t)])


# ---------------------------------------------------------------- relations

def is_product_square(x: int, y: int) -> bool:
    """Whether x is the square of y."""
    return x == y * y


def divides(x: int, y: int) -> bool:
    """Whether y divides x."""
    return y != 0 and x % y == 0


def quotient(x: int, y: int) -> int:
    """The quotient cut towards 0."""
    size = abs(x) // abs(y)
    return size if (x < 0) == (y < 0) else -size


def neighbours(relation: Relation) -> Relation:
    """The relation of each element to the next one."""
    return lambda s: all(relation(a, b) for a, b in zip(s, s[1:]))


def each_against(relation: Relation) -> Relation:
    """The relation of each element to a number."""
    return lambda s, x: all(relation(element, x) for element in s)


def elementwise(relation: Relation) -> Relation:
    """The relation of elements at the same place, in sequences of one length."""
    return lambda s, t: len(s) == len(t) and all(relation(a, b) for a, b in zip(s, t))


def equal(x: Value, y: Value) -> bool:
    """Whether both are the same."""
    return x == y


def unequal(x: Value, y: Value) -> bool:
    """Whether both differ."""
    return x != y


def below(x: int, y: int) -> bool:
    """Whether x is less than y."""
    return x < y


def at_most(x: int, y: int) -> bool:
    """Whether x is not more than y."""
    return x <= y


def above(x: int, y: int) -> bool:
    """Whether x is more than y."""
    return x > y


def at_least(x: int, y: int) -> bool:
    """Whether x is not less than y."""
    return x >= y


def is_subset(s: Collection[Value], t: Collection[Value]) -> bool:
    """Whether each element of s is one of t's."""
    return set(s) <= set(t)


# ---------------------------------------------------------------- texts

def value_text(value: Value) -> bytes:
    """The one text of a value, as in a state file."""
    if value is None:
        return b"missing"
    if isinstance(value, bool):
        return b"true" if value else b"false"
    return value if isinstance(value, bytes) else b"%d" % value


def one_of(subject: bytes, values: Collection[Value]) -> bytes:
    """The text of a few values."""
    texts = [value_text(value) for value in values]
    if len(texts) == 1:
        return subject + b" == " + texts[0]
    return subject + b" one of { " + b", ".join(texts) + b" }"


def terms_text(numbers: Numbers, names: Sequence[bytes], constant: int) -> bytes:
    """The first number that isn't 0 is positive, and the first one isn't 0 where this is asked."""
    text = b""
    for number, name in zip(numbers, names):
        if text:
            text += b" + " if number > 0 else b" - "
        text += name if abs(number) == 1 else b"%d * %s" % (abs(number), name)
    if constant != 0:
        text += (b" + " if constant > 0 else b" - ") + b"%d" % abs(constant)
    return text + b" == 0"


def offset_text(names: Sequence[bytes], k: int) -> bytes:
    """The text of a difference of elements at the same place."""
    sign = b"+" if k > 0 else b"-"
    return b"%s == %s %s %d (elementwise)" % (names[1], names[0], sign, abs(k))


def code_text(subject: bytes, state: State, otherwise: bytes) -> bytes:
    """The text of a hash code: null is told, another one isn't."""
    return subject + (b" == null" if state[1] == 0 else otherwise)


def infix(operator: bytes, ending: bytes = b"") -> TextOfState:
    """The text with the operator between two names."""
    return lambda names, state: names[0] + operator + names[1] + ending


def suffix(ending: bytes) -> TextOfState:
    """The text with an ending after the name."""
    return lambda names, state: names[0] + ending


def function(before: bytes, between: bytes, after: bytes = b"") -> TextOfState:
    """The text of a function of two names."""
    return lambda names, state: (names[0] + b" == " + before + names[1] + between + names[2]
                                 + after)


# ---------------------------------------------------------------- the rows

ROWS: dict[int, Row] = {}


def row(number: int, takes: Takes, text: TextOfState, relation: Relation | None = None, states: StateOfTuples | None = None,
        words: tuple[str, ...] = (), exchange: Places = ()) -> None:
    """Adds a row to the table."""
    ROWS[number] = Row(number, takes, exchange, relation, states,
                       ("holds",) if relation else words, text)


def single(function_of_values: StateOfValues) -> StateOfTuples:
    """The state of the values of the one variable."""
    return lambda tuples: function_of_values([t[0] for t in tuples])


def of_elements(function_of_values: StateOfValues) -> StateOfTuples:
    """The state of all elements of all tuples."""
    return lambda tuples: function_of_values([element for t in tuples for element in t[0]])


INT, BOOL, HASH, STR = ("Int", ANY), ("Bool", ANY), ("Hash", ANY), ("Str", ANY)
INTS, BOOLS, HASHES, STRS = ("IntSeq", ANY), ("BoolSeq", ANY), ("HashSeq", ANY), ("StrSeq", ANY)


def base(*takes: tuple[str, str]) -> Takes:
    """The kinds, of base variables alone."""
    return tuple((kind, BASE) for kind, _ in takes)


BOTH = (0, 1)
ARGUMENTS = (1, 2)


def scalar_rows() -> None:
    """Rows of one scalar."""
    row(1, (INT,), lambda n, s: one_of(n[0], s[1]), states=single(few_of("ints", 3)),
        words=("ints",))
    row(2, (INT,), lambda n, s: b"%s >= %d" % (n[0], s[1]), states=single(least), words=("least",))
    row(3, (INT,), lambda n, s: b"%s <= %d" % (n[0], s[1]), states=single(greatest),
        words=("greatest",))
    row(4, (INT,), suffix(b" != 0"), lambda x: x != 0)
    row(5, (INT,), lambda n, s: b"%s == %d (mod %d)" % (n[0], s[2], s[1]), states=single(modulus),
        words=("one", "modulus"))
    row(6, (BOOL,), lambda n, s: one_of(n[0], s[1:]), states=single(single_of("truth")),
        words=("truth",))
    row(7, (HASH,), lambda n, s: code_text(n[0], s, b" has only one value"),
        states=single(single_of("code")), words=("code",))
    row(8, (HASH,), suffix(b" != null"), lambda x: x != 0)
    row(9, (STR,), lambda n, s: one_of(n[0], s[1]), states=single(few_of("texts", 3)),
        words=("texts",))
    row(10, (STR,), suffix(b" != null"), lambda x: x != b"null")


def pair_rows() -> None:
    """Rows of two scalars."""
    row(11, (INT, INT), infix(b" == "), equal, exchange=BOTH)
    row(12, (INT, INT), infix(b" != "), unequal, exchange=BOTH)
    row(13, (INT, INT), infix(b" < "), below)
    row(14, (INT, INT), infix(b" <= "), at_most)
    row(15, (INT, INT), lambda n, s: terms_text(s[1:3], n, s[3]), states=linear,
        words=("spot", "straight"), exchange=BOTH)
    row(16, base(INT, INT), infix(b" % ", b" == 0"), divides)
    row(17, base(INT, INT), lambda n, s: b"%s == %s * %s" % (n[0], n[1], n[1]), is_product_square)
    row(18, (BOOL, BOOL), infix(b" == "), equal, exchange=BOTH)
    row(19, (BOOL, BOOL), infix(b" != "), unequal, exchange=BOTH)
    row(20, (HASH, HASH), infix(b" == "), equal, exchange=BOTH)
    row(21, (HASH, HASH), infix(b" != "), unequal, exchange=BOTH)
    row(22, (STR, STR), infix(b" == "), equal, exchange=BOTH)
    row(23, (STR, STR), infix(b" != "), unequal, exchange=BOTH)


def triple_rows() -> None:
    """Rows of three numbers."""
    three = base(INT, INT, INT)
    row(24, three, function(b"", b" + "), lambda z, x, y: z == x + y, exchange=ARGUMENTS)
    row(25, three, function(b"", b" - "), lambda z, x, y: z == x - y)
    row(26, three, function(b"", b" * "), lambda z, x, y: z == x * y, exchange=ARGUMENTS)
    row(27, three, function(b"min(", b", ", b")"), lambda z, x, y: z == min(x, y),
        exchange=ARGUMENTS)
    row(28, three, function(b"max(", b", ", b")"), lambda z, x, y: z == max(x, y),
        exchange=ARGUMENTS)
    row(29, three, function(b"", b" / "), lambda z, x, y: y != 0 and z == quotient(x, y))
    row(30, three, function(b"", b" % "),
        lambda z, x, y: y != 0 and z == x - y * quotient(x, y))
    row(31, three, function(b"", b" & "), lambda z, x, y: z == x & y, exchange=ARGUMENTS)
    row(32, three, function(b"", b" | "), lambda z, x, y: z == x | y, exchange=ARGUMENTS)
    row(33, three, function(b"", b" ^ "), lambda z, x, y: z == x ^ y, exchange=ARGUMENTS)
    row(34, three, function(b"gcd(", b", ", b")"), lambda z, x, y: z == gcd(x, y),
        exchange=ARGUMENTS)


def sequence_rows() -> None:
    """Rows of one sequence."""
    row(35, (INTS,), lambda n, s: one_of(n[0] + b" elements", s[1]),
        states=of_elements(few_of("ints", 3)), words=("ints",))
    row(36, (INTS,), lambda n, s: b"%s elements >= %d" % (n[0], s[1]), states=of_elements(least),
        words=("least",))
    row(37, (INTS,), lambda n, s: b"%s elements <= %d" % (n[0], s[1]),
        states=of_elements(greatest), words=("greatest",))
    row(38, (INTS,), suffix(b" elements != 0"), lambda s: 0 not in s)
    row(39, (INTS,), suffix(b" sorted by <"), neighbours(below))
    row(40, (INTS,), suffix(b" sorted by <="), neighbours(at_most))
    row(41, (INTS,), suffix(b" sorted by >"), neighbours(above))
    row(42, (INTS,), suffix(b" sorted by >="), neighbours(at_least))
    row(43, (INTS,), suffix(b" elements are equal"), neighbours(equal))
    row(44, (BOOLS,), lambda n, s: one_of(n[0] + b" elements", s[1:]),
        states=of_elements(single_of("truth")), words=("truth",))
    row(45, (HASHES,), lambda n, s: code_text(n[0] + b" elements", s, b" have only one value"),
        states=of_elements(single_of("code")), words=("code",))
    row(46, (HASHES,), suffix(b" elements != null"), lambda s: 0 not in s)
    row(47, (STRS,), lambda n, s: one_of(n[0] + b" elements", s[1]),
        states=of_elements(few_of("texts", 3)), words=("texts",))
    row(48, (STRS,), suffix(b" elements != null"), lambda s: b"null" not in s)


def sequence_pair_rows() -> None:
    """Rows of a sequence and a scalar, and of two sequences."""
    for number, takes in ((49, (INT, INTS)), (50, (HASH, HASHES)), (51, (STR, STRS))):
        row(number, base(*takes), infix(b" in "), lambda x, s: x in s)
    against = (INTS, ("Int", BASE))
    row(52, against, infix(b" elements == "), each_against(equal))
    row(53, against, infix(b" elements < "), each_against(below))
    row(54, against, infix(b" elements <= "), each_against(at_most))
    row(55, against, infix(b" elements > "), each_against(above))
    row(56, against, infix(b" elements >= "), each_against(at_least))
    for number, kind in ((57, INTS), (58, BOOLS), (59, HASHES), (60, STRS)):
        row(number, (kind, kind), infix(b" == "), equal, exchange=BOTH)
    row(61, base(INTS, INTS), infix(b" < ", b" (elementwise)"), elementwise(below))
    row(62, base(INTS, INTS), infix(b" <= ", b" (elementwise)"), elementwise(at_most))
    for number, kind in ((63, INTS), (64, HASHES), (65, STRS)):
        row(number, base(kind, kind), infix(b" is a subset of "), is_subset)
    row(66, base(INTS, INTS), infix(b" is the reverse of "), lambda s, t: s[::-1] == t,
        exchange=BOTH)


def second_grammar_rows() -> None:
    """Rows that the second grammar adds."""
    row(67, base(INT, INT, INT), lambda n, s: terms_text(s[1:4], n, s[4]), states=plane,
        words=("span", "plane"), exchange=(0, 1, 2))
    row(68, base(INTS, INTS), lambda n, s: offset_text(n, s[1]), states=offset,
        words=("offset",), exchange=BOTH)


for make in (scalar_rows, pair_rows, triple_rows, sequence_rows, sequence_pair_rows,
             second_grammar_rows):
    make()


def rows_of(grammar: int) -> range:
    """The numbers of the grammar's rows."""
    return range(1, 67 if grammar == 1 else 69)


EQUALITIES = {11, 18, 20, 22, 57, 58, 59, 60}
ONE_OF_SCALAR = {"Int": 1, "Bool": 6, "Hash": 7, "Str": 9}
ONE_OF_BESIDE = {2: 1, 3: 1, 4: 1, 5: 1, 8: 7, 10: 9, 36: 35, 37: 35, 38: 35, 46: 45, 48: 47}


def state_of(number: int, tuples: Tuples) -> State:
    """The row's state of a set of tuples without a missing value."""
    here = ROWS[number]
    if here.state_of_tuples is not None:
        return here.state_of_tuples(tuples)
    relation = here.relation
    assert relation is not None
    if not tuples:
        return EMPTY
    return HOLDS if all(relation(*values) for values in tuples) else BROKEN


def fits(state: State) -> bool:
    """Whether an instance with this state is an invariant."""
    if state[0] == "straight":
        return 0 not in state[1:3]
    if state[0] == "plane":
        return 0 not in state[1:4]
    if state[0] == "offset":
        return state[1] != 0
    return state[0] not in ("empty", "broken", "one", "spot", "span")


def text_of(number: int, state: State, names: Sequence[bytes]) -> bytes:
    """The text of an instance."""
    return ROWS[number].text(names, state)


def admits(number: int, variables: Sequence[VarInfo], places: Places) -> bool:
    """Whether the row takes these variables, in this order of roles."""
    takes = ROWS[number].takes
    if len(takes) != len(places):
        return False
    return all(variables[place].kind == kind and (which == ANY or variables[place].is_base())
               for (kind, which), place in zip(takes, places))


def is_written(number: int, places: Places) -> bool:
    """Whether the variables in the exchangeable roles don't descend."""
    exchanged = [places[role] for role in ROWS[number].exchange]
    return exchanged == sorted(exchanged)


# ---------------------------------------------------------------- both lists together

def join(number: int, a: State, b: State) -> State:
    """The state of two lists together, from their states."""
    if a == EMPTY or b == BROKEN:
        return b
    if b == EMPTY or a == BROKEN or a == b:
        return a
    word = a[0]
    if word in ("least", "greatest"):
        return (word, (min if word == "least" else max)(a[1], b[1]))
    if word in ("ints", "texts"):
        return few_of(word, 3)(a[1] + b[1])
    if word in ("one", "modulus"):
        return modulus(modulus_values(a) + modulus_values(b))
    if word in ("spot", "straight"):
        return join_linear(a, b)
    if word in ("span", "plane"):
        return join_plane(a, b)
    return BROKEN


def modulus_values(state: State) -> list[int]:
    """Values with this state."""
    return [state[1]] if state[0] == "one" else [state[2], state[2] + state[1]]


def join_linear(a: State, b: State) -> State:
    """The state of both lists of pairs, from theirs."""
    if a[0] == "straight" and b[0] == "straight":
        return BROKEN
    if a[0] == "spot" and b[0] == "spot":
        return linear([a[1:], b[1:]])
    line, spot = (a, b) if a[0] == "straight" else (b, a)
    return line if is_on(line[1:], spot[1:]) else BROKEN


def join_plane(a: State, b: State) -> State:
    """The state of both lists of triples, from theirs."""
    if a[0] == "plane" and b[0] == "plane":
        return BROKEN
    if a[0] == "span" and b[0] == "span":
        return plane([a[1:4], a[4:], b[1:4], b[4:]])
    flat, span = (a, b) if a[0] == "plane" else (b, a)
    both_on = is_on(flat[1:], span[1:4]) and is_on(flat[1:], span[4:])
    return flat if both_on else BROKEN


def exchanged(number: int, state: State, order: Sequence[int]) -> State:
    """The state of the tuples in another order of roles, in which role k is the old role
    order[k]."""
    def moved(numbers: Numbers) -> Numbers:
        return tuple(numbers[role] for role in order)

    if state[0] == "spot":
        return (state[0],) + moved(state[1:])
    if state[0] in ("straight", "plane"):
        return (state[0],) + signed(moved(state[1:-1]), state[-1])
    if state[0] == "span":
        ends = sorted((moved(state[1:4]), moved(state[4:])))
        return ("span",) + ends[0] + ends[1]
    if state[0] == "offset" and tuple(order) == (1, 0):
        return ("offset", -state[1])
    return state


def written_order(number: int, places: Sequence[int]) -> list[int]:
    """The order of roles that writes the tuple: role k of the written one is role order[k]."""
    order = list(range(len(places)))
    roles = ROWS[number].exchange
    for role, old in zip(roles, sorted(roles, key=lambda old: places[old])):
        order[role] = old
    return order


def is_proper(number: int, state: State) -> bool:
    """Whether the state is one that the row can have."""
    word = state[0]
    if state in (EMPTY, BROKEN):
        return True
    if word not in ROWS[number].words:
        return False
    numbers = state[1:]
    if word in ("least", "greatest", "one"):
        return fits_i64(numbers[0])
    if word in ("ints", "texts"):
        values = numbers[0]
        ascending = all(x < y for x, y in zip(values, values[1:]))
        good = all(fits_i64(value) if word == "ints" else is_string(value) for value in values)
        return 1 <= len(values) <= 3 and good and ascending
    if word == "code":
        return fits_u64(numbers[0])
    if word == "modulus":
        return fits_u64(numbers[0]) and numbers[0] >= 2 and 0 <= numbers[1] < numbers[0]
    if word == "spot":
        return all(abs(number) <= LINEAR_RANGE for number in numbers)
    if word == "span":
        in_range = all(abs(number) <= PLANE_RANGE for number in numbers)
        return in_range and numbers[:3] <= numbers[3:]
    if word == "straight":
        return is_proper_equation(numbers, 1 << 126)
    if word == "plane":
        return is_proper_equation(numbers, 1 << 95)
    if word == "offset":
        return abs(numbers[0]) < 1 << 64
    return True


def is_string(text: bytes) -> bool:
    """Whether the bytes are a value of strings."""
    return text == b"null" or STRING.fullmatch(text) is not None


def is_proper_equation(numbers: Numbers, most: int) -> bool:
    """Whether the coefficients are those of one spelling, within their limits."""
    coefficients = numbers[:-1]
    if all(number == 0 for number in coefficients):
        return False
    first = next(number for number in coefficients if number != 0)
    return (gcd(*coefficients) == 1 and first > 0 and abs(numbers[-1]) <= most
            and all(abs(number) <= 1 << 63 for number in coefficients))


# ---------------------------------------------------------------- rules of suppression

class Answers(Protocol):
    """What is asked of the samples that a rule is about."""
    variables: list[VarInfo]

    def fit(self, number: int, places: Places) -> State:
        """The state of the row over these variables."""


def fit(number: int, *roles: int) -> Premise:
    """A premise: the row holds over these roles."""
    return ("holds", number, roles)


def least_at_least(role: int, k: int) -> Premise:
    """A premise: the least value is at least k."""
    return ("least", role, k)


def greatest_at_most(role: int, k: int) -> Premise:
    """A premise: the greatest value is at most k."""
    return ("greatest", role, k)


def only(role: int, k: int) -> Premise:
    """A premise: k is the only value."""
    return ("only", role, k)


X, Y = 0, 1
# For rows of three the roles are z, x and y.
Z3, X3, Y3 = 0, 1, 2

RULES: list[tuple[int, list[Premise]]] = [
    (4, [least_at_least(X, 1)]),
    (4, [greatest_at_most(X, -1)]),
    (12, [fit(13, X, Y)]),
    (12, [fit(13, Y, X)]),
    (14, [fit(13, X, Y)]),
    (14, [fit(11, X, Y)]),
    (16, [fit(11, X, Y), fit(4, Y)]),
    (16, [only(Y, 1)]),
    (16, [only(Y, -1)]),
    (16, [only(X, 0), fit(4, Y)]),
    (17, [fit(11, X, Y), least_at_least(X, 0), greatest_at_most(X, 1)]),
    (24, [fit(11, Z3, X3), only(Y3, 0)]),
    (24, [fit(11, Z3, Y3), only(X3, 0)]),
    (25, [fit(24, X3, Z3, Y3)]),
    (26, [fit(11, Z3, X3), only(Y3, 1)]),
    (26, [fit(11, Z3, Y3), only(X3, 1)]),
    (26, [only(Z3, 0), only(X3, 0)]),
    (26, [only(Z3, 0), only(Y3, 0)]),
    (27, [fit(11, Z3, X3), fit(14, X3, Y3)]),
    (27, [fit(11, Z3, Y3), fit(14, Y3, X3)]),
    (28, [fit(11, Z3, X3), fit(14, Y3, X3)]),
    (28, [fit(11, Z3, Y3), fit(14, X3, Y3)]),
    (29, [fit(11, Z3, X3), only(Y3, 1)]),
    (29, [only(Z3, 0), only(X3, 0), fit(4, Y3)]),
    (29, [only(Z3, 1), fit(11, X3, Y3), fit(4, Y3)]),
    (29, [only(Z3, 0), least_at_least(X3, 0), fit(13, X3, Y3)]),
    (30, [only(Z3, 0), fit(16, X3, Y3)]),
    (30, [fit(11, Z3, X3), least_at_least(X3, 0), fit(13, X3, Y3)]),
    (31, [fit(11, Z3, X3), fit(11, X3, Y3)]),
    (31, [only(Z3, 0), only(X3, 0)]),
    (31, [only(Z3, 0), only(Y3, 0)]),
    (31, [fit(11, Z3, X3), only(Y3, -1)]),
    (31, [fit(11, Z3, Y3), only(X3, -1)]),
    (32, [fit(11, Z3, X3), fit(11, X3, Y3)]),
    (32, [fit(11, Z3, X3), only(Y3, 0)]),
    (32, [fit(11, Z3, Y3), only(X3, 0)]),
    (33, [fit(11, Z3, X3), only(Y3, 0)]),
    (33, [fit(11, Z3, Y3), only(X3, 0)]),
    (33, [only(Z3, 0), fit(11, X3, Y3)]),
    (34, [only(Z3, 1), only(X3, 1)]),
    (34, [only(Z3, 1), only(Y3, 1)]),
    (34, [fit(11, Z3, X3), least_at_least(X3, 1), fit(16, Y3, X3)]),
    (34, [fit(11, Z3, Y3), least_at_least(Y3, 1), fit(16, X3, Y3)]),
    (38, [least_at_least(X, 1)]),
    (38, [greatest_at_most(X, -1)]),
    (40, [fit(39, X)]),
    (40, [fit(43, X)]),
    (42, [fit(41, X)]),
    (42, [fit(43, X)]),
    (54, [fit(53, X, Y)]),
    (54, [fit(52, X, Y)]),
    (56, [fit(55, X, Y)]),
    (56, [fit(52, X, Y)]),
    (62, [fit(61, X, Y)]),
    (62, [fit(57, X, Y)]),
    (66, [fit(57, X, Y), fit(43, X)]),
    (63, [fit(57, X, Y)]),
    (63, [fit(66, X, Y)]),
    (64, [fit(59, X, Y)]),
    (65, [fit(60, X, Y)]),
]


def premise_fits(answers: Answers, premise: Premise, places: Places) -> bool:
    """Whether a premise over the conclusion's variables fits. `answers` gives the variables and
    the state of each row over them."""
    word = premise[0]
    if word == "holds":
        return fits(answers.fit(premise[1], tuple(places[role] for role in premise[2])))
    place, k = places[premise[1]], premise[2]
    sequence = answers.variables[place].kind in ELEMENT
    if word == "least":
        state = answers.fit(36 if sequence else 2, (place,))
        return state[0] == "least" and state[1] >= k
    if word == "greatest":
        state = answers.fit(37 if sequence else 3, (place,))
        return state[0] == "greatest" and state[1] <= k
    return answers.fit(1, (place,)) == ("ints", (k,))


def is_suppressed(answers: Answers, number: int, places: Places) -> bool:
    """Whether all premises of one of the row's rules fit."""
    return any(all(premise_fits(answers, premise, places) for premise in premises)
               for conclusion, premises in RULES if conclusion == number)
