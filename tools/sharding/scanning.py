"""Which calls of a stretch of a trace may have a record outside of it, and what it declares.

An exit takes an entry by the rules of docs/FORMATS.md (Calls). A stretch is scanned without what stands before
it, in one of two ways:

- by its nonces: each stretch of a file *owns* a range of numbers, so that no number has two owners. Told are the
  calls whose nonce the stretch doesn't own, and those that have none. A search finds them without a look at the
  others, which are few where the nonces of a file are counted up.
- call by call: told are the exits for which no entry of the stretch waits, and the entries that wait at its end.
"""

from __future__ import annotations

import re
from typing import Collection, Dict, FrozenSet, List, NamedTuple, Optional, Pattern, Tuple

from . import blocks
from .nonces import FIRST_ENTRY, Owned, outside, with_any

EXIT_TAG = re.compile(rb"EXIT[0-9]*")
MOST_TOLD = 3000  # calls of a stretch that are told by their nonces; more are followed sooner call by call


class Stretch(NamedTuple):
    """Whole blocks of a file that belong to one piece. Of a file that isn't cut only the declarations
    are looked for."""
    path: str
    file: int
    piece: int
    start: int
    end: int
    is_cut: bool = True


class Place(NamedTuple):
    """A block: a text of whole blocks that it is in, and its number there."""
    start: int
    length: int
    number: int


class Call(NamedTuple):
    """The record of an entry or of an exit. `method` is its name as it is meant, `nonce` the number's one
    spelling."""
    place: Place
    is_entry: bool
    method: bytes
    nonce: Optional[bytes]


class Declared(NamedTuple):
    """A block that every part gets, or the header lines before a sample. `name` is the point
    of a declaration."""
    offset: int
    end: int
    name: Optional[bytes]
    is_front: bool


class Scan(NamedTuple):
    """What a stretch says. There are no calls where too many would be told by their nonces."""
    declared: List[Declared]
    calls: Optional[List[Call]]


# ---------------------------------------------------------------- points

class Role:
    """What the point of a first line is to calls. `waiting` has its method's entries by nonce,
    each with the earlier one of that nonce."""
    __slots__ = ("is_entry", "method", "waiting")

    def __init__(self, is_entry: bool, method: bytes, waiting: dict) -> None:
        self.is_entry, self.method, self.waiting = is_entry, method, waiting


SPECIAL = Role(False, b"", {})


class Roles(dict):
    """The role of each first line: None for a plain point, SPECIAL where the block begins with
    something else. `plain_exits` are exits that have no entry."""

    def __init__(self, plain_exits: FrozenSet[bytes]) -> None:
        super().__init__()
        self.plain_exits = plain_exits
        self.methods: Dict[bytes, dict] = {}

    def __missing__(self, line: bytes) -> Optional[Role]:
        role = SPECIAL if blocks.is_special(line) else self.role_of(blocks.unescaped(line))
        if not line.startswith((b"#", b"//")):
            self[line] = role
        return role

    def role_of(self, name: bytes) -> Optional[Role]:
        """The role of the point of this name."""
        method, colons, tag = name.rpartition(b":::")
        is_exit = EXIT_TAG.fullmatch(tag) and name not in self.plain_exits
        if not colons or not (tag == b"ENTER" or is_exit):
            return None
        return Role(tag == b"ENTER", method, self.methods.setdefault(method, {}))


def number_text(nonce: bytes) -> Optional[bytes]:
    """One spelling for each number; None where there is no nonce."""
    digits = nonce.lstrip(b"-").lstrip(b"0")
    if not nonce or not digits:
        return b"0" if nonce else None
    return b"-" + digits if nonce.startswith(b"-") else digits


def nonce_of(front: blocks.Front) -> bytes:
    """The nonce of a sample as it is spelled."""
    return front.third if front.second == blocks.NONCE_LINE else b""


def declared_by(front: blocks.Front, start: int, end: int) -> Optional[Declared]:
    """What a block between two offsets of its file declares or puts in force."""
    if front.kind == "sample":
        return Declared(start, start + front.record_at, None, True) if front.has_headers else None
    return None if front.kind == "comments" else Declared(start, end, declared_name(front), False)


def declared_name(front: blocks.Front) -> Optional[bytes]:
    """The point that a declaration declares."""
    if front.kind != "declaration":
        return None
    if front.line == b"DECLARE":
        return blocks.unescaped(front.second)
    return blocks.unescaped(front.line[3:].lstrip(b" \t"))


def plain_exits_of(names: List[bytes]) -> FrozenSet[bytes]:
    """Exits that were declared without their entry in front, of the names in declared order."""
    declared = set()
    plain = set()
    for name in names:
        method, colons, tag = name.rpartition(b":::")
        if name not in declared and colons and EXIT_TAG.fullmatch(tag) and method + b":::ENTER" not in declared:
            plain.add(name)
        declared.add(name)
    return frozenset(plain)


# ---------------------------------------------------------------- by nonces

class Finder:
    """Finds in the slices of a stretch what is declared, and the calls that a pattern finds in parted text. Calls
    after comments and header lines may be among them."""

    def __init__(self, plain_exits: FrozenSet[bytes], pattern: Optional[Pattern[bytes]]) -> None:
        self.roles = Roles(plain_exits)
        self.pattern = pattern
        self.declared: List[Declared] = []
        self.calls: List[Call] = []

    def take_slice(self, offset: int, text: bytes) -> None:
        """Searches one slice."""
        searched = blocks.Slice(text)
        found = [match.start() + 2 for match in blocks.SPECIAL_START.finditer(searched.parted)]
        if self.pattern is not None:
            found += [match.start() for match in self.pattern.finditer(searched.parted)]
        for start, end in sorted({searched.block_at(at) for at in found}):
            self.take_block(offset + start, text[start:end])

    def take_block(self, offset: int, block: bytes) -> None:
        """Keeps what one block declares, and its call."""
        front = blocks.front_of(block)
        told = declared_by(front, offset, offset + len(block))
        if told is not None:
            self.declared.append(told)
        role = self.roles[front.line] if front.kind == "sample" else None
        if role is not None:
            place = Place(offset, len(block), 0)
            self.calls.append(Call(place, role.is_entry, role.method, number_text(nonce_of(front))))


def scan_by_nonces(stretch: Stretch, owned: Owned, plain_exits: FrozenSet[bytes]) -> Scan:
    """Scans a stretch that owns these numbers."""
    finder = Finder(plain_exits, outside(owned) if stretch.is_cut else None)
    with open(stretch.path, "rb", buffering=0) as file:
        for offset, text in blocks.slices(file, stretch.start, stretch.end):
            finder.take_slice(offset, text)
            if len(finder.calls) > MOST_TOLD:
                return Scan([], None)
    return Scan(finder.declared, finder.calls)


def calls_with(stretch: Stretch, nonces: Collection[bytes], plain_exits: FrozenSet[bytes]) -> List[Call]:
    """The calls of a stretch that have one of these nonces, spelled plainly."""
    finder = Finder(plain_exits, with_any(nonces))
    with open(stretch.path, "rb", buffering=0) as file:
        for offset, text in blocks.slices(file, stretch.start, stretch.end):
            finder.take_slice(offset, text)
    return [call for call in finder.calls if call.nonce in nonces]


def first_nonce(stretch: Stretch) -> Optional[int]:
    """The nonce of the first entry of a stretch that has one; nothing where none is found."""
    if stretch.is_cut:
        with open(stretch.path, "rb", buffering=0) as file:
            for _, text in blocks.slices(file, stretch.start, stretch.end):
                found = FIRST_ENTRY.search(text)
                if found:
                    return int(found.group(1))
    return None


# ---------------------------------------------------------------- call by call

class Follower:
    """Follows the calls of the slices of a stretch. What is told of calls without nonces is a stack: an exit takes no
    entry below an exit that is open, since it isn't known whether that one has ended the wait of those entries."""

    def __init__(self, plain_exits: FrozenSet[bytes]) -> None:
        self.roles = Roles(plain_exits)
        self.opens: List[Tuple[int, bool, bytes, Optional[bytes]]] = []
        self.stack: List[Tuple[int, bool, bytes, Optional[bytes]]] = []
        self.declared: List[Declared] = []
        self.extents: List[Tuple[int, int]] = []

    def take_slice(self, offset: int, text: bytes) -> None:
        """Follows the calls of one slice."""
        found = blocks.FIRST_LINE.findall(blocks.normalized(text))
        base = len(self.extents) << 32
        self.extents.append((offset, len(text)))
        roles = self.roles
        starts: List[int] = []
        for number, (line, nonce) in enumerate(found):
            role = roles[line]
            if role is None:
                continue
            if role is SPECIAL:
                starts = starts or blocks.block_starts(text)
                line, nonce = self.take_special(offset, text, starts[number], starts[number + 1])
                role = roles[line] if line else None
                if role is None:
                    continue
            if nonce < b"1":
                nonce = number_text(nonce)
                if nonce is None:
                    self.take_without_nonce(role, base + number)
                    continue
            if role.is_entry:
                role.waiting[nonce] = (base + number, role.waiting.get(nonce))
                continue
            taken = role.waiting.pop(nonce, None)
            if taken is None:
                self.opens.append((base + number, False, role.method, nonce))
            elif taken[1] is not None:
                role.waiting[nonce] = taken[1]

    def take_special(self, offset: int, text: bytes, start: int, end: int) -> Tuple[bytes, bytes]:
        """Keeps what is declared or put in force. Gives the first line and the nonce of a sample
        after comments and header lines."""
        front = blocks.front_of(text[start:end])
        told = declared_by(front, offset + start, offset + end)
        if told is not None:
            self.declared.append(told)
        return (front.line, nonce_of(front)) if front.kind == "sample" else (b"", b"")

    def take_without_nonce(self, role: Role, place: int) -> None:
        """An entry waits; an exit takes the latest one of its method with all later ones."""
        stack = self.stack
        if not role.is_entry:
            at = len(stack) - 1
            while at >= 0 and stack[at][1] and stack[at][2] != role.method:
                at -= 1
            if at >= 0 and stack[at][1]:
                del stack[at:]
                return
        stack.append((place, role.is_entry, role.method, None))

    def calls(self) -> List[Call]:
        """What is told of the calls, in their order."""
        told = self.opens + self.stack
        for method, entries in self.roles.methods.items():
            for nonce, entry in entries.items():
                while entry is not None:
                    told.append((entry[0], True, method, nonce))
                    entry = entry[1]
        return [Call(Place(*self.extents[at >> 32], at & 0xFFFFFFFF), is_entry, method, nonce)
                for at, is_entry, method, nonce in sorted(told, key=lambda item: item[0])]


def scan_by_calls(stretch: Stretch, plain_exits: FrozenSet[bytes]) -> Scan:
    """Scans a stretch call by call."""
    follower = Follower(plain_exits)
    with open(stretch.path, "rb", buffering=0) as file:
        for offset, text in blocks.slices(file, stretch.start, stretch.end):
            follower.take_slice(offset, text)
    return Scan(follower.declared, follower.calls())
