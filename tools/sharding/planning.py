"""How files are cut into parts.

A part is the files with some of their sample blocks left out: each part has all declarations and
header lines at their places, and each sample block is in one part. A file is cut into pieces
between blocks; an entry whose exit is in a later piece goes there, before the piece. So an
exit and the entry that it takes are in one part, and an entry that is moved was taken by no exit
of its own piece.
"""

from __future__ import annotations

import gc
import json
import os
from concurrent.futures import Executor, ProcessPoolExecutor
from dataclasses import asdict, dataclass, field
from itertools import groupby, repeat
from typing import Any, Callable, Dict, FrozenSet, Iterable, List, Optional, Sequence, Set, Tuple

from . import blocks
from .nonces import Owned, owned_by_each, owner_of
from .scanning import (Call, Declared, Place, Scan, Stretch, calls_with, first_nonce, plain_exits_of, scan_by_calls,
                       scan_by_nonces)

STRETCH = 8 << 20
MOST_WAITING = 1_000_000

Span = Tuple[int, int, int]  # a file's number, where a text begins in it, and where it ends


class TooManyWait(Exception):
    """More calls wait in a file than are followed."""

    def __init__(self, file: int) -> None:
        super().__init__(file)
        self.file = file


@dataclass
class Source:
    """A file as it was when the plan was made."""
    name: str
    path: str
    size: int
    changed: int

    def is_as_planned(self) -> bool:
        """Whether the file has the size and the time of its last change that it had."""
        try:
            status = os.stat(self.path)
        except OSError:
            return False
        return (status.st_size, status.st_mtime_ns) == (self.size, self.changed)


@dataclass
class Part:
    """Pieces of files, whole blocks that are put before them, and blocks of them that are
    left out. A piece that is a whole file goes as it is."""
    pieces: List[Span] = field(default_factory=list)
    moved: List[Span] = field(default_factory=list)
    left_out: List[Span] = field(default_factory=list)


@dataclass
class Plan:
    """`declared` are blocks that each part gets, `fronts` the header lines before samples."""
    sources: List[Source]
    words: List[str]
    parts: List[Part]
    declared: List[Span] = field(default_factory=list)
    fronts: List[Span] = field(default_factory=list)

    def save(self, path: str) -> None:
        """Writes the plan at once or not at all."""
        with open(path + ".new", "w", encoding="utf-8") as file:
            json.dump(asdict(self), file)
        os.replace(path + ".new", path)

    @staticmethod
    def load(path: str) -> "Plan":
        """The plan of a file."""
        with open(path, encoding="utf-8") as file:
            found = json.load(file)
        parts = [Part(**{key: spans_of(spans) for key, spans in part.items()}) for part in found["parts"]]
        return Plan([Source(**source) for source in found["sources"]], found["words"], parts, spans_of(found["declared"]),
                    spans_of(found["fronts"]))


def spans_of(found: List[Any]) -> List[Span]:
    """Spans that were read as lists."""
    return [(file, start, end) for file, start, end in found]


@dataclass
class Text:
    """A file that daikon reads: one that lies there, or spans one after another."""
    spans: List[Span]
    is_whole: bool = False


# ---------------------------------------------------------------- pieces

def laid_out(sources: Sequence[Source], parts: int, least: int, uncut: Set[int]) -> List[List[Span]]:
    """The pieces of each part: large files are cut, and others are put together, in order."""
    total = sum(source.size for source in sources)
    wanted = max(least, -(-total // parts), 1)
    found: List[List[Span]] = []
    group: List[Span] = []
    for number, source in enumerate(sources):
        count = 1 if number in uncut else round(source.size / wanted)
        spans = pieces_of(number, source, count, least)
        if len(spans) > 1 or sum(end - start for _, start, end in group + spans) > 1.5 * wanted:
            found += [group] if group else []
            group = []
        if len(spans) > 1:
            found += [[span] for span in spans]
        else:
            group += spans
    return found + ([group] if group else [])


def pieces_of(number: int, source: Source, count: int, least: int) -> List[Span]:
    """A file cut between blocks near so many equal pieces, none of which is smaller than `least` but a whole file."""
    cuts = [0]
    with open(source.path, "rb", buffering=0) as file:
        for k in range(1, count):
            cut = blocks.block_end_after(file, max(source.size * k // count, cuts[-1] + least), source.size)
            if cut is not None and source.size - cut >= least:
                cuts.append(cut)
    return [(number, start, end) for start, end in zip(cuts, cuts[1:] + [source.size])]


def stretches_of(sources: Sequence[Source], layout: List[List[Span]]) -> List[Stretch]:
    """The pieces cut further, for the scan."""
    found = []
    for part, spans in enumerate(layout):
        for number, start, end in spans:
            source = sources[number]
            is_cut = (start, end) != (0, source.size)
            with open(source.path, "rb", buffering=0) as file:
                while start < end:
                    cut = blocks.block_end_after(file, start + STRETCH, source.size)
                    cut = end if cut is None else min(cut, end)
                    found.append(Stretch(source.path, number, part, start, cut, is_cut))
                    start = cut
    return found


# ---------------------------------------------------------------- calls across pieces

@dataclass
class Crossing:
    """An entry whose exit is in a later piece."""
    stretch: Stretch
    place: Place
    piece: int


class Join:
    """Follows calls from stretch to stretch of a file."""

    def __init__(self, file: int) -> None:
        self.file = file
        self.by_nonce: Dict[Tuple[bytes, bytes], List[Tuple[Stretch, Place]]] = {}
        self.stack: List[Tuple[bytes, Stretch, Place]] = []
        self.waiting = 0
        self.crossings: List[Crossing] = []

    def take(self, stretch: Stretch, call: Call) -> None:
        """An entry waits, an exit takes one."""
        if call.is_entry:
            self.wait(stretch, call)
            return
        taken = self.taken(call.method) if call.nonce is None else self.taken_by_nonce(call.method, call.nonce)
        if taken is not None and taken[0].piece != stretch.piece:
            self.crossings.append(Crossing(*taken, stretch.piece))

    def wait(self, stretch: Stretch, entry: Call) -> None:
        """Adds an entry."""
        if entry.nonce is None:
            self.stack.append((entry.method, stretch, entry.place))
        else:
            self.by_nonce.setdefault((entry.method, entry.nonce), []).append((stretch, entry.place))
        self.waiting += 1
        if self.waiting > MOST_WAITING:
            raise TooManyWait(self.file)

    def taken_by_nonce(self, method: bytes, nonce: bytes) -> Optional[Tuple[Stretch, Place]]:
        """Takes the entry of an exit with a nonce, if one waits."""
        entries = self.by_nonce.get((method, nonce))
        if not entries:
            return None
        self.waiting -= 1
        entry = entries.pop()
        if not entries:
            del self.by_nonce[method, nonce]
        return entry

    def taken(self, method: bytes) -> Optional[Tuple[Stretch, Place]]:
        """Takes the entry of an exit without a nonce, if one waits, with all later ones."""
        for at in range(len(self.stack) - 1, -1, -1):
            if self.stack[at][0] == method:
                _, stretch, place = self.stack[at]
                self.waiting -= len(self.stack) - at
                del self.stack[at:]
                return stretch, place
        return None


def joined(stretches: List[Stretch], scans: List[Scan]) -> List[Crossing]:
    """The calls that cross a cut."""
    crossings: List[Crossing] = []
    join = None
    for stretch, found in zip(stretches, scans):
        if join is None or join.file != stretch.file:
            join = Join(stretch.file)
            join.crossings = crossings
        for call in found.calls or ():
            join.take(stretch, call)
    return crossings


def scanned(stretches: List[Stretch], jobs: int) -> Tuple[List[Tuple[int, Declared]], List[Crossing]]:
    """What all stretches declare, each with its file, and the calls that cross a cut. Which exits have no entry is
    guessed by the first stretch, and if the declarations tell something else, all are scanned again."""
    plain = plain_exits_in(scan_by_nonces(stretches[0]._replace(is_cut=False), Owned(0, 0), frozenset()).declared)
    with ProcessPoolExecutor(jobs, initializer=gc.disable) as pool:
        owned = owned_by(stretches, pool.map(first_nonce, stretches))
        while True:
            scans = scans_of(pool, stretches, owned, plain)
            declared = [(stretch.file, block) for stretch, found in zip(stretches, scans) for block in found.declared]
            found = plain_exits_in([block for _, block in declared])
            if found == plain:
                return declared, joined(stretches, scans)
            plain = found


def plain_exits_in(declared: List[Declared]) -> FrozenSet[bytes]:
    """Exits that have no entry."""
    return plain_exits_of([block.name for block in declared if block.name is not None])


def owned_by(stretches: List[Stretch], firsts: Iterable[Optional[int]]) -> List[Owned]:
    """The numbers that the stretches own, each within its file."""
    owned: List[Owned] = []
    for _, group in groupby(zip(stretches, firsts), key=lambda item: item[0].file):
        owned += owned_by_each([first for _, first in group])
    return owned


def scans_of(pool: Executor, stretches: List[Stretch], owned: List[Owned], plain_exits: FrozenSet[bytes]) -> List[Scan]:
    """Scans all stretches by their nonces, and call by call those of files with too many calls to be told."""
    scans = list(pool.map(scan_by_nonces, stretches, owned, repeat(plain_exits)))
    others = files_to_follow(stretches, scans)
    places = [at for at, stretch in enumerate(stretches) if stretch.file in others]
    followed = pool.map(scan_by_calls, [stretches[at] for at in places], repeat(plain_exits))
    for at, scan in zip(places, followed):
        scans[at] = scan
    sought = sought_in(stretches, scans, owned, others)
    found = pool.map(calls_with, [stretches[at] for at in sought], sought.values(), repeat(plain_exits))
    for at, calls in zip(sought, found):
        told = sorted({*(scans[at].calls or ()), *calls}, key=lambda call: call.place)
        scans[at] = scans[at]._replace(calls=told)
    return scans


def files_to_follow(stretches: List[Stretch], scans: List[Scan]) -> Set[int]:
    """The files whose nonces tell too many calls."""
    told: Dict[int, int] = {}
    for stretch, found in zip(stretches, scans):
        told[stretch.file] = told.get(stretch.file, 0) + (MOST_WAITING + 1 if found.calls is None else len(found.calls))
    return {file for file, count in told.items() if count > MOST_WAITING}


def sought_in(stretches: List[Stretch], scans: List[Scan], owned: List[Owned], others: Set[int]) -> Dict[int, Set[bytes]]:
    """For the places of stretches the nonces that they own and that are told in another piece of the file."""
    sought: Dict[int, Set[bytes]] = {}
    at = 0
    for file, group in groupby(stretches, key=lambda stretch: stretch.file):
        count = len(list(group))
        if file not in others:
            for place in range(at, at + count):
                for call in scans[place].calls or ():
                    owner = owner_of(call.nonce, owned[at:at + count])
                    if owner is not None and call.nonce is not None and stretches[at + owner].piece != stretches[place].piece:
                        sought.setdefault(at + owner, set()).add(call.nonce)
        at += count
    return sought


def located(crossings: List[Crossing]) -> List[Tuple[Crossing, Span]]:
    """Where the blocks of the crossing entries lie."""
    by_slice: Dict[Tuple[str, int, int], List[Crossing]] = {}
    for crossing in crossings:
        key = (crossing.stretch.path, crossing.place.start, crossing.place.length)
        by_slice.setdefault(key, []).append(crossing)
    found = []
    for (path, start, length), inside in by_slice.items():
        with open(path, "rb", buffering=0) as file:
            file.seek(start)
            starts = blocks.block_starts(file.read(length))
        for crossing in inside:
            number = crossing.place.number
            found.append((crossing, (crossing.stretch.file, start + starts[number], start + starts[number + 1])))
    return found


# ---------------------------------------------------------------- the plan

def planned(sources: List[Source], words: List[str], parts: int, least: int, jobs: int,
            tell: Callable[[str], None] = lambda line: None) -> Plan:
    """Cuts the files into parts."""
    uncut: Set[int] = set()
    while True:
        layout = laid_out(sources, parts, least, uncut)
        plan = Plan(sources, words, [Part(pieces) for pieces in layout] or [Part()])
        if len(plan.parts) == 1:
            return plan
        try:
            add_scan(plan, stretches_of(sources, layout), jobs)
        except TooManyWait as fault:
            tell(f"{sources[fault.file].name}: more than {MOST_WAITING} calls wait at once; it is taken whole")
            uncut.add(fault.file)
            continue
        check(plan)
        return plan


def add_scan(plan: Plan, stretches: List[Stretch], jobs: int) -> None:
    """Puts what the scan finds into the plan."""
    declared, crossings = scanned(stretches, jobs)
    for file, block in declared:
        span = (file, block.offset, block.end)
        if block.is_front:
            plan.fronts.append(span)
        elif plan.declared and plan.declared[-1][0] == file and plan.declared[-1][2] == block.offset:
            plan.declared[-1] = (file, plan.declared[-1][1], block.end)
        else:
            plan.declared.append(span)
    for crossing, span in sorted(located(crossings), key=lambda item: item[1]):
        plan.parts[crossing.stretch.piece].left_out.append(span)
        plan.parts[crossing.piece].moved.append(span)


def check(plan: Plan) -> None:
    """The pieces are the files, and what is left out of one part is moved to another."""
    pieces = [span for part in plan.parts for span in part.pieces]
    for number, source in enumerate(plan.sources):
        ends = [0] + [end for file, _, end in pieces if file == number]
        starts = [start for file, start, _ in pieces if file == number] + [source.size]
        assert source.size == 0 or ends == starts, "the pieces aren't the file"
    moved = sorted(span for part in plan.parts for span in part.moved)
    assert moved == sorted(span for part in plan.parts for span in part.left_out), "blocks are lost"
    assert len(set(moved)) == len(moved), "a block is moved twice"


def texts_of(plan: Plan, part: Part) -> List[Text]:
    """The files that daikon reads for a part."""
    if len(plan.parts) == 1:
        return [Text([(number, 0, source.size)], True) for number, source in enumerate(plan.sources)]
    files = [file for file, _, _ in part.pieces]
    everywhere = sorted(plan.declared + plan.fronts)
    front = [span for span in everywhere if span[0] < files[0]]
    tail = [span for span in everywhere if span[0] > files[-1]]
    texts = [Text(front)] if front else []
    for piece in part.pieces:
        texts.append(text_of_piece(plan, part, piece, everywhere))
    return texts + ([Text(tail)] if tail else [])


def text_of_piece(plan: Plan, part: Part, piece: Span, everywhere: List[Span]) -> Text:
    """A piece with what stands before it and after it."""
    file, start, end = piece
    if (start, end) == (0, plan.sources[file].size):
        return Text([piece], True)
    moved_at = {at for _, at, _ in part.moved}
    fronts = {span[1]: span for span in plan.fronts if span[0] == file}
    others = [span for span in everywhere
              if span[0] == file and not (span[1] in moved_at and fronts.get(span[1]) == span)]
    inside = []
    for _, block, block_end in sorted(part.left_out):
        inside += [(file, start, block), *([fronts[block]] if block in fronts else [])]
        start = block_end
    inside.append((file, start, end))
    return Text(sorted(clipped(others, 0, piece[1]) + part.moved) + clipped(inside, *piece[1:])
                + clipped(others, end, plan.sources[file].size))


def clipped(spans: List[Span], start: int, end: int) -> List[Span]:
    """What of the spans lies between two places."""
    found = [(file, max(first, start), min(last, end)) for file, first, last in spans]
    return [span for span in found if span[1] < span[2]]
