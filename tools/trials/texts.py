"""Texts with changes in them."""

from __future__ import annotations

import random
from typing import Callable, Dict, List, Tuple

from trials.bench import Outcome
from trials.laws import faulty_file

from command import USAGE_STATUS  # noqa: E402
from traces import Maker  # noqa: E402

INPUTS_OF_A_SEED = 20


def random_bytes(draw: random.Random, lines: List[bytes], at: int) -> None:
    """Puts random bytes in the place of the line."""
    count = draw.randint(1, 12)
    lines[at] = draw.getrandbits(8 * count).to_bytes(count, "little")


def long_line(draw: random.Random, lines: List[bytes], at: int) -> None:
    """Makes the line long."""
    lines[at] += draw.choice([b"x", b" ", b"9", b"[", b"\\", b'"', b"\xc3"]) * draw.choice([100, 5_000, 70_000])


def blocks_doubled(draw: random.Random, lines: List[bytes], at: int) -> None:
    """Has a stretch of lines again."""
    lines[at:at] = lines[at:at + 40] * draw.choice([1, 1, 3])


def zero_byte(draw: random.Random, lines: List[bytes], at: int) -> None:
    """Puts a byte 0 in."""
    place = draw.randint(0, len(lines[at]))
    lines[at] = lines[at][:place] + b"\0" + lines[at][place:]


def carriage_return(draw: random.Random, lines: List[bytes], at: int) -> None:
    """Puts a carriage return at the end."""
    lines[at] += draw.choice([b"\r", b"\r\r", b" \r"])


MARKS = (b"0", b"1", b"2")
VALUE_WORDS = (b"true", b"false", b"null", b"nonsensical", b"uninit", b"missing")


def number_changed(draw: random.Random, lines: List[bytes], at: int) -> None:
    """Another number as a value, but for those that may be truth values."""
    places = [k for k, line in enumerate(lines[:-1]) if line not in MARKS and line.lstrip(b"-").isdigit() and lines[k + 1] in MARKS]
    if places:
        lines[draw.choice(places)] = b"%d" % draw.choice([0, 1, -1, 7, draw.randint(-99, 99), 1 << 62, -(1 << 63), draw.getrandbits(63)])


def mark_changed(draw: random.Random, lines: List[bytes], at: int) -> None:
    """Another mark in the place of 0 or 1."""
    places = [k for k, line in enumerate(lines) if line in MARKS[:2] and (not lines[k - 1][:1].isalpha() or lines[k - 1] in VALUE_WORDS)]
    if places:
        lines[draw.choice(places)] = draw.choice(MARKS)


def blanks_around(draw: random.Random, lines: List[bytes], at: int) -> None:
    """Puts blanks around the line."""
    lines[at] = draw.choice([b" ", b"\t", b""]) + lines[at] + draw.choice([b" ", b"\t", b"\r", b""])


def header_added(draw: random.Random, lines: List[bytes], at: int) -> None:
    """A comment or a header in a block of its own."""
    places = [k for k, line in enumerate(lines) if not line.strip()]
    if places:
        place = draw.choice(places)
        lines[place:place] = [b"", draw.choice([b"# x", b"// x", b"decl-version 2.0", b"var-comparability none"]), b""]


def block_at(lines: List[bytes], at: int) -> Tuple[int, int]:
    """The block around or after the line, with the blank line after it."""
    start, end = at, at
    while start > 0 and lines[start - 1].strip():
        start -= 1
    while end < len(lines) and lines[end].strip():
        end += 1
    return start, end + 1


def block_doubled(draw: random.Random, lines: List[bytes], at: int) -> None:
    """Has the block again."""
    start, end = block_at(lines, at)
    lines[start:start] = lines[start:end] * draw.choice([1, 1, 5])


def block_left_out(draw: random.Random, lines: List[bytes], at: int) -> None:
    """Leaves the block out, unless it is a declaration."""
    start, end = block_at(lines, at)
    if not lines[start].startswith((b"ppt", b"DECLARE")):
        del lines[start:end]


Change = Callable[[random.Random, List[bytes], int], None]
# changes that mostly leave a text to be read, and some that no writer of traces would make
MILD: List[Change] = [number_changed, number_changed, mark_changed, blanks_around, header_added, block_doubled, block_left_out]
HOSTILE: List[Change] = [random_bytes, long_line, blocks_doubled, zero_byte, carriage_return]


def changed(maker: Maker, text: bytes, changes: List[Change]) -> bytes:
    """The text with one to three changes."""
    lines = text.split(b"\n")
    for change in maker.random.choices(changes, k=maker.random.randint(1, 3)):
        change(maker.random, lines, maker.random.randrange(len(lines)))
        lines = lines or [b""]
    return b"\n".join(lines)


def mutated(maker: Maker, text: bytes) -> bytes:
    """The text with a few changes of its lines."""
    shape = maker.random.random()
    if shape < 0.4:
        return changed(maker, text, MILD)
    return changed(maker, text, HOSTILE) if shape < 0.5 else maker.mutated(text)


def planned(seed: int) -> Maker:
    """A maker whose points are planned."""
    maker = Maker(seed)
    maker.plan_points()
    return maker


def trace_of(maker: Maker) -> bytes:
    """A trace of the maker's points."""
    maker.waiting = []
    text: bytes = maker.text(maker.blocks(maker.random.choice([2, 4, 8, 16])))
    return text


def mutated_traces(maker: Maker, text: bytes) -> Dict[str, bytes]:
    """Some files that are mostly read, and one more: the first that is refused ends the run."""
    number = maker.random.choice([0, 2, 6, 12])
    texts = [changed(maker, text, MILD) for _ in range(number)] + [mutated(maker, text)]
    return {"t%02d" % k: one for k, one in enumerate(texts)}


def files_read(outcome: Outcome, names: List[str]) -> int:
    """How many files the run has looked at; arguments that are refused are one input."""
    if outcome.status == USAGE_STATUS:
        return 1
    name = faulty_file(outcome)
    return names.index(name) + 1 if name in names else len(names)
