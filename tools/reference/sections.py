"""The sections of a report: its points, each with the lines below its heading."""

from __future__ import annotations

import re
from typing import Iterable, List, NamedTuple, Optional

LIMIT = 1 << 64


class Line(NamedTuple):
    """A line of a report: its text, and its number of samples, if it has one."""
    text: bytes
    samples: Optional[int]


class Section(NamedTuple):
    """A point of a report: its name, its number of samples, if it has one, and its lines."""
    point: bytes
    samples: Optional[int]
    lines: List[Line]


def untrimmed(data: bytes) -> list[bytes]:
    """The lines without LF and without one CR at the end."""
    pieces = data.split(b"\n")
    if pieces[-1] == b"":
        pieces.pop()
    return [piece[:-1] if piece.endswith(b"\r") else piece for piece in pieces]


def without_count(line: bytes) -> bytes:
    """Without a last number in brackets, which follows two blanks."""
    return re.sub(rb"  \[[0-9]+\]\Z", b"", line)


def line_of(text: bytes) -> Line:
    """A line, or a heading: its text, and its last count, where it has one within 64 bits."""
    count = re.search(rb"  \[([0-9]+)\]\Z", text)
    return Line(without_count(text), int(count[1]) if count and int(count[1]) < LIMIT else None)


def sections_in(lines: Iterable[bytes]) -> list[Section]:
    """The sections in their order. A heading follows a line of `=`; lines above the first heading are of a point with the empty name."""
    front = Section(b"", None, [])
    found = [front]
    awaits_heading = False
    for text in lines:
        if text.strip(b" \t") == b"":
            continue
        if re.fullmatch(rb"=+", text):
            awaits_heading = True
        elif awaits_heading:
            found.append(Section(*line_of(text), []))
            awaits_heading = False
        elif not text.startswith((b"--- ", b"stats ")):
            found[-1].lines.append(line_of(text))
    return found if front.lines else found[1:]
