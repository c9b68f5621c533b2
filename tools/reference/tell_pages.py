"""A report as a page, as `dk_tell --format html` tells it (docs/USING.md, A page to look at)."""

from __future__ import annotations

import re
from collections import Counter
from functools import lru_cache

from dk_check import assertion_of
from page_parts import parts
from points import History, VarInfo
from sections import Line, Section, sections_in, untrimmed

# the groups in their order, with the rows of docs/GRAMMAR.md that they have
GROUPS: dict[str, tuple[int, ...]] = {
    "Few values": (1, 6, 7, 9),
    "Bounds": (2, 3),
    "Never 0 or null": (4, 8, 10),
    "Remainders and divisors": (5, 16),
    "Equal": (11, 18, 20, 22, 57, 58, 59, 60),
    "Never equal": (12, 19, 21, 23),
    "Smaller and greater": (13, 14),
    "Linear equations": (15, 67),
    "Arithmetic": (17, *range(24, 35)),
    "Elements": (*range(35, 39), *range(44, 49), *range(52, 57)),
    "Order of elements": tuple(range(39, 44)),
    "Membership and subsets": (49, 50, 51, 63, 64, 65),
    "Two sequences, element by element": (61, 62, 66, 68),
    "Under a condition": (),
    "Other lines": (),
}
GROUP_OF_ROW = {row: group for group, rows in GROUPS.items() for row in rows}


# ---------------------------------------------------------------- what a report says

def sections_of(report: bytes) -> list[Section]:
    """The sections in their order, but for those that say nothing."""
    return [section for section in sections_in(untrimmed(report)) if section != Section(b"", None, [])]


@lru_cache(maxsize=None)
def group_of(variables: tuple[VarInfo, ...], text: bytes) -> str:
    """The group of the first instance that has the text; else it is a condition's line, or another one."""
    found = assertion_of(variables, text)
    if found is not None:
        return GROUP_OF_ROW[found[0]]
    return "Under a condition" if b" ==> " in text else "Other lines"


# ---------------------------------------------------------------- bytes as HTML

SIGNS = {"&": "&amp;", "<": "&lt;", ">": "&gt;"}
UNSEEN = re.compile("[\0-\x1f\x7f-\x9f\u061c\u200b-\u200f\u2028-\u202e\u2060-\u206f\ufeff]")
# bytes that stand for themselves in an id
OF_IDS = frozenset(range(0x21, 0x7f)) - frozenset(b'"%<>`')


def numbered(data: bytes) -> str:
    """Bytes by their numbers."""
    return "".join(f"<var>\\x{byte:02x}</var>" for byte in data)


def shown_character(character: str) -> str:
    """A character of a text."""
    return SIGNS.get(character) or (numbered(character.encode()) if UNSEEN.match(character) else character)


def shown(text: bytes) -> str:
    """A text; of one that is no UTF-8 each byte that isn't ASCII goes by its number."""
    try:
        return "".join(map(shown_character, text.decode()))
    except UnicodeDecodeError:
        return "".join(shown_character(chr(byte)) if byte < 128 else numbered(bytes([byte])) for byte in text)


def shown_name(name: bytes) -> str:
    """A name, which may be broken after its full stops."""
    return shown(name).replace(".", ".<wbr>")


def id_of(name: bytes, number: int) -> str:
    """The id of the section that is the one of this number of the sections with this name, from 1, as it stands in HTML."""
    body = "".join(chr(byte) if byte in OF_IDS else f"%{byte:02X}" for byte in name)
    return ((body or "%") + (f"%~{number}" if number > 1 else "")).replace("&", "&amp;")


# ---------------------------------------------------------------- the page

def ids_of(sections: list[Section]) -> list[str]:
    """The ids of the sections."""
    seen: Counter[bytes] = Counter()
    ids = []
    for section in sections:
        seen[section.point] += 1
        ids.append(id_of(section.point, seen[section.point]))
    return ids


def row_of(key: str, section: Section) -> str:
    """A section's row in the list of points."""
    samples = "" if section.samples is None else section.samples
    return f'<tr><td><a href="#{key}">{shown_name(section.point)}</a></td><td>{samples}</td><td>{len(section.lines)}</td></tr>\n'


def item_of(section: Section, line: Line) -> str:
    """A line as an item."""
    element = "i" if line.samples == section.samples else "b"
    number = "" if line.samples is None else f"<{element}>{line.samples}</{element}>"
    return f"<li><code>{shown(line.text)}</code>{number}</li>\n"


def part_of(section: Section, group: str, lines: list[Line]) -> str:
    """The lines of a group."""
    items = "".join(item_of(section, line) for line in lines)
    return f"<div>\n<h3>{group}</h3>\n<ul>\n{items}</ul>\n</div>\n" if lines else ""


def section_of(key: str, section: Section, variables: tuple[VarInfo, ...]) -> str:
    """A section with its groups."""
    samples = "" if section.samples is None else f"samples <b>{section.samples}</b> "
    numbers = f"<small>{samples}lines <b>{len(section.lines)}</b></small>"
    title = f'<section id="{key}">\n<h2><a href="#{key}">{shown_name(section.point)}</a> {numbers}</h2>\n'
    grouped: dict[str, list[Line]] = {group: [] for group in GROUPS}
    for line in section.lines:
        grouped[group_of(variables, line.text)].append(line)
    return title + "".join(part_of(section, group, lines) for group, lines in grouped.items()) + "</section>\n"


def page_of(sections: list[Section], history: History) -> str:
    """The sections as a page, with the points of the history."""
    points = [history.table.find(section.point) for section in sections]
    variables = [tuple(point.variables) if point else () for point in points]
    ids = ids_of(sections)
    head, middle, foot = parts()
    return "".join((head, *map(row_of, ids, sections), middle, *map(section_of, ids, sections, variables), foot))
