"""The parts that are the same on all pages, out of the program's source: they are texts for a browser, of which there is one copy."""

from __future__ import annotations

import re
from pathlib import Path
from typing import NamedTuple

SOURCE = Path(__file__).resolve().parent.parent.parent / "crates" / "dk_page" / "src" / "parts.rt"


class Parts(NamedTuple):
    """Up to the list of the points, between it and the sections, and after them."""

    head: str
    middle: str
    foot: str


def parts_of(source: str) -> Parts:
    """The parts in such a source."""
    found = dict(re.findall(r'const (HEAD|MIDDLE|FOOT): &str = r##"(.*?)"##;', source, re.DOTALL))
    return Parts(found["HEAD"], found["MIDDLE"], found["FOOT"])


def parts() -> Parts:
    """The parts of the program as it stands."""
    return parts_of(SOURCE.read_text(encoding="utf-8"))
