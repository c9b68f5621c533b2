"""Tables of runs that are asked for a text. It is the constant that the program's source has; what counts is which arguments ask for it."""

from __future__ import annotations

import os
import sys

from writing import Case

sys.path.insert(0, os.path.dirname(os.path.dirname(os.path.dirname(os.path.abspath(__file__)))))

from help_texts import help_text, version_text  # noqa: E402

WORDS = ("--help", "-h", "--help --colour", "t --help", "--version", "-V", "-V --help")


def asked(program: str, arguments: str) -> Case:
    """A run that asks for help or the version, whichever stands first. A read would fail."""
    first = next(word for word in arguments.split() if word in ("--help", "-h", "--version", "-V"))
    text = help_text(program) if first in ("--help", "-h") else version_text(program)
    case = Case(f"asked for a text: {arguments}", program, tuple(arguments.split()), {}, {"failing-reads": "1"})
    return case.coming_to(0, report=text.encode())


def cases_of(program: str) -> list[Case]:
    """The arguments that ask for a text."""
    return [asked(program, arguments) for arguments in WORDS]


ABOUT = "Words that ask for a text. No file need be named, and a read would fail."
TABLES = {
    "dk_table/help.cases": (ABOUT, lambda: cases_of("dk_table")),
    "dk_tell/help.cases": (ABOUT, lambda: cases_of("dk_tell")),
}
