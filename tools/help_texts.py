"""The help texts of the five programs, as their sources have them."""

from __future__ import annotations

import os
import re

TOP = os.path.dirname(os.path.dirname(os.path.abspath(__file__)))
SOURCES: dict[str, str] = {
    "daikon": "crates/dk_command_line/src/texts.rt",
    "dk_split": "crates/dk_split/src/texts.rt",
    "dk_check": "crates/dk_check/src/texts.rt",
    "dk_merge": "crates/dk_merge_command_line/src/texts.rt",
    "dk_tell": "crates/dk_tell/src/texts.rt",
    "dk_table": "crates/dk_table/src/words/texts.rt",
}
ESCAPES = {"\\n": "\n", '\\"': '"', "\\\\": "\\", "\\\n": ""}


def constant(program: str, name: str) -> str:
    """A text constant of the program's source."""
    with open(os.path.join(TOP, SOURCES[program]), encoding="utf-8") as lines:
        found = re.search(r'const %s: &str =\s*"((?:[^"\\]|\\.)*)";' % name, lines.read(), re.S)
    if found is None:
        raise LookupError(f"{SOURCES[program]} has no constant {name}")
    return re.sub(r"\\.", lambda it: ESCAPES[it[0]], found[1], flags=re.S)


def help_text(program: str) -> str:
    """The help text of a program."""
    return constant(program, "HELP_TEXT")


def version_text(program: str) -> str:
    """What a program says of its version."""
    return constant(program, "VERSION_TEXT")
