"""The table of the programs that are tried."""

from __future__ import annotations

import os
import subprocess
import sys
from dataclasses import dataclass
from types import ModuleType
from typing import Dict, List, Optional, Tuple

TOOLS = os.path.dirname(os.path.dirname(os.path.abspath(__file__)))
sys.path.insert(0, os.path.join(TOOLS, "reference"))

import daikon  # noqa: E402
import dk_check  # noqa: E402
import dk_merge  # noqa: E402
import dk_split  # noqa: E402
import dk_table  # noqa: E402
import dk_tell  # noqa: E402


@dataclass(frozen=True)
class Program:
    """What trials have to know of a program. `cases` are the kinds of random cases (tools/reference/traces.py) that are compared."""
    name: str
    reference: ModuleType
    flags: Tuple[str, ...]
    with_value: Tuple[str, ...]
    cases: Tuple[str, ...]

    @property
    def usage(self) -> bytes:
        """What the program says where its arguments are refused."""
        return self.reference.USAGE


# A program that joins the others gets a line here, and the kinds of inputs that it alone reads get a kind in table.py.
PROGRAMS: Dict[str, Program] = {program.name: program for program in (
    Program("daikon", daikon, tuple(daikon.FLAGS), tuple(daikon.WITH_VALUE), ("full", "one-file", "cut", "states", "forms", "order")),
    Program("dk_split", dk_split, ("--ignore-missing-entry",), ("--min-samples",), ("split",)),
    Program("dk_check", dk_check, ("--ignore-missing-entry",), (), ("check",)),
    Program("dk_merge", dk_merge, (), ("--min-samples", "--turns"), ("merge",)),
    Program("dk_table", dk_table, tuple(dk_table.FLAGS), tuple(dk_table.WITH_VALUE), ("table",)),
    Program("dk_tell", dk_tell, tuple(dk_tell.FLAGS), tuple(dk_tell.WITH_VALUE), ("tell",)),
)}


def paths_of_programs(folder: Optional[str]) -> Dict[str, str]:
    """Where each program is: in the folder, or where tools/program finds it."""
    surroundings = dict(os.environ)
    if folder is not None:
        surroundings["COBDAWU_PROGRAMS"] = os.path.abspath(folder)
    command = os.path.join(TOOLS, "program")
    return {name: subprocess.check_output([command, name], env=surroundings, text=True).strip() for name in PROGRAMS}


def is_built(path: str) -> bool:
    """Whether it is a program of the machine, not one for an interpreter, whose own memory and stack limits would bound."""
    with open(path, "rb") as file:
        return file.read(4) == b"\x7fELF"


def names_of(arguments: List[str]) -> List[str]:
    """The arguments that may name files."""
    return [word for word in arguments if not word.startswith("-") or word == "-"]
