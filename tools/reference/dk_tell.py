#!/usr/bin/env python3
"""A report in another language, JSON, Python, C, SMT-LIB, or as a page."""

from __future__ import annotations

import json
import re
import sys

from command import Sinks, Usage, Arguments, bytes_of_file, host_status, reader_after, status_of_run, arguments_of_command
from dk_check import assertion_of
from languages import Speaker
from points import VarInfo
from rows import EMPTY, State
from sections import Section, sections_in, untrimmed
from tell_pages import page_of, sections_of

USAGE = b"usage: dk_tell [--format json|python|c|smtlib|html] [--ignore-missing-entry] REPORT [FILE]...\n"
LANGUAGES = {"python": "Python", "c": "C", "smtlib": "Smtlib"}
ROW_NAMES = """OneOfInt LowerBound UpperBound NonZero Modulus OneOfBool OneOfHash NonNullHash OneOfStr NonNullStr EqInt NeInt Lt Le Linear
Divides Square EqBool NeBool EqHash NeHash EqStr NeStr Sum Difference Product Minimum Maximum Quotient Remainder And Or Xor Gcd EltOneOfInt
EltLower EltUpper EltNonZero SortedLt SortedLe SortedGt SortedGe EltsEqual EltOneOfBool EltOneOfHash EltNonNullHash EltOneOfStr
EltNonNullStr MemberInt MemberHash MemberStr EltEq EltLt EltLe EltGt EltGe EqIntSeq EqBoolSeq EqHashSeq EqStrSeq PairLt PairLe SubsetInt
SubsetHash SubsetStr Reverse LinearTernary PairOffset""".split()
PARAMETERS = {"least": ("least",), "greatest": ("greatest",), "code": ("code",), "modulus": ("modulus", "remainder"),
              "straight": ("a", "b", "c"), "plane": ("a", "b", "c", "d"), "offset": ("offset",)}


# ---------------------------------------------------------------- JSON

def json_text(text: bytes) -> str | list[int]:
    """A string, or the list of its bytes where it is no UTF-8."""
    try:
        return text.decode()
    except UnicodeDecodeError:
        return list(text)


def state_object(state: State) -> dict[str, object]:
    """The parameters of a state by name."""
    if state[0] == "ints":
        return {"values": list(state[1])}
    if state[0] == "texts":
        return {"values": [json_text(text) for text in state[1]]}
    if state[0] == "truth":
        return {"values": [state[1]]}
    return dict(zip(PARAMETERS.get(state[0], ()), state[1:]))


def line_object(point: bytes, text: bytes, samples: int | None, variables: list[VarInfo]) -> dict[str, object]:
    """A line as an object."""
    said = assertion_of(variables, text)
    front = {"point": json_text(point), "text": json_text(text), "samples": samples}
    if said is None:
        return {**front, "row": None, "variables": [], "state": {}}
    number, places, state = said
    names = [json_text(variables[place].name) for place in places]
    return {**front, "row": ROW_NAMES[number - 1], "variables": names, "state": {} if state == EMPTY else state_object(state)}


def json_section(section: Section, variables: list[VarInfo]) -> bytes:
    """A section as objects, one a line, without blanks."""
    objects = (line_object(section.point, text, samples, variables) for text, samples in section.lines)
    return b"".join(json.dumps(one, ensure_ascii=False, separators=(",", ":")).encode() + b"\n" for one in objects)


# ---------------------------------------------------------------- functions

def quoted(text: bytes) -> str:
    """A text in a comment or string: three octal digits for what can't be seen, isn't ASCII, or is a quote, backslash or question mark."""
    return '"' + "".join(chr(b) if 32 <= b < 127 and chr(b) not in '"\\?' else f"\\{b:03o}" for b in text) + '"'


def python_section(section: Section, speaker: Speaker, told: list[tuple[bytes, str]]) -> str:
    """A function of Python."""
    name = re.sub(r"\W", "_", section.point.decode("latin-1"), flags=re.ASCII)
    lines = "".join(f"    assert {expression}, {quoted(text)}\n" for text, expression in told)
    return f"def holds_at_{name}({', '.join(speaker.parameters)}):\n    {quoted(section.point)}\n{lines}\n\n"


def c_section(section: Section, speaker: Speaker, told: list[tuple[bytes, str]]) -> str:
    """A macro of C."""
    name = re.sub(r"\W", "_", section.point.decode("latin-1"), flags=re.ASCII)
    lines = "".join(f"    dk_holds({quoted(text)}, {expression}); \\\n" for text, expression in told)
    head = f"// {quoted(section.point)}, of {', '.join(speaker.parameters)}\n#define holds_at_{name}() do {{ \\\n"
    return f"{head}{lines}}} while (0)\n\n"


def smtlib_section(section: Section, speaker: Speaker, told: list[tuple[bytes, str]]) -> str:
    """A function of SMT-LIB."""
    name = re.sub(r"[\x00-\x1f\x7f|\\]", "_", section.point.decode("latin-1"))
    lines = "".join(f"    {expression} ; {quoted(text)}\n" for text, expression in told)
    head = f"; {quoted(section.point)}\n(define-fun |holds at {name}| ({' '.join(speaker.parameters)}) Bool (and true\n"
    return f"{head}{lines}))\n\n"


FRONTS = {"Python": "from math import gcd\n\n\n", "C": '#include "dk_told.h"\n\n',
          "Smtlib": "(define-fun-rec dk_gcd ((a Int) (b Int)) Int (ite (= b 0) a (dk_gcd b (mod a b))))\n\n"}
SECTIONS = {"Python": python_section, "C": c_section, "Smtlib": smtlib_section}
MARKS = {"Python": "#", "C": "//", "Smtlib": ";"}


def told_section(language: str, section: Section, variables: list[VarInfo]) -> bytes:
    """The comments of a section, and its function."""
    speaker = Speaker(language, variables)
    comments, told = "", []
    for text, _ in section.lines:
        said = assertion_of(variables, text)
        expression = speaker.telling(*said) if said is not None else None
        if expression is None:
            comments += f"{MARKS[language]} not told: {quoted(text)}\n"
        else:
            told.append((text, expression))
    return (comments + SECTIONS[language](section, speaker, told)).encode("latin-1")


# ---------------------------------------------------------------- the run

FLAGS, WITH_VALUE = ["--ignore-missing-entry"], ["--format"]


def options_of(arguments: list[str]) -> tuple[Arguments, str]:
    """The arguments of the command, and the format."""
    found = arguments_of_command(arguments, FLAGS, WITH_VALUE)
    form = found.values.get("--format", "json")
    if not found.files or form not in ("json", "html", *LANGUAGES):
        raise Usage
    return found, form


def run(arguments: list[str], sinks: Sinks, folder: str) -> None:
    """Runs the program on the arguments."""
    found, form = options_of(arguments)
    name, *files = found.files
    data = bytes_of_file(folder, name)
    reader = reader_after(name, data, "--ignore-missing-entry" in found.flags)
    history = reader.history
    for file in files:
        for _ in reader.read(file, bytes_of_file(folder, file)):
            pass
    if form == "html":
        sinks.report(page_of(sections_of(data), history).encode())
        return
    language = LANGUAGES.get(form)
    if language is not None:
        sinks.report(FRONTS[language].encode())
    for section in sections_in(untrimmed(data)):
        point = history.table.find(section.point)
        variables = point.variables if point is not None else []
        sinks.report(told_section(language, section, variables) if language else json_section(section, variables))


def status_of(arguments: list[str], sinks: Sinks, folder: str) -> int:
    """Runs the program; its status."""
    return status_of_run(run, arguments, sinks, folder, USAGE)


if __name__ == "__main__":
    sys.exit(host_status(status_of, sys.argv[1:]))
