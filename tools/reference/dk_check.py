#!/usr/bin/env python3
"""The checker: the lines of a report against the records of other traces."""

from __future__ import annotations

import re
import sys
from typing import Any, Iterator, NamedTuple, Sequence, Tuple

from command import Sinks, Usage, bytes_of_file, host_status, reader_after, status_of_run, arguments_of_command
from input_language import MISSING, STRING
from points import History, Point, Sample, Table, VarInfo
from rows import BROKEN, EMPTY, HOLDS, ROWS, Places, State, fits, is_proper, join, rows_of, state_of, text_of
from samples import capped, instances, moved
from sections import sections_in, untrimmed

USAGE = b"usage: dk_check [--ignore-missing-entry] ASSERTIONS [FILE]...\n"
GRAMMAR = 2
ONE_CODE = ("code", 1)

# a sample that reaches a point, after its FILE and line
Arrival = Tuple[str, int, Sample]


# ---------------------------------------------------------------- reading a text

def assertion_of(variables: Sequence[VarInfo], text: bytes) -> tuple[int, Places, State] | None:
    """The first instance that has this text with a state, and that state, which is Empty for the
    text of only one value; or None."""
    for number in rows_of(GRAMMAR):
        for places in instances(number, variables):
            names = [variables[place].name for place in places]
            for state in candidates(number, names, text):
                if (text_of(number, state, names) == text and is_proper(number, state)
                        and fits(state)):
                    return number, places, EMPTY if state == ONE_CODE else state
    return None


def candidates(number: int, names: list[bytes], text: bytes) -> list[State]:
    """States of which one has the text, if any state of the row has it."""
    words = ROWS[number].words
    if words == ("holds",):
        return [HOLDS]
    if words == ("truth",):
        return [("truth", True), ("truth", False)]
    if words == ("code",):
        return [("code", 0), ONE_CODE]
    return [state for word in words for state in with_numbers(number, word, names, text)]


def with_numbers(number: int, word: str, names: list[bytes], text: bytes) -> list[State]:
    """The states of this word with what stands in the text."""
    if word in ("least", "greatest"):
        return [(word, k) for k in numbers_in(rb".* [<>]= (-?[0-9]+)", text)]
    if word == "ints":
        items = re.findall(rb"-?[0-9]+", after_subject(number, names, text))
        return [(word, tuple(int(item) for item in items))]
    if word == "texts":
        items = re.findall(STRING.pattern + rb"|null", after_subject(number, names, text), re.S)
        return [(word, tuple(items))]
    if word == "modulus":
        return [(word, m, r) for r, m in numbers_in(rb".* == ([0-9]+) \(mod ([0-9]+)\)", text)]
    if word in ("straight", "plane"):
        return [(word,) + equation for equation in equations(names, text)]
    if word == "offset":
        pattern = re.escape(names[1] + b" == " + names[0]) + rb" ([+-] [0-9]+) \(elementwise\)"
        return [(word, k) for k in numbers_in(pattern, text)]
    return []


def numbers_in(pattern: bytes, text: bytes) -> list[Any]:
    """The numbers of the pattern's groups, if the whole text has its form."""
    match = re.fullmatch(pattern, text, re.S)
    if not match:
        return []
    found = tuple(int(group.replace(b" ", b"")) for group in match.groups())
    return [found if len(found) > 1 else found[0]]


def after_subject(number: int, names: list[bytes], text: bytes) -> bytes:
    """What stands after the names that the row's text begins with."""
    subject = names[0] + (b" elements" if number in (35, 47) else b"")
    return text[len(subject):]


def equations(names: list[bytes], text: bytes) -> list[tuple[int, ...]]:
    """The coefficients of the names and the constant."""
    pattern = rb"(?:([0-9]+) \* )?" + re.escape(names[0])
    for name in names[1:]:
        pattern += rb" ([+-]) (?:([0-9]+) \* )?" + re.escape(name)
    match = re.fullmatch(pattern + rb"(?: ([+-]) ([0-9]+))? == 0", text, re.S)
    if not match:
        return []
    first, *others = match.groups()
    numbers = [int(first or 1)]
    for sign, size in zip(others[:-2:2], others[1:-2:2]):
        numbers.append(signed(sign, size or 1))
    return [tuple(numbers) + (signed(others[-2], others[-1] or 0),)]


def signed(sign: bytes | None, size: bytes | int) -> int:
    """A size with its sign."""
    return -int(size) if sign == b"-" else int(size)


# ---------------------------------------------------------------- assertion files

class Assertion(NamedTuple):
    """An assertion as it stands in the file: the heading's name and the text."""
    point: bytes
    text: bytes


def assertions_in(lines: list[bytes]) -> list[Assertion]:
    """The lines of a report's sections, without their counts."""
    return [Assertion(section.point, line.text) for section in sections_in(lines) for line in section.lines]


# ---------------------------------------------------------------- records and verdicts

def reached(table: Table, point: Point, sample: Sample) -> Iterator[tuple[Point, Sample]]:
    """The points that a sample of the point reaches, once for each path of edges, each with the
    sample as it is mapped there."""
    yield point, sample
    for edge, parent in table.edges_from(point):
        yield from reached(table, parent, moved(sample, table.partners(edge, point, parent)))


def verdict(history: History, arrivals: dict[int, list[Arrival]], line: Assertion) -> bytes:
    """`arrivals` lists for each point by its position what reaches it, as (FILE, line, sample)."""
    point = history.table.find(line.point)
    found = assertion_of(point.variables, line.text) if point is not None else None
    if point is None or found is None:
        return b"unknown"
    number, places, state = found
    joined = state
    count = 0
    for file, at, sample in arrivals.get(point.index, []):
        values = tuple(sample[place] for place in places)
        if MISSING in values:
            continue
        count += 1
        joined = join(number, joined, state_of(number, {values}))
        if joined == BROKEN if state == EMPTY else joined != state:
            return b"violated at %s:%d" % (file.encode(), at)
    return b"ok [%d]" % capped(count)


def run(arguments: list[str], sinks: Sinks, folder: str) -> None:
    """Runs the program on the arguments."""
    found = arguments_of_command(arguments, ["--ignore-missing-entry"], [])
    if not found.files:
        raise Usage
    name, *files = found.files
    data = bytes_of_file(folder, name)
    reader = reader_after(name, data, "--ignore-missing-entry" in found.flags)
    history = reader.history
    arrivals: dict[int, list[Arrival]] = {}
    for file in files:
        for _ in reader.read(file, bytes_of_file(folder, file)):
            if history.newest is not None:
                at, point, sample = history.newest
                for there, mapped in reached(history.table, point, sample):
                    arrivals.setdefault(there.index, []).append((file, at, mapped))
    for line in assertions_in(untrimmed(data)):
        sinks.report(b"%s: %s: %s\n" % (line.point, line.text, verdict(history, arrivals, line)))


def status_of(arguments: list[str], sinks: Sinks, folder: str) -> int:
    """Runs the program; its status."""
    return status_of_run(run, arguments, sinks, folder, USAGE)


if __name__ == "__main__":
    sys.exit(host_status(status_of, sys.argv[1:]))
