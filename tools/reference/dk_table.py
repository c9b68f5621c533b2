#!/usr/bin/env python3
"""Tables of comma-separated values as traces."""

from __future__ import annotations

import csv
import io
import os
import re
import sys
from codecs import BOM_UTF8
from dataclasses import dataclass
from itertools import chain, islice
from typing import Any, Iterator, Tuple

from command import Ended, Sinks, Usage, bytes_of_file, host_status, number_between, status_of_run, arguments_of_command

USAGE = b"usage: dk_table [--point NAME] [--separator C] [--types ROWS] [--no-header] FILE...\n"
MOST_ROWS = 1 << 40
REFUSED = 1
WHY = {1: "NoHeader", 2: "BadName", 3: "RowLength", 4: "BadCell", 5: "OtherHeader", 6: "OpenQuote"}
HEADER = "decl-version 2.0\nvar-comparability implicit\n\n"
WHOLE = r"0|-?[1-9][0-9]*"
SPELLINGS = [("true", "false"), ("True", "False"), ("TRUE", "FALSE")]
ESCAPES = {'"': '\\"', "\\": "\\\\", "\n": "\\n", "\r": "\\r", "\t": "\\t"}
# what begins a line that is no record's first one
OTHER_LINES = ("#", "//", "decl-version", "var-comparability", "input-language", "ppt ", "DECLARE", "ListImplementors", "VarComparability")

# of a column: a word, and the spellings of truth values or the number of decimal places
Kind = Tuple[str, Any]
# a row, after its file and number
PlacedRow = Tuple[str, int, "list[str]"]


def refused(name: str, row: int, why: int) -> Ended:
    """A refusal of a row, as the run ends with it."""
    text = f"daikon: {name}: row {row}: {why} {WHY[why]}\n"
    return Ended(REFUSED, os.fsencode(text))


# ---------------------------------------------------------------- rows

def rows_of(data: bytes, separator: str) -> list[list[str]]:
    """The rows of a file. Each byte is read as one character."""
    text = data[len(BOM_UTF8) if data.startswith(BOM_UTF8) else 0:].decode("latin-1")
    csv.field_size_limit(len(text) + 1)
    return [row for row in csv.reader(io.StringIO(text, newline=""), delimiter=separator) if row]


def table_of(files: list[tuple[str, bytes]], separator: str, has_header: bool) -> tuple[list[str], list[PlacedRow]]:
    """The names of the columns, and the rows with the file and the number of each."""
    names: list[str] | None = None
    found: list[PlacedRow] = []
    for name, data in files:
        rows = rows_of(data, separator)
        if names is None:
            if not rows:
                raise refused(name, 1, 1)
            first = rows[0]
            names = first if has_header else [f"column{k + 1}" for k in range(len(first))]
        if data.count(b'"') % 2:
            raise refused(name, len(rows), 6)
        if not rows:
            raise refused(name, 1, 1)
        if has_header and rows[0] != names:
            raise refused(name, 1, 5)
        for number, row in enumerate(rows, 1):
            if len(row) != len(names):
                raise refused(name, number, 3)
        placed = [(name, number, row) for number, row in enumerate(rows, 1)]
        found += placed[1:] if has_header else placed
    return names or [], found


# ---------------------------------------------------------------- columns

def within(number: int) -> bool:
    """Whether the number has at most 64 bits."""
    return -1 << 63 <= number < 1 << 63


def whole(cell: str) -> int | None:
    """The whole number that a cell writes, if it does."""
    return int(cell) if re.fullmatch(WHOLE, cell) and within(int(cell)) else None


def value_text(kind: Kind, cell: str) -> str | None:
    """The text of what a cell writes in a column of this kind; none where it writes nothing of it."""
    name, how = kind
    if name == "whole":
        number = whole(cell)
        return None if number is None else str(number)
    if name == "truth":
        return {how[0]: "true", how[1]: "false"}.get(cell)
    if name == "decimal":
        parts = re.fullmatch(r"(.*)\.([0-9]{%d})" % how, cell, re.S)
        if not parts or (whole(parts[1]) is None and parts[1] != "-0"):
            return None
        number = int(parts[1] + parts[2])
        return str(number) if within(number) else None
    return '"' + "".join(ESCAPES.get(it, it) for it in cell) + '"'


def kind_of(cells: list[str]) -> Kind:
    """The first kind of which each cell that isn't empty writes a value."""
    known = [cell for cell in cells if cell]
    kinds = [("whole", None)] + [("truth", it) for it in SPELLINGS] + [("decimal", k) for k in range(1, 19)]
    for kind in kinds if known else []:
        if all(value_text(kind, cell) is not None for cell in known):
            return kind
    return ("text", None)


REP = {"whole": "int", "truth": "boolean", "decimal": "int", "text": "java.lang.String"}


def variable(name: str, kind: Kind) -> str:
    """The name of a column's variable."""
    return f"{name} * 1{'0' * kind[1]}" if kind[0] == "decimal" else name


# ---------------------------------------------------------------- the trace

def spelled(name: str) -> str:
    """A name as declarations spell it."""
    return name.replace("\\", "\\\\").replace(" ", "\\_")


def is_told(name: str) -> bool:
    """Whether a trace can tell the name."""
    return bool(name) and "\n" not in name and name[0] != "\t" and name[-1] not in "\t\r"


def declaration(point: str, variables: list[str], kinds: list[Kind]) -> str:
    """What stands in front of the records."""
    lines = [HEADER, f"ppt {spelled(point)}\n"]
    for name, kind in zip(variables, kinds):
        lines.append(f"variable {spelled(name)}\nrep-type {REP[kind[0]]}\ncomparability -1[-1]\n")
    return "".join(lines) + "\n"


def record(point: str, variables: list[str], kinds: list[Kind], row: list[str]) -> str:
    """The record of a row."""
    lines = [f"{spelled(point)}\n"]
    for name, kind, cell in zip(variables, kinds, row):
        lines.append(f"{spelled(name)}\n")
        lines.append(f"{value_text(kind, cell)}\n1\n" if cell else "nonsensical\n2\n")
    return "".join(lines) + "\n"


FLAGS, WITH_VALUE = ["--no-header"], ["--point", "--separator", "--types"]


@dataclass
class Options:
    """What the arguments ask for."""
    files: list[str]
    point: str
    separator: str
    types: int | None
    has_header: bool


def options_of(arguments: list[str]) -> Options:
    """What the arguments ask for."""
    found = arguments_of_command(arguments, FLAGS, WITH_VALUE)
    separator = found.values.get("--separator", ",")
    if not found.files or len(os.fsencode(separator)) != 1 or separator in '"\n\r':
        raise Usage
    types = number_between(found.values["--types"], 1, MOST_ROWS) if "--types" in found.values else None
    return Options(found.files, found.values.get("--point", found.files[0]), separator, types, "--no-header" not in found.flags)


@dataclass
class Columns:
    """The columns of a table, and how their records are written."""
    point: str
    variables: list[str]
    kinds: list[Kind]

    def declare(self, sinks: Sinks) -> None:
        """Writes what stands in front of the records."""
        sinks.report(declaration(self.point, self.variables, self.kinds).encode("latin-1"))

    def demand(self, placed: PlacedRow) -> None:
        """A row with a cell that is none of its column's kind is refused."""
        name, number, row = placed
        if any(cell and value_text(kind, cell) is None for kind, cell in zip(self.kinds, row)):
            raise refused(name, number, 4)

    def write(self, row: list[str], sinks: Sinks) -> None:
        """Writes the record of a row."""
        sinks.report(record(self.point, self.variables, self.kinds, row).encode("latin-1"))


def columns_of(found: Options, names: list[str], rows: list[PlacedRow]) -> Columns:
    """The columns with these names, by the rows by which kinds are found."""
    kinds = [kind_of([row[k] for _, _, row in rows]) for k in range(len(names))]
    point = os.fsencode(found.point).decode("latin-1")
    variables = [variable(*it) for it in zip(names, kinds)]
    if not all(map(is_told, [point, *variables])) or len(set(variables)) < len(variables) \
            or spelled(point).startswith(OTHER_LINES) or "this_invocation_nonce" in variables:
        raise refused(found.files[0], 1, 2)
    return Columns(point, variables, kinds)


def write_whole(found: Options, sinks: Sinks, folder: str) -> None:
    """All files are read, and all rows are judged, before anything is written."""
    files = [(name, bytes_of_file(folder, name)) for name in found.files]
    names, rows = table_of(files, found.separator, found.has_header)
    columns = columns_of(found, names, rows)
    columns.declare(sinks)
    for _, _, row in rows:
        columns.write(row, sinks)


class Stream:
    """Rows in order, each of which is judged when it is asked for."""

    def __init__(self, found: Options, folder: str) -> None:
        self.found = found
        self.folder = folder
        self.names: list[str] = []

    def rows(self) -> Iterator[PlacedRow]:
        """The rows of all files."""
        for place, name in enumerate(self.found.files):
            data = bytes_of_file(self.folder, name)
            rows = rows_of(data, self.found.separator)
            if not rows:
                raise refused(name, 1, 1)
            if place == 0:
                self.names = rows[0] if self.found.has_header else [f"column{k + 1}" for k in range(len(rows[0]))]
            for number, row in enumerate(rows, 1):
                if number == 1 and self.found.has_header:
                    if row != self.names:
                        raise refused(name, 1, 5)
                elif len(row) != len(self.names):
                    raise refused(name, number, 3)
                else:
                    yield name, number, row
            if data.count(b'"') % 2:
                raise refused(name, len(rows), 6)


def write_stream(found: Options, sinks: Sinks, folder: str) -> None:
    """Rows are written as they come, behind those by which kinds are found."""
    stream = Stream(found, folder)
    rows = stream.rows()
    front = list(islice(rows, found.types))
    columns = columns_of(found, stream.names, front)
    columns.declare(sinks)
    for placed in chain(front, rows):
        columns.demand(placed)
        columns.write(placed[2], sinks)


def run(arguments: list[str], sinks: Sinks, folder: str) -> None:
    """Runs the program on the arguments."""
    found = options_of(arguments)
    if found.types is None:
        write_whole(found, sinks, folder)
    else:
        write_stream(found, sinks, folder)


def status_of(arguments: list[str], sinks: Sinks, folder: str) -> int:
    """Runs the program; its status."""
    return status_of_run(run, arguments, sinks, folder, USAGE)


if __name__ == "__main__":
    sys.exit(host_status(status_of, sys.argv[1:]))
