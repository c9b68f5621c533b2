"""Declarations and records of traces, as `daikon` reads them: what the tracers of Python and of C programs share.

Texts
    escape_name(name)     a name as it is spelled in declarations and records
    quote(text)           a string's value; quote_bytes(data) for bytes of any kind
    integer(number)       a whole number's value, or None where it has more than 64 bits
    sequence(texts)       a sequence's value, of the values of its elements
    A value is a str; None stands for a missing one.

Points
    Variable(name, rep_type, ...)         a variable, with what its declaration says
    Point(name, type, parents, variables) a program point; declaration(point) is its text
    record(name, nonce, fields)           the text of a sample; fields are pairs of a variable's name and its value
    record_template(name, fields)         the same as a template for `%`, for tracers that prepare what they write often
    fitting(variables)                    how many of the variables, from the first on, a point can have
    Kinds                                 numbers for comparability: equal ones for kinds of things that were joined

Files
    Output.open(path)     the trace's file, opened before the program starts; `write(text)`, `close()`
    Spool(temporary())    records that wait in a temporary file until the declarations are known: `add(record)`, and then `records()`
    Both lie at high descriptors, so those of the traced program have the numbers that they have without us. The spool stands in `spool.py`.

Commands
    add_arguments(parser)     the arguments that the tracers have in common
    Selection(include, exclude).takes(name)
    report(tracer, ..)    runs the command that reports on a trace, for --report

It needs Python 3.9 or later and its standard library alone.
"""

from __future__ import annotations

import argparse
import fnmatch
import os
import signal
import stat
import sys
import tempfile
from dataclasses import dataclass, field
from typing import Any, Dict, Iterable, Iterator, List, Optional, Sequence, Tuple

from spool import File, LostFile, Spool, open_high

__all__ = [
    "BOOLEAN", "DOUBLE", "HASHCODE", "INT", "MISSING", "MISSING_MARK", "PRESENT_MARK", "STRING", "VALUE_WITH_MARK",
    "File", "Kinds", "LostFile", "Output", "Point",
    "Selection", "Spool", "Variable", "add_arguments", "boolean", "declaration", "escape_name", "fitting", "header", "integer",
    "number_from", "open_high", "quote", "quote_bytes", "record", "record_template", "report", "sequence", "temporary", "with_mark",
]

# ---------------------------------------------------------------- texts

LEAST_INTEGER = -(1 << 63)
GREATEST_INTEGER = (1 << 63) - 1

# A missing value's text and mark, and the mark of one that is there.
MISSING = "nonsensical"
MISSING_MARK = "2"
PRESENT_MARK = "1"

ESCAPES = {"\\": "\\\\", '"': '\\"', "\n": "\\n", "\r": "\\r", "\t": "\\t"}
ESCAPE_TABLE = {code: "\\%03o" % code for code in (*range(32), 127)}
ESCAPE_TABLE.update({ord(character): text for character, text in ESCAPES.items()})

NAME_ESCAPES = {ord("\\"): "\\\\", ord(" "): "\\_", ord("\n"): "\\n", ord("\r"): "\\r", ord("\t"): "\\t"}


def escape_name(name: str) -> str:
    """The name as it is spelled in declarations and records: without blanks."""
    return name.translate(NAME_ESCAPES)


def quote(text: str) -> str:
    """The value of a string. Different strings have different values."""
    return '"' + text.translate(ESCAPE_TABLE) + '"'


def quote_bytes(data: bytes) -> str:
    """The value of a string of bytes, which may be no UTF-8."""
    return quote(data.decode("utf-8", "surrogateescape"))


def integer(number: int) -> Optional[str]:
    """The value of a whole number, which is missing where it has more than 64 bits."""
    return "%d" % number if LEAST_INTEGER <= number <= GREATEST_INTEGER else None


def boolean(truth: bool) -> str:
    """The value of a truth value."""
    return "true" if truth else "false"


def sequence(texts: Iterable[str]) -> str:
    """The value of a sequence, of the values of its elements."""
    return "[" + " ".join(texts) + "]"


def encode(text: str) -> bytes:
    """The bytes of a trace's text. What is no character is written as its escape."""
    return text.encode("utf-8", "backslashreplace")


# ---------------------------------------------------------------- points

HEADER = "decl-version 2.0\nvar-comparability implicit\n"

INT = "int"
BOOLEAN = "boolean"
STRING = "java.lang.String"
HASHCODE = "hashcode"
DOUBLE = "double"


@dataclass
class Variable:
    """A variable's declaration. `parents` has, for each edge by its id, the point and the name of the variable there."""

    name: str
    rep_type: str
    dec_type: str = ""
    var_kind: str = "variable"
    comparability: str = "-1"
    enclosing_var: str = ""
    constant: Optional[str] = None
    parents: List[Tuple[str, int, str]] = field(default_factory=list)


@dataclass
class Point:
    """A program point. `type` is point, class, object, enter, exit or subexit; `parents` has pairs of a point's name and the edge's id."""

    name: str
    type: str
    parents: List[Tuple[str, int]] = field(default_factory=list)
    variables: List[Variable] = field(default_factory=list)


def variable_lines(variable: Variable) -> Iterator[str]:
    """The lines that declare a variable."""
    yield "variable " + escape_name(variable.name)
    yield "var-kind " + variable.var_kind
    if variable.enclosing_var:
        yield "enclosing-var " + escape_name(variable.enclosing_var)
    if variable.rep_type.endswith("[]"):
        yield "array 1"
    yield "dec-type " + escape_name(variable.dec_type or variable.rep_type)
    yield "rep-type " + variable.rep_type
    if variable.constant is not None:
        yield "constant " + variable.constant
    for point, edge, name in variable.parents:
        yield "parent %s %d %s" % (escape_name(point), edge, escape_name(name))
    yield "comparability " + variable.comparability


def declaration(point: Point) -> str:
    """The text of the point's declaration, with the blank line before it."""
    lines = ["", "ppt " + escape_name(point.name), "ppt-type " + point.type]
    lines += ["parent parent %s %d" % (escape_name(name), edge) for name, edge in point.parents]
    for variable in point.variables:
        lines += variable_lines(variable)
    return "\n".join(lines) + "\n"


def header(language: str) -> str:
    """The first lines of a trace."""
    return HEADER + "input-language " + language + "\n"


def record(name: str, nonce: Optional[int], fields: Iterable[Tuple[str, Optional[str]]]) -> str:
    """The text of a sample, with the blank line before it: a value for each declared variable without a constant, in order."""
    lines = ["", escape_name(name)]
    if nonce is not None:
        lines += ["this_invocation_nonce", str(nonce)]
    for variable, value in fields:
        lines.append(escape_name(variable))
        lines += [MISSING, MISSING_MARK] if value is None else [value, PRESENT_MARK]
    return "\n".join(lines) + "\n"


# In a template, a place for what `with_mark` makes of a value.
VALUE_WITH_MARK = "%s\n"


def with_mark(value: Optional[str]) -> str:
    """The lines of a value, which may be missing, and of its mark."""
    return MISSING + "\n" + MISSING_MARK if value is None else value + "\n" + PRESENT_MARK


def record_template(name: str, fields: Iterable[Tuple[str, Optional[str]]]) -> str:
    """A template of samples for `%`, with the blank line in front: first the nonce is put in, and then what the values ask for. A value is
    a text, `%d` or `%s` for one that is there, VALUE_WITH_MARK for one that may be missing, or None for one that is."""
    parts = ["\n", escape_name(name).replace("%", "%%"), "\nthis_invocation_nonce\n%d\n"]
    for variable, value in fields:
        parts += [escape_name(variable).replace("%", "%%"), "\n"]
        parts += [value] if value == VALUE_WITH_MARK else [with_mark(value), "\n"]
    return "".join(parts)


# `daikon` refuses points with more than 1,024 declared variables, or 16,384 with derived ones; long before that it takes minutes.
MOST_DECLARED = 1024
MOST_VARIABLES = 1000


def most_of_an_exit(variables: Sequence[Variable]) -> int:
    """How many variables an exit may have that declares these, with those of the entry and with derived ones."""
    known = [variable.rep_type for variable in variables if not variable.rep_type.startswith(DOUBLE)]
    sequences = sum(rep_type.endswith("[]") for rep_type in known)
    integers = known.count(INT)
    return 2 * (len(known) + 3 * sequences + 5 * sequences * integers)


def fitting(variables: Sequence[Variable]) -> int:
    """How many of the variables, from the first on, a point is to have."""
    count = min(len(variables), MOST_DECLARED)
    while most_of_an_exit(variables[:count]) > MOST_VARIABLES:
        count -= 1
    return count


class Kinds:
    """Kinds of things by their names, each with a number for comparability. Kinds that are joined have one number."""

    def __init__(self) -> None:
        self.parents: Dict[str, str] = {}
        self.numbers: Dict[str, int] = {}

    def first(self, kind: str) -> str:
        """The kind that stands for all that this one was joined with."""
        while self.parents.get(kind, kind) != kind:
            kind = self.parents[kind]
        return kind

    def join(self, kinds: Iterable[str]) -> None:
        """From now on these kinds count as one."""
        firsts = [self.first(kind) for kind in kinds]
        for kind in firsts[1:]:
            self.parents[self.first(kind)] = self.first(firsts[0])

    def number(self, kind: str) -> int:
        """The kind's number, to be asked for when all is joined."""
        return self.numbers.setdefault(self.first(kind), len(self.numbers) + 1)


# ---------------------------------------------------------------- files

def temporary() -> int:
    """The descriptor of a new temporary file without a name."""
    with tempfile.TemporaryFile(prefix="dk_trace") as file:
        return open_high(os.dup(file.fileno()))


class Output(File):
    """The trace's file. `Output.open` opens it, and mostly makes it empty, at once: an OSError tells that it can't be written to."""

    PIECE = 1 << 20

    def __init__(self, descriptor: int) -> None:
        super().__init__(descriptor)
        self.parts: List[str] = []
        self.size = 0

    @classmethod
    def open(cls, path: str, is_emptied: bool = True) -> "Output":
        """The file of this path at a high descriptor, empty, or as it is."""
        flags = os.O_WRONLY | os.O_CREAT | os.O_CLOEXEC | (os.O_TRUNC if is_emptied else 0)
        return cls(open_high(os.open(path, flags, 0o666)))

    def empty(self) -> None:
        """Makes the file empty, where it is one that has a length."""
        if stat.S_ISREG(os.fstat(self.descriptor).st_mode):
            os.ftruncate(self.descriptor, 0)

    def write(self, text: str) -> None:
        """Writes the text, at the latest when the file is closed."""
        self.parts.append(text)
        self.size += len(text)
        if self.size > self.PIECE:
            self.flush()

    def flush(self) -> None:
        """Writes what was kept back."""
        rest = memoryview(encode("".join(self.parts)))
        self.check()
        while rest:
            rest = rest[os.write(self.descriptor, rest):]
        self.parts = []
        self.size = 0

    def close(self) -> None:
        """Writes what was kept back, and closes the file."""
        self.flush()
        super().close()


# ---------------------------------------------------------------- commands

class Selection:
    """Names that some glob of `include` matches, or all where there is none, and no glob of `exclude`."""

    def __init__(self, include: Sequence[str], exclude: Sequence[str]) -> None:
        self.include = list(include)
        self.exclude = list(exclude)

    def includes(self, name: str) -> bool:
        """Whether a glob of `include` matches the name."""
        return any(fnmatch.fnmatchcase(name, glob) for glob in self.include)

    def excludes(self, name: str) -> bool:
        """Whether a glob of `exclude` matches the name."""
        return any(fnmatch.fnmatchcase(name, glob) for glob in self.exclude)

    def takes(self, name: str) -> bool:
        """Whether the name is selected."""
        return (not self.include or self.includes(name)) and not self.excludes(name)


def number_from(least: int, most: int = 1_000_000_000) -> Any:
    """A type for argparse: whole numbers from `least` to `most`."""

    def parse(text: str) -> int:
        if not text.isascii() or not text.isdigit() or not least <= int(text) <= most:
            raise argparse.ArgumentTypeError("%r is no whole number from %d to %d" % (text, least, most))
        return int(text)

    return parse


def add_arguments(parser: argparse.ArgumentParser, program: str, names: str, elements: int) -> None:
    """Adds the arguments that the tracers have in common. `program` is what they call the traced program, `names` what globs are matched
    with."""
    parser.add_argument("--out", metavar="FILE",
                        help="the trace's file (default: %s.dtrace in the current folder)" % program)
    parser.add_argument("--include", metavar="GLOB", action="append", default=[],
                        help="trace only functions of which a GLOB matches %s, wherever they lie "
                             "(default: all of the program's own)" % names)
    parser.add_argument("--exclude", metavar="GLOB", action="append", default=[],
                        help="leave out functions of which a GLOB matches %s (default: none)" % names)
    parser.add_argument("--depth", metavar="N", type=number_from(0, 10), default=1,
                        help="how deep fields of objects are read; 0 is not at all (default: 1)")
    parser.add_argument("--elements", metavar="N", type=number_from(0, 100_000), default=elements,
                        help="how many elements of a sequence are read (default: %d)" % elements)
    parser.add_argument("--every", metavar="N", type=number_from(1), default=1,
                        help="trace the first call of each function and then each Nth (default: 1, all calls)")
    parser.add_argument("--globals", action="store_true", help="trace global variables, too (default: no)")
    parser.add_argument("--report", action="store_true", help="run ./daikon on the trace afterwards (default: no)")


def daikon_command(path: str, most_samples: int) -> List[str]:
    """The command that reports on the trace. A report asks for 5 samples of a line, and for fewer where no point has as many. The program
    is the one in the folder COBDAWU_PROGRAMS, where that is set, else the one at the top, which is built where that is due."""
    folder = os.environ.get("COBDAWU_PROGRAMS") or os.path.dirname(os.path.dirname(os.path.abspath(__file__)))
    least = max(1, min(5, most_samples))
    return [os.path.join(folder, "daikon"), "--min-samples", str(least), path]


def report(tracer: str, path: str, most_samples: int) -> None:
    """Runs `daikon` on the trace, which is whole: signals that the tracer holds back end the report."""
    command = daikon_command(path, most_samples)
    try:
        child = os.posix_spawn(command[0], command, os.environ, setsigmask=[], setsigdef=[signal.SIGPIPE])
    except OSError as problem:
        print("%s: cannot run %s: %s" % (tracer, command[0], problem.strerror), file=sys.stderr)
    else:
        os.waitpid(child, 0)
