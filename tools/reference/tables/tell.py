"""Tables of runs of dk_tell: lines of every row in every format, names, strings, sections, and calls that fail."""

from __future__ import annotations

import os
import random
from dataclasses import replace

import rows as grammar
from writing import Case, failing_reads, failing_writes, wanted

TOP = os.path.dirname(os.path.dirname(os.path.dirname(os.path.dirname(os.path.abspath(__file__)))))
# a page is long, so its writes aren't all made to fail
LINES = ("json", "python", "c", "smtlib")
FORMATS = (*LINES, "html")
PIECE = 64
KINDS = {"Int": b"int", "Bool": b"boolean", "Hash": b"hashcode", "Str": b"java.lang.String"}
MARK = b"=" * 75 + b"\n"


def run(name: str, arguments: str, report: bytes, *traces: bytes) -> Case:
    """A run over a report `a` and files `t`, `u`."""
    files = {"a": report, **dict(zip("tu", traces))}
    return wanted(Case(name, "dk_tell", tuple(arguments.split()), files))


def in_formats(name: str, report: bytes, *traces: bytes) -> list[Case]:
    """The run in each format."""
    names = " ".join(["a", *"tu"[:len(traces)]])
    return [run(f"{name}, {form}", f"--format {form} {names}", report, *traces) for form in FORMATS]


def declared(point: bytes, *variables: tuple[bytes, bytes]) -> bytes:
    """The block of a point with these variables and their rep-types."""
    return b"ppt %s\n" % point + b"".join(b"variable %s\nrep-type %s\n" % pair for pair in variables) + b"\n"


def section(heading: bytes, *lines: bytes) -> bytes:
    """A section of a report."""
    return MARK + heading + b"\n" + b"".join(line + b"\n" for line in lines)


# ---------------------------------------------------------------- every row

SCALARS = {"Int": (-3, -1, 0, 1, 2, 5), "Bool": (False, True), "Hash": (0, 1, 31), "Str": (b'"a"', b'"b?\\n"', b"null", b'"\xc3\xbc"')}


def value(kind: str, draw: random.Random) -> object:
    """A value of the kind."""
    if kind.endswith("Seq"):
        return tuple(draw.choice(SCALARS[kind[:-3]]) for _ in range(draw.randrange(3)))
    return draw.choice(SCALARS[kind])


def state_of(row: int, kinds: list[str], draw: random.Random) -> tuple:
    """A state that the row comes to, and that has a text."""
    while True:
        tuples = [tuple(value(kind, draw) for kind in kinds) for _ in range(draw.choice((1, 2, 3)))]
        if row in (15, 67):
            slopes = [draw.choice((-2, 1, 3)) for _ in kinds[1:]]
            points = [[draw.randrange(9) for _ in slopes] for _ in range(4)]
            tuples = [(*point, sum(a * x for a, x in zip(slopes, point)) + 7) for point in points]
        if row == 5:
            tuples = [(3 + 5 * draw.randrange(4),) for _ in range(3)]
        if row == 68:
            tuples = [((1, 2), (4, 5)), ((), ())]
        state = grammar.state_of(row, tuples)
        if grammar.fits(state) and state != grammar.EMPTY and grammar.is_proper(row, state):
            return state


def name_of(kind: str, place: int) -> bytes:
    """The name of the variable of a kind at a place."""
    return b"%s%d%s" % (kind[:-3].lower().encode() + b"s" if kind.endswith("Seq") else kind.lower().encode(), place,
                        b"[..]" if kind.endswith("Seq") else b"")


def point_of_kinds(point: bytes) -> bytes:
    """A point with three variables of each kind."""
    pairs = []
    for kind, rep in KINDS.items():
        pairs += [(name_of(kind, k), rep) for k in range(3)] + [(name_of(kind + "Seq", k), rep + b"[]") for k in range(3)]
    return declared(point, *pairs)


def row_lines(draw: random.Random) -> list[bytes]:
    """A line of each row, over variables that differ."""
    found = []
    for row in sorted(grammar.ROWS):
        kinds = [kind for kind, _ in grammar.ROWS[row].takes]
        names = [name_of(kind, k) for k, kind in enumerate(kinds)]
        found.append(grammar.text_of(row, state_of(row, kinds, draw), names) + b"  [%d]" % (row + 5))
    return found


def rows() -> list[Case]:
    """A line of each row, and lines over derived variables, in each format."""
    forms = (b"size(ints0[..])", b"ints0[0]", b"ints0[-1]", b"ints0[int0]")
    slices = (b"ints0[0..int0]", b"ints0[0..int0-1]", b"ints0[int0..]", b"ints0[int0+1..]")
    lines = [name + b" >= 3" for name in forms] + [name + b" elements <= 3" for name in slices] \
        + [name + b" sorted by <" for name in slices] + [b"int1 < ints0[int0]", b"ints0[0..int1] == ints1[..]", b"strs0[0] == null"]
    return in_formats("each row", section(b"P  [9]", *row_lines(random.Random(1))), point_of_kinds(b"P")) \
        + in_formats("derived variables", section(b"P", *lines), point_of_kinds(b"P"))


# ---------------------------------------------------------------- names and strings

def names() -> list[Case]:
    """Names that a language says otherwise, or can't say."""
    odd = (b"this", b"this.x", b"this.list->size", b"list->size", b"return", b"class", b"len", b"register", b"dk_x", b"x.class",
           b"x.register", b"a\\_b", b"x-y", b"9x", b"x|y", b"x\\\\y", b"\xff", "ü".encode(), b'"q"', b"x?y", b"x\x07y", b"_", b"x.", b"x..y", b"x->")
    shown = [name.replace(b"\\_", b" ").replace(b"\\\\", b"\\") for name in odd]
    trace = declared(b"P.m", *[(name, b"int") for name in odd])
    clash = declared(b"Q", (b"result", b"int"), (b"return", b"int"), (b"x", b"int"), (b"self", b"int"), (b"this.y", b"int"))
    arrays = declared(b"R", *[(name, b"int[]") for name in (b"this.a[..]", b"a[]", b"a[..].b[..]", b"b", b"class[..]")],
                      (b"size_a", b"int"), (b"size_b", b"int"))
    lines = [name + b" >= 1" for name in shown]
    of_clash = [name + b" != 0" for name in (b"result", b"return", b"x", b"self", b"this.y")]
    of_arrays = [name + b" elements >= 1" for name in (b"this.a[..]", b"a[]", b"a[..].b[..]", b"b", b"class[..]")] \
        + [b"size(b) == 2", b"size_a < size_b", b"size(this.a[..]) > 4", b"this.a[0] >= 5"]
    return in_formats("odd names", section(b"P.m  [3]", *lines), trace) \
        + in_formats("names that clash", section(b"Q  [3]", *of_clash), clash) \
        + in_formats("names of sequences", section(b"R  [3]", *of_arrays), arrays)


def calls() -> list[Case]:
    """Variables with the values at an entry."""
    variables = ((b"x", b"int"), (b"this.a[..]", b"int[]"), (b"old_x", b"int"))
    trace = declared(b"C.m(int):::ENTER", *variables) + declared(b"C.m(int):::EXIT1", *variables, (b"return", b"int"))
    lines = (b"x == orig(x)", b"orig(x) >= 1", b"return != orig(x)", b"orig(this.a[..]) elements >= 0", b"orig(size(this.a[..])) == 2",
             b"size(this.a[..]) == orig(size(this.a[..]))", b"orig(this.a[x]) <= 4", b"old_x >= 0", b"orig(old_x) >= 0")
    report = section(b"C.m(int):::EXIT  [4]", *lines) + section(b"C.m(int):::EXIT1  [4]", lines[0])
    others = variables[:2]
    clear = declared(b"C.m(int):::ENTER", *others) + declared(b"C.m(int):::EXIT1", *others, (b"return", b"int"))
    return in_formats("values at the entry", report, trace) + in_formats("values at the entry, without a clash", report, clear)


def strings() -> list[Case]:
    """Strings that a language reads as a trace does, and ones that it doesn't."""
    texts = (b'"a"', b'""', b'"\\n\\r\\t\\"\\\\"', b'"\\033"', b'"\\177"', b'"\\200"', b'"\\x"', b'"\\0"', b'"??="', b'"\ttab"', b'"\x07"',
             b'"\x7f"', b'"\xff"', "\"ü\"".encode(), b"null", b'"null"')
    lines = [b"s == " + text for text in texts] + [b't one of { "a", "b", null }', b'q[..] elements one of { "?", "\xff" }']
    variables = ((b"s", KINDS["Str"]), (b"t", KINDS["Str"]), (b"q[..]", KINDS["Str"] + b"[]"))
    return in_formats("strings", section(b"P", *lines), declared(b"P", *variables))


def numbers() -> list[Case]:
    """Numbers at the ends, and states with several."""
    lines = (b"x >= -9223372036854775808", b"x <= 9223372036854775807", b"x one of { -9223372036854775808, -1, 9223372036854775807 }",
             b"x == 3 (mod 18446744073709551615)", b"9223372036854775807 * x - y - 85070591730234615847396907784232501249 == 0",
             b"x - y + 1 == 0", b"2 * x - 3 * y - z + 170141183460469231731687303715884105727 == 0", b"h == null", b"h has only one value",
             b"b == true", b"b == false", b"h != null")
    variables = ((b"x", b"int"), (b"y", b"int"), (b"z", b"int"), (b"h", b"hashcode"), (b"b", b"boolean"))
    return in_formats("numbers", section(b"P", *lines), declared(b"P", *variables))


# ---------------------------------------------------------------- sections

X = declared(b"P", (b"x", b"int"))


def sections() -> list[Case]:
    """What of a report is a section and a line."""
    odd_points = b"".join(declared(name, (b"x", b"int")) for name in (b"a\\_b|c", b'C.m(int):::EXIT"1"', b"\xff\\\\"))
    reports = (
        ("no bytes", b""), ("a blank line", b" \t\n"), ("a heading alone", section(b"P  [4]")),
        ("a heading without a number", section(b"P")),
        ("lines above the first heading", b"x >= 1  [2]\n" + section(b"P", b"x >= 2")),
        ("two headings of one name", section(b"P  [2]", b"x >= 1") + section(b"P  [3]", b"x >= 2")),
        ("a point that isn't declared", section(b"Q", b"x >= 1  [2]")),
        ("texts that no invariant has", section(b"P", b"x >= 01", b"x>=1", b"y >= 1", b"x >= 1 ", b" x >= 1", b'say "what"?', b"\x07\xff")),
        ("counts", section(b"P  [00012]", b"x >= 1  [99999999999999999999999]", b"x >= 2 [3]", b"x >= 3  [3]  [4]", b"x >= 4  []",
                           b"x >= 5  [-1]")),
        ("lines that are passed over",
         b"--- after 2 blocks\n" + section(b"P", b"x >= 1", b"stats P: samples 1", b"--- end after 3 blocks")),
        ("lines of = in a row", MARK + b"=\n" + b"P\nx >= 1\n=\n\n \nP  [1]\nx >= 2\n=\n"),
        ("CR LF", section(b"P  [4]", b"x >= 1  [4]").replace(b"\n", b"\r\n")),
        ("without the last line end", section(b"P  [4]", b"x >= 1  [4]")[:-1]),
    )
    cases = [case for name, report in reports for case in in_formats(name, report, X)]
    names_ = (b"a b|c", b'C.m(int):::EXIT"1"', b"\xff\\")
    return cases + in_formats("names of points", b"".join(section(name, b"x >= 1") for name in names_), odd_points) \
        + in_formats("two files", section(b"P", b"x >= 1") + section(b"Q", b"y >= 1"), X, declared(b"Q", (b"y", b"int"))) \
        + in_formats("no file", section(b"P", b"x >= 1"))


# ---------------------------------------------------------------- files and arguments

RECORD = b"P\nx\n1\n1\n\n"
REPORT = section(b"P  [4]", b"x >= 1  [4]", b"x <= 7  [3]", b"y == 1")


def files() -> list[Case]:
    """Files and arguments that are refused."""
    exits = declared(b"m:::ENTER", (b"x", b"int")) + declared(b"m:::EXIT1", (b"x", b"int")) + b"m:::EXIT1\nx\n7\n1\n\n"
    return [
        run("records behind the declarations", "a t", REPORT, X + RECORD),
        run("the format behind the files", "a t --format=python", REPORT, X),
        run("the report read as a file too", "a a", b"ppt P\nvariable x\nrep-type int\n"),
        run("a record of no point", "a t", REPORT, X + b"Q\nx\n1\n1\n\n"),
        run("a line that is refused in the second file", "a t u", REPORT, X, b"ppt P\nvariable y\nrep-type float\n"),
        run("a block that ends with its file", "a t", REPORT, X + b"P\nx\n1\n"),
        run("a report that isn't there", "b t", REPORT, X),
        run("a file that isn't there", "a t u", REPORT, X),
        run("a report that isn't there, in front of a faulty file", "b t", REPORT, b"Q\n"),
        run("an exit without an entry is refused", "a t", REPORT, exits),
        run("an exit without an entry is left out", "--ignore-missing-entry a t", section(b"m:::EXIT1", b"x == orig(x)"), exits),
    ]


def arguments() -> list[Case]:
    """Arguments that are refused."""
    refused = ("", "--format json", "--format xml a", "--format JSON a", "--format= a", "--format a", "--format json --format json a",
               "--ignore-missing-entry --ignore-missing-entry a", "--ignore-missing-entry=1 a", "--min-samples 1 a", "-f json a",
               "--form json a", "--help=1 a", "--colour --help")
    cases = [run(f"refused: {text or 'no words'}", text, REPORT) for text in refused]
    return [replace(case, keys={"failing-reads": "1"}) for case in cases]


def reads() -> list[Case]:
    """Reads that fail, in each format."""
    cases = [run(f"a report, {form}", f"--format {form} a t u", REPORT, X + RECORD, declared(b"Q", (b"y", b"int"))) for form in FORMATS]
    return [case for each in cases for case in failing_reads(each, ["a", "t", "u"], PIECE)] + failing_reads(cases[0], ["a", "t", "u"], 7)


def writes() -> list[Case]:
    """Writes that fail, in each format but a page."""
    cases = [run(f"a report, {form}", f"--format {form} a t", REPORT, X) for form in LINES]
    refused = run("a refused file", "a t", REPORT, b"Q\n")
    usage = run("refused words", "--format", b"")
    return [case for each in cases for case in failing_writes(each, "report", PIECE)] \
        + failing_writes(refused, "messages", 7) + failing_writes(usage, "messages", PIECE)


TABLES = {
    "dk_tell/rows.cases": ("A line of each row, and lines over derived variables, in each format.", rows),
    "dk_tell/names.cases": ("Names in each language.", lambda: names() + calls()),
    "dk_tell/values.cases": ("Strings and numbers in each language.", lambda: strings() + numbers()),
    "dk_tell/sections.cases": ("Sections of a report, in each format.", sections),
    "dk_tell/files.cases": ("Files that are read, and what is refused.", files),
    "dk_tell/words.cases": ("Words that are refused. A read would fail.", arguments),
    "dk_tell/failing_reads.cases": ("Each read that fails: one call starts a file, and the last one finds its end.", reads),
    "dk_tell/failing_writes.cases": ("A write that fails leaves a front of what is told, or of the message.", writes),
}
