"""Tables of runs of each program in which the last call on a file fails, by which the file's end would be found.

A file whose bytes have all come and whose end isn't found is told from one that could not be started by what its lines are refused for.
"""

from __future__ import annotations

from writing import READ, Case, calls_of, last_reads, wanted, with_key

PIECES = (7, 64)
X = b"ppt P\nvariable x\nrep-type int\n\n"
B = b"ppt P\nvariable b\nrep-type boolean\nvariable x\nrep-type int\n\n"
ONE, TWO = b"P\nx\n1\n1\n\n", b"P\nx\n2\n1\n\n"
WRONG = b"Q\n\n"
OPEN = b"P\nx\n1\n"
STATE = b"""daikon-state 2
comparability implicit
points 1
point P
var int -1 -1 x
end
samples 0 1
class 0
pattern 1 1
known 0 1
end
end-state
"""
CLAIMS = b"=\nP\nx >= 1\n"


def cases_of(program: str, arguments: str, *runs: tuple[str, dict[str, bytes]], judging: str = "lines") -> list[Case]:
    """Runs with these arguments over files, which are read in their order, with the last call on each file failing."""
    whole = [wanted(Case(name, program, tuple(arguments.split()), files)) for name, files in runs]
    return [failing for case in whole for piece in PIECES for failing in last_reads(case, piece, judging)]


def daikon() -> list[Case]:
    """Clean files, a faulty line, and a last block that isn't ended; and so behind a state."""
    return cases_of("daikon", "--min-samples 1 t u", ("clean files", {"t": X + ONE, "u": TWO}),
                    ("a faulty line in the first file", {"t": X + ONE + WRONG, "u": TWO}),
                    ("a faulty line in the second file", {"t": X + ONE, "u": TWO + WRONG}),
                    ("a block that isn't ended in the second file", {"t": X + ONE, "u": OPEN})) \
        + cases_of("daikon", "--min-samples 1 --resume s t", ("a state", {"s": STATE, "t": TWO}),
                   ("a faulty line behind a state", {"s": STATE, "t": TWO + WRONG})) + reports_due() + last_lines()


FIRST = b"--- after 1 blocks\n"
BOTH = FIRST + b"--- after 2 blocks\n" + b"=" * 75 + b"\nP  [1]\nx == 1  [1]\n"


def reports_due() -> list[Case]:
    """Reports that were due stand in front of the message: those behind the two blocks of the file."""
    failing = cases_of("daikon", "--min-samples 1 --every 1 t", ("reports that were due", {"t": X + ONE}))
    return [case.coming_to(case.status, report=BOTH, messages=case.texts["messages"]) for case in failing]


def last_lines() -> list[Case]:
    """A last line without LF is one when the file's end was found behind it, and a blank one then ends its block. The next call fails."""
    found = []
    for name, text, due, later in (("blanks", X + ONE[:-1] + b" \t", FIRST, BOTH), ("a CR", X + ONE[:-1] + b"\r", FIRST, BOTH),
                                   ("a mark", X + ONE[:-2], FIRST, FIRST), ("a comment", X + ONE + b"# no", BOTH, BOTH)):
        case = Case(f"{name} behind the last LF", "daikon", ("--min-samples", "1", "--every", "1", "t"), {"t": text})
        for piece in PIECES:
            number = calls_of(text, piece)
            found.append(read_in_vain(with_key(case, "the end of t", piece, "failing-reads", number), due))
            found.append(read_in_vain(with_key(case, "the call behind it", piece, "failing-reads", number + 1), later))
    return found


def read_in_vain(case: Case, report: bytes) -> Case:
    """The case where t could not be read, and these reports were due."""
    return case.coming_to(READ, report=report, messages=b"daikon: cannot read t\n")


def split() -> list[Case]:
    """As for daikon."""
    record = b"P\nb\ntrue\n1\nx\n3\n1\n\n"
    return cases_of("dk_split", "--min-samples 1 t u", ("clean files", {"t": B + record, "u": record}),
                    ("a faulty line in the first file", {"t": B + WRONG, "u": record}),
                    ("a faulty line in the second file", {"t": B + record, "u": record + WRONG}),
                    ("a block that isn't ended in the second file", {"t": B + record, "u": record[:-3]}))


def check() -> list[Case]:
    """As for daikon, behind assertions."""
    return cases_of("dk_check", "a t u", ("clean files", {"a": CLAIMS, "t": X + ONE, "u": TWO}),
                    ("a faulty line in the first file", {"a": CLAIMS, "t": X + WRONG, "u": TWO}),
                    ("a faulty line in the second file", {"a": CLAIMS, "t": X + ONE, "u": TWO + WRONG}),
                    ("a block that isn't ended in the second file", {"a": CLAIMS, "t": X + ONE, "u": OPEN}))


def tell() -> list[Case]:
    """As for dk_check."""
    return cases_of("dk_tell", "--format c a t u", ("clean files", {"a": CLAIMS, "t": X, "u": ONE}),
                    ("a faulty line in the first file", {"a": CLAIMS, "t": X + WRONG, "u": ONE}),
                    ("a faulty line in the second file", {"a": CLAIMS, "t": X, "u": WRONG}),
                    ("a block that isn't ended in the second file", {"a": CLAIMS, "t": X, "u": OPEN}))


def merge() -> list[Case]:
    """Files that are read whole, and are judged one after another; recorders, whose files are one text when all are read."""
    other = STATE.replace(b"point P", b"point Q")
    return cases_of("dk_merge", "--min-samples 1 s u", ("states", {"s": STATE, "u": STATE}), ("no state", {"s": OPEN, "u": STATE}),
                    ("another table", {"s": STATE, "u": other}), judging="files") \
        + cases_of("dk_merge", "--min-samples 1 --turns 1 t u", ("recorders", {"t": X + ONE, "u": TWO}), judging="together") \
        + faulty_recorder()


def faulty_recorder() -> list[Case]:
    """A faulty line of a recorder, which the text of all files has."""
    whole = wanted(Case("a faulty line of a recorder", "dk_merge", ("--turns", "1", "t", "u"), {"t": X + WRONG, "u": TWO}))
    return [failing for piece in PIECES for failing in last_reads(whole.coming_to(0), piece, "together")]


def table() -> list[Case]:
    """Files that are read whole, and are judged when all are."""
    return cases_of("dk_table", "t u", ("tables", {"t": b"x,y\n1,2\n", "u": b"x,y\n3,4\n"}),
                    ("a row that is too short", {"t": b"x,y\n1\n", "u": b"x,y\n3,4\n"}),
                    ("a table without a row", {"t": b"x\n1\n", "u": b""}), judging="together")


ABOUT = "The last call on a file fails, by which its end would be found, when all its bytes have come."
TABLES = {
    "daikon/last_reads.cases": (ABOUT, daikon),
    "dk_split/last_reads.cases": (ABOUT, split),
    "dk_check/last_reads.cases": (ABOUT, check),
    "dk_tell/last_reads.cases": (ABOUT, tell),
    "dk_merge/last_reads.cases": (ABOUT, merge),
    "dk_table/last_reads.cases": (ABOUT, table),
}
