"""Tables of runs of daikon over states: changed ones, others, merged ones, and what is kept after each of a few samples."""

from __future__ import annotations

import os
import re

from command import DONE
from scripts import script
from writing import Case, failing_writes, wanted

HERE = os.path.dirname(os.path.dirname(os.path.abspath(__file__)))
TOP = os.path.dirname(os.path.dirname(HERE))

FOUR = b"""daikon-state 2
comparability implicit
points 1
point P
var int -1 -1 x
end
samples 0 4
class 0
pattern 4 1
slot 2 0 least 1
slot 3 0 greatest 7
slot 11 0 0 holds
slot 15 0 0 straight 1 -1 0
slot 67 0 0 0 span 1 1 1 7 7 7
end
end-state
"""
FIRST = FOUR.replace(b"daikon-state 2", b"daikon-state 1").replace(b"slot 67 0 0 0 span 1 1 1 7 7 7\n", b"")
BEYOND = b"%d" % 2**63
MORE = b"P\nx\n-5\n1\n\nP\nx\nnonsensical\n2\n\nP\nx\n9\n1\n"


# ---------------------------------------------------------------- changed states

def changes(state: bytes) -> list[tuple[str, bytes]]:
    """Each line left out, each line twice, and 2^63 in the place of each number."""
    lines = state.splitlines(keepends=True)
    found = []
    for number, line in enumerate(lines, 1):
        front, rest = b"".join(lines[:number - 1]), b"".join(lines[number:])
        found += [(f"without line {number}", front + rest), (f"line {number} twice", front + line + line + rest)]
    for number, match in enumerate(re.finditer(rb"[0-9]+", state), 1):
        found.append((f"2^63 for number {number}", state[:match.start()] + BEYOND + state[match.end():]))
    return found


def resumed(name: str, state: bytes) -> list[Case]:
    """A run from the state alone, which is refused or saves the same bytes; of one that is taken, a run with samples -5, missing and 9 too,
    which is asked for all that holds, bounds and remainders among it."""
    arguments = ("--min-samples", "1", "--keep-implied", "--resume", "s", "--save")
    alone = wanted(Case(name, "daikon", arguments, {"s": state}))
    if alone.status != DONE:
        return [alone]
    if alone.texts["state"] != state:
        raise SystemExit(f"{name}: another state is saved")
    return [alone, wanted(Case(f"{name}, and -5, missing and 9", "daikon", (*arguments, "t"), {"s": state, "t": MORE}))]


# other lines in the place of a line of FIRST, counted from 0
OTHER_LINES = (
    (0, b"daikon-state 01"), (1, b"comparability some"), (2, b"points 2"), (4, b"var int -1 -1 "), (4, b"var int -01 -1 x"),
    (6, b"samples 0 5"), (6, b"samples 1 4"), (8, b"pattern 3 1"), (10, b"slot 3 0 greatest 7\nslot 4 0 holds"),
    (12, b"slot 15 0 0 straight 1 -1 0 0"), (14, b"end-state "), (14, b"end-state\n"),
)
NO_POINTS = b"daikon-state 2\ncomparability none\npoints 0\nend-state\n"
DECLARED = b"""daikon-state 1
comparability none
points 1
point f():::EXIT1
edge 1 Stack\\_of\\_\\\\
var hashcode 3 4 a\\_b
mapped 0 this\\_one
var double -1 -1 d
constant missing
var java.lang.String[] 1 -1 s[..]
constant ["q r" null]
end
end-state
"""


def other_states() -> list[Case]:
    """States without samples, and states with another line in the place of one, which are none."""
    found = resumed("no points", NO_POINTS)[:1] + resumed("edges, counterparts, constants and names with blanks", DECLARED)[:1]
    if any(case.status != DONE for case in found):
        raise SystemExit("a state without samples is refused")
    for place, other in OTHER_LINES:
        lines = FIRST.split(b"\n")
        lines[place] = other
        found += resumed(f"line {place + 1} is {other.decode()!r}", b"\n".join(lines))
    if any(case.status == DONE for case in found[2:]):
        raise SystemExit("a state with another line is taken")
    return found


def changed_states() -> list[Case]:
    """The states as they are, and changed."""
    found = []
    for version, state in (("four samples", FOUR), ("four samples of the first version", FIRST)):
        for name, text in [("as they are", state), *changes(state)]:
            found += resumed(f"{version}: {name}", text)
    return found


# ---------------------------------------------------------------- samples one after another

def sampled(name: str, variables: tuple[tuple[bytes, bytes], ...], *samples: tuple[bytes, ...]) -> Case:
    """A run over samples of a point, whose state is saved. A value of no bytes is missing."""
    text = b"ppt P\n" + b"".join(b"variable %s\nrep-type %s\n" % pair for pair in variables)
    for sample in samples:
        text += b"\nP\n" + b"".join(b"%s\n%s\n%s\n" % (pair[0], value or b"nonsensical", b"1" if value else b"2")
                                    for pair, value in zip(variables, sample))
    return wanted(Case(name, "daikon", ("--min-samples", "1", "--keep-implied", "--stats", "--save", "t"), {"t": text}))


def third_samples() -> list[Case]:
    """No element is 0: it is kept where neither the least nor the greatest element says so."""
    sequence = ((b"a[..]", b"int[]"),)
    runs = ((b"[]",), (b"[]", b"[0]"), (b"[]", b"[5]"), (b"[]", b"[5]", b"[-1]"), (b"[5]", b"[-1]"), (b"[5]", b"[-1]", b"[0]"),
            (b"[]", b""), (b"[]", b"", b"[5]"), (b"[]", b"", b"[5]", b"[-1]"), (b"[]", b"[5]", b"[-1]", b"[0 7]"))
    found = [sampled("elements: " + ", ".join(value.decode() or "missing" for value in values), sequence, *[(value,) for value in values])
             for values in runs]
    numbers = ((b"1",), (b"1", b"2"), (b"1", b"2", b"-1"), (b"1", b"", b"-1"))
    return found + [sampled("a number: " + ", ".join(value.decode() or "missing" for value in values), ((b"x", b"int"),),
                            *[(value,) for value in values]) for values in numbers]


def runs_of_samples() -> list[Case]:
    """The states of runs, from their samples: of four, of ten that agree and one with a missing value, and behind constants that end."""
    one, two = ((b"x", b"int"),), ((b"x", b"int"), (b"y", b"int"))
    ten = [(b"%d" % k, b"%d" % k) for k in range(1, 11)]
    hundred = [(b"100", b"%d" % k) for k in range(101, 201)]
    return [
        sampled("four samples", one, (b"1",), (b"2",), (b"3",), (b"7",)),
        sampled("ten samples that agree", two, *ten),
        sampled("ten samples that agree, and a missing value", two, *ten, (b"11", b"")),
        sampled("a constant and a hundred numbers", two, *hundred),
        sampled("a constant that ends behind a hundred numbers", two, *hundred, (b"300", b"250")),
        sampled("two constants, of which one ends", two, (b"100", b"101"), (b"100", b"102")),
        sampled("two constants that end one after another", two, (b"100", b"101"), (b"100", b"102"), (b"300", b"250")),
    ]


# ---------------------------------------------------------------- states merged

NUMBERS = ((b"x", b"int"), (b"y", b"int"), (b"z", b"int"))
# what is shown, how many numbers a sample has, and two lists of samples, in which None is missing
TWO_LISTS: tuple[tuple[str, int, tuple[tuple[int | None, ...], ...], tuple[tuple[int | None, ...], ...]], ...] = (
    ("one sample each, so all are constant", 3, ((1, 1, 2),), ((3, 3, 6),)),
    ("all constant in the first alone: a sum holds in both, a product there", 3, ((4, 2, 2),), ((5, 2, 3), (9, 4, 5))),
    ("a class splits, and a constant ends", 3, ((1, 1, 5), (2, 2, 5)), ((3, None, 5), (4, 7, 6))),
    ("different premises suppress one row: x < y, and x == y", 2, ((1, 2), (-3, 4)), ((5, 5), (-6, -6))),
    ("a variable that was missing, and is there", 2, ((1, None), (2, None)), ((1, 10), (3, 30))),
    ("a maximum", 3, ((1, 2, 2), (3, 5, 5), (2, 7, 7)), ((4, 4, 4), (0, 9, 9), (8, 3, 8))),
)


def saved(count: int, samples: tuple[tuple[int | None, ...], ...]) -> bytes:
    """The state of a run over samples of so many numbers."""
    values = [tuple(b"" if number is None else b"%d" % number for number in sample) for sample in samples]
    return sampled("", NUMBERS[:count], *values).texts["state"]


def merged_lists() -> list[Case]:
    """The states of two lists of samples, merged in both orders: the state of all samples."""
    found = []
    for what, count, first, second in TWO_LISTS:
        files = {"a": saved(count, first), "b": saved(count, second)}
        for names in ("a b", "b a"):
            case = wanted(Case(f"{what}: {names}", "dk_merge", ("--min-samples", "1", *names.split()), files))
            if case.texts["state"] != saved(count, first + second):
                raise SystemExit(f"{case.name}: not the state of all samples")
            found.append(case)
    return found


# ---------------------------------------------------------------- a run in parts

def stored_file(path: str, case: str, name: str) -> bytes:
    """A file of a stored case."""
    cases = script("cases")
    return next(it for it in cases.cases_of(os.path.join(TOP, "crates", "dk_cases", "data", path)) if it.name == case).bytes_of(name)


def parts() -> list[Case]:
    """Two calls of a stack: the first part saved, the second gone on with from its state, and both as one, with one report and state."""
    text = stored_file("daikon/worked.cases", "two calls of a stack", "t")
    blocks = text.split(b"\n\n")
    found = []
    for count, what in ((4, "the declarations"), (6, "the declarations and the first call"), (len(blocks), "all blocks")):
        first, rest = b"\n\n".join(blocks[:count]) + b"\n", b"\n\n".join(blocks[count:])
        begun = wanted(Case(f"{what}, saved", "daikon", ("--min-samples", "1", "--save", "t"), {"t": first}))
        state = begun.texts["state"]
        gone_on = wanted(Case(f"the rest behind {what}", "daikon", ("--min-samples", "1", "--resume", "s", "--save", "u"),
                              {"s": state, "u": rest}))
        found += [begun, gone_on]
    if len({(case.texts["report"], case.texts["state"]) for case in found[1::2]}) != 1:
        raise SystemExit("a run in parts comes to something else")
    return found


def interim_writes() -> list[Case]:
    """A report after two blocks and the last one, with each write failing in turn. The line in front of a report is a text of its own."""
    text = b"ppt P\nvariable x\nrep-type int\n\nP\nx\n1\n1\n\nP\nx\n2\n1\n"
    case = wanted(Case("two reports", "daikon", ("--min-samples", "1", "--every", "2", "t"), {"t": text}))
    texts = re.split(rb"(?m)(?<=blocks\n)|^(?=---)", case.texts["report"])
    return [failing for piece in (64, 7) for failing in failing_writes(case, "report", piece, texts)]


TABLES = {
    "daikon/parts.cases": ("A run in parts comes to what one run comes to.", parts),
    "daikon/interim_writes.cases": ("A write of a report that is due, or of the last one, fails.", interim_writes),
    "daikon/changed_states.cases": ("States in which a line or a number is changed: each is refused, or saved again with the same bytes.",
                                    changed_states),
    "daikon/other_states.cases": ("States without samples, and states in which another line stands in the place of one: these are refused.",
                                  other_states),
    "dk_merge/lists.cases": ("The states of two lists of samples, merged in both orders.", merged_lists),
    "daikon/third_samples.cases": ("What is kept after a second and a third sample.", third_samples),
    "daikon/samples.cases": (
        "What is kept of runs of samples, in which variables agree, are missing, or end to be constants.", runs_of_samples),
}
