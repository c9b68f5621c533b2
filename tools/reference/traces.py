#!/usr/bin/env python3
"""Random declarations and traces by a seed.

usage: traces.py [--first-form] [--first-grammar] KIND SEED FOLDER

Writes the files of the seed's case into FOLDER and prints its runs, one a line. A case is a list
of runs in one folder; a run is a list of arguments. The kinds are
  one-file   one run with one argument
  full       all arguments of the command, states saved, changed and resumed
  cut        a run over some files, and the same files cut into runs that resume each other
  states     states with changes put in, each resumed alone and with records
  forms      states with one slot, of each row with each form of a state
  order      states and files that are right, faulty or not there, in all places of the arguments
  split, check, merge, tell, table   runs of the other programs
`--first-form` leaves the second declaration form out, `--first-grammar` states of version 2.
"""

from __future__ import annotations

import os
import random
import re
import sys
from dataclasses import dataclass, field
from math import gcd
from random import Random
from typing import Callable, List, Sequence, Tuple, TypeVar

from changes import STATES, changed_state, delete_byte, delete_line, double_line, odd_byte
from input_language import Fault, blocks_of, lines_of
from points import Entry, History, Table, VarInfo, effect_of
from random_tables import tables_and_arguments
from report import FILTERS, report
from rows import ROWS
from state_file import state_file

VARIABLES = [
    (b"x", b"int"), (b"y", b"int"), (b"z", b"int"), (b"w", b"int"), (b"my\\_x", b"int"),
    (b"k\\\\l", b"int"), (b"b", b"boolean"), (b"c", b"boolean"), (b"h", b"hashcode"),
    (b"g", b"hashcode"), (b"s", b"java.lang.String"), (b"u", b"String"), (b"a[..]", b"int[]"),
    (b"e[]", b"int[]"), (b"m[..]", b"int[]"), (b"q[..]", b"hashcode[]"), (b"r[..]", b"hashcode[]"),
    (b"t[..]", b"String[]"), (b"v[..]", b"java.lang.String[]"), (b"f[..]", b"boolean[]"),
    (b"d", b"double"), (b"dd[..]", b"double[]"),
]
TRUTHS_AND_OTHERS = (b"x", b"y", b"b", b"c", b"h", b"s", b"a[..]", b"f[..]")
PLAIN_NAMES = [b"P", b"Q", b"R", b"a\\_b", b"C\\\\D", b"S x", b"O:::OBJECT", b"O:::CLASS",
               b"PQ", b"E:::EXIT1x", b"F:::ENTERS"]
METHODS = [b"M", b"N", b"O.m(int)", b"X:::Y", b"n\\_n"]
TAGS = [b"ENTER", b"EXIT", b"EXIT1", b"EXIT2", b"EXIT007"]
POINT_TYPES = [b"point", b"class", b"object", b"enter", b"exit", b"subexit", b"POINT", b"SubExit"]
COMPARABILITIES = [b"-1", b"1", b"2", b"0", b"1[2]", b"2[1]", b"3[-1]", b"1[1]", b"2[2][5]",
                   b"-3[2]", b"007", b"-0"]
WORDS_WITHOUT_EFFECT = [b"var-kind variable", b"flags is_param", b"dec-type int", b"array 1",
                        b"enclosing-var this", b"function-args x", b"valid-values 1",
                        b"#no comment"]
INTEGER_STYLES = ["constant", "latent", "latent plus", "latent times", "square", "small", "index",
                  "wide", "edge", "negative", "bit", "sum", "length", "element"]
ARITHMETIC_STYLES = ["one", "one", "other", "other", "constant", "zero", "unit", "sum of both",
                     "difference", "product", "least", "greatest", "quotient", "remainder", "and",
                     "or", "xor", "divisor", "square", "combination", "root"]
SEQUENCE_STYLES = ["latent", "shifted", "backwards", "part", "sorted", "small", "same", "zeros",
                   "constant", "long"]
EDGES = [-(1 << 63), (1 << 63) - 1, -(1 << 62), (1 << 62), (1 << 62) + 1, -(1 << 30), 1 << 30,
         (1 << 30) + 1, 0, 1, -1]
STRINGS = [b'"a"', b'"b c"', b'"a\\"]"', b"null", b'""', b'"\\\\"', b'"#"', b'"1"', b'"\xff"',
           b'"a\tb"']
MISSING_WORDS = [b"nonsensical", b"uninit", b"missing"]

Item = TypeVar("Item")
# names and rep-types
Variables = List[Tuple[bytes, bytes]]
# of a parent line: the relation, the parent's name and the edge's number
EdgePlan = Tuple[bytes, bytes, int]


@dataclass
class PointPlan:
    """A point as the generator means it: its spelled name, its variables as (name, rep-type,
    whether a constant stands there), and its block's lines."""
    name: bytes
    variables: list[tuple[bytes, bytes, bool]]
    block: list[bytes]
    declared: bool = False


def resumed(name: str) -> list[str]:
    """The arguments of a run that resumes the state, reads nothing more and saves it again."""
    return ["--resume", name, "--save", "--min-samples", "1", "--stats"]


@dataclass
class Case:
    """Where `is_cut` is set, the last run ends as the first one does. `changed` names the states
    that perhaps no samples give."""
    files: dict[str, bytes] = field(default_factory=dict)
    runs: list[list[str]] = field(default_factory=list)
    is_cut: bool = False
    changed: set[str] = field(default_factory=set)

    def promises_no_report(self, run: list[str]) -> bool:
        """Whether the run reads records after a state that perhaps no samples give."""
        return any(name in run and run != resumed(name) for name in self.changed)

    def state_that_stays(self, run: list[str]) -> bytes | None:
        """The state that the run must save again as it is, or None."""
        return next((text for name, text in self.files.items() if run == resumed(name)), None)


class Maker:
    """Makes declarations, records and texts by a seed."""

    def __init__(self, seed: int, second_form: bool = True) -> None:
        self.random = random.Random(seed)
        self.second_form = second_form
        self.styles: dict[tuple[bytes, int], tuple[str, int]] = {}
        self.latent = 0
        self.latent_list: list[int] = []
        self.pair = (0, 0)
        self.theme = self.random.choice(["mixed", "mixed", "arithmetic", "lists"])
        self.unit = self.random.choice([1, -1])
        self.pair_range = self.random.choice([(0, 6), (1, 12), (-8, 8), (0, 1), (1, 3)])
        self.points: list[PointPlan] = []
        self.waiting: list[tuple[bytes, int | None]] = []
        self.nonce = 0
        self.use_comparability = self.chance(0.5)
        self.missing_rate = self.random.choice([0, 0, 0.05, 0.3])
        self.bad_rate = self.random.choice([0, 0, 0, 0.01])
        self.with_nonces = self.random.choice([0, 0.5, 1])

    def chance(self, rate: float) -> bool:
        """True at this rate."""
        return self.random.random() < rate

    def some(self, items: Sequence[Item], most: int) -> list[Item]:
        """A few of the items, in their order."""
        number = self.random.randint(1, min(most, len(items)))
        chosen = self.random.sample(range(len(items)), number)
        return [items[k] for k in sorted(chosen)]

    # ------------------------------------------------------------ points

    def plan_points(self) -> None:
        """Plans the points and their variables."""
        variables = self.some(self.themed(), self.random.choice([2, 3, 4, 6]))
        if self.theme == "arithmetic" and self.chance(0.8):
            variables = [(name, b"int") for name in (b"x", b"y", b"z", b"w")]
        names = self.some(PLAIN_NAMES, 3) if self.chance(0.7) else []
        for method in self.some(METHODS, 2) if self.chance(0.6) or not names else []:
            tags = self.some(TAGS, 4)
            if self.chance(0.1):
                self.random.shuffle(tags)
            names += [method + b":::" + tag for tag in tags]
        if self.chance(0.2):
            self.random.shuffle(names)
        for name in names:
            self.points.append(self.plan_point(name, variables, names))

    def themed(self) -> Variables:
        """The variables of the theme."""
        if self.theme == "truths":
            return [(name, rep) for name, rep in VARIABLES if name in TRUTHS_AND_OTHERS]
        if self.theme == "lists":
            kinds = self.random.choice([b"int", b"hashcode", b"String", b"int"])
            return [(name, rep) for name, rep in VARIABLES if rep.endswith((kinds, kinds + b"[]"))]
        return VARIABLES

    def plan_point(self, name: bytes, variables: Variables, names: list[bytes]) -> PointPlan:
        """Plans a point in one of the forms of declarations."""
        mine = self.some(variables, 6) if self.chance(0.5) else list(variables)
        if self.chance(0.1):
            self.random.shuffle(mine)
        if self.chance(0.1):
            mine = [(v, self.random.choice(VARIABLES)[1] if self.chance(0.3) else rep)
                    for v, rep in mine]
        if self.chance(0.03):
            mine = []
        if self.second_form and self.chance(0.15):
            return self.plan_declare(name, mine)
        return self.plan_ppt(name, mine, names)

    def plan_ppt(self, name: bytes, mine: Variables, names: list[bytes]) -> PointPlan:
        """Plans a point in the first form."""
        lines = [b"ppt " + name]
        if self.chance(0.9):
            lines.append(b"ppt-type " + self.random.choice(POINT_TYPES))
        edges = self.edges_for(name, names)
        for relation, parent, number in edges:
            lines.append(b"parent %s %s %d" % (relation, parent, number))
        if self.chance(0.1):
            lines.append(self.random.choice(WORDS_WITHOUT_EFFECT))
        planned = []
        for variable, rep_type in mine:
            constant = self.chance(0.05)
            planned.append((variable, rep_type, constant))
            lines += self.variable_lines(variable, rep_type, constant, edges, mine)
        return PointPlan(name, planned, lines)

    def edges_for(self, name: bytes, names: list[bytes]) -> list[EdgePlan]:
        """Mostly to later points, so that there is no cycle."""
        others = names[names.index(name) + 1:] if self.chance(0.98) else names
        if self.chance(0.95):
            others = [other for other in others if b":::EXIT" not in other]
        if not others or self.chance(0.4):
            return []
        edges: list[EdgePlan] = []
        for _ in range(self.random.choice([1, 1, 2, 3])):
            relation = b"parent" if self.chance(0.9) else b"user"
            parent = b"Nowhere" if self.chance(0.05) else self.random.choice(others)
            if b" " not in parent:
                edge = (relation, parent, self.random.choice([0, 1, 1, 2, 4294967295]))
                if edge not in edges:
                    edges.append(edge)
        return edges

    def variable_lines(self, variable: bytes, rep_type: bytes, constant: bool, edges: list[EdgePlan], mine: Variables) -> list[bytes]:
        """The lines of a variable."""
        lines = [b"variable " + variable]
        more = [b"rep-type " + rep_type]
        if self.use_comparability and self.chance(0.8):
            more.append(b"comparability " + self.random.choice(COMPARABILITIES))
        if constant:
            more.append(b"constant " + self.text_of(variable, rep_type))
        for _, parent, number in edges:
            if self.chance(0.8):
                more.append(b"parent %s %d" % (parent, number))
                if self.chance(0.3):
                    more[-1] += b" " + self.random.choice(mine)[0].replace(b" ", b"\\_")
        if self.chance(0.1):
            more.append(self.random.choice(WORDS_WITHOUT_EFFECT))
        if self.chance(0.2):
            self.random.shuffle(more)
        return lines + more

    def plan_declare(self, name: bytes, mine: Variables) -> PointPlan:
        """Plans a point in the second form."""
        lines = [b"DECLARE", name]
        planned = []
        for variable, rep_type in mine:
            constant = self.chance(0.1)
            planned.append((variable, rep_type, constant))
            representation = rep_type
            if constant:
                representation += b" = " + self.text_of(variable, rep_type)
            lines += [variable, b"int", representation, self.random.choice(COMPARABILITIES)]
        return PointPlan(name, planned, lines)

    # ------------------------------------------------------------ values

    def new_latent(self) -> None:
        """Draws the numbers that the next record's values are made of."""
        self.latent = self.random.randint(-2, 12)
        length = self.random.choice([0, 1, 2, 3, 3, 4])
        self.latent_list = [self.random.randint(-1, 6) for _ in range(length)]
        self.pair = (self.random.randint(*self.pair_range), self.random.randint(*self.pair_range))

    def style(self, variable: bytes, styles: list[str]) -> tuple[str, int]:
        """How the variable's values are made, which stays the same."""
        key = (variable, len(styles))
        if key not in self.styles:
            self.styles[key] = (self.random.choice(styles), self.random.randint(-3, 5))
        return self.styles[key]

    def arithmetic(self, variable: bytes) -> int:
        """A number made of the two numbers of the record."""
        style, k = self.style(variable, ARITHMETIC_STYLES)
        x, y = self.pair
        divisor = y if y != 0 else self.unit
        numbers = {
            "one": x, "other": y, "constant": k, "zero": 0, "unit": self.unit,
            "sum of both": x + y, "difference": x - y, "product": x * y, "least": min(x, y),
            "greatest": max(x, y), "quotient": int(x / divisor),
            "remainder": x - divisor * int(x / divisor), "and": x & y, "or": x | y, "xor": x ^ y,
            "divisor": gcd(x, y), "square": x * x, "combination": 2 * x - 3 * y + k,
            "root": x * abs(self.unit + y),
        }
        return numbers[style]

    def integer(self, variable: bytes) -> int:
        """A number for the variable."""
        if self.theme == "arithmetic":
            return self.arithmetic(variable)
        style, k = self.style(variable, INTEGER_STYLES)
        n = self.latent
        numbers = {
            "constant": k, "latent": n, "latent plus": n + k, "latent times": n * k + 1,
            "square": n * n, "small": self.random.randint(-1, 2),
            "index": self.random.randint(-1, 4), "wide": self.random.getrandbits(63),
            "edge": self.random.choice(EDGES), "negative": -n - 20, "bit": n & 5,
            "sum": n + sum(self.latent_list), "length": len(self.latent_list) - 1,
            "element": self.latent_list[-1] if self.latent_list else n,
        }
        return numbers[style]

    def integers(self, variable: bytes) -> list[int]:
        """A list of numbers for the variable."""
        style, k = self.style(variable, SEQUENCE_STYLES)
        latent = self.latent_list
        lists = {
            "latent": latent, "shifted": [item + k for item in latent],
            "backwards": latent[::-1], "part": latent[1:], "sorted": sorted(set(latent)),
            "small": [self.random.randint(0, 2) for _ in range(self.random.randint(0, 4))],
            "same": [self.latent] * len(latent), "zeros": [0] * len(latent),
            "constant": [k, k + 1, k + 5], "long": latent * 6,
        }
        return lists[style]

    def scalar_text(self, element: bytes, number: int) -> bytes:
        """A text of the scalar kind that stands for the number."""
        if element == b"int":
            if number in (0, 1) and self.chance(0.05):
                return b"true" if number else b"false"
            return b"%s%d" % (b"0" if number >= 0 and self.chance(0.03) else b"", number)
        if element == b"boolean":
            return self.random.choice([b"true", b"1"] if number % 2 else [b"false", b"0"])
        if element == b"hashcode":
            number %= 4
            spelled = [b"null", b"0", b"0x0"] if number == 0 else [b"%d" % number, b"0x%x" % number, b"0x0%X" % number]
            return self.random.choice(spelled)
        if element == b"double":
            return b"1.5"
        return STRINGS[number % len(STRINGS)]

    def text_of(self, variable: bytes, rep_type: bytes) -> bytes:
        """A value's text."""
        if rep_type.endswith(b"[]"):
            element = rep_type[:-2]
            items = [self.scalar_text(element, item) for item in self.integers(variable)]
            if self.chance(0.03) and items:
                items[0] = self.random.choice(MISSING_WORDS)
            blanks = b"  " if self.chance(0.1) else b" "
            inner = blanks.join(items)
            return b"[ " + inner + b" ]" if self.chance(0.1) else b"[" + inner + b"]"
        return self.scalar_text(rep_type, self.integer(variable))

    def value_lines(self, variable: bytes, rep_type: bytes) -> list[bytes]:
        """The three lines of a value."""
        text = self.text_of(variable, rep_type)
        mark = self.random.choice([b"1", b"1", b"0"])
        if self.chance(self.missing_rate):
            text = self.random.choice(MISSING_WORDS)
            if self.chance(0.8):
                text = self.random.choice([text, b"null", b"3.5", b"[1"])
                mark = b"2"
        if rep_type in (b"int", b"hashcode") and self.chance(0.02):
            text = self.random.choice([b"99999999999999999999", b"-9223372036854775809"])
        return [variable, text, mark]

    # ------------------------------------------------------------ blocks

    def record(self, point: PointPlan) -> list[bytes]:
        """The lines of a sample record."""
        self.new_latent()
        lines = [point.name]
        method, _, tag = point.name.rpartition(b":::")
        nonce = self.nonce_for(method, tag)
        if nonce is not None:
            lines += [b"this_invocation_nonce", b"%d" % nonce]
        for variable, rep_type, constant in point.variables:
            if not constant:
                lines += self.value_lines(variable, rep_type)
        return lines

    def nonce_for(self, method: bytes, tag: bytes) -> int | None:
        """Mostly a nonce that fits the entries that wait."""
        if tag == b"ENTER":
            self.nonce += 1
            nonce = self.nonce if self.chance(self.with_nonces) else None
            self.waiting.append((method, nonce))
            return nonce
        of_method = [nonce for name, nonce in self.waiting if name == method]
        if tag.startswith(b"EXIT") and of_method:
            nonce = self.random.choice(of_method) if self.chance(0.3) else of_method[-1]
            self.waiting.remove((method, nonce))
            return nonce
        return self.random.randint(-3, 3) if self.chance(0.05) else None

    def may_have_record(self, point: PointPlan) -> bool:
        """Exits without a waiting entry mostly wait for one."""
        if not point.declared:
            return self.chance(0.002)
        method, _, tag = point.name.rpartition(b":::")
        entry = method + b":::ENTER"
        has_entry = any(other.name == entry and other.declared for other in self.points)
        if not tag.startswith(b"EXIT") or not has_entry:
            return True
        return any(name == method for name, _ in self.waiting) or self.chance(0.01)

    def blocks(self, records: int) -> list[list[bytes]]:
        """Declarations, most of them first, and sample records."""
        blocks = [self.odd_block()] if self.chance(0.3) else []
        for point in self.points:
            if self.chance(0.95):
                blocks.append(self.declare(point))
        for _ in range(records):
            point = self.random.choice(self.points)
            if self.chance(0.03):
                blocks.append(self.declare(point))
            elif self.chance(0.02):
                blocks.append(self.odd_block())
            elif self.may_have_record(point):
                blocks.append(self.record(point))
        return blocks

    def records(self, number: int) -> list[list[bytes]]:
        """Sample records of declared points, as far as there are such."""
        blocks: list[list[bytes]] = []
        for _ in range(20 * number):
            point = self.random.choice(self.points)
            if len(blocks) < number and point.declared and self.may_have_record(point):
                blocks.append(self.record(point))
        return blocks

    def declare(self, point: PointPlan) -> list[bytes]:
        """The lines of the point's declaration."""
        point.declared = True
        return list(point.block)

    def odd_block(self) -> list[bytes]:
        """A block of headers or comments."""
        headers = [[b"decl-version 2.0"], [b"var-comparability none"], [b"ListImplementors", b"x"],
                   [b"var-comparability implicit"], [b"input-language C"], [b"# comment"],
                   [b"// comment", b"decl-version \t2.0"]]
        if self.second_form:
            headers += [[b"VarComparability", b"none"], [b"VarComparability", b"# x", b"implicit"]]
        return list(self.random.choice(headers))

    # ------------------------------------------------------------ text

    def text(self, blocks: list[list[bytes]]) -> bytes:
        """The blocks as a text."""
        dressed = self.chance(0.3)
        ending = b"\r\n" if self.chance(0.1) else b"\n"
        text = b""
        for block in blocks:
            if dressed and self.chance(0.1):
                block = self.random.choice([[b"# note"], [b"//note"], [b"decl-version 2.0"],
                                            [b"input-language"]]) + block
            for line in block:
                text += self.dressed(line) if dressed else line
                text += ending
            text += ending if not dressed else self.blank_lines(ending)
        if self.chance(0.2):
            text = text.rstrip(b"\r\n")
        return text

    def dressed(self, line: bytes) -> bytes:
        """A line with blanks that don't count."""
        if self.chance(0.05):
            line = self.random.choice([b" ", b"\t", b"  \t"]) + line
        if self.chance(0.05):
            line += self.random.choice([b" ", b"\t", b"\r", b" \r"])
        if self.chance(0.02):
            line = line.replace(b" ", b" \t", 1)
        return line

    def blank_lines(self, ending: bytes) -> bytes:
        """What parts two blocks."""
        return b"".join(self.random.choice([b"", b"", b" ", b"\t ", b"\r"]) + ending
                        for _ in range(self.random.choice([1, 1, 1, 2])))

    # ------------------------------------------------------------ faults

    def mutated(self, text: bytes) -> bytes:
        """The text with faults put in."""
        lines = text.split(b"\n")
        for _ in range(self.random.choice([1, 1, 2, 4])):
            at = self.random.randrange(len(lines))
            self.random.choice(MUTATIONS)(self.random, lines, at)
            if not lines:
                lines = [b""]
        return b"\n".join(lines)


ODD_LINES = [
    b"", b" ", b"#", b"//x", b"ppt", b"ppt P", b"ppt-type", b"ppt-type method", b"ppt-type a b",
    b"ppt-type ENTER", b"parent parent P", b"parent parent P 1", b"parent parent P 4294967296",
    b"parent user P 01", b"parent parent P +1", b"parent P 1", b"parent P x", b"parent P 1 x y",
    b"parent parent P 01", b"variable", b"variable x", b"variable y", b"rep-type", b"rep-type int",
    b"rep-type float", b"rep-type int x", b"rep-type double", b"rep-type boolean",
    b"rep-type INT", b"comparability", b"comparability 1", b"comparability 1[", b"comparability x",
    b"comparability 1[2]", b"comparability 1 [2]", b"comparability [2]", b"comparability 1[2]x",
    b"comparability 1[]", b"comparability +1", b"comparability 9223372036854775808",
    b"comparability 1[2][9223372036854775808]", b"constant", b"constant 5", b"constant x",
    b"constant nonsensical", b"constant 99999999999999999999", b'constant "a"', b"constant [1 2]",
    b"decl-version 2.0", b"decl-version 3.0", b"decl-version", b"decl-version 2.0 x",
    b"var-comparability none", b"var-comparability", b"var-comparability some",
    b"input-language", b"ListImplementors", b"ListImplementors x", b"pptx", b"P", b"Q", b"x", b"1",
    b"0", b"2", b"3", b"-1", b"true", b"null", b"nonsensical", b"this_invocation_nonce", b"+1",
    b"0x1f", b"0X1f", b"0x", b"-0", b"[1 2", b"[1 2]", b"[ ]", b"[]", b"[\t]", b"[1 nonsensical x]",
    b'["a" "b"]', b'["a""b"]', b'"a', b'"a"b"', b"9223372036854775808", b"a b", b"\\_", b"\\",
    b"\r", b"M:::ENTER", b"M:::EXIT1", b"M:::EXIT", b"1\xff",
]
SECOND_FORM_LINES = [b"DECLARE", b"DECLARE x", b"VarComparability", b"VarComparability x", b"none",
                     b"implicit", b"int", b"int = 4", b"int = a", b"int =", b"int x", b"int =4",
                     b"double =", b"float", b"String = \"a b\""]


def odd_line(random_: Random, lines: list[bytes], at: int) -> None:
    """Puts an odd line in the place of this one."""
    lines[at] = random_.choice(ODD_LINES)


def insert_odd_line(random_: Random, lines: list[bytes], at: int) -> None:
    """Puts an odd line in."""
    lines.insert(at, random_.choice(ODD_LINES))


def second_form_line(random_: Random, lines: list[bytes], at: int) -> None:
    """Puts a line of the second form in."""
    lines.insert(at, random_.choice(SECOND_FORM_LINES))


def exchange_lines(random_: Random, lines: list[bytes], at: int) -> None:
    """Exchanges the line with another one."""
    other = random_.randrange(len(lines))
    lines[at], lines[other] = lines[other], lines[at]


def line_of_elsewhere(random_: Random, lines: list[bytes], at: int) -> None:
    """Puts another line of the text in the place of this one."""
    lines[at] = random_.choice(lines)


def cut_after(random_: Random, lines: list[bytes], at: int) -> None:
    """Cuts the text after the line."""
    del lines[at + 1:]


def cut_within(random_: Random, lines: list[bytes], at: int) -> None:
    """Cuts the text within the line."""
    del lines[at + 1:]
    lines[at] = lines[at][:random_.randint(0, len(lines[at]))]


def delete_block_end(random_: Random, lines: list[bytes], at: int) -> None:
    """Joins the block with the next one."""
    for k in range(at, len(lines)):
        if lines[k].strip() == b"":
            del lines[k]
            return


def odd_number(random_: Random, lines: list[bytes], at: int) -> None:
    """Another number in the line's place of one."""
    numbers = [b"0", b"-1", b"1", b"2", b"99999999999999999999", b"4294967296", b"007", b"-0"]
    lines[at] = re.sub(rb"-?[0-9]+", random_.choice(numbers), lines[at], count=1)


def odd_sibling(random_: Random, lines: list[bytes], at: int) -> None:
    """Another line with the first word of one that has such; in place of a value another one."""
    for k in list(range(at, len(lines))) + list(range(at)):
        first = lines[k].split()[:1]
        siblings = [odd for odd in ODD_LINES if odd.split()[:1] == first]
        if len(siblings) > 1:
            lines[k] = random_.choice(siblings)
            return


def odd_header(random_: Random, lines: list[bytes], at: int) -> None:
    """A header line before a block."""
    starts = [k + 1 for k, line in enumerate(lines[:-1]) if line.strip() == b""] + [0]
    lines.insert(random_.choice(starts), random_.choice(ODD_HEADERS))


def odd_nonce(random_: Random, lines: list[bytes], at: int) -> None:
    """Puts an odd nonce in the place of one."""
    places = [k + 1 for k, line in enumerate(lines[:-1])
              if line.strip() == b"this_invocation_nonce"]
    if places:
        lines[random_.choice(places)] = random_.choice(ODD_NONCES)


def odd_in_declare(random_: Random, lines: list[bytes], at: int) -> None:
    """Another line within a declaration of the second form."""
    starts = [k for k, line in enumerate(lines) if line.strip() == b"DECLARE"]
    if starts:
        start = random_.choice(starts)
        place = min(start + random_.randint(1, 9), len(lines) - 1)
        change = random_.choice([delete_line, double_line, None, None, None])
        if change:
            change(random_, lines, place)
        else:
            lines[place] = random_.choice(SECOND_FORM_LINES + ODD_LINES)


def odd_value(random_: Random, lines: list[bytes], at: int) -> None:
    """Another text in place of one that looks like a value or a mark."""
    places = [k for k, line in enumerate(lines)
              if line.strip()[:1] in (b"[", b'"', b"-", b"0", b"1", b"2", b"n", b"t", b"f")
              and b" " not in line.strip() or line.strip()[:1] == b"["]
    if places:
        lines[random_.choice(places)] = random_.choice(ODD_VALUES)


ODD_HEADERS = [b"decl-version 3.0", b"decl-version", b"decl-version 2.0 x", b"decl-version 2.0",
               b"var-comparability", b"var-comparability some", b"var-comparability none",
               b"var-comparability none x", b"VarComparability", b"VarComparability\nsome",
               b"VarComparability\nVarComparability", b"VarComparability\n\n",
               b"VarComparability\n//x\nnone", b"VarComparability x", b"input-language",
               b"ListImplementors", b"DECLARE", b"ppt"]
ODD_NONCES = [b"", b"x", b"1.5", b"9223372036854775808", b"-9223372036854775808", b"007", b"-0",
              b"+1", b"1 2", b"nonsensical"]
ODD_VALUES = [line for line in ODD_LINES if line.split()[:1] and line.split()[0] not in (
    b"ppt", b"ppt-type", b"parent", b"variable", b"rep-type", b"comparability", b"constant")] + [
    b"[1  2 ]", b"[ 1]", b"[1,2]", b"[null]", b"[null null]", b"[true 1]", b"[0x1 0x2]",
    b"[missing]", b'[nonsensical "a"]', b'["a]', b'["a]"]', b'["a\\"]', b'[ "a"  null ]', b"[[1]]",
    b"]", b"[", b"TRUE", b"False", b"NULL", b"1 2", b"18446744073709551615",
    b"18446744073709551616", b"-9223372036854775808", b"9223372036854775807", b"0xffffffffffffffff",
    b"0x10000000000000000", b"0xG", b"-0x1", b'"\\"', b'"\\\\"', b"''"]


MUTATIONS = [odd_sibling, odd_sibling, odd_header, odd_nonce, odd_in_declare, odd_in_declare,
             odd_value, odd_value, odd_value, delete_line, double_line, odd_line, odd_line,
             insert_odd_line, insert_odd_line, exchange_lines, line_of_elsewhere, odd_byte,
             odd_byte, delete_byte, cut_after, cut_within, delete_block_end, odd_number,
             odd_number]


# ---------------------------------------------------------------- cases

def one_file_case(seed: int, second_form: bool = True) -> Case:
    """One file of one run; in about half of the cases with faults put in."""
    maker = Maker(seed, second_form)
    if maker.chance(0.02):
        return Case({"t": maker.random.choice(LIMITS)(maker.random)}, [["t"]])
    maker.plan_points()
    text = maker.text(maker.blocks(maker.random.choice([3, 8, 20, 40])))
    if maker.chance(0.5):
        text = maker.mutated(text)
    if maker.chance(0.02):
        lines = text.split(b"\n")
        second_form_line(maker.random, lines, maker.random.randrange(len(lines)))
        text = b"\n".join(lines)
    return Case({"t": text}, [["t"]])


# ---------------------------------------------------------------- limits

def block_of(lines: list[bytes]) -> bytes:
    """The lines as a block."""
    return b"".join(line + b"\n" for line in lines) + b"\n"


def plain_point(name: bytes, variables: Variables) -> bytes:
    """A declaration of these variables."""
    lines = [b"ppt " + name]
    for variable, rep_type in variables:
        lines += [b"variable " + variable, b"rep-type " + rep_type]
    return block_of(lines)


def many_points(random_: Random) -> bytes:
    """As many points as there may be, or one more; at the end a subexit counts twice."""
    number = 65_535 + random_.choice([-1, 0, 1])
    names = [b"p%d" % k for k in range(number)]
    if random_.random() < 0.5:
        names[-1] = b"M:::EXIT1"
    return b"".join(block_of([b"ppt " + name]) for name in names)


def many_variables(random_: Random) -> bytes:
    """As many declared variables as there may be, or one more."""
    number = 1_024 + random_.choice([0, 1])
    rep_type = random_.choice([b"int", b"double"])
    return plain_point(b"P", [(b"x%d" % k, rep_type) for k in range(number)])


def many_derived(random_: Random) -> bytes:
    """As many variables in all as there may be, or a few more."""
    variables = [(b"a%d[..]" % k, b"int[]") for k in range(40)]
    variables += [(b"i%d" % k, b"int") for k in range(80)]
    variables += [(b"h%d" % k, b"hashcode") for k in range(144 + random_.choice([-1, 0, 1]))]
    variables += [(b"d%d" % k, b"double") for k in range(10)]
    return plain_point(b"P", variables)


def many_orig(random_: Random) -> bytes:
    """The same with orig variables."""
    variables = [(b"a%d[..]" % k, b"int[]") for k in range(20)]
    variables += [(b"i%d" % k, b"int") for k in range(80)]
    variables += [(b"h%d" % k, b"hashcode") for k in range(32 + random_.choice([-1, 0, 1]))]
    tag = random_.choice([b"EXIT", b"EXIT1"])
    return plain_point(b"M:::ENTER", variables) + plain_point(b"M:::" + tag, variables)


def long_line(random_: Random) -> bytes:
    """A line of the greatest length, or one byte more."""
    length = 16_777_216 + random_.choice([0, 1, 1])
    filler = random_.choice([b"x", b"#", b" ", b"\t"])
    line = filler * length
    if random_.random() < 0.3:
        line = line[:-1] + b"\r"
    before = random_.choice([b"", b"ppt P\n", b"ppt P\nvariable x\n", b"ppt P\n\n", b"# x\n"])
    return before + line + random_.choice([b"", b"\n", b"\nppt\n"])


LIMITS = [many_points, many_variables, many_derived, many_orig, long_line, long_line]


def full_case(seed: int, second_form: bool = True, grammar: int = 2) -> Case:
    """Several files, runs with all arguments, states saved, changed and resumed."""
    maker = Maker(seed, second_form)
    maker.plan_points()
    case = Case()
    names = ["t", "u", "v"][:maker.random.choice([1, 1, 2, 3])]
    for name in names:
        maker.waiting = []
        text = maker.text(maker.blocks(maker.random.choice([3, 6, 12, 25])))
        case.files[name] = maker.mutated(text) if maker.chance(0.1) else text
    if maker.chance(0.15):
        return state_case(maker, case, grammar)
    options = random_options(maker)
    if maker.chance(0.5):
        case.runs.append(mixed(maker, options, names))
        return case
    split = maker.random.randint(0, len(names))
    case.runs.append(mixed(maker, options + ["--save"], names[:split]))
    resume = ["--resume", "daikon.state"]
    case.runs.append(mixed(maker, random_options(maker) + ["--save"] + resume, names[split:]))
    return case


def state_case(maker: Maker, case: Case, grammar: int) -> Case:
    """A run that resumes the state of the first file and saves it again. With faults put in it
    reads no more files: what comes of a state that no samples give is promised only until then."""
    text = state_file(history_of(case.files["t"], maker.random.randint(1, grammar),
                                 maker.second_form))
    arguments = resumed("s")
    if maker.chance(0.7):
        case.files = {"s": maker.mutated(text)}
    else:
        case.files["s"] = text
        arguments += sorted(set(case.files) - {"s", "t"})
    case.runs.append(arguments)
    return case


def history_of(text: bytes, grammar: int = 2, second_form: bool = True) -> History:
    """The history of the text up to its first fault."""
    history = History(Table(second_form), grammar=grammar)
    waiting: list[Entry] = []
    try:
        for block in blocks_of(*lines_of(text)):
            effect_of(block, history, waiting, True)
    except Fault:
        pass
    return history


def cut_case(seed: int, second_form: bool = True, grammar: int = 2) -> Case:
    """A run over some files; then the same files cut after one or two of them, or before
    all or after all. Each part resumes what the one before it saved."""
    maker = Maker(seed, second_form)
    maker.plan_points()
    case = Case(is_cut=True)
    names = ["t", "u", "v", "w"][:maker.random.choice([1, 2, 2, 3, 4])]
    for name in names:
        maker.waiting = []
        case.files[name] = maker.text(maker.blocks(maker.random.choice([3, 6, 12, 25])))
    options = random_options(maker, with_every=False) + ["--save"]
    if "--ignore-missing-entry" not in options:
        options.append("--ignore-missing-entry")
    case.runs.append(options + names)
    cuts = sorted(maker.random.choices(range(len(names) + 1), k=maker.random.choice([1, 1, 2])))
    resume: list[str] = []
    for start, end in zip([0] + cuts, cuts + [len(names)]):
        case.runs.append(options + resume + names[start:end])
        resume = ["--resume", "daikon.state"]
    return case


STATES_OF_A_CASE = 10


def states_case(seed: int, second_form: bool = True, grammar: int = 2) -> Case:
    """The state of a file, and changed ones: each is resumed and saved again, and resumed with
    a few records."""
    maker = Maker(seed, second_form)
    maker.plan_points()
    first = maker.text(maker.blocks(maker.random.choice([1, 3, 6, 12])))
    history = history_of(first, maker.random.randint(1, grammar), second_form)
    text = state_file(history)
    maker.waiting = []
    case = Case({"s": text, "u": maker.text(maker.records(maker.random.choice([1, 1, 2, 5])))})
    for k in range(STATES_OF_A_CASE):
        case.files["s%d" % k] = changed_state(maker.random, text)
        case.changed.add("s%d" % k)
    for name in sorted(set(case.files) - {"u"}):
        case.runs.append(resumed(name))
        case.runs.append(resumed(name) + ["--ignore-missing-entry", "u"])
    return case


FORMS_OF_A_CASE = 20
ALL_FORMS = [(row, state.encode()) for row in ROWS for state in sorted(set(STATES))
             if state.split(" ")[0] in ROWS[row].words + ("empty", "holds", "broken")
             or state in ("least 0", "one 3", "spot 1 2", "offset 3")]
ALL_KINDS = [(b"x", b"int"), (b"y", b"int"), (b"z", b"int"), (b"b", b"boolean"),
             (b"c", b"boolean"), (b"h", b"hashcode"), (b"g", b"hashcode"),
             (b"s", b"java.lang.String"), (b"u", b"java.lang.String"), (b"a", b"int[]"),
             (b"m", b"int[]"), (b"f", b"boolean[]"), (b"e", b"boolean[]"), (b"q", b"hashcode[]"),
             (b"r", b"hashcode[]"), (b"t", b"java.lang.String[]"), (b"v", b"java.lang.String[]")]
RECORD_OF_KIND = {b"int": b"-5", b"boolean": b"true", b"hashcode": b"0x7",
                  b"java.lang.String": b'"a"', b"int[]": b"[4 2]", b"boolean[]": b"[true]",
                  b"hashcode[]": b"[1 null]", b"java.lang.String[]": b'["a" null]'}


def forms_case(seed: int, second_form: bool = True, grammar: int = 2) -> Case:
    """States of one point with two samples, one of them without any value, and a single slot.
    Thirty seeds have them all."""
    declaration = plain_point(b"P", ALL_KINDS)
    history = history_of(declaration)
    variables = history.table.points[0].variables
    classes = b"".join(b"class %d\n" % place for place in range(len(variables)))
    patterns = [b"pattern 1 " + bit * len(variables) + b"\n" for bit in (b"0", b"1")]
    start = state_file(history)[:-len(b"end-state\n")] + b"samples 0 2\n" + classes
    record = b"".join(b"%s\n%s\n1\n" % (name, RECORD_OF_KIND[rep]) for name, rep in ALL_KINDS)
    case = Case({"u": b"P\n" + record})
    for k in range(FORMS_OF_A_CASE):
        row, state = ALL_FORMS[(seed * FORMS_OF_A_CASE + k) % len(ALL_FORMS)]
        slot = b"slot %d %s %s\n" % (row, leaders_for(row, variables), state)
        name = "s%d" % k
        case.files[name] = start + b"".join(patterns) + slot + b"end\nend-state\n"
        case.changed.add(name)
        case.runs += [resumed(name), resumed(name) + ["u"]]
    return case


def leaders_for(row: int, variables: list[VarInfo]) -> bytes:
    """The first variables of the kinds that the row takes."""
    ahead = [(variable.kind, place) for place, variable in enumerate(variables)]
    found = []
    for kind, _ in ROWS[row].takes:
        found.append(next(pair for pair in ahead if pair[0] == kind))
        ahead.remove(found[-1])
    return b" ".join(b"%d" % place for _, place in found)


def order_case(seed: int, second_form: bool = True, grammar: int = 2) -> Case:
    """A run over what is right, faulty or not there, and one that resumes what it saved."""
    maker = Maker(seed, second_form)
    maker.plan_points()
    text = maker.text(maker.blocks(3))
    state = state_file(history_of(text, maker.random.randint(1, grammar), second_form))
    case = Case({"t": text, "f": text + b"\n\nundeclared\n", "s": state,
                 "b": changed_state(maker.random, state) + b"x\n"})
    for resumable in (["s"] * 6 + ["b", "t", "nowhere", ".", ""], ["daikon.state"]):
        groups = [[name] for name in maker.random.choices(
            ["t"] * 8 + ["f", "nowhere", "s", "."], k=maker.random.choice([0, 1, 1, 2, 3]))]
        name = maker.random.choice(resumable)
        resume: list[str] = maker.random.choice([[], ["--resume", name], ["--resume=" + name]])
        # (the generated records are read only now and then, since they take a while)
        generates = maker.chance(0.5 if resume and name not in ("s", "daikon.state") else 0.03)
        choices: list[tuple[list[str], float]] = [
            (resume, 1), (["--generate", "1"], generates), (["--save"], 0.7), (["--stats"], 0.3), (["--min-samples", "1"], 0.9),
            (["--every", maker.random.choice(["1", "3"])], 0 if generates else 0.4), (["--ignore-missing-entry"], 0.9)]
        for group, rate in choices:
            if maker.chance(rate):
                groups.insert(maker.random.randint(0, len(groups)), group)
        case.runs.append([word for group in groups for word in group])
    return case


def random_options(maker: Maker, with_every: bool = True) -> list[str]:
    """Options of daikon."""
    chosen = []
    if maker.chance(0.85):
        chosen += ["--min-samples", maker.random.choice(["1", "1", "1", "2", "+3", "004", "0", "x"]
                                                        if maker.chance(0.1) else ["1", "1", "2"])]
    for flag in ["--keep-implied", "--keep-incomparable", "--keep-members", "--keep-constant",
                 "--keep-parent", "--stats"]:
        if maker.chance(0.3):
            chosen.append(flag)
    if maker.chance(0.7):
        chosen.append("--ignore-missing-entry")
    if with_every and maker.chance(0.1):
        chosen += ["--every", maker.random.choice(["1", "3", "7"])]
    if maker.chance(0.1):
        chosen += [maker.random.choice(["--select=P", "--select=M", "--select=", "--select=a b"])]
    return chosen


def mixed(maker: Maker, options: list[str], names: list[str]) -> list[str]:
    """FILEs may stand between the options."""
    if maker.chance(0.02):
        options = options + [maker.random.choice(["--stats", "--min", "-x", "--stats=1", "--save=",
                                                  "nowhere", "--select", "--generate=-1"])]
    return options + names if maker.chance(0.8) else names + options


# ---------------------------------------------------------------- the other programs

def several_files(maker: Maker, records: list[int]) -> dict[str, bytes]:
    """One to three files, now and then with faults put in."""
    files = {}
    for name in ["t", "u", "v"][:maker.random.choice([1, 1, 2, 3])]:
        maker.waiting = []
        text = maker.text(maker.blocks(maker.random.choice(records)))
        files[name] = maker.mutated(text) if maker.chance(0.03) else text
    return files


def some_arguments(maker: Maker, *choices: tuple[list[str], float]) -> list[str]:
    """Each of the choices at its rate."""
    return [word for arguments, rate in choices if maker.chance(rate) for word in arguments]


def split_case(seed: int, second_form: bool = True, grammar: int = 2) -> Case:
    """A run of dk_split."""
    maker = Maker(seed, second_form)
    maker.theme = maker.random.choice(["truths", "truths", "mixed"])
    maker.plan_points()
    case = Case(several_files(maker, [3, 6, 12, 25]))
    arguments = some_arguments(maker, (["--min-samples", maker.random.choice(["1", "2", "3"])], 0.9),
                               (["--ignore-missing-entry"], 0.8), (["--save"], 0.01))
    case.runs.append(arguments + sorted(case.files))
    return case


def check_case(seed: int, second_form: bool = True, grammar: int = 2) -> Case:
    """The lines of a report about the first file, some of them changed, against the files."""
    maker = Maker(seed, second_form)
    maker.plan_points()
    case = Case(several_files(maker, [3, 6, 12, 25]))
    filters = [name for name in FILTERS if maker.chance(0.6)]
    text = report(history_of(case.files["t"]), 1, b"", filters, maker.chance(0.2))
    lines = text.split(b"\n")
    for _ in range(maker.random.choice([0, 1, 3, 8])):
        maker.random.choice(ASSERTION_CHANGES)(maker.random, lines,
                                               maker.random.randrange(len(lines)))
        lines = lines or [b""]
    case.files["a"] = b"\n".join(lines[:400])
    arguments = some_arguments(maker, (["--ignore-missing-entry"], 0.8), (["--stats"], 0.01))
    names = sorted(set(case.files) - {"a"})
    names = maker.random.sample(names, maker.random.randint(0, len(names)))
    case.runs.append(arguments + ["a"] + names)
    return case


def tell_case(seed: int, second_form: bool = True, grammar: int = 2) -> Case:
    """The report and the files of a case for dk_check, in some format."""
    case = check_case(seed, second_form)
    arguments = case.runs[0]
    names = [word for word in arguments if not word.startswith("-")]
    flags = [word for word in arguments if word == "--ignore-missing-entry"]
    formats: list[str] = random.Random(seed).choice([[], ["json"], ["python"], ["c"], ["smtlib"], ["smtlib"], ["c"], ["python"]])
    return Case(case.files, [flags + [word for name in formats for word in ("--format", name)] + names])


def table_case(seed: int, second_form: bool = True, grammar: int = 2) -> Case:
    """Tables, mostly of one header."""
    files, arguments = tables_and_arguments(random.Random(seed))
    return Case(files, [arguments])


def merge_case(seed: int, second_form: bool = True, grammar: int = 2) -> Case:
    """States of files with the same declarations, or files read in turns."""
    maker = Maker(seed, second_form)
    maker.plan_points()
    declarations = [maker.declare(point) for point in maker.points]
    names = ["s1", "s2", "s3"][:maker.random.choice([1, 2, 2, 3])]
    in_turns = maker.chance(0.4)
    case = Case()
    least = some_arguments(maker, (["--min-samples", "1"], 0.9))
    for name in names:
        maker.waiting = []
        blocks = declarations + maker.records(maker.random.choice([0, 1, 3, 6, 12]))
        if maker.chance(0.1):
            blocks.insert(maker.random.randint(0, len(blocks)), maker.odd_block())
        if maker.chance(0.05):
            blocks.pop(maker.random.randrange(len(blocks)))
        text = maker.text(blocks)
        if not in_turns:
            text = state_file(history_of(text, 1 if maker.chance(0.1) else 2))
            text = changed_state(maker.random, text) if maker.chance(0.2) else text
        case.files[name] = text
    turns = ["--turns", maker.random.choice(["1", "2", "5", "1000000000"])] if in_turns else []
    case.runs.append(least + turns + names)
    if not in_turns:
        case.runs.append(least + names[::-1])
    return case


def heading_line(random_: Random, lines: list[bytes], at: int) -> None:
    """Puts a line in that begins a section, or looks like it."""
    lines.insert(at, random_.choice([b"=", b"==", b"=====", b"= ", b"P", b"P  [4]", b"M:::EXIT",
                                     b"M:::EXIT  [x]", b"", b" ", b"--- end", b"stats x"]))


def other_count(random_: Random, lines: list[bytes], at: int) -> None:
    """Puts another count in the place of one."""
    lines[at] = re.sub(rb"  \[[0-9]+\]$", random_.choice([b"", b" [4]", b"  []", b"  [4]  [5]",
                                                          b"  [4] "]), lines[at])


def other_number(random_: Random, lines: list[bytes], at: int) -> None:
    """Puts another number in the place of the first one."""
    number = random_.choice([b"0", b"1", b"2", b"3", b"-1", b"99999999999999999999", b"01"])
    lines[at] = re.sub(rb"-?[0-9]+", number, lines[at], count=1)


def carriage_return(random_: Random, lines: list[bytes], at: int) -> None:
    """Puts a carriage return or a blank at the end."""
    lines[at] += random_.choice([b"\r", b"\r\r", b" "])


ASSERTION_CHANGES = [delete_line, double_line, exchange_lines, odd_byte, delete_byte, heading_line,
                     heading_line, other_count, other_number, other_number, other_number,
                     carriage_return]


# ---------------------------------------------------------------- the case of a seed

CaseOfSeed = Callable[[int, bool, int], Case]


def without_grammar(case_of_seed: Callable[[int, bool], Case]) -> CaseOfSeed:
    """The case of a seed, whatever the grammar is."""
    return lambda seed, second_form, grammar: case_of_seed(seed, second_form)


KINDS: dict[str, CaseOfSeed] = {
    "one-file": without_grammar(one_file_case), "full": full_case, "cut": cut_case, "states": states_case, "forms": forms_case,
    "order": order_case, "split": split_case, "check": check_case, "merge": merge_case, "tell": tell_case, "table": table_case}


def write_files(files: dict[str, bytes], folder: str) -> None:
    """Writes the files into the folder."""
    for name, text in files.items():
        with open(os.path.join(folder, name), "wb") as file:
            file.write(text)


def main(arguments: list[str]) -> None:
    """Writes the files of a case, and prints its runs."""
    options = [word for word in arguments if word.startswith("--")]
    kind, seed, folder = [word for word in arguments if not word.startswith("--")]
    case = KINDS[kind](int(seed), "--first-form" not in options,
                       1 if "--first-grammar" in options else 2)
    write_files(case.files, folder)
    for run in case.runs:
        print(" ".join(run))


if __name__ == "__main__":
    main(sys.argv[1:])
