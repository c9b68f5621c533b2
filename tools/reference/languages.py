"""What lines of a report say in Python, C and SMT-LIB.

The tables of rows and of derived variables are read from the definitions in `crates/dk_languages/specs`; names, literals and the places
where a line says something follow `docs/USING.md`, Expressions. Bytes are told as the characters of their numbers.
"""

from __future__ import annotations

import glob
import keyword
import os
import re
from dataclasses import dataclass

from input_language import ELEMENT
from points import VarInfo
from rows import EMPTY, State

SPECS = os.path.join(os.path.dirname(os.path.abspath(__file__)), "../../crates/dk_languages/specs")
LANGUAGES = ("Python", "C", "Smtlib")
FORMS = ("Size", "First", "Last", "At", "Upto", "Before", "Since", "After")
OF_ELEMENTS = (35, 44, 47)


# ---------------------------------------------------------------- tables

def definition(name: str) -> str:
    """The text of a file of definitions."""
    (path,) = glob.glob(os.path.join(SPECS, "**", name + ".antt"), recursive=True)
    with open(path, encoding="utf-8") as file:
        return file.read()


def strings_of(text: str) -> list[str]:
    """The literals of a definition."""
    return [item.replace('\\"', '"').replace("\\\\", "\\") for item in re.findall(r'"((?:[^"\\]|\\.)*)"', text)]


def rows_of(language: str) -> list[str]:
    """What the rows say, from 0 on."""
    return strings_of(definition(language + "Rows").split("map codes (")[1])


def form_tables() -> dict[tuple[str, str, str], str]:
    """The text of a part (value, start, end, presence) of a form in a language."""
    found: dict[tuple[str, str, str], str] = {}
    pattern = re.compile(r'^(value|start|end|presence)_of (language\.(\w+)|l) (\(form\.(\w+)[ si]*\)|f) = (codes "(.*)"|\[\])$',
                         re.M)
    for part, _, language, _, form, _, text in pattern.findall(definition("Forms")):
        for each in (language,) if language else LANGUAGES:
            for one in (form,) if form else ("Base", *FORMS):
                found.setdefault((part, each, one), text)
    return found


ROWS = {language: rows_of(language) for language in LANGUAGES}
PARTS = form_tables()


def filled(template: str, fillings: dict[str, str]) -> str:
    """The template with its holes filled."""
    return "".join(fillings.get(letter, letter) for letter in template)


# ---------------------------------------------------------------- literals

def number(language: str, value: int) -> str:
    """A number in the language."""
    if language == "Smtlib" and value < 0:
        return f"(- {-value})"
    if language == "C" and abs(value) >= 2**63:
        return f"{'-' if value < 0 else ''}dk_wide({abs(value) >> 64}u, {abs(value) % 2**64}u)"
    return str(value)


def string(language: str, text: bytes) -> str:
    """A string that is spelled so, in the language."""
    if language == "Smtlib":
        shown = "".join('""' if b == 34 else chr(b) if 32 <= b < 127 and b != 92 else f"\\u{{{b:x}}}" for b in text)
        return f'"{shown}"'
    if text == b"null":
        return "None" if language == "Python" else "0"
    if language == "C":
        return text.decode("latin-1").replace("?", "\\?")
    if text.isascii():
        return text.decode()
    return "b" + "".join(chr(b) if b < 128 else f"\\{b:03o}" for b in text) + '.decode("utf-8", "surrogateescape")'


def literal(language: str, value: bool | int | bytes) -> str:
    """A value in the language."""
    if isinstance(value, bool):
        return str(value) if language == "Python" else str(value).lower()
    return number(language, value) if isinstance(value, int) else string(language, value)


def is_string_of(language: str, text: bytes) -> bool:
    """Whether the language reads the string as a trace does."""
    return language == "Smtlib" or re.fullmatch(rb'(?:[^\x00-\x1f\x7f\\]|\\[\\"nrt]|\\[01][0-7][0-7])*', text) is not None


# ---------------------------------------------------------------- lines

def line(language: str, row: int, roles: list[dict[str, str]], state: State) -> str:
    """What the row says in the language of variables with these values, starts, ends and presences."""
    fillings: dict[str, str] = {}
    for role, letters in zip(roles, ("XFT", "YGU", "ZHV")):
        fillings.update(zip(letters, (role["value"], role["start"], role["end"])))
    numbers = [] if state[0] in ("ints", "texts", "truth", "code") else list(state[1:])
    for place, letter in enumerate("ABCD"):
        fillings[letter] = number(language, numbers[place] if place < len(numbers) else 0)
    values = state[1] if state[0] in ("ints", "texts") else state[1:] if state[0] == "truth" else ()
    each = "K" if language != "Smtlib" else "(= (select X i) K)" if row in OF_ELEMENTS else "(= X K)"
    separator = " " if language == "Smtlib" else ", "
    listed = separator.join(filled(each, {**fillings, "K": literal(language, value)}) for value in values)
    text = filled(ROWS[language][row], {**fillings, "L": listed})
    conditions = [role["presence"] for role in roles if role["presence"]]
    if not conditions:
        return text
    together = {"Python": " and ", "C": " && ", "Smtlib": " "}[language].join(conditions)
    guard = {"Python": "not (P) or (E)", "C": "!(P) || (E)", "Smtlib": "(=> (and true P) E)"}[language]
    return filled(guard, {"P": together, "E": text})


# ---------------------------------------------------------------- names

C_KEYWORDS = set("""alignas alignof asm auto bool break case char const constexpr continue default do double else enum extern false float
for goto if inline int long nullptr register restrict return short signed sizeof static static_assert struct switch thread_local true typedef
typeof typeof_unqual union unsigned void volatile while""".split())
KEYWORDS = {"Python": set(keyword.kwlist), "C": C_KEYWORDS}
PYTHON_NAMES = set(re.findall(r"\b[a-z]+\b", " ".join(ROWS["Python"])))
PATH = re.compile(r"([A-Za-z_]\w*)((?:(?:\.|->)[A-Za-z_]\w*)*)", re.ASCII)


def stem(variable: VarInfo) -> str:
    """The name without `orig( )`, and of a sequence without its brackets."""
    name = variable.plain.decode("latin-1")
    return re.sub(r"\[(\.\.)?\]\Z", "", name) if variable.kind in ELEMENT else name


def told_root(language: str, root: str) -> str:
    """The first word of a path."""
    if root in ("this", "return"):
        return {"this": "self", "return": "result"}[root]
    is_taken = root in KEYWORDS[language] or (root in PYTHON_NAMES if language == "Python" else root.startswith("dk_"))
    return root + "_" if is_taken else root


@dataclass(frozen=True)
class Parameter:
    """A name in the language, what it stands for, and its sort in SMT-LIB."""
    name: str
    thing: tuple[str, bool, bool]
    sort: str

    def clashes(self, other: Parameter) -> bool:
        """One name for two things."""
        return self.name == other.name and self.thing != other.thing


@dataclass(frozen=True)
class Base:
    """A base variable whose name the language can say."""
    path: str
    size: str
    parameters: tuple[Parameter, ...]


SORTS = {"Int": "Int", "Hash": "Int", "Bool": "Bool", "Str": "String"}


def sort_of(kind: str) -> str:
    """A kind in SMT-LIB."""
    return f"(Array Int {SORTS[ELEMENT[kind]]})" if kind in ELEMENT else SORTS[kind]


def symbol_of(variable: VarInfo) -> Base | None:
    """A base variable in SMT-LIB, if a symbol can have its name."""
    name, plain = variable.name.decode("latin-1"), variable.plain.decode("latin-1")
    if re.search(r"[\x00-\x1f\x7f|\\]", name):
        return None
    path, size = f"|${name}|", f"|$size({name})|"
    parameters = [Parameter(path, (plain, variable.orig, False), sort_of(variable.kind))]
    if variable.kind in ELEMENT:
        parameters.append(Parameter(size, (plain, variable.orig, True), "Int"))
    return Base(path, size, tuple(parameters))


def path_of(language: str, variable: VarInfo) -> Base | None:
    """A base variable in Python or C, if its name is a path without keywords after the first word."""
    match = PATH.fullmatch(stem(variable))
    if match is None or KEYWORDS[language] & set(re.findall(r"\w+", match[2])):
        return None
    root, rest = match[1], match[2]
    first = ("old_" if variable.orig else "") + told_root(language, root)
    if language == "Python":
        path = first + rest.replace("->", ".")
        return Base(path, f"len({path})", (Parameter(first, (root, variable.orig, False), ""),))
    if root == "this" and rest.startswith("."):
        rest = "->" + rest[1:]
    size = "size_" + re.sub(r"\W", "_", first + rest, flags=re.ASCII)
    parameters = [Parameter(first, (root, variable.orig, False), "")]
    if variable.kind in ELEMENT:
        parameters.append(Parameter(size, (variable.plain.decode("latin-1"), variable.orig, True), ""))
    return Base(first + rest, size, tuple(parameters))


def sayable(language: str, variable: VarInfo) -> Base | None:
    """A base variable in the language, if it can say the name."""
    return symbol_of(variable) if language == "Smtlib" else path_of(language, variable)


class Speaker:
    """The variables of a point in a language."""

    def __init__(self, language: str, variables: list[VarInfo]) -> None:
        self.language, self.variables = language, variables
        said = [sayable(language, variable) if variable.is_base() else None for variable in variables]
        every = [parameter for base in said if base for parameter in base.parameters]
        self.parameters = list(dict.fromkeys(self.parameter_text(parameter) for parameter in every))
        self.bases = [base if base and not any(one.clashes(other) for one in base.parameters for other in every) else None
                      for base in said]

    def parameter_text(self, parameter: Parameter) -> str:
        """A parameter, in SMT-LIB with its sort."""
        return f"({parameter.name} {parameter.sort})" if self.language == "Smtlib" else parameter.name

    def parts(self, place: int) -> dict[str, str] | None:
        """Value, start, end and presence of a variable, if all that it comes from is told."""
        form = self.variables[place].form
        places = form[1:] or (place,)
        sequence, index = self.bases[places[0]], self.bases[places[-1]]
        if sequence is None or index is None:
            return None
        fillings = {"P": sequence.path, "S": sequence.size, "I": index.path}
        word = form[0].capitalize() if form[1:] else "Base"
        return {part: filled(PARTS[part, self.language, word], fillings) for part in ("value", "start", "end", "presence")}

    def telling(self, row: int, places: tuple[int, ...], state: tuple) -> str | None:
        """What a line of this row says, if the language can say it."""
        roles = [self.parts(place) for place in places]
        strings = state[1] if state[0] == "texts" else ()
        cannot = state == EMPTY or (state[0] == "code" and state[1] != 0)
        if cannot or None in roles or not all(is_string_of(self.language, text) for text in strings):
            return None
        return line(self.language, row, [role for role in roles if role is not None], state)
