"""Random tables of comma-separated values, and arguments for them, by a generator of random numbers."""

from __future__ import annotations

import random

WHOLES = ["0", "1", "-7", "12", "9223372036854775807", "-9223372036854775808"]
TEXTS = ["a", "b c", 'say "no"', "x,y", "p;q", "l\nm", "ü", "\xff", "[1 2]", "nonsensical", "\\", "\t", "\r", "# c", " ", "1.", "01"]
ODD_CELLS = ["", "a", "1", "-0", "+1", "9223372036854775808", "1.5", "-.5", ".5", "True", "TRUE", "true", "\x00", '"', "1e3", "0x1"]
NAMES = ["x", "y", "price", "a b", "c\\d", "n\"q", "x * 10", "this_invocation_nonce", "", "\t", "x\r", "l\nm", "ü", "# c", "z"]
SEPARATORS = [",", ",", ",", ";", "\t", " ", "|", "a"]
LINE_ENDS = ["\n", "\n", "\n", "\r\n", "\r"]


def cells_of(draw: random.Random, count: int) -> list[str]:
    """The cells of a column of one kind, some of which are empty or another kind's."""
    kind = draw.choice(["whole", "whole", "truth", "decimal", "text", "odd"])
    spelling = draw.choice([("true", "false"), ("True", "False"), ("TRUE", "FALSE")])
    places = draw.choice([1, 2, 2, 3, 18, 19])

    def cell() -> str:
        chance = draw.random()
        if chance < 0.1:
            return ""
        if chance < 0.12:
            return draw.choice(ODD_CELLS)
        if kind == "whole":
            return draw.choice([str(draw.randint(-9, 9)), draw.choice(WHOLES)])
        if kind == "truth":
            return draw.choice(spelling)
        if kind == "decimal":
            return f"{draw.choice(['0', '-0', '3', '-12', '92233720368547758'])}.{''.join(draw.choices('0123456789', k=places))}"
        return draw.choice(TEXTS if kind == "text" else ODD_CELLS)

    return [cell() for _ in range(count)]


def written(draw: random.Random, cell: str, separator: str) -> str:
    """A cell as it is written, between quotes where it must be."""
    must = any(it in cell for it in ('"', "\n", "\r", separator)) or cell == ""
    if draw.random() < (0.97 if must and cell else 0.1):
        return '"' + cell.replace('"', '""') + '"'
    return cell


def text_of(draw: random.Random, rows: list[list[str]], separator: str) -> bytes:
    """The bytes of a table."""
    end = draw.choice(LINE_ENDS)
    lines = [separator.join(written(draw, cell, separator) for cell in row) for row in rows]
    text = end.join(lines) + (end if draw.random() < 0.8 else "")
    front = "\xef\xbb\xbf" if draw.random() < 0.1 else ""
    return (front + text).encode("latin-1", "xmlcharrefreplace")


def changed(draw: random.Random, text: bytes) -> bytes:
    """The text with a few bytes changed, left out or doubled."""
    for _ in range(draw.choice([1, 1, 2, 5])):
        at = draw.randint(0, len(text))
        odd = draw.choice([b'"', b",", b"\n", b"\r", b"\xef\xbb\xbf", b"\n\n", b"\x00", b"9", b"-", b".", b"\\", b"\xff"])
        text = draw.choice([text[:at] + odd + text[at:], text[:at] + text[at + 1:], text[:at] + text[at:at + 9] + text[at:]])
    return text


def tables_and_arguments(draw: random.Random) -> tuple[dict[str, bytes], list[str]]:
    """A few tables, mostly of one header, and arguments."""
    separator = draw.choice(SEPARATORS)
    width = draw.choice([1, 1, 2, 3, 5])
    odd_names = draw.random() < 0.15
    names = [draw.choice(NAMES) if odd_names else f"v{k}" for k in range(width)]
    has_header = draw.random() < 0.8
    files = {}
    for name in ["t", "u", "v"][:draw.choice([1, 1, 2, 3])]:
        count = draw.choice([0, 1, 2, 5, 12])
        columns = [cells_of(draw, count) for _ in range(width)]
        rows = [[column[k] for column in columns] for k in range(count)]
        text = text_of(draw, ([names] if has_header else []) + rows, separator)
        files[name] = changed(draw, text) if draw.random() < 0.25 else text
    arguments = [] if has_header else ["--no-header"]
    if separator != ",":
        arguments += draw.choice([["--separator", separator], ["--separator=" + separator]])
    if draw.random() < 0.3:
        arguments += ["--types", str(draw.choice([1, 2, 5, 1 << 40]))]
    if draw.random() < 0.4:
        arguments += ["--point", draw.choice(["P", "a b", "#P", "ppt x", "DECLARE", "A.b(int):::EXIT1", "c\\d", "", "\t", "decl-version"])]
    return files, arguments + sorted(files)
