"""Lines and blocks of a trace, as docs/FORMATS.md has them, in large pieces of bytes."""

from __future__ import annotations

import os
import re
from bisect import bisect_right
from typing import BinaryIO, Iterator, List, NamedTuple, Optional, Tuple

SLICE = 1 << 17  # what a processor keeps near while it is searched several times
BLANK_LINE = re.compile(rb"\n[ \t]*\r?\n")
BLOCK_START = re.compile(rb"\n[ \t]*\r?\n(?![ \t]*\r?(?:\n|\Z))")
PLAIN_BLOCK_START = re.compile(rb"\n\n(?!\n|\Z)")
FIRST_LINE = re.compile(rb"\n\n([^\n]+)(?:\nthis_invocation_nonce\n([^\n]*))?")
SPECIAL_START = re.compile(rb"\n\n(?=[ \t#/dviVLDp])(?:[ \t#]|//|decl-version|var-comp|input-lang|VarComp|ListImpl|"
                           rb"DECLARE[ \t\n]|ppt[ \t\n])")
BLANKS_ALONE = re.compile(rb"(?<=\n)[ \t]+(?=\n)")
BLANKS_AT_ENDS = re.compile(rb"[ \t]+(?=\n)|(?<=\n)[ \t]+")
HEADER_WORDS = (b"decl-version", b"var-comparability", b"input-language")
NONCE_LINE = b"this_invocation_nonce"


class Front(NamedTuple):
    """What stands before a block's record, and which record it is.

    `kind` is 'comments' or 'headers' for a block without a record, 'declaration', 'list' or
    'sample'. `record_at` is where the record's first line begins within the block; `line`, `second`
    and `third` are that line and the next two. `has_headers` tells of header lines before it.
    """
    kind: str
    record_at: int
    line: bytes
    second: bytes
    third: bytes
    has_headers: bool


def trimmed(line: bytes) -> bytes:
    """A line without one CR at its end and without blanks and tabs at both ends."""
    if line.endswith(b"\r"):
        line = line[:-1]
    return line.strip(b" \t")


def first_word(line: bytes) -> bytes:
    """The first word of a trimmed line."""
    return re.split(rb"[ \t]", line, maxsplit=1)[0]


def unescaped(name: bytes) -> bytes:
    """The name that a spelling means."""
    if b"\\" not in name:
        return name
    return re.sub(rb"\\([_\\])", lambda match: b" " if match.group(1) == b"_" else b"\\", name)


def is_special(line: bytes) -> bool:
    """Whether a block with this trimmed first line isn't a sample record that begins there."""
    return (line.startswith((b"#", b"//")) or line in (b"DECLARE", b"ListImplementors", b"VarComparability")
            or first_word(line) in (*HEADER_WORDS, b"ppt"))


def front_of(block: bytes) -> Front:
    """Reads a block up to the first lines of its record."""
    at = 0
    has_headers = awaits_word = False
    lines = block.split(b"\n")
    for number, raw in enumerate(lines):
        line = trimmed(raw)
        if not line:
            break
        if not line.startswith((b"#", b"//")):
            if not awaits_word and line != b"VarComparability" and first_word(line) not in HEADER_WORDS:
                second, third = (trimmed(later) for later in (lines[number + 1:] + [b"", b""])[:2])
                return Front(kind_of(line), at, line, second, third, has_headers)
            awaits_word = not awaits_word and line == b"VarComparability"
            has_headers = True
        at += len(raw) + 1
    return Front("headers" if has_headers else "comments", min(at, len(block)), b"", b"", b"", has_headers)


def kind_of(line: bytes) -> str:
    """What a record with this trimmed first line is."""
    if line == b"DECLARE" or first_word(line) == b"ppt":
        return "declaration"
    return "list" if line == b"ListImplementors" else "sample"


def has_indented(text: bytes) -> bool:
    """Whether a line after an LF begins with a blank or a tab."""
    return (b" " in text and b"\n " in text) or (b"\t" in text and b"\n\t" in text)


def parted(text: bytes) -> bytes:
    """Whole blocks with an empty line in front; all lines end with LF alone, and blank ones are empty."""
    text = b"\n\n" + text if text.endswith(b"\n") else b"\n\n" + text + b"\n"
    if b"\r" in text:
        text = text.replace(b"\r\n", b"\n")
    return BLANKS_ALONE.sub(b"", text) if has_indented(text) else text


def normalized(text: bytes) -> bytes:
    """The same with each line trimmed."""
    text = parted(text)
    ends = any(blank in text and blank + b"\n" in text for blank in (b" ", b"\t"))
    return BLANKS_AT_ENDS.sub(b"", text) if ends or has_indented(text) else text


def block_starts(text: bytes) -> List[int]:
    """Where the blocks of a text of whole blocks begin, and the end of the text."""
    text = b"\n\n" + text
    start = BLOCK_START if b"\r" in text or has_indented(text) else PLAIN_BLOCK_START
    return [match.end() - 2 for match in start.finditer(text)] + [len(text) - 2]


class Slice:
    """Whole blocks of a file, which are searched in parted text."""

    def __init__(self, text: bytes) -> None:
        self.text, self.parted = text, parted(text)
        self.is_same = len(self.parted) == len(text) + (2 if text.endswith(b"\n") else 3)
        self.starts: List[int] = []
        self.parted_starts: List[int] = []

    def block_at(self, at: int) -> Tuple[int, int]:
        """Where the block at a place of the parted text begins and ends in the text."""
        if self.is_same:
            following = PLAIN_BLOCK_START.search(self.parted, at)
            end = following.end() - 2 if following else len(self.text)
            return self.parted.rfind(b"\n\n", 0, at), end
        if not self.starts:
            self.starts = block_starts(self.text)
            self.parted_starts = [match.end() for match in PLAIN_BLOCK_START.finditer(self.parted)]
        number = bisect_right(self.parted_starts, at) - 1
        return self.starts[number], self.starts[number + 1]


def last_block_end(text: bytes) -> int:
    """The end of the last blank line, or 0 where there is none."""
    for blank in (b"\n\n", b"\n\r\n"):
        at = text.rfind(blank)
        if at >= 0:
            return at + len(blank)
    end = 0
    for match in BLANK_LINE.finditer(text):
        end = match.end()
    return end


def slices(file: BinaryIO, start: int, end: int) -> Iterator[Tuple[int, bytes]]:
    """Texts of whole blocks with their places, one after another. Start and end lie between
    blocks."""
    length = SLICE
    while start < end:
        text = os.pread(file.fileno(), min(length, end - start), start)
        if not text:
            raise OSError(f"{file.name} is shorter than it was")
        cut = len(text) if start + len(text) == end else last_block_end(text)
        if cut:
            yield start, text[:cut]
        start += cut
        length = SLICE if cut else 2 * length


def block_end_after(file: BinaryIO, offset: int, size: int) -> Optional[int]:
    """The end of the first blank line that ends after the offset, or nothing where no block
    follows it."""
    at = max(offset - 1, 0)
    length = 1 << 16
    while at < size:
        file.seek(at)
        text = file.read(length)
        match = BLANK_LINE.search(text)
        if match:
            return at + match.end() if at + match.end() < size else None
        if at + len(text) >= size:
            return None
        length *= 2
    return None
