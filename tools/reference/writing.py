"""Stored cases as `docs/CASES.md` writes them, with what this implementation makes of them, where a read or a write fails too."""

from __future__ import annotations

import importlib
import re
import tempfile
from dataclasses import dataclass, field, replace

from command import READ, REFUSED, WRITE, KeptSinks
from traces import write_files

STREAMS = ("report", "messages", "state")


@dataclass(frozen=True)
class Case:
    """A run, and what it is to come to. `keys` are further lines, as `piece` and `failing-reads`."""
    name: str
    program: str
    arguments: tuple[str, ...] = ()
    files: dict[str, bytes] = field(default_factory=dict)
    keys: dict[str, str] = field(default_factory=dict)
    status: int = 0
    texts: dict[str, bytes] = field(default_factory=lambda: dict.fromkeys(STREAMS, b""))

    def coming_to(self, status: int, **texts: bytes) -> Case:
        """The case with this status, and these texts alone."""
        return replace(self, status=status, texts={**dict.fromkeys(STREAMS, b""), **texts})


# ---------------------------------------------------------------- what a case comes to

def wanted(case: Case) -> Case:
    """The case with what this implementation makes of it."""
    sinks = KeptSinks()
    with tempfile.TemporaryDirectory() as folder:
        write_files(case.files, folder)
        status = importlib.import_module(case.program).status_of(list(case.arguments), sinks, folder)
    return case.coming_to(status, **sinks.texts)


# ---------------------------------------------------------------- calls that fail

def calls_of(text: bytes, piece: int) -> int:
    """How many calls read a file whole: one starts it, and the last one finds its end."""
    return 2 + -(-len(text) // piece)


def unread(case: Case, name: str) -> Case:
    """The case where the file could not be read."""
    return case.coming_to(READ, messages=b"daikon: cannot read %s\n" % name.encode())


def failing_reads(case: Case, names: list[str], piece: int) -> list[Case]:
    """The case with each of its calls on these files failing in turn; no file has a fault. One call more would fail, and isn't made."""
    found: list[Case] = []
    number = 0
    for name in names:
        for _ in range(calls_of(case.files[name], piece)):
            number += 1
            failing = with_key(case, f"read {number} fails", piece, "failing-reads", number)
            found.append(unread(failing, name))
    return [*found, with_key(case, f"read {number + 1} would fail", piece, "failing-reads", number + 1)]


def failing_writes(case: Case, stream: str, piece: int, texts: list[bytes] | None = None) -> list[Case]:
    """The case with each of its writes failing in turn; all of its output goes to this stream, in these texts one after another, each in
    pieces. Where no texts are given it is one. One write more would fail, and isn't made."""
    found: list[Case] = []
    written = 0
    for text in texts or [case.texts[stream]]:
        for at in range(0, len(text), piece):
            number = len(found) + 1
            failing = with_key(case, f"write {number} fails", piece, "failing-writes", number)
            found.append(cut_short(replace(failing, status=WRITE), stream, written + at))
        written += len(text)
    would_fail = with_key(case, f"write {len(found) + 1} would fail", piece, "failing-writes", len(found) + 1)
    return [*found, cut_short(would_fail, stream, written)]


def cut_short(case: Case, stream: str, count: int) -> Case:
    """The case with so many bytes of a stream's text. Of Report the whole text stands in the file, and the number."""
    if stream == "report":
        return replace(case, keys={**case.keys, "report-bytes": str(count)})
    return replace(case, texts={**case.texts, stream: case.texts[stream][:count]})


def with_key(case: Case, name: str, piece: int, key: str, number: int) -> Case:
    """The case in pieces of this size, where the call of this number fails."""
    return replace(case, name=f"{case.name}: {name}", keys={**case.keys, "piece": str(piece), key: str(number)})


def faulty_place(case: Case, names: list[str]) -> int | None:
    """The place of the file that the case refuses, if it refuses one."""
    match = re.match(rb"daikon: (.+?):(?:[0-9]+| row [0-9]+): ", case.texts["messages"])
    return names.index(match[1].decode()) if case.status == REFUSED and match else None


def is_found(case: Case, names: list[str], place: int, judging: str) -> bool:
    """Whether what the case refuses is found though the end of the file at this place isn't. Files are judged by `lines` as they come, save
    for a last block, that its end alone would refuse; as whole `files`, one after another; or `together`, when all are read."""
    faulty = faulty_place(case, names)
    if faulty is None or judging == "together":
        return False
    is_at_a_line = judging == "lines" and not case.texts["messages"].endswith(b" 12 Truncated\n")
    return faulty < place or (faulty == place and is_at_a_line)


def last_reads(case: Case, piece: int, judging: str) -> list[Case]:
    """The case with the last call on each of its files failing, by which the file's end would be found, when all its bytes have come. The
    files are read in the order in which the case names them."""
    found, number, names = [], 0, list(case.files)
    for place, name in enumerate(names):
        number += calls_of(case.files[name], piece)
        failing = with_key(case, f"the end of {name}", piece, "failing-reads", number)
        found.append(failing if is_found(case, names, place, judging) else unread(failing, name))
    return found


# ---------------------------------------------------------------- lines

def escaped(text: bytes) -> str:
    """Bytes as a text with escapes."""
    shown = {0x5C: "\\\\", 0x0A: "\\n", 0x0D: "\\r", 0x09: "\\t"}
    return "".join(shown.get(b) or (chr(b) if 32 <= b < 127 else f"\\x{b:02x}") for b in text)


def is_shown(line: bytes) -> bool:
    """Whether a line can stand as it is."""
    try:
        return line.decode().isprintable() and not line.endswith(b" ")
    except UnicodeDecodeError:
        return False


def text_lines(text: bytes) -> list[str]:
    """Bytes in lines of bytes."""
    *whole, rest = text.split(b"\n")
    found = [f"| {line.decode()}".rstrip() if is_shown(line) else f": {escaped(line)}\\n" for line in whole]
    return found + ([f": {escaped(rest)}"] if rest else [])


def lines_of_case(case: Case, before: Case | None) -> list[str]:
    """The lines of a case, after the one before it: what is new."""
    is_again = (before is not None and before.program == case.program and before.keys.keys() <= case.keys.keys()
                and before.files.keys() <= case.files.keys())
    front = before if is_again and before is not None else Case("", "daikon")
    found = [f"again {case.name}" if is_again else f"case {case.name}"]
    if case.program != front.program:
        found.append(f"program {case.program}")
    if case.arguments != front.arguments:
        found += words_lines(case.arguments)
    found += [f"{key} {value}" for key, value in case.keys.items() if front.keys.get(key) != value]
    for name, text in case.files.items():
        if front.files.get(name) != text:
            found += [f"file {name}", *text_lines(text)]
    if case.status != front.status:
        found.append(f"status {case.status}")
    return found + stream_lines(case, front)


def words_lines(arguments: tuple[str, ...]) -> list[str]:
    """The lines of words: one for all, and one for each word that a line of words doesn't tell, with those after it."""
    plain = next((k for k, word in enumerate(arguments) if word == "" or re.search(r"\s", word)), len(arguments))
    return [" ".join(("words", *arguments[:plain])), *(f"word {word}" for word in arguments[plain:])]


def stream_lines(case: Case, front: Case) -> list[str]:
    """The lines of what is wanted on each stream."""
    found = []
    for stream in STREAMS:
        text, other = case.texts[stream], front.texts[stream]
        if text != other:
            found += [stream, *text_lines(text)]
    return found


def text_of_cases(about: str, cases: list[Case]) -> str:
    """The text of a file of cases."""
    blocks = [[f"# {about}", "# Written by tools/reference/write-cases."]]
    before = None
    for case in cases:
        blocks.append(lines_of_case(case, before))
        before = case
    return "\n\n".join("\n".join(block) for block in blocks) + "\n"
