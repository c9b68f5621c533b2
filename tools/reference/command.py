"""What the programs have in common: arguments, statuses, messages, files and where they write."""

from __future__ import annotations

import os
import re
from dataclasses import dataclass, field
from typing import Callable, Iterator, Protocol, Sequence

from input_language import WHY, Fault, blocks_of, lines_of
from points import Entry, History, effect_of

DONE, REFUSED, USAGE_STATUS, READ, WRITE = 0, 1, 2, 3, 4
MOST_PERIOD = 1_000_000_000


class Usage(Exception):
    """The arguments are refused."""


class Ended(Exception):
    """The run ends early, with a status and a message."""

    def __init__(self, status: int, message: bytes) -> None:
        super().__init__(status)
        self.status = status
        self.message = message


# ---------------------------------------------------------------- arguments

@dataclass
class Arguments:
    """The flags that are given, the values of options, and the FILEs."""
    flags: set[str] = field(default_factory=set)
    values: dict[str, str] = field(default_factory=dict)
    files: list[str] = field(default_factory=list)


def arguments_of_command(arguments: list[str], flags: Sequence[str], with_value: Sequence[str]) -> Arguments:
    """Options and FILEs in any order. A flag or option that is given twice, an unknown argument, a
    short option, a prefix of a word, a flag with a value and an option without one are refused.
    After `--` every argument is a FILE; `-` is one too."""
    for word in arguments:
        demand_text(word)
    found = Arguments()
    ahead = list(arguments)
    while ahead:
        word = ahead.pop(0)
        if word == "--":
            found.files += ahead
            break
        if not word.startswith("-") or word == "-":
            found.files.append(word)
            continue
        name, equals, value = word.partition("=")
        if name in found.flags or name in found.values:
            raise Usage
        if name in flags and not equals:
            found.flags.add(name)
        elif name in with_value:
            if not equals:
                if not ahead or (ahead[0].startswith("-") and ahead[0] != "-"):
                    raise Usage
                value = ahead.pop(0)
            found.values[name] = value
        else:
            raise Usage
    return found


def number_between(text: str, low: int, high: int) -> int:
    """One `+` in front and leading zeros pass."""
    if not re.fullmatch(r"\+?[0-9]+", text, re.ASCII) or not low <= int(text) <= high:
        raise Usage
    return int(text)


def least_number(values: dict[str, str]) -> int:
    """The number of `--min-samples`."""
    return number_between(values.get("--min-samples", "5"), 1, MOST_PERIOD)


def demand_text(word: str) -> None:
    """An argument that isn't UTF-8 is refused."""
    try:
        word.encode()
    except UnicodeEncodeError:
        raise Usage from None


# ---------------------------------------------------------------- files

def refused(name: str, fault: Fault) -> Ended:
    """A refusal of a file, as the run ends with it."""
    place = b"daikon: %s:%d: " % (os.fsencode(name), fault.line)
    return Ended(REFUSED, place + b"%d %s\n" % (fault.why, WHY[fault.why].encode()))


def bytes_of_file(folder: str, name: str) -> bytes:
    """What the file has; the run ends where it can't be read."""
    try:
        with open(os.path.join(folder, name) if name else name, "rb") as file:
            return file.read()
    except (OSError, ValueError):
        raise Ended(READ, b"daikon: cannot read %s\n" % os.fsencode(name)) from None


class Reader:
    """Adds the effects of files to a history. The bytes of all of them count for the limit."""

    def __init__(self, history: History, ignore_missing_entry: bool, bytes_before: int = 0) -> None:
        self.history = history
        self.ignore_missing_entry = ignore_missing_entry
        self.bytes_before = bytes_before

    def read(self, name: str, data: bytes) -> Iterator[None]:
        """Stops after each block that counts. Entries wait within their file."""
        waiting: list[Entry] = []
        lines, cut = lines_of(data, self.bytes_before)
        try:
            for block in blocks_of(lines, cut):
                if effect_of(block, self.history, waiting, self.ignore_missing_entry):
                    yield
        except Fault as fault:
            raise refused(name, fault) from None
        self.bytes_before += len(data)


def reader_after(name: str, data: bytes, ignore_missing_entry: bool) -> Reader:
    """A reader of traces after a file of lines, whose bytes count for the limit, too."""
    _, fault = lines_of(data)
    if fault is not None:
        raise refused(name, fault)
    return Reader(History(), ignore_missing_entry, len(data))


# ---------------------------------------------------------------- running

class Sinks(Protocol):
    """Where a run writes."""

    def report(self, text: bytes) -> None:
        """Takes a part of the report."""

    def message(self, text: bytes) -> None:
        """Takes a message."""

    def state(self, text: bytes) -> None:
        """Takes the state."""


class KeptSinks:
    """Keeps what a run writes."""

    def __init__(self) -> None:
        self.texts = {"report": b"", "messages": b"", "state": b""}

    def report(self, text: bytes) -> None:
        """Adds to the report."""
        self.texts["report"] += text

    def message(self, text: bytes) -> None:
        """Adds to the messages."""
        self.texts["messages"] += text

    def state(self, text: bytes) -> None:
        """Adds to the state."""
        self.texts["state"] += text


class HostSinks:
    """Standard output, standard error and the file `daikon.state`, which is replaced by a whole
    one."""

    def report(self, text: bytes) -> None:
        """Writes to standard output."""
        self.write(1, text)

    def message(self, text: bytes) -> None:
        """Writes to standard error."""
        self.write(2, text)

    def state(self, text: bytes) -> None:
        """Written beside the old one and put in its place, so that no fault leaves half a state."""
        path = os.path.realpath("daikon.state")
        beside = path + ".new"
        try:
            with open(beside, "wb") as file:
                file.write(text)
            os.replace(beside, path)
        except OSError:
            if os.path.exists(beside):
                os.remove(beside)
            raise Ended(WRITE, b"") from None

    @staticmethod
    def write(stream: int, text: bytes) -> None:
        """Writes all of the text to a stream."""
        try:
            while text:
                text = text[os.write(stream, text):]
        except OSError:
            raise Ended(WRITE, b"") from None


def status_of_run(run: Callable[[list[str], Sinks, str], None], arguments: list[str], sinks: Sinks, folder: str, usage: bytes) -> int:
    """Runs the program on the arguments and gives the status."""
    try:
        run(arguments, sinks, folder)
    except Usage:
        sinks.message(usage)
        return USAGE_STATUS
    except Ended as ended:
        sinks.message(ended.message)
        return ended.status
    return DONE


def host_status(status_of: Callable[[list[str], Sinks, str], int], arguments: list[str]) -> int:
    """The status of a run on this machine."""
    try:
        return status_of(arguments, HostSinks(), "")
    except Ended as ended:
        return ended.status
