"""Laws of every run: which statuses it has, which messages, and what it leaves in its folder."""

from __future__ import annotations

import os
import re
import signal
from typing import Callable, Dict, List, Optional

from trials.bench import STATE, Outcome
from trials.programs import PROGRAMS, names_of

import dk_table  # noqa: E402
from command import DONE, READ, REFUSED, USAGE_STATUS, WRITE  # noqa: E402
from input_language import WHY  # noqa: E402

NO_MEMORY = 5
GENERATED = b"generated 20000 records\n"
REFUSAL = re.compile(rb"daikon: (.*):([0-9]+): ([0-9]+) ([A-Za-z]+)\n", re.S)
TABLE_REFUSAL = re.compile(rb"daikon: (.*): row ([0-9]+): ([0-9]+) ([A-Za-z]+)\n", re.S)
# what is said after a fault of writing or of memory, or nothing
FAULT = re.compile(rb"(?:daikon: (?:out of memory|cannot write [^\n]+)\n)?")
HELP = {"-h", "--help", "-V", "--version"}
VERDICT = re.compile(rb"(?:ok \[[0-9]+\]|unknown|violated at .*:[0-9]+)", re.S)


def broken_form(program: str, arguments: List[str], files: Dict[str, bytes], outcome: Outcome) -> Optional[str]:
    """What is wrong with a run's status, messages, report or state, whatever it read; or nothing."""
    status = outcome.status
    if status is None:
        return "no end"
    if status not in MESSAGES:
        return "ended by " + signal.Signals(-status).name if status < 0 else "status %d" % status
    messages = outcome.messages
    if "--generate" in " ".join(arguments) and messages.startswith(GENERATED):
        messages = messages[len(GENERATED):]
    if not MESSAGES[status](program, arguments, files, messages):
        return "message of status %d" % status
    return broken_streams(program, arguments, files, outcome)


def broken_streams(program: str, arguments: List[str], files: Dict[str, bytes], outcome: Outcome) -> Optional[str]:
    """What is wrong with report or state."""
    done = outcome.status == DONE
    if outcome.report and not outcome.report.endswith(b"\n") and outcome.status not in (WRITE, NO_MEMORY):
        return "report without its last line end"
    # reports between blocks, and rows that are written as they come
    is_early = any(word.startswith(("--every", "--types")) for word in arguments)
    if outcome.report and not done and not is_early and outcome.status not in (WRITE, NO_MEMORY):
        return "report of status %s" % outcome.status
    if outcome.state != files.get(STATE) and not done:
        return "state changed at status %s" % outcome.status
    if outcome.state is not None and done and not outcome.state.endswith(b"end-state\n") and outcome.state != files.get(STATE):
        return "half a state"
    return None


def says_nothing(program: str, arguments: List[str], files: Dict[str, bytes], messages: bytes) -> bool:
    """Whether there is no message."""
    return messages == b""


def says_refused(program: str, arguments: List[str], files: Dict[str, bytes], messages: bytes) -> bool:
    """A file that was named, a line or row that it may have, and a reason under its name."""
    is_table = program == "dk_table"
    match = (TABLE_REFUSAL if is_table else REFUSAL).fullmatch(messages)
    if match is None:
        return False
    name, line, why, its_name = os.fsdecode(match.group(1)), int(match.group(2)), int(match.group(3)), match.group(4).decode()
    if (dk_table.WHY if is_table else WHY).get(why) != its_name:
        return False
    if is_table and name in files:
        return 1 <= line <= files[name].count(b"\n") + files[name].count(b"\r") + 1
    if name in files:
        return line <= files[name].count(b"\n") + 2
    return name in ("turns", "generated", "/dev/stdin") or bool(names_of(arguments))


def says_usage(program: str, arguments: List[str], files: Dict[str, bytes], messages: bytes) -> bool:
    """Whether the message is the program's usage."""
    return messages == PROGRAMS[program].usage


def says_unread(program: str, arguments: List[str], files: Dict[str, bytes], messages: bytes) -> bool:
    """A name that stands in the arguments."""
    front, end = b"daikon: cannot read ", b"\n"
    if not (messages.startswith(front) and messages.endswith(end)):
        return False
    name = os.fsdecode(messages[len(front):-len(end)])
    return any(word == name or word.endswith("=" + name) for word in arguments)


def says_fault(program: str, arguments: List[str], files: Dict[str, bytes], messages: bytes) -> bool:
    """Whether the message is that of a fault of a file."""
    return FAULT.fullmatch(messages) is not None


def says_front_of_fault(messages: bytes) -> bool:
    """As much of what is said after a fault as could be written."""
    fronts = (b"daikon: cannot write the report: ", b"daikon: cannot write the state: ")
    return any(front.startswith(messages) or messages.startswith(front) for front in fronts)


MESSAGES: Dict[int, Callable[[str, List[str], Dict[str, bytes], bytes], bool]] = {
    DONE: says_nothing, REFUSED: says_refused, USAGE_STATUS: says_usage, READ: says_unread, WRITE: says_fault, NO_MEMORY: says_fault}


def faulty_file(outcome: Outcome) -> Optional[str]:
    """The file that a refusal names."""
    match = REFUSAL.fullmatch(outcome.messages)
    return os.fsdecode(match.group(1)) if match else None


def differing(one: Outcome, other: Outcome) -> Optional[str]:
    """The first part in which two outcomes differ."""
    for part in ("status", "messages", "report", "state"):
        if getattr(one, part) != getattr(other, part):
            return part
    return None
