"""One part of a run: its texts are given to daikon, and its state or its refused line is kept."""

from __future__ import annotations

import fcntl
import json
import os
import re
import subprocess
import sys
import tempfile
from typing import IO, Iterator, List, NamedTuple, Optional, Tuple

from .planning import Plan, Text, texts_of

COPIED = 1 << 20
F_SETPIPE_SZ = 1031
FAULT = re.compile(r"daikon: (.*):([0-9]+): ([0-9]+ [A-Za-z]+)\n", re.DOTALL)
STDIN = "/dev/stdin"
FAILED = 70  # the status where something could not be run
NOTHING = "--select=(none)"  # the report of a part isn't wanted


class Folder:
    """Where a run keeps its plan, its states and its report."""

    def __init__(self, path: str) -> None:
        self.path = os.path.abspath(path)
        self.plan = self.file("plan.json")

    def file(self, *names: str) -> str:
        """The path of a file in the folder, whose own folder is made."""
        path = os.path.join(self.path, *names)
        os.makedirs(os.path.dirname(path), exist_ok=True)
        return path

    def state(self, part: int) -> str:
        """The state of a part; parts are counted from 1."""
        return self.file("states", f"{part}.state")

    def fault(self, part: int) -> str:
        """Where a part's refused line is kept."""
        return self.file("states", f"{part}.refused")

    def is_done(self, part: int) -> bool:
        """Whether a part has its state, or was refused."""
        return os.path.exists(self.state(part)) or os.path.exists(self.fault(part))


class Refused(NamedTuple):
    """A refused line of a file of the plan, and the reason."""
    file: int
    line: int
    reason: str


class Given(NamedTuple):
    """A text, and the name by which daikon is told of it."""
    name: str
    text: Text


class Failed(Exception):
    """Something could not be run; the text says what, and the status is the command's."""

    def __init__(self, text: str, status: int = FAILED) -> None:
        super().__init__(text)
        self.status = status if 2 < status < 6 else FAILED


# ---------------------------------------------------------------- texts

def read_between(path: str, start: int, end: int) -> Iterator[bytes]:
    """The bytes between two places of a file."""
    with open(path, "rb", buffering=0) as file:
        file.seek(start)
        while start < end:
            read = file.read(min(COPIED, end - start))
            if not read:
                raise Failed(f"{path} is shorter than it was")
            start += len(read)
            yield read


def copy_between(path: str, start: int, end: int, out: IO[bytes]) -> None:
    """Copies a stretch of a file within the kernel."""
    with open(path, "rb", buffering=0) as file:
        while start < end:
            sent = os.sendfile(out.fileno(), file.fileno(), start, min(end - start, 1 << 30))
            if not sent:
                raise Failed(f"{path} is shorter than it was")
            start += sent


def blank_line(path: str, end: int) -> bytes:
    """What is put after a span that ends here, so that its last block ends."""
    return b"\n" if b"".join(read_between(path, end - 1, end)) == b"\n" else b"\n\n"


def write_text(plan: Plan, text: Text, out: IO[bytes]) -> None:
    """A whole file as it is; spans with a blank line after each. `out` has no buffer."""
    for file, start, end in text.spans:
        path = plan.sources[file].path
        copy_between(path, start, end, out)
        if not text.is_whole:
            out.write(blank_line(path, end))


def lines_in(path: str, start: int, end: int) -> int:
    """How many lines end between two places."""
    return sum(piece.count(b"\n") for piece in read_between(path, start, end))


def original(plan: Plan, text: Text, line: int, reason: str) -> Refused:
    """Which line of which file a text's line is."""
    for file, start, end in text.spans:
        path = plan.sources[file].path
        lines = lines_in(path, start, end) + len(blank_line(path, end)) if not text.is_whole else line
        if line <= lines:
            return Refused(file, lines_in(path, 0, start) + line, reason)
        line -= lines
    raise Failed(f"a line is told that isn't there: {line} {reason}")


def named(plan: Plan, texts: List[Text], may_stream: bool) -> List[Given]:
    """A name for each text. Where one may be streamed whole files stay where they are, and the longest of the
    others is for the standard input."""
    sizes = [0 if text.is_whole else sum(end - start for _, start, end in text.spans) for text in texts]
    streamed = sizes.index(max(sizes)) if may_stream and any(sizes) else None
    given = []
    for number, text in enumerate(texts):
        name = f"text{number:06}"
        if number == streamed:
            name = STDIN
        elif text.is_whole and may_stream:
            name = plan.sources[text.spans[0][0]].path
        given.append(Given(name, text))
    return given


def write_texts(plan: Plan, given: List[Given], folder: str) -> None:
    """Writes the texts that are neither streamed nor files of their own."""
    for name, text in given:
        if os.path.basename(name) == name:
            with open(os.path.join(folder, name), "wb", buffering=0) as out:
                write_text(plan, text, out)


# ---------------------------------------------------------------- a run of daikon

def part_arguments(plan: Plan, given: List[Given]) -> List[str]:
    """The arguments of daikon for a part."""
    return ["--save", NOTHING, *plan.words, "--", *(text.name for text in given)]


def feed(plan: Plan, text: Optional[Text], pipe: IO[bytes]) -> bool:
    """Writes a text into a program's input; false where the program closed it before the end."""
    try:
        with pipe:
            if text is not None:
                fcntl.fcntl(pipe.fileno(), F_SETPIPE_SZ, COPIED)
                write_text(plan, text, pipe)
    except BrokenPipeError:
        return False
    return True


def run_part(folder: Folder, number: int, daikon: str) -> None:
    """Runs daikon over a part, and keeps its state or its refused line."""
    plan = Plan.load(folder.plan)
    if folder.is_done(number):
        return
    demand_unchanged(plan)
    with tempfile.TemporaryDirectory(prefix=f"part{number}-", dir=folder.path) as work:
        given = named(plan, texts_of(plan, plan.parts[number - 1]), True)
        write_texts(plan, given, work)
        status, message = run_daikon(daikon, plan, given, work)
        demand_unchanged(plan)
        keep(folder, plan, number, given, status, message, os.path.join(work, "daikon.state"))


def run_daikon(daikon: str, plan: Plan, given: List[Given], work: str) -> Tuple[int, str]:
    """Runs daikon in a folder, and gives its status and its messages."""
    streamed = next((text.text for text in given if text.name == STDIN), None)
    with tempfile.TemporaryFile(dir=work) as messages:
        run = subprocess.Popen([daikon, *part_arguments(plan, given)], cwd=work, bufsize=0, stdin=subprocess.PIPE,
                               stdout=subprocess.DEVNULL, stderr=messages)
        try:
            assert run.stdin is not None
            was_read = feed(plan, streamed, run.stdin)
        except BaseException:
            run.kill()
            raise
        finally:
            status = run.wait()
        if status == 0 and not was_read:
            raise Failed("daikon did not read its input to the end")
        messages.seek(0)
        return status, os.fsdecode(messages.read())


def keep(folder: Folder, plan: Plan, number: int, given: List[Given], status: int, message: str, state: str) -> None:
    """Keeps what a part came to: a state, or a refused line."""
    fault = FAULT.fullmatch(message)
    if status == 0:
        os.replace(state, folder.state(number))
    elif status == 1 and fault:
        text = next(text.text for text in given if text.name == fault.group(1))
        refused = original(plan, text, int(fault.group(2)), fault.group(3))
        with open(folder.fault(number) + ".new", "w", encoding="utf-8") as file:
            json.dump(refused, file)
        os.replace(folder.fault(number) + ".new", folder.fault(number))
    else:
        how = f"was ended by signal {-status}" if status < 0 else f"ended with status {status}"
        raise Failed(f"part {number}: daikon {how}. {message}".strip(), status)


def demand_unchanged(plan: Plan) -> None:
    """Fails where a file isn't what it was."""
    for source in plan.sources:
        if not source.is_as_planned():
            raise Failed(f"{source.name} isn't the file that it was when it was cut; remove the folder and begin anew")


def first_refused(folder: Folder, plan: Plan) -> Optional[str]:
    """The message for the first refused line of all parts."""
    found = []
    for number in range(1, len(plan.parts) + 1):
        if os.path.exists(folder.fault(number)):
            with open(folder.fault(number), encoding="utf-8") as file:
                found.append(Refused(*json.load(file)))
    if not found:
        return None
    first = min(found)
    return f"daikon: {plan.sources[first.file].name}:{first.line}: {first.reason}"


def tell(line: str) -> None:
    """A line on standard error."""
    print(f"shards: {line}", file=sys.stderr, flush=True)
