"""Starts programs in one folder, thousands of times, under limits and with what they read in pieces, and keeps what they wrote."""

from __future__ import annotations

import os
import resource
import signal
import stat
from collections import Counter
from dataclasses import dataclass, replace
from typing import Dict, List, Optional, Tuple

from trials.processes import exit_code

STATE = "daikon.state"
# seconds of the processor, of all clocks, and between two looks
MOST_SECONDS, MOST_WAITING, LOOKS = 60, 3600, 10
NOBODY = 65534
SIGNALS = [signal.SIGPIPE, signal.SIGXFSZ]


@dataclass(frozen=True)
class How:
    """How a run is started. `piped` is the file that it reads as /dev/stdin, `piece` bytes a write. `limits` are resources and bytes.
    `report_to` and `messages_to` are paths in the place of files; with `reader_takes` the report goes into a pipe whose reader takes so
    many bytes and closes it. `as_nobody` counts where root starts it. `ignores` tells that signals of failed writes are ignored from the
    start, `surroundings` which variables of the environment are set besides. `shape` is for the kind."""
    piped: str = ""
    piece: int = 0
    limits: Tuple[Tuple[int, int], ...] = ()
    report_to: str = ""
    messages_to: str = ""
    reader_takes: Optional[int] = None
    as_nobody: bool = False
    ignores: bool = False
    surroundings: Tuple[Tuple[str, str], ...] = ()
    shape: str = ""

    def shaped(self, shape: str) -> "How":
        """The same with this shape."""
        return replace(self, shape=shape)


@dataclass(frozen=True)
class Outcome:
    """What a run came to. The status is negative where a signal ended it, and None where it had no end."""
    status: Optional[int]
    report: bytes
    messages: bytes
    state: Optional[bytes]

    def with_name(self, name: str, other: str) -> "Outcome":
        """The same with another name of a file in its texts."""
        old, new = os.fsencode(name), os.fsencode(other)
        return Outcome(self.status, self.report.replace(old, new), self.messages.replace(old, new), self.state)


class Late(Exception):
    """A run takes too long."""


def seconds_of(child: int) -> float:
    """The seconds of the processor that it has taken; none where it has just ended."""
    stat_text = read("/proc/%d/stat" % child)
    if stat_text is None:
        return 0.0
    fields = stat_text.rpartition(b")")[2].split()
    return (int(fields[11]) + int(fields[12])) / os.sysconf("SC_CLK_TCK")


class Bench:
    """A folder in which the programs run, and counts of what was tried."""

    def __init__(self, paths: Dict[str, str], folder: str) -> None:
        self.paths = paths
        self.folder = os.path.join(folder, "files")
        self.report_path, self.messages_path = os.path.join(folder, "report"), os.path.join(folder, "messages")
        os.chmod(folder, 0o755)
        os.mkdir(self.folder)
        os.chdir(self.folder)
        self.there: Dict[str, bytes] = {}
        self.tried: Counter = Counter()
        self.runs: Counter = Counter()
        self.last_whole: Optional[Tuple[str, List[str], Dict[str, bytes], Outcome]] = None
        self.library = os.path.join(folder, "refuse.so")
        self.count_path = os.path.join(folder, "count")
        self.starting: Dict[Tuple[str, Tuple[Tuple[int, int], ...], bool], bool] = {}
        self.child, self.looks = 0, 0
        signal.signal(signal.SIGALRM, self.look)

    # ---------------------------------------------------------------- files

    def put(self, files: Dict[str, bytes]) -> None:
        """Has these files alone in the folder."""
        for name in os.listdir("."):
            if name not in files:
                remove(name)
                self.there.pop(name, None)
        for name, text in files.items():
            if self.there.get(name) != text:
                write(name, text)
                self.there[name] = text
        self.there.pop(STATE, None)

    def names(self) -> List[str]:
        """The names in the folder."""
        return sorted(os.listdir("."))

    # ---------------------------------------------------------------- runs

    def run(self, program: str, arguments: List[str], how: How = How()) -> Outcome:
        """Runs the program in the folder and waits for its end."""
        self.runs[program] += 1
        if how.piped:
            arguments = ["/dev/stdin" if word == how.piped else word for word in arguments]
        feeding: Optional[int] = None
        taking: Optional[int] = None
        if how.piped:
            source, feeding = os.pipe()
        else:
            source = os.open(os.devnull, os.O_RDONLY)
        if how.reader_takes is not None:
            taking, report = os.pipe()
        else:
            report = opened(how.report_to or self.report_path)
        if taking is not None and how.reader_takes == 0:
            os.close(taking)
        messages = opened(how.messages_to or self.messages_path)
        start = forked if how.limits or how.as_nobody or how.ignores else spawned
        child = start([self.paths[program]] + arguments, (source, report, messages), how)
        os.close(source)
        if taking is not None:
            os.close(report)
        self.child, self.looks = child, 0
        signal.setitimer(signal.ITIMER_REAL, LOOKS, LOOKS)
        try:
            if feeding is not None:
                feed(feeding, self.there[how.piped], how.piece)
            taken = taken_from(taking, how.reader_takes) if taking is not None and how.reader_takes else b""
            status: Optional[int] = exit_code(os.waitpid(child, 0)[1])
        except Late:
            killed(child)
            status, taken = None, b""
        signal.setitimer(signal.ITIMER_REAL, 0)
        return Outcome(status, text_of(report) if taking is None else taken, text_of(messages), read(STATE))

    def look(self, *_: object) -> None:
        """Whether the run takes too long, by what the processor has done for it: the machine may be busy with others."""
        self.looks += 1
        if seconds_of(self.child) > MOST_SECONDS or self.looks * LOOKS > MOST_WAITING:
            raise Late

    def whole(self, program: str, arguments: List[str], files: Dict[str, bytes]) -> Outcome:
        """What a run without faults over these files comes to. The last one is kept, since many faults are tried on one run."""
        if self.last_whole is None or self.last_whole[:3] != (program, arguments, files):
            self.put(files)
            self.last_whole = program, arguments, files, self.run(program, arguments)
        self.put(files)
        return self.last_whole[3]

    def starts(self, program: str, how: How) -> bool:
        """Whether the program gets as far as to its help within the limits, or as nobody; else it is its loader that ends, or it lies
        where nobody may not look."""
        key = program, how.limits, how.as_nobody
        if key not in self.starting:
            self.starting[key] = self.run(program, ["--help"], how).status == 0
        return self.starting[key]


def opened(path: str) -> int:
    """The file at the path, opened to be written to."""
    flags = os.O_RDWR | os.O_CREAT | os.O_TRUNC
    return os.open(path, os.O_WRONLY if stat_is_device(path) else flags, 0o666)


def stat_is_device(path: str) -> bool:
    """Whether the path is that of a device."""
    return path.startswith("/dev/") and os.path.exists(path) and stat.S_ISCHR(os.stat(path).st_mode)


def text_of(file: int) -> bytes:
    """What stands in the open file, nothing where it is a device. It is closed."""
    size = os.fstat(file).st_size
    text = os.pread(file, size, 0) if size else b""
    os.close(file)
    return text


def read(name: str) -> Optional[bytes]:
    """What the file has, or None where it can't be read."""
    try:
        with open(name, "rb") as file:
            return file.read()
    except OSError:
        return None


def write(name: str, text: bytes) -> None:
    """Writes a file anew."""
    remove(name)
    with open(name, "wb", buffering=0) as file:
        file.write(text)


def remove(name: str) -> None:
    """Takes away what has this name."""
    try:
        os.unlink(name)
    except IsADirectoryError:
        os.rmdir(name)
    except FileNotFoundError:
        pass


def spawned(command: List[str], streams: Tuple[int, int, int], how: How) -> int:
    """Starts the command with these streams."""
    moves = [(os.POSIX_SPAWN_DUP2, stream, number) for number, stream in enumerate(streams)]
    return os.posix_spawn(command[0], command, {**os.environ, **dict(how.surroundings)}, file_actions=moves, setsigdef=SIGNALS)


def forked(command: List[str], streams: Tuple[int, int, int], how: How) -> int:
    """As spawned, with limits that only the program has, and perhaps as nobody."""
    child = os.fork()
    if child:
        return child
    try:
        for number, stream in enumerate(streams):
            os.dup2(stream, number)
        for number in SIGNALS:
            signal.signal(number, signal.SIG_IGN if how.ignores else signal.SIG_DFL)
        if how.as_nobody and os.geteuid() == 0:
            os.setgroups([])
            os.setgid(NOBODY)
            os.setuid(NOBODY)
        for kind, size in how.limits:
            resource.setrlimit(kind, (size, size))
        os.execv(command[0], command)
    finally:
        os._exit(127)


def feed(pipe: int, text: bytes, piece: int) -> None:
    """Writes the text so many bytes at a time, until the reader closes the pipe."""
    try:
        for at in range(0, len(text), piece):
            os.write(pipe, text[at:at + piece])
    except BrokenPipeError:
        pass
    os.close(pipe)


def taken_from(pipe: int, most: int) -> bytes:
    """What comes of the pipe, up to so many bytes; then it is closed."""
    text = b""
    while len(text) < most:
        more = os.read(pipe, most - len(text))
        if not more:
            break
        text += more
    os.close(pipe)
    return text


def killed(child: int) -> None:
    """Ends a child that takes too long."""
    os.kill(child, signal.SIGKILL)
    os.waitpid(child, 0)
