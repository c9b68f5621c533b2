"""The command `dk_gdb`: runs a compiled program as it would run without us, with gdb beside it, which writes the trace of its calls.

gdb has neither our streams nor our group; `starting.py` gives these back to the program, so it reads and writes where any command would,
and gets the terminal's signals.
"""

from __future__ import annotations

import argparse
import json
import os
import shutil
import signal
import subprocess
import sys
import tempfile
from typing import Any, Dict, Iterator, List, Optional

HERE = os.path.dirname(os.path.abspath(__file__))
sys.path[:0] = [HERE, os.path.dirname(HERE)]

from dtrace import Output, add_arguments, open_high, report  # noqa: E402
from elf import Elf, NoProgram  # noqa: E402

FAILED = 1
REFUSED = 2
UNWRITABLE = 4
KILLED = 128
FORWARDED = {signal.SIGINT, signal.SIGQUIT, signal.SIGTERM, signal.SIGHUP, signal.SIGUSR1, signal.SIGUSR2}

DESCRIPTION = """Runs a C or C++ program, compiled with -g -O0, and writes a trace of the calls of its functions: declarations and records
that ./daikon reads. The program has its own streams, signals and status. It needs gdb, with Python, and Linux on x86-64."""


DETAILS = """\
Exit status: the program's, or 128 and the number of the signal that ended it; 1 where it can't be traced, 2 where these arguments are refused, and 4
where FILE can't be written to, all before the program starts.

Example:
  dk_gdb --report --array values=size --include 'store.c.*' ./store
"""


class Problem(Exception):
    """The program can't be run under us; the text says why."""

    def __init__(self, text: str, status: int = FAILED) -> None:
        super().__init__(text)
        self.status = status


def array(text: str) -> List[str]:
    """A word PARAM=LENGTH."""
    name, sign, length = text.partition("=")
    if not name or not sign or not length:
        raise argparse.ArgumentTypeError("%r isn't PARAM=LENGTH" % text)
    return [name, length]


def make_parser() -> argparse.ArgumentParser:
    """The arguments of the command."""
    parser = argparse.ArgumentParser(
        prog="dk_gdb", description=DESCRIPTION, epilog=DETAILS, formatter_class=argparse.RawDescriptionHelpFormatter, allow_abbrev=False,
        usage="dk_gdb [--out FILE] [--include GLOB]... [--exclude GLOB]... [--depth N] [--elements N] [--every N] [--globals]\n"
              "              [--array PARAM=LENGTH]... [--report] PROGRAM [ARG]...")
    add_arguments(parser, "PROGRAM", "file.c.function or Class.method", 100)
    parser.add_argument("--array", metavar="PARAM=LENGTH", type=array, action="append", default=[],
                        help="the pointer PARAM, a parameter or a field, points to as many elements as the parameter or field LENGTH "
                             "beside it says, or to so many where LENGTH is a number (default: none, to one)")
    parser.add_argument("program", metavar="PROGRAM", help="the program; one without / is looked for on the PATH, then here")
    # an error for a missing program is to name that alone
    parser.add_argument("arguments", metavar="ARG", nargs=argparse.REMAINDER, help="its arguments").required = False
    return parser


def find_program(name: str) -> str:
    """The path of the program."""
    path = shutil.which(name) or os.path.abspath(name)
    if not os.path.isfile(path):
        raise Problem("there is no program %s" % name)
    if not os.access(path, os.X_OK):
        raise Problem("%s can't be executed" % name)
    return os.path.realpath(path)


def check_program(path: str, name: str) -> None:
    """Refuses files that aren't compiled programs with functions."""
    try:
        elf = Elf(path)
    except NoProgram as problem:
        raise Problem("%s can't be traced: %s" % (name, problem)) from problem
    if ".symtab" not in elf.sections:
        raise Problem("%s is stripped: its functions have no names; link it without -s, and compile it with -g -O0" % name)
    if not elf.has_lines() and ".gnu_debuglink" not in elf.sections:
        raise Problem("%s has no debugging information: compile it with -g -O0" % name)


def find_gdb() -> str:
    """The path of gdb."""
    path = shutil.which("gdb")
    if path is None:
        raise Problem("gdb is missing (the Debian package gdb)")
    return path


def join_no_group() -> None:
    """In gdb's process: lets signals through, and leaves our group, so the terminal's signals don't reach it."""
    signal.pthread_sigmask(signal.SIG_UNBLOCK, {signal.SIGCHLD, *FORWARDED})
    os.setpgid(0, 0)


def keep_streams() -> Dict[int, int]:
    """Our streams at high descriptors, where they are open."""
    kept = {}
    for stream in range(3):
        try:
            kept[stream] = open_high(os.dup(stream))
        except OSError:
            pass
    return kept


def inherited() -> List[int]:
    """Other descriptors that were open for us, and are for the program."""
    return [number for number in map(int, os.listdir("/proc/self/fd")) if number > 2 and is_inheritable(number)]


def is_inheritable(descriptor: int) -> bool:
    """Whether the descriptor is open for other programs."""
    try:
        return os.get_inheritable(descriptor)
    except OSError:
        return False


def start_gdb(gdb: str, orders: Dict[str, Any], start: Dict[str, Any], log: int) -> "subprocess.Popen[bytes]":
    """Starts gdb with the orders; `start` is what `starting.py` needs."""
    with tempfile.TemporaryFile() as file:
        file.write(json.dumps(start).encode())
        file.flush()
        orders["start"] = file.fileno()
        return subprocess.Popen(
            [gdb, "-nx", "-q", "-batch", "-x", os.path.join(HERE, "inside.py")],
            stdin=subprocess.DEVNULL, stdout=subprocess.DEVNULL, stderr=log, preexec_fn=join_no_group,
            pass_fds=[orders["out"], orders["answer"], orders["start"], *start["streams"].values(), *start["others"]],
            env={**os.environ, "SHELL": "/bin/sh", "DK_GDB_ORDERS": json.dumps(orders)})


def wait_for(program: Optional[int], gdb: int) -> None:
    """Waits for gdb, and hands on the signals that are sent to us. What the terminal sends, the program gets itself once it has begun."""
    for number in signal.sigpending() & FORWARDED:
        hand_on(signal.sigwait({number}), program, gdb)
    while True:
        received = signal.sigwaitinfo({signal.SIGCHLD, *FORWARDED})
        if received.si_signo == signal.SIGCHLD:
            if os.waitpid(gdb, os.WNOHANG)[0]:
                return
        elif received.si_pid != 0:
            hand_on(received.si_signo, program, gdb)


def hand_on(number: int, program: Optional[int], gdb: int) -> None:
    """Sends a signal to the program, or to gdb where there is none yet. When the program has ended, the trace is written, and isn't to be
    cut."""
    try:
        os.kill(program or gdb, number)
    except ProcessLookupError:
        pass


def read_answers(descriptor: int) -> "Iterator[Dict[str, Any]]":
    """What gdb's side answers: first the program's process, then what became of it."""
    with os.fdopen(descriptor, encoding="utf-8") as file:
        yield from map(json.loads, file)


def run(options: argparse.Namespace) -> Dict[str, Any]:
    """Runs the program in gdb: what gdb's side answers."""
    path = find_program(options.program)
    check_program(path, options.program)
    gdb = find_gdb()
    try:
        output = Output.open(options.out, is_emptied=False)
    except OSError as error:
        raise Problem("cannot write %s: %s" % (options.out, error.strerror), UNWRITABLE) from error
    start = {
        "others": inherited(), "streams": keep_streams(), "group": os.getpgrp(), "environment": dict(os.environ), "program": path,
        "arguments": [options.program, *options.arguments],
    }
    signal.pthread_sigmask(signal.SIG_BLOCK, {signal.SIGCHLD, *FORWARDED})
    answer, answer_end = os.pipe()
    orders = {
        "program": path, "answer": answer_end, "out": output.descriptor,
        "python": sys.executable, "include": options.include, "exclude": options.exclude, "depth": options.depth,
        "elements": options.elements, "every": options.every, "globals": options.globals, "arrays": dict(options.array),
    }
    with tempfile.TemporaryFile() as log:
        process = start_gdb(gdb, orders, start, log.fileno())
        os.close(answer_end)
        answers = read_answers(answer)
        first: Dict[str, Any] = next(answers, {})
        wait_for(first.get("pid"), process.pid)
        log.seek(0)
        early = {"failure": "gdb ended early", "fault": log.read().decode(errors="replace")}
        return first if "failure" in first else next(answers, early)


def tell(text: str) -> None:
    """Tells something on standard error."""
    sys.stderr.write("dk_gdb: " + text + "\n")
    sys.stderr.flush()


def tell_end(options: argparse.Namespace, answer: Dict[str, Any]) -> None:
    """Tells of a signal that ended the program, and of what the trace is without."""
    number = answer["signal"]
    if number:
        tell("%s was ended by signal %d (%s)" % (options.program, number, signal.strsignal(number)))
    if answer["cut"]:
        tell("functions that have too many variables, so that those that lie deepest aren't told: %d" % answer["cut"])
    if answer["fault"]:
        tell("the trace isn't whole, by a fault of ours:\n" + answer["fault"])


def main() -> int:
    """Does what the arguments say, and answers the status: the program's, where it ran."""
    options = make_parser().parse_args()
    options.out = options.out or os.path.basename(options.program) + ".dtrace"
    try:
        answer = run(options)
    except Problem as problem:
        tell(str(problem))
        return problem.status
    if "failure" in answer:
        tell("%s: %s" % (options.program, answer["failure"]))
        sys.stderr.write(answer.get("fault") or "")
        return REFUSED if answer.get("is_refused") else FAILED
    tell_end(options, answer)
    if options.report:
        sys.stdout.flush()
        report("dk_gdb", options.out, answer["samples"])
    return KILLED + answer["signal"] if answer["signal"] else answer["status"]


if __name__ == "__main__":
    sys.exit(main())
