"""Ends of processes, and what they took."""

from __future__ import annotations

import os
import sys


def exit_code(status: int) -> int:
    """The exit code of a process that ended with this wait status; for one that a signal ended, the signal's number below 0."""
    return os.WEXITSTATUS(status) if os.WIFEXITED(status) else -os.WTERMSIG(status)


def taken(command: list[str]) -> tuple[float, int]:
    """Seconds of the processor that the command takes, and its peak of memory in KiB. Where it fails, the whole program ends."""
    child = os.fork()
    if child == 0:
        os.dup2(os.open(os.devnull, os.O_WRONLY), 1)
        os.execvp(command[0], command)
    _, status, used = os.wait4(child, 0)
    if status:
        sys.exit(f"{os.path.basename(sys.argv[0])}: {command[0]} ended with {status}")
    return used.ru_utime + used.ru_stime, used.ru_maxrss
