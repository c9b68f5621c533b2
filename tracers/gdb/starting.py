"""Becomes the program: gdb runs this in the process that it watches. It gives the program what it has without us: the streams, the group,
the environment and the arguments of its command."""

from __future__ import annotations

import json
import os
import signal
import sys


def close(descriptor: int) -> None:
    """Closes what may be open."""
    try:
        os.close(descriptor)
    except OSError:
        pass


def main() -> None:
    """Becomes the program."""
    file = int(sys.argv[1])
    start = json.loads(os.pread(file, os.fstat(file).st_size, 0))
    for stream in range(3):
        kept = start["streams"].get(str(stream))
        if kept is None:
            close(stream)
        else:
            os.dup2(kept, stream)
    for descriptor in map(int, os.listdir("/proc/self/fd")):
        if descriptor > 2 and descriptor not in start["others"]:
            close(descriptor)
    os.setpgid(0, start["group"])
    # Python ignores these
    signal.signal(signal.SIGPIPE, signal.SIG_DFL)
    signal.signal(signal.SIGXFSZ, signal.SIG_DFL)
    os.execve(start["program"], start["arguments"], start["environment"])


main()
