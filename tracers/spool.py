"""Files that a tracer keeps open while the traced program runs, and records that wait in one.

This module is loaded into the traced program, so it imports next to nothing.
"""

from __future__ import annotations

import _thread
import fcntl
import marshal
import os

# `typing` isn't loaded into the program
TYPE_CHECKING = False
if TYPE_CHECKING:
    from typing import Any, Iterator

# From this descriptor on lie ours.
FIRST_DESCRIPTOR = 200


def open_high(descriptor: int) -> int:
    """The open file at a high descriptor, in place of the one it was opened at."""
    try:
        high = fcntl.fcntl(descriptor, fcntl.F_DUPFD_CLOEXEC, FIRST_DESCRIPTOR)
    except OSError:
        return descriptor
    os.close(descriptor)
    return high


def identity(descriptor: int) -> tuple[int, int]:
    """Which file lies at the descriptor."""
    status = os.fstat(descriptor)
    return status.st_dev, status.st_ino


class LostFile(OSError):
    """The traced program has closed the tracer's descriptor."""


class File:
    """A file of the tracer. A program that closes all descriptors may put another file at this one: that isn't written to."""

    def __init__(self, descriptor: int) -> None:
        self.descriptor = descriptor
        self.identity = identity(descriptor)

    def check(self) -> None:
        """Raises LostFile where the file no longer lies at its descriptor."""
        try:
            is_ours = identity(self.descriptor) == self.identity
        except OSError:
            is_ours = False
        if not is_ours:
            raise LostFile("the program closed the tracer's file")

    def close(self) -> None:
        """Closes the file, where it is still ours."""
        self.check()
        os.close(self.descriptor)


class Spool(File):
    """Records that wait in a temporary file, so memory doesn't grow with them. A record is made of plain numbers, strings, None, tuples and
    lists.

    A signal's handler may interrupt each step here, and may raise. What was written counts from the moment when the one list is changed
    that says where the file ends.
    """

    LENGTH = 8
    SECONDS = 2

    def __init__(self, descriptor: int, end: int = 0, batch: int = 500) -> None:
        """Over the file at the descriptor, of which so many bytes are records; so many records are written at once."""
        super().__init__(descriptor)
        self.batch = batch
        # where the file's records end, and then the records that aren't in it yet
        self.pending: list = [end]
        self.lock = _thread.allocate_lock()
        self.is_sealed = False

    def add(self, entry: object) -> None:
        """Adds a record."""
        self.pending.append(entry)
        if len(self.pending) > self.batch:
            self.flush()

    def flush(self) -> None:
        """Puts the pending records into the file. Where another thread is at it, that one does."""
        if self.lock.acquire(blocking=False):
            try:
                if not self.is_sealed:
                    self.write_batch()
            finally:
                self.lock.release()

    def seal(self) -> int:
        """Puts the pending records into the file, and takes no more. Answers where the records end. A thread that is writing has two
        seconds to end; one that was interrupted by the handler that calls this never does."""
        self.is_sealed = True
        was_free = self.lock.acquire(timeout=self.SECONDS)
        try:
            self.write_batch()
            return self.pending[0]
        finally:
            if was_free:
                self.lock.release()

    def write_batch(self) -> None:
        """Puts the pending records into the file."""
        count = len(self.pending)
        end = self.write(self.pending[0], self.pending[1:count])
        self.pending[:count] = [end]

    def write(self, position: int, batch: list) -> int:
        """Writes a batch at the position, and answers where it ends."""
        self.check()
        data = marshal.dumps(batch)
        rest = memoryview(len(data).to_bytes(self.LENGTH, "little") + data)
        while rest:
            size = os.pwrite(self.descriptor, rest, position)
            rest = rest[size:]
            position += size
        return position

    def read(self, position: int) -> tuple[list, int]:
        """The batch at the position, and where it ends."""
        self.check()
        size = int.from_bytes(self.read_bytes(position, self.LENGTH), "little")
        position += self.LENGTH
        return marshal.loads(self.read_bytes(position, size)), position + size

    def read_bytes(self, position: int, size: int) -> bytes:
        """So many bytes of the file from the position on."""
        parts = []
        while size > 0:
            part = os.pread(self.descriptor, size, position)
            if not part:
                raise LostFile("the temporary file was cut")
            parts.append(part)
            position += len(part)
            size -= len(part)
        return b"".join(parts)

    def batches(self) -> Iterator[list]:
        """The records in order, many at a time: those in the file and then those that are pending."""
        end = self.pending[0]
        position = 0
        while position < end:
            batch, position = self.read(position)
            yield batch
        yield self.pending[1:]

    def records(self) -> Iterator[Any]:
        """The records in order."""
        for batch in self.batches():
            yield from batch
