"""The registers and the memory of the traced process, in one system call each.

gdb's own calls do the same, but take ten times as long: they unwind the stack first.
"""

from __future__ import annotations

import ctypes
import os
import struct
from typing import Optional

PTRACE_GETREGS = 12
PTRACE_GETFPREGS = 14
REGISTERS = struct.Struct("<27Q")
RBP, RAX, RDX, RSP = 4, 10, 12, 19
FLOATS_SIZE = 512
XMM0 = 160


class Process:
    """A process that gdb has stopped."""

    def __init__(self, pid: int) -> None:
        self.memory = os.open("/proc/%d/mem" % pid, os.O_RDONLY | os.O_CLOEXEC)
        self.ptrace = ctypes.CDLL(None, use_errno=True).ptrace
        self.ptrace.argtypes = [ctypes.c_long, ctypes.c_long, ctypes.c_void_p, ctypes.c_void_p]
        self.ptrace.restype = ctypes.c_long
        self.registers_buffer = ctypes.create_string_buffer(REGISTERS.size)
        self.floats_buffer = ctypes.create_string_buffer(FLOATS_SIZE)

    def call(self, request: int, thread: int, buffer: "ctypes.Array[ctypes.c_char]") -> None:
        """Fills the buffer by a request to the kernel."""
        if self.ptrace(request, thread, None, buffer) != 0:
            raise OSError(ctypes.get_errno(), "ptrace")

    def registers(self, thread: int) -> "tuple[int, ...]":
        """The whole-number registers of a thread, in the kernel's order."""
        self.call(PTRACE_GETREGS, thread, self.registers_buffer)
        return REGISTERS.unpack(self.registers_buffer)

    def first_float(self, thread: int) -> bytes:
        """The register that a function returns a floating-point number in."""
        self.call(PTRACE_GETFPREGS, thread, self.floats_buffer)
        return self.floats_buffer.raw[XMM0:XMM0 + 16]

    def read(self, address: int, size: int) -> Optional[bytes]:
        """So many bytes at the address, or None where they can't all be read."""
        data = self.read_up_to(address, size)
        return data if len(data) == size else None

    def read_up_to(self, address: int, size: int) -> bytes:
        """The bytes at the address, up to so many: those before the first that can't be read."""
        try:
            return os.pread(self.memory, size, address)
        except (OSError, OverflowError):
            return b""
