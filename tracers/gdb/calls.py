"""Where a call's parameters, its frame and its result lie."""

from __future__ import annotations

import re
import struct
from typing import Dict, List, Optional, Tuple

import gdb

from functions import Function
from kinds import INTEGER_CODES, RECORD_CODES, REFERENCE_CODES, Member, plain, type_of
from process import RAX, RBP, RDX, RSP, Process

# Parameters that compilers add to constructors and destructors.
HIDDEN = ("__in_chrg", "__vtt_parm")
# What `info scope` says of a parameter that lies at a fixed distance from the frame, and of one whose address lies there.
LOCATION = re.compile(r"Symbol (\w+) is (?:a variable at frame base reg \$\w+ offset -?\d+\+"
                      r"|a complex DWARF expression:\n +0: DW_OP_fbreg )(-?\d+)\n?(?: +\d+: (DW_OP_deref)\n)?, length")
WORD = 8
# A caller's frame begins after the return address and the saved frame pointer.
FRAME_BEHIND_POINTER = 2 * WORD
WIDEST_FRAME = 4096
LARGEST_RESULT = 16
SINGLE_CODES = (*INTEGER_CODES, *REFERENCE_CODES, gdb.TYPE_CODE_BOOL, gdb.TYPE_CODE_PTR)


class Frames:
    """Tells the frame of a call: the address that the caller's stack pointer has after the call, which no other waiting call shares."""

    def __init__(self, process: Process, function: Function) -> None:
        self.process = process
        self.has_pointer = function.has_frame_pointer

    def within(self, registers: Tuple[int, ...]) -> int:
        """The frame, after the prologue."""
        if self.has_pointer:
            return registers[RBP] + FRAME_BEHIND_POINTER
        older = gdb.selected_frame().older()
        return int(older.read_register("rsp")) if older is not None else 0

    @staticmethod
    def at_return(registers: Tuple[int, ...]) -> int:
        """The frame, where the next instruction is the `ret`."""
        return registers[RSP] + WORD


def parameters_of(function: Function) -> List[gdb.Symbol]:
    """The parameters of a function that have names."""
    return [symbol for symbol in function.symbols() if symbol.is_argument and symbol.name and symbol.name not in HIDDEN]


def locations_of(function: Function) -> Dict[str, Tuple[int, bool]]:
    """What the debugging information says of parameters at a fixed distance: this distance, and whether their address lies there."""
    text = gdb.execute("info scope *%d" % function.begin, to_string=True) or ""
    return {found.group(1): (int(found.group(2)), found.group(3) is not None) for found in LOCATION.finditer(text)}


def frame_base(parameters: List[gdb.Symbol], locations: Dict[str, Tuple[int, bool]], frame: int) -> int:
    """What distances are counted from, less the frame: some compilers count from the frame pointer."""
    for symbol in parameters:
        distance, is_address = locations.get(symbol.name, (0, True))
        if not is_address and plain(type_of(symbol)).code not in REFERENCE_CODES:
            address = gdb.selected_frame().read_var(symbol).address
            return int(address) - distance - frame
    return 0


def find_slots(function: Function, symbols: List[gdb.Symbol], frame: int) -> Dict[str, Member]:
    """The parameters that lie at fixed distances from the frame, with these. Where C++ passes an object by its address, this lies there."""
    locations = locations_of(function)
    base = frame_base(symbols, locations, frame)
    slots = {}
    for symbol in symbols:
        if symbol.name in locations:
            distance, is_address = locations[symbol.name]
            kind = type_of(symbol)
            slots[symbol.name] = Member(symbol.name, kind.reference() if is_address else kind, distance + base)
    return slots


class Parameters:
    """Takes the bytes of the parameters when a call begins: those in slots as one piece, and each other one as a piece by itself.
    `members` has the parameters in order, each with the number of its piece."""

    def __init__(self, process: Process, function: Function, frame: int) -> None:
        self.process = process
        symbols = parameters_of(function)
        slots = find_slots(function, symbols, frame)
        self.first = min((slot.place for slot in slots.values()), default=0)
        self.size = max((slot.place + slot_size(slot.kind) for slot in slots.values()), default=self.first) - self.first
        self.others = [symbol for symbol in symbols if symbol.name not in slots]
        self.members: List[Tuple[int, Member]] = []
        for symbol in symbols:
            slot = slots.get(symbol.name)
            if slot is not None:
                self.members.append((0, Member(slot.name, slot.kind, slot.place - self.first)))
            else:
                self.members.append((1 + self.others.index(symbol), Member(symbol.name, type_of(symbol), 0)))

    @property
    def pieces(self) -> int:
        """How many pieces there are."""
        return 1 + len(self.others)

    def take(self, frame: int) -> List[Optional[bytes]]:
        """The bytes of each piece."""
        slots = self.process.read(frame + self.first, self.size)
        if not self.others:
            return [slots]
        return [slots] + [self.value_bytes(symbol) for symbol in self.others]

    def value_bytes(self, symbol: gdb.Symbol) -> Optional[bytes]:
        """The bytes of a parameter that gdb finds, as in a register."""
        try:
            value = gdb.selected_frame().read_var(symbol)
            if value.is_optimized_out:
                return None
            if value.address is not None:
                return self.process.read(int(value.address), slot_size(value.type))
            return single_bytes(value)
        except (gdb.error, ValueError, OverflowError):
            return None


def slot_size(kind: gdb.Type) -> int:
    """The size of a parameter."""
    inner = plain(kind)
    return WORD if inner.code in REFERENCE_CODES else inner.sizeof


def single_bytes(value: gdb.Value) -> Optional[bytes]:
    """The bytes of a single value."""
    inner = plain(value.type)
    if inner.code in SINGLE_CODES:
        size = slot_size(inner)
        return (int(value) & (1 << 8 * size) - 1).to_bytes(size, "little")
    if inner.code == gdb.TYPE_CODE_FLT and inner.sizeof in (4, 8):
        return struct.pack("<f" if inner.sizeof == 4 else "<d", float(value))
    return None


class Result:
    """The result of a call, as the x86-64's conventions hand it over."""

    def __init__(self, process: Process, function: Function) -> None:
        self.process = process
        declared = type_of(function.symbol).target()
        inner = plain(declared)
        self.is_float = inner.code == gdb.TYPE_CODE_FLT and inner.sizeof <= WORD
        is_large = inner.code in RECORD_CODES and inner.sizeof > LARGEST_RESULT
        self.kind: Optional[gdb.Type] = None
        if is_large:
            self.kind = declared.reference()
        elif self.is_float or inner.code in SINGLE_CODES:
            self.kind = declared

    def take(self, thread: int, registers: Tuple[int, ...]) -> Optional[bytes]:
        """The bytes of the result."""
        if self.kind is None:
            return None
        if self.is_float:
            return self.process.first_float(thread)
        return struct.pack("<QQ", registers[RAX], registers[RDX])
