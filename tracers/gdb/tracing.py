"""The breakpoints at which calls are seen, and the records that are made there."""

from __future__ import annotations

import traceback
from dataclasses import dataclass
from typing import Dict, Iterable, List, Optional

import gdb

from calls import Frames, Parameters, Result
from dtrace import Output, Point, Spool, declaration, header, record
from functions import Function, find_ends
from points import Look, Making, Method
from process import Process


class Call:
    """A call that hasn't ended: its number, the bytes of its parameters, and the line of the return that is on its way."""

    __slots__ = ("nonce", "pieces", "line")

    def __init__(self, nonce: int, pieces: List[Optional[bytes]], line: int) -> None:
        self.nonce = nonce
        self.pieces = pieces
        self.line = line


class Tracer:
    """Sees the calls of a program, and keeps their records."""

    def __init__(self, process: Process, making: Making, spool: Spool, every: int) -> None:
        self.process = process
        self.making = making
        self.spool = spool
        self.every = every
        self.nonce = 0
        self.samples: Dict[str, int] = {}
        self.reached: List[Traced] = []
        self.fault: Optional[str] = None

    def keep(self, point: Point, nonce: int, values: List[Optional[str]]) -> None:
        """Keeps a record."""
        self.samples[point.name] = self.samples.get(point.name, 0) + 1
        self.spool.add((point.name, nonce, values))

    def fail(self) -> None:
        """Notes the first fault of ours; the program goes on."""
        if self.fault is None:
            self.fault = traceback.format_exc()

    def take_reached(self) -> bool:
        """Takes the function that has stopped the program; whether there is one."""
        if not self.reached:
            return False
        try:
            self.reached.pop().reach()
        except Exception:
            self.fail()
        return True

    def write(self, output: Output, methods: Iterable[Method]) -> None:
        """Writes the trace: the declarations of what was reached, and all records."""
        output.write(header("C/C++"))
        for family in self.making.families.values():
            output.write(declaration(family.point))
        names = {}
        for point in [point for method in methods for point in method.points()]:
            output.write(declaration(point))
            names[point.name] = [variable.name for variable in point.variables]
        for name, nonce, values in self.spool.records():
            output.write(record(name, nonce, zip(names[name], values)))


@dataclass
class Prepared:
    """What is read of a function's calls."""

    parameters: Parameters
    enter_look: Look
    exit_look: Look
    enter: Point


class Traced:
    """A function whose calls are traced. Its ends are looked for when it is reached."""

    def __init__(self, tracer: Tracer, function: Function, method: Method) -> None:
        self.tracer = tracer
        self.function = function
        self.method = method
        self.frames = Frames(tracer.process, function)
        self.result = Result(tracer.process, function)
        self.begins_at_loop = False
        self.calls: Dict[int, Optional[Call]] = {}
        self.count = 0
        self.is_new = True
        self.prepared: Optional[Prepared] = None
        self.stops: List[Stop] = [Begin(self, function.begin)]

    def reach(self) -> None:
        """At the first call, where the program stands still: finds out where calls end and what is to be read, and takes the call."""
        find_ends(self.function, gdb.selected_inferior().architecture())
        self.begins_at_loop = self.function.begins_at_loop
        self.prepare(self.frames.within(self.tracer.process.registers(gdb.selected_thread().ptid[1])))
        self.stops += [Mark(self, address, line) for address, line in self.function.marks.items()]
        self.stops += [End(self, address) for address in self.function.ends]
        self.enter()

    def prepare(self, frame: int) -> None:
        """Finds out what is to be read."""
        parameters = Parameters(self.tracer.process, self.function, frame)
        making = self.tracer.making
        enter_look, enter = making.look(self.function, self.method.name, parameters, None)
        exit_look, leave = making.look(self.function, self.method.name, parameters, self.result)
        self.prepared = Prepared(parameters, enter_look, exit_look, self.method.declare(enter, leave, self.function.lines))

    def enter(self) -> None:
        """A call begins, or a loop at its beginning goes round."""
        frame = self.frames.within(self.tracer.process.registers(gdb.selected_thread().ptid[1]))
        if self.begins_at_loop and frame in self.calls:
            return
        self.count += 1
        if (self.count - 1) % self.tracer.every != 0:
            self.calls.pop(frame, None)
            if self.begins_at_loop:
                self.calls[frame] = None
        elif self.prepared is not None:
            self.tracer.nonce += 1
            call = Call(self.tracer.nonce, self.prepared.parameters.take(frame), self.function.usual_line)
            self.calls[frame] = call
            self.tracer.keep(self.prepared.enter, call.nonce, self.prepared.enter_look.values(call.pieces))

    def mark(self, line: int) -> None:
        """A call is about to reach its end from a return of this line."""
        if self.calls:
            call = self.calls.get(self.frames.within(self.tracer.process.registers(gdb.selected_thread().ptid[1])))
            if call is not None:
                call.line = line

    def leave(self) -> None:
        """A call ends."""
        if not self.calls:
            return
        thread = gdb.selected_thread().ptid[1]
        registers = self.tracer.process.registers(thread)
        call = self.calls.pop(self.frames.at_return(registers), None)
        if call is not None and self.prepared is not None:
            pieces = [*call.pieces, self.result.take(thread, registers)]
            self.tracer.keep(self.method.exits[call.line], call.nonce, self.prepared.exit_look.values(pieces))


class Stop(gdb.Breakpoint):
    """A breakpoint at an address, which doesn't stop the program."""

    def __init__(self, traced: Traced, address: int) -> None:
        super().__init__("*%d" % address, internal=True)
        self.traced = traced

    def see(self) -> None:
        """What is done there."""
        raise NotImplementedError

    def stop(self) -> bool:
        """Called by gdb."""
        try:
            self.see()
        except Exception:
            self.traced.tracer.fail()
        return False


class Begin(Stop):
    """Where a call begins. The first one stops the program, since breakpoints can't be set elsewhere."""

    def stop(self) -> bool:
        """Called by gdb."""
        if self.traced.is_new:
            self.traced.is_new = False
            self.traced.tracer.reached.append(self.traced)
            return True
        return super().stop()

    def see(self) -> None:
        """Takes the values at a call's begin."""
        self.traced.enter()


class Mark(Stop):
    """Where a call is about to reach its end."""

    def __init__(self, traced: Traced, address: int, line: int) -> None:
        super().__init__(traced, address)
        self.line = line

    def see(self) -> None:
        """Takes the line of the return."""
        self.traced.mark(self.line)


class End(Stop):
    """Where a call ends."""

    def see(self) -> None:
        """Takes the values at a call's end."""
        self.traced.leave()
