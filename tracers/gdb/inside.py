"""Runs inside gdb: starts the program, finds the program's functions, and traces their calls until the process ends.

`dk_gdb` starts gdb with this script, and with its orders in an environment variable as JSON. What becomes of them is written as JSON to a
pipe.
"""

from __future__ import annotations

import json
import os
import shlex
import sys
import traceback
from typing import Any, Dict, Iterator, List, Set, Tuple

import gdb

sys.path[:0] = [os.path.dirname(os.path.abspath(__file__)), os.path.dirname(os.path.dirname(os.path.abspath(__file__)))]

from dtrace import Kinds, Output, Selection, Spool, temporary  # noqa: E402
from elf import Elf, entry_of_process  # noqa: E402
from functions import Function, all_functions, find_begin, symbols_of  # noqa: E402
from kinds import RECORD_CODES, REFERENCE_CODES, fields_of, plain, type_of  # noqa: E402
from points import Making, Method, file_labels, is_own, name_of  # noqa: E402
from process import Process  # noqa: E402
from tracing import Traced, Tracer  # noqa: E402
from variables import Options, Shapes  # noqa: E402

STARTING = os.path.join(os.path.dirname(os.path.abspath(__file__)), "starting.py")
SETTINGS = [
    "set confirm off",
    "set pagination off",
    "set print thread-events off",
    "set print inferior-events off",
    "set width 0",
    "set language auto",
    "set auto-solib-add off",
    "set auto-load no",
    "set debuginfod enabled off",
    "set detach-on-fork on",
    "set follow-fork-mode parent",
    "set follow-exec-mode same",
    "maintenance set target-non-stop off",
]


class Failure(Exception):
    """The program can't be traced; the text says why."""


class Refusal(Failure):
    """The arguments of the command don't fit the program; the text says why."""


def command(text: str) -> str:
    """What gdb answers to the command."""
    return gdb.execute(text, to_string=True) or ""


def settle() -> None:
    """Sets what gdb is to do. Older versions don't know all of it."""
    for setting in SETTINGS:
        try:
            command(setting)
        except gdb.error:
            pass


def start_program(orders: Dict[str, Any]) -> None:
    """Starts the program, by `starting.py`, and stops it at its first instruction."""
    try:
        command("file " + quoted(orders["program"]))
        command("set exec-wrapper " + shlex.join([orders["python"], "-SE", STARTING, str(orders["start"])]))
        command("starti")
        command("catch exec")
        command("handle all nostop noprint pass")
        command("handle SIGINT nostop noprint pass")
    except gdb.error as error:
        raise Failure("gdb can't start it: %s" % error) from error


def quoted(path: str) -> str:
    """A path as gdb's commands take it."""
    return '"' + path.replace("\\", "\\\\").replace('"', '\\"') + '"'


def choose_functions(elf: Elf, orders: Dict[str, Any]) -> List[Function]:
    """The functions that are to be traced."""
    pid = gdb.selected_inferior().pid
    found = all_functions(elf, entry_of_process(pid) - elf.entry)
    if not found:
        raise Failure("none of its functions has lines: compile it with -g -O0")
    labels = file_labels(function.file for function in found)
    selection = Selection(orders["include"], orders["exclude"])

    def is_chosen(function: Function) -> bool:
        name = name_of(function, labels[function.file])
        texts = (name.short, name.full)
        if any(map(selection.excludes, texts)):
            return False
        return any(map(selection.includes, texts)) if selection.include else is_own(function)

    chosen = [function for function in found if is_chosen(function)]
    if not chosen:
        raise Failure("none of its functions is selected")
    return chosen


def names_below(kind: gdb.Type, depth: int) -> Iterator[str]:
    """The names of the fields of a value, and of what it points to, down to the depth."""
    inner = plain(kind)
    while inner.code == gdb.TYPE_CODE_ARRAY or inner.code == gdb.TYPE_CODE_PTR or inner.code in REFERENCE_CODES:
        inner = plain(inner.target())
    if depth > 0 and inner.code in RECORD_CODES:
        for member in fields_of(inner):
            yield member.name
            yield from names_below(member.kind, depth if not member.name else depth - 1)


def check_arrays(functions: List[Function], orders: Dict[str, Any]) -> None:
    """Refuses arrays and lengths by names that no parameter, field or global variable has."""
    symbols = [symbol for function in functions for symbol in function.symbols() if symbol.is_argument]
    if orders["globals"]:
        symbols += [symbol for found in globals_by_file(functions).values() for symbol in found]
    types = {str(symbol.type): type_of(symbol) for symbol in symbols}
    known = {symbol.name for symbol in symbols} | {name for kind in types.values() for name in names_below(kind, orders["depth"] + 1)}
    for pair in orders["arrays"].items():
        for text in pair:
            name = text.replace("->", ".").replace("::", "").rsplit(".", 1)[-1].strip("()*")
            if name not in known and not name.isdigit():
                raise Refusal("--array %s=%s: no parameter or field of what is traced is called %s" % (*pair, name))


def file_symbols(functions: List[Function]) -> Iterator[gdb.Symbol]:
    """The symbols outside of functions, in the parts of the program that these functions are in."""
    seen: Set[str] = set()
    for function in functions:
        path = function.symbol.symtab.fullname()
        if path not in seen:
            seen.add(path)
            for block in (function.block.static_block, function.block.global_block):
                yield from symbols_of(block)


def globals_by_file(functions: List[Function]) -> Dict[str, List[gdb.Symbol]]:
    """The global variables of the files of these functions, in the order of their lines."""
    found: Dict[str, Dict[str, gdb.Symbol]] = {function.file: {} for function in functions}
    for symbol in file_symbols(functions):
        path = symbol.symtab.fullname() if symbol.symtab is not None else ""
        if path in found and symbol.is_variable and not symbol.needs_frame:
            found[path].setdefault(symbol.name, symbol)
    return {path: sorted(symbols.values(), key=lambda symbol: symbol.line) for path, symbols in found.items()}


def make_methods(functions: List[Function]) -> List[Method]:
    """The methods of the functions, one for each; copies of a function share it."""
    architecture = gdb.selected_inferior().architecture()
    labels = file_labels(function.file for function in functions)
    methods: Dict[Any, Method] = {}
    names: Set[str] = set()
    result = []
    for function in functions:
        find_begin(function, architecture)
        key = (function.file, function.symbol.line, function.symbol.name)
        if key not in methods:
            name = name_of(function, labels[function.file])
            if name.full in names:
                name.short += "@%d" % function.symbol.line
            names.add(name.full)
            methods[key] = Method(name)
        result.append(methods[key])
    return result


def make_tracer(functions: List[Function], orders: Dict[str, Any]) -> Tracer:
    """What keeps the records."""
    process = Process(gdb.selected_inferior().pid)
    shapes = Shapes(process, Kinds(), Options(orders["depth"], orders["elements"], orders["arrays"]))
    shared = globals_by_file(functions) if orders["globals"] else {}
    making = Making(shapes, shared, file_labels(function.file for function in functions))
    return Tracer(process, making, Spool(temporary()), orders["every"])


class Watch:
    """Lets the program run until it ends. Where it becomes another program, this one isn't traced."""

    def __init__(self) -> None:
        self.is_alive = True
        self.status = 0
        gdb.events.exited.connect(self.exited)

    def exited(self, event: object) -> None:
        """Called by gdb when the process ends."""
        self.is_alive = False
        self.status = getattr(event, "exit_code", 0)

    @property
    def end_signal(self) -> int:
        """The signal that ended the program, or 0."""
        return int(gdb.convenience_variable("_exitsignal") or 0)

    def run(self, tracer: Tracer, traced: List[Traced]) -> None:
        """Runs it."""
        command("continue")
        while self.is_alive:
            if tracer.take_reached():
                command("continue")
            elif "signal SIGTRAP" in command("info program"):
                # gdb doesn't hand on by itself what it uses for its breakpoints
                command("signal SIGTRAP")
            else:
                delete_stops(traced)
                command("continue")


def delete_stops(traced: List[Traced]) -> None:
    """Ends the tracing of a program that has become another one."""
    for stop in [stop for each in traced for stop in each.stops]:
        stop.delete()
    traced.clear()


def prepare(orders: Dict[str, Any]) -> Tuple[Tracer, List[Method], List[Traced]]:
    """Sets the breakpoints at the functions of the program, which hasn't run yet."""
    functions = choose_functions(Elf(orders["program"]), orders)
    check_arrays(functions, orders)
    methods = make_methods(functions)
    tracer = make_tracer(functions, orders)
    traced = [Traced(tracer, function, method) for function, method in zip(functions, methods)]
    return tracer, list({id(method): method for method in methods}.values()), traced


def answer(orders: Dict[str, Any], facts: Dict[str, Any]) -> None:
    """Tells `dk_gdb` something."""
    os.write(orders["answer"], json.dumps(facts).encode() + b"\n")


def trace(orders: Dict[str, Any]) -> Dict[str, Any]:
    """Follows the orders, and says what became of them."""
    settle()
    start_program(orders)
    try:
        tracer, methods, traced = prepare(orders)
    except BaseException:
        command("kill")
        raise
    output = Output(orders["out"])
    output.empty()
    answer(orders, {"pid": gdb.selected_inferior().pid})
    watch = Watch()
    watch.run(tracer, traced)
    try:
        tracer.write(output, methods)
        output.close()
    except OSError as error:
        raise Failure("the trace can't be written: %s" % error) from error
    samples = max(tracer.samples.values(), default=0)
    return {"status": watch.status, "signal": watch.end_signal, "samples": samples, "cut": len(tracer.making.cut), "fault": tracer.fault}


def main() -> None:
    """Does what `dk_gdb` asks for."""
    orders = json.loads(os.environ["DK_GDB_ORDERS"])
    try:
        facts = trace(orders)
    except Failure as failure:
        facts = {"failure": str(failure), "is_refused": isinstance(failure, Refusal)}
    except Exception:
        facts = {"failure": "a fault of dk_gdb", "fault": traceback.format_exc()}
    answer(orders, facts)


main()
