"""The traced program's calls and returns, as records in a spool. It is loaded into the traced program (`site/sitecustomize.py`).

A *function* is a code object that is traced. A call of it gives a record for its entry and one for the exit by which it returns; a *shape*
is such a point with the tokens of the values that were read there (`looking.py`). Shapes are numbered, and a record is a tuple of a shape's
number, the call's nonce, and the data. After -1 a record has its place, its tokens, and then such a tuple.

Python 3.12 and later have `sys.monitoring`, by which code that isn't traced runs as fast as without us. Earlier ones have `sys.setprofile`.
"""

from __future__ import annotations

import _signal  # type: ignore[import]
import _thread
import atexit
import marshal
import os
import sys
import time
from _functools import partial  # type: ignore[import]
from itertools import count
from operator import itemgetter

from looking import UNSET, Globals, Looker, member
from spool import Spool

# `typing` isn't loaded into the program
TYPE_CHECKING = False
if TYPE_CHECKING:
    from types import CodeType, FrameType
    from typing import Any, Callable, Mapping, Tuple, Type

    from source import Source

    # takes a place, the call's nonce and the values, and makes the record
    Look = Callable[["Place", int, Tuple[Any, ...]], Tuple[Any, ...]]
    Hook = Callable[..., Any]
    Hooks = Tuple[Hook, Hook, Hook]

OPTIMIZED = 0x1
# generators, coroutines, iterable coroutines and asynchronous generators
SUSPENDED = 0x20 | 0x80 | 0x100 | 0x200
VARIABLE_ARGUMENTS = 0x4
KEYWORD_ARGUMENTS = 0x8
COMPREHENSIONS = ("<listcomp>", "<setcomp>", "<dictcomp>", "<genexpr>")
# the instruction that returns, in the versions of Python that have no `sys.monitoring`
RETURN_VALUE = 83
# by the version of Python, the instruction that begins a function, where signals are noticed unless its argument is this one
RESUME = {(3, 11): 151, (3, 12): 151, (3, 13): 149}
AFTER_YIELD_FROM = 2

# So many shapes have numbers. Records of further ones bring their tokens along, so that memory doesn't grow with them.
MOST_SHAPES = 20_000

# signals that end the program, unless it handles them
ENDING_SIGNALS = (_signal.SIGTERM, _signal.SIGHUP)
MOST_LINES = 200
UNKNOWN = object()
# of a place where no scalars alone were read yet: no value has this class
NOTHING_USUAL = ((None,), -1)
HERE = os.path.dirname(os.path.abspath(__file__))
OUR_FOLDER = os.path.dirname(HERE) + os.sep
DATA_CLASSES = {("types", "SimpleNamespace"), ("argparse", "Namespace")}
# takes an event and does nothing; no code of Python's runs, in which a signal could be noticed
IGNORE_EVENT = "".format


class Place:
    """An entry or an exit of a function. `usual` has the classes of the scalars that were read there last, and their shape; `plain` has the
    shapes of scalars by the ids of their classes, `shapes` all by their tokens."""

    __slots__ = ("number", "usual", "plain", "shapes")

    def __init__(self, number: int) -> None:
        self.number = number
        self.usual: tuple = NOTHING_USUAL
        self.plain: dict = {}
        self.shapes: dict = {}


class Function:
    """A traced function: what is read of it, and its places. `due` counts down to the next call that is traced; `more` has what is read
    besides locals."""

    __slots__ = ("code", "module", "names", "read", "due", "entry", "exits", "more")

    def __init__(self, code: CodeType, module: str, entry: Place, more: tuple) -> None:
        self.code = code
        self.module = module
        self.names = parameters(code)
        self.read = reader(self.names)
        self.due = 1
        self.entry = entry
        # by the place in the code; False where an exception leaves
        self.exits: dict = {}
        self.more = more


def parameters(code: CodeType) -> tuple:
    """The names of the code's parameters, in the order in which they are declared."""
    names = code.co_varnames
    positional, keywords = code.co_argcount, code.co_argcount + code.co_kwonlyargcount
    has_rest = code.co_flags & VARIABLE_ARGUMENTS and 1
    rest = names[keywords:keywords + has_rest]
    others = names[keywords + has_rest:keywords + has_rest + 1] if code.co_flags & KEYWORD_ARGUMENTS else ()
    return names[:positional] + rest + names[positional:keywords] + others


def starred_parameters(code: CodeType) -> list:
    """The names of the code's parameters, with their stars."""
    names = list(parameters(code))
    if code.co_flags & VARIABLE_ARGUMENTS:
        names[code.co_argcount] = "*" + names[code.co_argcount]
    if code.co_flags & KEYWORD_ARGUMENTS:
        names[-1] = "**" + names[-1]
    return names


def reader(names: tuple) -> Any:
    """What reads the values of these names from a frame's locals, as a tuple."""
    if len(names) == 1:
        name = names[0]
        return lambda variables: (variables[name],)
    return itemgetter(*names) if names else lambda variables: ()


def values_there(function: Function, variables: Mapping[str, Any]) -> tuple:
    """The values of the function's parameters, of which some have been deleted."""
    return tuple([variables.get(name, UNSET) for name in function.names])


def begun_without_signals(function: Any) -> Any:
    """The function, in whose first instruction no signal is noticed: so its body's `try` sees each exception that a signal's handler
    raises. Before Python 3.11 a `try` that comes first is entered without a look at signals, too."""
    code = bytearray(function.__code__.co_code)
    resume = RESUME.get(sys.version_info[:2])
    for place in range(0, len(code), 2):
        if code[place] == resume:
            code[place + 1] = AFTER_YIELD_FROM
            function.__code__ = function.__code__.replace(co_code=bytes(code))
            break
    return function


class Tracer:
    """Records what happens, until it is sealed."""

    def __init__(self, settings: dict) -> None:
        self.settings = settings
        self.spool = Spool(settings["spool"], batch=max(10, min(500, 50_000 // (settings["elements"] + 1))))
        self.looker = Looker(settings["elements"], self.owns_class, self.module_name)
        self.functions: dict = {}
        self.kept: list = []
        self.files: dict = {}
        self.modules: dict = {}
        self.places: list = []
        # tokens of each shape, and the place that it is of
        self.shapes: list = []
        self.include = matchers(settings["include"])
        self.exclude = matchers(settings["exclude"])
        self.source = source_reader() if self.include + self.exclude and sys.version_info < (3, 11) else None
        self.process = os.getpid()
        self.failures: dict = {}
        self.is_done = False
        # whether an interrupt is still to be told to the program, and whether a handler's exception may have ended tracing
        self.is_interrupted = False
        self.may_end_early = False
        self.monitor: int | None = None
        self.threading: Any = None
        # before Python 3.12, what takes events, and the same as it is told to Python, which can be paused
        self.on_event: Hook | None = None
        self.hook: Any = None
        self.handler = self.on_signal

    # ------------------------------------------------------------ what is traced

    def is_own_file(self, name: str) -> bool:
        """Whether the file lies at or below the script's folder, and isn't the library's."""
        known = self.files.get(name)
        if known is None:
            path = os.path.realpath(os.path.join(self.settings["start"], name))
            known = self.files[name] = (
                is_below(path, self.settings["folder"])
                and not any(is_below(path, library) and not is_below(self.settings["folder"], library)
                            for library in self.settings["library"])
                and "site-packages" not in path and "dist-packages" not in path and os.path.exists(path))
        return known

    def selects(self, name: str, file: str) -> bool:
        """Whether what has this name, and lies in this file, is traced."""
        if any(match(name) for match in self.exclude):
            return False
        return any(match(name) for match in self.include) if self.include else self.is_own_file(file)

    def owns_class(self, module: str, qualname: str) -> bool:
        """Whether fields of a class's instances are read."""
        if (module, qualname) in DATA_CLASSES:
            return True
        file = member(module, "__file__")
        return type(file) is str and (self.is_own_file(file) or self.selects(self.module_name(module) + "." + qualname, file))

    def module_name(self, name: object) -> str:
        """The module's name in the names of points: that of the script, where it is the one that is run."""
        return self.settings["main"] if name == "__main__" else name if type(name) is str else "?"

    def discover(self, frame: FrameType) -> Function | None:
        """The function of the frame's code, which is met for the first time, or None where it isn't traced."""
        code = frame.f_code
        if code.co_filename[:1] == "<":
            return None
        variables = frame.f_globals
        function = None
        is_plain = code.co_flags & OPTIMIZED and not code.co_flags & SUSPENDED and code.co_name not in COMPREHENSIONS
        if is_plain and type(variables) is dict and not code.co_filename.startswith(OUR_FOLDER):
            module = self.module_name(variables.get("__name__"))
            if self.selects(module + "." + self.qualname_of(code), code.co_filename):
                function = Function(code, module, self.place(code, module, []), self.globals_of(variables))
                if not (function.names or function.more):
                    function.entry.usual = ((), self.new_shape(function.entry, ()))
        self.kept.append(code)
        self.functions[id(code)] = function
        return function

    def globals_of(self, variables: dict) -> tuple:
        """The module's global variables as a value, where they are to be read."""
        if not self.settings["globals"]:
            return ()
        if id(variables) not in self.modules:
            self.modules[id(variables)] = Globals(variables)
        return (self.modules[id(variables)],)

    def qualname_of(self, code: CodeType) -> str:
        """The code's qualified name: what the code tells, or before Python 3.11 what its file says, where a glob asks for it."""
        if self.source is None:
            return getattr(code, "co_qualname", code.co_name)
        path = os.path.join(self.settings["start"], code.co_filename)
        return self.source.of(path).find(code.co_firstlineno, code.co_name, code.co_name).qualname

    def place(self, code: CodeType, module: str, lines: list) -> Place:
        """A new place of a function: its entry, or an exit, with the lines of the instructions from there backwards."""
        path = os.path.join(self.settings["start"], code.co_filename)
        name = self.qualname_of(code)
        known = [module, path, code.co_name, name, code.co_firstlineno, parameters(code), starred_parameters(code), lines]
        place = Place(len(self.places))
        self.places.append(known)
        return place

    # ------------------------------------------------------------ records

    def new_shape(self, place: Place, tokens: tuple) -> int:
        """The number of a shape that is met for the first time."""
        number = place.shapes[tokens] = len(self.shapes)
        self.shapes.append((place.number, tokens))
        return number

    def looker_at(self) -> Look:
        """What makes the record of values that aren't all scalars, or whose classes aren't those that are usual there."""
        encode = self.looker.encode
        plain = self.looker.plain
        depth = self.settings["depth"]
        shapes = self.shapes

        def look_at_new(place: Place, kinds: tuple[int, ...], nonce: int, values: tuple[Any, ...]) -> tuple[Any, ...]:
            tokens: list = []
            data: list = []
            encode(values, depth, tokens, data)
            key = tuple(tokens)
            number = place.shapes.get(key)
            if number is None:
                if len(shapes) >= MOST_SHAPES:
                    return (-1, place.number, key, (-1, nonce, *data))
                number = self.new_shape(place, key)
            if plain.issuperset(kinds):
                place.plain[kinds] = number
            return (number, nonce, *data)

        def look(place: Place, nonce: int, values: tuple[Any, ...]) -> tuple[Any, ...]:
            classes = tuple(map(type, values))
            kinds = tuple(map(id, classes))
            number = place.plain.get(kinds)
            if number is None:
                return look_at_new(place, kinds, nonce, values)
            place.usual = (classes, number)
            return (number, nonce, *values)

        return look

    def hooks(self) -> Hooks:
        """What is to be called at an entry and at an exit of a function that is traced, and what takes the nonce of a frame that ends."""
        waiting: dict = {}
        next_nonce = count(1).__next__
        look = self.looker_at()
        every = self.settings["every"]
        pending = self.spool.pending
        append = pending.append
        most = self.spool.batch
        flush = self.spool.flush

        def enter(function: Function, frame: FrameType) -> None:
            if every > 1:
                function.due -= 1
                if function.due:
                    return
                function.due = every
            try:
                values = function.read(frame.f_locals)
            except KeyError:
                values = values_there(function, frame.f_locals)
            if function.more:
                values += function.more
            nonce = next_nonce()
            classes, number = function.entry.usual
            for value, kind in zip(values, classes):
                if type(value) is not kind:
                    append(look(function.entry, nonce, values))
                    break
            else:
                append((number, nonce) + values)
            waiting[frame] = nonce
            if len(pending) > most:
                flush()

        def leave(function: Function, frame: FrameType, nonce: int, offset: int, value: object) -> None:
            place: Any = function.exits.get(offset)
            if place is None:
                place = self.exit_of(function, frame, offset, value)
            if not place:
                return
            try:
                values = function.read(frame.f_locals) + function.more + (value,)
            except KeyError:
                values = values_there(function, frame.f_locals) + function.more + (value,)
            classes, number = place.usual
            for value, kind in zip(values, classes):
                if type(value) is not kind:
                    append(look(place, nonce, values))
                    break
            else:
                append((number, nonce) + values)

        return enter, leave, waiting.pop

    def exit_of(self, function: Function, frame: FrameType, offset: int, value: object) -> Place | bool:
        """The exit of the function at this place in its code, which is met for the first time; False where an exception leaves, which
        `sys.setprofile` tells as a return of None, too."""
        is_return = value is not None or self.monitor is not None or function.code.co_code[offset] == RETURN_VALUE
        lines = lines_before(function.code, offset, frame) if is_return else []
        place = function.exits[offset] = is_return and self.place(function.code, function.module, lines)
        return place

    # ------------------------------------------------------------ events

    def profile_hook(self) -> Hook:
        """The hook for `sys.setprofile`."""
        enter, leave, take = self.hooks()
        find = self.functions.get
        discover = self.discover
        failed = self.failed

        def on_event(frame: FrameType, event: str, argument: object) -> None:
            try:
                if event == "call":
                    function = find(id(frame.f_code), UNKNOWN)
                    if function is None:
                        return
                    if function is UNKNOWN:
                        function = discover(frame)
                        if function is None:
                            return
                    enter(function, frame)
                elif event == "return":
                    nonce = take(frame, None)
                    if nonce is None:
                        return
                    leave(find(id(frame.f_code)), frame, nonce, frame.f_lasti, argument)
            except BaseException as problem:
                failed(problem)

        return begun_without_signals(on_event)

    def start(self) -> None:
        """Begins to trace."""
        atexit.register(self.finish)
        for number in ENDING_SIGNALS:
            if _signal.getsignal(number) == _signal.SIG_DFL:
                _signal.signal(number, self.handler)
        os.register_at_fork(after_in_child=self.leave_child)
        if hasattr(sys, "monitoring"):
            self.start_monitoring()
        else:
            import threading

            self.threading = threading
            self.on_event = self.profile_hook()
            self.hook = partial(self.on_event)
            threading.setprofile(self.hook)
            sys.setprofile(self.hook)

    def start_monitoring(self) -> None:
        """Begins to trace with `sys.monitoring`."""
        monitoring = sys.monitoring  # type: ignore[attr-defined]
        tool = next(number for number in (4, 3, 2, 1, 0) if monitoring.get_tool(number) is None)
        enter, leave, take = self.hooks()
        find = self.functions.get
        discover = self.discover
        failed = self.failed
        disable = monitoring.DISABLE
        frame_of = sys._getframe

        def on_start(code: CodeType, offset: int) -> Any:
            try:
                frame = frame_of(1)
                function = find(id(code), UNKNOWN)
                if function is UNKNOWN:
                    function = discover(frame)
                if function is None:
                    return disable
                enter(function, frame)
            except BaseException as problem:
                failed(problem)

        def on_return(code: CodeType, offset: int, value: object) -> Any:
            try:
                frame = frame_of(1)
                nonce = take(frame, None)
                if nonce is not None:
                    leave(find(id(code)), frame, nonce, offset, value)
                elif find(id(code)) is None:
                    return disable
            except BaseException as problem:
                failed(problem)

        def on_unwind(code: CodeType, offset: int, exception: BaseException) -> None:
            try:
                take(frame_of(1), None)
            except BaseException as problem:
                failed(problem)

        events = monitoring.events
        monitoring.use_tool_id(tool, "dk_python")
        for event, callback in ((events.PY_START, on_start), (events.PY_RETURN, on_return), (events.PY_UNWIND, on_unwind)):
            monitoring.register_callback(tool, event, begun_without_signals(callback))
        self.monitor = tool
        self.set_monitoring(True)

    def set_monitoring(self, is_on: bool) -> None:
        """Has events told, or no longer."""
        monitoring = sys.monitoring  # type: ignore[attr-defined]
        events = monitoring.events
        monitoring.set_events(self.monitor, events.PY_START | events.PY_RETURN | events.PY_UNWIND if is_on else 0)

    def failed(self, problem: BaseException) -> None:
        """An exception came up while something was recorded: in the handler of a signal, which the program is to see, or here."""
        trace: Any = problem.__traceback__
        while trace.tb_next is not None:
            trace = trace.tb_next
        if not trace.tb_frame.f_code.co_filename.startswith(OUR_FOLDER):
            self.may_end_early = isinstance(problem, (SystemExit, KeyboardInterrupt))
            raise problem
        if isinstance(problem, KeyboardInterrupt):
            self.is_interrupted = True
            self.pause(True)
            _thread.start_new_thread(self.interrupt_again, (_thread.get_ident(), sys.getswitchinterval()))
            sys.setswitchinterval(0.000001)
        elif isinstance(problem, RecursionError):
            # 3.9 counts on this exception to reach a frame that is less deep, and ends the process where it doesn't
            if sys.version_info < (3, 10):
                raise problem
        else:
            self.failures[type(problem).__name__ + ": " + str(problem)] = True
            if isinstance(problem, (OSError, MemoryError)):
                self.stop()

    # ------------------------------------------------------------ ends

    def leave_child(self) -> None:
        """Leaves the child of a fork as it would be without us."""
        self.stop()
        for number in ENDING_SIGNALS:
            if _signal.getsignal(number) is self.handler:
                _signal.signal(number, _signal.SIG_DFL)

    def stop(self) -> None:
        """Ends tracing."""
        self.spool.is_sealed = True
        if self.monitor is not None:
            self.set_monitoring(False)
        else:
            sys.setprofile(None)
            self.threading.setprofile(None)

    def pause(self, is_paused: bool) -> None:
        """Has events ignored, or recorded again."""
        if self.monitor is not None:
            self.set_monitoring(not (is_paused or self.spool.is_sealed))
        else:
            self.hook.__setstate__((IGNORE_EVENT if is_paused else self.on_event, (), {}, {}))

    def interrupt_again(self, thread: int, interval: float) -> None:
        """Sends an interrupt that came in the thread while something was recorded once more, when that is over, and goes on recording.

        Most of a traced program's time is spent in recording, where the interrupt would come again and again. So nothing is recorded
        until the program has noticed it, and threads take turns quickly meanwhile.
        """
        while self.is_recording(thread) and not self.is_done:
            time.sleep(0)
        sys.setswitchinterval(interval)
        if self.is_done:
            # it is told after the trace
            return
        self.is_interrupted = False
        os.kill(os.getpid(), _signal.SIGINT)
        time.sleep(0.001)
        self.pause(False)

    def is_recording(self, thread: int) -> bool:
        """Whether the thread is in code of ours."""
        frame = sys._current_frames().get(thread)
        return frame is not None and frame.f_code.co_filename.startswith(OUR_FOLDER)

    def on_interrupt(self, number: int, frame: FrameType | None) -> None:
        """An interrupt that comes while the trace is written."""
        self.is_interrupted = True

    def on_signal(self, number: int, frame: FrameType | None) -> None:
        """A signal that ends the program: it does so when the trace is written."""
        if self.is_done and os.getpid() == self.process:
            return
        self.finish()
        _signal.signal(number, _signal.SIG_DFL)
        os.kill(os.getpid(), number)

    def finish(self) -> None:
        """Writes the trace, by a process of its own."""
        if self.is_done or os.getpid() != self.process:
            return
        self.is_done = True
        if _signal.getsignal(_signal.SIGINT) is _signal.default_int_handler:
            _signal.signal(_signal.SIGINT, self.on_interrupt)
        is_lost = self.hook is not None and not self.spool.is_sealed and sys.getprofile() is not self.hook
        if is_lost and not self.may_end_early and getattr(sys, "last_type", None) is not KeyboardInterrupt:
            self.failures["tracing ended early: at the recursion limit, in a signal's handler that raised, or by sys.setprofile"] = True
        self.stop()
        signals = [_signal.SIGINT, _signal.SIGTERM, _signal.SIGHUP]
        before = _signal.pthread_sigmask(_signal.SIG_BLOCK, signals)
        try:
            self.write_trace(signals)
            if self.settings["report"]:
                take_interrupt()
        except OSError as problem:
            os.write(2, ("dk_python: the trace could not be written: %s\n" % problem).encode())
        finally:
            _signal.pthread_sigmask(_signal.SIG_SETMASK, before)
        if self.is_interrupted:
            _signal.signal(_signal.SIGINT, _signal.SIG_DFL)
            os.kill(os.getpid(), _signal.SIGINT)

    def write_trace(self, signals: list) -> None:
        """Lets the writer make the trace of the records and the tables."""
        end = self.spool.seal()
        tables = [self.places, self.shapes, self.looker.descriptions, self.looker.classes, sorted(self.failures)]
        self.spool.write(end, tables)
        for descriptor in (self.settings["spool"], self.settings["out"]):
            os.set_inheritable(descriptor, True)
        if self.settings["report"]:
            flush_standard_output()
        settings = marshal.dumps({**self.settings, "end": end}).hex()
        command = [self.settings["python"], "-I", os.path.join(HERE, "writing.py"), settings]
        child = os.posix_spawn(command[0], command, os.environ, setsigmask=signals)
        try:
            _, status = os.waitpid(child, 0)
        except ChildProcessError:
            # the program has its children waited for by others
            return
        if status:
            raise OSError("its writer ended with status %d" % (status >> 8 or status))


def source_reader() -> Type[Source]:
    """What reads the names of functions from their files."""
    from source import Source

    return Source


def lines_before(code: CodeType, offset: int, frame: FrameType) -> list:
    """The lines of a return and of the instructions before it, the last one first. From Python 3.10 on, a return that leaves a `with` or a
    `finally` has the line of that."""
    if not hasattr(code, "co_lines"):
        return [frame.f_lineno]
    return [line for start, _, line in code.co_lines() if start <= offset][:-MOST_LINES:-1]


def is_below(path: str, folder: str) -> bool:
    """Whether the path is that of the folder or of something in it."""
    return path == folder or path.startswith(folder.rstrip(os.sep) + os.sep)


def matchers(globs: list) -> list:
    """What matches names with each of the globs. Only who gives globs has the modules for this loaded into the program."""
    if not globs:
        return []
    import fnmatch
    import re

    return [re.compile(fnmatch.translate(glob)).match for glob in globs]


def take_interrupt() -> None:
    """Takes an interrupt that ended the report: the program had ended before it."""
    if _signal.SIGINT in _signal.sigpending():
        _signal.sigwait([_signal.SIGINT])


def flush_standard_output() -> None:
    """Writes what the program has printed, before the report."""
    if type(sys.stdout) is member("io", "TextIOWrapper"):
        sys.stdout.flush()
