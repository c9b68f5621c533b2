"""Kinds of trials in which reads and writes fail, and memory or stack ends."""

from __future__ import annotations

import os
import random
import resource
import shutil
import signal
import subprocess
from dataclasses import replace
from typing import Dict, Iterator, List, Optional, Tuple

from trials.bench import STATE, Bench, How, Outcome
from trials.laws import NO_MEMORY, broken_form, differing, says_front_of_fault
from trials.texts import mutated, planned, trace_of
from trials.trial import Trial
from trials.ways import some_input

from command import READ, REFUSED, WRITE  # noqa: E402
from state_file import state_file  # noqa: E402
from traces import Case, Maker, history_of, plain_point  # noqa: E402

# ---------------------------------------------------------------- faults of reading

# what stands in the place of a file; the memory of a process begins with bytes that can't be read
PLACES = ["missing", "folder", "unreadable", "memory"]
MEMORY = "/proc/self/mem"


def read_fault_trials(seed: int) -> Iterator[Trial]:
    """Each file of a run in turn can't be read."""
    maker = planned(seed)
    text = trace_of(maker)
    names = ["t0", "t1", "t2"]
    traces = {name: mutated(maker, text) if maker.chance(0.3) else text for name in names}
    flags = ["--ignore-missing-entry"] if maker.chance(0.7) else []
    state = state_file(history_of(text))
    states = {name: state for name in names}
    runs: List[Tuple[str, Dict[str, bytes], List[str]]] = [
        ("daikon", traces, flags + ["--every", "2"]), ("dk_split", traces, flags),
        ("dk_check", {**traces, "a": b"=\nP\nx >= 1\n"}, flags + ["a"]),
        ("dk_tell", {**traces, "a": b"=\nP\nx >= 1\n"}, flags + ["a"]), ("dk_table", {name: b"x,y\n1,2\n" for name in names}, []),
        ("daikon", {**traces, "s": state}, flags + ["--save", "--resume", "s"]), ("dk_merge", states, []),
        ("dk_merge", traces, ["--turns", "2"])]
    for program, files, arguments in runs:
        for faulty in [name for name in arguments + names if name in files]:
            yield Trial("read faults", program, Case(files, [arguments + names]), How(piped=faulty, shape=maker.random.choice(PLACES)))


def judge_read_faults(bench: Bench, trial: Trial) -> Optional[str]:
    """What stands before the file that can't be read is judged first; then the message names it."""
    files, arguments, faulty, shape = trial.case.files, trial.arguments, trial.how.piped, trial.how.shape
    if shape == "unreadable" and not bench.starts(trial.program, How(as_nobody=True)):
        return None
    bench.put(files)
    front = arguments[:arguments.index(faulty)]
    before = bench.run(trial.program, front) if any(name in files for name in front) and "--turns" not in arguments else None
    bench.put({name: text for name, text in files.items() if name != faulty or shape == "unreadable"})
    if shape == "folder":
        os.mkdir(faulty)
    elif shape == "unreadable":
        os.chmod(faulty, 0)
        bench.there.pop(faulty)
    named = MEMORY if shape == "memory" else faulty
    arguments = [named if word == faulty else word for word in arguments]
    outcome = bench.run(trial.program, arguments, How(as_nobody=shape == "unreadable"))
    bench.tried[trial.program, trial.kind] += 1
    if before is not None and before.status == REFUSED:
        part = differing(before, outcome)
        return "%s, refused in front: %s" % (shape, part) if part is not None else None
    if outcome.status != READ or outcome.messages != b"daikon: cannot read %s\n" % named.encode():
        return shape + ": not said that it can't be read"
    broken = broken_form(trial.program, arguments, files, outcome)
    return "%s: %s" % (shape, broken) if broken is not None else None


# ---------------------------------------------------------------- faults of writing

SINKS = ["full", "messages full", "reader gone", "reader goes", "limit", "limit ends", "state is a folder", "folder read-only"]
OLD = b"daikon-state 2\ncomparability implicit\npoints 0\nend-state\n"


def write_fault_trials(seed: int) -> Iterator[Trial]:
    """Runs whose report, messages or state can't be written."""
    maker = planned(seed)
    text = trace_of(maker)
    for shape in SINKS * 2:
        program, case, _ = some_input(maker)
        if program == "daikon" and "--save" not in case.runs[0] and maker.chance(0.7):
            case = Case({"t": text}, [["--save", "--min-samples", "1", "--ignore-missing-entry", "t"]])
        if maker.chance(0.5) and shape != "state is a folder":
            case = replace(case, files={**case.files, STATE: OLD})
        yield Trial("write faults", program, case, how_of(shape, maker))


def how_of(shape: str, maker: Maker) -> How:
    """How a run is started that has this fault."""
    sizes = ((resource.RLIMIT_FSIZE, maker.random.choice([0, 1, 50, 200, 400, 1000, 3000, 10000])),)
    return {"full": How(report_to="/dev/full"), "messages full": How(messages_to="/dev/full"), "reader gone": How(reader_takes=0),
            "reader goes": How(reader_takes=maker.random.choice([1, 100, 4096])), "limit": How(limits=sizes, ignores=True),
            "limit ends": How(limits=sizes), "state is a folder": How(), "folder read-only": How(as_nobody=True)}[shape].shaped(shape)


def judge_write_faults(bench: Bench, trial: Trial) -> Optional[str]:
    """A run whose writes fail ends with the status of a failed write. Its report is a front of the whole one, and the state that was
    there stands whole."""
    files, how = trial.case.files, trial.how
    if how.as_nobody and not bench.starts(trial.program, how):
        return None
    whole = bench.whole(trial.program, trial.arguments, files)
    if how.shape == "state is a folder":
        os.mkdir(STATE)
    outcome = bench.run(trial.program, trial.arguments, how)
    was_killed = outcome.status is not None and outcome.status < 0
    left = [name for name in bench.names() if name not in files and name != STATE and not was_killed]
    bench.tried[trial.program, trial.kind] += 1
    broken = broken_fault(trial, whole, outcome)
    if broken is None and left:
        broken = "left behind: " + ", ".join(left)
    return "%s: %s" % (how.shape, broken) if broken is not None else None


def broken_fault(trial: Trial, whole: Outcome, outcome: Outcome) -> Optional[str]:
    """What is wrong with a run whose writes fail."""
    old = trial.case.files.get(STATE)
    if not whole.report.startswith(outcome.report):
        return "report"
    if outcome.status == whole.status:
        return broken_luck(trial.how, whole, outcome)
    if outcome.status == -signal.SIGXFSZ and not trial.how.ignores and trial.how.limits:
        return None if outcome.state == old else "old state lost"
    if outcome.status != WRITE:
        return "status %s" % outcome.status
    if outcome.state != old:
        return "old state lost" if old is not None else "half a state"
    return None if whole.messages.startswith(outcome.messages) or says_front_of_fault(outcome.messages) else "message"


def broken_luck(how: How, whole: Outcome, outcome: Outcome) -> Optional[str]:
    """Where nothing that was written met a fault: the texts that can be seen are the whole ones."""
    hidden_report = how.report_to or how.reader_takes is not None
    if how.report_to and whole.report or how.messages_to and whole.messages or how.reader_takes == 0 and whole.report:
        return "a failed write wasn't seen"
    if not hidden_report and outcome.report != whole.report or not how.messages_to and outcome.messages != whole.messages:
        return "half a text"
    return None if outcome.state == whole.state else "state"


# ---------------------------------------------------------------- memory and stack

MEGABYTE = 1 << 20
STEPS = [2 * MEGABYTE * step for step in range(1, 33)]
STACKS = [128 << 10, 192 << 10, 256 << 10, 512 << 10, MEGABYTE, 8 * MEGABYTE]


def record(point: bytes, variables: List[Tuple[bytes, bytes]], texts: List[bytes]) -> bytes:
    """A sample."""
    return point + b"\n" + b"".join(b"%s\n%s\n1\n" % (name, text) for (name, _), text in zip(variables, texts)) + b"\n"


def records(point: bytes, variables: List[Tuple[bytes, bytes]], values: List[List[bytes]]) -> bytes:
    """Samples of these values."""
    return b"".join(record(point, variables, texts) for texts in values)


def numbers(maker: Maker) -> bytes:
    """Many variables, whose instances take memory."""
    variables = [(b"x%d" % k, b"int") for k in range(maker.random.choice([10, 20, 40]))]
    values = [[b"%d" % maker.random.randint(-9, 9) for _ in variables] for _ in range(maker.random.choice([2, 6, 12]))]
    return plain_point(b"P", variables) + records(b"P", variables, values)


def points(maker: Maker) -> bytes:
    """A chain of many points."""
    count = maker.random.choice([200, 1_000])
    edges = [b""] + [b"parent parent p%d 1\n" % k for k in range(count - 1)]
    return b"".join(b"ppt p%d\n" % k + edge + b"variable x\nrep-type int\n\n" for k, edge in enumerate(edges))


def long_text(maker: Maker) -> bytes:
    """Samples of long strings."""
    text = b'"' + b"a" * maker.random.choice([100_000, 1_000_000, 3_000_000]) + b'"'
    variables = [(b"s", b"String"), (b"u", b"String")]
    return plain_point(b"P", variables) + records(b"P", variables, [[text, b'"b"'], [text, text]])


def digits(maker: Maker, length: int) -> bytes:
    """So many digits with blanks between them."""
    return b" ".join(b"%d" % maker.random.randint(0, 9) for _ in range(length))


def sequences(maker: Maker) -> bytes:
    """Samples of long sequences."""
    variables = [(b"a%d[..]" % k, b"int[]") for k in range(6)] + [(b"i%d" % k, b"int") for k in range(4)]
    values = [[b"[" + digits(maker, maker.random.choice([0, 3, 2_000])) + b"]" for _ in range(6)] + [digits(maker, 1) for _ in range(4)]
              for _ in range(3)]
    return plain_point(b"P", variables) + records(b"P", variables, values)


LARGE = [numbers, numbers, points, long_text, sequences, trace_of]


def large_table(maker: Maker) -> bytes:
    """A table of many cells."""
    width = maker.random.choice([1, 10, 100])
    row = b",".join(b"%d" % maker.random.randint(0, 99) for _ in range(width)) + b"\n"
    return b",".join(b"x%d" % k for k in range(width)) + b"\n" + row * maker.random.choice([10, 1_000])


def large_inputs(maker: Maker) -> List[Tuple[str, Case]]:
    """One large input for each program."""
    text = maker.random.choice(LARGE)(maker)
    return [("daikon", Case({"t": text}, [["--min-samples", "1", "--save", "--ignore-missing-entry", "t"]])),
            ("dk_split", Case({"t": text}, [["--min-samples", "1", "--ignore-missing-entry", "t"]])),
            ("dk_check", Case({"t": text, "a": b"=\nP\nx1 >= 1\nx2 <= x3\n" * 30}, [["--ignore-missing-entry", "a", "t"]])),
            ("dk_tell", Case({"t": text, "a": b"=\nP\nx1 >= 1\nx2 <= x3\n" * 30}, [["--ignore-missing-entry", "a", "t"]])),
            ("dk_table", Case({"t": large_table(maker)}, [["t"]])),
            ("dk_merge", Case({"t": text}, [["--min-samples", "1", "--turns", "1", "t"]]))]


def memory_trials(seed: int) -> Iterator[Trial]:
    """Runs with little memory."""
    maker = planned(seed)
    for program, case in maker.random.sample(large_inputs(maker), 1):
        for limit in maker.random.sample(STEPS, 6) + [maker.random.randrange(256 << 10, 4 * MEGABYTE, 4096) for _ in range(6)]:
            kind = resource.RLIMIT_AS if limit in STEPS and maker.chance(0.5) else resource.RLIMIT_DATA
            yield Trial("memory", program, case, How(limits=((kind, limit),)))
    yield from state_memory_trials(maker)


def state_memory_trials(maker: Maker) -> Iterator[Trial]:
    """States of a run without limits, resumed and merged."""
    text = state_file(history_of(trace_of(maker)))
    for program, arguments in (("daikon", ["--resume", "s", "--save"]), ("dk_merge", ["s", "s"])):
        for _ in range(4):
            limit = maker.random.randrange(64 << 10, MEGABYTE, 4096)
            yield Trial("memory", program, Case({"s": text}, [arguments]), How(limits=((resource.RLIMIT_DATA, limit),)))


def judge_memory(bench: Bench, trial: Trial) -> Optional[str]:
    """Within a limit of memory a run comes to the same, or says that memory ended; then its report is a front of the whole one."""
    if not bench.starts(trial.program, trial.how):
        return None
    whole = bench.whole(trial.program, trial.arguments, trial.case.files)
    outcome = bench.run(trial.program, trial.arguments, trial.how)
    bench.tried[trial.program, trial.kind] += 1
    broken = broken_by_memory(trial, whole, outcome)
    return "within a limit of memory: " + broken if broken is not None else None


def broken_by_memory(trial: Trial, whole: Outcome, outcome: Outcome) -> Optional[str]:
    """Where memory ends while a state is put in its place, that is a failed write which says so."""
    is_said = outcome.status == WRITE and outcome.messages == b"daikon: cannot write the state: out of memory\n"
    if outcome.status != NO_MEMORY and not is_said:
        part = differing(whole, outcome)
        return "%s (status %s)" % (part, outcome.status) if part is not None else None
    if not whole.report.startswith(outcome.report):
        return "report"
    return broken_form(trial.program, trial.arguments, trial.case.files, outcome)


# ---------------------------------------------------------------- allocations

REFUSALS_OF_A_RUN = 60


def allocation_trials(seed: int) -> Iterator[Trial]:
    """Runs in which one request for memory after the other is refused."""
    maker = planned(seed)
    for _ in range(3):
        program, case, _ = some_input(maker)
        case = replace(case, files={**case.files, STATE: OLD})
        yield Trial("allocations", program, case, How(shape="later" if maker.chance(0.3) else ""))


def refusing(bench: Bench, path: str) -> Optional[str]:
    """A library that refuses allocations, where there is a compiler, and the program is one that loads libraries."""
    with open(path, "rb") as file:
        if b"/ld-linux" not in file.read(4096) or not shutil.which("cc"):
            return None
    if not os.path.exists(bench.library):
        source = os.path.join(os.path.dirname(os.path.abspath(__file__)), "refuse.c")
        subprocess.check_call(["cc", "-shared", "-fPIC", "-O1", "-o", bench.library, source])
    return bench.library


def judge_allocations(bench: Bench, trial: Trial) -> Optional[str]:
    """Each allocation of the run in turn is refused, or some of many: then it says that memory ended, or comes to the same."""
    library = refusing(bench, bench.paths[trial.program])
    if library is None:
        return None
    whole = bench.whole(trial.program, trial.arguments, trial.case.files)
    loaded = (("LD_PRELOAD", library),)
    bench.run(trial.program, trial.arguments, How(surroundings=loaded + (("REFUSE_COUNT", bench.count_path),)))
    with open(bench.count_path, encoding="ascii") as file:
        count = int(file.read())
    numbers = range(1, count + 1)
    for number in random.Random(count).sample(numbers, min(count, REFUSALS_OF_A_RUN)):
        surroundings = loaded + (("REFUSE_AT", str(number)),) + ((("REFUSE_LATER", "1"),) if trial.how.shape else ())
        bench.put(trial.case.files)
        outcome = bench.run(trial.program, trial.arguments, How(surroundings=surroundings))
        bench.tried[trial.program, trial.kind] += 1
        broken = broken_by_memory(trial, whole, outcome)
        if broken is not None:
            return "an allocation refused: " + broken
    return None


def stack_trials(seed: int) -> Iterator[Trial]:
    """Runs with a small stack."""
    maker = planned(seed)
    for program, case in maker.random.sample(large_inputs(maker), 1):
        for limit in STACKS:
            yield Trial("stack", program, case, How(limits=((resource.RLIMIT_STACK, limit),)))


def judge_stack(bench: Bench, trial: Trial) -> Optional[str]:
    """With a small stack a run comes to the same."""
    whole = bench.whole(trial.program, trial.arguments, trial.case.files)
    outcome = bench.run(trial.program, trial.arguments, trial.how)
    bench.tried[trial.program, trial.kind] += 1
    part = differing(whole, outcome)
    return "with a stack of %d KB: %s" % (trial.how.limits[0][1] >> 10, part) if part is not None else None
