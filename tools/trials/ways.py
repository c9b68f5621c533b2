"""Kinds of trials in which one input is read in several ways: in pieces, its front alone, in several runs, by another implementation."""

from __future__ import annotations

import random
from dataclasses import replace
from typing import Iterator, Optional, Tuple

from trials.bench import Bench, How
from trials.laws import broken_form, differing
from trials.programs import PROGRAMS
from trials.reading import trace_arguments
from trials.texts import INPUTS_OF_A_SEED, mutated, planned, trace_of
from trials.trial import Trial, script

from changes import changed_state  # noqa: E402
from command import DONE, REFUSED  # noqa: E402
from random_tables import tables_and_arguments  # noqa: E402
from state_file import state_file  # noqa: E402
from traces import Case, Maker, cut_case, history_of  # noqa: E402

compare = script("compare")

# ---------------------------------------------------------------- pieces, fronts, cuts


def some_input(maker: Maker) -> Tuple[str, Case, str]:
    """A program, files and arguments, and the name of the file that may be piped."""
    draw = maker.random
    text = trace_of(maker)
    trace = mutated(maker, text) if maker.chance(0.6) else text
    program = draw.choice([
        "daikon", "daikon", "dk_split", "dk_check", "dk_merge", "dk_tell", "state", "assertions", "told", "states", "table"])
    if program == "state":
        state = changed_state(draw, state_file(history_of(text))) if maker.chance(0.6) else state_file(history_of(text))
        arguments = ["--resume", "s", "--save", "--ignore-missing-entry", "t"]
        return "daikon", Case({"t": trace, "s": state}, [arguments]), draw.choice(["s", "t"])
    if program == "states":
        state = state_file(history_of(text))
        return "dk_merge", Case({"s": changed_state(draw, state), "t": state}, [["--min-samples", "1", "t", "s"]]), draw.choice(["s", "t"])
    if program in ("assertions", "told"):
        lines = b"\n".join(b"P\nx >= %d\nx != y" % draw.randint(-3, 3) for _ in range(8))
        case = Case({"t": trace, "a": b"==\n" + lines}, [["--ignore-missing-entry", "a", "t"]])
        return "dk_check" if program == "assertions" else "dk_tell", case, "a"
    if program == "table":
        files, arguments = tables_and_arguments(draw)
        # the name of the first file would be the point's
        arguments = arguments if "--point" in arguments else ["--point", "P"] + arguments
        return "dk_table", Case(files, [arguments]), draw.choice(sorted(files))
    arguments = trace_arguments(maker, program, ["t"])
    return program, Case({"t": trace, "a": b"=\nP\nx >= 1\n"}, [arguments]), "t"


def piece_trials(seed: int) -> Iterator[Trial]:
    """An input that is read as a file, and through a pipe in pieces."""
    maker = planned(seed)
    for _ in range(INPUTS_OF_A_SEED // 2):
        program, case, name = some_input(maker)
        yield Trial("pieces", program, case, How(piped=name, piece=maker.random.choice([1, 7, 4096])))


def judge_pieces(bench: Bench, trial: Trial) -> Optional[str]:
    """What comes through a pipe, in pieces, is read as it is in a file."""
    bench.put(trial.case.files)
    by_file = bench.run(trial.program, trial.arguments)
    bench.put(trial.case.files)
    by_pipe = bench.run(trial.program, trial.arguments, trial.how)
    bench.tried[trial.program, trial.kind] += 1
    broken = broken_form(trial.program, trial.arguments, trial.case.files, by_file)
    if broken is not None:
        return broken
    name = trial.how.piped
    renamed = replace(by_file, messages=by_file.messages.replace(b"daikon: %s:" % name.encode(), b"daikon: /dev/stdin:"),
                      report=by_file.report.replace(b" at %s:" % name.encode(), b" at /dev/stdin:"))
    part = differing(renamed, by_pipe)
    return "by pipe and by file: " + part if part is not None else None


def front_trials(seed: int) -> Iterator[Trial]:
    """Traces, and what stands before their first fault."""
    maker = planned(seed)
    for _ in range(INPUTS_OF_A_SEED // 2):
        text = trace_of(maker)
        text = mutated(maker, text) if maker.chance(0.6) else text
        program = maker.random.choice(["daikon", "daikon", "dk_split", "dk_check", "dk_tell"])
        arguments = {"daikon": ["--every", "1", "--min-samples", "1"], "dk_check": ["a"], "dk_tell": ["a"]}.get(program, [])
        flags = ["--ignore-missing-entry"] if maker.chance(0.5) else []
        shape = "%f" % maker.random.random()
        yield Trial("fronts", program, Case({"t": text, "a": b""}, [flags + arguments + ["t"]]), How(shape=shape))


def front_of(text: bytes, place: float) -> bytes:
    """The lines up to a blank one, or none."""
    lines = text.split(b"\n")
    blank = [k for k, line in enumerate(lines[:-1]) if (line[:-1] if line.endswith(b"\r") else line).strip(b" \t") == b""]
    return b"".join(line + b"\n" for line in lines[:blank[int(place * len(blank))] + 1]) if blank else b""


def judge_fronts(bench: Bench, trial: Trial) -> Optional[str]:
    """A fault in the blocks in front is the fault of the whole, and interim reports don't know what comes."""
    files, arguments = trial.case.files, trial.arguments
    bench.put(files)
    whole = bench.run(trial.program, arguments)
    front_files = {**files, "t": front_of(files["t"], float(trial.how.shape))}
    bench.put(front_files)
    front = bench.run(trial.program, arguments)
    bench.tried[trial.program, trial.kind] += 2
    broken = broken_form(trial.program, arguments, files, whole) or broken_form(trial.program, arguments, front_files, front)
    if broken is not None:
        return broken
    if front.status == REFUSED:
        part = differing(front, whole)
        return "a fault in front: " + part if part is not None else None
    by_the_way, _, last = front.report.rpartition(b"--- end after ")
    if not whole.report.startswith(by_the_way):
        return "interim reports"
    if by_the_way and not by_the_way.endswith(last.partition(b"\n")[2]):
        return "the last report"
    return None


def cut_trials(seed: int) -> Iterator[Trial]:
    """Files that are read in one run, and in several."""
    maker = Maker(seed)
    case = cut_case(seed)
    yield Trial("cut", "daikon", case)
    for _ in range(5):
        files = {name: maker.mutated(text) if maker.chance(0.5) else text for name, text in case.files.items()}
        yield Trial("cut", "daikon", replace(case, files=files))


def judge_cut(bench: Bench, trial: Trial) -> Optional[str]:
    """Files that are read in several runs, each of which resumes the state of the one before, come to what one run comes to."""
    bench.put(trial.case.files)
    whole = bench.run("daikon", trial.arguments)
    bench.tried["daikon", trial.kind] += 2 * len(trial.case.files)
    broken = broken_form("daikon", trial.arguments, trial.case.files, whole)
    if broken is not None:
        return broken
    last = whole
    for arguments in trial.case.runs[1:]:
        last = bench.run("daikon", arguments)
        if last.status != DONE:
            break
    part = differing(replace(last, state=None), replace(whole, state=None)) if whole.status != DONE else differing(last, whole)
    return "cut run: " + part if part is not None else None


# ---------------------------------------------------------------- the other implementation

def compared_trials(seed: int) -> Iterator[Trial]:
    """Cases on which the other implementation answers, too."""
    draw = random.Random(seed)
    program = draw.choice(["daikon", "daikon", "daikon", "dk_split", "dk_check", "dk_merge", "dk_table", "dk_tell"])
    kind = draw.choice(PROGRAMS[program].cases)
    case = compare.traces.KINDS[kind](seed, True, 2)
    runs = case.runs if case.is_cut else draw.sample(case.runs, min(len(case.runs), 4))
    yield Trial("compared", program, replace(case, runs=runs), How(shape=kind))


def judge_compared(bench: Bench, trial: Trial) -> Optional[str]:
    """Another implementation of the rules comes to the same."""
    case = trial.case
    arguments = compare.argparse.Namespace(command=bench.paths[trial.program], arguments=[], stage=None, cases=trial.how.shape,
                                           without_state=False)
    difference, _ = compare.Comparison(arguments).different(case)
    bench.tried[trial.program, trial.kind] += len(case.runs)
    return "compared: run %d, %s" % (difference[0], ", ".join(difference[1])) if difference is not None else None
