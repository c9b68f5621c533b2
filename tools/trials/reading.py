"""Kinds of trials with traces and with arguments."""

from __future__ import annotations

import re
from typing import Dict, Iterator, List, Optional

from trials.bench import STATE, Bench
from trials.laws import HELP, broken_form, differing
from trials.programs import PROGRAMS
from trials.texts import INPUTS_OF_A_SEED, files_read, mutated_traces, planned, trace_of
from trials.trial import Trial

from command import USAGE_STATUS, Usage, arguments_of_command  # noqa: E402
from traces import Case, Maker, mixed, random_options  # noqa: E402

# ---------------------------------------------------------------- traces


def trace_arguments(maker: Maker, program: str, names: List[str]) -> List[str]:
    """Arguments of a program for these traces."""
    least = ["--min-samples", maker.random.choice(["1", "2"])]
    ignore = ["--ignore-missing-entry"] if maker.chance(0.8) else []
    if program == "daikon":
        arguments: List[str] = mixed(maker, random_options(maker) + (["--save"] if maker.chance(0.3) else []), names)
        return arguments
    if program == "dk_split":
        return least + ignore + names
    if program in ("dk_check", "dk_tell"):
        return ignore + ["a"] + names
    return least + ["--turns", maker.random.choice(["1", "2", "5"])] + names


def trace_trials(seed: int) -> Iterator[Trial]:
    """Traces with changes in them."""
    maker = planned(seed)
    text = trace_of(maker)
    for _ in range(INPUTS_OF_A_SEED):
        files = mutated_traces(maker, text)
        program = maker.random.choice(["daikon", "daikon", "daikon", "dk_split", "dk_check", "dk_merge", "dk_tell"])
        arguments = trace_arguments(maker, program, sorted(files))
        yield Trial("trace", program, Case({**files, "a": b"=\nP\nx >= 1\nx != y\nx == 1\n"}, [arguments]))


def judge_trace(bench: Bench, trial: Trial) -> Optional[str]:
    """The form of the outcome; and a state that was saved is resumed and saved again as it is, with the same report."""
    bench.put(trial.case.files)
    outcome = bench.run(trial.program, trial.arguments)
    bench.tried[trial.program, trial.kind] += files_read(outcome, [name for name in trial.arguments if name in trial.case.files])
    broken = broken_form(trial.program, trial.arguments, trial.case.files, outcome)
    if broken is not None or outcome.state is None or trial.program != "daikon" or "--every" in trial.arguments:
        return broken
    # a point may have a file's name
    arguments = [word for before, word in zip(["", *trial.arguments], trial.arguments)
                 if word not in trial.case.files or before == "--select"]
    again = bench.run("daikon", ["--resume", STATE] + arguments)
    part = differing(outcome, again)
    return "resumed alone: " + part if part is not None else None


def alike_trials(seed: int) -> Iterator[Trial]:
    """Traces with changes in them, for several programs."""
    maker = planned(seed)
    text = trace_of(maker)
    for _ in range(INPUTS_OF_A_SEED):
        files = mutated_traces(maker, text)
        arguments = ["--ignore-missing-entry"] if maker.chance(0.8) else []
        yield Trial("alike", "daikon", Case({**files, "a": b""}, [arguments + sorted(files)]))


def judge_alike(bench: Bench, trial: Trial) -> Optional[str]:
    """Four programs refuse the same files with the same message."""
    bench.put(trial.case.files)
    arguments = trial.arguments
    flags = arguments[:1] if arguments[:1] == ["--ignore-missing-entry"] else []
    outcomes = []
    fronts: Dict[str, List[str]] = {"daikon": [], "dk_split": [], "dk_check": ["a"], "dk_tell": ["a"]}
    for program, front in fronts.items():
        all_arguments = flags + front + arguments[len(flags):]
        outcome = bench.run(program, all_arguments)
        bench.tried[program, trial.kind] += files_read(outcome, arguments[len(flags):])
        broken = broken_form(program, all_arguments, trial.case.files, outcome)
        if broken is not None:
            return "%s: %s" % (program, broken)
        outcomes.append((outcome.status, outcome.messages))
    return None if len(set(outcomes)) == 1 else "statuses or messages of four programs"


# ---------------------------------------------------------------- arguments

ODD_WORDS = ["", "-", "--", "-x", "--x", "e", "nowhere", ".", "--stats=", "--save=1", "--min", "--min-samples=", "--resume=", "--select=",
             "=", "--help=1", "-hx", "--colour", "--stats --save", "\udcff", "e\udc80", "--select=\udcff", "\u00e9", "--turns", "\n", "e\n",
             "---"]
ODD_VALUES = ["0", "1", "5", "+5", "005", "1000000000", "1000000001", "18446744073709551615", "18446744073709551616", "-1", "x", "", "1.0",
              " 1", "1 ", "٣", "++1", "+", "-", "1e3", "0x1"]


def some_word(maker: Maker, program: str) -> List[str]:
    """Some argument, or an option with its value."""
    draw = maker.random
    spec = PROGRAMS[program]
    shape = draw.randrange(8)
    if shape < 3 and spec.flags:
        return [draw.choice(spec.flags)]
    if shape < 6 and spec.with_value:
        name, value = draw.choice(spec.with_value), draw.choice(ODD_VALUES)
        # (the generated input takes a while)
        value = "x" if name == "--generate" and maker.chance(0.95) else value
        return [name, value] if maker.chance(0.5) else [name + "=" + value]
    return [draw.choice(["e", "e", draw.choice(ODD_WORDS), draw.choice(sorted(HELP)), draw.choice(spec.flags + spec.with_value or ("e",))])]


def argument_trials(seed: int) -> Iterator[Trial]:
    """Random arguments."""
    maker = Maker(seed)
    for _ in range(2 * INPUTS_OF_A_SEED):
        program = maker.random.choice(sorted(PROGRAMS))
        arguments = [word for _ in range(maker.random.randint(0, 6)) for word in some_word(maker, program)]
        yield Trial("words", program, Case({"e": b""}, [arguments]))


def are_refused(program: str, arguments: List[str]) -> bool:
    """What the other implementation says of the arguments; those that ask for help aside."""
    spec = PROGRAMS[program]
    reader = getattr(spec.reference, "options_of", None)
    try:
        if reader is not None:
            reader(arguments)
            return False
        found = arguments_of_command(arguments, spec.flags, spec.with_value)
        numbers = [found.values[name] for name in ("--min-samples", "--turns") if name in found.values]
        return not found.files and program != "dk_split" or any(not is_number(number) for number in numbers)
    except Usage:
        return True


def is_number(text: str) -> bool:
    """Whether the text is a number that options take."""
    return re.fullmatch(r"\+?[0-9]+", text, re.ASCII) is not None and 1 <= int(text) <= 1_000_000_000


def judge_arguments(bench: Bench, trial: Trial) -> Optional[str]:
    """Arguments are refused where the other implementation refuses them."""
    bench.put(trial.case.files)
    outcome = bench.run(trial.program, trial.arguments)
    bench.tried[trial.program, trial.kind] += 1
    broken = broken_form(trial.program, trial.arguments, trial.case.files, outcome)
    if broken is not None or any(word in HELP or word.startswith(("-h", "-V", "--help", "--version")) for word in trial.arguments):
        return broken
    is_refused = outcome.status == USAGE_STATUS
    return None if is_refused == are_refused(trial.program, trial.arguments) else "arguments refused"
