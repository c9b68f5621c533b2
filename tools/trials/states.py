"""Kinds of trials with states."""

from __future__ import annotations

from typing import Iterator, List, Optional, Tuple

from trials.bench import STATE, Bench, Outcome
from trials.laws import broken_form, differing
from trials.texts import INPUTS_OF_A_SEED, files_read, mutated, planned, trace_of
from trials.trial import Trial, script

from changes import changed_state  # noqa: E402
from command import DONE, REFUSED  # noqa: E402
from dk_merge import declarations_in  # noqa: E402
from state_file import state_file  # noqa: E402
from traces import Case, Maker, history_of  # noqa: E402

merges = script("merges")


def state_trials(seed: int) -> Iterator[Trial]:
    """States with changes in them."""
    maker = planned(seed)
    text = state_file(history_of(trace_of(maker), maker.random.choice([1, 2, 2, 2])))
    for _ in range(INPUTS_OF_A_SEED):
        changed = mutated(maker, text) if maker.chance(0.1) else changed_state(maker.random, text)
        yield Trial("state", "daikon", Case({"s": changed, "base": text}, [["--resume", "s", "--save", "--min-samples", "1"]]))


def judge_state(bench: Bench, trial: Trial) -> Optional[str]:
    """A state is resumed alone and merged alone: both take it or refuse it, and who takes it writes it again as it is."""
    bench.put(trial.case.files)
    alone = bench.run("daikon", trial.arguments)
    merge_arguments = ["--min-samples", "1", "s"]
    bench.put(trial.case.files)
    merged = bench.run("dk_merge", merge_arguments)
    bench.tried["daikon", trial.kind] += 1
    bench.tried["dk_merge", trial.kind] += 1
    for program, arguments, outcome in (("daikon", trial.arguments, alone), ("dk_merge", merge_arguments, merged)):
        broken = broken_form(program, arguments, trial.case.files, outcome)
        if broken is not None:
            return "%s: %s" % (program, broken)
    if alone.status == DONE and alone.state != trial.case.files["s"]:
        return "saved again"
    part = differing(alone, merged)
    return "resumed and merged alone: " + part if part is not None else None


def joined_trials(seed: int) -> Iterator[Trial]:
    """States with changes in them, for dk_merge."""
    maker = planned(seed)
    text = state_file(history_of(trace_of(maker)))
    for _ in range(INPUTS_OF_A_SEED):
        names = ["s%d" % k for k in range(maker.random.choice([1, 2, 3]))]
        files = {name: changed_state(maker.random, text) for name in names}
        yield Trial("joined", "dk_merge", Case({**files, "base": text}, [["--min-samples", "1", "base"] + names]))


def judge_joined(bench: Bench, trial: Trial) -> Optional[str]:
    """Changed states after a right one: what is merged is a state that is taken again."""
    bench.put(trial.case.files)
    outcome = bench.run("dk_merge", trial.arguments)
    names = [name for name in trial.arguments if name in trial.case.files]
    bench.tried["dk_merge", trial.kind] += files_read(outcome, names) - 1
    broken = broken_form("dk_merge", trial.arguments, trial.case.files, outcome)
    if broken is not None or outcome.status != DONE:
        return broken
    again = bench.run("daikon", ["--resume", STATE, "--save", "--min-samples", "1"])
    part = differing(outcome, again)
    return "resumed what was merged: " + part if part is not None else None


def merge_trials(seed: int) -> Iterator[Trial]:
    """States of parts of a trace."""
    maker = Maker(seed)
    texts = merges.parts_of(seed)
    for _ in range(3):
        parts = [maker.mutated(text) if maker.chance(0.4) else text for text in texts[1:]]
        order = maker.random.sample(["s1", "s2", "s3"], 3)
        yield Trial("merge", "dk_merge", Case(dict(zip(["d", "p1", "p2", "p3"], texts[:1] + parts)), [order]))


def judge_merge(bench: Bench, trial: Trial) -> Optional[str]:
    """The states of parts, merged in an order and in each group, are that of one run over all parts."""
    bench.put(trial.case.files)
    arguments = ["--min-samples", "1", "--ignore-missing-entry", "--save", "d"]
    parts = [bench.run("daikon", arguments + [name]) for name in ("p1", "p2", "p3")]
    whole = bench.run("daikon", arguments + ["p1", "p2", "p3"])
    bench.tried["daikon", trial.kind] += 4
    if any(outcome.status != DONE for outcome in parts + [whole]):
        return None
    states = {"s1": parts[0].state, "s2": parts[1].state, "s3": parts[2].state}
    are_alike = len({tuple(declarations_in(state or b"")) for state in states.values()}) == 1
    bench.put({name: state for name, state in states.items() if state is not None})
    for steps in merges.groupings(trial.arguments):
        outcome = merged_in_steps(bench, steps)
        bench.tried["dk_merge", trial.kind] += 3
        if not are_alike and (outcome.status != REFUSED or b": 19 DifferentState" not in outcome.messages):
            return "merged in spite of other declarations"
        part = differing(outcome, whole) if are_alike else None
        if part is not None:
            return "merged and read in one run: " + part
    return None


def merged_in_steps(bench: Bench, steps: List[Tuple[List[str], Optional[str]]]) -> Outcome:
    """What the last step comes to, or the first that isn't done."""
    for arguments, name in steps:
        outcome = bench.run("dk_merge", ["--min-samples", "1"] + arguments)
        if outcome.status != DONE:
            break
        if name is not None and outcome.state is not None:
            with open(name, "wb") as file:
                file.write(outcome.state)
    return outcome
