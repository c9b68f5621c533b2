"""A kind of trials with reports that are told in another language."""

from __future__ import annotations

import json
import random
from typing import Iterator, Optional

from trials.assertions import KEEPS, changed_lines, report_of
from trials.bench import Bench, How
from trials.laws import broken_form
from trials.texts import INPUTS_OF_A_SEED, mutated, planned, trace_of
from trials.trial import Trial, script

import dk_tell  # noqa: E402
from command import DONE  # noqa: E402
from traces import Case  # noqa: E402

compare = script("compare")
FORMATS = ("json", "python", "c", "smtlib")


def telling_trials(seed: int) -> Iterator[Trial]:
    """Reports with changes in them, told in some format."""
    maker = planned(seed)
    text = trace_of(maker)
    keeps = [word for word in KEEPS if maker.chance(0.3)]
    for k in range(INPUTS_OF_A_SEED // 2):
        shape = "%d" % maker.random.randrange(1 << 30) if k else "as it is"
        trace = mutated(maker, text) if maker.chance(0.2) else text
        yield Trial("tellings", "dk_tell", Case({"t": trace, "whole": text}, [keeps + [maker.random.choice(FORMATS)]]), How(shape=shape))


def judge_tellings(bench: Bench, trial: Trial) -> Optional[str]:
    """What is told of a report, and of one with changes, is what the other implementation tells, and JSON is read as its values."""
    files = trial.case.files
    *keeps, form = trial.arguments
    if "a" not in files:
        bench.put({"t": files["whole"]})
        report = report_of(bench, keeps)
        changed = report if trial.how.shape == "as it is" else changed_lines(random.Random(int(trial.how.shape)), report)
        files = {"t": files["t"], "a": changed}
    bench.put(files)
    arguments = ["--format", form, "--ignore-missing-entry", "a", "t"]
    outcome = bench.run("dk_tell", arguments)
    bench.tried["dk_tell", trial.kind] += 1
    broken = broken_form("dk_tell", arguments, files, outcome)
    if broken is not None:
        return broken
    sinks = compare.FolderSinks(bench.folder)
    status = dk_tell.status_of(arguments, sinks, bench.folder)
    if (status, sinks.texts["messages"]) != (outcome.status, outcome.messages):
        return "%s: status or message" % form
    if form == "json" and status == DONE:
        return None if values_of(outcome.report) == values_of(sinks.texts["report"]) else "values of JSON"
    return None if outcome.report == sinks.texts["report"] else "%s: what is told" % form


def values_of(text: bytes) -> list:
    """The values of lines of JSON, with the order of keys."""
    return [json.loads(line, object_pairs_hook=list) for line in text.split(b"\n")[:-1]]
