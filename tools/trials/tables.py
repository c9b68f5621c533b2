"""A kind of trials with tables."""

from __future__ import annotations

import random
import re
from typing import Iterator, List, Optional, Tuple

from trials.bench import Bench, How
from trials.laws import broken_form
from trials.texts import INPUTS_OF_A_SEED
from trials.trial import Trial, script

import dk_table  # noqa: E402
from command import DONE, REFUSED  # noqa: E402
from random_tables import changed, tables_and_arguments  # noqa: E402
from traces import Case  # noqa: E402

compare = script("compare")
TRACE = "trace"


def table_trials(seed: int) -> Iterator[Trial]:
    """Tables, with changes in some."""
    draw = random.Random(seed)
    for _ in range(INPUTS_OF_A_SEED):
        files, arguments = tables_and_arguments(draw)
        if draw.random() < 0.3:
            name = draw.choice(sorted(files))
            files = {**files, name: changed(draw, files[name])}
        yield Trial("tables", "dk_table", Case(files, [arguments]), How(piece=draw.choice([1, 7, 4096])))


def expected(bench: Bench, arguments: List[str]) -> Tuple[int, bytes, bytes]:
    """What the other implementation says of the arguments over the files that are there."""
    sinks = compare.FolderSinks(bench.folder)
    status = dk_table.status_of(arguments, sinks, bench.folder)
    return status, sinks.texts["report"], sinks.texts["messages"]


def judge_tables(bench: Bench, trial: Trial) -> Optional[str]:
    """The trace is the other implementation's, and daikon reads of it, through a pipe, a sample for each row."""
    bench.put(trial.case.files)
    outcome = bench.run("dk_table", trial.arguments)
    bench.tried["dk_table", trial.kind] += 1
    broken = broken_form("dk_table", trial.arguments, trial.case.files, outcome)
    if broken is not None:
        return broken
    if (outcome.status, outcome.report, outcome.messages) != expected(bench, trial.arguments):
        return "another trace than the other implementation's"
    return judge_trace(bench, trial, outcome.report) if outcome.status == DONE else None


def judge_trace(bench: Bench, trial: Trial, trace: bytes) -> Optional[str]:
    """What daikon says of the trace: a point with as many samples as there are rows."""
    rows = trace.count(b"\n\n") - 2
    bench.put({TRACE: trace})
    read = bench.run("daikon", ["--min-samples", "1", "--stats", TRACE], How(piped=TRACE, piece=trial.how.piece))
    if read.status == REFUSED and read.messages.endswith(b" 16 TooManyVariables\n"):
        return None
    if read.status != DONE:
        return "a trace that daikon refuses"
    counts = re.findall(rb"(?m)^stats .*: samples ([0-9]+), leaders", read.report)
    return None if counts == ([b"%d" % rows] if rows > 0 else []) else "samples of a trace"
