"""Kinds of trials with assertion files."""

from __future__ import annotations

import random
import re
from typing import Iterator, List, Optional

from trials.bench import Bench, How
from trials.laws import VERDICT, broken_form
from trials.texts import INPUTS_OF_A_SEED, blocks_doubled, planned, random_bytes, trace_of, zero_byte
from trials.trial import Trial

from command import DONE  # noqa: E402
from dk_check import assertions_in  # noqa: E402
from sections import untrimmed  # noqa: E402
from traces import ASSERTION_CHANGES, Case  # noqa: E402


def report_of(bench: Bench, arguments: List[str]) -> bytes:
    """What daikon reports on the trace."""
    return bench.run("daikon", arguments + ["--min-samples", "1", "--ignore-missing-entry", "t"]).report


KEEPS = ["--keep-implied", "--keep-incomparable", "--keep-members", "--keep-constant", "--keep-parent"]


def assertion_trials(seed: int) -> Iterator[Trial]:
    """Reports with changes in them, as assertion files."""
    maker = planned(seed)
    text = trace_of(maker)
    arguments = [word for word in KEEPS if maker.chance(0.3)]
    for k in range(INPUTS_OF_A_SEED):
        shape = "%d" % maker.random.randrange(1 << 30) if k else "as it is"
        yield Trial("assertions", "dk_check", Case({"t": text}, [arguments]), How(shape=shape))


def changed_lines(draw: random.Random, text: bytes) -> bytes:
    """A report with changes in its lines."""
    lines = text.split(b"\n")
    for _ in range(draw.choice([1, 2, 4, 16])):
        draw.choice(ASSERTION_CHANGES + [random_bytes, blocks_doubled, zero_byte])(draw, lines, draw.randrange(len(lines)))
        lines = lines or [b""]
    return b"\n".join(lines[:300])


def judge_assertions(bench: Bench, trial: Trial) -> Optional[str]:
    """Each claim of the file has one verdict, in order; the lines of a report hold in its own trace, in as many samples."""
    files = trial.case.files
    if "a" not in files:
        bench.put(files)
        report = report_of(bench, trial.arguments)
        is_report = trial.how.shape == "as it is"
        files = {**files, "a": report if is_report else changed_lines(random.Random(int(trial.how.shape)), report)}
    bench.put(files)
    arguments = ["--ignore-missing-entry", "a", "t"]
    outcome = bench.run("dk_check", arguments)
    bench.tried["dk_check", trial.kind] += 1
    broken = broken_form("dk_check", arguments, files, outcome)
    if broken is not None or outcome.status != DONE:
        return broken
    claims = assertions_in(untrimmed(files["a"]))
    left = outcome.report
    for claim in claims:
        front = claim.point + b": " + claim.text + b": "
        verdict, _, left = left[len(front):].partition(b"\n") if left.startswith(front) else (b"", b"", left)
        if VERDICT.fullmatch(verdict) is None:
            return "verdict on a claim"
    return "verdict without a claim" if left else None


def verdict_trials(seed: int) -> Iterator[Trial]:
    """Reports as assertion files about their own traces."""
    maker = planned(seed)
    for _ in range(INPUTS_OF_A_SEED // 2):
        text = trace_of(maker)
        yield Trial("verdicts", "dk_check", Case({"t": text}, [[word for word in KEEPS if maker.chance(0.3)]]))


def declares_after_records(trace: bytes) -> bool:
    """Whether a point is declared after a record: an edge to it counts for later records alone, in dk_check, and for all in a report."""
    blocks = [block.strip() for block in re.split(rb"\n[ \t\r]*\n", trace) if block.strip()]
    kinds = [re.search(rb"(?m)^[ \t]*(ppt |DECLARE)", block) is not None for block in blocks]
    headers = re.compile(rb"decl-version|var-comparability|VarComparability|ListImplementors|input-language|#|//")
    records = [place for place, block in enumerate(blocks) if not kinds[place] and not headers.match(block)]
    return any(kinds[records[0]:]) if records else False


def judge_verdicts(bench: Bench, trial: Trial) -> Optional[str]:
    """Each line of a report holds in its own trace, in as many samples, where all points are declared before the records."""
    if declares_after_records(trial.case.files["t"]):
        return None
    bench.put(trial.case.files)
    report = report_of(bench, trial.arguments)
    bench.put({**trial.case.files, "a": report})
    outcome = bench.run("dk_check", ["--ignore-missing-entry", "a", "t"])
    bench.tried["dk_check", trial.kind] += 1
    if outcome.status != DONE:
        return None
    claims = [claim.point + b": " + claim.text for claim in assertions_in(untrimmed(report))]
    counts = re.findall(rb"(?m)(?<!=\n)^.*  \[([0-9]+)\]$", report)
    expected = b"".join(b"%s: ok [%s]\n" % pair for pair in zip(claims, counts))
    return None if outcome.report == expected and len(claims) == len(counts) else "a report's lines in their own trace"
