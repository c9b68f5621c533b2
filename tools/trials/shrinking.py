"""Makes the files of a trial smaller, as long as it still breaks its law."""

from __future__ import annotations

import re
import time
from typing import Callable, List

from trials.trial import Trial

from changes import fewest_parts  # noqa: E402

LONGEST = 60
SEPARATORS = (rb"(?<=\n)[ \t\r]*\n", b"\n")


def shrunk(trial: Trial, breaks: Callable[[Trial], bool]) -> Trial:
    """Leaves out blocks and then lines, halves of a file first, for at most a minute. A trial that doesn't break its law again stays."""
    ends = time.monotonic() + LONGEST
    if not breaks(trial):
        return trial
    for separator in SEPARATORS * 2:
        for name in sorted(trial.case.files):
            trial = with_fewer_parts(trial, name, separator, lambda smaller: time.monotonic() < ends and breaks(smaller))
    return trial


def with_fewer_parts(trial: Trial, name: str, separator: bytes, breaks: Callable[[Trial], bool]) -> Trial:
    """Leaves out parts of the file between separators."""
    def with_parts(parts: List[bytes]) -> Trial:
        return trial.with_files({**trial.case.files, name: b"\n".join(parts)})

    parts = re.split(separator, trial.case.files[name])
    fewest = fewest_parts(parts, lambda fewer: breaks(with_parts(fewer)))
    return with_parts(fewest) if fewest != parts else trial
