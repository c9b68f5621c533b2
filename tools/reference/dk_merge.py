#!/usr/bin/env python3
"""States of one table merged, or the traces of several recorders read in turns."""

from __future__ import annotations

import sys
from collections import Counter
from typing import Iterator

from command import (MOST_PERIOD, Reader, Sinks, Usage, bytes_of_file, host_status, least_number, number_between, refused, status_of_run,
                     arguments_of_command)
from input_language import WHY, Block, Fault, blocks_of, first_word_and_rest, lines_of
from points import History
from report import FILTERS, report
from samples import Compact, Samples
from state_file import BadState, load, state_file, written

USAGE = b"usage: dk_merge [--min-samples N] [--turns N] FILE...\n"
BYTES_LIMIT = 1 << 30
WITHOUT_LIMIT = 1 << 64
TOO_LONG, BAD_STATE, DIFFERENT_STATE, JOINED_STATE = 17, 18, 19, 20
WHY.update({DIFFERENT_STATE: "DifferentState", JOINED_STATE: "JoinedState"})


# ---------------------------------------------------------------- merging

def declarations_in(state: bytes) -> list[bytes]:
    """What stands before the first `samples` line, or of `end-state` where there is none."""
    lines = state.split(b"\n")
    ends = [k for k, line in enumerate(lines) if line.startswith((b"samples ", b"end-state"))]
    return lines[:ends[0]]


def joined_form(a: Compact, b: Compact) -> Compact:
    """The compact form of two lists together, from theirs."""
    places = list(range(len(a.variables)))
    both = Samples(a.variables, a.grammar, Counter(), [(a, places, 1), (b, places, 1)])
    return both.compact_form()


def merged(name: str, a: bytes, b: bytes) -> bytes:
    """The state of two states together. `name` is the second one's."""
    if declarations_in(a) != declarations_in(b):
        raise refused(name, Fault(DIFFERENT_STATE, 0))
    first, second = load(a), load(b)
    forms = []
    for index in sorted(set(first.loaded) | set(second.loaded)):
        here = [history.loaded[index] for history in (first, second) if index in history.loaded]
        forms.append((index, joined_form(*here) if len(here) == 2 else here[0]))
    text = written(first, forms)
    if not is_spelling(text):
        raise refused(name, Fault(JOINED_STATE, 0))
    return text


def is_spelling(data: bytes) -> bool:
    """Whether the bytes are a state file."""
    try:
        load(data)
    except BadState:
        return False
    return True


def merged_history(names: list[str], folder: str) -> History:
    """The files are judged one by one."""
    state = b""
    for name, data in files_of(names, folder):
        if not is_spelling(data):
            raise refused(name, Fault(BAD_STATE, 0))
        state = merged(name, state, data) if state else data
    return load(state)


def files_of(names: list[str], folder: str) -> Iterator[tuple[str, bytes]]:
    """The files' names and bytes, within the limit of all together."""
    size = 0
    for name in names:
        data = bytes_of_file(folder, name)
        size += len(data)
        if size > BYTES_LIMIT:
            raise refused(name, Fault(TOO_LONG, 0))
        yield name, data


# ---------------------------------------------------------------- turns

def kept_lines(block: Block) -> tuple[list[bytes], bool]:
    """The block's lines without the comments before its record, and whether the record is a
    sample."""
    kept = []
    begun = is_sample = awaited = False
    for _, line in block.lines:
        if not begun and line.startswith((b"#", b"//")):
            continue
        kept.append(line)
        if begun:
            continue
        word, _ = first_word_and_rest(line)
        if awaited:
            awaited = False
        elif line == b"VarComparability":
            awaited = True
        elif word not in (b"decl-version", b"var-comparability", b"input-language"):
            begun = True
            is_sample = word != b"ppt" and line not in (b"DECLARE", b"ListImplementors")
    return kept, is_sample


def turns(n: int, files: list[bytes]) -> bytes:
    """The blocks without a sample file by file, then n samples of each file in rounds."""
    blocks = []
    samples = []
    for data in files:
        lines, _ = lines_of(data, 0, WITHOUT_LIMIT, WITHOUT_LIMIT)
        found = [kept_lines(block) for block in blocks_of(lines, None)]
        blocks += [kept for kept, is_sample in found if kept and not is_sample]
        samples.append([kept for kept, is_sample in found if is_sample])
    while any(samples):
        for k, left in enumerate(samples):
            blocks += left[:n]
            samples[k] = left[n:]
    return b"\n".join(b"".join(line + b"\n" for line in block) for block in blocks)


def history_in_turns(n: int, names: list[str], folder: str) -> History:
    """The history of the files that are read in turns."""
    history = History()
    text = turns(n, [data for _, data in files_of(names, folder)])
    for _ in Reader(history, False).read("turns", text):
        pass
    return history


def run(arguments: list[str], sinks: Sinks, folder: str) -> None:
    """Runs the program on the arguments."""
    found = arguments_of_command(arguments, [], ["--min-samples", "--turns"])
    least = least_number(found.values)
    if not found.files:
        raise Usage
    if "--turns" in found.values:
        n = number_between(found.values["--turns"], 1, MOST_PERIOD)
        history = history_in_turns(n, found.files, folder)
    else:
        history = merged_history(found.files, folder)
    sinks.report(report(history, least, b"", list(FILTERS), False))
    sinks.state(state_file(history))


def status_of(arguments: list[str], sinks: Sinks, folder: str) -> int:
    """Runs the program; its status."""
    return status_of_run(run, arguments, sinks, folder, USAGE)


if __name__ == "__main__":
    sys.exit(host_status(status_of, sys.argv[1:]))
