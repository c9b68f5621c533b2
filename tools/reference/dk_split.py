#!/usr/bin/env python3
"""Implications: what holds where a truth value is true, or where it is false."""

from __future__ import annotations

import sys
from collections import Counter
from typing import Iterator

from command import Reader, Sinks, bytes_of_file, host_status, least_number, status_of_run, arguments_of_command
from points import History, Point, Sample, Table
from report import PointFacts, heading
from rows import Places, State, fits, rows_of, text_of
from samples import Samples, instances

USAGE = b"usage: dk_split [--min-samples N] [--ignore-missing-entry] [FILE]...\n"
FILTERS = ("few", "incomparable", "member", "implied", "constant")


class OneList:
    """One list of samples for whatever point is asked, of a table without edges."""

    def __init__(self, samples: Samples) -> None:
        self.samples = samples
        self.table = Table()

    def of(self, point: Point) -> Samples:
        """The samples, whatever the point is."""
        return self.samples


def samples_of(point: Point, samples: list[Sample], grammar: int) -> Samples:
    """The samples of a point as a whole."""
    return Samples(point.variables, grammar, Counter(samples), [])


def conditions(point: Point, whole: Samples) -> list[int]:
    """The base truth values that are the first of those that agree with them."""
    truths = [place for place, variable in enumerate(point.variables)
              if variable.kind == "Bool" and variable.is_base()]
    return [b for b in truths if not any(whole.agree(a, b) for a in truths if a < b)]


def implications(point: Point, samples: list[Sample], grammar: int, least: int) -> Iterator[tuple[int, bool, bytes, int]]:
    """Each with its truth value, the half's value, the instance's text and its count there."""
    whole = samples_of(point, samples, grammar)
    for b in conditions(point, whole):
        for value in (True, False):
            half = samples_of(point, [s for s in samples if s[b] is value], grammar)
            facts = PointFacts(OneList(half), point, least)
            for number, places, state in held(facts, whole, b):
                names = [point.variables[place].name for place in places]
                yield b, value, text_of(number, state, names), half.count(places)


def held(facts: PointFacts, whole: Samples, b: int) -> Iterator[tuple[int, Places, State]]:
    """The instances without a variable that agrees with b, that hold on the half with another
    state than on the whole and that no filter drops there."""
    half = facts.samples
    for number in rows_of(half.grammar):
        for places in instances(number, facts.variables):
            state = half.fit(number, places)
            if (fits(state) and state != whole.fit(number, places)
                    and not any(whole.agree(place, b) for place in places)
                    and not any(facts.drops(name, number, places, state) for name in FILTERS)):
                yield number, places, state


def section(point: Point, samples: list[Sample], grammar: int, least: int) -> bytes:
    """The section of a point."""
    text = heading(point, len(samples))
    for b, value, instance, count in implications(point, samples, grammar, least):
        truth = b"true" if value else b"false"
        text += b"%s == %s ==> %s  [%d]\n" % (point.variables[b].name, truth, instance, count)
    return text


def run(arguments: list[str], sinks: Sinks, folder: str) -> None:
    """Runs the program on the arguments."""
    found = arguments_of_command(arguments, ["--ignore-missing-entry"], ["--min-samples"])
    least = least_number(found.values)
    history = History()
    reader = Reader(history, "--ignore-missing-entry" in found.flags)
    for name in found.files:
        for _ in reader.read(name, bytes_of_file(folder, name)):
            pass
    for point in history.table.points:
        samples = history.own.get(point.index, [])
        if samples:
            sinks.report(section(point, samples, history.grammar, least))


def status_of(arguments: list[str], sinks: Sinks, folder: str) -> int:
    """Runs the program; its status."""
    return status_of_run(run, arguments, sinks, folder, USAGE)


if __name__ == "__main__":
    sys.exit(host_status(status_of, sys.argv[1:]))
