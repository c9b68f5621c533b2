#!/usr/bin/env python3
"""An independent reading of the product's rules, for comparison with the built program.

The arguments are those of the product. Before them `--stage CUT,CUT...` may stand: then the
program is the one of an earlier stage. The cuts are
  one-file       the only argument is one FILE; the least number is 5 and all filters are on
  bounds         as one-file, and the report has the bounds of each point's own samples alone
  first-grammar  rows 1 to 66 and state files of version 1 alone
  first-form     the second declaration form isn't known
"""

from __future__ import annotations

import sys
from dataclasses import dataclass, field

from command import (MOST_PERIOD, Reader, Sinks, Usage, bytes_of_file, demand_text, host_status, least_number, number_between, refused,
                     status_of_run, arguments_of_command)
from generated import generated
from input_language import TOTAL_LIMIT, Fault
from points import History, Table
from report import FILTERS, bounds_report, report
from state_file import BadState, load, state_file

USAGE = (b"usage: daikon [--min-samples N] [--every N] [--select PREFIX] [--keep-implied] "
         b"[--keep-incomparable] [--keep-members] [--keep-constant] [--keep-parent] "
         b"[--ignore-missing-entry] [--stats] [--save] [--resume NAME] [--generate N] [FILE]...\n")
ONE_FILE_USAGE = b"usage: daikon FILE\n"

KEEP = {"--keep-implied": "implied", "--keep-incomparable": "incomparable",
        "--keep-members": "member", "--keep-constant": "constant", "--keep-parent": "parent"}
FLAGS = list(KEEP) + ["--ignore-missing-entry", "--stats", "--save"]
WITH_VALUE = ["--min-samples", "--every", "--select", "--resume", "--generate"]


@dataclass
class Options:
    """What the arguments ask for."""
    least: int = 5
    every: int | None = None
    prefix: bytes = b""
    filters_on: list[str] = field(default_factory=list)
    ignore_missing_entry: bool = False
    stats: bool = False
    save: bool = False
    resume: str | None = None
    generate: int | None = None
    files: list[str] = field(default_factory=list)
    cuts: tuple[str, ...] = ()


def options_of(arguments: list[str]) -> Options:
    """What the arguments ask for."""
    found = arguments_of_command(arguments, FLAGS, WITH_VALUE)
    values = found.values
    options = Options(files=found.files, least=least_number(values))
    if "--every" in values:
        options.every = number_between(values["--every"], 1, MOST_PERIOD)
    if "--generate" in values:
        options.generate = number_between(values["--generate"], 0, (1 << 64) - 1)
    options.prefix = values.get("--select", "").encode()
    options.resume = values.get("--resume")
    kept = {KEEP[flag] for flag in found.flags if flag in KEEP}
    options.filters_on = [name for name in FILTERS if name not in kept]
    options.ignore_missing_entry = "--ignore-missing-entry" in found.flags
    options.stats = "--stats" in found.flags
    options.save = "--save" in found.flags
    return options


def one_file_options_of(arguments: list[str]) -> Options:
    """Exactly one argument, which is the FILE, whatever it is."""
    if len(arguments) != 1:
        raise Usage
    demand_text(arguments[0])
    return Options(files=arguments, filters_on=list(FILTERS))


class Run:
    """A run over the files of a folder."""

    def __init__(self, options: Options, sinks: Sinks, folder: str) -> None:
        self.options = options
        self.sinks = sinks
        self.folder = folder
        self.second_form = "first-form" not in options.cuts
        self.second_grammar = "first-grammar" not in options.cuts
        history = History(Table(self.second_form), grammar=2 if self.second_grammar else 1)
        self.reader = Reader(history, options.ignore_missing_entry)
        self.blocks = 0

    def whole(self) -> None:
        """The state file, the generated text, the FILEs, the last report, the state."""
        options = self.options
        if options.resume is not None:
            self.resume(options.resume)
        if options.generate is not None:
            self.sinks.message(b"generated 20000 records\n")
            self.read_file("generated", generated(options.generate))
        for name in options.files:
            self.read_file(name, bytes_of_file(self.folder, name))
        self.last_report()
        if options.save:
            self.sinks.state(state_file(self.reader.history))

    def resume(self, name: str) -> None:
        """Begins with the history of a state file."""
        data = bytes_of_file(self.folder, name)
        if len(data) > TOTAL_LIMIT:
            raise refused(name, Fault(17, 0))
        try:
            history = load(data, self.second_grammar, self.second_form)
        except BadState:
            raise refused(name, Fault(18, 0)) from None
        self.reader = Reader(history, self.options.ignore_missing_entry, len(data))

    def read_file(self, name: str, data: bytes) -> None:
        """Reads a file, with the interim reports that fall due."""
        for _ in self.reader.read(name, data):
            self.blocks += 1
            self.periodic_report()

    def periodic_report(self) -> None:
        """Writes an interim report where one is due."""
        if self.options.every is not None and self.blocks % self.options.every == 0:
            self.sinks.report(b"--- after %d blocks\n" % self.blocks)
            self.sinks.report(self.report())

    def last_report(self) -> None:
        """Writes the last report."""
        if self.options.every is not None:
            self.sinks.report(b"--- end after %d blocks\n" % self.blocks)
        self.sinks.report(self.report())

    def report(self) -> bytes:
        """The report of what was read so far."""
        options = self.options
        if "bounds" in options.cuts:
            return bounds_report(self.reader.history)
        return report(self.reader.history, options.least, options.prefix, options.filters_on,
                      options.stats)


CUTS = {"one-file", "bounds", "first-grammar", "first-form"}


def cuts_and_arguments(arguments: list[str]) -> tuple[tuple[str, ...], list[str]]:
    """The cuts of an earlier stage, and the other arguments."""
    if len(arguments) >= 2 and arguments[0] == "--stage" and set(arguments[1].split(",")) <= CUTS:
        return tuple(arguments[1].split(",")), arguments[2:]
    return (), arguments


def status_of(arguments: list[str], sinks: Sinks, folder: str) -> int:
    """Runs the program; its status."""
    cuts, arguments = cuts_and_arguments(arguments)
    one_file = "one-file" in cuts or "bounds" in cuts

    def run(arguments: list[str], sinks: Sinks, folder: str) -> None:
        options = one_file_options_of(arguments) if one_file else options_of(arguments)
        options.cuts = cuts
        Run(options, sinks, folder).whole()

    return status_of_run(run, arguments, sinks, folder, ONE_FILE_USAGE if one_file else USAGE)


if __name__ == "__main__":
    sys.exit(host_status(status_of, sys.argv[1:]))
