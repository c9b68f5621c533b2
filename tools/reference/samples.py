"""Samples of a point, and what is asked of them: states, counts, agreement, the compact form.

`Samples` stands for a list of samples in which order doesn't matter. It holds each different
sample with the number of times that it stands in the list, and besides the compact forms that
state files hold, each with the position of its variable for each variable here (or None, where
the variable is missing in all those samples) and the number of times that it counts.
"""

from __future__ import annotations

from collections import Counter
from dataclasses import dataclass
from itertools import product
from typing import Any, Iterable, Iterator, Sequence, Tuple

from input_language import MISSING, Value
from points import History, Point, Sample, VarInfo
from rows import (BROKEN, EMPTY, HOLDS, ROWS, Places, State, Values, exchanged, is_suppressed, is_written, join, rows_of, state_of,
                  written_order)

# which leaders, or variables, are present
Pattern = Tuple[bool, ...]
# a row, and its leaders
Slot = Tuple[int, Places]

MOST = (1 << 64) - 1


def capped(number: int) -> int:
    """Numbers of samples and blocks end at 2^64 - 1 when they are answered."""
    return min(number, MOST)


# ---------------------------------------------------------------- compact form

@dataclass
class Compact:
    """The compact form of a nonempty list of samples: its number, the classes of variables that
    agree, the patterns of present leaders with their counts, the values of the constant leaders,
    and the kept slots with their states."""
    variables: list[VarInfo]
    grammar: int
    number: int
    classes: list[list[int]]
    patterns: dict[Pattern, int]
    known: dict[int, Value]
    slots: dict[Slot, State]

    def prepare(self) -> None:
        """Makes what is looked up."""
        self.leader = {place: group[0] for group in self.classes for place in group}
        self.rank = {group[0]: k for k, group in enumerate(self.classes)}
        self.cache: dict[Slot, State] = {}

    def is_present(self, bits: Pattern, place: int) -> bool:
        """Whether the variable is present in samples of this pattern."""
        return bits[self.rank[self.leader[place]]]

    def count(self, places: Sequence[int]) -> int:
        """The number of samples in which none of the variables is missing."""
        return sum(count for bits, count in self.patterns.items()
                   if all(self.is_present(bits, place) for place in places))

    def agree(self, v: int, w: int) -> bool:
        """Whether two variables are of one class."""
        return self.leader[v] == self.leader[w]

    def fit(self, number: int, places: Places) -> State:
        """The state of a row over any variables that it admits: each variable's leader stands for
        it, and the roles are exchanged where the leaders aren't in written order."""
        leaders = [self.leader[place] for place in places]
        order = written_order(number, leaders)
        written = tuple(leaders[role] for role in order)
        back = [order.index(role) for role in range(len(order))]
        return exchanged(number, self.written_fit(number, written), back)

    def written_fit(self, number: int, leaders: Places) -> State:
        """The state of a row over leaders in written order."""
        key = (number, leaders)
        if key not in self.cache:
            self.cache[key] = self.find_fit(number, leaders)
        return self.cache[key]

    def find_fit(self, number: int, leaders: Places) -> State:
        """The same, found anew: of constants, of a slot, or by the rules."""
        if all(leader in self.known for leader in leaders):
            values = tuple(self.known[leader] for leader in leaders)
            return state_of(number, set() if MISSING in values else {values})
        if (number, leaders) in self.slots:
            return self.slots[number, leaders]
        if is_suppressed(self, number, leaders):
            return HOLDS if self.count(leaders) > 0 else EMPTY
        return BROKEN


# ---------------------------------------------------------------- samples

# a compact form, the position of its variable for each variable, and how many times it counts
Part = Tuple[Compact, Sequence[Any], int]


class Samples:
    """A list of samples, and what is asked of it."""

    def __init__(self, variables: list[VarInfo], grammar: int, samples: Counter[Sample], compacts: list[Part]) -> None:
        """`samples` counts each different sample; `compacts` lists (compact form, positions,
        times)."""
        self.variables = variables
        self.grammar = grammar
        self.samples = samples
        self.compacts = compacts
        self.cache: dict[Slot, State] = {}
        self.tuple_cache: dict[Places, set[Values]] = {}
        self.times = list(samples.values())
        self.number_columns()
        self.present: Counter[Pattern] = Counter()
        for sample, times in samples.items():
            self.present[presence(sample)] += times

    def number_columns(self) -> None:
        """Each different value of a kind gets a number, so that columns compare quickly."""
        numbers: dict[str, dict[Value, int]] = {}
        self.values: dict[str, list[Value]] = {}
        self.columns: list[list[int]] = []
        for place, variable in enumerate(self.variables):
            of_kind = numbers.setdefault(variable.kind, {})
            column = [of_kind.setdefault(sample[place], len(of_kind)) for sample in self.samples]
            self.columns.append(column)
        for kind, of_kind in numbers.items():
            self.values[kind] = list(of_kind)

    def number(self) -> int:
        """The number of samples."""
        return sum(self.times) + sum(times * compact.number
                                     for compact, _, times in self.compacts)

    def tuples(self, places: Places) -> set[Values]:
        """The set of tuples that the variables have in the samples in which none is missing."""
        if places not in self.tuple_cache:
            values = [self.values.get(self.variables[place].kind, []) for place in places]
            found = set()
            for numbers in set(zip(*[self.columns[place] for place in places])):
                tuple_here = tuple(of_kind[k] for of_kind, k in zip(values, numbers))
                if all(value is not MISSING for value in tuple_here):
                    found.add(tuple_here)
            self.tuple_cache[places] = found
        return self.tuple_cache[places]

    def fit(self, number: int, places: Places) -> State:
        """The row's state of the tuples of the variables, repeats and any order allowed."""
        key = (number, places)
        if key not in self.cache:
            state = state_of(number, self.tuples(places))
            for compact, positions, _ in self.compacts:
                moved = tuple(positions[place] for place in places)
                if state != BROKEN and None not in moved:
                    state = join(number, state, compact.fit(number, moved))
            self.cache[key] = state
        return self.cache[key]

    def count(self, places: Sequence[int]) -> int:
        """The number of samples in which none of the variables is missing."""
        total = sum(times for present, times in self.present.items()
                    if all(present[place] for place in places))
        for compact, positions, times in self.compacts:
            moved = [positions[place] for place in places]
            if None not in moved:
                total += times * compact.count(moved)
        return capped(total)

    def agree(self, v: int, w: int) -> bool:
        """Whether two variables of one kind have equal values in each sample."""
        return (self.variables[v].kind == self.variables[w].kind
                and self.columns[v] == self.columns[w]
                and all(self.agree_in(compact, positions[v], positions[w])
                        for compact, positions, _ in self.compacts))

    @staticmethod
    def agree_in(compact: Compact, v: int | None, w: int | None) -> bool:
        """Whether two variables agree in the samples of a compact form."""
        if v is not None and w is not None:
            return compact.agree(v, w)
        present = [place for place in (v, w) if place is not None]
        return not present or compact.count(present) == 0

    def leaders(self) -> list[int]:
        """For each variable the first one that agrees with it."""
        return [next(w for w in range(v + 1) if self.agree(w, v))
                for v in range(len(self.variables))]

    def constant(self, v: int) -> list[Value]:
        """A list of the one value that the variable has in all samples, Missing counted; or no
        value."""
        kind = self.variables[v].kind
        found = {self.values[kind][number] for number in set(self.columns[v])}
        for compact, positions, _ in self.compacts:
            if positions[v] is None:
                found.add(MISSING)
            elif compact.leader[positions[v]] in compact.known:
                found.add(compact.known[compact.leader[positions[v]]])
            else:
                return []
        return list(found) if len(found) == 1 else []

    # ------------------------------------------------------------ compact form

    def compact_form(self) -> Compact:
        """Asks that there are samples."""
        leaders = self.leaders()
        classes = [[v for v, leader in enumerate(leaders) if leader == first]
                   for first in sorted(set(leaders))]
        firsts = [group[0] for group in classes]
        known = {}
        for leader in firsts:
            for value in self.constant(leader):
                known[leader] = value
        return Compact(self.variables, self.grammar, self.number(), classes,
                       self.patterns(firsts), known, self.slots(firsts, known))

    def patterns(self, firsts: list[int]) -> dict[Pattern, int]:
        """The patterns of these leaders, with their counts."""
        patterns: Counter[Pattern] = Counter()
        for present, times in self.present.items():
            patterns[tuple(present[leader] for leader in firsts)] += times
        for compact, positions, times in self.compacts:
            for bits, count in compact.patterns.items():
                patterns[tuple(positions[leader] is not None
                               and compact.is_present(bits, positions[leader])
                               for leader in firsts)] += times * count
        return dict(patterns)

    def slots(self, firsts: list[int], known: dict[int, Value]) -> dict[Slot, State]:
        """The slots that are kept, with their states."""
        slots: dict[Slot, State] = {}
        for number in rows_of(self.grammar):
            for places in tuples_for(number, self.variables, firsts):
                if not is_written(number, places) or all(place in known for place in places):
                    continue
                state = self.fit(number, places)
                if state != BROKEN and not is_suppressed(self, number, places):
                    slots[number, places] = state
        return slots


def presence(sample: Sample) -> Pattern:
    """Which variables are present in the sample."""
    return tuple(value is not MISSING for value in sample)


def tuples_for(number: int, variables: Sequence[VarInfo], places: Sequence[int]) -> Iterable[Places]:
    """The tuples over these variables that the row admits, repeats included, ascending."""
    choices = [[place for place in places if variables[place].kind == kind
                and (which == "any" or variables[place].is_base())]
               for kind, which in ROWS[number].takes]
    return product(*choices)


def instances(number: int, variables: Sequence[VarInfo]) -> Iterator[Places]:
    """The admitted, written tuples of distinct variables, by the variables in order of roles."""
    for places in tuples_for(number, variables, range(len(variables))):
        if len(set(places)) == len(places) and is_written(number, places):
            yield places


# ---------------------------------------------------------------- samples of a point

def own_samples(history: History, point: Point) -> Samples:
    """The point's own samples."""
    compacts: list[Part] = []
    if point.index in history.loaded:
        compact = history.loaded[point.index]
        compacts.append((compact, list(range(len(point.variables))), 1))
    samples = Counter(history.own.get(point.index, []))
    return Samples(point.variables, history.grammar, samples, compacts)


class AllSamples:
    """The samples of each point: its own, then for each edge into it the child's, mapped."""

    def __init__(self, history: History) -> None:
        self.history = history
        self.table = history.table
        self.found: dict[int, Samples] = {}
        self.own_found: dict[int, Samples] = {}

    def own(self, point: Point) -> Samples:
        """The point's own samples."""
        if point.index not in self.own_found:
            self.own_found[point.index] = own_samples(self.history, point)
        return self.own_found[point.index]

    def of(self, point: Point) -> Samples:
        """All samples of the point."""
        if point.index not in self.found:
            self.found[point.index] = self.merged(point)
        return self.found[point.index]

    def merged(self, point: Point) -> Samples:
        """The own samples with those of the children."""
        edges = self.table.edges_into(point)
        if not edges:
            return self.own(point)
        samples = Counter(self.own(point).samples)
        compacts = list(self.own(point).compacts)
        for edge, child in edges:
            below = self.of(child)
            partners = self.table.partners(edge, child, point)
            for sample, times in below.samples.items():
                samples[moved(sample, partners)] += times
            for compact, positions, times in below.compacts:
                compacts.append((compact, moved(positions, partners), times))
        return Samples(point.variables, self.history.grammar, samples, together(compacts))


def moved(items: Sequence[Any], partners: Sequence[int | None]) -> tuple[Any, ...]:
    """Each item moved to the variable whose partner holds it; nothing without a partner."""
    return tuple(None if partner is None else items[partner] for partner in partners)


def together(compacts: list[Part]) -> list[Part]:
    """Equal compact forms with equal positions count as many times as they stand there."""
    found: dict[tuple[int, tuple[int | None, ...]], Part] = {}
    for compact, positions, times in compacts:
        key = (id(compact), tuple(positions))
        _, _, before = found.get(key, (compact, positions, 0))
        found[key] = (compact, positions, before + times)
    return list(found.values())
