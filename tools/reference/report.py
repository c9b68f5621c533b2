"""Filter facts, sections, lines of --stats, and the report of the first stage."""

from __future__ import annotations

from itertools import product
from typing import Callable, Iterator, Protocol, Sequence

from input_language import ELEMENT
from points import History, Point, Sample, Table, VarInfo
from rows import EQUALITIES, ONE_OF_BESIDE, ONE_OF_SCALAR, Places, State, fits, is_suppressed, rows_of, text_of
from samples import AllSamples, Samples, capped, instances

FILTERS = ("few", "incomparable", "member", "implied", "constant", "parent")
SLICES_AND_ELEMENTS = ("at", "upto", "before", "since", "after")


def comparable(one: int, other: int) -> bool:
    """Two E numbers are comparable if they are equal or one is negative."""
    return one == other or one < 0 or other < 0


class SamplesOfPoints(Protocol):
    """What gives the samples of each point."""
    table: Table

    def of(self, point: Point) -> Samples:
        """The samples of the point."""


class PointFacts:
    """The facts of the instances of one point. `all_samples` gives the samples of every point."""

    def __init__(self, all_samples: SamplesOfPoints, point: Point, least_number: int) -> None:
        self.all_samples = all_samples
        self.point = point
        self.variables = point.variables
        self.samples = all_samples.of(point)
        self.least_number = least_number
        self.firsts: list[int] | None = None
        self.parents: list[tuple[Point, list[list[int]]]] | None = None

    def drops(self, name: str, number: int, places: Places, state: State) -> bool:
        """Whether the filter drops the instance."""
        return getattr(self, "is_" + name)(number, places, state)

    def is_few(self, number: int, places: Places, state: State) -> bool:
        """Whether there are too few samples."""
        return self.samples.count(places) < self.least_number

    def is_incomparable(self, number: int, places: Places, state: State) -> bool:
        """Whether the variables can't be compared."""
        return are_incomparable(self.variables, places)

    def first_of(self, place: int) -> int:
        """The first of those that agree with the variable and have its comparability pair."""
        if self.firsts is None:
            self.firsts = [next(w for w in range(v + 1) if self.is_like(w, v))
                           for v in range(len(self.variables))]
        return self.firsts[place]

    def is_like(self, v: int, w: int) -> bool:
        """Whether two variables agree and have one comparability pair."""
        return (self.variables[v].comparability == self.variables[w].comparability
                and self.samples.agree(v, w))

    def is_equality_of_member(self, number: int, places: Places) -> bool:
        """Whether it is an equality of a first variable with one that it stands for."""
        return (number in EQUALITIES and places[0] != places[1]
                and places[0] == self.first_of(places[1]))

    def is_member(self, number: int, places: Places, state: State) -> bool:
        """Whether the first variables of those here say the same."""
        if self.is_equality_of_member(number, places):
            return False
        return any(self.first_of(place) != place for place in places)

    def is_implied(self, number: int, places: Places, state: State) -> bool:
        """Whether another instance says the same or more."""
        if is_suppressed(self.samples, number, places):
            return True
        if number in ONE_OF_BESIDE:
            return fits(self.samples.fit(ONE_OF_BESIDE[number], places))
        if number == 15:
            return fits(self.samples.fit(11, places))
        if number == 67:
            x, y, z = places
            sums = ((z, x, y), (y, x, z), (x, y, z))
            return any(fits(self.samples.fit(24, order)) for order in sums)
        return False

    def is_constant(self, number: int, places: Places, state: State) -> bool:
        """Whether a variable has only one value."""
        if len(places) < 2 or self.is_equality_of_member(number, places):
            return False
        return any(self.has_one_value(place) for place in places)

    def has_one_value(self, place: int) -> bool:
        """Whether a scalar variable fits its OneOf row with one value."""
        kind = self.variables[place].kind
        if kind in ELEMENT:
            return False
        state = self.samples.fit(ONE_OF_SCALAR[kind], (place,))
        if state[0] in ("ints", "texts"):
            return len(state[1]) == 1
        return fits(state)

    def parents_and_partners(self) -> list[tuple[Point, list[list[int]]]]:
        """For each edge to a parent the parent and, for each variable here, the variables there
        whose partner it is."""
        if self.parents is None:
            table = self.all_samples.table
            self.parents = []
            for edge, parent in table.edges_from(self.point):
                partners = table.partners(edge, self.point, parent)
                self.parents.append((parent, [[w for w, v in enumerate(partners) if v == place]
                                              for place in range(len(self.variables))]))
        return self.parents

    def is_parent(self, number: int, places: Places, state: State) -> bool:
        """Whether the same is said at a parent."""
        for parent, with_partner in self.parents_and_partners():
            for there in product(*[with_partner[place] for place in places]):
                if (len(set(there)) == len(there)
                        and not are_incomparable(parent.variables, there)
                        and self.all_samples.of(parent).fit(number, there) == state):
                    return True
        return False


def are_incomparable(variables: list[VarInfo], places: Places) -> bool:
    """Two of the variables aren't comparable, or the index of an element or slice isn't
    comparable with the sequence's index number."""
    numbers = [variables[place].comparability[0] for place in places]
    if any(not comparable(a, b) for k, a in enumerate(numbers) for b in numbers[:k]):
        return True
    for place in places:
        form = variables[place].form
        if form[0] in SLICES_AND_ELEMENTS:
            sequence, index = variables[form[1]], variables[form[2]]
            if not comparable(index.comparability[0], sequence.comparability[1]):
                return True
    return False


def kept_instances(facts: PointFacts, filters_on: Sequence[str]) -> Iterator[tuple[int, Places, State]]:
    """The instances that fit and for which no filter that is on has its fact, in order."""
    for number in rows_of(facts.samples.grammar):
        for places in instances(number, facts.variables):
            state = facts.samples.fit(number, places)
            if fits(state) and not any(facts.drops(name, number, places, state)
                                       for name in filters_on):
                yield number, places, state


def heading(point: Point, number: int) -> bytes:
    """The heading of a point."""
    return b"=" * 75 + b"\n" + b"%s  [%d]\n" % (point.name, capped(number))


def section(all_samples: AllSamples, point: Point, least_number: int, filters_on: Sequence[str]) -> bytes:
    """The section of a point that has samples."""
    facts = PointFacts(all_samples, point, least_number)
    text = heading(point, facts.samples.number())
    for number, places, state in kept_instances(facts, filters_on):
        names = [point.variables[place].name for place in places]
        text += b"%s  [%d]\n" % (text_of(number, state, names), facts.samples.count(places))
    return text


def stats_line(all_samples: AllSamples, point: Point) -> bytes:
    """The sizes of the compact form of the point's own samples."""
    form = all_samples.own(point).compact_form()
    sizes = (capped(form.number), len(form.classes), len(form.known), len(form.patterns),
             len(form.slots))
    return (b"stats %s: samples %d, leaders %d, constants %d, patterns %d, slots %d\n"
            % ((point.name,) + sizes))


def report(history: History, least_number: int, prefix: bytes, filters_on: Sequence[str], with_stats: bool) -> bytes:
    """The whole report."""
    all_samples = AllSamples(history)
    text = b""
    for point in history.table.points:
        if point.name.startswith(prefix) and all_samples.of(point).number() > 0:
            text += section(all_samples, point, least_number, filters_on)
    for point in history.table.points if with_stats else []:
        if all_samples.own(point).number() > 0:
            text += stats_line(all_samples, point)
    return text


def bounds_report(history: History) -> bytes:
    """The report of the stage that has bounds alone: for each point with own samples the least
    and the greatest values of its base variables of kind Int, over its own samples."""
    text = b""
    for point in history.table.points:
        samples = history.own.get(point.index, [])
        if samples:
            text += heading(point, len(samples))
            text += bounds(point, samples, b">=", min) + bounds(point, samples, b"<=", max)
    return text


def bounds(point: Point, samples: list[Sample], relation: bytes, choose: Callable[[list[int]], int]) -> bytes:
    """The lines of one bound of the point's variables."""
    text = b""
    for place, variable in enumerate(point.base()):
        numbers = [sample[place] for sample in samples if sample[place] is not None]
        if variable.kind == "Int" and numbers:
            text += b"%s %s %d  [%d]\n" % (variable.name, relation, choose(numbers), len(numbers))
    return text
