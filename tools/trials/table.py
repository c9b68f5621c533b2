"""The table of the kinds of trials."""

from __future__ import annotations

from typing import Dict, List

from trials.assertions import assertion_trials, judge_assertions, judge_verdicts, verdict_trials
from trials.faults import (allocation_trials, judge_allocations, judge_memory, judge_read_faults, judge_stack, judge_write_faults,
                           memory_trials, read_fault_trials, stack_trials, write_fault_trials)
from trials.reading import alike_trials, judge_alike, judge_trace, judge_arguments, trace_trials, argument_trials
from trials.states import joined_trials, judge_joined, judge_merge, judge_state, merge_trials, state_trials
from trials.tables import judge_tables, table_trials
from trials.tellings import judge_tellings, telling_trials
from trials.trial import Kind
from trials.ways import (compared_trials, cut_trials, front_trials, judge_compared, judge_cut, judge_fronts, judge_pieces, piece_trials)

KINDS: Dict[str, Kind] = {kind.name: kind for kind in (
    Kind("trace", 25, trace_trials, judge_trace),
    Kind("alike", 20, alike_trials, judge_alike),
    Kind("state", 9, state_trials, judge_state),
    Kind("joined", 4, joined_trials, judge_joined),
    Kind("merge", 4, merge_trials, judge_merge),
    Kind("assertions", 5, assertion_trials, judge_assertions),
    Kind("verdicts", 2, verdict_trials, judge_verdicts),
    Kind("tables", 4, table_trials, judge_tables),
    Kind("tellings", 3, telling_trials, judge_tellings),
    Kind("words", 5, argument_trials, judge_arguments),
    Kind("pieces", 3, piece_trials, judge_pieces),
    Kind("fronts", 4, front_trials, judge_fronts),
    Kind("cut", 3, cut_trials, judge_cut),
    Kind("compared", 2, compared_trials, judge_compared),
    Kind("read faults", 2, read_fault_trials, judge_read_faults),
    Kind("write faults", 1, write_fault_trials, judge_write_faults),
    Kind("memory", 1, memory_trials, judge_memory, needs_built=True),
    Kind("allocations", 2, allocation_trials, judge_allocations, needs_built=True),
    Kind("stack", 1, stack_trials, judge_stack, needs_built=True),
)}


def deck_of(names: List[str]) -> List[str]:
    """The names of kinds, each as often as its share, so that a seed's kind is the card at its place. They are mixed, so that a short
    stretch of seeds has many kinds."""
    left = {name: KINDS[name].share for name in names}
    deck: List[str] = []
    while any(share > 0 for share in left.values()):
        deck += [name for name in names if left[name] > 0]
        left = {name: share - 1 for name, share in left.items()}
    return deck
