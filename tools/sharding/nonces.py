"""Patterns that find calls by their nonces, at the speed of a search."""

from __future__ import annotations

import re
from bisect import bisect_right
from itertools import accumulate
from typing import Collection, Dict, List, NamedTuple, Optional, Pattern

DIGITS = 19  # of a whole number of 64 bits
END = 10 ** DIGITS
PLAIN_NUMBER = re.compile(rb"0|[1-9][0-9]{0,18}")
FIRST_ENTRY = re.compile(rb":::ENTER\r?\nthis_invocation_nonce\r?\n([0-9]{1,19})\r?\n")


class Owned(NamedTuple):
    """The numbers from `low` on and below `high`, which have at most 19 digits and no sign."""
    low: int
    high: int

    def pattern(self) -> str:
        """A pattern of their spellings without leading zeros."""
        if self.low >= self.high:
            return "(?!)"
        least, most = str(self.low), str(self.high - 1)
        if len(least) == len(most):
            return between(least, most)
        found = [between("1" + "0" * (len(most) - 1), most), between(least, "9" * len(least))]
        if len(least) + 1 < len(most):
            found.append(f"[1-9][0-9]{{{len(least)},{len(most) - 2}}}")
        return "|".join(found)


def owned_by_each(firsts: List[Optional[int]]) -> List[Owned]:
    """The numbers that each stretch of a file owns, by the nonces of their first entries: all numbers below `END`
    have one owner. A stretch without an entry owns none, but for the first one."""
    lows = [END]
    for first in reversed(firsts[1:]):
        lows.append(lows[-1] if first is None else first)
    lows = list(accumulate([0] + lows[:0:-1], max))
    return [Owned(low, high) for low, high in zip(lows, lows[1:] + [END])]


def owner_of(nonce: Optional[bytes], owned: List[Owned]) -> Optional[int]:
    """The place of a number's owner."""
    if nonce is None or not PLAIN_NUMBER.fullmatch(nonce):
        return None
    return bisect_right([one.low for one in owned], int(nonce)) - 1


def between(first: str, last: str) -> str:
    """A pattern of the texts of digits from one to another of the same length."""
    low, high, rest = int(first[0]), int(last[0]), len(first) - 1
    begins, ends = set(first[1:]) <= {"0"}, set(last[1:]) <= {"9"}
    if low == high and not (begins and ends):
        return first[0] + between(first[1:], last[1:])
    inner = low if begins else low + 1, high if ends else high - 1
    found = [f"[{inner[0]}-{inner[1]}][0-9]{{{rest}}}"] if inner[0] <= inner[1] else []
    found += [] if begins else [f"{low}{between(first[1:], '9' * rest)}"]
    found += [] if ends else [f"{high}{between('0' * rest, last[1:])}"]
    return "(?:" + "|".join(found) + ")"


def outside(owned: Owned) -> Pattern[bytes]:
    """Finds in parted text (`blocks.parted`) the lines that end like the name of an entry or an exit, where the
    two lines after it aren't a nonce of the owned ones, spelled plainly."""
    inside = rf"[^\n]*\nthis_invocation_nonce\n(?:{owned.pattern()})\n"
    return re.compile(rf":::E(?!{inside})(?=(?:NTER|XIT[0-9]*)[ \t]*\n)".encode())


def with_any(nonces: Collection[bytes]) -> Pattern[bytes]:
    """Finds in parted text the lines that end like the name of an entry or an exit, where one of these nonces
    follows, spelled plainly."""
    texts = any_of(sorted(nonce.decode() for nonce in nonces))
    return re.compile(rf":::E(?=(?:NTER|XIT[0-9]*)[ \t]*\nthis_invocation_nonce\n{texts}\n)".encode())


def any_of(texts: List[str]) -> str:
    """A pattern of these texts."""
    by_first: Dict[str, List[str]] = {}
    for text in texts:
        by_first.setdefault(text[:1], []).append(text[1:])
    found = [first + any_of(rests) if first else "" for first, rests in sorted(by_first.items(), reverse=True)]
    return found[0] if len(found) == 1 else "(?:" + "|".join(found) + ")"
