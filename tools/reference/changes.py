"""Changes of lines, and of the lines of states. Each takes the lines and the place of one. And fewer parts of a text."""

from __future__ import annotations

import re
from random import Random
from typing import Callable

from rows import ROWS

ODD_BYTES = [b" ", b"\t", b"\r", b"\\", b'"', b"[", b"]", b"0", b"-", b"\xff", b"#", b"\n", b"x",
             b"_", b"."]


def delete_line(random_: Random, lines: list[bytes], at: int) -> None:
    """Leaves the line out."""
    del lines[at]


def double_line(random_: Random, lines: list[bytes], at: int) -> None:
    """Has the line twice."""
    lines.insert(at, lines[at])


def odd_byte(random_: Random, lines: list[bytes], at: int) -> None:
    """Puts a byte in, or in the place of one."""
    k = random_.randint(0, len(lines[at]))
    keep = k if random_.random() < 0.5 else k + 1
    lines[at] = lines[at][:k] + random_.choice(ODD_BYTES) + lines[at][keep:]


def delete_byte(random_: Random, lines: list[bytes], at: int) -> None:
    """Leaves a byte out."""
    k = random_.randint(0, len(lines[at]))
    lines[at] = lines[at][:k] + lines[at][k + 1:]


# ---------------------------------------------------------------- fewer parts

def fewest_parts(parts: list[bytes], stays: Callable[[list[bytes]], bool]) -> list[bytes]:
    """Leaves parts out, halves first, as long as what is looked for stays with the others."""
    size = max(1, len(parts) // 2)
    while size >= 1:
        at = 0
        while at < len(parts):
            fewer = parts[:at] + parts[at + size:]
            if stays(fewer):
                parts = fewer
            else:
                at += size
        size //= 2
    return parts


# ---------------------------------------------------------------- states

def changed_state(random_: Random, text: bytes) -> bytes:
    """One to three changes of the state's lines."""
    lines = text.split(b"\n")[:-1]
    for _ in range(random_.choice([1, 1, 1, 2, 3])):
        if lines:
            random_.choice(STATE_CHANGES)(random_, lines, some_line(random_, lines))
    return b"".join(line + b"\n" for line in lines)


def word_of(line: bytes) -> bytes:
    """The first word of a state's line; for a slot the row and the word of its state."""
    words = line.split(b" ")
    if words[0] == b"slot":
        return next((word for word in words[2:] if not word.isdigit()), b"slot")
    return words[0]


def some_line(random_: Random, lines: list[bytes]) -> int:
    """The place of a line; there are few lines of most words, and each word is as likely."""
    word = random_.choice(sorted(set(map(word_of, lines))))
    return random_.choice([k for k, line in enumerate(lines) if word_of(line) == word])


def line_with(random_: Random, lines: list[bytes], word: bytes) -> int | None:
    """The place of a line with this first word, or None."""
    places = [k for k, line in enumerate(lines) if line.split(b" ")[0] == word]
    return random_.choice(places) if places else None


def exchange_with_next(random_: Random, lines: list[bytes], at: int) -> None:
    """Exchanges the line with the next one."""
    lines[at:at + 2] = lines[at:at + 2][::-1]


def blank_added(random_: Random, lines: list[bytes], at: int) -> None:
    """Puts a blank, a tab or a carriage return in."""
    places = [0, len(lines[at])] + [k for k, byte in enumerate(lines[at]) if byte == ord(" ")]
    place = random_.choice(places)
    lines[at] = lines[at][:place] + random_.choice([b" ", b" ", b"\t", b"\r"]) + lines[at][place:]


def field_removed(random_: Random, lines: list[bytes], at: int) -> None:
    """Leaves a field out."""
    fields = lines[at].split(b" ")
    del fields[random_.randrange(len(fields))]
    lines[at] = b" ".join(fields)


def field_doubled(random_: Random, lines: list[bytes], at: int) -> None:
    """Has a field twice."""
    fields = lines[at].split(b" ")
    fields.insert(random_.randrange(len(fields)), random_.choice(fields))
    lines[at] = b" ".join(fields)


def version_changed(random_: Random, lines: list[bytes], at: int) -> None:
    """Puts another version into the first line."""
    lines[0] = b"daikon-state " + random_.choice([b"0", b"1", b"2", b"3", b"01", b"", b"-1"])


# ---------------------------------------------------------------- numbers of states

LIMITS_OF_NUMBERS = {
    b"least": [63], b"greatest": [63], b"ints": [63], b"one": [63], b"modulus": [64],
    b"spot": [62], b"straight": [63, 126], b"span": [30], b"plane": [63, 95], b"offset": [64],
    b"edge": [32], b"var": [63], b"samples": [40], b"pattern": [40], b"points": [16],
}


def number_instead(random_: Random, lines: list[bytes], at: int, number_of: Callable[[int], int]) -> None:
    """Puts another number in the place of one of the line's."""
    places = list(re.finditer(rb"-?[0-9]+", lines[at]))
    if places:
        place = random_.choice(places)
        number = b"%d" % number_of(int(place.group()))
        lines[at] = lines[at][:place.start()] + number + lines[at][place.end():]


def number_by_one(random_: Random, lines: list[bytes], at: int) -> None:
    """Makes a number one more or less."""
    number_instead(random_, lines, at, lambda number: number + random_.choice([-1, 1]))


def number_to_zero(random_: Random, lines: list[bytes], at: int) -> None:
    """Makes a number 0."""
    number_instead(random_, lines, at, lambda number: 0)


def small_number(random_: Random, lines: list[bytes], at: int) -> None:
    """Puts a small number in the place of one."""
    number_instead(random_, lines, at, lambda number: random_.randint(-3, 9))


def number_to_limit(random_: Random, lines: list[bytes], at: int) -> None:
    """Puts a number at or beside a limit in the place of one."""
    powers = LIMITS_OF_NUMBERS.get(word_of(lines[at]), [31, 32, 63, 64, 127, 128])
    limit = random_.choice([1, -1]) * 2 ** random_.choice(powers) + random_.choice([-1, 0, 1])
    number_instead(random_, lines, at, lambda number: limit)


# ---------------------------------------------------------------- declarations in states

def tab_in_name(random_: Random, lines: list[bytes], at: int) -> None:
    """Puts a tab, a carriage return or an escape into a name."""
    place = line_with(random_, lines, random_.choice([b"point", b"edge", b"var", b"mapped"]))
    if place is not None:
        fields = lines[place].split(b" ")
        name = fields[-1]
        k = random_.choice([0, len(name) // 2, len(name)])
        fields[-1] = name[:k] + random_.choice([b"\t", b"\t", b"\r", b"\\_", b"\\\\"]) + name[k:]
        lines[place] = b" ".join(fields)


VALUES = [b"missing", b"0", b"1", b"-0", b"true", b"false", b"null", b"0x0", b"0x1", b"0xA", b"5",
          b"-3", b"[]", b"[0]", b"[1 2]", b"[1 2 ]", b"[null]", b"[missing]", b"[true false]",
          b"[0x1 null]", b'"a"', b'"a', b'["a" null]', b'"a\tb"', b"nonsensical",
          b"9223372036854775808", b"-9223372036854775808", b"0x10000000000000000"]


def constant_changed(random_: Random, lines: list[bytes], at: int) -> None:
    """Another constant, or one where there was none."""
    place = line_with(random_, lines, b"constant")
    if place is None or random_.random() < 0.5:
        place = line_with(random_, lines, b"var")
        if place is None:
            return
        place += 1
        lines.insert(place, b"")
    lines[place] = b"constant " + random_.choice(VALUES)


def mapped_added(random_: Random, lines: list[bytes], at: int) -> None:
    """Adds a line of a parent's variable."""
    place = line_with(random_, lines, b"var")
    if place is not None:
        name = random_.choice([lines[place].split(b" ")[-1], b"z", b"a\tb", b"\\_", b"a b"])
        while lines[place + 1:place + 2] and word_of(lines[place + 1]) in (b"constant", b"mapped"):
            place += 1
        lines.insert(place + 1, b"mapped %d %s" % (random_.randint(0, 2), name))


def edge_added(random_: Random, lines: list[bytes], at: int) -> None:
    """Adds an edge to a point."""
    place = line_with(random_, lines, b"point")
    if place is not None:
        name = random_.choice([b"P", b"Q", b"M:::EXIT", b"nowhere", b"a\tb", b"a\\_b", b""])
        number = random_.choice([b"0", b"1", b"2", b"4294967295", b"4294967296", b"-1", b"01"])
        lines.insert(place + 1, b"edge " + number + b" " + name)


# ---------------------------------------------------------------- samples in states

def part_of_samples(random_: Random, lines: list[bytes]) -> tuple[int, int] | None:
    """Where the lines of one point's samples begin and end, or None."""
    start = line_with(random_, lines, b"samples")
    if start is None:
        return None
    return start, next((k for k in range(start, len(lines)) if lines[k] == b"end"), len(lines))


def lines_in(lines: list[bytes], part: tuple[int, int], word: bytes) -> list[int]:
    """The places of the part's lines with this first word."""
    return [k for k in range(*part) if lines[k].startswith(word + b" ")]


def samples_moved(random_: Random, lines: list[bytes], at: int) -> None:
    """The samples under another point's number."""
    place = line_with(random_, lines, b"samples")
    if place is not None:
        fields = lines[place].split(b" ")
        if len(fields) > 1:
            fields[1] = b"%d" % random_.randint(0, 4)
        lines[place] = b" ".join(fields)


def bit_flipped(random_: Random, lines: list[bytes], at: int) -> None:
    """Puts another bit into a pattern."""
    patterns = [k for k, line in enumerate(lines) if re.fullmatch(rb"pattern [0-9]+ [01]+", line)]
    if patterns:
        place = random_.choice(patterns)
        k = random_.randint(lines[place].rindex(b" ") + 1, len(lines[place]) - 1)
        lines[place] = lines[place][:k] + random_.choice([b"0", b"1"]) + lines[place][k + 1:]


def one_sample_more(random_: Random, lines: list[bytes], at: int) -> None:
    """One more, or one less, in the number of samples and in a pattern."""
    part = part_of_samples(random_, lines)
    if part is not None:
        step = random_.choice([1, 1, -1])
        for place in [part[0]] + lines_in(lines, part, b"pattern")[:1]:
            lines[place] = re.sub(rb"^(samples [0-9]+|pattern) ([0-9]+)", lambda match: b"%s %d" % (
                match.group(1), int(match.group(2)) + step), lines[place])


def pattern_twice(random_: Random, lines: list[bytes], at: int) -> None:
    """A pattern in two lines, or one more with the number 0."""
    place = line_with(random_, lines, b"pattern")
    if place is not None:
        fields = lines[place].split(b" ")
        if len(fields) > 1 and fields[1].isdigit():
            first = random_.choice([0, 1, int(fields[1])])
            for k, number in enumerate((first, int(fields[1]) - first)):
                lines[place:place + 1 - k] = [b" ".join([fields[0], b"%d" % number] + fields[2:])]


def classes_joined(random_: Random, lines: list[bytes], at: int) -> None:
    """Two classes become one; what was said of the second leader goes."""
    part = part_of_samples(random_, lines)
    classes = lines_in(lines, part, b"class") if part is not None else []
    if part is None or len(classes) < 2:
        return
    first, second = sorted(random_.sample(range(len(classes)), 2))
    members = lines[classes[first]].split(b" ")[1:] + lines[classes[second]].split(b" ")[1:]
    leader = lines[classes[second]].split(b" ")[1]
    if not all(member.isdigit() for member in members):
        return
    lines[classes[first]] = b"class " + b" ".join(sorted(members, key=int))
    kept = []
    for k, line in enumerate(lines):
        fields = line.split(b" ")
        if part[0] <= k < part[1]:
            if k == classes[second] or fields[:2] == [b"known", leader]:
                continue
            if is_slot_over(line, leader):
                continue
            if fields[0] == b"pattern" and len(fields) > 2:
                line = line[:-len(fields[2])] + fields[2][:second] + fields[2][second + 1:]
        kept.append(line)
    lines[:] = kept


def known_left_out(random_: Random, lines: list[bytes], at: int) -> None:
    """Leaves a constant leader out."""
    place = line_with(random_, lines, b"known")
    if place is not None:
        del lines[place]


def other_known(random_: Random, lines: list[bytes], at: int) -> None:
    """Gives a constant leader another value."""
    place = line_with(random_, lines, b"known")
    if place is not None:
        lines[place] = b" ".join(lines[place].split(b" ")[:2] + [random_.choice(VALUES)])


def known_added(random_: Random, lines: list[bytes], at: int) -> None:
    """A leader that is known besides; its slots stay or go."""
    part = part_of_samples(random_, lines)
    classes = lines_in(lines, part, b"class") if part is not None else []
    if part is not None and classes:
        leader = lines[random_.choice(classes)].split(b" ")[1]
        place = max(lines_in(lines, part, b"pattern") + classes) + 1
        lines.insert(place, b"known " + leader + b" " + random_.choice(VALUES))
        if random_.random() < 0.7:
            lines[:] = [line for k, line in enumerate(lines)
                        if not (part[0] <= k <= part[1] and is_slot_over(line, leader))]


def is_slot_over(line: bytes, leader: bytes) -> bool:
    """Whether the line is that of a slot over the leader."""
    fields = line.split(b" ")
    return fields[0] == b"slot" and leader in fields[2:5]


# ---------------------------------------------------------------- slots in states

P30, P62, P63, P64, P95, P126 = (2 ** power for power in (30, 62, 63, 64, 95, 126))
STATES = [
    "empty", "empty", "empty", "holds", "holds", "holds", "broken", "least 0", "least %d" % P63,
    "least -%d" % P63, "greatest 5", "greatest -%d" % (P63 + 1), "ints 1", "ints 1 2 3", "ints 2 1",
    "ints 1 1", "ints 1 2 3 4", "ints", "ints -%d %d" % (P63, P63 - 1), "ints 0 %d" % P63,
    "truth true", "truth false", "truth 1", "truth missing", "code null", "code 0x0", "code 0x1",
    "code 1", "code 0x%x" % (P64 - 1), "code 0x%x" % P64, "code missing", "texts null",
    'texts "a" null', 'texts null "a"', 'texts "a"', 'texts "a b" "a"', 'texts "a" "a b"',
    'texts "a" "b" "c" "d"', 'texts "a"null', "texts", "one 3", "one %d" % P63, "one -%d" % P63,
    "modulus 2 1", "modulus 1 0", "modulus 0 0", "modulus 2 2", "modulus 3 -1",
    "modulus %d 0" % (P64 - 1), "modulus %d 0" % P64, "spot 1 2", "spot %d -%d" % (P62, P62),
    "spot %d 0" % (P62 + 1), "spot 0 -%d" % (P62 + 1), "straight 1 0 0", "straight 1 -2 3",
    "straight 2 -2 0", "straight -1 1 0", "straight 0 1 5", "straight 0 -1 5", "straight 0 0 1",
    "straight 1 1 %d" % P126, "straight 1 1 %d" % (P126 + 1), "straight 1 1 -%d" % P126,
    "straight 1 1 -%d" % (P126 + 1), "straight %d 1 0" % P63, "straight %d 1 0" % (P63 + 1),
    "straight 1 -%d 0" % P63, "straight 1 -%d 0" % (P63 + 1), "span 1 1 1 1 1 1",
    "span 1 1 1 2 0 0", "span 2 1 1 1 1 1", "span 1 2 1 1 1 9", "span 1 1 2 1 1 1",
    "span -%d 0 0 %d 0 0" % (P30, P30), "span 0 0 0 0 0 %d" % (P30 + 1),
    "span -%d 0 0 0 0 0" % (P30 + 1), "plane 1 1 1 0", "plane 0 0 0 0", "plane 0 1 0 4",
    "plane 0 -1 0 4", "plane 2 4 6 1", "plane 1 -2 3 -%d" % P95, "plane 1 -2 3 %d" % (P95 + 1),
    "plane %d 1 1 0" % P63, "plane %d 1 1 0" % (P63 + 1), "plane 1 1 -%d 0" % (P63 + 1),
    "offset 3", "offset 0", "offset -%d" % (P64 - 1), "offset %d" % P64, "offset -%d" % P64,
]


def state_for(random_: Random, row: int) -> bytes:
    """Mostly a state of a form that the row has."""
    words = ROWS[row].words + ("empty",)
    fitting = [state for state in STATES if state.split(" ")[0] in words]
    return random_.choice(fitting if random_.random() < 0.85 else STATES).encode()


def numbers_of(line: bytes) -> list[int]:
    """The row and the leaders of a slot's line."""
    match = re.match(rb"slot((?: [0-9]+)*)(?= )", line)
    return [int(number) for number in match.group(1).split()] if match else []


def parts_of_slot(line: bytes) -> tuple[int, list[int]]:
    """The row, which must be one, and the leaders of a slot's line."""
    numbers = numbers_of(line)
    return (numbers[0], numbers[1:]) if numbers and numbers[0] in ROWS else (1, [0])


def some_slot(random_: Random, lines: list[bytes]) -> int | None:
    """The place of a slot; each row is as likely as another, plain ones less."""
    rows: dict[tuple[int, ...], list[int]] = {}
    for k, line in enumerate(lines):
        plain = line.endswith((b" holds", b" empty"))
        if line.startswith(b"slot ") and (not plain or random_.random() < 0.1):
            rows.setdefault(tuple(numbers_of(line)[:1]), []).append(k)
    return random_.choice(rows[random_.choice(list(rows))]) if rows else None


def slot_line(random_: Random, row: int, leaders: list[int]) -> bytes:
    """The line of a slot, with some state."""
    numbers = b"".join(b" %d" % number for number in [row] + leaders)
    return b"slot" + numbers + b" " + state_for(random_, row)


def other_state(random_: Random, lines: list[bytes], at: int) -> None:
    """Another state of a slot."""
    place = some_slot(random_, lines)
    if place is not None:
        lines[place] = slot_line(random_, *parts_of_slot(lines[place]))


def slot_added(random_: Random, lines: list[bytes], at: int) -> None:
    """A slot of a row that takes the same kinds as another one's, or of the other order of its
    variables, or of a known leader, in its place."""
    place = some_slot(random_, lines)
    if place is None:
        return
    row, leaders = parts_of_slot(lines[place])
    known = line_with(random_, lines, b"known")
    if known is not None and random_.random() < 0.3:
        leader = lines[known].split(b" ")[1:2]
        leaders = [int(leader[0]) if leader and leader[0].isdigit() else 0 for _ in leaders]
    if random_.random() < 0.2:
        leaders = leaders[::-1]
    kinds = [kind for kind, _ in ROWS[row].takes]
    alike = [k for k in ROWS if [kind for kind, _ in ROWS[k].takes] == kinds]
    lines.insert(place, slot_line(random_, random_.choice(alike), leaders))
    start, end = place, place
    while start > 0 and lines[start - 1].startswith(b"slot "):
        start -= 1
    while end < len(lines) and lines[end].startswith(b"slot "):
        end += 1
    lines[start:end] = sorted(lines[start:end], key=numbers_of)


def slot_left_out(random_: Random, lines: list[bytes], at: int) -> None:
    """Leaves a slot out."""
    place = some_slot(random_, lines)
    if place is not None:
        del lines[place]


STATE_CHANGES = [
    delete_line, double_line, exchange_with_next, odd_byte, delete_byte, blank_added,
    field_removed, field_doubled, version_changed, number_by_one, number_by_one, number_to_zero,
    number_to_limit, number_to_limit, small_number, tab_in_name, constant_changed, mapped_added,
    edge_added, samples_moved, bit_flipped, one_sample_more, pattern_twice, classes_joined,
    known_left_out, other_known, known_added, other_state, other_state, other_state, slot_added,
    slot_added, slot_added, slot_left_out,
]
