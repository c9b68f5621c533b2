"""The generated input: calls of push and pop on a stack of eight items."""

from __future__ import annotations

CALLS = 10_000
TOP = [b"variable this.top", b"var-kind field top", b"rep-type int"]
ITEMS = [b"variable this.items[..]", b"var-kind array", b"rep-type int[]"]
ARGUMENT = [b"variable x", b"var-kind variable", b"rep-type int"]
RESULT = [b"variable return", b"var-kind return", b"rep-type int"]
TO_OBJECT = [b"parent Stack:::OBJECT 1"]
PUSH, POP = b"Stack.push(int):::", b"Stack.pop():::"


class Draws:
    """Numbers that follow from a first one."""

    def __init__(self, start: int) -> None:
        self.u = start

    def draw(self) -> int:
        """The next number."""
        self.u = (self.u * 6364136223846793005 + 1442695040888963407) % (1 << 64)
        return self.u >> 33


def declaration(name: bytes, point_type: bytes, extra: list[bytes]) -> list[bytes]:
    """The lines of a point's declaration."""
    lines = [b"ppt " + name, b"ppt-type " + point_type]
    to_object = []
    if name != b"Stack:::OBJECT":
        lines.append(b"parent parent Stack:::OBJECT 1")
        to_object = TO_OBJECT
    return lines + TOP + to_object + ITEMS + to_object + extra


def declarations() -> list[list[bytes]]:
    """The blocks of headers and declarations."""
    return [
        [b"decl-version 2.0", b"var-comparability none"],
        declaration(b"Stack:::OBJECT", b"object", []),
        declaration(PUSH + b"ENTER", b"enter", ARGUMENT),
        declaration(PUSH + b"EXIT1", b"subexit", ARGUMENT),
        declaration(POP + b"ENTER", b"enter", []),
        declaration(POP + b"EXIT2", b"subexit", RESULT),
    ]


def record(name: bytes, nonce: int, top: int, items: list[int], more: list[tuple[bytes, int]]) -> list[bytes]:
    """The lines of a sample."""
    lines = [name, b"this_invocation_nonce", b"%d" % nonce]
    listed = b"[" + b" ".join(b"%d" % item for item in items) + b"]"
    values = [(b"this.top", b"%d" % top), (b"this.items[..]", listed)]
    for variable, value in values + [(name, b"%d" % value) for name, value in more]:
        lines += [variable, value, b"1"]
    return lines


def generated(start: int) -> bytes:
    """The whole text, of draws from this number on."""
    draws = Draws(start)
    blocks = declarations()
    top = -1
    items = [0] * 8
    for call in range(1, CALLS + 1):
        d = draws.draw()
        if top == -1 or (top < 7 and d % 2 == 0):
            x = draws.draw() % 100
            blocks.append(record(PUSH + b"ENTER", call, top, items, [(b"x", x)]))
            top += 1
            items[top] = x
            blocks.append(record(PUSH + b"EXIT1", call, top, items, [(b"x", x)]))
        else:
            blocks.append(record(POP + b"ENTER", call, top, items, []))
            result = items[top]
            top -= 1
            blocks.append(record(POP + b"EXIT2", call, top, items, [(b"return", result)]))
    return b"\n".join(b"".join(line + b"\n" for line in block) for block in blocks)
