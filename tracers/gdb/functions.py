"""The functions of a program, and the addresses at which their calls begin and end.

A call begins after the prologue, where all parameters lie on the stack. It ends at a `ret`. Which `return` led there is told by *marks*:
compilers turn `return e;` into a jump to the function's end, so the last instruction before the end that was reached has the line of
the `return`.
"""

from __future__ import annotations

import re
from dataclasses import dataclass, field
from functools import lru_cache
from typing import Any, Dict, Iterator, List, Optional, Set, Tuple

import gdb

from elf import Elf
from kinds import type_of

RETURN = re.compile(r"(?:(?:bnd|repz?|data16|cs) )*ret")
JUMP = re.compile(r"(?:(?:bnd|notrack) )*(j\w+) +0x([0-9a-f]+)")
# Instructions that the next one isn't reached from: jumps, and calls of functions that don't return.
LEAVING = re.compile(r"(?:(?:bnd|notrack) )*jmp|hlt|ud2|call.*<(?:_Unwind_Resume|__stack_chk_fail|abort|exit|_exit|__assert_fail)@plt>")
# Instructions that put parameters onto the stack, or registers aside.
SAVING = re.compile(r"(?:push|sub +\$0x[0-9a-f]+,%rsp|mov\w* +%\w+,(?:%\w+|-0x[0-9a-f]+\(%rbp\))"
                    r"|mov\w* +-?0x[0-9a-f]+\(%rbp\),%[er]?[ad][xl])")
WORD_RETURN = re.compile(r"\b(?:co_)?return\b")
STATEMENT_END = re.compile(r"[;{}:]\s*(?://.*|/\*.*)?$")
LONE_BRACE = re.compile(r"\s*\}\s*;?\s*(?://.*|/\*.*)?$")
LONGEST_STATEMENT = 10
LONGEST_PROLOGUE = 30


@dataclass
class Instruction:
    """An instruction of a function, with the line that it comes from."""

    address: int
    text: str
    line: int
    target: Optional[int] = None

    @property
    def goes_on(self) -> bool:
        """Whether the next instruction may be reached from this one."""
        return LEAVING.match(self.text) is None and RETURN.match(self.text) is None

    @property
    def is_conditional(self) -> bool:
        """Whether it is a jump that may not be taken."""
        return self.target is not None and self.goes_on


@dataclass
class Function:
    """A function of the program: a part of its code, with where its calls begin and end."""

    block: gdb.Block
    symbol: gdb.Symbol
    instructions: List[Instruction] = field(default_factory=list)
    begin: int = 0
    ends: List[int] = field(default_factory=list)
    marks: Dict[int, int] = field(default_factory=dict)
    usual_line: int = 0
    has_frame_pointer: bool = False

    def symbols(self) -> Iterator[gdb.Symbol]:
        """The symbols of its code: parameters and local variables."""
        return symbols_of(self.block)

    @property
    def file(self) -> str:
        """The path of the source file."""
        return self.symbol.symtab.fullname()

    @property
    def begins_at_loop(self) -> bool:
        """Whether the first instruction of a call may be reached again in the same call."""
        return any(each.target == self.begin for each in self.instructions)

    @property
    def lines(self) -> List[int]:
        """The lines of the returns."""
        return sorted({self.usual_line, *self.marks.values()})


@lru_cache(maxsize=1000)
def source_lines(path: str) -> Optional[List[str]]:
    """The lines of a source file, or None where it isn't there."""
    try:
        with open(path, encoding="utf-8", errors="replace") as file:
            return file.read().split("\n")
    except OSError:
        return None


def return_line(lines: List[str], line: int) -> Optional[int]:
    """The line on which the `return` statement begins that the line is part of."""
    for number in range(line, max(0, line - LONGEST_STATEMENT), -1):
        if number > len(lines):
            return None
        if WORD_RETURN.search(lines[number - 1]):
            return number
        if number > 1 and STATEMENT_END.search(lines[number - 2]):
            return None
    return None


def symbols_of(block: Any) -> Iterator[gdb.Symbol]:
    """The symbols of a block."""
    return iter(block)


def disassembled(architecture: gdb.Architecture, *limits: int) -> List[Tuple[int, str]]:
    """The addresses and the texts of the instructions between the limits."""
    found: Any = architecture.disassemble(*limits)
    return [(each["addr"], each["asm"]) for each in found]


def read_instructions(function: Function, architecture: gdb.Architecture) -> List[Instruction]:
    """The instructions of a function."""
    symtab = function.symbol.symtab
    instructions = []
    for address, text in disassembled(architecture, function.block.start, function.block.end - 1):
        place = gdb.find_pc_line(address)
        line = place.line if place.symtab is not None and place.symtab.filename == symtab.filename else 0
        jump = JUMP.match(text)
        instructions.append(Instruction(address, text, line, int(jump.group(2), 16) if jump else None))
    return instructions


def after_frame(texts: List[str]) -> Optional[int]:
    """The place after the instructions that set the frame pointer, where the function begins with these."""
    index = 1 if texts and texts[0].startswith("endbr64") else 0
    setting = [" ".join(text.split()) for text in texts[index:index + 2]]
    return index + 2 if setting == ["push %rbp", "mov %rsp,%rbp"] else None


def find_begin(function: Function, architecture: gdb.Architecture) -> None:
    """Finds where the function's calls begin, after the prologue: where the next line begins, or after all that saves parameters where
    the line is told once for the whole function."""
    start, end = function.block.start, function.block.end
    first = disassembled(architecture, start, end - 1, LONGEST_PROLOGUE)
    after = after_frame([text for _, text in first])
    function.has_frame_pointer = after is not None
    index = min(after or 0, len(first) - 1)
    place = gdb.find_pc_line(first[index][0])
    if after is not None and place.pc == first[index][0]:
        function.begin = place.pc
    elif place.last is not None and start <= place.last < end - 1:
        function.begin = place.last + 1
    else:
        while index + 1 < len(first) and SAVING.match(first[index][1]):
            index += 1
        function.begin = first[index][0]


def end_region(instructions: List[Instruction], lines: Optional[List[str]], last_line: int) -> Set[int]:
    """The addresses of the function's end: instructions of its last line, and of other lines with a lone brace, where objects end, from
    which these lead to a `ret`."""

    def is_end(line: int) -> bool:
        return line == last_line or (lines is not None and 0 < line <= len(lines) and LONE_BRACE.match(lines[line - 1]) is not None)

    region: Set[int] = set()
    size = -1
    while len(region) > size:
        size = len(region)
        region |= {each.address for each, following in with_following(instructions)
                   if is_end(each.line) and (RETURN.match(each.text) or each.target in region or (each.goes_on and following in region))}
    return region


def with_following(instructions: List[Instruction]) -> Iterator[Tuple[Instruction, Optional[int]]]:
    """Each instruction with the address of the next, the last one first."""
    following = None
    for each in reversed(instructions):
        yield each, following
        following = each.address


def ways_in(instructions: List[Instruction], region: Set[int]) -> Iterator[Instruction]:
    """The instructions outside of the region from which it may be reached."""
    for each, following in with_following(instructions):
        if each.address not in region and (each.target in region or (each.goes_on and following in region)):
            yield each


def find_returns(function: Function) -> Tuple[Dict[int, int], int]:
    """The marks of a function, and the line of a call that meets none: the line for each instruction from which the end is reached."""
    instructions = function.instructions
    last_line = next((each.line for each in reversed(instructions) if RETURN.match(each.text)), 0)
    lines = source_lines(function.file)
    returns_value = type_of(function.symbol).target().strip_typedefs().code != gdb.TYPE_CODE_VOID
    region = end_region(instructions, lines, last_line)
    marks = {}
    is_certain = True
    for way in ways_in(instructions, region):
        found = return_line(lines, way.line) if lines is not None else (way.line if returns_value else None)
        marks[way.address] = found or last_line
        is_certain = is_certain and not way.is_conditional
    distinct = set(marks.values())
    if len(distinct) <= 1:
        return {}, distinct.pop() if distinct else last_line
    if is_certain and all(each.line == last_line for each in instructions if each.address in region):
        usual = marks[max(marks)]
        return {address: line for address, line in marks.items() if line != usual}, usual
    return marks, last_line


def find_ends(function: Function, architecture: gdb.Architecture) -> None:
    """Finds where the function's calls end."""
    function.instructions = read_instructions(function, architecture)
    function.ends = [each.address for each in function.instructions if RETURN.match(each.text)]
    function.marks, function.usual_line = find_returns(function)


def function_at(address: int) -> Optional[Function]:
    """The function that begins at the address, where its lines are known."""
    block = gdb.block_for_pc(address)
    while block is not None and block.function is None:
        block = block.superblock
    if block is None or block.function is None or block.start != address:
        return None
    if block.function.symtab is None or gdb.find_pc_line(address).symtab is None:
        return None
    return Function(block, block.function)


def all_functions(elf: Elf, offset: int) -> List[Function]:
    """The functions of a program whose lines are known, in the order of files and lines; it was loaded at the offset."""
    found = [function_at(address + offset) for address in sorted(set(elf.functions()))]
    return sorted((each for each in found if each is not None), key=lambda each: (each.file, each.symbol.line, each.block.start))
