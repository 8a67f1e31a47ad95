#!/usr/bin/env python3
"""engine/to32.py FROM.ll TO.ll: turns an LLVM module that Rattle made for x86-64 into one for WebAssembly with a memory of 32 bits.

Rattle itself places all that lies in memory by numbers of bytes, and makes no number a pointer. So a pointer may have 4 bytes and keep its slot of 8: with that,
what is left to change are pairs with a pointer that are read or written as one, slots of a pointer on the stack, addresses that are read as numbers, and what
names the processor. Each line must have a form that stands in this file: at any other the program ends with status 1 and the line, and writes nothing."""
from __future__ import annotations

import re
import sys
from pathlib import Path
from typing import Iterable, Iterator, List, Sequence, Tuple

LAYOUT = "e-m:e-p:32:32-p10:8:8-p20:8:8-i64:64-i128:128-n32:64-S128-ni:1:10:20"
TRIPLE = "wasm32-unknown-unknown"
# The bytes that a scalar takes in memory, where Rattle has placed it.
SIZES = {"i1": 1, "i8": 1, "i16": 2, "i32": 4, "i64": 8, "i128": 16, "double": 8, "ptr": 8}
# What Rattle says of x86-64 in the attributes of a function.
OF_X86_64 = re.compile(r' "(?:probe-stack|stack-probe-size|target-cpu|target-features)"="[^"]*"')
BARRIER = '  call void asm sideeffect "", "~{memory}"()'

QUOTED = r'"[^"\\]*"'
LOCAL = rf"%(?:[\w.$-]+|{QUOTED})"
GLOBAL = rf"@(?:[\w.$-]+|{QUOTED})"
NUMBER = r"i(?:1|4|8|16|32|64|128|256)|double"
SCALAR = rf"(?:{NUMBER}|ptr)"
PAIR = rf"\{{ {SCALAR}, {SCALAR} \}}"
VECTOR = r"<\d+ x i\d+>"
PLAIN = rf"(?:{NUMBER}|{VECTOR})"
LITERAL = rf"(?:-?\d+|-?\d\.\d+e[+-]\d+|0x[0-9A-F]+|true|false|null|poison|zeroinitializer|splat \(i\d+ -?\d+\)|<i\d+ \d+(?:, i\d+ \d+)*>)"
VALUE = rf"(?:{LOCAL}|{GLOBAL}|{LITERAL})"
ALIGN = r", align \d+"
ORDER = "(?:monotonic|acquire|release|acq_rel|seq_cst)"
NOTES = r"(?:, !\w+ !\d+)*"
MARK = r"(?:noundef|zeroext|signext|immarg|writeonly|readonly|captures\(none\))"
TAKEN = rf"(?:{SCALAR}(?: {MARK})*(?: {LOCAL})?)"
GIVEN = rf"(?:{SCALAR}(?: {MARK})* {VALUE})"
RESULT = rf"(?:void|(?:{MARK} )*(?:{SCALAR}|{PAIR}))"
INTRINSICS = r"@llvm\.(?:memset\.p0\.i64|memmove\.p0\.p0\.i64|memcpy\.p0\.p0\.i64|trap|(?:cttz|ctlz|ctpop)\.i\d+|arithmetic\.fence\.f64)"
FUNCTION = rf"(?:(?!@llvm\.){GLOBAL}|{INTRINSICS})"
SET = rf"  {LOCAL} = "


def listed(item: str) -> str:
    return rf"(?:{item}(?:, {item})*)?"


# The forms of lines that say the same of a memory of 32 bits.
SAME = re.compile("|".join((
    r"(?:;.*)?",
    r'source_filename = "[^"]*"',
    rf'{GLOBAL} = private (?:unnamed_addr )?(?:constant|global) \[\d+ x i8\] (?:c"[^"]*"|zeroinitializer){ALIGN}',
    rf"declare {RESULT} {FUNCTION}\({listed(TAKEN)}\)(?: #\d+)?",
    rf"define (?:internal )?{RESULT} {GLOBAL}\({listed(TAKEN)}\)(?: #\d+)? \{{",
    r"attributes #\d+ = \{[^{}]*\}",
    r"!(?:\d+|llvm\.ident) = !\{[^{}]*\}",
    r"\}",
    rf"(?:[\w.$-]+|{QUOTED}):(?: *;.*)?",
    rf"{SET}(?:add|sub|mul|udiv|sdiv|urem|srem|and|or|xor|shl|lshr|ashr|fadd|fsub|fmul|fdiv|frem)(?: nuw| nsw| exact| disjoint)* {PLAIN} {VALUE}, {VALUE}",
    rf"{SET}fneg double {VALUE}",
    rf"{SET}[if]cmp \w+ {PLAIN} {VALUE}, {VALUE}",
    rf"{SET}icmp (?:eq|ne) ptr {VALUE}, null",
    rf"{SET}(?:zext|sext|trunc|bitcast|uitofp|sitofp|fptoui|fptosi)(?: nneg| nuw| nsw)* {PLAIN} {VALUE} to {PLAIN}",
    rf"{SET}insertelement {VECTOR} {VALUE}, i\d+ {VALUE}, i\d+ \d+",
    rf"{SET}shufflevector {VECTOR} {VALUE}, {VECTOR} {VALUE}, {VECTOR} {VALUE}",
    rf"{SET}extractvalue {PAIR} {VALUE}, [01]",
    rf"{SET}getelementptr (?:inbounds (?:nuw )?)?i8, ptr {VALUE}, i64 {VALUE}",
    rf"{SET}alloca (?:{NUMBER}|\[\d+ x i8\]){ALIGN}",
    rf"{SET}load (?:volatile )?(?:{PLAIN}|ptr), ptr {VALUE}{ALIGN}{NOTES}",
    rf"{SET}load \{{ (?:{NUMBER}), (?:{NUMBER}) \}}, ptr {VALUE}{ALIGN}",
    rf"  store (?:{PLAIN}|ptr) {VALUE}, ptr {VALUE}{ALIGN}",
    # clang makes plain ones of these, since no two threads share the memory
    rf"{SET}load atomic i\d+, ptr {VALUE} {ORDER}{ALIGN}",
    rf"  store atomic i\d+ {VALUE}, ptr {VALUE} {ORDER}{ALIGN}",
    rf"{SET}atomicrmw \w+ ptr {VALUE}, i\d+ {VALUE} {ORDER}{ALIGN}",
    rf"{SET}cmpxchg ptr {VALUE}, i\d+ {VALUE}, i\d+ {VALUE} {ORDER} {ORDER}{ALIGN}",
    rf"  fence {ORDER}",
    rf"  store \{{ (?:{NUMBER}), (?:{NUMBER}) \}} {VALUE}, ptr {VALUE}{ALIGN}",
    rf"(?:{SET}|  )call {RESULT} {FUNCTION}\({listed(GIVEN)}\)(?: #\d+)?",
    re.escape(BARRIER),
    rf"  br label {LOCAL}",
    rf"  br i1 {VALUE}, label {LOCAL}, label {LOCAL}",
    rf"  switch i\d+ {VALUE}, label {LOCAL} \[",
    rf"    i\d+ -?\d+, label {LOCAL}",
    r"  \]",
    rf"  ret (?:void|(?:{SCALAR}|{PAIR}) {VALUE})",
    r"  unreachable",
)))
LOADED_PAIR = re.compile(rf"  ({LOCAL}) = load \{{ ({SCALAR}), ({SCALAR}) \}}, ptr ({VALUE}), align (\d+)")
STORED_PAIR = re.compile(rf"  store \{{ ({SCALAR}), ({SCALAR}) \}} ({VALUE}), ptr ({VALUE}), align (\d+)")
SLOT = re.compile(rf"({SET}alloca )ptr({ALIGN})")
ADDRESS = re.compile(rf"({SET})ptrtoaddr (ptr {VALUE} to i64)")
TARGET = {"target datalayout": LAYOUT, "target triple": TRIPLE}


class UnknownForm(ValueError):
    """A line whose form isn't known."""


def places_of(one: str, other: str) -> Tuple[int, int]:
    """Where the two of a pair lie, as Rattle has placed them on x86-64."""
    size = SIZES[other]
    return 0, -(-SIZES[one] // size) * size


def part_of_pair(number: int, pointer: str, place: int) -> Tuple[str, str]:
    """The line that makes a pointer to a part of a pair, and the pointer's name."""
    name = f"%part.{number}"
    return f"  {name} = getelementptr i8, ptr {pointer}, i32 {place}", name


class Rewriting:
    """The rewriting of one module. It numbers the values that it makes."""

    def __init__(self) -> None:
        self.made = 0

    def number(self) -> int:
        self.made += 1
        return self.made

    def load_pair(self, to: str, types: Tuple[str, str], pointer: str, align: int) -> Iterator[str]:
        """Reads a pair part by part."""
        whole, value = f"{{ {types[0]}, {types[1]} }}", "poison"
        for at, (scalar, place) in enumerate(zip(types, places_of(*types))):
            number = self.number()
            line, part = part_of_pair(number, pointer, place)
            yield line
            yield f"  %value.{number} = load {scalar}, ptr {part}, align {min(SIZES[scalar], align)}"
            result = f"%pair.{number}" if at == 0 else to
            yield f"  {result} = insertvalue {whole} {value}, {scalar} %value.{number}, {at}"
            value = result

    def store_pair(self, types: Tuple[str, str], value: str, pointer: str, align: int) -> Iterator[str]:
        """Writes a pair part by part."""
        for at, (scalar, place) in enumerate(zip(types, places_of(*types))):
            number = self.number()
            line, part = part_of_pair(number, pointer, place)
            yield f"  %value.{number} = extractvalue {{ {types[0]}, {types[1]} }} {value}, {at}"
            yield line
            yield f"  store {scalar} %value.{number}, ptr {part}, align {min(SIZES[scalar], align)}"

    def rewrite(self, line: str) -> Iterable[str]:
        """The lines that take the place of one."""
        if line.startswith("attributes "):
            line = OF_X86_64.sub("", line)
        if SAME.fullmatch(line):
            return [line]
        head, _, said = line.partition(" = ")
        if head in TARGET and re.fullmatch(r'"[^"]*"', said):
            return [f'{head} = "{TARGET[head]}"']
        if found := SLOT.fullmatch(line):
            return [f"{found[1]}i64{found[2]}"]
        if found := ADDRESS.fullmatch(line):
            return [f"{found[1]}ptrtoint {found[2]}"]
        if found := LOADED_PAIR.fullmatch(line):
            return self.load_pair(found[1], (found[2], found[3]), found[4], int(found[5]))
        if found := STORED_PAIR.fullmatch(line):
            return self.store_pair((found[1], found[2]), found[3], found[4], int(found[5]))
        raise UnknownForm(line)


def rewritten(lines: Iterable[str]) -> List[str]:
    """The lines of the module for 32 bits."""
    rewriting = Rewriting()
    return [made for line in lines for made in rewriting.rewrite(line)]


def main(words: Sequence[str]) -> int:
    if len(words) != 2:
        print("usage: engine/to32.py FROM.ll TO.ll", file=sys.stderr)
        return 2
    source, target = map(Path, words)
    try:
        lines = rewritten(source.read_text(encoding="utf-8").split("\n"))
    except UnknownForm as unknown:
        print(f"to32: a form that isn't known: {unknown}", file=sys.stderr)
        return 1
    target.write_text("\n".join(lines), encoding="utf-8")
    return 0


if __name__ == "__main__":
    sys.exit(main(sys.argv[1:]))
