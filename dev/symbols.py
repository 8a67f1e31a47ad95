"""Which C library a program needs: the newest version of a symbol that it takes from one, as its ELF file says."""
from __future__ import annotations

import re
import struct
from typing import Iterator, Tuple

SECTION = struct.Struct("<IIQQQQIIQQ")
NEED, NEED_OF = struct.Struct("<HHIII"), struct.Struct("<IHHII")
OF_NEEDS = 0x6FFFFFFE


def sections_of(program: bytes) -> Iterator[Tuple[int, int, int, int]]:
    """The kind, the place, the size and the linked section of each section."""
    at, size, count = struct.unpack_from("<Q", program, 40)[0], *struct.unpack_from("<HH", program, 58)
    for number in range(count):
        _, kind, _, _, place, length, link, _, _, _ = SECTION.unpack_from(program, at + number * size)
        yield kind, place, length, link


def versions_needed(program: bytes) -> Iterator[str]:
    """The versions that an ELF program of 64 bits wants, of all its libraries."""
    sections = list(sections_of(program))
    for kind, place, _, link in sections:
        while kind == OF_NEEDS:
            _, _, _, first, following = NEED.unpack_from(program, place)
            at = place + first
            while True:
                _, _, _, name, behind = NEED_OF.unpack_from(program, at)
                text = sections[link][1] + name
                yield program[text : program.index(b"\0", text)].decode()
                if not behind:
                    break
                at += behind
            if not following:
                break
            place += following


def c_library_of(program: bytes) -> str:
    """The version of the C library that a program needs; nothing where it is no ELF program of 64 bits, or needs none."""
    if program[:5] != b"\x7fELF\x02":
        return ""
    numbers = [re.fullmatch(r"GLIBC_(\d+)\.(\d+)(?:\.\d+)?", it) for it in versions_needed(program)]
    newest = max(((int(it[1]), int(it[2])) for it in numbers if it), default=None)
    return f"{newest[0]}.{newest[1]}" if newest else ""
