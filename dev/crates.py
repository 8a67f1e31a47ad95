"""What crates.txt says, for the tools that prove crates side by side."""
from __future__ import annotations

import os
import re
from pathlib import Path
from typing import Dict, List, Tuple

Uses = Dict[str, List[str]]


def read_uses(top: Path) -> Uses:
    """The crates of crates.txt, each with all that it names: crates, and libraries of the kit."""
    named: Uses = {}
    for line in (top / "crates.txt").read_text(encoding="utf-8").splitlines():
        name, mark, uses = line.partition("#")[0].partition(":")
        if mark:
            named[name.split()[0]] = uses.split()
    return named


def read_towers(top: Path) -> List[Tuple[str, List[Tuple[str, str]]]]:
    """The towers of crates.txt, lowest first: a comment before an empty line names one. Each has its crates with the comment above them, or ""."""
    towers: List[Tuple[str, List[Tuple[str, str]]]] = []
    comment = ""
    for line in (top / "crates.txt").read_text(encoding="utf-8").splitlines():
        if line.startswith("#"):
            comment = line.lstrip("# ")
            continue
        if line:
            towers[-1][1].append((line.partition(":")[0].split()[0], comment))
        elif comment:
            towers.append((comment, []))
        comment = ""
    return [(name, crates) for name, crates in towers if crates]


def read_crates(top: Path) -> Uses:
    """The crates of crates.txt, each with those of them that it names."""
    named = read_uses(top)
    return {name: [use for use in uses if use in named] for name, uses in named.items()}


def all_below(crates: Uses, name: str) -> List[str]:
    """The crates that a crate stands on, lowest first."""
    found: List[str] = []
    for use in crates[name]:
        found += [it for it in [*all_below(crates, use), use] if it not in found]
    return found


def lanes_for_checks(memory_of_a_check: int) -> int:
    """How many checks that take at most so many bytes run side by side."""
    available = re.search(r"MemAvailable:\s+(\d+) kB", Path("/proc/meminfo").read_text(encoding="utf-8"))
    memory = int(available[1]) * 1024 if available else memory_of_a_check
    return max(1, min(len(os.sched_getaffinity(0)), memory // memory_of_a_check))
