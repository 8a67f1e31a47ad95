"""Joins the lines of the parts that `saxtegun split` made, and gives each session
its number in the whole file.

Each part FOLDER/NUMBER.json needs its lines, FOLDER/NUMBER.lines, as the
program wrote them. The output is what the program writes for the whole file.
Over which text of a game they were played, lines don't tell: remove those of a
run before.

Exit status, as the program's: 0 every session passed, 1 some did not. It is 2,
with a line on standard error, if a part is missing before another, has no
lines, or lines that aren't the program's or close other names. What was
written before is then no whole output."""
from __future__ import annotations

import sys
from argparse import ArgumentParser, Namespace
from pathlib import Path
from typing import List, Sequence, Tuple

from saxtegun.commands import Refused
from saxtegun.lines import Run, told_in
from saxtegun.sessions import Entry, read_sessions
from saxtegun.texts import say_demands

USAGE = "join FOLDER >lines"


def add_words(words: ArgumentParser) -> None:
    words.add_argument("folder", metavar="FOLDER")


def join_part(part: Path, first: int) -> Tuple[Sequence[Entry], bool]:
    """Writes the lines of a part; answers its sessions, and whether all of them passed."""
    lines, entries, passed = part.with_suffix(".lines"), read_sessions(str(part)).entries, True
    closed: List[str] = []
    for number, line, it in told_in(str(lines)):
        end = f',"session":{len(closed)}}}\n'
        if not line.endswith(end):
            raise Refused(f"{lines}, line {number}, doesn't end as a line of session {len(closed)}")
        sys.stdout.write(f'{line[:-len(end)]},"session":{first + len(closed)}}}\n')
        if isinstance(it, Run):
            closed.append(it.name)
            passed = passed and it.close == "passed"
    if closed != [it.name for it in entries]:
        raise Refused(f"{lines} closes other sessions than {part.name} has")
    return entries, passed


def main(given: Namespace) -> int:
    parts = sorted(Path(given.folder).glob("[0-9]*.json"), key=lambda it: (len(it.name), it.name))
    if not parts:
        raise Refused(f"{given.folder} has no parts, which saxtegun split writes")
    first, demands, status = 0, 0, 0
    for part in parts:
        if part.stem != f"{first:08}":
            raise Refused(f"the part that begins with session {first} is missing: {part.name} is there")
        entries, has_passed = join_part(part, first)
        first, status = first + len(entries), status if has_passed else 1
        demands += sum(it.is_solved_wanted for it in entries)
    say_demands("join", demands)
    return status
