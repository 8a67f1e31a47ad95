"""The program's lines held against the sessions that they must be of: by name and inputs, and by the close."""
from __future__ import annotations

from typing import Dict, Iterator, NamedTuple, Optional, Tuple, Union

from saxtegun.commands import Refused, cut, plural
from saxtegun.explanations import input_told
from saxtegun.levels import Labels, read_cells
from saxtegun.lines import Run, runs_in
from saxtegun.sessions import Entry, Sessions


# Of what kinds the first frame is that an input shows: a press, if no other word. An idle tick shows none.
PRESSED = ("move", "restart", "over")
SHOWN: Dict[Union[int, str], Tuple[str, ...]] = {"undo": ("undo", "over"), "restart": ("restart", "over"), "tick": ("tick", "restart", "over")}


class Tests(NamedTuple):
    """What is tested of each run beside its name: that it shows its inputs, and is closed as its last level says. `is_played`: that it has frames, of
    no more inputs than there are."""

    is_closed: bool = True
    is_played: bool = True


ALL = Tests()
NAMES_ALONE = Tests(False)
# What an engine writes that may have any error.
OF_ANY_ENGINE = Tests(False, is_played=False)


def read_runs(path: str, sessions: Optional[Sessions] = None, tests: Tests = ALL) -> Iterator[Run]:
    """What the program's lines say, session by session. With the sessions that they must be of, each is tested to be of its entry."""
    count = 0
    for number, run in runs_in(path):
        if sessions:
            fault = mismatch(sessions, run, tests)
            if fault:
                raise Refused(f"{path}, line {number}: {fault}; the lines are of another file than {sessions.path}")
        yield run
        count += 1
    if sessions and count != len(sessions.entries):
        raise Refused(f"{path} closes {plural(count, 'session')}, and {sessions.path} has {len(sessions.entries)}")


def mismatch(sessions: Sessions, run: Run, tests: Tests) -> Optional[str]:
    """What shows that a run is not of its entry, or None."""
    if run.number >= len(sessions.entries):
        return f"there is no session {run.number}"
    entry = sessions.entries[run.number]
    if entry.name != run.name:
        return f"session {run.number} is named {cut(run.name)!r}, and in the file {cut(entry.name)!r}"
    if not tests.is_played:
        return None
    if run.frames and run.frames[-1].at > len(entry.inputs):
        return f"session {run.number} takes more inputs than its {len(entry.inputs)}"
    if run.close in ("passed", "differs") and not run.frames:
        return f"session {run.number} was played and has no frame"
    return closed_fault(entry, run) if tests.is_closed else None


def closed_fault(entry: Entry, run: Run) -> Optional[str]:
    """What shows that a run isn't what its close says of its entry, or None."""
    if run.close == "refused":
        return f"session {run.number} was refused and has frames" if run.frames else None
    fault = inputs_fault(entry, run)
    if fault is None and run.close in ("passed", "differs"):
        is_recorded = is_same_level(run.frames[-1].level, entry.level)
        if is_recorded is None and run.close == "passed":
            return f"session {run.number} is closed as passed, and its last level is no level text"
        if is_recorded is not None and is_recorded != (run.close == "passed"):
            return f"session {run.number} is closed as {run.close}, and its last level says otherwise"
    return fault


def inputs_fault(entry: Entry, run: Run) -> Optional[str]:
    """What shows that other inputs were played than an entry's, or only some of them, or None. A session that was stopped took those that it shows."""
    first = {it.at: it.kind for it in reversed(run.frames)}
    count = len(entry.inputs) if run.close in ("passed", "differs") else max(first, default=0)
    for place, it in enumerate(entry.inputs[:count]):
        kind = first.get(place + 1)
        if kind is None and it != "tick":
            return f"session {run.number} shows nothing of input {place}, which is {input_told(it)}"
        if kind is not None and kind not in SHOWN.get(it, PRESSED):
            return f"session {run.number} shows {kind!r} at input {place}, which is {input_told(it)}"
    return None


def is_same_level(one: str, other: str) -> Optional[bool]:
    """Whether two level texts are of one level, or None where the first can't be read back."""
    if one.replace("\n", "").replace("\r", "") == other.replace("\n", "").replace("\r", ""):
        return True
    labels = Labels()
    cells = read_cells(one, labels)
    return None if cells is None else cells == read_cells(other, labels)
