"""Plays sessions with the program, and tells what it refuses in words with file, session and name."""
from __future__ import annotations

import os
import re
import subprocess
import tempfile
from argparse import Namespace
from contextlib import contextmanager
from math import inf
from time import monotonic
from typing import IO, Iterator, List, NamedTuple, Optional, Sequence

from saxtegun.commands import Refused, cut, plural
from saxtegun.files import read_lines
from saxtegun.lines import SESSION, UNANSWERED, Run, frame_of, line_of
from saxtegun.mismatches import ALL, Tests, read_runs
from saxtegun.processes import Ran, Unanswered, room_for_now, watched
from saxtegun.programs import has_played, program_words
from saxtegun.reasons import break_of
from saxtegun.sessions import MOST_BYTES, MOST_ENTRIES, Entry, Sessions, written_entry
from saxtegun.ticks import without_ticking

# What the program's lines at status 2 mean; the number is that of a session or of bytes.
REFUSALS = {
    "open-fault": "it can't be opened",
    "read-fault": "it can't be read",
    "too-many": "it has more than 16 MiB or 65,536 sessions: play it in parts, by saxtegun split",
    "not-json": "it is no JSON list",
    "bad-entry": "session {number} is no entry of a name, a source, inputs and a level",
    "bad-level": "the recorded level of session {number} is no level text",
    "memory": "there is not enough memory",
    "lane-lost": "a worker was lost",
    "write-fault": "writing ended after {number} bytes",
}


# So many sessions are played first where each has a limit of time, which all of them together keep too; then twice as many as long as that is quick.
FIRST_BATCH = 64
QUICK = 0.25


class Late(Refused):
    """The time for all that is played is over."""


class Engine(NamedTuple):
    """How sessions are played: in which order of cells, by how many workers (None: as many as the program takes), with which program (None: ours),
    how many seconds each has (None: as many as it takes), what is tested of what the program writes, whether ours may be built first, and whether games are
    played without their clock, by the ticks that were recorded. `stages` is the program that tells stages (None: ours), and `end` when all playing ends."""

    order: str = "columns"
    workers: Optional[int] = None
    program: Optional[str] = None
    seconds: Optional[float] = None
    tests: Tests = ALL
    may_build: bool = True
    has_ticks: bool = False
    stages: Optional[str] = None
    end: float = inf

    def words(self) -> List[str]:
        return [*program_words(self.program, self.may_build), "--order", self.order, *(["--workers", str(self.workers)] if self.workers else [])]


def engine_of(given: Namespace) -> Engine:
    """The engine that the words of a verb name."""
    return Engine(given.order, given.workers, given.program, getattr(given, "timeout", None), has_ticks=getattr(given, "ticks_as_recorded", False))


def broken_told(level: str) -> str:
    """Where a text stops to be a level text, behind the words of a fault."""
    at = break_of(level)
    return f": on line {at[0]}, letter {at[1]} of it `{cut(at[2])}` is no piece of one" if at else ""


def refusal(said: str, path: str, entries: Sequence[Entry] = ()) -> str:
    """What the program's line of a failure says, in words."""
    line = (said.strip().splitlines() or ["nothing is told"])[-1]
    match = re.fullmatch(r"([a-z-]+)(?: ([0-9]+))?", line)
    if match is None or match[1] not in REFUSALS:
        return f"{path} was not played: {cut(line)}"
    number = int(match[2]) if match[2] and len(match[2]) < 20 else None
    is_known = number is not None and match[1].startswith("bad-") and number < len(entries)
    named = f"{entries[number].number} ({cut(entries[number].name)})" if is_known and number is not None else match[2]
    where = broken_told(entries[number].level) if is_known and match[1] == "bad-level" and number is not None else ""
    # a part of the sessions may be played alone, of which the program counts another number
    own = f"{match[1]} {entries[number].number}" if is_known and number is not None else line
    return f"{path} was not played: {REFUSALS[match[1]].format(number=named)}{where} ({own})"


def watched_in_time(words: Sequence[str], output: IO[bytes], engine: Engine, seconds: Optional[float]) -> Ran:
    """Runs a program to its end, or so many seconds, but not longer than all playing lasts."""
    left = engine.end - monotonic()
    try:
        return watched(words, output, subprocess.DEVNULL, seconds if left == inf else min(left, seconds or left))
    except Unanswered:
        if monotonic() < engine.end:
            raise
        raise Late("the time is over") from None


def play_file(path: str, lines: str, engine: Engine, of: Optional[Sessions] = None, seconds: Optional[float] = None) -> int:
    """Plays a sessions file, and leaves its lines in a file; the status of the program, 0 or 1. Refused where there is no whole output."""
    words = [*engine.words(), path]
    try:
        with open(lines, "wb") as file:
            ran = watched_in_time(words, file, engine, seconds)
    except OSError as why:
        raise Refused(f"{lines} can't be written: {why.strerror}") from None
    if ran.status not in (0, 1):
        raise Refused(refusal(ran.said, of.path if of else path, of.entries if of else ()))
    has_played()
    return ran.status


def batches(entries: Sequence[Entry], engine: Engine = Engine()) -> Iterator[List[bytes]]:
    """The entries as JSON, in batches of which each is as large as a file may be: the copies of a game that is the source of many don't count."""
    batch: List[bytes] = []
    size = 0
    for entry in entries:
        text = written_entry(without_ticking(entry) if engine.has_ticks else entry).encode()
        if batch and (size + len(text) + len("[]") > MOST_BYTES or len(batch) == MOST_ENTRIES):
            yield batch
            batch, size = [], 0
        batch.append(text)
        # with the comma behind it
        size += len(text) + 1
    yield batch


@contextmanager
def playing(batch: List[bytes], of: Sessions, engine: Engine, seconds: Optional[float]) -> Iterator[str]:
    """Plays a batch, which is all of these sessions, into a file of lines that is there as long as this lasts."""
    with room_for_now() as room:
        path, lines = os.path.join(room, "sessions.json"), os.path.join(room, "lines")
        with open(path, "wb") as file:
            file.write(b"[" + b",".join(batch) + b"]")
        play_file(path, lines, engine, of, seconds)
        yield lines


def written_runs(lines: str, of: Sessions, engine: Engine) -> Iterator[Run]:
    """What a program wrote into a file for sessions."""
    try:
        yield from read_runs(lines, of, engine.tests)
    except Refused as why:
        told = str(why)
        raise Refused(f"{of.path} was not played: what the program wrote{told[len(lines) :]}" if told.startswith(lines) else told) from None


def runs_within(entries: Sequence[Entry], of: Sessions, engine: Engine, seconds: Optional[float] = None) -> Iterator[Run]:
    """What playing entries shows, numbered from 0 as they stand here, batch by batch; each has so many seconds."""
    first = 0
    for batch in batches(entries, engine):
        behind = first + len(batch)
        of_batch = of._replace(entries=list(entries[first:behind]))
        with playing(batch, of_batch, engine, seconds) as played:
            for run in written_runs(played, of_batch, engine):
                yield run._replace(number=first + run.number)
        first = behind


def lines_within(entries: Sequence[Entry], of: Sessions, engine: Engine) -> Iterator[str]:
    """The lines of entries as the program writes them, batch by batch, their sessions numbered from 0 as they stand here."""
    first = 0
    for batch in batches(entries, engine):
        of_batch = of._replace(entries=list(entries[first : first + len(batch)]))
        with playing(batch, of_batch, engine, engine.seconds) as played:
            for number, line in read_lines(played):
                session = SESSION.search(line)
                if session is None:
                    raise Refused(f"{of.path} was not played: line {number} of the program names no session at its end")
                yield f'{line[: session.start()]}"session":{first + int(session[1])}}}\n'
        first += len(batch)


def answered(entries: Sequence[Entry], of: Sessions, engine: Engine) -> List[Run]:
    """What playing entries shows that have the time of one of them; where that isn't enough, nothing, or that one alone wasn't answered."""
    try:
        return list(runs_within(entries, of, engine, engine.seconds))
    except Unanswered as why:
        return [Run(0, entries[0].name, UNANSWERED, str(why), [])] if len(entries) == 1 else []


def runs_in_time(entries: Sequence[Entry], of: Sessions, engine: Engine) -> Iterator[Run]:
    """What playing entries shows, of which each has the engine's time; one that isn't answered in it is closed so. A batch that isn't answered takes all
    of that time for nothing, so what follows is played one by one, and more at once only where that is quick: where some hang, more may."""
    first, size = 0, FIRST_BATCH
    while first < len(entries):
        begin = monotonic()
        runs = answered(entries[first : first + size], of, engine)
        is_quick = monotonic() - begin < QUICK * (engine.seconds or 0)
        for place, run in enumerate(runs):
            yield run._replace(number=first + place)
        first += len(runs)
        size = 1 if not runs else 2 * size if is_quick else min(size, FIRST_BATCH)


def runs_played(entries: Sequence[Entry], of: Sessions, engine: Engine) -> Iterator[Run]:
    """What playing entries shows, session by session, numbered from 0 as they stand here."""
    return runs_within(entries, of, engine) if engine.seconds is None else runs_in_time(entries, of, engine)


def runs_of(entries: Sequence[Entry], of: Sessions, engine: Engine) -> List[Run]:
    """What playing entries shows, numbered from 0 as they stand here."""
    return list(runs_played(entries, of, engine))


def shown_beyond(entry: Entry, known: int, engine: Engine) -> Run:
    """What a session shows behind its first frames, which are known, and how it is closed."""
    with tempfile.TemporaryFile() as given, tempfile.TemporaryFile() as shown:
        given.write(b"[" + written_entry(without_ticking(entry) if engine.has_ticks else entry).encode() + b"]")
        given.seek(0)
        ran = watched(engine.words(), shown, given, engine.seconds)
        if ran.status not in (0, 1):
            raise Refused(refusal(ran.said, entry.name, [entry]))
        shown.seek(0)
        lines = shown.read().decode("utf-8", "replace").split("\n")[known:-1]
    path = "what the program wrote"
    values = [line_of(path, number, it) for number, it in enumerate(lines, known + 1)]
    frames = [it for it in map(frame_of, values[:-1]) if it is not None]
    if not values or len(frames) != len(values) - 1 or "close" not in values[-1]:
        raise Refused(f"{path} is no session of more than {plural(known, 'frame')}")
    return Run(0, entry.name, values[-1]["close"], values[-1].get("cause"), frames)


@contextmanager
def lines_or_played(sessions: Sessions, lines: Optional[str], engine: Engine) -> Iterator[Iterator[Run]]:
    """The runs of lines that are there, or else of the sessions, which are played now."""
    if lines is not None:
        yield read_runs(lines, sessions)
    else:
        yield runs_played(sessions.entries, sessions, engine)
