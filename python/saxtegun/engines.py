"""Plays sessions by an engine that may have any error. A crash, a hang and a line that is none are answers as others are: of a session, with the frames before it."""
from __future__ import annotations

import os
import re
import subprocess
from argparse import Namespace
from time import monotonic
from typing import IO, Any, Iterator, List, NamedTuple, Optional, Sequence, Tuple

from saxtegun.budget import EXPLAINING, NOT_LOOKED_AT
from saxtegun.commands import Refused, cut
from saxtegun.explanations import input_told
from saxtegun.lines import UNANSWERED, Frame, Run, close_of, frame_of, is_count, line_of, may_follow, written_frame
from saxtegun.playing import Engine, batches
from saxtegun.processes import PATIENCE, Said, Unanswered, check_bounds, check_wanted, end, room_for_now, started, time_left, wait_a_while, written_to
from saxtegun.programs import stages_words
from saxtegun.sessions import Entry

# The word for our own engine, where an engine is named.
OURS = "saxtegun"
# How a session is closed here that an engine failed at.
CRASHED, STRAY = "crashed", "stray"
FAILED = (CRASHED, STRAY, UNANSWERED)
# So many seconds a session has where nothing else is said.
SECONDS = 10.0
# So many lines that are none are read for a session, and so many bytes of a line: an engine in a loop writes more than is read soon.
MOST_STRAY = 1000
MOST_OF_LINE = 2**30
# So many lines that an engine says of itself are kept, and so many sessions are played first; then twice as many as long as that is quick.
MOST_KEPT = 200
FIRST_BATCH, MOST_IN_BATCH, QUICK = 64, 4096, 0.2
WHY = re.compile(r"(?:\w+\.)*\w*(?:Error|Exception)\b.*|.*panicked at.*")


class Heard(Said):
    """Keeps what an engine says of itself, and hands nothing on."""

    def __init__(self, stream: IO[bytes]) -> None:
        self.lines: List[str] = []
        super().__init__(stream)

    def take(self, line: str) -> None:
        if line.strip() and len(self.lines) < MOST_KEPT:
            self.lines.append(line.strip())

    @property
    def why(self) -> str:
        """The line that says why it ended: that of an exception, or else the last one."""
        return cut(next((it for it in self.lines if WHY.match(it)), self.lines[-1] if self.lines else ""))


class Ended(NamedTuple):
    """How a call of an engine ended: with a status, or None where it was stopped, and what it said of that."""

    status: Optional[int]
    why: str

    @property
    def is_good(self) -> bool:
        return self.status in (0, 1)

    def told(self, seconds: Optional[float], when: str = "") -> str:
        if self.status is None:
            return f"not answered in {seconds:g} s{when}"
        how = f"ended by signal {-self.status}" if self.status < 0 else f"ended with status {self.status}"
        return f"{how}{when}: {self.why}" if self.why else f"{how}{when}"


def call(words: Sequence[str], output: Any, seconds: Optional[float]) -> Ended:
    """Runs an engine to its end, or so many seconds."""
    begin, written = monotonic(), written_to(output)
    with started(words, subprocess.DEVNULL, output) as ran:
        assert ran.stderr is not None
        heard = Heard(ran.stderr)
        try:
            while ran.poll() is None:
                check_bounds(words[0], written(), heard.count)
                wait_a_while(ran, time_left(begin, seconds))
        except Unanswered:
            return Ended(None, "")
        heard.join(PATIENCE)
        if heard.is_alive():
            # what it has started, and left behind, still holds its stream
            end(ran)
        return Ended(ran.returncode, heard.why)


class Reader:
    """Reads the lines that an engine wrote for entries. A line that is none is kept as the fault of its session, which is read on without it."""

    def __init__(self, entries: Sequence[Entry]) -> None:
        self.entries = entries
        self.runs: List[Run] = []
        self.frames: List[Frame] = []
        self.stray: Optional[Tuple[str, int]] = None
        self.count = 0

    @property
    def is_lost(self) -> bool:
        """Whether so much that is none was read of a session that its close is no longer looked for."""
        return self.count > MOST_STRAY

    def take(self, text: str) -> None:
        number = len(self.runs)
        frame = written_frame(text, number, len(self.frames))
        run = None
        if frame is None and number < len(self.entries):
            frame, run = self.read(text, number)
        if frame is not None and self.is_next(frame, number):
            self.frames.append(frame)
        elif run is not None:
            self.runs.append(self.run_of(run))
            self.frames, self.stray, self.count = [], None, 0
        else:
            self.note(text)

    def take_data(self, data: bytes) -> None:
        """Takes a line as it was written. One that isn't UTF-8 is none: two that differ in such bytes alone would be read as the same."""
        try:
            text = data.decode("utf-8")
        except UnicodeDecodeError:
            self.note(data.decode("utf-8", "replace"))
        else:
            self.take(text)

    def note(self, text: str) -> None:
        """Keeps a line that is none as the fault of its session, if it is the first."""
        self.stray = self.stray or (text.rstrip("\n"), len(self.frames))
        self.count += 1

    def is_next(self, frame: Frame, number: int) -> bool:
        """Whether a frame may be the next of a session."""
        return number < len(self.entries) and frame.at <= len(self.entries[number].inputs) and may_follow(self.frames[-1] if self.frames else None, frame)

    def read(self, text: str, number: int) -> Tuple[Optional[Frame], Optional[Run]]:
        """A line as the next frame of a session, or as its close, or as neither."""
        try:
            line = line_of("", 0, text)
        except Refused:
            return None, None
        if line["session"] != number:
            return None, None
        if "close" not in line:
            return frame_of(line) if is_count(line.get("frame"), len(self.frames)) else None, None
        run = close_of(line, self.frames)
        return None, run if run is not None and run.name == self.entries[number].name else None

    def run_of(self, run: Run) -> Run:
        """A run that is closed; by its stray line where it has one."""
        return run if self.stray is None else run._replace(close=STRAY, cause=self.stray[0], frames=self.frames[: self.stray[1]])

    def end(self, ended: Ended, seconds: Optional[float]) -> Optional[Run]:
        """The run of the session behind those that are closed, at which the engine failed; None where it did not."""
        number = len(self.runs)
        if number == len(self.entries):
            if self.stray is not None and self.runs:
                self.runs[-1] = self.runs[-1]._replace(close=STRAY, cause=self.stray[0])
            return None
        name = self.entries[number].name
        if (ended.is_good or self.is_lost) and self.stray is not None:
            return Run(number, name, STRAY, self.stray[0], self.frames[: self.stray[1]])
        close = UNANSWERED if ended.status is None else CRASHED
        return Run(number, name, close, ended.told(seconds, " before the session was closed" if ended.is_good else ""), self.frames)


class Answer(NamedTuple):
    """What a call shows: the sessions that were closed, and the one behind them at which the engine failed, or None."""

    runs: List[Run]
    failed: Optional[Run]


def asked(entries: Sequence[Entry], engine: Engine) -> Answer:
    """Plays entries in one call."""
    reader = Reader(entries)
    with room_for_now() as room:
        path, lines = os.path.join(room, "sessions.json"), os.path.join(room, "lines")
        with open(path, "wb") as file:
            file.write(b"[" + b",".join(next(batches(entries))) + b"]")
        with open(lines, "wb") as output:
            ended = call([*engine.words(), path], output, engine.seconds)
        with open(lines, "rb") as shown:
            for data in iter(lambda: shown.readline(MOST_OF_LINE), b""):
                check_wanted()
                if data.endswith(b"\n") or ended.is_good:
                    reader.take_data(data)
                if reader.is_lost:
                    break
    failed = reader.end(ended, engine.seconds)
    if failed is None and not ended.is_good and reader.runs:
        # all is closed, and then it fails
        last = reader.runs.pop()
        failed = last._replace(close=UNANSWERED if ended.status is None else CRASHED, cause=ended.told(engine.seconds, " behind the last close"))
    return Answer(reader.runs, failed)


def parts_of(entries: Sequence[Entry]) -> List[Sequence[Entry]]:
    """Entries as many as go into a file, and those that are left."""
    count = len(next(batches(entries)))
    return [entries[:count], *([entries[count:]] if entries[count:] else [])]


def answered(entries: Sequence[Entry], engine: Engine) -> Iterator[Run]:
    """What playing entries at once shows, in their order, numbered from 0. Where the engine fails the one behind those that it closed is played alone,
    and of the others each half: so each session at which it fails is found, whatever it had held back of its lines."""
    left, number = [entries], 0
    while left:
        some, *rest = parts_of(left.pop())
        left += rest
        answer = asked(some, engine)
        runs = answer.runs if answer.failed is None or len(some) > 1 else [answer.failed]
        for run in runs:
            yield run._replace(number=number)
            number += 1
        behind = some[len(runs) :]
        middle = 1 + len(behind) // 2
        left += [it for it in (behind[middle:], behind[1:middle], behind[:1]) if it]


def answers(entries: Sequence[Entry], engine: Engine) -> Iterator[Run]:
    """What playing entries shows, session by session, numbered from 0; each has the engine's time, which all of a batch together keep too."""
    first, size = 0, FIRST_BATCH
    while first < len(entries):
        begin = monotonic()
        for place, run in enumerate(answered(entries[first : first + size], engine)):
            yield run._replace(number=first + place)
        first += size
        is_quick = engine.seconds is None or monotonic() - begin < QUICK * engine.seconds
        size = min(2 * size, MOST_IN_BATCH) if is_quick else FIRST_BATCH


def engine_at(path: str, engine: Engine) -> Engine:
    """An engine by its path, or ours by its word. Refused where it can't be run."""
    if path != OURS and os.path.isfile(path) and not os.access(path, os.X_OK):
        raise Refused(f"{path} can't be run: it isn't executable (chmod +x)")
    named = engine._replace(program=None if path == OURS else path)
    named.words()
    return named


def tellers_of(given: Namespace) -> List[Optional[str]]:
    """What tells the stages of two engines, None for what tells ours; nothing where that isn't named. Refused where one isn't there."""
    tellers = [None if it == OURS else it for it in given.stages or []]
    for it in tellers:
        stages_words(it)
    return tellers


def with_frames(entry: Entry, run: Run, engine: Engine) -> Optional[Run]:
    """A run at which an engine failed, with the frames before: where it showed none, those of the longest beginning that it answers. None where there
    is no time left to look for these."""
    if run.close not in (CRASHED, UNANSWERED) or run.frames:
        return run
    low, high, known = 0, len(entry.inputs), run
    # it fails with `high` inputs, and answers with fewer than `low`
    while low < high:
        middle = (low + high) // 2
        seconds = min(EXPLAINING.left, engine.seconds or EXPLAINING.left)
        if seconds <= 0:
            return None
        with EXPLAINING.spent():
            shown = asked([entry._replace(inputs=entry.inputs[:middle])], engine._replace(seconds=seconds))
        if not EXPLAINING.is_left() and shown.failed is not None:
            # it was stopped before its own time
            return None
        if shown.failed is None and shown.runs[0].close not in FAILED:
            low, known = middle + 1, shown.runs[0]
        else:
            high = middle
    return run._replace(frames=known.frames)


def failure_told(entry: Entry, run: Run, name: str, is_known: bool = True) -> str:
    """At what an engine failed, in a sentence without its end, and where, if that is known."""
    if not is_known:
        return f"{name} {'has no answer' if run.close == UNANSWERED else 'crashed'}: {run.cause}; behind which input is {NOT_LOOKED_AT}"
    at = run.frames[-1].at if run.frames else 0
    where = f"after input {at - 1} ({input_told(entry.inputs[at - 1])})" if at else "after the start" if run.frames else "before its first frame"
    if run.close == UNANSWERED:
        return f"{name} has no answer {where}: {run.cause}"
    if run.close == STRAY:
        return f"{name} wrote a line {where} that is none of its session: {cut(run.cause or '') or 'an empty one'}"
    return f"{name} crashed {where}: {run.cause}"
