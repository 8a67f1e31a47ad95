"""A session that the engine keeps open in Node: a key is played by itself, and not with all that came before it."""
from __future__ import annotations

import json
import subprocess
from contextlib import contextmanager, suppress
from typing import IO, Any, Dict, Iterator, List, Optional

from saxtegun.commands import Refused
from saxtegun.lines import Frame, Run, frame_of, line_of
from saxtegun.playing import Engine
from saxtegun.processes import Said, room_for_now, started
from saxtegun.programs import OPEN_IN_NODE, is_in_node
from saxtegun.sessions import Entry, Input
from saxtegun.ticks import without_ticking

WRITTEN = "what the engine wrote"
FAULT = '{"fault":'


class Closed(Refused):
    """The session is not open any more: whatever is to be played is played whole."""


class OpenSession:
    """A session that is open, as far as its inputs go."""

    def __init__(self, name: str, asked: IO[bytes], answered: IO[bytes]) -> None:
        self.name, self.asked, self.answered = name, asked, answered

    def line(self) -> Dict[str, Any]:
        """The next line that is answered."""
        line = self.answered.readline()
        if not line.endswith(b"\n"):
            raise Closed(f"{WRITTEN} has no end")
        text = line.decode("utf-8", "replace").rstrip("\n")
        if text.startswith(FAULT):
            raise Closed(f"the engine doesn't do that: {text}")
        return line_of(WRITTEN, 1, text)

    def answer(self) -> Run:
        """What came with the last input, and how the session closes."""
        frames: List[Frame] = []
        while True:
            value = self.line()
            if "close" in value:
                return Run(0, self.name, value["close"], value.get("cause"), frames)
            frame = frame_of(value)
            if frame is None:
                raise Closed(f"{WRITTEN} is no session")
            frames.append(frame)

    def ask(self, what: object) -> Run:
        """What a line of its input is answered. Closed where no answer comes, or one that is none."""
        try:
            self.asked.write(json.dumps(what).encode() + b"\n")
            self.asked.flush()
            return self.answer()
        except (OSError, ValueError, Refused) as why:
            raise Closed(str(why)) from None

    def give(self, key: Input) -> Run:
        """What one more input shows."""
        return self.ask([key])

    def back(self, count: int) -> Run:
        """What the last of the first inputs shows, so many of which are left."""
        return self.ask(count)


@contextmanager
def opened(entry: Entry, engine: Engine) -> Iterator[Optional[OpenSession]]:
    """The session of an entry without its inputs, open as long as this lasts; None where a program plays that keeps none open."""
    words = engine.words()
    if not is_in_node(words):
        yield None
        return
    source = (without_ticking(entry) if engine.has_ticks else entry).source
    with room_for_now() as room:
        with open(f"{room}/game.txt", "w", encoding="utf-8", newline="") as game:
            game.write(source)
        command = [words[0], str(OPEN_IN_NODE), "--order", engine.order, str(entry.index), f"{room}/game.txt"]
        with started(command, subprocess.PIPE, subprocess.PIPE) as ran:
            assert ran.stdin is not None and ran.stdout is not None and ran.stderr is not None
            said = Said(ran.stderr)
            try:
                with ran.stdout as answered, closed_at_last(ran.stdin) as asked:
                    session = OpenSession(entry.name, asked, answered)
                    yield session if opens(session) else None
            finally:
                said.hand_on()


@contextmanager
def closed_at_last(stream: IO[bytes]) -> Iterator[IO[bytes]]:
    """A stream that is closed then, also where nobody reads any more what waits in it."""
    try:
        yield stream
    finally:
        with suppress(OSError):
            stream.close()


def opens(session: OpenSession) -> bool:
    """Whether a session has opened."""
    try:
        return session.answer().close != "refused"
    except Refused:
        return False
