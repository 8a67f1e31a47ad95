"""The program's lines, read as docs/sessions.md has them."""
from __future__ import annotations

import json
import re
from functools import lru_cache
from typing import Any, Dict, Iterator, List, NamedTuple, Optional, Tuple, Union

from saxtegun.commands import Refused, plural
from saxtegun.files import read_lines
from saxtegun.sessions import LONE_SURROGATE, is_number

KINDS = ("start", "move", "undo", "restart", "load", "tick", "over")
# Of what kinds the frame is before one that shows that play is over.
BEFORE_OVER = ("move", "tick", "over")
READER = json.JSONDecoder()
CLOSES = ("passed", "differs", "stopped", "refused")
# How a session is closed that was played to its end.
PLAYED = ("passed", "differs")
# How a session is closed that the command has stopped, since it had no answer in its time. No program writes that.
UNANSWERED = "unanswered"
# How each line of the program ends.
SESSION = re.compile(r'"session":([0-9]{1,9})}$')
NUMBER = "(0|[1-9][0-9]{0,18})"
# The line of a frame as the program writes it, up to the text of its level.
LEVEL = '"level":'
HEAD = re.compile(rf'\{{"at":{NUMBER},"frame":{NUMBER},"kind":"({"|".join(KINDS)})",')
# No head is longer, with the key of its level; so many are known at once, and those of many sessions are the same.
MOST_OF_HEAD = 100
MOST_HEADS = 4096


class Unlike(Exception):
    """What a line is, that isn't the next of its session."""


class Frame(NamedTuple):
    """A frame: how many inputs were taken, what kind it is, its level text."""

    at: int
    kind: str
    level: str


class Run(NamedTuple):
    """What the program's lines say of a session. A cause is None where there is none."""

    number: int
    name: str
    close: str
    cause: Optional[str]
    frames: List[Frame]


def line_of(path: str, number: int, text: str) -> Dict[str, Any]:
    """A line of the program, as its values."""
    try:
        line = READER.decode(text)
    except (ValueError, RecursionError):
        line = None
    if not isinstance(line, dict) or not is_number(line.get("session"), 2**64):
        raise Refused(f"{path}, line {number}: no line of the program")
    if line.get("kind") is None and line.get("close") not in CLOSES:
        raise Refused(f"{path}, line {number}: neither a frame nor a close")
    # half a letter is none of UTF-8, and so only an escape makes one
    if "\\u" in text and any(LONE_SURROGATE.search(it) for it in line.values() if isinstance(it, str)):
        raise Refused(f"{path}, line {number}: a text of it holds half a letter (a lone surrogate)")
    return line


def frame_of(line: Dict[str, Any]) -> Optional[Frame]:
    """The frame of a line, or None where it is none."""
    if not is_number(line.get("at"), 2**64) or line.get("kind") not in KINDS or not isinstance(line.get("level"), str):
        return None
    return Frame(line["at"], line["kind"], line["level"])


def may_follow(before: Optional[Frame], frame: Frame) -> bool:
    """Whether a frame may stand behind another of its session, or first (None): a session begins with `start`, and is over only behind a step, at a later
    input, for good."""
    if before is None or frame.kind == "start":
        return before is None and frame.kind == "start" and frame.at == 0
    if frame.kind == "over":
        return before.kind in BEFORE_OVER and frame.at > before.at
    return frame.at >= before.at and before.kind != "over"


@lru_cache(maxsize=MOST_HEADS)
def head_of(text: str) -> Optional[Tuple[int, int, str]]:
    """What the head of a frame's line says: the inputs taken, its number, its kind; or None where the program writes none such."""
    found = HEAD.fullmatch(text)
    return (int(found[1]), int(found[2]), found[3]) if found else None


def written_frame(text: str, session: int, number: int) -> Optional[Frame]:
    """The frame of this number of a session that a line is, or None where it is to be read as JSON."""
    begin = text.find(LEVEL, 0, MOST_OF_HEAD)
    head = head_of(text[:begin]) if begin >= 0 else None
    if head is None or head[1] != number or "\\u" in text:
        return None
    try:
        level, end = READER.raw_decode(text, begin + len(LEVEL))
    except (ValueError, RecursionError):
        return None
    if not isinstance(level, str) or text[end:] not in (f',"session":{session}}}\n', f',"session":{session}}}'):
        return None
    return Frame(head[0], head[2], level)


def is_count(value: Any, count: int) -> bool:
    """Whether a value is this number, as neither 1.0 nor true is 1."""
    return is_number(value, 2**64) and value == count


def closed_by(line: Dict[str, Any], count: int) -> Optional[Run]:
    """The run that a close ends, without its frames, or None where it is no close of so many."""
    cause, name = line.get("cause"), line.get("name")
    if line["close"] not in CLOSES or not isinstance(name, str) or not (cause is None or isinstance(cause, str)):
        return None
    if not is_count(line.get("frames"), count) or (cause is None) == (line["close"] in ("stopped", "refused")):
        return None
    if count == 0 and line["close"] in PLAYED:
        # whoever played it has shown its start
        return None
    return Run(line["session"], name, line["close"], cause, [])


def close_of(line: Dict[str, Any], frames: List[Frame]) -> Optional[Run]:
    """The run that a close ends, or None where it is no close of so many frames."""
    run = closed_by(line, len(frames))
    return run._replace(frames=frames) if run else None


def next_in(line: Dict[str, Any], session: int, count: int, before: Optional[Frame]) -> Union[Frame, Run]:
    """What a line is behind so many frames of a session, the last of which is `before`: the next frame, or the close, without its frames."""
    if line["session"] != session:
        raise Unlike(f"session {line['session']} where session {session} is wanted")
    if "close" in line:
        run = closed_by(line, count)
        if run is None:
            raise Unlike(f"no close of a session of {plural(count, 'frame')}")
        return run
    frame = frame_of(line)
    if frame is None or not is_count(line.get("frame"), count) or not may_follow(before, frame):
        raise Unlike(f"not frame {count} of session {session}")
    return frame


def told_in(path: str) -> Iterator[Tuple[int, str, Union[Frame, Run]]]:
    """The program's lines with their numbers, each with the frame that it is, or with the run that it closes, without its frames."""
    session, count = 0, 0
    before: Optional[Frame] = None
    for number, text in read_lines(path):
        told: Union[Frame, Run, None] = written_frame(text, session, count)
        if not isinstance(told, Frame) or not may_follow(before, told):
            try:
                told = next_in(line_of(path, number, text), session, count, before)
            except Unlike as why:
                raise Refused(f"{path}, line {number}: {why}") from None
        yield number, text, told
        session, count, before = (session, count + 1, told) if isinstance(told, Frame) else (session + 1, 0, None)
    if count:
        raise Refused(f"{path}: the lines end within session {session}, which has no close")


def runs_in(path: str) -> Iterator[Tuple[int, Run]]:
    """What the program's lines say, session by session, each with the number of its last line."""
    frames: List[Frame] = []
    for number, _, told in told_in(path):
        if isinstance(told, Frame):
            frames.append(told)
        else:
            yield number, told._replace(frames=frames)
            frames = []
