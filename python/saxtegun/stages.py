"""The stages of an input of a session, as a program tells them in lines: what the press gives, which groups acted and which instances fired, the movement,
the end."""
from __future__ import annotations

import json
import tempfile
from typing import Any, Dict, Iterator, NamedTuple, Optional, Tuple, Union

from saxtegun.commands import Refused
from saxtegun.playing import Engine, refusal
from saxtegun.processes import watched
from saxtegun.programs import stages_words
from saxtegun.sessions import LONE_SURROGATE, Entry, is_number, written_entry
from saxtegun.ticks import without_ticking

# The stages of a step in their order; a group or loop of rules is one before the movement, or one behind it.
INPUT, EARLY, MOVEMENT, LATE, END = NAMES = ("input", "early", "movement", "late", "end")
BLOCKS = (EARLY, LATE)
STOPS = ("loop-limit", "match-limit")
COMMANDS = ("again", "cancel", "checkpoint", "restart", "win")
DIRECTIONS = ("up", "left", "down", "right", "action")
READER = json.JSONDecoder()
# No line is longer that is read: it has one level.
MOST_OF_LINE = 2**26
MOST = 2**64 - 1
MOST_COLUMNS = 255


class Heading(NamedTuple):
    """A piece that heads somewhere: where it stands, its object and its direction."""

    column: int
    row: int
    name: str
    direction: str


class Stage(NamedTuple):
    """A stage of a step, with the level and the headings behind it. `tick` is the number of the step in its input, and `lines` are those of the source that a
    group or a loop is made of."""

    tick: int
    name: str
    block: Optional[int]
    lines: Tuple[int, ...]
    is_changed: bool
    commands: Tuple[str, ...]
    headings: Tuple[Heading, ...]
    level: str

    @property
    def is_block(self) -> bool:
        """Whether it is a group or a loop of rules."""
        return self.name in BLOCKS


class Firing(NamedTuple):
    """An instance of a rule that changed a cell, before the stage of its group or loop: the line of the rule, in which direction its rows were scanned, in
    which round of a loop and which pass of its group, counted from 0, at which places (of each row the cell where it begins), and what stands behind it."""

    tick: int
    name: str
    line: int
    direction: str
    loop_round: int
    group_pass: int
    places: Tuple[Tuple[Tuple[int, int], ...], ...]
    headings: Tuple[Heading, ...]
    level: str


class Stop(NamedTuple):
    """That a step stops behind the stages before it."""

    tick: int
    cause: str


Told = Union[Stage, Stop]
AnyTold = Union[Stage, Firing, Stop]


def heading_of(value: Any) -> Optional[Heading]:
    if not isinstance(value, list) or len(value) != 4 or not all(is_number(it, MOST_COLUMNS) for it in value[:2]):
        return None
    return Heading(*value) if isinstance(value[2], str) and value[3] in DIRECTIONS else None


def block_of(value: Dict[str, Any]) -> Optional[Tuple[Optional[int], Tuple[int, ...]]]:
    """The number of a group or a loop and its lines, which no other stage has; None where it doesn't say them."""
    block, lines = value.get("block"), value.get("lines")
    if value["stage"] not in BLOCKS:
        return (None, ()) if block is None and lines is None else None
    if not is_number(block, MOST) or not isinstance(lines, list) or not all(is_number(it, MOST) and it for it in lines):
        return None
    return block, tuple(lines)


def stage_of(value: Dict[str, Any]) -> Optional[Stage]:
    """The stage of a line, or None where it is none."""
    if value.get("stage") not in NAMES or not isinstance(value.get("changed"), bool) or not isinstance(value.get("level"), str):
        return None
    commands, headings, block = value.get("commands"), headings_of(value.get("headings")), block_of(value)
    if block is None or headings is None or not isinstance(commands, list) or any(it not in COMMANDS for it in commands):
        return None
    return Stage(value["tick"], value["stage"], *block, value["changed"], tuple(commands), headings, value["level"])


def headings_of(value: Any) -> Optional[Tuple[Heading, ...]]:
    """The headings of a line, or None where they are none."""
    if not isinstance(value, list):
        return None
    found = [it for it in map(heading_of, value) if it is not None]
    return tuple(found) if len(found) == len(value) else None


def place_of(value: Any) -> Optional[Tuple[int, int]]:
    """The column and row of a place; the cells of its gap are read, and not told."""
    if not isinstance(value, list) or len(value) != 3 or not all(is_number(it, MOST_COLUMNS) for it in value):
        return None
    return value[0], value[1]


def places_of(value: Any) -> Optional[Tuple[Tuple[Tuple[int, int], ...], ...]]:
    """The places of a firing, of each combination one of each row; None where they are none."""
    if not isinstance(value, list) or not value or not all(isinstance(it, list) for it in value):
        return None
    found = tuple(tuple(place for place in map(place_of, it) if place is not None) for it in value)
    return found if all(len(one) == len(it) for one, it in zip(found, value)) else None


def firing_of(value: Dict[str, Any]) -> Optional[Firing]:
    """The firing of a line, or None where it is none."""
    numbers = [value.get(it) for it in ("block", "group", "instance", "line", "pass", "round")]
    headings, places = headings_of(value.get("headings")), places_of(value["places"])
    if value.get("stage") not in BLOCKS or not isinstance(value.get("level"), str) or value.get("direction") not in DIRECTIONS:
        return None
    if headings is None or places is None or not all(is_number(it, MOST) for it in numbers):
        return None
    return Firing(value["tick"], value["stage"], value["line"], value["direction"], value["round"], value["pass"], places, headings, value["level"])


def told_in(text: str, at: int) -> Optional[AnyTold]:
    """The stage, the firing or the stop of an input that a line tells, or None where it tells none."""
    try:
        value = READER.decode(text)
    except (ValueError, RecursionError):
        return None
    if not isinstance(value, dict) or value.get("input") != at or not is_number(value.get("tick"), MOST):
        return None
    if "stop" in value:
        return Stop(value["tick"], value["stop"]) if value["stop"] in STOPS else None
    stage: Union[Stage, Firing, None] = firing_of(value) if "places" in value else stage_of(value)
    # half a letter is none of UTF-8, and so only an escape makes one
    if stage is None or ("\\u" in text and any(LONE_SURROGATE.search(it) for it in (stage.level, *(it.name for it in stage.headings)))):
        return None
    return stage


def lines_of_stages(entry: Entry, at: int, engine: Engine, has_firings: bool = False) -> Iterator[str]:
    """The lines that tell the stages of an input, of which `at` are taken behind it (0: the start), and the firings too where these are asked for. There are
    none where it takes no step."""
    words = [*stages_words(engine.stages), "0", str(at), *(["columns"] if engine.order == "columns" else []), *(["firings"] if has_firings else [])]
    with tempfile.TemporaryFile() as given, tempfile.TemporaryFile() as shown:
        given.write(b"[" + written_entry(without_ticking(entry) if engine.has_ticks else entry).encode() + b"]")
        given.seek(0)
        ran = watched(words, shown, given, engine.seconds)
        if ran.status != 0:
            raise Refused(refusal(ran.said, entry.name, [entry]))
        shown.seek(0)
        for line in iter(lambda: shown.readline(MOST_OF_LINE + 1), b""):
            try:
                if len(line) > MOST_OF_LINE:
                    raise Refused(f"a line of stages has more than {MOST_OF_LINE // 2**20} MiB, and is not read")
                yield line.decode("utf-8")
            except UnicodeDecodeError:
                raise Refused("a line of stages is not UTF-8") from None


def lines_and_stages(entry: Entry, at: int, engine: Engine, has_firings: bool = False) -> Iterator[Tuple[str, AnyTold]]:
    """The lines of an input with what each tells. Refused at the first that tells no stage of it."""
    tick = 0
    for number, text in enumerate(lines_of_stages(entry, at, engine, has_firings), 1):
        told = told_in(text, at) if text.endswith("\n") else None
        if told is None or not tick <= told.tick <= tick + 1 or (isinstance(told, Firing) and not has_firings):
            raise Refused(f"line {number} of what the program of stages wrote is no stage of its input")
        tick = told.tick
        yield text, told


def stages_and_firings_of(entry: Entry, at: int, engine: Engine) -> Iterator[AnyTold]:
    """The stages of an input, one after the other, and before each group or loop the firings of its instances."""
    return (told for _, told in lines_and_stages(entry, at, engine, has_firings=True))


def stages_of(entry: Entry, at: int, engine: Engine) -> Iterator[Told]:
    """The stages of an input, one after the other."""
    return (told for _, told in lines_and_stages(entry, at, engine) if not isinstance(told, Firing))
