"""Asks the engine for solutions: presses that win the level in which a session stands behind its inputs, and no fewer do."""
from __future__ import annotations

import json
import tempfile
from argparse import ArgumentParser, ArgumentTypeError, Namespace
from math import inf
from time import monotonic
from typing import Any, List, NamedTuple, Optional, Sequence, Tuple, Union

from saxtegun.commands import Refused, add_ticks, cut, plural, seconds_in
from saxtegun.descriptions import before, description_of
from saxtegun.differences import START, keywords_of
from saxtegun.games import CLOCK, game_of
from saxtegun.processes import Unanswered, watched
from saxtegun.programs import solver_words
from saxtegun.sessions import Entry, Input, is_number, written_entry
from saxtegun.ticks import without_ticking

# So many levels a search keeps, and as many as have room in so many bytes; where their number is named, they have all the room there is.
MOST_LEVELS, MOST_BYTES, ALL_BYTES = 1_000_000, 2**28, 2**62
# So many seconds a search has, and all that are asked for together.
SECONDS, WITHIN = 60.0, 600.0
# The presses in words, by their numbers.
WORDS = ("up", "left", "down", "right", "action")
MOST_PRESS = len(WORDS) - 1
# The inputs of which none is tried.
RESTART, TICK = "restart", "tick"
# Why a session stands in no level.
NO_LEVEL = {"over": "all levels are won", "stopped": "the session was stopped before", "refused": "the game is refused"}


class Solved(NamedTuple):
    """These presses win, and no shorter list does; none are needed where a level is won as it loads. Where rules restart, a
    shorter one may by such a restart."""

    inputs: List[Input]
    has_restarts: bool = False


class Unsolvable(NamedTuple):
    """No list of presses wins."""


class OnlyByRestart(NamedTuple):
    """No list of presses wins without a restart by a rule. What one leads to isn't searched."""


class Untried(NamedTuple):
    """No list of presses wins. These other inputs weren't tried, and may lead where no press does."""

    inputs: Tuple[str, ...]


class OutOfBounds(NamedTuple):
    """No list of so many presses wins; behind that there are more levels than were kept. Where rules restart, one may by such a restart."""

    levels: int
    inputs: int
    has_restarts: bool = False


class Unasked(NamedTuple):
    """There is no level to win, and why."""

    why: str


Answer = Union[Solved, Unsolvable, OnlyByRestart, Untried, OutOfBounds, Unasked]


class Bounds(NamedTuple):
    """How many levels a search keeps (None: as many as have room), how many seconds it has, whether games are played without their clock, and when all searches
    end."""

    levels: Optional[int] = None
    seconds: float = SECONDS
    has_ticks: bool = False
    end: float = inf

    def at_most(self, levels: int) -> Bounds:
        """These, with so many levels at most."""
        return self._replace(levels=min(levels, self.levels or levels))

    @property
    def seconds_left(self) -> float:
        """How many seconds the next search has."""
        return min(self.seconds, self.end - monotonic())

    @property
    def words(self) -> Tuple[str, str]:
        """The most levels that are kept, and the most bytes that they take, as the solver is told them."""
        return (str(MOST_LEVELS), str(MOST_BYTES)) if self.levels is None else (str(self.levels), str(ALL_BYTES))


def levels_in(word: str) -> int:
    """A number of levels, as the program takes it."""
    if not (word.isascii() and word.isdigit() and 1 <= int(word[-12:]) and len(word) <= 12):
        raise ArgumentTypeError("must be a number of levels from 1")
    return int(word)


def add_bounds(words: ArgumentParser) -> None:
    """The words of verbs that search."""
    words.add_argument("--levels", metavar="N", type=levels_in, help="keep so many levels of play at most (1,000,000, as far as they have room in 256 MiB)")
    words.add_argument("--within", metavar="SECONDS", type=seconds_in, default=WITHIN, help=f"search for so many seconds in all ({WITHIN:g}), and nowhere longer than {SECONDS:g}")
    add_ticks(words)


def bounds_of(given: Namespace) -> Bounds:
    return Bounds(given.levels, has_ticks=given.ticks_as_recorded, end=monotonic() + given.within)


# That no time is left for a search.
LATE = "the time is over (--within)"
CANT_ASK = "the engine can't be asked for a solution: "


def presses_in(value: Any) -> List[Input]:
    """The presses of an answer."""
    if not isinstance(value, list) or not all(is_number(it, MOST_PRESS) for it in value):
        raise ValueError
    return [*value]


def answer_in(line: bytes) -> Answer:
    """The answer that a line tells. Refused where it tells none."""
    try:
        ((kind, value),) = json.loads(line.decode("utf-8"))["solution"].items()
        if kind == "solved":
            return Solved(presses_in(value))
        if kind == "unsolvable":
            return Unsolvable()
        if kind == "outOfBounds":
            return OutOfBounds(int(value["levels"]), int(value["inputs"]))
        return Unasked(NO_LEVEL[kind])
    except (ValueError, TypeError, LookupError, AttributeError, OverflowError, RecursionError):
        raise Refused(f"{CANT_ASK}what it wrote is no answer") from None


def solution_of(entry: Entry, bounds: Bounds) -> Answer:
    """What the engine says of the level in which a session stands behind its inputs, or that it had no answer in time."""
    return solutions_of([entry], bounds)[0]


def solutions_of(entries: Sequence[Entry], bounds: Bounds) -> List[Answer]:
    """What the engine says of the levels in which sessions stand; of the first one alone where it has no time or memory for all."""
    if bounds.seconds_left <= 0:
        return [Unasked(LATE)]
    try:
        answers = asked(entries, bounds)
    except Unanswered:
        answers = [Unasked(LATE if bounds.seconds_left <= 0 else f"not answered in {bounds.seconds:g} s, as long as a level has: let it keep fewer (--levels)")]
    except OSError as why:
        # also where no room is left for what is asked: what was found before is told
        raise Refused(f"{CANT_ASK}{why.strerror}") from None
    if len(answers) < len(entries):
        return solutions_of(entries[:1], bounds) if len(entries) > 1 else answers
    return [as_known(answer, it, bounds.has_ticks) for answer, it in zip(answers, entries)]


def as_known(answer: Answer, entry: Entry, has_ticks: bool) -> Answer:
    """What an answer says of a game that may switch keys off, have rules that restart a level, or have more inputs than presses."""
    switch = switched_off(entry.source, answer.inputs) if isinstance(answer, Solved) else None
    if switch is not None:
        return Unasked(f"the fewest presses that win have one that the game switches off by `{switch}`")
    if isinstance(answer, Unasked) or not may_restart_elsewhere(entry):
        inputs = untried_in(entry.source, has_ticks) if isinstance(answer, Unsolvable) else ()
        return Untried(inputs) if inputs else answer
    return answer._replace(has_restarts=True) if isinstance(answer, (Solved, OutOfBounds)) else OnlyByRestart()


def may_restart_elsewhere(entry: Entry) -> bool:
    """Whether a rule may restart a level to one that a search hasn't seen, which takes such a press as lost. A search from the level's own beginning has seen
    it, unless a checkpoint is kept or rules run at the start."""
    source = entry.source
    return has_restarts(source) and (bool(entry.inputs) or gives(source, "checkpoint") or START in keywords_of(source))


def untried_in(source: str, has_ticks: bool) -> Tuple[str, ...]:
    """The inputs by which a game may be won though no presses win it: a restart leads to a checkpoint, which may have been kept in the midst of a press; a tick
    of its clock runs the rules as no press does."""
    may_keep = gives(source, "checkpoint") and switched_off(source, [RESTART]) is None
    return (*([RESTART] if may_keep else []), *([TICK] if has_ticks and CLOCK in keywords_of(source) else []))


def has_restarts(source: str) -> bool:
    """Whether a rule of a game may give `restart`."""
    return gives(source, "restart")


def gives(source: str, command: str) -> bool:
    """Whether a rule of a game may give a command."""
    return any(command in commands_of(it.words) for it in description_of(source).rules)


def commands_of(words: Sequence[str]) -> Sequence[str]:
    """The words of a rule behind its cells, without those of a message."""
    heard = [*before("message", words)]
    return heard[len(heard) - heard[::-1].index("]") :] if "]" in heard else heard


def switched_off(source: str, inputs: Sequence[Input]) -> Optional[str]:
    """The word of a game that switches off a key which some of these inputs is: the site takes no such key."""
    switches = game_of(source).switches
    return next((switches[it] for it in inputs if it in switches), None)


def asked(entries: Sequence[Entry], bounds: Bounds) -> List[Answer]:
    """What the engine says of the levels in which sessions stand, or one answer that tells of none. Unanswered where that takes too long."""
    played = [without_ticking(it) if bounds.has_ticks else it for it in entries]
    with tempfile.TemporaryFile() as given, tempfile.TemporaryFile() as told:
        given.write(f"[{','.join(written_entry(it._replace(level='')) for it in played)}]".encode())
        given.seek(0)
        seconds = bounds.seconds_left
        if seconds <= 0:
            return [Unasked(LATE)]
        ran = watched([*solver_words(), *bounds.words], told, given, seconds)
        if ran.status != 0 and ran.said == "memory":
            return [Unasked("there is not enough memory: let it keep fewer (--levels)")]
        if ran.status != 0:
            raise Refused(f"{CANT_ASK}{cut(ran.said) or f'it ended with status {ran.status}'}")
        told.seek(0)
        lines = told.readlines()
    if len(lines) != len(entries):
        raise Refused(f"{CANT_ASK}what it wrote is no answer")
    return [answer_in(it) for it in lines]


def presses_told(inputs: Sequence[Input]) -> str:
    """Presses, in words."""
    return " ".join(WORDS[it] if isinstance(it, int) else it for it in inputs)


def apart(has_restarts: bool) -> str:
    """Of which presses alone something is known, behind what is told of presses."""
    return " without a restart by a rule" if has_restarts else ""


def unknown_told(answer: Answer) -> str:
    """Why an answer doesn't say whether a level can be won."""
    if isinstance(answer, OutOfBounds):
        presses, levels = plural(answer.inputs, "press", "presses"), plural(answer.levels, "level")
        return f"no list of up to {presses} wins it{apart(answer.has_restarts)}, and longer ones lead to more than {levels} of play, as many as are kept (--levels)"
    if isinstance(answer, OnlyByRestart):
        return f"no presses win it{apart(True)}"
    if isinstance(answer, Untried):
        names, were = " and ".join(f"`{it}`" for it in answer.inputs), "was" if len(answer.inputs) == 1 else "were"
        return f"no presses win it; {names} {were} not tried{', and a checkpoint may be kept' if RESTART in answer.inputs else ''}"
    return answer.why if isinstance(answer, Unasked) else ""


def told(answer: Answer) -> str:
    """What an answer says of a level, in words."""
    if isinstance(answer, Solved) and not answer.inputs:
        return "won as it loads, without a press"
    if isinstance(answer, Solved):
        return f"solved in {plural(len(answer.inputs), 'press', 'presses')}, and in no fewer{apart(answer.has_restarts)}"
    if isinstance(answer, Unsolvable):
        return "can't be won: no presses win it"
    return f"not known: {unknown_told(answer)}"
