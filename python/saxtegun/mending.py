"""Recordings that no longer solve their levels, mended: the longest beginning of each from which its level can still be won, and a shortest way on."""
from __future__ import annotations

from typing import Dict, List, NamedTuple, Optional, Sequence, Tuple, Union

from saxtegun.budget import EXPLAINING, UsedUp
from saxtegun.commands import Refused, cut, plural
from saxtegun.explanations import told as told_of_run
from saxtegun.keeping import Beginnings, Kept, longest, longest_of_all
from saxtegun.levels import Labels, read_cells
from saxtegun.levelsets import count_of_levels, first_level, level_of_recorded, wins_of
from saxtegun.lines import PLAYED, UNANSWERED, Run
from saxtegun.playing import Engine, runs_of
from saxtegun.sessions import Entry, Input, Sessions
from saxtegun.solutions import MOST_INPUTS, NOT_ANSWERED, SOLVED, solved_of
from saxtegun.solving import LATE, Answer, Bounds, Solved, Unasked, Unsolvable, has_restarts, solution_of, solutions_of, told, unknown_told
from saxtegun.texts import GameText

# The inputs that may lead out of a level that no presses win any more.
LEADING_OUT = ("undo", "restart", "tick")
# So many levels are kept where it is first asked about beginnings.
FEW_LEVELS = 20_000


class Standing(NamedTuple):
    """Where a session stands behind its inputs: how many levels it has won, behind how many inputs it came into the one in which it stands, how many inputs
    were played, and whether it has won them all."""

    won: int
    begin: int
    played: int
    is_over: bool


class Mended(NamedTuple):
    """A session that wins again: with how many of its inputs it begins, what follows these, and what is known of longer beginnings, if they aren't lost."""

    entry: Entry
    kept: int
    presses: List[Input]
    longer: Optional[Answer] = None


class Left(NamedTuple):
    """A session that stays as it is, and why."""

    entry: Entry
    why: str


def standing_of(entry: Entry, run: Run, is_over: bool) -> Optional[Standing]:
    """Where a session stands that has shown this, or None where it is not played."""
    if not run.frames:
        return None
    loads = [it.at for it in run.frames if it.kind == "load"]
    played = len(entry.inputs) if run.close in PLAYED else run.frames[-1].at
    return Standing(wins_of(run) + is_over, loads[-1] if loads else 0, played, is_over)


def guard_game(game: GameText, engine: Engine, seconds: float) -> None:
    """Refuses a game that the engine refuses, by its sentence. One that it doesn't begin in so many seconds isn't known to be refused."""
    entry = Entry(0, "a level", game.source, [], "", 0, {}, False)
    run = runs_of([entry], Sessions(game.path, "", []), engine._replace(seconds=min(seconds, engine.seconds or seconds)))[0]
    if run.close == "refused":
        sentence, below = told_of_run(run, entry, game=game.path)
        raise Refused(f"{game.path} is not played: {sentence}" + (f": {below[0]}" if below else ""))


class Reached(NamedTuple):
    """What a session shows that wins a level, and where it stands then."""

    run: Run
    standing: Standing


def reached_of(entry: Entry, level: int, of: Sessions, engine: Engine) -> Reached:
    """What a session shows that wins the level of this number. Refused where the program that plays doesn't win."""
    run = runs_of([entry], of, engine)[0]
    end = solved_of([entry], [run], of, engine).get(0)
    if run.close == UNANSWERED or end == NOT_ANSWERED:
        raise Refused(f"what wins level {level} of {cut(of.path)} was found, but is {run.cause or NOT_ANSWERED} by the program that plays")
    standing = standing_of(entry, run, end == SOLVED)
    if standing is None or run.close not in PLAYED or first_level(entry) + standing.won <= level:
        raise Refused(f"level {level} of {cut(of.path)} is not won by the presses that were found, as the program plays: it is another one than the engine that was asked")
    return Reached(run, standing)


def recorded(entry: Entry, reached: Reached, of: Sessions) -> Entry:
    """A session with the level that it reaches as its recorded one."""
    level = reached.run.frames[-1].level
    if read_cells(level, Labels()) is None:
        number = first_level(entry) + reached.standing.won - 1
        raise Refused(f"level {number} of {cut(of.path)} is won, but its last level can't be recorded: a name of an object holds a comma")
    return entry._replace(level=level)


def won(entry: Entry, level: int, of: Sessions, engine: Engine) -> Entry:
    """A session that wins the level of this number, with the level that it reaches as its recorded one. It must be solved, if it is: no frame shows the last win."""
    reached = reached_of(entry, level, of, engine)
    return recorded(entry, reached, of)._replace(is_solved_wanted=reached.standing.is_over)


def wins_wanted(entry: Entry, before: Optional[int]) -> Optional[int]:
    """How many levels a session is to win: all, where it must be solved; or as many as it won before. None where that isn't known."""
    return count_of_levels(entry.source) - first_level(entry) + 1 if entry.is_solved_wanted else before


def wins_recorded(entry: Entry, order: str) -> int:
    """How many levels a session won when it was recorded, at least: those before the one that its recorded level is of. None, where there is no time to see."""
    try:
        with EXPLAINING.spent():
            recorded = level_of_recorded(entry, order)
    except UsedUp:
        return 0
    return max(0, recorded.level - first_level(entry)) if recorded is not None else 0


def not_won_told(level: int, which: str, answer: Answer) -> str:
    """That a level can't be won, or that it isn't known whether it can."""
    if isinstance(answer, Unsolvable):
        return f"level {level}{which} {told(answer)}"
    return f"of level {level}{which} it isn't known whether it can be won: {unknown_told(answer)}"


class Mender:
    """Mends sessions over the text at hand."""

    def __init__(self, of: Sessions, engine: Engine, bounds: Bounds) -> None:
        self.of, self.engine, self.bounds = of, engine, bounds

    def ask(self, entry: Entry, count: int) -> Answer:
        """Whether the level can be won in which a session stands behind its first inputs."""
        return solution_of(entry._replace(inputs=entry.inputs[:count]), self.bounds)

    def ask_all(self, entry: Entry, counts: Sequence[int], is_full: bool) -> List[Answer]:
        """Whether the level can be won in which a session stands behind so many of its inputs. No beginning is written out where time is over."""
        if self.bounds.seconds_left <= 0:
            return [Unasked(LATE)]
        return solutions_of([entry._replace(inputs=entry.inputs[:it]) for it in counts], self.bounds if is_full else self.bounds.at_most(FEW_LEVELS))

    def kept(self, entry: Entry, standing: Standing) -> Kept:
        """The longest beginning of a session from which the level can be won in which it stands. No press leads out of a level that is lost."""
        has_more = self.bounds.levels is None or self.bounds.levels > FEW_LEVELS
        of = Beginnings(lambda counts, is_full: self.ask_all(entry, counts, is_full), standing.begin, standing.played, has_more)
        leads_out = any(it in LEADING_OUT for it in entry.inputs[standing.begin : standing.played]) or has_restarts(entry.source)
        return longest_of_all(of) if leads_out else longest(of)

    def way_on(self, entry: Entry, standing: Standing) -> Union[Mended, Left]:
        """The longest beginning of a session from which the level can be won in which it stands, and a shortest way on."""
        it = self.kept(entry, standing)
        if it.length is None or not isinstance(it.answer, Solved):
            return Left(entry, not_won_told(first_level(entry) + standing.won, "" if it.length is None else ", from its beginning,", it.answer))
        presses = it.answer.inputs
        return Mended(entry._replace(inputs=[*entry.inputs[: it.length], *presses]), it.length, presses, it.longer)

    def reached(self, entry: Entry, won: int) -> Union[Reached, Left]:
        """Where a session stands that wins one level more than so many, at least: others may be won while they load."""
        if len(entry.inputs) >= MOST_INPUTS:
            return Left(entry, f"it would have {plural(len(entry.inputs), 'input')}, which are too many")
        return reached_of(entry, first_level(entry) + won, self.of, self.engine)

    def mended(self, entry: Entry, standing: Standing, wanted: int) -> Union[Mended, Left]:
        """The session, which then wins so many levels."""
        first = self.way_on(entry, standing)
        if isinstance(first, Left):
            return first
        longer, reached = first.entry, self.reached(first.entry, standing.won)
        while isinstance(reached, Reached) and reached.standing.won < wanted:
            wins = reached.standing.won
            answer = self.ask(longer, len(longer.inputs))
            if not isinstance(answer, Solved):
                return Left(entry, not_won_told(first_level(entry) + wins, ", which it is to win too,", answer))
            longer = longer._replace(inputs=[*longer.inputs, *answer.inputs])
            reached = self.reached(longer, wins)
        if isinstance(reached, Left):
            return reached._replace(entry=entry)
        return Mended(recorded(longer, reached, self.of), first.kept, longer.inputs[first.kept :], first.longer)
