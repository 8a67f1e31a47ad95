"""Whether a session solves its game: `passed` says that its level is as recorded, not that it was won."""
from __future__ import annotations

from typing import Collection, Dict, List, Optional, Sequence

from saxtegun.descriptions import expected
from saxtegun.levelsets import first_level, wins_of
from saxtegun.lines import UNANSWERED, Run
from saxtegun.playing import Engine, runs_of, runs_played
from saxtegun.sessions import Entry, Sessions

SOLVED, NOT_SOLVED, NOT_PLAYED, NOT_ANSWERED = "solved", "not solved", "not played", "not answered"
# Why a session fails of which it isn't known whether it is solved, as it must be.
UNKNOWN_END = "whether it is solved had no answer in its time"
# The last win shows no frame of its own; with one more input that runs no rule, play that is over shows it.
ONE_MORE = "undo"
MOST_INPUTS = 65_536


def solved_told(entry: Entry, run: Optional[Run]) -> str:
    """How a session ended: `run` is what it shows with one more input."""
    if run is not None and run.close == UNANSWERED:
        return NOT_ANSWERED
    if run is None or not run.frames:
        return NOT_PLAYED
    if run.frames[-1].kind == "over":
        return SOLVED
    wins = wins_of(run)
    return f"solved up to level {first_level(entry) + wins - 1}" if wins else NOT_SOLVED


def with_one_more(entries: Sequence[Entry]) -> List[Entry]:
    return [it._replace(inputs=[*it.inputs, ONE_MORE]) for it in entries]


def no_longer(end: str) -> str:
    """Why a session fails that passed, and must be solved."""
    return UNKNOWN_END if end == NOT_ANSWERED else f"no longer solved: {end}"


def unsolved_told(whys: Collection[str]) -> str:
    """How many sessions passed and must be solved, and aren't, or of how many that isn't known, behind the counts of all."""
    unknown = sum(it == UNKNOWN_END for it in whys)
    counts = ((len(whys) - unknown, "no longer solved"), (unknown, "of which it isn't known whether they are solved"))
    return "".join(f", {count} {told}" for count, told in counts if count)


def unsolved_among(sessions: Sessions, engine: Engine) -> Dict[int, str]:
    """Why sessions fail that must be solved as their file says, if they pass; by their numbers. Lines don't show the last win, so they are played."""
    wanted = [it for it in sessions.entries if it.is_solved_wanted]
    ends = {it.number: NOT_PLAYED for it in wanted}
    played = [it for it in wanted if len(it.inputs) < MOST_INPUTS]
    for entry, run in zip(played, runs_played(with_one_more(played), sessions, engine) if played else ()):
        ends[entry.number] = solved_told(entry, run)
    return {number: no_longer(end) for number, end in ends.items() if end != SOLVED}


def solved_of(entries: Sequence[Entry], runs: Sequence[Run], of: Sessions, engine: Engine) -> Dict[int, str]:
    """How each session ended that was played, by its place among these."""
    places = [it for it, run in enumerate(runs) if run.close in ("passed", "differs") and len(entries[it].inputs) < MOST_INPUTS]
    longer = with_one_more([entries[it] for it in places])
    shown = runs_of(longer, of, engine) if longer else []
    with expected(entries[place].source for place, run in zip(places, shown) if wins_of(run)):
        return {place: solved_told(entries[place], run) for place, run in zip(places, shown)}
