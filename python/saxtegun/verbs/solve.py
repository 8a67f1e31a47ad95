"""Looks for solutions of a game's levels: a shortest one of each, or that there is
none.

A line a level says how it is: solved in so many presses, and no fewer win it;
or won as it loads, without a press; or no presses win it; or nothing is known,
since more levels of play were reached than are kept, or time was over. The
presses stand below it. --level N looks at the N-th level alone; messages don't
count. Presses alone are tried: of a game with a clock, or with `checkpoint`, where
a restart may lead elsewhere, it isn't known of a level that no presses win
whether a tick or the restart key wins it.
Where a rule gives `restart`, what such a restart leads to isn't searched. In a
game with `checkpoint` or `run_rules_on_level_start` it may be another beginning:
of a level that no presses win without one it isn't known whether it can be won.

With --save each solution is added to SESSIONS.json as a recording of its level,
with the empty text in place of the game's: `saxtegun test GAME.txt SESSIONS.json`
plays it. That of the last level must then be solved (its entry says "solved"): no
frame shows the last win. A level that has a recording with these presses there
gets no second one.

Exit status: 0 all are solved, 1 some level can't be won, 2 of some level it
isn't known, or something is refused."""
from __future__ import annotations

import json
import sys
from argparse import ArgumentParser, ArgumentTypeError, Namespace
from typing import List, NamedTuple, Optional

from saxtegun.beginnings import answer_of, begin_of
from saxtegun.commands import Refused, cut, plural, printable, say
from saxtegun.files import guard_output, guard_places, locked, write_whole
from saxtegun.levelsets import count_of_levels
from saxtegun.playing import Engine
from saxtegun.recordings import Known, Names
from saxtegun.sessions import Entry, Sessions, demands_of, guard_size, read_or_new, with_more
from saxtegun.mending import guard_game, won
from saxtegun.solving import SECONDS, Answer, Bounds, Solved, Unsolvable, add_bounds, bounds_of, presses_told, told
from saxtegun.texts import GameText, over, read_named

USAGE = "solve GAME.txt [--level N|all] [--levels N] [--within SECONDS] [--save SESSIONS.json]"
FULL = "save in another file"


def level_in(word: str) -> Optional[int]:
    """The number of a level, from 1; None for all."""
    if word == "all":
        return None
    if not (word.isascii() and word.isdigit() and 1 <= int(word[-9:]) and len(word) <= 9):
        raise ArgumentTypeError("must be the number of a level, from 1, or all")
    return int(word)


def add_words(words: ArgumentParser) -> None:
    words.add_argument("game", metavar="GAME.txt")
    words.add_argument("--level", metavar="N", type=level_in, default=None, help="look at this level alone (all)")
    words.add_argument("--save", metavar="SESSIONS.json", help="add each solution to this file")
    words.add_argument("--program", metavar="PROGRAM", help="play what is saved with this program")
    add_bounds(words)


class Found(NamedTuple):
    """A level by its number, the session that begins there, and what is known of it."""

    level: int
    entry: Entry
    answer: Answer


def wanted_levels(game: GameText, level: Optional[int]) -> List[int]:
    """The numbers of the levels that are looked at. Refused where there is none such."""
    count = count_of_levels(game.source)
    if level is not None and level > count:
        raise Refused(f"{game.path} has {plural(count, 'level')}, but no level {level}")
    if not count:
        raise Refused(f"{game.path} has no level")
    return [level] if level is not None else list(range(1, count + 1))


def solve(game: GameText, level: int, bounds: Bounds, engine: Engine) -> Found:
    """Looks for a solution of a level."""
    if sys.stderr.isatty():
        say(f"solve: level {level} ..")
    return Found(level, begin_of(game.source, level), answer_of(game, level, bounds, engine))


def show(found: Found) -> None:
    """Says what is known of a level."""
    print(printable(f"level {found.level}: {told(found.answer)}"))
    if isinstance(found.answer, Solved) and found.answer.inputs:
        print(f"    {presses_told(found.answer.inputs)}")
    sys.stdout.flush()


def recording_of(found: Found, game: GameText, engine: Engine) -> Entry:
    """A solution as a recording: played, with the level that is reached. Refused where the program that plays doesn't win by it."""
    assert isinstance(found.answer, Solved)
    entry = found.entry._replace(inputs=found.answer.inputs)
    how = f"solved in {plural(len(entry.inputs), 'press', 'presses')}" if entry.inputs else "won as it loads"
    name = f"level {found.level}, {how}"
    return won(entry._replace(name=name), found.level, Sessions(game.path, "", []), engine)


def save(path: str, entry: Entry, game: GameText) -> None:
    """Adds a recording to a sessions file as it is at this moment, if it isn't there."""
    with locked(path):
        old = read_or_new(path)
        if Known(over(old, game).entries).like(entry._replace(is_solved_wanted=False)) is not None:
            say(f"solve: {entry.name}: it is in {cut(path)} already")
            return
        name = Names(it.name for it in old.entries).free(entry.name)
        value = [name, ["", entry.inputs, entry.level, entry.index], *demands_of(entry)]
        text = with_more(old, [json.dumps(value, ensure_ascii=False)])
        guard_size(path, text, len(old.entries) + 1, FULL)
        write_whole(path, text)
    say(f"solve: {name}: added to {cut(path)}")


def is_saved(found: Found, game: GameText, path: str, engine: Engine) -> bool:
    """Saves a solution as soon as it is found; says why where it can't."""
    try:
        save(path, recording_of(found, game, engine), game)
    except Refused as why:
        say(f"solve: level {found.level} is not saved: {why}")
        return False
    return True


def main(given: Namespace) -> int:
    game = read_named(given.game)
    if given.save:
        read_or_new(given.save)
        guard_output(given.save)
        guard_places(given.save)
    guard_output(given.game)
    bounds = bounds_of(given)
    # a program that hangs keeps no other level from being looked at
    engine = Engine(program=given.program, seconds=SECONDS, has_ticks=given.ticks_as_recorded)
    guard_game(game, engine, bounds.seconds_left)
    levels = wanted_levels(game, given.level)
    found: List[Found] = []
    unsaved = 0
    for level in levels:
        it = solve(game, level, bounds, engine)
        found.append(it)
        try:
            show(it)
        finally:
            # also where nobody reads what is said of it
            if given.save and isinstance(it.answer, Solved):
                unsaved += not is_saved(it, game, given.save, engine)
    solved = [it for it in found if isinstance(it.answer, Solved)]
    lost = sum(isinstance(it.answer, Unsolvable) for it in found)
    unknown = len(found) - len(solved) - lost
    print(f"{len(solved)} solved, {lost} can't be won, {unknown} not known")
    return 2 if unknown or unsaved else 1 if lost else 0
