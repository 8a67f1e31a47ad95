"""Mends recordings that no longer solve their levels, as when a game was edited: it
keeps the longest beginning of each from which its level can still be won, and
goes on with as few presses as win it. Where a rule gives `restart`, what such a
restart leads to isn't searched, and isn't known.

A recording over GAME.txt is mended that wins fewer levels than it is to: all, if
its entry says \"solved\"; or as many as it won over the committed text of
GAME.txt, if that lies in a git folder; or, if it doesn't pass, those up to the
one that its recorded level is of. Of others it isn't known whether they are to win
a level; one that --only names wins at least the one in which it ends.

What was found is shown: how many inputs stay, and what follows them. The file
is changed only with --in-place: such a recording gets its new inputs, and the
level that they reach; all else stays letter by letter.

Exit status: 0 all that were to be mended are, or were shown; 1 one can't be, or
it isn't known whether it is to be; 2 something is refused."""
from __future__ import annotations

import sys
from argparse import ArgumentParser, Namespace
from typing import Dict, List, Union

from saxtegun.commands import Refused, add_playing, cut, plural, printable, say
from saxtegun.explanations import heading
from saxtegun.explanations import told as told_of_run
from saxtegun.files import guard_output, guard_places, write_again
from saxtegun.levelsets import wins_of
from saxtegun.lines import Run
from saxtegun.mending import Left, Mended, Mender, guard_game, standing_of, wins_recorded, wins_wanted
from saxtegun.playing import engine_of, runs_of
from saxtegun.processes import held
from saxtegun.sessions import Entry, Sessions, changed, chosen, guard_size, read_sessions, sessions_in
from saxtegun.solutions import SOLVED, solved_of
from saxtegun.solving import SECONDS, add_bounds, bounds_of, presses_told, unknown_told
from saxtegun.texts import GameText, of_another_text, over, read_named, say_others
from saxtegun.wins import text_before, wins_over

USAGE = "mend GAME.txt SESSIONS.json [--only PATTERN..] [--in-place] [--levels N] [--within SECONDS]"
UNKNOWN = "whether it is to win a level isn't known: --only NAME has it mended"


def add_words(words: ArgumentParser) -> None:
    words.add_argument("game", metavar="GAME.txt")
    words.add_argument("sessions", metavar="SESSIONS.json")
    words.add_argument("--only", metavar="PATTERN", action="append", help="mend sessions whose names fit, and no others; may be repeated")
    words.add_argument("--in-place", action="store_true", help="change the file")
    add_playing(words)
    add_bounds(words)


class Work:
    """The sessions of a file, and what becomes of them."""

    def __init__(self, sessions: Sessions, game: GameText, given: Namespace) -> None:
        self.sessions, self.game, self.given, self.engine = sessions, game, given, engine_of(given)
        others = {it.number for it in of_another_text(sessions.entries, game)}
        named = chosen(sessions, given.only)
        wanted = [it for it in named if it.number not in others]
        self.elsewhere = [it for it in named if it.number in others] if given.only else []
        runs = runs_of(wanted, sessions, self.engine) if wanted else []
        self.runs: Dict[int, Run] = {it.number: run for it, run in zip(wanted, runs)}
        self.over = {wanted[place].number for place, end in solved_of(wanted, runs, sessions, self.engine).items() if end == SOLVED}
        asked = [it for it in wanted if self.runs[it.number].close != "passed" or it.number not in self.over]
        self.before = wins_over(asked, text_before(game), sessions, self.engine)
        self.entries = [it for it in asked if self.runs[it.number].close != "passed" or it.is_solved_wanted or self.has_lost(it)]
        self.mender = Mender(sessions, self.engine, bounds_of(given))

    def has_lost(self, entry: Entry) -> bool:
        """Whether a session that passes wins fewer levels than before: the last win shows no frame."""
        return self.before.get(entry.number, 0) > wins_of(self.runs[entry.number]) + (entry.number in self.over)

    def become_of(self, entry: Entry) -> Union[Mended, Left]:
        """What becomes of a session."""
        run, is_over = self.runs[entry.number], entry.number in self.over
        standing = standing_of(entry, run, is_over)
        if standing is None:
            return Left(entry, f"it is not played: {told_of_run(run, entry, self.given.order, self.game.path)[0]}")
        if is_over:
            return Left(entry, "it wins all levels: saxtegun accept takes what it reaches")
        known = wins_wanted(entry, self.before.get(entry.number))
        wanted = max(known or wins_recorded(entry, self.given.order), standing.won + 1 if self.given.only else 0)
        if wanted <= standing.won:
            return Left(entry, UNKNOWN if known is None else "it wins as many levels as it is to: saxtegun accept takes what it reaches")
        try:
            return self.mender.mended(entry, standing, wanted)
        except Refused as why:
            return Left(entry, str(why))


def stays_told(kept: int, count: int) -> str:
    """How many of so many inputs stay."""
    if kept < count:
        return f"{kept} of its {plural(count, 'input')} {'stays' if kept == 1 else 'stay'}"
    return f"all of its {count} inputs stay" if count > 1 else "its one input stays" if count else "it had no input"


def told(it: Union[Mended, Left], entry: Entry) -> List[str]:
    """What became of a session, in lines."""
    if isinstance(it, Left):
        return [f"not mended: {it.why}"]
    follow = f"{plural(len(it.presses), 'press', 'presses')} {'follows' if len(it.presses) == 1 else 'follow'}"
    longer = f"; whether the level can be won from a longer beginning isn't known: {unknown_told(it.longer)}" if it.longer is not None else ""
    return [f"mended: {stays_told(it.kept, len(entry.inputs))}, and {follow}{longer}", f"    {presses_told(it.presses)}"]


def with_new(sessions: Sessions, mended: List[Mended]) -> str:
    """The text of the file with the new inputs and levels."""
    text = changed(sessions, {it.entry.number: ("inputs", it.entry.inputs) for it in mended})
    return changed(sessions_in(sessions.path, text), {it.entry.number: ("level", it.entry.level) for it in mended})


def write(mended: List[Mended], sessions: Sessions, given: Namespace) -> bool:
    """Writes the file with what was found, where that is asked for; whether it did."""
    if not mended or not given.in_place:
        return False
    with held():
        new = with_new(sessions, mended)
        guard_size(given.sessions, new, len(sessions.entries), "divide it by saxtegun split, and mend the parts")
        write_again(given.sessions, sessions.text, new)
    return True


def mend(work: Work, mended: List[Mended]) -> int:
    """Mends one session after another, and says what became of each; how many are left as they are."""
    left = len(work.elsewhere)
    for entry in work.elsewhere:
        print(printable(f"session {entry.number}, {cut(entry.name)}: not mended: it has another text than {work.game.path}"))
    for entry in work.entries:
        it = work.become_of(entry)
        if isinstance(it, Mended):
            # before anything is said of it: whoever reads that may have seen enough
            mended.append(it)
        else:
            left += 1
        first, *rest = told(it, entry)
        print(printable(f"{heading(work.runs[entry.number]._replace(number=entry.number))}: {first}"))
        for line in rest:
            print(line)
        sys.stdout.flush()
    return left


def main(given: Namespace) -> int:
    if given.in_place and given.sessions == "-":
        raise Refused("--in-place needs a file, and standard input is none")
    guard_output(given.game, given.sessions)
    guard_places(given.sessions if given.in_place else None)
    game = read_named(given.game)
    sessions = over(read_sessions(given.sessions), game)
    guard_game(game, engine_of(given), min(SECONDS, given.within))
    say_others("mend", sessions, game)
    mended: List[Mended] = []
    work = Work(sessions, game, given)
    try:
        left = mend(work, mended)
    except BaseException:
        # what was found took long
        if write(mended, sessions, given):
            say(f"mend: ended early, with {plural(len(mended), 'recording')} mended in {cut(given.sessions)}")
        raise
    write(mended, sessions, given)
    print(f"{len(mended)} of {plural(len(sessions.entries), 'recording')} mended{'' if given.in_place or not mended else ', and not written: --in-place does'}")
    return 1 if left else 0
