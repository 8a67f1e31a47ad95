"""Takes what was reached as the new recorded level, for sessions that were played
to their end.

SESSIONS is the file that was played, and LINES what the program wrote for it.
Without LINES the sessions are played now. Each session that differs gets the
level of its last frame as its recorded level; --only takes those whose names
fit (`level 2*`). All else stays unchanged. The new file goes to standard
output, or with --in-place it replaces SESSIONS once it is whole. Standard error
says which sessions changed, and which could not: one that was stopped or
refused was not played to its end.

Look first at what you accept, by `saxtegun report` or `saxtegun explain`. Or
let --review show one after the other, with both levels, and ask: what you
accept then replaces SESSIONS, unless standard output goes to a file or a program.

A session that won more levels over the committed text of GAME.txt, or else by its
recorded level, or that must be solved and isn't, is accepted only with --anyway,
or where --review asks: see whether saxtegun mend makes it win again. With LINES
nothing is known of that.

With --reindex no level is accepted: a recording that doesn't pass is tried in
the other levels, up to 1,000 of them, as when levels were inserted or moved;
all recordings together for 600 s, or as long as --within says. If it was tried in all and passes in one alone, its index is set; standard error
says which, and how many levels were not tried. No other is touched.

Nothing is changed if the recorded level is the reached one in the other order of
cells. LINES must be of these sessions, over this text: that isn't tested, but
for their names and inputs.

Exit status: 0; 1 a session that --only names could not be changed, or none
could, or one no longer wins; 2 a file is refused, or with --timeout some session
had no answer."""
from __future__ import annotations

import sys
from argparse import ArgumentParser, Namespace
from contextlib import contextmanager
from typing import Collection, Dict, Iterable, Iterator, List, Mapping, Optional, Sequence, Tuple, Union

from saxtegun.budget import EXPLAINING, UsedUp
from saxtegun.commands import Ended, Refused, add_game, add_playing, add_ticks, cut, plural, printable, say, seconds_in
from saxtegun.descriptions import Undescribed, expect
from saxtegun.explanations import UNREADABLE, Ending, heading, source_told, told
from saxtegun.files import guard_output, guard_places, is_output_kept, write_again
from saxtegun.levelsets import first_level, level_of_recorded, still_in, wins_of
from saxtegun.lines import UNANSWERED, Run
from saxtegun.playing import Engine, engine_of, lines_or_played
from saxtegun.reindexing import WITHIN, reindexed
from saxtegun.sessions import Entry, Sessions, changed, chosen, guard_size, read_sessions
from saxtegun.solutions import SOLVED, no_longer, solved_of
from saxtegun.texts import GameText, over, read_game, say_others, say_untested
from saxtegun.wins import lost_wins, wins_before

USAGE = "accept SESSIONS [LINES] [--only PATTERN..] [--review|--reindex] [--anyway] [--in-place] [--game GAME.txt] [--order rows|columns] [>NEW]"
ASKED = "accept it? y: yes, n: no, a: it and all that follow, q: none of those that follow "


def add_words(words: ArgumentParser) -> None:
    words.add_argument("sessions", metavar="SESSIONS")
    words.add_argument("lines", metavar="LINES", nargs="?")
    words.add_argument("--only", metavar="PATTERN", action="append", help="accept sessions whose names fit; may be repeated")
    add_game(words)
    words.add_argument("--review", action="store_true")
    words.add_argument("--anyway", action="store_true", help="also what no longer wins what it won")
    words.add_argument("--reindex", action="store_true", help="set the index of recordings whose level has another place now")
    words.add_argument("--within", metavar="SECONDS", type=seconds_in, default=WITHIN, help=f"with --reindex, try no more levels behind so many seconds ({WITHIN:g})")
    words.add_argument("--in-place", action="store_true")
    add_playing(words)
    add_ticks(words)


def obstacle(entry: Entry, run: Run, order: str, is_reviewed: bool) -> Optional[str]:
    """Why what a session reached can't be recorded, or None. Where all are taken at once, none is of a file that was played in another order."""
    if run.cause is not None:
        return source_told(entry, run.cause)
    ending = Ending(entry, run)
    if ending.reached is None:
        return UNREADABLE
    if ending.is_turned_in(order):
        why = f"the recorded level is the reached one listed in the other order, not by {order}: play it in the order that it was recorded in"
        if not is_reviewed:
            raise Refused(f"{heading(run)}: {why}; nothing is accepted")
        return why
    return None


class Review:
    """Shows what differs, and asks whether it is accepted."""

    def __init__(self, order: str) -> None:
        self.order, self.all, self.ended = order, False, False

    def accepts(self, entry: Entry, run: Run, lost: str) -> bool:
        """Whether what a session reached is accepted, of which it is told if it no longer wins."""
        if self.all or self.ended:
            return self.all
        sentence, below = told(run, entry, self.order)
        for line in [f"{heading(run)}: {sentence}", *(f"    {it}" for it in (*below, lost) if it)]:
            say(line)
        while True:
            print(ASKED, end="", file=sys.stderr, flush=True)
            answer = sys.stdin.readline()
            word = answer.strip().lower()
            self.all, self.ended = word == "a", word == "q" or not answer
            if word in ("y", "a"):
                return True
            if word in ("n", "q") or not answer:
                return False


def still_told(entry: Entry, run: Run, order: str) -> str:
    """That a session stays in a level before the one that its recorded level is of, or nothing, also where there is no time to see."""
    try:
        with EXPLAINING.spent():
            recorded = level_of_recorded(entry, order)
            is_before = recorded is not None and first_level(entry) + wins_of(run) < recorded.level
            return still_in(entry, run, order) or "" if is_before else ""
    except (Undescribed, UsedUp):
        return ""


def lost_among(sessions: Sessions, runs: Sequence[Run], wanted: Collection[int], game: Optional[GameText], engine: Engine) -> Dict[int, str]:
    """Which of these sessions differ, and no longer win what they won or must win, in words; by their numbers. Where the committed text doesn't say what they won,
    the recorded level does."""
    differing = [it for it in runs if it.close == "differs" and it.number in wanted]
    entries = [sessions.entries[it.number] for it in differing]
    try:
        ends = solved_of(entries, differing, sessions, engine)
    except Refused:
        # what was played can be accepted all the same
        return {}
    unsolved = {entries[it].number: no_longer(end) for it, end in ends.items() if entries[it].is_solved_wanted and end != SOLVED}
    before = wins_before(entries, game, sessions, engine)
    still = {it.number: still_told(sessions.entries[it.number], it, engine.order) for it in differing if it.number not in before}
    return {**still, **lost_wins(entries, differing, ends, before, game), **unsolved}


def write(sessions: Sessions, changes: Mapping[int, Tuple[str, Union[str, int]]], given: Namespace) -> None:
    """Writes the file as it is to be: to standard output, or in its place where something has changed."""
    if not given.in_place:
        sys.stdout.write(changed(sessions, changes))
        sys.stdout.flush()
    elif changes:
        new = changed(sessions, changes)
        guard_size(given.sessions, new, len(sessions.entries), "divide it by saxtegun split, and accept the parts")
        write_again(given.sessions, sessions.text, new)


def say_all(before: str, lines: Iterable[str]) -> None:
    for line in lines:
        say(f"accept: {before}{printable(line)}")


@contextmanager
def reviewed(sessions: Sessions, changes: Mapping[int, Tuple[str, Union[str, int]]], given: Namespace) -> Iterator[None]:
    """Writes what was accepted by then where a review is ended, as by a window that is closed. Ctrl-C leaves the file as it was."""
    try:
        yield
    except Ended:
        if given.review and given.in_place:
            write(sessions, changes, given)
        raise
    except KeyboardInterrupt:
        if given.review:
            say("accept: stopped, so nothing is changed; q ends with what was accepted before")
        raise


class Taking:
    """What is accepted of sessions, and what is said of each. Others are those that aren't played over the game."""

    def __init__(self, sessions: Sessions, given: Namespace, others: Collection[int]) -> None:
        self.sessions, self.given, self.others = sessions, given, others
        self.review = Review(given.order) if given.review else None
        self.changes: Dict[int, Tuple[str, str]] = {}
        self.said: List[str] = []
        self.has_failed, self.has_lost, self.is_late = False, False, False

    def take(self, run: Run, lost: str) -> None:
        """Accepts what a session reached, unless something keeps it from that. `lost` tells that it no longer wins."""
        if run.close == "passed":
            if self.given.only and run.number in self.others:
                self.leave(run, f"it was played over its own text, and not over {self.given.game}")
            return
        entry = self.sessions.entries[run.number]
        why = obstacle(entry, run, self.given.order, self.review is not None)
        self.is_late = self.is_late or run.close == UNANSWERED
        if why is None and lost and self.review is None and not self.given.anyway:
            why = f"{lost}: mend it by saxtegun mend, or accept it by --anyway"
            self.has_lost = True
        if why is not None:
            self.leave(run, why)
        elif self.review is None or self.review.accepts(entry, run, lost):
            self.changes[run.number] = ("level", run.frames[-1].level)
            self.said.append(f"{heading(run)}, accepted" + (f", though {lost}" if lost else ""))
        else:
            self.said.append(f"{heading(run)}, not accepted")

    def leave(self, run: Run, why: str) -> None:
        """Leaves a session as it is that could not be accepted."""
        self.has_failed = True
        self.said.append(f"{heading(run)}, not accepted: {why}")

    def write(self) -> None:
        """Writes what was accepted, and says what became of each session."""
        try:
            write(self.sessions, self.changes, self.given)
        except Refused:
            if self.review is not None:
                say_all("not written: ", self.said)
            raise
        say_all("", self.said)
        if self.given.lines:
            say_untested("accept", (self.sessions.entries[it] for it in self.changes))
        say(f"accept: {len(self.changes)} of {plural(len(self.sessions.entries), 'recorded level')} changed")


def reindex(sessions: Sessions, wanted: Sequence[Entry], others: Collection[int], given: Namespace) -> int:
    """Sets the indices with which recordings pass again. Others are those that aren't played over the game."""
    found = reindexed(wanted, sessions, engine_of(given), given.within)
    tried = {it.entry.number for it in found}
    elsewhere = [it for it in wanted if given.only and it.number in others and it.number not in tried]
    changes = {it.entry.number: ("index", it.new) for it in found if it.new is not None}
    write(sessions, changes, given)
    for it in found:
        say(f"accept: {printable(it.told())}")
    say_all("", (f"session {it.number}, {cut(it.name)}: its index {it.index} stays: it was played over its own text, and not over {given.game}" for it in elsewhere))
    say(f"accept: {len(changes)} of {plural(len(sessions.entries), 'index', 'indices')} changed")
    if not all(it.has_answer for it in found):
        return 2
    return 1 if given.only and (len(changes) < len(found) or elsewhere) else 0


def main(given: Namespace) -> int:
    if given.reindex and (given.review or given.lines):
        raise Refused("--reindex plays by itself, so it goes with neither --review nor LINES")
    if given.reindex and given.anyway:
        raise Refused("--reindex accepts no level, so --anyway says nothing to it")
    if given.review and (given.lines == "-" or given.sessions == "-"):
        raise Refused("--review asks on standard input, so no file can be read from it")
    if given.review and sys.stdin is None:
        raise Refused("standard input is closed, so --review can't ask")
    if given.in_place and given.sessions == "-":
        raise Refused("--in-place needs a file, and standard input is none")
    # answers that only a terminal showed would be lost
    given.in_place = given.in_place or (given.review and not is_output_kept())
    if not given.in_place:
        guard_output(given.sessions, *(it for it in (given.lines, given.game) if it))
    else:
        guard_places(given.sessions)
    game = read_game(given.game)
    sessions = over(read_sessions(given.sessions), game)
    others = {it.number for it in say_others("accept", sessions, game)}
    expect(it.source for it in sessions.entries)
    if given.reindex:
        return reindex(sessions, chosen(sessions, given.only), others, given)
    wanted = {it.number for it in chosen(sessions, given.only)}
    taking = Taking(sessions, given, others)
    with reviewed(sessions, taking.changes, given), lines_or_played(sessions, given.lines, engine_of(given)) as runs:
        played = [] if given.lines else list(runs)
        lost = lost_among(sessions, played, wanted, game, engine_of(given))
        for run in runs if given.lines else played:
            if run.number in wanted:
                taking.take(run, lost.get(run.number, ""))
    taking.write()
    return 2 if taking.is_late else 1 if taking.has_failed and (given.only or taking.has_lost or not taking.changes) else 0
