"""Finds rules and win lines that no session needs: leaves out each in turn, and
plays the suite again.

    saxtegun coverage SESSIONS.json
    saxtegun coverage GAME.txt SESSIONS.json
        the game's text is the source of each recording whose source is empty

A session notices that a line is gone if it closes differently; with a win line,
or a rule that wins, also if it wins differently. One that doesn't pass with all
lines there counts as any other, and how many don't is said. The lines of a game whose sessions are all refused
are not tried, nor are lines without which the rest is refused. Behind 600
seconds, or --within N, no more lines are left out.

Exit status: 0 each line is noticed by some session, 1 some line by none, 2
there is no whole answer."""
from __future__ import annotations

import re
import sys
from argparse import ArgumentParser, Namespace
from time import monotonic
from typing import Dict, Iterable, Iterator, List, NamedTuple, Optional, Set, Tuple

from saxtegun.commands import Refused, add_playing, add_ticks, cut, plural, printable, seconds_in
from saxtegun.explanations import source_told
from saxtegun.files import guard_output
from saxtegun.descriptions import Line, expect
from saxtegun.games import title_of
from saxtegun.levelsets import wins_of
from saxtegun.lines import UNANSWERED, Run
from saxtegun.omissions import Omissions
from saxtegun.playing import Late, engine_of, runs_played
from saxtegun.sessions import Entry, Sessions, read_sessions
from saxtegun.solutions import MOST_INPUTS, ONE_MORE
from saxtegun.texts import GameText, over, read_game, say_others

USAGE = "coverage [GAME.txt] SESSIONS.json [--within SECONDS] [--order rows|columns] [--workers N]"
# So much is played at once, and so many lines are left out at first; then twice as many where that took less than so many seconds, or
# this share of all, and in all so many.
MOST_LETTERS = 2_000_000
MOST_ENTRIES = 5_000
FIRST_AT_ONCE, QUICK, SHARES = 1, 1.0, 20
WITHIN = 600.0
Signature = Tuple[object, ...]


def add_words(words: ArgumentParser) -> None:
    words.add_argument("files", metavar="[GAME.txt] SESSIONS.json", nargs="+")
    words.add_argument("--within", metavar="SECONDS", type=seconds_in, default=WITHIN, help=f"leave out no more lines behind so many seconds ({WITHIN:g})")
    add_playing(words)
    add_ticks(words)


def unplayed(sessions: Sessions, found: Dict[int, Tuple[Signature, Signature]]) -> str:
    """Why no session is played, by the first."""
    if not sessions.entries:
        return "it is empty"
    first = sessions.entries[0]
    return f"session 0, {cut(first.name)}: {source_told(first, str(found[0][0][1]))}"


class Trial(NamedTuple):
    """A line of a source that is left out, and the sessions of that source. The source without it is made only while it is played: of a game of many rules all
    of them would need much more memory than the game."""

    source: str
    part: Line
    entries: List[Entry]


def longer(entry: Entry) -> Entry:
    return entry._replace(inputs=[*entry.inputs, ONE_MORE]) if len(entry.inputs) < MOST_INPUTS else entry


def played_in(trials: List[Trial]) -> List[Entry]:
    """The sessions that are played for some trials, each over its source without the line that is left out."""
    entries: List[Entry] = []
    omissions: Optional[Tuple[str, Omissions]] = None
    for trial in trials:
        if omissions is None or omissions[0] is not trial.source:
            omissions = trial.source, Omissions(trial.source)
        source = omissions[1].without(trial.part)
        entries += [it._replace(source=source) for it in trial.entries]
    return entries


def batches(trials: Iterable[Trial], quick: float = QUICK) -> Iterator[List[Trial]]:
    """The trials in parts, each of which is played at once: of one that isn't answered in time nothing is known."""
    batch: List[Trial] = []
    letters, count, size = 0, 0, FIRST_AT_ONCE
    for trial in trials:
        batch.append(trial)
        letters += sum(len(trial.source) + len(it.level) + 4 * len(it.inputs) for it in trial.entries)
        count += len(trial.entries)
        if letters > MOST_LETTERS or count > MOST_ENTRIES or len(batch) == size:
            begin = monotonic()
            yield batch
            size = 2 * size if monotonic() - begin < quick else max(len(batch) // 2, 1)
            batch, letters, count = [], 0, 0
    if batch:
        yield batch


def progress(done: int, count: int) -> None:
    if sys.stderr.isatty():
        print(f"\r{done} of {plural(count, 'line')}", end="\n" if done == count else "", file=sys.stderr, flush=True)


def answered(run: Run) -> Run:
    """A run. Refused where it has no answer in its time."""
    if run.close == UNANSWERED:
        raise Refused(f"{cut(run.name)}: {run.cause}, so there is no whole answer")
    return run


def closing_of(run: Run) -> Signature:
    return answered(run).close, run.cause


def wins_itself(rule: str) -> bool:
    """Whether a rule may have the command that wins."""
    return re.search(r"\bwin\b", rule.partition("->")[2], re.I) is not None


def winning_of(run: Run) -> Signature:
    return wins_of(answered(run)), any(it.kind == "over" for it in run.frames)


class Coverage:
    """The lines of the sources of sessions, and which of them some session notices."""

    def __init__(self, sessions: Sessions, given: Namespace, text: Optional[GameText] = None) -> None:
        self.sessions, self.given, self.text = sessions, given, text
        self.before: Dict[int, Tuple[Signature, Signature]] = {}
        self.unnoticed: List[Trial] = []
        self.tried, self.alone, self.left = 0, 0, 0
        self.engine = engine_of(given)

    def signatures(self, entries: List[Entry]) -> List[Tuple[Signature, Signature]]:
        """For each session how it closes, and how it wins. What the sessions show isn't kept."""
        runs: Iterator[Run] = runs_played([it for entry in entries for it in (entry, longer(entry))], self.sessions, self.engine) if entries else iter(())
        return [(closing_of(one), winning_of(more)) for one, more in zip(runs, runs)]

    def trials(self) -> List[Trial]:
        """All lines to be left out, with the sessions of their source that are played. Refused where none is."""
        of: Dict[str, List[Entry]] = {}
        for entry, found in zip(self.sessions.entries, self.signatures(self.sessions.entries)):
            self.before[entry.number] = found
            if found[0][0] != "refused":
                of.setdefault(entry.source, []).append(entry)
        if not of:
            raise Refused(f"{self.sessions.path} has no session that can be played, so no line was left out: {unplayed(self.sessions, self.before)}")
        if self.text is not None and self.text.source not in of:
            raise Refused(f"no session is played over {self.text.path}, so none of its lines was left out: {self.unplayed_over(self.text)}")
        trials: List[Trial] = []
        for source, entries in of.items():
            trials += [Trial(source, part, entries) for part in Omissions(source).parts()]
        return trials

    def unplayed_over(self, text: GameText) -> str:
        """Why no session is played over the text at hand."""
        first = next((it for it in self.sessions.entries if it.source == text.source), None)
        if first is None:
            return "each has another text"
        return f"session {first.number}, {cut(first.name)}: {source_told(first, str(self.before[first.number][0][1]))}"

    def place(self, trial: Trial) -> str:
        """Where a line stands."""
        if self.text is not None and trial.source == self.text.source:
            return f"{self.text.path}:{trial.part.number}"
        return f"{cut(title_of(trial.source))}, line {trial.part.number}"

    def judge(self, trial: Trial, found: List[Tuple[Signature, Signature]]) -> None:
        if all(close[0] == "refused" for close, _ in found):
            self.alone += 1
            return
        self.tried += 1
        is_win = trial.part.section == "winconditions" or wins_itself(trial.part.text)
        before = [self.before[it.number] for it in trial.entries]
        if all(one[0] == other[0] and (not is_win or one[1] == other[1]) for one, other in zip(before, found)):
            self.unnoticed.append(trial)

    def run(self) -> None:
        trials = self.trials()
        self.left = len(trials)
        within = getattr(self.given, "within", WITHIN)
        self.engine = self.engine._replace(end=monotonic() + within)
        for batch in batches(trials, max(QUICK, within / SHARES)):
            try:
                found = iter(self.signatures(played_in(batch)))
            except Late:
                break
            for trial in batch:
                self.judge(trial, [next(found) for _ in trial.entries])
            self.left -= len(batch)
            progress(len(trials) - self.left, len(trials))
        if not self.tried:
            # an answer would read as if each line were noticed
            whole = "without any of them the rest is refused" if trials else "no source that is played has a rule or a win line"
            raise Refused(f"no line was left out: {self.left_told() or whole}")

    def failing_told(self) -> str:
        """How many sessions don't pass with all lines there, or nothing: what they notice is another failure."""
        failing = sum(close[0] != "passed" for close, _ in self.before.values())
        return f"; {failing} of {plural(len(self.before), 'session')} {'does' if failing == 1 else 'do'} not pass with all lines there" if failing else ""

    def left_told(self) -> str:
        """How many lines were not left out, since the time was over, or nothing."""
        return f"{plural(self.left, 'line')} {'was' if self.left == 1 else 'were'} not tried in {self.given.within:g} s; --within gives more time" if self.left else ""


def main(given: Namespace) -> int:
    if len(given.files) > 2:
        raise Refused("name a sessions file, and before it at most a game's text")
    guard_output(*given.files)
    text = read_game(given.files[0] if len(given.files) == 2 else None)
    sessions = over(read_sessions(given.files[-1]), text)
    say_others("coverage", sessions, text)
    expect(it.source for it in sessions.entries)
    coverage = Coverage(sessions, given, text)
    coverage.run()
    for trial in coverage.unnoticed:
        print(printable(f"{coverage.place(trial)}: no session notices it: {cut(trial.part.text)}"))
    sources: Set[str] = {it.source for it in coverage.unnoticed}
    alone = f", {plural(coverage.alone, 'line')} can't be left out alone" if coverage.alone else ""
    games = f" in {plural(len(sources), 'source')}" if len(sources) > 1 else ""
    print(f"{plural(coverage.tried, 'line')} left out in turn: {len(coverage.unnoticed)} that no session notices{games}{alone}{coverage.failing_told()}")
    if coverage.left:
        raise Refused(f"there is no whole answer: {coverage.left_told()}")
    return 1 if coverage.unnoticed else 0
