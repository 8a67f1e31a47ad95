"""Says where two runs of the same sessions diverge: the first frame, after which
input, which cells, and both levels.

    saxtegun compare ONE.lines OTHER.lines [SESSIONS]
        compares two files of lines; SESSIONS lets it name inputs and draw levels
    saxtegun compare --engines P Q SESSIONS
        plays two programs that have our command line; `saxtegun` is our own, or
        the one that SAXTEGUN_PROGRAM names, which is then said
    saxtegun compare --engines P Q --stages S T SESSIONS
        names also the first stage at which they part, and its rule: S and T tell
        the stages of P and Q as docs/sessions.md has them; `saxtegun` is our own
    saxtegun compare --sources OLD.txt NEW.txt SESSIONS
        plays one program over two texts of a game

An engine that crashes, that writes a line of its own or that has no answer in
10 s a session (or what --timeout says) is named with the session and the input.
What is the same is played again with one more input, which shows whether play
is over in both: the last win has no frame of its own, and lines don't tell it.
Where an engine fails at that, it is named, and no more is known.

With --report F it also writes a page that shows both runs side by side, from
the frame at which they diverge. Frames and inputs are counted from 0.

Exit status: 0 all are the same, 1 some diverge, 2 something is refused, there is
no session to compare, or with --sources some session had no answer in the time
that --timeout names."""
from __future__ import annotations

import os
import sys
from argparse import ArgumentParser, Namespace
from functools import partial
from itertools import zip_longest
from pathlib import Path
from typing import Callable, Iterator, List, NamedTuple, Optional, Sequence, Tuple

from saxtegun.commands import Refused, add_playing, cut, plural, printable, say
from saxtegun.descriptions import expect
from saxtegun.divergence import Divergence, below_of, divergence_of, sentence_of
from saxtegun.engines import FAILED, OURS, SECONDS, answers, engine_at, failure_told, tellers_of, with_frames
from saxtegun.explanations import cause_told
from saxtegun.files import guard_files, guard_output, guard_places, write_whole
from saxtegun.lines import PLAYED, UNANSWERED, Run
from saxtegun.mismatches import NAMES_ALONE, OF_ANY_ENGINE, read_runs
from saxtegun.origins import add_date, digest_of, origin_of
from saxtegun.pages import Report, comparison
from saxtegun.playing import Engine, engine_of, runs_played
from saxtegun.programs import named_program
from saxtegun.sessions import Entry, Sessions, read_sessions
from saxtegun.solutions import MOST_INPUTS, with_one_more
from saxtegun.stage_descriptions import Text
from saxtegun.stage_divergence import Side, stage_divergence_of
from saxtegun.texts import read_named, say_others

USAGE = "compare (ONE.lines OTHER.lines [SESSIONS] | --engines P Q [--stages S T] SESSIONS | --sources OLD.txt NEW.txt SESSIONS) [options]"
# Of so many sessions it is told at which stage the engines part, if that is known in so many seconds.
MOST_LED, SECONDS_OF_STAGES = 20, 30.0
# Where an engine failed so often, the sessions behind aren't played.
MOST_FAILED = 10
EMPTY = "their source is the empty text, which stands for a game's; `saxtegun source GAME.txt SESSIONS >NEW` writes a file with that text in it, to be compared"


def add_words(words: ArgumentParser) -> None:
    words.add_argument("files", metavar="FILE", nargs="+")
    words.add_argument("--engines", metavar=("P", "Q"), nargs=2)
    words.add_argument("--stages", metavar=("S", "T"), nargs=2, help="what tells the stages of P and of Q")
    words.add_argument("--sources", metavar=("OLD.txt", "NEW.txt"), nargs=2)
    words.add_argument("--report", metavar="F")
    add_date(words)
    add_playing(words)


def over(sessions: Sessions, path: str) -> List[Entry]:
    """The sessions over a game's text."""
    source = read_named(path).source
    return [it._replace(source=source) for it in sessions.entries]


def pairs_of(one: Iterator[Run], other: Iterator[Run], paths: Sequence[str]) -> Iterator[Tuple[Run, Run]]:
    """Two runs of each session, tested to be of the same."""
    for left, right in zip_longest(one, other):
        if left is None or right is None:
            raise Refused(f"{paths[0]} and {paths[1]} don't have the same number of sessions")
        if left.name != right.name:
            raise Refused(f"session {left.number} is named {cut(left.name)!r} in {paths[0]}, and {cut(right.name)!r} in {paths[1]}")
        yield left, right


def say_ours(paths: Sequence[str]) -> None:
    """Says which program the word for our own engine stands for, where that is one that was named: it may be any."""
    if OURS in paths and os.environ.get("SAXTEGUN_PROGRAM"):
        path = Path(named_program(None))
        say(f"compare: {OURS} is {path}, which SAXTEGUN_PROGRAM names (SHA-256 {digest_of(path.read_bytes())})")


class Sides(NamedTuple):
    """The runs to compare, in pairs; the sessions that they are of, where these are known; the engines that play them, where two are named; and what plays
    entries of either side, where they are played now: they may be asked for with one more input."""

    sessions: Optional[Sessions]
    pairs: Iterator[Tuple[Run, Run]]
    engines: List[Engine]
    entries: Sequence[Sequence[Entry]] = ()
    play: Sequence[Callable[[Sequence[Entry]], Iterator[Run]]] = ()

    def ended(self, numbers: Sequence[int]) -> Iterator[Tuple[Run, Run]]:
        """What both show of sessions with one more input, behind which play that is over shows a frame: the last win shows none of its own."""
        one, other = (play(with_one_more([entries[it] for it in numbers])) for entries, play in zip(self.entries, self.play))
        return zip(one, other)


def sides_of(given: Namespace) -> Sides:
    files = given.files
    if given.engines and given.sources:
        raise Refused("--engines and --sources exclude each other")
    if given.stages and not given.engines:
        raise Refused("--stages needs --engines, whose stages are told")
    if not given.engines and not given.sources:
        if len(files) not in (2, 3):
            raise Refused("name two files of lines, and after them at most the sessions file")
        sessions = read_sessions(files[2]) if len(files) == 3 else None
        # the close of either may be that of another recording, so names and inputs alone are held against the sessions
        return Sides(sessions, pairs_of(read_runs(files[0], sessions, NAMES_ALONE), read_runs(files[1], sessions, NAMES_ALONE), files), [])
    if len(files) != 1:
        raise Refused("name one sessions file")
    sessions = read_sessions(files[0])
    engine = engine_of(given)._replace(tests=OF_ANY_ENGINE, may_build=False)
    if given.engines:
        engines = [engine_at(it, engine._replace(seconds=given.timeout or SECONDS)) for it in given.engines]
        say_ours(given.engines)
        play = [partial(answers, engine=it) for it in engines]
        one, other = (it(sessions.entries) for it in play)
        return Sides(sessions, pairs_of(one, other, given.engines), engines, [sessions.entries] * 2, play)
    say_others("compare", sessions, read_named(given.sources[1]))
    entries = [over(sessions, it) for it in given.sources]
    ours = partial(runs_played, of=sessions, engine=engine)
    one, other = map(ours, entries)
    return Sides(sessions._replace(entries=entries[1]), pairs_of(one, other, given.sources), [], entries, [ours] * 2)


def names_of(given: Namespace) -> List[str]:
    """What the two runs are called, by what was given: their files, programs or texts, and in full where their last parts are the same."""
    paths = given.engines or given.sources or given.files[:2]
    names = [Path(it).name for it in paths]
    return names if names[0] != names[1] else list(paths) if paths[0] != paths[1] else ["one", "the other"]


class Comparing:
    """Two runs of each session, compared and told."""

    def __init__(self, given: Namespace, sides: Sides) -> None:
        self.order, self.sides, self.names = given.order, sides, names_of(given)
        self.stages = tellers_of(given)
        self.count, self.parted, self.failed, self.refused, self.late = 0, 0, 0, 0, 0
        self.same: List[Run] = []
        self.unknown, self.failing = 0, dict.fromkeys(self.names, False)
        self.why = ""
        self.report: Optional[Report] = None
        if given.report and sides.sessions is None:
            raise Refused("--report needs the sessions file after the lines")
        if given.report and sides.sessions:
            self.report = comparison(sides.sessions, given.order, origin_of(sides.sessions, given, f"Compared: {self.names[0]} with {self.names[1]}"))

    def run(self) -> None:
        for one, other in self.sides.pairs:
            self.count += 1
            self.refused += one.close == other.close == "refused"
            self.why = self.why or cause_told(one.cause or "")
            has_failed = self.sides.engines and (one.close in FAILED or other.close in FAILED)
            divergence = divergence_of(one, other)
            if has_failed:
                self.failed += 1
                self.tell_failure(one, other)
            elif UNANSWERED in (one.close, other.close):
                self.tell_late(one, other)
            elif divergence is not None:
                self.tell(divergence, one, other, stages=self.stages_told(divergence, one, other))
            elif one.close in PLAYED:
                self.same.append(one._replace(frames=[]))
            if self.failed == MOST_FAILED:
                break
        if self.sides.play:
            self.compare_ends()

    def compare_ends(self) -> None:
        """Tells where play is over behind the last input in one alone."""
        sessions = [it for it in self.same if len(self.sides.entries[0][it.number].inputs) < MOST_INPUTS]
        failed, self.unknown = 0, len(self.same)
        for run, both in zip(sessions, self.sides.ended([it.number for it in sessions]) if sessions else ()):
            if all(it.close in PLAYED and it.frames for it in both):
                self.unknown -= 1
                self.tell_ends(run, *both)
            else:
                failed += 1
                self.failing.update({name: True for name, it in zip(self.names, both) if it.close not in PLAYED})
            if failed == MOST_FAILED:
                break

    def tell_ends(self, run: Run, *both: Run) -> None:
        """Tells where play is over in one alone, of what both show with one more input."""
        one, other = (it._replace(number=run.number) for it in both)
        is_over = one.frames[-1].kind == "over"
        divergence = divergence_of(one, other)
        if divergence is None or is_over == (other.frames[-1].kind == "over"):
            return
        over, on = self.names if is_over else reversed(self.names)
        print(printable(f"session {run.number}, {cut(run.name)}: play is over behind its last input in {over}, and not in {on}"))
        self.parted += 1
        if self.report:
            [entry] = with_one_more([self.sides.entries[1][run.number]])
            self.report.add_pair(divergence, one, other, self.names, entry)

    def entry(self, run: Run) -> Optional[Entry]:
        return self.sides.sessions.entries[run.number] if self.sides.sessions else None

    def stages_told(self, divergence: Divergence, one: Run, other: Run) -> List[str]:
        """At which stage two engines part, with its rules, where it is known what tells theirs."""
        entry = self.entry(one)
        if not self.stages or entry is None or self.parted >= MOST_LED:
            return []
        text = Text(entry.source, "", self.order)
        sides = Side(self.names[0], entry, text, self.stages[0]), Side(self.names[1], entry, text, self.stages[1])
        try:
            led = stage_divergence_of(sides, (one, other), divergence, self.sides.engines[0], SECONDS_OF_STAGES)
        except Refused as why:
            return [f"stages: {why}"]
        return [f"stages: {led.sentence}", *led.rules, *led.drawing] if led else ["stages: none parts"]

    def tell(self, divergence: Divergence, one: Run, other: Run, failures: Sequence[str] = (), stages: Sequence[str] = ()) -> None:
        """Tells where two runs part, and below it at which stage, and what failed behind that."""
        entry = self.entry(one)
        is_behind = bool(failures) and (divergence.one is None or divergence.other is None)
        told = [] if is_behind else [sentence_of(divergence, one, other, entry), *below_of(divergence, entry, self.order)]
        first, *below = [*told, *stages, *failures]
        print(printable(f"session {one.number}, {cut(one.name)}: {first}"))
        for line in below:
            print(printable(f"    {line}"))
        self.parted += 1
        if self.report:
            self.report.add_pair(divergence, one, other, self.names)

    def tell_failure(self, *runs: Run) -> None:
        """Tells at what an engine failed, or both."""
        entry = self.entry(runs[0])
        assert entry is not None
        looked = [with_frames(entry, it, engine) if it.close in FAILED else it for it, engine in zip(runs, self.sides.engines)]
        one, other = (found or it for found, it in zip(looked, runs))
        failures = [failure_told(entry, it, name, found is not None) for found, it, name in zip(looked, (one, other), self.names) if it.close in FAILED]
        self.tell(divergence_of(one, other) or Divergence(len(one.frames), None, None), one, other, failures)

    def tell_late(self, *runs: Run) -> None:
        """Tells what had no answer in its time, so that nothing is known of it."""
        late = [(run.cause, name) for run, name in zip(runs, self.names) if run.close == UNANSWERED]
        print(printable(f"session {runs[0].number}, {cut(runs[0].name)}: {late[0][0]} over {' and '.join(name for _, name in late)}"))
        self.late += 1

    @property
    def unknown_told(self) -> str:
        """Of how many it isn't known whether play is over in both, and in which not all were played further, or nothing."""
        failing = [name for name, fails in self.failing.items() if fails]
        why = f", since with one more input not all were played by {' and '.join(failing)}" if failing else ""
        return f"; of {self.unknown} of the same it isn't known whether play is over in both{why}" if self.unknown else ""

    @property
    def result(self) -> str:
        same = self.count - self.parted - self.late
        told = f"{plural(self.count, 'session')}: {same} the same, {self.parted} {'diverges' if self.parted == 1 else 'diverge'}"
        told += f", {self.late} not answered" if self.late else ""
        told += f"; {self.refused} {'was' if self.refused == 1 else 'were'} refused by both, and not played" if self.refused else ""
        told += self.unknown_told
        sessions = self.sides.sessions
        left = len(sessions.entries) - self.count if sessions else 0
        return f"{told}; {left} more not played, since an engine failed {MOST_FAILED} times" if left and self.failed == MOST_FAILED else told


def check_played(comparing: Comparing, given: Namespace) -> None:
    """Refuses an answer that would stand for nothing: two runs without a session are the same, and so are two in which nothing was played over any text."""
    sessions = comparing.sides.sessions
    if comparing.count == 0:
        raise Refused("there is no session, so nothing was compared")
    if comparing.refused < comparing.count or sessions is None:
        return
    if given.sources:
        raise Refused(f"no session was played: both refuse each, as they do session 0: {comparing.why}")
    if not any(it.source for it in sessions.entries):
        raise Refused(f"no session was played: {EMPTY}")


def main(given: Namespace) -> int:
    guard_output(*given.files, *(given.sources or []))
    guard_files([given.report], [*given.files, *(given.sources or []), *(given.engines or []), *(given.stages or []), given.program])
    guard_places(given.report)
    sides = sides_of(given)
    if sides.sessions:
        expect(it.source for it in sides.sessions.entries)
    comparing = Comparing(given, sides)
    comparing.run()
    check_played(comparing, given)
    print(comparing.result)
    sys.stdout.flush()
    if comparing.report:
        comparing.report.result = comparing.result
        write_whole(given.report, comparing.report.page())
    return 2 if comparing.late else 1 if comparing.parted else 0
