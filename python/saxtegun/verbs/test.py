"""Plays recordings and says what did not pass, and how each session ended.

    saxtegun test game.txt recordings.json
        the game's text is the source of each recording whose source is empty
    saxtegun test suite.json other.json
        recordings that have their own sources

A recording that has another text than game.txt is played over its own, and over
game.txt too: it fails unless it passes over both. A line says which have one,
and what makes them follow game.txt.

`passed` says that the last level is as recorded, not that it was won. So each
session also says whether it is solved (all levels), solved up to a level, or
not. A session that --solved names must be solved, and so must an entry with a
further element, [name, [..], "solved"]; otherwise it fails. With --solvable a
level of game.txt fails too that no session wins, and no presses win; where that
isn't known within --levels and --within, or since other inputs or a restart by a
rule may win it, there is no whole answer. If game.txt lies in a git folder, a session that broke since the last
commit says at which input its frames first part from those of the committed
text, and by which rule; and one fails that passes, and wins fewer levels. With --watch all is played again at each save of a file
that was read, until you stop it. With --timeout N a session that isn't answered
in N seconds is stopped and named, and the others are told as ever.

Exit status: 0 all passed, 1 some session did not, 2 there is no whole answer."""
from __future__ import annotations

import signal
import sys
from argparse import ArgumentParser, Namespace
from collections import Counter
from pathlib import Path
from typing import Dict, List, NamedTuple, Optional, Tuple

from saxtegun.budget import EXPLAINING, SECONDS
from saxtegun.commands import Refused, add_playing, cut, fail, plural, printable, say
from saxtegun.descriptions import expect
from saxtegun.differences import HINT
from saxtegun.explanations import fault_in, summary, told
from saxtegun.failures import Failure, annotation, markdown, once
from saxtegun.file_watch import times_of, wait_for_save
from saxtegun.files import guard_files, guard_output, guard_places, write_whole
from saxtegun.hangs import Finder
from saxtegun.junit import junit_of
from saxtegun.lines import UNANSWERED, Run
from saxtegun.logs import write_command
from saxtegun.origins import add_date, left_out_told, origin_of, program_told
from saxtegun.pages import Report
from saxtegun.playing import engine_of, runs_of
from saxtegun.regressions import divergences
from saxtegun.sessions import Entry, Sessions, fits, read_sessions, unfitting
from saxtegun.solutions import NOT_ANSWERED, NOT_PLAYED, NOT_SOLVED, SOLVED, UNKNOWN_END, no_longer, solved_of, unsolved_told
from saxtegun.solvability import UNKNOWN, UNSOLVABLE, levels_not_won
from saxtegun.solving import add_bounds, bounds_of
from saxtegun.texts import GameText, elsewhere_told, file_of, of_another_text, over, read_game, remark, split_files
from saxtegun.ticks import forget, ticks_property, ticks_told
from saxtegun.wins import levels_won, lost_wins, wins_before

# How a session ends of which it isn't known whether it solves its game.
UNKNOWN_ENDS = (NOT_PLAYED, NOT_ANSWERED)
# So many files are named where all are.
FILES_TOLD = 10
USAGE = "test [GAME.txt] SESSIONS.json.. [options]"


def add_words(words: ArgumentParser) -> None:
    words.add_argument("files", metavar="FILE", nargs="+", help="a game's text (a first file that doesn't end with .json), and sessions files")
    words.add_argument("--filter", metavar="PATTERN", action="append", help="play sessions whose names fit ('level 2*'); may be repeated")
    words.add_argument("--solved", metavar="PATTERN", action="append", default=[], help="sessions whose names fit must be solved; may be repeated")
    words.add_argument("--solvable", action="store_true", help="each level of GAME.txt must be one that some presses win")
    words.add_argument("--quiet", action="store_true", help="show only counts and failures")
    words.add_argument("--max-fail", metavar="N", type=int, help="show N failures, and count the others")
    words.add_argument("--watch", action="store_true", help="play again at each save of a file")
    words.add_argument("--junit", metavar="F", help="write a JUnit file")
    words.add_argument("--report", metavar="F", help="write a page that shows each session frame by frame")
    add_date(words)
    words.add_argument("--markdown", metavar="F", help="write a summary in Markdown")
    words.add_argument("--github", action="store_true", help="write annotations for GitHub")
    add_playing(words)
    add_bounds(words)


class Suite(NamedTuple):
    """What was played: the sessions of all files, numbered through, what they showed, how they ended, and the file of each. `elsewhere` is why sessions fail
    that passed over a text of their own, and `remarks` tells which have one, and which files have no session; `game` is the text at hand. Those of `unanswered`
    weren't answered over that, or as to whether they are solved, and a filter left so many out."""

    sessions: Sessions
    runs: List[Run]
    solved: Dict[int, str]
    files: List[Tuple[str, int]]
    elsewhere: Dict[int, str]
    remarks: List[str]
    game: Optional[GameText]
    unanswered: List[int]
    left_out: int


class Picked(NamedTuple):
    """A sessions file, and the entries of it that are played."""

    sessions: Sessions
    entries: List[Entry]


def picked(sessions: Sessions, patterns: Optional[List[str]]) -> List[Entry]:
    if patterns is None:
        return sessions.entries
    return [it for it in sessions.entries if any(fits(it.name, pattern) for pattern in patterns)]


def read_files(given: Namespace, game: Optional[GameText]) -> List[Picked]:
    """What is to be played of each file. Refused where there is nothing, or where a pattern fits nothing: it would demand nothing."""
    files = [over(read_sessions(it), game) for it in split_files(given.files)[1]]
    entries = [it for file in files for it in file.entries]
    if not entries:
        raise Refused(f"{', '.join(it.path for it in files)} has no session, so nothing was played")
    them = [Picked(it, picked(it, given.filter)) for it in files]
    for word, patterns, of in (("--filter", given.filter or [], entries), ("--solved", given.solved, [it for one in them for it in one.entries])):
        alone = unfitting(of, patterns)
        if alone:
            raise Refused(f"{word} fits no session ({', '.join(alone)})")
    return them


def must_be_solved(entry: Entry, patterns: List[str]) -> bool:
    return entry.is_solved_wanted or any(fits(entry.name, pattern) for pattern in patterns)


def elsewhere_in(file: Picked, runs: List[Run], game: GameText, given: Namespace) -> Tuple[Dict[int, str], List[int]]:
    """Why sessions fail that passed over a text of their own, by their places: over the text at hand they don't pass, or aren't solved and must be. Behind
    that the places of those that weren't answered there."""
    others = {it.number for it in of_another_text(file.entries, game)}
    places = [place for place, it in enumerate(file.entries) if it.number in others and runs[place].close == "passed"]
    entries = [file.entries[it]._replace(source=game.source) for it in places]
    shown = runs_of(entries, file.sessions, engine_of(given)) if entries else []
    ends = solved_of(entries, shown, file.sessions, engine_of(given)) if any(must_be_solved(it, given.solved) for it in entries) else {}
    found: Dict[int, str] = {}
    unanswered = [place for place, run in zip(places, shown) if run.close == UNANSWERED]
    for number, (place, entry, run) in enumerate(zip(places, entries, shown)):
        end = ends.get(number, NOT_PLAYED)
        if run.close != "passed":
            found[place] = f"over its own text, but not over {game.path}: {run.close}: {told(run, entry, given.order, game.path)[0]}"
        elif must_be_solved(entry, given.solved) and end != SOLVED:
            found[place] = f"over its own text, but over {game.path} {no_longer(end)}"
            unanswered += [place] if end == NOT_ANSWERED else []
    return found, unanswered


def files_told(paths: List[str]) -> str:
    """What all files together are called: a stranger may bring thousands."""
    names, more = [Path(it).name for it in paths[:FILES_TOLD]], len(paths) - FILES_TOLD
    return ", ".join(names) + (f" and {plural(more, 'more file')}" if more > 0 else "")


def played(given: Namespace) -> Suite:
    game = read_game(split_files(given.files)[0])
    engine = engine_of(given)
    files = read_files(given, game)
    left_out = sum(len(it.sessions.entries) - len(it.entries) for it in files)
    suite = Suite(Sessions(files_told(split_files(given.files)[1]), "", []), [], {}, [], {}, [], game, [], left_out)
    for file in files:
        if not file.sessions.entries:
            suite.remarks.append(f"{file.sessions.path} has no session, so nothing of it was played")
        first = len(suite.runs)
        expect(it.source for it in file.entries)
        shown = runs_of(file.entries, file.sessions, engine) if file.entries else []
        ended = solved_of(file.entries, shown, file.sessions, engine)
        others = of_another_text(file.entries, game)
        if game and others:
            suite.remarks.append(remark(file.sessions.path, others, game))
            elsewhere, unanswered = elsewhere_in(file, shown, game, given)
            suite.elsewhere.update({first + place: why for place, why in elsewhere.items()})
            suite.unanswered.extend(first + place for place in unanswered)
        suite.files.extend((file.sessions.path, it.number) for it in file.entries)
        suite.sessions.entries.extend(it._replace(number=first + place) for place, it in enumerate(file.entries))
        suite.runs.extend(it._replace(number=first + it.number) for it in shown)
        suite.solved.update({first + place: it for place, it in ended.items()})
    return suite


def unsolved_in(suite: Suite, given: Namespace) -> Dict[int, str]:
    """Why sessions fail that passed, and must be solved, or won more levels over the committed text."""
    passed = {it.number: suite.solved.get(it.number, NOT_PLAYED) for it in suite.runs if it.close == "passed"}
    wanted = {it.number for it in suite.sessions.entries if must_be_solved(it, given.solved)}
    unsolved = [it for it in suite.sessions.entries if passed.get(it.number) not in (None, SOLVED)]
    before = wins_before(unsolved, suite.game, suite.sessions, engine_of(given))
    lost = lost_wins(suite.sessions.entries, suite.runs, passed, before, suite.game)
    return {**lost, **{number: no_longer(end) for number, end in passed.items() if number in wanted and end != SOLVED}}


def levels_in(suite: Suite, given: Namespace) -> List[Failure]:
    """The levels of the game that no session wins, and for which no solution is found, where there must be one."""
    if suite.game is None or not given.solvable:
        return []
    won = levels_won(suite.sessions.entries, suite.runs, suite.solved, suite.game.source)
    return levels_not_won(suite.game, bounds_of(given), engine_of(given), won)


def failures_of(suite: Suite, though_passed: Dict[int, str], given: Namespace, hung: Finder) -> List[Failure]:
    paths = split_files(given.files)[1]
    found: Dict[int, Failure] = {}
    for entry, run in zip(suite.sessions.entries, suite.runs):
        path, number = suite.files[entry.number]
        place = f"{path}: session {number}" if len(paths) > 1 else f"session {number}"
        if run.close == "passed" and entry.number not in though_passed:
            continue
        game = file_of(entry, suite.game)
        sentence, below = told(run, entry, given.order, game, hung.told(entry, run))
        fault = fault_in(run.cause or "")
        if run.close == "passed":
            sentence, below = though_passed[entry.number], []
        is_of_game = bool(game and fault)
        found[entry.number] = Failure(f"{place}, {cut(entry.name)}", run.close, sentence, below, game if is_of_game else path, fault[1] if is_of_game and fault else 1)
    # once all is told that needs no other text to be played
    for number, where in divergences(suite.game, suite.sessions.entries, suite.runs, suite.sessions, engine_of(given)).items():
        # what passed over the committed text is no recording of the site's that is decided otherwise here
        below = [it for it in found[number].below if not it.startswith(HINT)]
        found[number] = found[number]._replace(below=[*below, *where])
    return list(found.values())


def show(line: str) -> None:
    print(printable(line))


def tell(suite: Suite, failures: List[Failure], unsolved: Dict[int, str], given: Namespace) -> str:
    """Says how the sessions ended; the counts are handed on."""
    if not given.quiet:
        for run in suite.runs:
            if run.close == "passed" and run.number not in suite.elsewhere and run.number not in unsolved:
                show(f"passed, {suite.solved.get(run.number, NOT_PLAYED)}: {cut(run.name)}")
    most = given.max_fail if given.max_fail is not None else len(failures)
    for failure in failures[:most]:
        show(f"{failure.name}: {failure.close}: {failure.sentence}")
        for line in failure.below:
            show(f"    {line}")
    if len(failures) > most:
        show(f"and {plural(len(failures) - most, 'more failure')}")
    ends = Counter("solved" if it == SOLVED else it if it in (NOT_SOLVED, *UNKNOWN_ENDS) else "solved in part" for it in suite.solved.values())
    counts = summary(it.close for it in suite.runs) + unsolved_told(unsolved.values())
    counts += elsewhere_told(len(suite.elsewhere))
    told_always = ("solved", "solved in part", NOT_SOLVED)
    counts += f"; {', '.join(f'{ends[it]} {it}' for it in (*told_always, *(it for it in UNKNOWN_ENDS if ends[it])))}"
    for close, told_so in ((UNSOLVABLE, "can't be won"), (UNKNOWN, "not known")):
        count = sum(it.close == close for it in failures)
        counts += f"; {plural(count, 'level')} {told_so}" if count else ""
    counts += left_out_told(suite.left_out) + ticks_told()
    for line in suite.remarks:
        show(line)
    show(counts)
    if given.github:
        for failure in failures[:most]:
            write_command(sys.stdout, annotation(failure))
    sys.stdout.flush()
    return counts


def properties_of(suite: Suite) -> Dict[str, str]:
    """What a JUnit file says of a suite beside its sessions."""
    left_out = {"left out by --filter": plural(suite.left_out, "session")} if suite.left_out else {}
    return {**left_out, **ticks_property()}


def write_files(suite: Suite, failures: List[Failure], though_passed: Dict[int, str], counts: str, given: Namespace, hung: Finder, levels: List[Failure]) -> None:
    if given.junit:
        write_whole(given.junit, junit_of(suite.runs, suite.sessions.path, suite.sessions, given.order, "error", though_passed, levels, properties_of(suite)))
    if given.report:
        report = Report(suite.sessions, given.order, origin_of(suite.sessions, given, program_told(engine_of(given).words()), suite.game, suite.left_out), hung)
        for run in suite.runs:
            report.add(run, though_passed.get(run.number))
        # neither levels nor what was left out is shown there: the page says the counts in place of how many sessions passed
        report.result = counts if levels or suite.left_out else ""
        write_whole(given.report, report.page())
    if given.markdown:
        write_whole(given.markdown, markdown(failures, counts))


def test(given: Namespace) -> int:
    suite = played(given)
    expect(it.source for it in suite.sessions.entries if given.report or suite.runs[it.number].close != "passed")
    unsolved = unsolved_in(suite, given)
    hung = Finder(suite.sessions, engine_of(given))
    suite.unanswered.extend(it for it, why in unsolved.items() if why == UNKNOWN_END)
    though_passed = {**unsolved, **suite.elsewhere}
    failures = once(failures_of(suite, though_passed, given, hung))
    levels = levels_in(suite, given)
    failures += levels
    write_files(suite, failures, though_passed, tell(suite, failures, unsolved, given), given, hung, levels)
    return 2 if any(it.close == UNKNOWN for it in levels) or suite.unanswered or any(it.close == UNANSWERED for it in suite.runs) else 1 if failures else 0


def watch(given: Namespace) -> int:
    """Tests again at each save, until it is stopped; the status is that of the last time. It can be stopped so too where whoever started it ignores
    interrupts, as a shell does for what it starts in the background."""
    signal.signal(signal.SIGINT, signal.default_int_handler)
    status = 2
    try:
        while True:
            times = times_of(given.files)
            EXPLAINING.left = SECONDS
            forget()
            # whoever stops it while it plays has no answer to what was saved last
            status = 2
            try:
                status = test(given)
            except Refused as why:
                fail("test", str(why))
            say(f"test: waiting for a save of {', '.join(given.files)}")
            wait_for_save(given.files, times)
            print(flush=True)
    except KeyboardInterrupt:
        return status


def main(given: Namespace) -> int:
    if given.max_fail is not None and given.max_fail < 0:
        raise Refused("--max-fail can't be negative")
    if given.solvable and not split_files(given.files)[0]:
        raise Refused("--solvable asks for the levels of a game: name its text first")
    if "-" in given.files and (given.watch or given.files.count("-") > 1):
        raise Refused("standard input can be read only once: name it once, and without --watch")
    guard_files((given.junit, given.report, given.markdown), [*given.files, given.program])
    guard_output(*given.files)
    guard_places(given.junit, given.report, given.markdown)
    return watch(given) if given.watch else test(given)
