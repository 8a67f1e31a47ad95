"""Makes the smallest session on which two programs still diverge in the same way,
as a case of conformance/.

P and Q are programs with our command line; `saxtegun` is our own. NAME is a
session of SESSIONS, or a pattern (`level 2*`): then the first on which they
diverge is taken. Where they don't on any, the first is with one more input, an
undo: it shows whether play is over. It leaves out inputs, then rules, levels and
objects, then other lines, while the programs diverge in the same way: with the
same kinds of frames, with the same closes, or with the same crash, hang or stray
line of one.

With --stages S T the first stage at which they part also stays one of the same
rules: S and T tell the stages of P and Q; `saxtegun` tells our own.

FILE, which must not be there yet, gets the case; if it has come to be there
meanwhile, FILE-2 does, or the next. Its lines are what P wrote, or Q where P
fails, and that may be wrong: read them against the rule before you keep it.

Exit status: 0 a case was written, 1 the programs don't diverge, 2 something
is refused."""
from __future__ import annotations

import json
import os
import re
import sys
import tempfile
from argparse import ArgumentParser, Namespace
from time import monotonic
from typing import Any, Dict, List, NamedTuple, Optional, Tuple

from saxtegun.cases import file_of, written_case
from saxtegun.commands import Refused, add_game, add_order, cut, fold, plural, printable, say, seconds_in, workers_in
from saxtegun.divergence import below_of, divergence_of, sentence_of
from saxtegun.engines import FAILED, SECONDS, answers, engine_at, failure_told, tellers_of, with_frames
from saxtegun.files import guard_places, read_lines, rights_of_new
from saxtegun.levels import Labels, read_cells
from saxtegun.lines import PLAYED, Run, runs_in
from saxtegun.playing import Engine, play_file
from saxtegun.processes import held, room_for_now
from saxtegun.sessions import Entry, Sessions, chosen, read_sessions, written
from saxtegun.shrinking import Programs, Way, cut_behind, shrunk
from saxtegun.solutions import MOST_INPUTS, with_one_more
from saxtegun.texts import over, read_game, say_others

USAGE = "shrink P Q SESSIONS NAME [FILE] [options]"
LETTERS_OF_A_FILE = 60
# Below so many a number behind the name of a file is looked for that makes it a new one.
MOST_NAMES = 1000
NOT_EACH_TIME = "a program doesn't show the same each time"
# So many seconds a session shrinks.
WITHIN = 600


def add_words(words: ArgumentParser) -> None:
    words.add_argument("one", metavar="P")
    words.add_argument("other", metavar="Q")
    words.add_argument("sessions", metavar="SESSIONS")
    words.add_argument("name", metavar="NAME")
    words.add_argument("file", metavar="FILE", nargs="?", help="where the case is written (a file named after the session)")
    add_game(words)
    words.add_argument("--stages", metavar=("S", "T"), nargs=2, help="what tells the stages of P and of Q: they then go on parting by the same rules")
    words.add_argument("--workers", metavar="N", type=workers_in)
    words.add_argument("--timeout", metavar="SECONDS", type=seconds_in, default=SECONDS, help="how long a session may take, or else it hangs (10)")
    words.add_argument("--within", metavar="SECONDS", type=seconds_in, default=WITHIN, help=f"leave nothing more out behind so many seconds ({WITHIN})")
    add_order(words)


def file_named(name: str) -> str:
    """The name of a case's file by that of a session."""
    return (re.sub("[^a-z0-9]+", "-", fold(name)).strip("-")[:LETTERS_OF_A_FILE].strip("-") or "case") + ".json"


class Found(NamedTuple):
    """A session on which the programs part: what both show, and in which way."""

    entry: Entry
    one: Run
    other: Run
    way: Way


def first_that_parts(programs: Programs, entries: List[Entry]) -> Optional[Found]:
    """The first entry on which the programs part. Few are played at once until some were the same: where a program hangs each takes all its time."""
    first, size = 0, 1
    while first < len(entries):
        some = entries[first : first + size]
        for entry, (one, other) in zip(some, programs.pairs(some)):
            way = programs.way(entry, one, other)
            if way is not None:
                return Found(entry, with_frames(entry, one, programs.one) or one, with_frames(entry, other, programs.other) or other, way)
        first, size = first + size, 2 * size
    return None


def told_progress(tried: int, entry: Entry) -> None:
    if sys.stderr.isatty():
        say(f"shrink: {tried} played; {plural(len(entry.inputs), 'input')}, {plural(len(entry.source), 'letter')} of source")


def with_reached(entry: Entry, run: Run) -> Entry:
    """An entry whose recorded level is the one that a run reached, where it can be read back."""
    level = run.frames[-1].level if run.frames else ""
    return entry._replace(level=level if read_cells(level, Labels()) is not None else "")


def is_as_shown(path: str, entry: Entry, shown: Run) -> bool:
    """Whether these lines are a whole answer of one session, with the frames and the close that were shown before. Another recorded level may make it pass or
    differ."""
    try:
        runs = [run for _, run in runs_in(path)]
    except Refused:
        return False
    return [
        (it.name, it.frames, it.cause, it.close in PLAYED or it.close) for it in runs
    ] == [(entry.name, shown.frames, shown.cause, shown.close in PLAYED or shown.close)]


def case_of_entry(entry: Entry, shown: Run, engine: Engine, of: Sessions) -> Dict[str, Any]:
    """A case, as an engine answers it. Refused where it doesn't show what it showed before."""
    text = written([entry])
    with room_for_now() as room:
        path, lines = os.path.join(room, "sessions.json"), os.path.join(room, "lines")
        with open(path, "w", encoding="utf-8", newline="") as file:
            file.write(text)
        status = play_file(path, lines, engine, of._replace(entries=[entry]), engine.seconds)
        if not is_as_shown(lines, entry, shown):
            raise Refused(f"{cut(entry.name)} with {plural(len(entry.inputs), 'input')} shows other frames than before, or another close: {NOT_EACH_TIME}")
        wanted = [json.loads(line) for _, line in read_lines(lines)]
    return {"words": ["--order", "rows"] if engine.order == "rows" else [], **file_of(text), "lines": wanted, "status": status}


def taken_name(path: str) -> str:
    """Makes an empty file by this name, or by another (`name-2.json`, ..) where something has come to be there, and answers its name."""
    root, ending = os.path.splitext(path)
    for name in (path, *(f"{root}-{number}{ending}" for number in range(2, MOST_NAMES))):
        try:
            os.close(os.open(name, os.O_CREAT | os.O_EXCL | os.O_WRONLY))
            return name
        except FileExistsError:
            continue
    raise Refused(f"{path} can't be written: it is there, as are {MOST_NAMES - 2} others named after it")


def write_case(path: str, text: str) -> str:
    """Writes a case beside its place; it gets its name, or another that is free, once all is there. Answers that name."""
    new, beside = "", os.path.dirname(os.path.abspath(path))
    try:
        with held():
            file = tempfile.NamedTemporaryFile("w", encoding="utf-8", newline="", dir=beside, prefix=".saxtegun-", delete=False)
            new = file.name
        with file:
            file.write(text)
        os.chmod(new, rights_of_new())
        with held():
            name = taken_name(path)
            os.replace(new, name)
        return name
    except OSError as why:
        raise Refused(f"{path} can't be written: {why.strerror}") from None
    finally:
        if new and os.path.exists(new):
            os.unlink(new)


def started_with(programs: Programs, found: Found) -> Entry:
    """Where shrinking begins: without the inputs behind the divergence, if that is one still."""
    shorter = cut_behind(found.entry, divergence_of(found.one, found.other), found.one, found.other)
    return shorter if programs.ways([shorter], found.way) == [found.way] else found.entry


def played_again(entry: Entry, programs: Programs, way: Way) -> Tuple[Run, Run]:
    """What the programs show of what is left. Refused where they don't part on it any more: one of them doesn't show the same each time."""
    one, other = next(programs.pairs([entry]))
    if programs.way(entry, one, other, way) != way:
        raise Refused(f"{cut(entry.name)} with {plural(len(entry.inputs), 'input')} no longer parts as it did before: {NOT_EACH_TIME}")
    return one, other


def tell(entry: Entry, one: Run, other: Run, programs: Programs, given: Namespace) -> None:
    """Tells where the programs part on what is left."""
    for run, engine, name in ((one, programs.one, given.one), (other, programs.other, given.other)):
        if run.close in FAILED:
            looked = with_frames(entry, run, engine)
            print(printable(f"{cut(entry.name)}: {failure_told(entry, looked or run, name, looked is not None)}"))
    divergence = divergence_of(one, other)
    if divergence is not None and one.close not in FAILED and other.close not in FAILED:
        print(printable(f"{cut(entry.name)}: {sentence_of(divergence, one, other, entry)}"))
        for line in below_of(divergence, entry, given.order):
            print(printable(f"    {line}"))


def main(given: Namespace) -> int:
    game = read_game(given.game)
    sessions = over(read_sessions(given.sessions), game)
    say_others("shrink", sessions, game)
    file = given.file or file_named(given.name)
    if os.path.lexists(file):
        raise Refused(f"{file} is there already")
    guard_places(file)
    engine = Engine(given.order, given.workers, seconds=given.timeout, may_build=False)
    programs = Programs(engine_at(given.one, engine), engine_at(given.other, engine), tuple(tellers_of(given)))
    entries = chosen(sessions, [given.name])
    found = first_that_parts(programs, entries) or first_that_parts(programs, with_one_more([it for it in entries if len(it.inputs) < MOST_INPUTS]))
    if found is None:
        print(printable(f"{given.one} and {given.other} show the same"))
        return 1
    if found.one.close in FAILED and found.other.close in FAILED:
        tell(found.entry, found.one, found.other, programs, given)
        raise Refused(f"both programs fail on {cut(found.entry.name)}, and a case has the lines of one that doesn't")
    begin = monotonic()
    entry, tried = shrunk(programs, started_with(programs, found), found.way, told_progress, given.within)
    if monotonic() - begin > given.within:
        say(f"shrink: stopped behind {given.within:g} s; with a larger --within it may get smaller")
    one, other = played_again(entry, programs, found.way)
    tell(entry, one, other, programs, given)
    keeper, shown = (programs.one, one) if one.close not in FAILED else (programs.other, other)
    if found.way[0] != "close":
        # the recorded level decides nothing here, and the one that P reached makes the case one that P passes
        entry = with_reached(entry, next(answers([entry], keeper)))
    written_as = write_case(file, written_case(case_of_entry(entry, shown, keeper, sessions)))
    if written_as != file:
        say(f"shrink: {file} has come to be there meanwhile: the case is written as {written_as}")
    sizes = [f"{plural(len(it.inputs), 'input')} and {plural(len(it.source), 'letter')} of source" for it in (found.entry, entry)]
    print(printable(f"from {sizes[0]} to {sizes[1]}, {plural(tried, 'session')} played; the case is {written_as}"))
    return 0
