"""Shows the stages of an input of a session: what the press gives the players,
each group or loop of rules that acted, with its lines as they stand in the
game's text, the movement, and the end.

    saxtegun why game.txt recordings.json --session 'level 2' --input 12
        what happened at that input of that session
    saxtegun why game.txt recordings.json --session 'level 2'
        the same of the input at which it stopped, or else of its last step
    saxtegun why game.txt recordings.json --session 'level 2' --input 12 --firings
        before each group or loop also each rule that changed a cell in it
    saxtegun why game.txt recordings.json --session 'level 2' --old before.txt
        the first stage at which the two texts of the game part

Each stage is drawn by the game's letters (`?`: a cell without one), with the
cells that changed and where pieces head (`^ < v >`, `a` for the action, `+`
where they differ in one cell). Inputs are counted from 0, and `--input start`
is the start of the session; columns and rows are counted from 1. --json writes
the lines of stages as they are (docs/sessions.md).

Exit status: 0, with --old 1 if the texts part, 2 if there is no answer."""
from __future__ import annotations

import re
import sys
from argparse import ArgumentParser, ArgumentTypeError, Namespace
from time import monotonic, process_time
from typing import NamedTuple, Optional

from saxtegun.budget import SECONDS
from saxtegun.commands import Refused, add_playing, add_ticks, cut, plural, printable
from saxtegun.explanations import source_told
from saxtegun.files import guard_output
from saxtegun.lines import Run
from saxtegun.playing import Engine, engine_of, runs_of
from saxtegun.sessions import Entry, Sessions, fits, read_sessions
from saxtegun.stage_descriptions import Acted, Text, told_of, where_told
from saxtegun.stage_divergence import Side, divergence_told
from saxtegun.stages import STOPS, Stop, lines_and_stages, stages_and_firings_of, stages_of
from saxtegun.texts import over, read_game, read_named, say_others, split_files

USAGE = "why [GAME.txt] SESSIONS.json (--session NAME | --number N) [--input K] [--firings] [--old OTHER.txt] [options]"
START = "start"
# So many names of sessions are told.
NAMES_TOLD = 8


def input_in(word: str) -> int:
    """How many inputs are taken behind the one that a word names."""
    if word == START:
        return 0
    if not re.fullmatch("[0-9]{1,9}", word):
        raise ArgumentTypeError(f"must be the number of an input, from 0, or {START}")
    return int(word) + 1


def number_in(word: str) -> int:
    """The number of a session that a word names."""
    if not re.fullmatch("[0-9]{1,9}", word):
        raise ArgumentTypeError("must be the number of a session, from 0")
    return int(word)


def add_words(words: ArgumentParser) -> None:
    words.add_argument("files", metavar="FILE", nargs="+", help="a game's text (a first file that doesn't end with .json), and a sessions file")
    asked = words.add_mutually_exclusive_group(required=True)
    asked.add_argument("--session", metavar="NAME", help="the session: its name, or a pattern ('level 2*') that fits no other")
    asked.add_argument("--number", metavar="N", type=number_in, help="the session by its number in the file, from 0: another may have its name")
    words.add_argument("--input", metavar="K", type=input_in, help=f"the input, from 0, or {START} (where it stopped, or its last step)")
    words.add_argument("--old", metavar="OTHER.txt", help="name the first stage at which this text of the game and the one at hand part")
    words.add_argument("--firings", action="store_true", help="show inside each group or loop each rule that changed a cell, pass by pass")
    words.add_argument("--json", action="store_true", help="write the lines of stages")
    add_playing(words)
    add_ticks(words)


class Asked(NamedTuple):
    """The session that is asked for, the file that it is in, the game's text as it is told, and how it is played."""

    entry: Entry
    sessions: Sessions
    text: Text
    engine: Engine


def entry_named(sessions: Sessions, name: str) -> Entry:
    """The session of a name, or the only one that a pattern fits."""
    found = [it for it in sessions.entries if it.name == name] or [it for it in sessions.entries if fits(it.name, name)]
    if len(found) == 1:
        return found[0]
    known = found or sessions.entries
    names = ", ".join(f"{cut(it.name)} (--number {it.number})" for it in known[:NAMES_TOLD]) + (", .." if len(known) > NAMES_TOLD else "")
    raise Refused(f"--session {cut(name)!r} fits {plural(len(found), 'session') if found else 'no session'} of {sessions.path}: {names or 'it has none'}")


def entry_at(sessions: Sessions, number: int) -> Entry:
    """The session of a number. Refused where there are fewer."""
    if number >= len(sessions.entries):
        raise Refused(f"{sessions.path} has no session {number}: {plural(len(sessions.entries), 'session')}, counted from 0")
    return sessions.entries[number]


def asked_by(given: Namespace) -> Asked:
    path, files = split_files(given.files)
    if len(files) != 1:
        raise Refused("name one sessions file, and before it at most a game's text")
    game = read_game(path)
    sessions = over(read_sessions(files[0]), game)
    entry = entry_named(sessions, given.session) if given.number is None else entry_at(sessions, given.number)
    say_others("why", sessions._replace(entries=[entry]), game)
    if given.old and game:
        # two texts of the game are compared, whatever the session's own is
        entry = entry._replace(source=game.source)
    of_game = game.path if game and entry.source == game.source else ""
    return Asked(entry, sessions, Text(entry.source, of_game, given.order), engine_of(given))


def played(asked: Asked) -> Run:
    """What the session shows. Refused where that is nothing."""
    run = runs_of([asked.entry], asked.sessions, asked.engine)[0]
    if not run.frames:
        over_it = f" over {asked.text.path}" if asked.text.path else ""
        raise Refused(f"{cut(asked.entry.name)} is {run.close}{over_it}: {source_told(asked.entry, run.cause or '')}")
    return run


def last_step(entry: Entry, run: Run) -> int:
    """Behind which input a session shows a last frame that a step has left."""
    shown = [it.at for it in run.frames if it.kind not in ("over", "undo") and (it.at == 0 or entry.inputs[it.at - 1] not in ("undo", "restart"))]
    return shown[-1] if shown else 0


def stop_in(asked: Asked, run: Run) -> Optional[int]:
    """Behind which input a session stops in a step: that of its last frame, or one behind it that shows none. Refused where that isn't found in time: for
    each of these the session is played anew."""
    if run.cause not in STOPS:
        return None
    end = monotonic() + SECONDS
    for at in range(run.frames[-1].at, len(asked.entry.inputs) + 1):
        if any(isinstance(it, Stop) for it in stages_of(asked.entry, at, asked.engine)):
            return at
        if monotonic() > end:
            raise Refused(f"the input at which {cut(asked.entry.name)} stops was not found in {SECONDS:g} s: name one by --input")
    return None


def input_of(asked: Asked, given: Namespace) -> int:
    """Behind which input the stages are that are asked for."""
    inputs = asked.entry.inputs
    if given.input is not None:
        if given.input > len(inputs):
            raise Refused(f"{cut(asked.entry.name)} has {plural(len(inputs), 'input')}, counted from 0")
        return int(given.input)
    run = played(asked)
    stop = stop_in(asked, run)
    return last_step(asked.entry, run) if stop is None else stop


def show(line: str) -> None:
    print(printable(line))


def no_stages_told(asked: Asked, at: int) -> str:
    """Why an input has no stages."""
    run = played(asked)
    if any(it.kind == "over" and it.at <= at for it in run.frames):
        return "play is over before it"
    if run.close == "stopped" and run.frames[-1].at < at:
        return f"the session has stopped before it ({run.cause})"
    return "it takes no step"


def tell_stages(asked: Asked, at: int, has_firings: bool) -> None:
    """Draws the stages of an input, one after the other, and the firings too where these are asked for. Refused where drawing takes too long: a small game may
    have millions of them. Whoever reads slowly takes no time of the processor."""
    before: Optional[Acted] = None
    count, end = 0, 0.0
    show(f"session {asked.entry.number}, {cut(asked.entry.name)}: {where_told(asked.entry, at)}")
    tells = stages_and_firings_of if has_firings else stages_of
    for it in tells(asked.entry, at, asked.engine):
        end = end or process_time() + SECONDS
        if process_time() > end:
            raise Refused(f"the stages behind are not drawn, since drawing took {SECONDS:g} s already: --json writes the lines of all")
        for line in told_of(it, before, asked.entry, at, asked.text):
            show(line)
        before = before if isinstance(it, Stop) else it
        count += 1
    if not count:
        show(f"no stages: {no_stages_told(asked, at)}")


def tell_divergence(asked: Asked, old: str) -> int:
    """Says at which stage two texts of a game part."""
    text = read_named(old)
    before = asked._replace(entry=asked.entry._replace(source=text.source), text=Text(text.source, text.path, asked.text.order))
    sides = Side("the old text", before.entry, before.text), Side("the new text", asked.entry, asked.text)
    told = divergence_told(sides, (played(before), played(asked)), asked.engine)
    first, *below = told or ["the same frames, and the same stages"]
    show(f"session {asked.entry.number}, {cut(asked.entry.name)}: {first}")
    for line in below:
        show(f"    {line}")
    return 1 if told else 0


def main(given: Namespace) -> int:
    guard_output(*given.files, *([given.old] if given.old else []))
    if given.old and (given.json or given.firings or given.input is not None):
        raise Refused("--old finds the input itself, and excludes --input, --firings and --json")
    asked = asked_by(given)
    if given.old:
        return tell_divergence(asked, given.old)
    at = input_of(asked, given)
    if given.json:
        for line, _ in lines_and_stages(asked.entry, at, asked.engine, given.firings):
            sys.stdout.write(line)
    else:
        tell_stages(asked, at, given.firings)
    return 0
