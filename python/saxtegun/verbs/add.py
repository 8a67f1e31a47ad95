"""Adds recordings to a sessions file, as an editor's console prints them or as
published test data has them.

CONSOLE.txt (`-` or nothing: standard input) may be all that the console
printed, with headings, messages and prose: recordings are looked for in it, and
standard error says what was skipped, and why. They are played before they are
added. If a source is refused or a session stops, nothing is added. A recording
that differs is refused too, unless you say --anyway.

With --game GAME.txt a recording over that text gets the empty text in its
place: `saxtegun test GAME.txt SESSIONS.json` plays it, and it follows each
edit. Without --game recordings keep their sources.

A recording is named by --name, or else as it is in the text; one without a name
of its own gets its game's title and level. No two names are alike. A recording
that is there already isn't added again. SESSIONS.json is made if it isn't
there. The entries in it stay unchanged; the new file is written beside it and
renamed.

Exit status: 0 all were added or are there, 1 a recording did not pass and so
none was, or one was cut off or had a fault, 2 a file is refused."""
from __future__ import annotations

import json
from argparse import ArgumentParser, Namespace
from typing import List, NamedTuple, Optional, Sequence

from saxtegun.commands import Refused, add_playing, add_ticks, cut, plural, say
from saxtegun.explanations import told
from saxtegun.files import guard_places, locked, write_whole
from saxtegun.playing import engine_of, runs_of
from saxtegun.recordings import Known, as_sessions, is_broken, named, own_name, read_findings
from saxtegun.sessions import Entry, Sessions, check_name, guard_size, read_or_new, with_more
from saxtegun.texts import GameText, file_of, of_another_text, over, read_game, remark, same_text

USAGE = "add SESSIONS.json [CONSOLE.txt|-] [--game GAME.txt] [--name NAME] [--anyway] [--order rows|columns]"
# What to do where a file has no room for more.
FULL = "add them to another file"


def add_words(words: ArgumentParser) -> None:
    words.add_argument("sessions", metavar="SESSIONS.json")
    words.add_argument("console", metavar="CONSOLE.txt", nargs="?", default="-")
    words.add_argument("--game", metavar="GAME.txt", help="the text that stands for sources that are the same, or empty")
    words.add_argument("--name", metavar="NAME", help="the name of what is added; of several, with a number")
    words.add_argument("--anyway", action="store_true", help="also what differs from what was recorded")
    add_playing(words)
    add_ticks(words)


class Added(NamedTuple):
    """What was added, under its names, and how many are in the file then."""

    names: List[str]
    total: int


def entry_with(new: Sessions, entry: Entry, name: str, game: Optional[GameText]) -> str:
    """The text of an entry with this name, and with the empty text as its source where that is the text at hand."""
    changes = [("name", name), *([("source", "")] if game and same_text(entry.source, game.source) else [])]
    at, end = entry.spans["entry"]
    pieces: List[str] = []
    for part, word in sorted(changes, key=lambda it: entry.spans[it[0]]):
        begin, behind = entry.spans[part]
        pieces += [new.text[at:begin], json.dumps(word, ensure_ascii=False)]
        at = behind
    return "".join([*pieces, new.text[at:end]])


def add_to(path: str, new: Sessions, game: Optional[GameText], name: Optional[str] = None) -> Added:
    """Adds entries to a sessions file as it is at this moment, whoever else has added some meanwhile."""
    with locked(path):
        old = read_or_new(path)
        known = Known(over(old, game).entries)
        wanted: List[Entry] = []
        for entry, it in zip(new.entries, over(new, game).entries):
            same = known.like(it)
            if same is None:
                wanted.append(entry)
            else:
                say(f"add: {cut(entry.name)}: is there already, as {cut(same.name)}: not added again")
        names = named(name, wanted, (it.name for it in old.entries))
        total = len(old.entries) + len(wanted)
        if wanted or not old.entries:
            text = with_more(old, [entry_with(new, it, word, game) for it, word in zip(wanted, names)])
            guard_size(path, text, total, FULL if game else f"{FULL}, or name the game by --game, whose text isn't copied")
            write_whole(path, text)
    return Added(names, total)


def failures_in(new: Sessions, game: Optional[GameText], given: Namespace) -> int:
    """Plays what is to be added, and says what did not pass; how many of these must not be added."""
    entries = over(new, game).entries
    failed = 0
    for entry, run in zip(entries, runs_of(entries, new, engine_of(given))):
        if run.close == "passed":
            continue
        sentence, below = told(run, entry, given.order, file_of(entry, game))
        is_let = given.anyway and run.close == "differs"
        failed += not is_let
        say(f"add: {cut(entry.name)}: {run.close}{'' if is_let else ', not added'}: {sentence}")
        for line in below:
            say(f"    {line}")
    return failed


def say_own_texts(entries: Sequence[Entry], game: Optional[GameText], path: str) -> None:
    """Says which entries keep the text that they were recorded over, and so don't follow the game."""
    others = of_another_text(entries, game)
    if game and others:
        say(f"add: {remark(path, others, game)}")
    own = [] if game else [it for it in entries if it.source]
    if own:
        keep = "keeps its" if len(own) == 1 else "keep their"
        say(f"add: {plural(len(own), 'recording')} {keep} own text, and no edit of a game changes that; with --game GAME.txt they follow it")


def main(given: Namespace) -> int:
    if given.sessions == "-":
        raise Refused("name a sessions file: nothing can be added to standard input")
    check_name(given.name or "")
    read_or_new(given.sessions)
    guard_places(given.sessions)
    game = read_game(given.game)
    findings = read_findings("add", given.console)
    new = as_sessions(given.console, findings.found, lambda name, it: own_name(name, it if it.source or not game else it._replace(source=game.source)))
    failed = failures_in(new, game, given)
    if failed:
        say(f"add: {plural(failed, 'recording')} of {len(new.entries)} did not pass, so nothing was added")
        return 1
    added = add_to(given.sessions, new, game, given.name)
    names = f": {', '.join(map(cut, added.names))}" if added.names else ""
    say(f"add: {plural(len(added.names), 'recording')} added to {given.sessions}, which has {added.total}{names}")
    say_own_texts(new.entries, game, given.sessions)
    return 1 if is_broken(findings) else 0
