"""Makes an edited game the source of recordings, to see which still pass.

Writes SESSIONS with the text of GAME.txt as the source of each session; --only
takes those whose names fit. All else stays unchanged. Standard error says how
many sessions got the source. With --follow they get the empty text, in whose
place `saxtegun test GAME.txt SESSIONS` plays GAME.txt, as it is then: they
follow each edit. With --in-place the new file replaces SESSIONS once it is
whole.

Exit status: 0, or 2 if a file is refused or --only fits no session. It is also
2 if texts of other games would be replaced, by their titles, or texts without
one: name the sessions of GAME.txt with --only, or say --all."""
from __future__ import annotations

import sys
from argparse import ArgumentParser, Namespace
from typing import Sequence

from saxtegun.budget import SECONDS, UsedUp
from saxtegun.commands import Refused, plural, say
from saxtegun.files import guard_output, guard_places, write_again
from saxtegun.games import titles_of
from saxtegun.sessions import Entry, changed, chosen, guard_size, read_sessions
from saxtegun.texts import read_named

USAGE = "source GAME.txt SESSIONS [--follow] [--only PATTERN..] [--all] [--in-place] [>NEW]"
# What to do where each session with its text would be more than a file holds.
LARGE = "with --follow they need no copies of the text"


def add_words(words: ArgumentParser) -> None:
    words.add_argument("game", metavar="GAME.txt")
    words.add_argument("sessions", metavar="SESSIONS")
    words.add_argument("--only", metavar="PATTERN", action="append", help="change sessions whose names fit; may be repeated")
    words.add_argument("--follow", action="store_true", help="the empty text, in whose place the game's text is played")
    words.add_argument("--in-place", action="store_true")
    words.add_argument("--all", action="store_true", help="also where they are of different games, by their titles")


def check_titles(entries: Sequence[Entry], text: str, given: Namespace) -> None:
    """Refuses where a text would be taken away that may be another game's: titles alone tell which game it is of."""
    try:
        titles, own = titles_of(it.source for it in entries if it.source), titles_of([text])
    except UsedUp:
        raise Refused(f"the titles of all texts that would go take over {SECONDS:.0f} s to read: name the sessions of {given.game} with --only, or say --all") from None
    if None in titles:
        raise Refused(f"a text that would go has no title, so nothing tells that it is of {given.game}: name the sessions of that with --only, or say --all")
    games = titles | own
    if titles and len(games) > 1:
        raise Refused(f"the sessions and {given.game} are of {len(games)} games, by their titles: name those of {given.game} with --only, or say --all")


def main(given: Namespace) -> int:
    if given.in_place and given.sessions == "-":
        raise Refused("--in-place needs a file, and standard input is none")
    if given.in_place:
        guard_places(given.sessions)
    guard_output(given.game, *([] if given.in_place else [given.sessions]))
    text, sessions = read_named(given.game).source, read_sessions(given.sessions)
    source = "" if given.follow else text
    entries = [it for it in chosen(sessions, given.only) if it.source != source]
    if not given.all and not given.only:
        check_titles(entries, text, given)
    new = changed(sessions, {it.number: ("source", source) for it in entries})
    if given.in_place:
        guard_size(given.sessions, new, len(sessions.entries), LARGE)
        write_again(given.sessions, sessions.text, new)
    else:
        sys.stdout.write(new)
        sys.stdout.flush()
    games = len({it.source for it in entries})
    say(f"source: {plural(len(entries), 'session')} got another source, of {len(sessions.entries)}")
    if games > 1:
        say(f"source: they had {games} different sources; name sessions with --only where these are different games")
    return 0
