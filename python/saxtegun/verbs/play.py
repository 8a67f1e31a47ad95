"""Plays a game in the terminal, each key by the program itself, and saves what you
played as a recording.

Arrows or w a s d move, x or space acts, z or u undoes, r restarts, t is a tick,
q ends. The level is drawn in the game's colours, as near as the terminal has
them; by letters with --letters, where it has none (NO_COLOR asks for that), or
where all of it doesn't fit; and around the player where not even the letters
fit. A cell without a letter has that of its highest object, underlined. Ctrl-Z
leaves the game, fg goes on. --level N starts at the N-th level; messages don't
count.

With --save NAME SESSIONS.json what you played is added there at the end, also
where you end it by Ctrl-C or close the window. Without it you are asked at the
end for a file; where you name none, or there is no terminal, the recording goes
to standard output. Its last level is the recorded one, and the empty text stands in place of the
game's: `saxtegun test GAME.txt SESSIONS.json` plays it. If all levels are won, it
must be solved then (its entry says "solved"). If standard input is no terminal,
its letters are the keys.

Exit status: 0, or 2 if the game is refused."""
from __future__ import annotations

import json
import signal
import sys
import tempfile
from argparse import ArgumentParser, Namespace
from contextlib import contextmanager
from typing import Any, Iterator, List, Optional

from saxtegun.commands import Refused, add_ticks, cut, plural, printable, say
from saxtegun.explanations import cause_told, told
from saxtegun.files import MARK, guard_places, locked, read_text, write_whole
from saxtegun.games import game_of
from saxtegun.keyboard import DRAW, keyboard
from saxtegun.levels import Labels, in_rows, read_cells, width_of
from saxtegun.levelsets import count_of_levels, entries_of_levels
from saxtegun.lines import Run
from saxtegun.open_sessions import Closed, OpenSession, opened
from saxtegun.playing import Engine, runs_of, shown_beyond
from saxtegun.recordings import Names
from saxtegun.sessions import MOST_BYTES, Entry, Input, Sessions, check_name, demands_of, guard_size, read_or_new, with_more
from saxtegun.solutions import MOST_INPUTS, with_one_more
from saxtegun.terminal import CLEAR, KEYS, Screen, fitted, lettered, screen_now

USAGE = "play GAME.txt [--level N] [--save NAME SESSIONS.json] [--letters]"
FULL = "save in another file"
HELP = "arrows move, x acts, z undoes, r restarts, t ticks, q ends"


def add_words(words: ArgumentParser) -> None:
    words.add_argument("game", metavar="GAME.txt")
    words.add_argument("--level", metavar="N", type=int, default=1)
    words.add_argument("--save", metavar=("NAME", "SESSIONS.json"), nargs=2)
    words.add_argument("--letters", action="store_true", help="draw by the game's letters, without colours")
    words.add_argument("--program", metavar="PROGRAM", help="play with this program")
    add_ticks(words)


def append(path: str, entry: str) -> None:
    """Adds an entry to a sessions file as it is at this moment."""
    with locked(path):
        old = read_or_new(path)
        text = with_more(old, [entry])
        guard_size(path, text, len(old.entries) + 1, FULL)
        write_whole(path, text)


def handed_out(entry: str) -> str:
    """Writes an entry to standard output, or where that fails into a new file; where it is then."""
    try:
        print(entry, flush=True)
        return "stands on standard output"
    except (OSError, ValueError):
        pass
    try:
        with tempfile.NamedTemporaryFile("w", encoding="utf-8", prefix="saxtegun-", suffix=".json", delete=False) as file:
            file.write(f"[{entry}]\n")
        return f"is in {file.name}"
    except OSError:
        say(entry)
        return "stands above this line"


def guard_saving(name: str, path: str) -> None:
    """Refuses a name that can't be written, and a file to which nothing can be added, before anything is played that would be lost."""
    check_name(name)
    old = read_or_new(path)
    guard_size(path, old.text, len(old.entries) + 1, FULL)
    guard_places(path)


class Play:
    """A game while it is played: the inputs so far, how many frames they show, and the last of these. Those before it are not held: there may be many, and large ones."""

    def __init__(self, given: Namespace) -> None:
        self.given, self.source = given, read_text(given.game).lstrip(MARK)
        levels = entries_of_levels(self.source)
        places = [place for place, it in enumerate(levels) if it.rows]
        if given.level < 1 or (places and given.level > len(places)):
            raise Refused(f"{given.game} has {plural(count_of_levels(self.source), 'level')}, but no level {given.level}")
        self.index = places[given.level - 1] if places else 0
        self.engine = Engine(program=given.program, has_ticks=given.ticks_as_recorded)
        self.inputs: List[Input] = []
        self.session: Optional[OpenSession] = None
        run = runs_of([self.entry()], Sessions(given.game, "", []), self.engine)[0]
        if run.cause is not None:
            sentence, below = told(run, self.entry(), game=given.game)
            raise Refused(f"{given.game} is not played: {sentence}" + (f": {below[0]}" if below else ""))
        self.count, self.last = len(run.frames), run.frames[-1]

    def entry(self, level: str = "") -> Entry:
        return Entry(0, "play", self.source, self.inputs, level, self.index, {}, False)

    def press(self, key: Input) -> str:
        """Plays one more input; what there is to say of it. It counts once it is played, so an interrupt leaves whole what was played before."""
        switch = game_of(self.source).switches.get(key)
        if switch is not None:
            return f"the game has {switch}: the key is left out"
        if len(self.inputs) >= MOST_INPUTS:
            return f"a recording has {MOST_INPUTS:,} inputs at most: the key is left out"
        run = self.shown_with(key)
        if run.cause:
            return f"{cause_told(run.cause)}: the key is left out"
        self.inputs.append(key)
        self.count, self.last = self.count + len(run.frames), [self.last, *run.frames][-1]
        kinds = [it.kind for it in run.frames]
        return "solved: all levels" if "over" in kinds else "the next level" if "load" in kinds else ""

    def shown_with(self, key: Input) -> Run:
        """What one more input shows: in the session that is open, which is left as it was where the key is left out, or by all inputs."""
        try:
            if self.session is not None:
                run = self.session.give(key)
                if run.cause:
                    self.session.back(len(self.inputs))
                return run
        except Closed:
            self.session = None
        longer = self.entry()._replace(inputs=[*self.inputs, key])
        return shown_beyond(longer, self.count, self.engine._replace(workers=1))

    @contextmanager
    def kept_open(self) -> Iterator[None]:
        """Keeps its session open as long as this lasts, where the engine does."""
        with opened(self.entry(), self.engine) as self.session:
            yield

    def draw(self, word: str) -> None:
        """Draws the level that is reached, and what there is to say of the last key."""
        told = printable(f"{cut(game_of(self.source).title)}: {plural(len(self.inputs), 'input')} {word}")
        screen = screen_now()
        if screen is None:
            shown = [*self.level_in(None), told]
        else:
            below = [told[: screen.columns], HELP[: screen.columns]]
            shown = [*self.level_in(screen._replace(rows=screen.rows - len(below) - 1)), *below]
        sys.stdout.write(("" if screen is None else CLEAR) + "\n".join(shown) + "\n")
        sys.stdout.flush()

    def level_in(self, screen: Optional[Screen]) -> List[str]:
        """The level that is reached, in a terminal or as plain letters."""
        text, labels = self.last.level, Labels()
        cells = read_cells(text, labels)
        if cells is None:
            return ["a name of an object holds a comma, so the level can't be drawn"]
        rows = [[labels.names[it] for it in row] for row in in_rows("columns", width_of(text, len(cells)), cells)]
        game = game_of(self.source)
        return lettered(game, rows) if screen is None or not rows else fitted(game, rows, screen, self.given.letters)

    def is_solved(self) -> bool:
        """Whether all levels are won, which only one more input shows. It isn't known where the program fails."""
        if self.last.kind == "over" or len(self.inputs) >= MOST_INPUTS:
            return self.last.kind == "over"
        try:
            run = shown_beyond(with_one_more([self.entry()])[0], self.count, self.engine._replace(workers=1))
        except Refused:
            return False
        return bool(run.frames) and run.frames[-1].kind == "over"

    def recording(self, name: str) -> List[Any]:
        """What was played, as an entry of a sessions file. It must be solved, if it is."""
        return [name, ["", self.inputs, self.last.level, self.index], *demands_of(self.entry()._replace(is_solved_wanted=self.is_solved()))]

    def hand_out(self) -> None:
        """Writes what was played to standard output."""
        say(f"play: not saved: what was played {handed_out(in_plain_letters(self.recording(f'level {self.given.level}')))}: saxtegun add takes it")

    def save(self, name: str, path: str) -> None:
        """Adds what was played to a file, or where that fails writes it to standard output: it is lost in no case."""
        value = self.recording(name)
        entry = json.dumps(value, ensure_ascii=False, separators=(",", ":"))
        try:
            append(path, entry)
        except Refused as why:
            advice = "keep it, and call saxtegun add" if len(entry.encode()) < MOST_BYTES else f"no sessions file takes it, which has {MOST_BYTES // 2**20} MiB at most"
            raise Refused(f"{why}; what was played {handed_out(in_plain_letters(value))}: {advice}") from None
        solved = "".join(f", {it}" for it in value[2:])
        say(f"play: {name}: {plural(len(self.inputs), 'input')} saved in {path}{solved}")


def in_plain_letters(value: object) -> str:
    """A value as JSON without any letter by which a stranger's names would command a terminal."""
    return json.dumps(value, separators=(",", ":")).replace("\x7f", "\\u007f")


def place_offered(play: Play) -> Optional[List[str]]:
    """Under which name and in which file what was played is saved, where whoever played it at a terminal names one."""
    name = f"level {play.given.level}"
    while play.inputs and sys.stdin.isatty():
        print("save it? name a file of recordings, as recordings.json, or press Enter: ", end="", file=sys.stderr, flush=True)
        path = sys.stdin.readline().strip()
        if not path:
            return None
        try:
            free = Names(it.name for it in read_or_new(path).entries).free(name)
            guard_saving(free, path)
            return [free, path]
        except Refused as why:
            say(f"play: {why}")
    return None


def press_keys(play: Play) -> None:
    """Plays the keys up to the one that ends."""
    with keyboard() as keys:
        word = ""
        play.draw(word)
        while True:
            key = keys.next()
            if key in ("", "q", "\x03", "\x04"):
                return
            it: Optional[Input] = KEYS.get(key)
            if it is not None:
                word = play.press(it)
            if it is not None or key == DRAW:
                play.draw(word)


def main(given: Namespace) -> int:
    if sys.stdin is None:
        raise Refused("standard input is closed, so there are no keys")
    if given.save:
        guard_saving(*given.save)
    play = Play(given)
    try:
        with play.kept_open():
            press_keys(play)
        given.save = given.save or place_offered(play)
    except KeyboardInterrupt:
        # what was played is saved as behind q
        signal.signal(signal.SIGINT, signal.SIG_IGN)
    finally:
        if given.save:
            play.save(*given.save)
        elif play.inputs:
            play.hand_out()
    return 0
