"""The last committed text of a game, and where sessions that broke since then part from what they showed over it.

A folder of a stranger's may hold a repository with any configuration, so git is asked for one object alone: without hooks, filters, helpers, replaced objects
or any transport, with nothing of what the environment says of git, and not for long."""
from __future__ import annotations

import os
import shutil
import subprocess
import tempfile
from time import monotonic
from typing import Dict, List, NamedTuple, Optional, Sequence, Tuple

from saxtegun.budget import EXPLAINING, UsedUp
from saxtegun.commands import Refused, printable
from saxtegun.divergence import Divergence, divergence_of, sentence_of
from saxtegun.lines import Run
from saxtegun.playing import Engine, runs_within
from saxtegun.processes import started
from saxtegun.sessions import Entry, Sessions
from saxtegun.stage_descriptions import Text
from saxtegun.stage_divergence import Side, stage_divergence_of
from saxtegun.texts import GameText, same_text

# So long git may take for its answers on a text; and so many bytes a text has at most: no longer one is played.
SECONDS = 5.0
MOST_BYTES = 2**20
# Of so many sessions it is found out at which stage they part, and for so long at most.
MOST_LED = 20
SECONDS_TO_LEAD = 5.0
SAFELY = ("--no-pager", "--no-optional-locks", "--no-replace-objects", "-c", "core.fsmonitor=", "-c", "core.hooksPath=/dev/null", "-c", "safe.bareRepository=explicit")
# What is missing isn't fetched: a repository says itself how, by any command. Git itself is named by its whole path, and finds nothing else to run.
OFFLINE = {"GIT_ALLOW_PROTOCOL": "none", "GIT_NO_LAZY_FETCH": "1", "GIT_TERMINAL_PROMPT": "0", "GIT_EXEC_PATH": os.devnull, "PATH": os.devnull}


def asked(folder: str, words: Sequence[str], end: float) -> Optional[bytes]:
    """What git answers in a folder; None where it has no answer until this time, or isn't there."""
    git = shutil.which("git")
    if git is None or not os.path.isabs(git):
        # a name like ./git would be looked for in the folder
        return None
    scrubbed = {name: value for name, value in os.environ.items() if not name.startswith("GIT_")}
    with tempfile.TemporaryFile() as output:
        try:
            with started([git, "-C", folder, *SAFELY, *words], subprocess.DEVNULL, output, {**scrubbed, **OFFLINE}) as ran:
                assert ran.stderr is not None
                with ran.stderr:
                    ran.wait(max(end - monotonic(), 0))
        except (Refused, subprocess.TimeoutExpired):
            return None
        output.seek(0)
        return output.read(MOST_BYTES + 1) if ran.returncode == 0 else None


def committed_text(path: str) -> Optional[str]:
    """The text of a file as the last commit has it; None where there is none."""
    folder, name = os.path.split(os.path.realpath(path))
    blob, end = f"HEAD:./{name}", monotonic() + min(SECONDS, EXPLAINING.seconds_left())
    size = asked(folder, ["cat-file", "-s", blob], end)
    if size is None or not size.strip().isdigit() or int(size) > MOST_BYTES:
        return None
    data = asked(folder, ["cat-file", "blob", blob], end)
    try:
        return None if data is None else data.decode("utf-8-sig")
    except UnicodeDecodeError:
        return None


class Broken(NamedTuple):
    """A session that passes over the committed text, and not over the one at hand: what it shows over each, and where that parts."""

    old: Entry
    new: Entry
    runs: Tuple[Run, Run]
    divergence: Divergence

    def told(self, name: str) -> str:
        one = "" if self.divergence.kind == "level" else " (one)"
        return f"over the committed {name}{one} it passed, and its frames first part at {sentence_of(self.divergence, *self.runs, self.old)}"


def divergences(game: Optional[GameText], entries: Sequence[Entry], runs: Sequence[Run], of: Sessions, engine: Engine) -> Dict[int, List[str]]:
    """For sessions that pass over the committed text, and not over the one at hand, where their frames and their stages part, in lines; by their numbers.
    Nothing where there is no such text, or no time left to explain."""
    broken = [(it, run) for it, run in zip(entries, runs) if game and it.source == game.source and run.close in ("differs", "stopped")]
    if game is None or not broken or not EXPLAINING.is_left():
        return {}
    with EXPLAINING.spent():
        text = committed_text(game.path)
        if text is None or not text.strip() or same_text(text, game.source):
            return {}
        found = parted([(it._replace(source=text), it) for it, _ in broken], [run for _, run in broken], of, engine)
    name = printable(os.path.basename(game.path))
    told = {it.new.number: [it.told(name)] for it in found}
    for number, lines in leads(found[:MOST_LED], game.path, engine).items():
        told[number] += lines
    return told


def parted(pairs: Sequence[Tuple[Entry, Entry]], runs: Sequence[Run], of: Sessions, engine: Engine) -> List[Broken]:
    """The sessions whose runs part from what they show over the text before, which they passed, as far as half of the time to explain is enough. No batch
    takes longer than the other half, which else is left for others."""
    found: List[Broken] = []
    seconds = max(EXPLAINING.seconds_left() / 2, 0.1)
    end = monotonic() + seconds
    try:
        before = [old for old, _ in pairs]
        for (old, new), was, run in zip(pairs, runs_within(before, of, engine, seconds), runs):
            if monotonic() > end:
                break
            divergence = divergence_of(was, run) if was.close == "passed" else None
            if divergence is not None:
                found.append(Broken(old, new, (was, run), divergence))
    except (Refused, UsedUp):
        # what is known is told
        pass
    return found


def leads(found: Sequence[Broken], path: str, engine: Engine) -> Dict[int, List[str]]:
    """At which stage sessions part, with the rules that this is about; by their numbers. Nothing more where nothing here tells stages, or where there is no
    time left."""
    told: Dict[int, List[str]] = {}
    try:
        for it in found:
            sides = Side("the committed text", it.old, Text(it.old.source, "", engine.order)), Side("the new text", it.new, Text(it.new.source, path, engine.order))
            led = stage_divergence_of(sides, it.runs, it.divergence, engine, SECONDS_TO_LEAD)
            if led is not None:
                told[it.new.number] = [led.sentence, *led.rules]
    except (Refused, UsedUp):
        pass
    return told
