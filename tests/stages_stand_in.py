"""Small programs for tests where none is built: the engine of stand_in.py, and what tells the stages of its games. A source with `forged` in its title gets lines
that are none of its input: those behind that word, which stands there as JSON text."""
from __future__ import annotations

import json
import sys
from pathlib import Path
from typing import Any, Dict, Iterator, List, Tuple

from day import STEPS, Level, text_of
from stand_in import PUSH, after, frames_of, sections_of

WAYS = {0: "up", 1: "left", 2: "down", 3: "right"}


def heading(level: Level, name: str, way: str, step: Tuple[int, int] = (0, 0)) -> List[List[Any]]:
    """The pieces of a name that head in a direction: those that stand a step from a player."""
    places = [(x + step[0], y + step[1]) for x, column in enumerate(level) for y, cell in enumerate(column) if "player" in cell]
    return [[x, y, name, way] for x, y in places if 0 <= x < len(level) and 0 <= y < len(level[0]) and name in level[x][y]]


def stages_of(entry: Any, at: int) -> Iterator[Tuple[Dict[str, Any], Level]]:
    """The stages of an input: its press, the rule if it pushes, the movement, the end."""
    source, inputs = entry[1][:2]
    if at == 0 or at > len(inputs) or inputs[at - 1] not in STEPS:
        return
    before = list(frames_of([entry[0], [source, inputs[: at - 1], *entry[1][2:]]], False))[-1][2]
    rules = {line: number for number, line in sections_of(source).get("rules", [])}
    way, step = WAYS[inputs[at - 1]], STEPS[inputs[at - 1]]
    player = heading(before, "player", way)
    crate = heading(before, "crate", way, step) if PUSH in rules else []
    level = after(before, step, PUSH in rules)
    yield {"stage": "input", "headings": player, "changed": True}, before
    if crate:
        yield {"stage": "early", "headings": player + crate, "changed": True, "block": 0, "lines": [rules[PUSH]]}, before
    yield {"stage": "movement", "headings": [], "changed": True}, level
    yield {"stage": "end", "headings": [], "changed": level != before}, level


def tell_stages() -> None:
    """Writes the lines that the words of the command line ask for; levels are by columns."""
    entries = json.load(sys.stdin)
    number, at = map(int, sys.argv[1:3])
    source = entries[number][1][0]
    if "forged" in source.partition("\n")[0]:
        sys.stdout.write(json.loads(source.partition("\n")[0].partition("forged ")[2]))
        return
    for stage, level in stages_of(entries[number], at):
        print(json.dumps({"commands": [], "input": at, "tick": 0, "level": text_of(level), **stage}, sort_keys=True))


def written_in(room: Path) -> Dict[str, str]:
    """Writes both programs into a folder; what names them in the environment."""
    words = {}
    for name, call in (("SAXTEGUN_PROGRAM", "import stand_in; stand_in.main(False)"), ("SAXTEGUN_STAGES", "import stages_stand_in; stages_stand_in.tell_stages()")):
        file = room / name.lower()
        file.write_text(f"#!{sys.executable} -B\nimport sys\nsys.path.insert(0, {str(Path(__file__).parent)!r})\n{call}\n", encoding="utf-8")
        file.chmod(0o755)
        words[name] = str(file)
    return words
