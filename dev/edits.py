"""Wrong bodies, the edits of a crate that the prover must refuse: attack/NAME.edits, and crates/NAME/must-fail/*.edit, which `rt ci` tries."""
import re
from pathlib import Path
from typing import Iterator, NamedTuple

# before each edit of a file of them
NAME = re.compile(r"^== (\w+)\n", re.M)


class Edit(NamedTuple):
    """An edit: its crate, its name and its text, and the file and line where that begins."""

    crate: str
    name: str
    text: str
    file: str
    line: int


def edits_in(top: Path, file: Path) -> Iterator[Edit]:
    """The edits of a file of them."""
    text, place = file.read_text(encoding="utf-8"), str(file.relative_to(top))
    found = [*NAME.finditer(text)]
    for it, end in zip(found, [*(it.start() for it in found[1:]), len(text)]):
        yield Edit(file.stem, it[1], text[it.end() : end].rstrip("\n") + "\n", place, text.count("\n", 0, it.end()) + 1)


def read_edits(top: Path, crate: str = "*") -> Iterator[Edit]:
    """The edits of a crate, or of all."""
    for file in sorted(top.glob(f"attack/{crate}.edits")):
        yield from edits_in(top, file)
    for file in sorted(top.glob(f"crates/{crate}/must-fail/*.edit")):
        yield Edit(file.parts[-3], file.stem, file.read_text(encoding="utf-8"), str(file.relative_to(top)), 1)
