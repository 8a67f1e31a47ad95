"""Of which sources the files of released/ are: a digest for each part, as the commit that is checked out has them, so that a clone can say what is newer."""
from __future__ import annotations

import hashlib
import subprocess
from pathlib import Path
from typing import Dict, List

from crates import all_below, read_crates

SOURCES = "SOURCES"
LIBRARY = "pz_export"
HEAD = "# Of these sources are the files beside this one; dev/release writes it, and tests/test_released.py compares it."
# What a part of a release is made of, beside the crates; what stands there for tests alone is left out.
PARTS = {"web": ["web/", "dev/page", "examples/day/game.txt", "python/saxtegun/webpages.py"], "engine": ["engine/"]}
LEFT_OUT = ("engine/tests-browser", "web/out/")


def parts_of(top: Path) -> Dict[str, List[str]]:
    """The paths of each part: files, or folders with a slash at their end."""
    crates = read_crates(top)
    return {**PARTS, "crates": [f"crates/{it}/" for it in sorted([*all_below(crates, LIBRARY), LIBRARY])]}


def digests(top: Path) -> Dict[str, str]:
    """For each part the digest of its files, with their modes and paths, as the last commit has them."""
    listed = subprocess.run(["git", "ls-tree", "-r", "-z", "--full-tree", "HEAD"], cwd=top, check=True, stdout=subprocess.PIPE).stdout.split(b"\0")
    found = {}
    for part, paths in parts_of(top).items():
        mine = [it for it in listed if it.partition(b"\t")[2].decode(errors="replace").startswith(tuple(paths))]
        kept = [it for it in mine if not it.partition(b"\t")[2].decode(errors="replace").startswith(LEFT_OUT)]
        found[part] = hashlib.sha256(b"\0".join(sorted(kept))).hexdigest()
    return found


def written(found: Dict[str, str]) -> str:
    return "".join(f"{line}\n" for line in [HEAD, *(f"{digest}  {part}" for part, digest in sorted(found.items()))])


def newer(top: Path, folder: Path) -> List[str]:
    """The parts that are others than those of which the files of a folder are; all where it doesn't say."""
    path = folder / SOURCES
    lines = path.read_text(encoding="utf-8").splitlines() if path.is_file() else []
    known = {it.partition("  ")[2]: it.partition("  ")[0] for it in lines if not it.startswith("#")}
    return [part for part, digest in sorted(digests(top).items()) if known.get(part) != digest]
