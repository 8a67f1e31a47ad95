"""What a release holds, and how it is packed so that the same commit gives the same bytes."""
from __future__ import annotations

import gzip
import hashlib
import json
import re
import shutil
import subprocess
import sys
import tempfile
import textwrap
from functools import lru_cache
from pathlib import Path
from typing import Dict, List, NamedTuple

from freshness import SOURCES, digests, written
from symbols import c_library_of

PROGRAM = "crates/pz_replayer/out/pz_replayer"
# What tells the command what the engine reads of a source, and what finds solutions for it.
DESCRIBER, SOLVER = "crates/pz_describer/out/pz_describer", "crates/pz_solver/out/pz_solver"
MODULE = "engine/out/saxtegun.wasm"
# What is built of the proved crates. The package for Node takes its files from engine/.
BUILT = (PROGRAM, DESCRIBER, SOLVER, MODULE)
PASSED = "out/gate-passed"
SUMS = "SHA256SUMS"
RELEASED = "released"
PAGE = "saxtegun.html"
# Who made this and its parts, and under which terms: it goes wherever a part of others goes.
NOTICES = "NOTICES"
MOST_RELEASED = 1_210_000
# The engine for Node and for pages, beside its module.
GLUE = [f"engine/{it}" for it in ("saxtegun.mjs", "saxtegun.d.ts", "replay.mjs", "stages.mjs", "describe.mjs", "solve.mjs", "open.mjs", "streams.mjs")]
# What stands in a release as it stands here: the command with its package, the examples, and the documents for users.
TAKEN = ["saxtegun", "VERSION", "README.md", "CHANGELOG.md", "CONTRIBUTING.md", "SECURITY.md", NOTICES, "python", "web", "examples", "docs",
         "adapters", "HANDLES", *GLUE]  # fmt: skip


class Broken(Exception):
    """Why there is no release."""


class Built(NamedTuple):
    """What is proved and built of a commit: what plays, what tells sources, what finds solutions, and the module for Node and pages."""

    program: bytes
    describer: bytes
    solver: bytes
    module: bytes


def told(top: Path, *words: str) -> str:
    """What a command writes that must not fail."""
    ran = subprocess.run(words, cwd=top, capture_output=True, text=True)
    if ran.returncode:
        said = (ran.stderr or ran.stdout).strip().splitlines()
        raise Broken(f"{' '.join(words)}: {said[-1] if said else 'it failed'}")
    return ran.stdout.strip()


def version_of(top: Path) -> str:
    return (top / "VERSION").read_text().strip()


def check_version(top: Path, version: str) -> None:
    if not re.fullmatch(r"\d+\.\d+\.\d+", version):
        raise Broken(f"{version!r} is no version: write it as 1.2.3")
    if version_of(top) != version:
        raise Broken(f"the file VERSION says {version_of(top)}")
    if f"## {version}\n" not in (top / "CHANGELOG.md").read_text():
        raise Broken(f"CHANGELOG.md has no heading '## {version}'")
    check_clean(top)


def check_clean(top: Path) -> None:
    """Refuses where something is changed or new; what is released before is no part of what is released now."""
    changed = told(top, "git", "status", "--porcelain", "--", ".", f":!{RELEASED}")
    if changed:
        raise Broken(f"{changed.splitlines()[0].strip()}: commit what is changed or new first")


def sum_of(content: bytes) -> str:
    return hashlib.sha256(content).hexdigest()


def has_passed(top: Path) -> bool:
    """Whether the gate passed here on the commit that is checked out, and what it built is still there."""
    path = top / PASSED
    lines = path.read_text(encoding="utf-8").splitlines() if path.is_file() else []
    sums = [f"{sum_of((top / it).read_bytes())}  {it}" for it in BUILT if (top / it).is_file()]
    return len(sums) == len(BUILT) and lines[:1] == [f"commit {told(top, 'git', 'rev-parse', 'HEAD')}"] and lines[1 : 1 + len(sums)] == sums


def kit_told(top: Path) -> List[str]:
    """The kit of this machine and its logic."""
    rt = shutil.which("rt") or "/opt/rattle/bin/rt"
    said = re.match(r"(\S+) logic (\S+)", told(top, rt, "version")) if Path(rt).exists() else None
    return [f"kit      {said[1]}", f"logic    {said[2]}"] if said else ["kit      none on the machine that made this"]


def headline(top: Path) -> List[str]:
    """The sentence of docs/promises.md that all others carry, line by line."""
    lines = (top / "docs/promises.md").read_text(encoding="utf-8").splitlines()
    return textwrap.wrap(" ".join(it[2:] for it in lines if it.startswith("> ")), 96)


def proved_words(top: Path, version: str) -> str:
    """What a reader of the release must know to trust it, or to make it again."""
    return "\n".join([
        f"Saxtegun {version}",
        f"commit   {told(top, 'git', 'rev-parse', 'HEAD')}",
        *kit_told(top),
        "program  bin/pz_replayer, of the proved crates of that commit, by dev/build pz_replayer",
        "         bin/pz_describer and bin/pz_solver, of the same crates, by dev/build",
        "module   engine/out/saxtegun.wasm, of the same crates, by engine/build",
        "",
        "A release is made of a commit on which the gate, ./check, has passed.",
        "",
        "What is proved of what plays:",
        *(f"    {it}" for it in headline(top)),
        "",
        "Which contracts carry this, what else is proved, only tested or trusted: docs/promises.md.",
        "To make this release again with a kit: check that commit out, and call dev/release --verify FILE.",
        "",
    ])  # fmt: skip


CONTENTS = """# What is in this archive

*For anyone who has unpacked it: what is here, and what the documents name but only the repository has.*

- `saxtegun` is the command, in Python alone; `bin/pz_replayer` is the program that it calls, `bin/pz_describer` tells it what the engine reads of a game, and `bin/pz_solver` solves levels. `./saxtegun test examples/block-pushing.json` is a first try.
- `replay` starts the program. The documents say that it proves and builds first; here it has nothing to build.
- `saxtegun.html` is the playground, one file to open in a browser.
- `engine/` has what plays in Node and in a page: `node engine/replay.mjs examples/block-pushing.json`.
- `examples/` has sessions, the lines that the program wrote for them, and a page of each, to open in a browser: `examples/day.html`.
- `docs/`, `adapters/` and `web/` are as in the repository; `man/saxtegun.1` is the manual page. `PROVED.txt` names the commit.
- `NOTICES` says who made this, under which terms, and which parts of others the program and the module hold.

Only the repository has the proofs, and what builds and tests all this. The documents name these paths, which are not here:

{absent}
"""
# What the documents name and an archive hasn't.
ABSENT = ["crates/", "crates.txt", "conformance/", "attack/", "bench/", "tests/", "dev/", ".ci/", "web/out/", "check", "released/",
          "engine/build", "engine/to32.py", "engine/heap.c", "engine/helpers.c", "engine/tests-browser"]
REPLAY = b"""#!/bin/sh
exec "$(dirname "$0")/bin/pz_replayer" "$@"
"""


@lru_cache(maxsize=1)
def page_of(top: Path, module: bytes) -> bytes:
    """The playground, as dev/page makes it of a module."""
    with tempfile.TemporaryDirectory() as folder:
        given, made = Path(folder) / "module.wasm", Path(folder) / "page.html"
        given.write_bytes(module)
        told(top, sys.executable, "dev/page", "--module", str(given), "--output", str(made))
        return made.read_bytes()


CONTROL = """Package: saxtegun
Version: {version}
Architecture: amd64
Maintainer: The Saxtegun project <saxtegun@localhost>
Section: games
Priority: optional
Depends: {library}python3 (>= 3.8)
Installed-Size: {size}
Description: proved replayer of PuzzleScript sessions
 Replays recorded PuzzleScript sessions, writes every frame, and says
 whether each session still ends with the recorded level.
"""

MANUAL = """.TH SAXTEGUN 1
.SH NAME
saxtegun \\- replays recorded PuzzleScript sessions
.SH SYNOPSIS
.B saxtegun
VERB ..
.SH DESCRIPTION
Replays recorded sessions of PuzzleScript games, and says whether each still ends with the recorded level.
.B saxtegun \\-\\-help
names the verbs, and each verb says with
.B \\-\\-help
what it does. The documents are in /usr/lib/saxtegun/docs.
.SH EXIT STATUS
0 if all is well, 1 if something differs, 2 if there is no answer.
"""


def put(path: Path, content: bytes, rights: int = 0o644) -> None:
    path.parent.mkdir(parents=True, exist_ok=True)
    path.write_bytes(content)
    path.chmod(rights)


def lay_out(top: Path, folder: Path, version: str, built: Built) -> None:
    """Puts what the archive holds into a folder: what the commit has, what was built, and what is said of it."""
    folder.mkdir(parents=True)
    taken = folder.parent / "taken.tar"
    told(top, "git", "archive", "--output", str(taken), "HEAD", "--", *TAKEN)
    told(top, "tar", "-xf", str(taken), "-C", str(folder))
    taken.unlink()
    for name, content in (("pz_replayer", built.program), ("pz_describer", built.describer), ("pz_solver", built.solver)):
        put(folder / "bin" / name, content, 0o755)
    put(folder / "replay", REPLAY, 0o755)
    put(folder / MODULE, built.module)
    put(folder / PAGE, page_of(top, built.module))
    put(folder / "man/saxtegun.1", MANUAL.encode())
    put(folder / "CONTENTS.md", CONTENTS.format(absent="\n".join(f"- `{path}`" for path in ABSENT)).encode())
    put(folder / "PROVED.txt", proved_words(top, version).encode())


def lay_out_for_node(top: Path, folder: Path, archive: Path, version: str) -> None:
    """Puts what the package for Node holds into a folder, of what the archive holds. It finds its module in out/ beside it."""
    said = {
        "name": "saxtegun-engine",
        "version": version,
        "gitHead": told(top, "git", "rev-parse", "HEAD"),
        "description": "Replays recorded PuzzleScript sessions: the proved engine as a WebAssembly module",
        "license": f"SEE LICENSE IN {NOTICES}",
        "type": "module",
        "exports": {".": {"types": "./saxtegun.d.ts", "default": "./saxtegun.mjs"}, "./out/saxtegun.wasm": "./out/saxtegun.wasm"},
        "types": "./saxtegun.d.ts",
        "bin": {f"saxtegun-{it}": f"{it}.mjs" for it in ("replay", "stages", "describe", "solve", "open")},
        "engines": {"node": ">=20"},
    }
    for path in [*GLUE, MODULE, NOTICES]:
        put(folder / (path if path == NOTICES else path.partition("/")[2]), (archive / path).read_bytes())
    put(folder / "package.json", (json.dumps(said, indent=2) + "\n").encode())


def lay_out_for_debian(root: Path, archive: Path, version: str, time: int) -> None:
    """Puts what the Debian package holds into a folder: the archive's files, the command on the path, a manual page, and what is said of it."""
    shutil.copytree(archive, root / "usr/lib/saxtegun")
    library = c_library_of((archive / "bin/pz_replayer").read_bytes())
    size = sum(it.stat().st_size for it in archive.rglob("*") if it.is_file()) // 1024
    control = CONTROL.format(version=version, size=size, library=f"libc6 (>= {library}), " if library else "")
    put(root / "usr/bin/saxtegun", b'#!/bin/sh\nexec /usr/lib/saxtegun/saxtegun "$@"\n', 0o755)
    put(root / "usr/share/man/man1/saxtegun.1.gz", gzip.compress(MANUAL.encode(), 9, mtime=time))
    put(root / "usr/share/doc/saxtegun/copyright", (archive / NOTICES).read_bytes())
    put(root / "DEBIAN/control", control.encode())


def pack(folder: Path, file: Path, time: int) -> None:
    """Packs a folder: sorted, of nobody, all of one time and of plain rights."""
    alike = ["--sort=name", "--format=gnu", "--owner=0", "--group=0", "--numeric-owner", f"--mtime=@{time}", "--mode=u=rwX,go=rX"]
    told(folder.parent, "tar", *alike, "--use-compress-program=gzip -9n", "-cf", str(file), folder.name)


def pack_for_debian(root: Path, file: Path, time: int) -> None:
    for it in (root, *root.rglob("*")):
        it.chmod(0o755 if it.stat().st_mode & 0o100 else 0o644)
    told(root.parent, "env", f"SOURCE_DATE_EPOCH={time}", "dpkg-deb", "--root-owner-group", "-Zgzip", "--build", str(root), str(file))


def made_of(top: Path, version: str, built: Built) -> Dict[str, bytes]:
    """The files of a release by their names."""
    time = int(told(top, "git", "log", "-1", "--format=%ct"))
    with tempfile.TemporaryDirectory() as name:
        room, files = Path(name), Path(name) / "files"
        files.mkdir()
        archive = room / f"saxtegun-{version}-linux-x86_64"
        lay_out(top, archive, version, built)
        lay_out_for_node(top, room / "package", archive, version)
        lay_out_for_debian(room / "root", archive, version, time)
        pack(archive, files / f"{archive.name}.tar.gz", time)
        pack(room / "package", files / f"saxtegun-engine-{version}.tgz", time)
        pack_for_debian(room / "root", files / f"saxtegun_{version}_amd64.deb", time)
        for path in (PAGE, NOTICES):
            shutil.copy(archive / path, files)
        made = {it.name: it.read_bytes() for it in files.iterdir()}
    return {**made, SUMS: sums_of(made).encode()}


def sums_of(made: Dict[str, bytes]) -> str:
    """What sha256sum says of files."""
    return "".join(f"{sum_of(content)}  {path}\n" for path, content in sorted(made.items()))


def does(top: Path, *words: str) -> None:
    if subprocess.run([str(top / words[0]), *words[1:]], cwd=top, stdout=sys.stderr).returncode:
        raise Broken(f"{' '.join(words)} has not passed")


def built_in(top: Path) -> Built:
    """What lies where it is built."""
    return Built(*((top / it).read_bytes() for it in BUILT))


def gated(top: Path) -> Built:
    """The programs and the module that the gate built of this commit, which is tried now where it hasn't passed here."""
    if not has_passed(top):
        does(top, "check")
    if not has_passed(top):
        raise Broken(f"the gate has passed, but {PASSED} doesn't say so of this commit and of what is built now")
    return built_in(top)


def proved(top: Path) -> Built:
    """The programs and the module of these sources, proved and built where the gate hasn't built them."""
    if not has_passed(top):
        for name in ("pz_replayer", "pz_describer", "pz_solver"):
            does(top, "dev/build", name)
        does(top, "engine/build")
    return built_in(top)


def proved_module(top: Path) -> bytes:
    if not has_passed(top):
        does(top, "engine/build")
    return (top / MODULE).read_bytes()


def write_all(made: Dict[str, bytes], into: Path) -> List[str]:
    """Writes files, and tells a line for each: its size and its name."""
    into.mkdir(parents=True, exist_ok=True)
    for path, content in made.items():
        (into / path).write_bytes(content)
    return [f"{len(made[path])} bytes  {into / path}" for path in sorted(made)]


def make(top: Path, version: str, into: Path, built: Built) -> List[str]:
    """Writes a release."""
    check_version(top, version)
    return write_all(made_of(top, version, built), into)


def is_made(top: Path, path: Path, built: Built) -> bool:
    """Whether a file is, byte by byte, one that this commit makes. Nothing of it is read otherwise: readers of archives differ."""
    made = list(made_of(top, version_of(top), built).values())
    return path.stat().st_size in map(len, made) and path.read_bytes() in made


def make_released(top: Path, version: str, module: bytes) -> List[str]:
    """Writes the page and the module that a clone has, with their sums, the commit and the sources that they are of."""
    made = {PAGE: page_of(top, module), "saxtegun.wasm": module}
    size = sum(map(len, made.values()))
    if size > MOST_RELEASED:
        raise Broken(f"the page and the module have {size} bytes, more than {MOST_RELEASED}")
    head = f"# Saxtegun {version}, commit {told(top, 'git', 'rev-parse', 'HEAD')}\n"
    return write_all({**made, SUMS: (head + sums_of(made)).encode(), SOURCES: written(digests(top)).encode()}, top / RELEASED)
