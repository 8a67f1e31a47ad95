"""Which program plays: the one that is named, that of a release, the one that is built here, or the released module in Node."""
from __future__ import annotations

import hashlib
import os
import re
import shutil
import subprocess
import sys
from pathlib import Path
from typing import Dict, List, NamedTuple, Optional, Sequence

from saxtegun.commands import Refused, cut, printable, say
from saxtegun.logs import is_log

TOP = Path(__file__).resolve().parents[2]
BUILT = TOP / "crates/pz_replayer/out/pz_replayer"
BUILDS = TOP / "replay"  # looks whether the program is that of the sources, and builds it where it isn't
IN_RELEASE = TOP / "bin/pz_replayer"
RELEASED = TOP / "released"
MODULE, SUMS = "saxtegun.wasm", "SHA256SUMS"
VERSION = TOP / "VERSION"
# What tells the stages of an input: the program that is built here, that of a release, and the module in Node.
STAGES = (TOP / "crates/pz_stager/out/pz_stager", TOP / "bin/pz_stager")
# What tells what the engine reads of a source, and what finds solutions: the programs beside the one that plays, and the module in Node.
DESCRIBER, SOLVER = "pz_describer", "pz_solver"
DESCRIBERS, SOLVERS = ((TOP / "crates" / it / "out" / it, TOP / "bin" / it) for it in (DESCRIBER, SOLVER))
REPLAY_IN_NODE, STAGES_IN_NODE, DESCRIBE_IN_NODE = TOP / "engine/replay.mjs", TOP / "engine/stages.mjs", TOP / "engine/describe.mjs"
SOLVE_IN_NODE, OPEN_IN_NODE = TOP / "engine/solve.mjs", TOP / "engine/open.mjs"
OLDEST_NODE = 20
HOW_TO_GET_ONE = (
    "install Node 20 or later (nodejs.org), name the program of a release by SAXTEGUN_PROGRAM, or prove and build it with the Rattle kit by ./replay"
)
# How the program is called that was chosen, once one was, and so what tells stages, what tells sources, and what solves.
CHOSEN: List[List[str]] = []
CHOSEN_FOR_STAGES: List[List[str]] = []
CHOSEN_FOR_SOURCES: List[List[str]] = []
CHOSEN_TO_SOLVE: List[List[str]] = []


class Sums(NamedTuple):
    """What is said of the released files: the version and the commit that they are of, and the sum of each."""

    version: str
    commit: str
    of: Dict[str, str]


def read_sums(folder: Path) -> Sums:
    """What the file of the sums says, which is written by dev/release."""
    try:
        head, *rest = (folder / SUMS).read_text(encoding="ascii").splitlines()
    except (OSError, ValueError):
        raise Refused(f"{folder / SUMS} can't be read") from None
    said = re.fullmatch(r"# Saxtegun (\S+), commit ([0-9a-f]{40})", head)
    lines = [re.fullmatch(r"([0-9a-f]{64})  (\S+)", it) for it in rest]
    if said is None or None in lines:
        raise Refused(f"{folder / SUMS} doesn't say of which commit the files are, and their sums")
    return Sums(said[1], said[2], {it[2]: it[1] for it in lines if it is not None})


def module_told(folder: Path) -> str:
    """Says which module is released. Refused where it isn't the one whose sum is named."""
    sums, module = read_sums(folder), folder / MODULE
    if sums.of.get(MODULE) != hashlib.sha256(module.read_bytes()).hexdigest():
        raise Refused(f"{module} is not the module that {SUMS} beside it names: fetch both again (git checkout -- {folder.name})")
    return f"the module of Saxtegun {sums.version}, commit {sums.commit[:12]}"


def version_of_node(node: str) -> str:
    """The version that Node tells; nothing where it tells none."""
    try:
        told = subprocess.run([node, "--version"], stdin=subprocess.DEVNULL, stdout=subprocess.PIPE, stderr=subprocess.DEVNULL, check=False).stdout
    except OSError:
        return ""
    found = re.match(rb"v(\d+\.\d+\.\d+)", told)
    return found[1].decode() if found else ""


def no_program(why: str) -> Refused:
    return Refused(f"the program is not built here, and {why}: {HOW_TO_GET_ONE}")


class Player(NamedTuple):
    """What plays where no program is named: how it is called, and what it is, in words."""

    words: List[str]
    told: str


def on_path(name: str) -> Optional[str]:
    """A program on the path, but for what an entry names that isn't whole: that is in this folder, which may be a stranger's."""
    return shutil.which(name, path=os.pathsep.join(filter(os.path.isabs, os.environ.get("PATH", os.defpath).split(os.pathsep))))


def in_node() -> Player:
    """How the released module is called in Node. Refused where there is none to call."""
    node = on_path("node")
    version = version_of_node(node) if node else ""
    if node is None or not version:
        raise no_program("there is no Node")
    if int(version.partition(".")[0]) < OLDEST_NODE:
        raise no_program(f"Node {version} is too old to play")
    if not (RELEASED / MODULE).is_file():
        raise no_program("no module is released")
    return Player([node, str(REPLAY_IN_NODE)], f"no program is built here; {module_told(RELEASED)}, plays in Node {version}")


def is_in_node(words: Sequence[str]) -> bool:
    """Whether our own functions play in Node where a program is called so."""
    return list(words[1:2]) in tuple([str(it)] for it in (REPLAY_IN_NODE, STAGES_IN_NODE, DESCRIBE_IN_NODE, SOLVE_IN_NODE, OPEN_IN_NODE))


def environment_of(words: Sequence[str]) -> Optional[Dict[str, str]]:
    """The environment in which a program is called: where our own functions play in Node, with the name of the released module; None for what there is. No other
    program is told of that module, since another release's functions, or those of a candidate, would take it for their own."""
    return {**os.environ, "SAXTEGUN_MODULE": str(RELEASED / MODULE)} if is_in_node(words) else None


def player() -> Player:
    """What plays where no program is named."""
    return Player([str(BUILDS)], f"the program that is built here plays, {BUILT.relative_to(TOP)}") if BUILT.is_file() else in_node()


def choose() -> List[str]:
    """How a program is called where none is named. A log says which it is; at a terminal `saxtegun --version` does."""
    it = player()
    if is_log(sys.stderr):
        say(f"saxtegun: {it.told}")
    return it.words


def file_that_plays(words: Sequence[str]) -> Path:
    """The file that decides what is shown where a program is called so: the module where that plays in Node, and the program where ./replay calls it."""
    if is_in_node(words):
        return RELEASED / MODULE
    return BUILT if words[0] == str(BUILDS) and BUILT.is_file() else Path(words[0])


def version_told() -> str:
    """The version of this command, and what plays: its file and the sum of that."""
    lines = [f"saxtegun {VERSION.read_text(encoding='utf-8').strip() if VERSION.is_file() else 'of no version'}"]
    try:
        path = named_program(None)
        it = Player([path], f"the program plays that {'SAXTEGUN_PROGRAM names' if os.environ.get('SAXTEGUN_PROGRAM') else 'came with it'}") if path else player()
        file = file_that_plays(it.words)
        lines += [it.told, f"{hashlib.sha256(file.read_bytes()).hexdigest()}  {file}"]
    except Refused as why:
        lines.append(f"nothing plays: {why}")
    return "".join(f"{printable(it)}\n" for it in lines)


def built() -> List[str]:
    """How the program is called that is built here, as it is. Refused where there is none."""
    if not BUILT.is_file():
        raise Refused("./replay would prove and build the program first, which takes many minutes: call it once by itself, or name another program")
    return [str(BUILT)]


def named_program(named: Optional[str]) -> str:
    """The program that is named, that of SAXTEGUN_PROGRAM or that of a release; nothing where none is. Refused where it isn't there."""
    path = named or os.environ.get("SAXTEGUN_PROGRAM") or (str(IN_RELEASE) if IN_RELEASE.is_file() else "")
    if path and not (os.path.isfile(path) and os.access(path, os.X_OK)):
        raise Refused(f"there is no program at {path!r}")
    return os.path.abspath(path) if path else ""


def program_words(named: Optional[str] = None, may_build: bool = True) -> List[str]:
    """How the program is called: the one that is named, that of SAXTEGUN_PROGRAM, that of a release, or one that is chosen, once in a process."""
    path = named_program(named)
    if path:
        words = [path]
    else:
        if not CHOSEN:
            CHOSEN.append(choose())
        words = CHOSEN[0]
    return built() if not may_build and os.path.realpath(words[0]) == os.path.realpath(BUILDS) else words


def has_played() -> None:
    """What has played once needs no look at its sources again in this process."""
    if CHOSEN == [[str(BUILDS)]] and BUILT.is_file():
        CHOSEN[0] = [str(BUILT)]


def choose_for_stages() -> List[str]:
    """What tells stages where none is named. Refused where there is nothing that does."""
    native = next((it for it in STAGES if it.is_file()), None)
    if native is not None:
        return [str(native)]
    if not STAGES_IN_NODE.is_file():
        raise Refused("nothing here tells stages: name a program that does by SAXTEGUN_STAGES")
    return [in_node().words[0], str(STAGES_IN_NODE)]


def stages_words(named: Optional[str] = None) -> List[str]:
    """How what tells stages is called: the program that is named, the one that SAXTEGUN_STAGES names, or one that is chosen, once in a process."""
    path, by = (named, "") if named else (os.environ.get("SAXTEGUN_STAGES"), ", which SAXTEGUN_STAGES names")
    if path:
        if not (os.path.isfile(path) and os.access(path, os.X_OK)):
            raise Refused(f"there is no program at {path!r}{by}")
        return [os.path.abspath(path)]
    if not CHOSEN_FOR_STAGES:
        CHOSEN_FOR_STAGES.append(choose_for_stages())
    return CHOSEN_FOR_STAGES[0]


def beside(name: str, known: Sequence[Path]) -> List[Path]:
    """Where a program may lie that goes with the one that plays: where programs are built, in a release, and beside the one that SAXTEGUN_PROGRAM names."""
    named = Path(os.path.abspath(os.environ.get("SAXTEGUN_PROGRAM") or BUILT))
    if not named.is_file():
        # nothing is run that lies beside what isn't there
        return [*known]
    is_built = named.parts[-3:] == BUILT.parts[-3:]
    return [*known, named.with_name(name), *([named.parents[2] / name / "out" / name] if is_built else [])]


def describers() -> List[Path]:
    """Where the program may lie that tells sources."""
    return beside(DESCRIBER, DESCRIBERS)


def node_that_plays() -> str:
    """Node where it plays already, or else where there is one that can."""
    return next((it[0] for it in (*CHOSEN, *CHOSEN_FOR_STAGES) if is_in_node(it)), "") or in_node().words[0]


def chosen_of(native: Sequence[Path], in_node_by: Path, chosen: List[List[str]]) -> List[str]:
    """How what goes with the program that plays is called: the first of these that is there, or else in Node what does the same; it is chosen once in a process."""
    if not chosen:
        found = next((it for it in native if it.is_file() and os.access(it, os.X_OK)), None)
        chosen.append([str(found)] if found else [node_that_plays(), str(in_node_by)])
    return chosen[0]


def describer_words() -> List[str]:
    """How what tells sources is called. Refused where there is nothing that does."""
    return chosen_of(describers(), DESCRIBE_IN_NODE, CHOSEN_FOR_SOURCES)


def solver_words() -> List[str]:
    """How what finds solutions is called. Refused where there is nothing that does."""
    return chosen_of(beside(SOLVER, SOLVERS), SOLVE_IN_NODE, CHOSEN_TO_SOLVE)
