"""Proves crates with the kit of this machine, side by side, for the tools that build something of them.

Each crate is proved from nothing by the kit's compiler, `rattle build`, which builds what is proved and nothing else. It is called as `rt ci` calls it: first
those on which most of the rest waits, and idle processors are shared among those that begin. Neither tests nor wrong bodies are tried, nor what else the
gate alone wants. Where a kit has kept what its `rt ci` proved on this machine, `rt ci` proves them, since it finds that again."""
from __future__ import annotations

import re
import shutil
import subprocess
import sys
from concurrent.futures import FIRST_COMPLETED, Future, ThreadPoolExecutor, wait
from pathlib import Path
from time import monotonic
from typing import Callable, Dict, List, Optional, Sequence, Set, Tuple, Union

from crates import Uses, lanes_for_checks, read_crates, read_uses

TOP = Path(__file__).resolve().parent.parent
PROGRAM, LIBRARY = "src/main.rt", "src/lib.rt"
SOURCES = ("src", "specs", "proofs")
# A line of dev/proof-seconds.txt: a crate, and how many seconds its proof takes. One that has none is weighed by its lines of code, definitions
# and proofs, as fits the others: so many seconds, and one more for so many lines.
SECONDS = re.compile(r"^(\w+) (\d+)$", re.M)
LEAST, LINES_OF_A_SECOND = 30, 50
# So many times as long a slow machine takes: where that file says 9 minutes of four processors, 32 were measured.
SLOWEST = 4
# What a check takes at most, as docs/proving.md tells, with some room.
MEMORY_OF_A_CHECK = 4_000_000_000
PROVED = re.compile(r"rt: (\w+) (?:proved$|is kept)")
NOT_PROVED = re.compile(r"^rt: (\w+) NOT PROVED$", re.M)


class Progress:
    """How long proofs take here: as long as dev/proof-seconds.txt has it of another machine, until by those that are done this one is known."""

    def __init__(self, names: Sequence[str], lanes: int) -> None:
        seconds = seconds_of_proofs()
        self.of = {it: seconds[it] for it in names}
        self.lanes, self.begin = lanes, monotonic()

    def told(self, left: Set[str]) -> str:
        """How long those take that are left."""
        todo = sum(self.of[it] for it in left)
        done = sum(self.of.values()) - todo
        if not done:
            return f"{minutes_told(todo / self.lanes)} as dev/proof-seconds.txt has it, and up to {SLOWEST} times as long on a slow machine"
        return minutes_told((monotonic() - self.begin) * todo / done)


def minutes_told(seconds: float) -> str:
    count = max(1, round(seconds / 60))
    return f"about {count} {'minute' if count == 1 else 'minutes'}"


def say_what_is_proved(crates: Uses, left: Set[str], progress: Progress) -> None:
    """Says which crates may be proved now, since all below them are, how many are left, and how long these take."""
    ready = [it for it in left if not left & set(crates[it])]
    if left:
        print(f"proving {', '.join(sorted(ready))}; {len(left)} left: {progress.told(left)}", file=sys.stderr, flush=True)


class Kit:
    """The kit whose `rt` is on the path."""

    def __init__(self) -> None:
        rt = shutil.which("rt")
        if rt is None:
            sys.exit(f"{sys.argv[0]}: there is no rt on the path")
        self.home = Path(rt).resolve().parent.parent

    def has_kept(self) -> bool:
        """Whether its `rt ci` has kept what it proved, as that of some kits does; what `rt check` keeps beside that is of no use here."""
        kept = self.home.with_name(f"{self.home.name}-kept")
        return kept.is_dir() and any(it.name != "work" for it in kept.iterdir())

    def words_for(self, name: str, uses: Sequence[str], built: Path) -> List[str]:
        """What its compiler is told of a crate: its root, what it uses, and where that and the logic lie."""
        words = ["--crate-name", name, root_of(name)]
        for it in ["std", *uses]:
            is_built = (built / f"{it}.rlib").is_dir()
            words += ["--extern", f"{it}={built if is_built else self.home / 'rlibs'}/{it}.rlib"]
        words += ["-L", f"dependency={self.home}/rlibs", "-L", f"dependency={built}"]
        return [*words, "--antt-project", f"{self.home}/rattle/logic/antt-project.json", "--logic-built", f"{self.home}/logic_built"]

    def does(self, log: Path, *words: Union[str, Path]) -> bool:
        """Whether a command of its own goes well, in the folder of the crate whose log this is."""
        with log.open("a", encoding="utf-8") as written:
            ran = subprocess.run([self.home / "bin" / words[0], *words[1:]], cwd=log.parent.parent, stdin=subprocess.DEVNULL, stdout=written, stderr=subprocess.STDOUT, check=False)
        return ran.returncode == 0

    def link(self, log: Path, compiled: str, program: str) -> bool:
        """Whether what was compiled is linked to a program."""
        words: List[Union[str, Path]] = ["--target", "x86_64-unknown-linux-gnu", "--toolchain", self.home / "toolchain", "-o", program, compiled]
        return self.does(log, "rattle-link", *words, self.home / "c/libos_c.a", self.home / "c/liblibc_c.a")


def root_of(name: str) -> str:
    """The root file of a crate: a program's, or a library's."""
    return PROGRAM if (TOP / "crates" / name / PROGRAM).is_file() else LIBRARY


def sources_of(name: str) -> List[Path]:
    return [it for folder in SOURCES for it in (TOP / "crates" / name / folder).rglob("*") if it.is_file()]


def seconds_of_proofs() -> Dict[str, int]:
    """About how many seconds the proof of each crate takes, as dev/proof-seconds.txt or else its lines say: which crate comes first depends on it,
    and what is said of time."""
    file = TOP / "dev/proof-seconds.txt"
    measured = dict(SECONDS.findall(file.read_text(encoding="utf-8"))) if file.is_file() else {}
    return {it: int(measured[it]) if it in measured else LEAST + lines_of(it) // LINES_OF_A_SECOND for it in read_crates(TOP)}


def lines_of(name: str) -> int:
    return sum(file.read_bytes().count(b"\n") for file in sources_of(name))


def weights(crates: Uses, names: Sequence[str]) -> Dict[str, int]:
    """The seconds of each of these crates, lowest first, with those of the longest chain of them that stands on it."""
    seconds = seconds_of_proofs()
    found: Dict[str, int] = {}
    for name in reversed(names):
        found[name] = seconds[name] + max((found[it] for it in names if name in crates[it]), default=0)
    return found


def in_lanes(crates: Uses, names: Sequence[str], prove: Callable[[str, int], bool]) -> Optional[str]:
    """Proves these crates, each once those below it are proved: `prove` gets a name and by how many processes, and says whether it is. The first that is
    not, or None."""
    lanes, heavy, left = lanes_for_checks(MEMORY_OF_A_CHECK), weights(crates, names), set(names)
    running: Dict[Future[bool], Tuple[str, int]] = {}
    progress = Progress(names, lanes)
    with ThreadPoolExecutor(len(names)) as pool:
        while left:
            say_what_is_proved(crates, left, progress)
            busy = {name: jobs for name, jobs in running.values()}
            ready = sorted((it for it in left if it not in busy and not left & set(crates[it])), key=lambda it: -heavy[it])
            for place, name in enumerate(ready):
                idle = lanes - sum(jobs for _, jobs in running.values())
                if idle > 0:
                    jobs = max(1, idle // (len(ready) - place))
                    running[pool.submit(prove, name, jobs)] = name, jobs
            for it in wait(running, return_when=FIRST_COMPLETED).done:
                name, _ = running.pop(it)
                if not it.result():
                    return name
                left.remove(name)
    return None


def library_of(name: str) -> Path:
    """Where `rt ci` leaves the library of a crate that it proves in this checkout."""
    return TOP / "crates" / name / "out" / "rlib" / f"{name}.rlib"


def is_proved_here(name: str) -> bool:
    """Whether `rt ci` has left the library of a crate, and no source of the crate is newer."""
    library = library_of(name)
    return library.is_dir() and all(it.stat().st_mtime <= library.stat().st_mtime for it in sources_of(name))


def take_proved(names: Sequence[str], room: Path) -> bool:
    """Puts links to the libraries that `rt ci` has proved in this checkout into an empty folder, as NAME.rlib. Answers whether it did: it does so for
    all of these crates, or for none."""
    if not all(is_proved_here(it) for it in names):
        return False
    for it in names:
        (room / f"{it}.rlib").symlink_to(library_of(it))
    return True


def new_log(name: str) -> Path:
    """Where it is written what was said of a crate; nothing yet."""
    log = TOP / "crates" / name / "out" / "build.log"
    log.parent.mkdir(exist_ok=True)
    log.write_text("", encoding="utf-8")
    return log


def prove_in_lanes(kit: Kit, crates: Uses, names: Sequence[str], room: Path) -> Optional[str]:
    """Proves these crates by the compiler of the kit."""
    uses, logs = read_uses(TOP), {it: new_log(it) for it in names}

    def prove_one(name: str, jobs: int) -> bool:
        words = [*kit.words_for(name, uses[name], room), "--jobs", str(jobs)]
        if root_of(name) == LIBRARY:
            return kit.does(logs[name], "rattle", "build", *words, "--links", f"{name}=", "--statements", "-o", f"{room}/{name}.rlib")
        return (kit.does(logs[name], "rattle", "build", *words, "--toolchain", kit.home / "toolchain", "--backend", "llvm", "-o", f"{room}/{name}.o")
                and kit.link(logs[name], f"{room}/{name}.o", f"{room}/{name}"))

    return in_lanes(crates, names, prove_one)


def furnish(room: Path, names: Sequence[str]) -> None:
    """Puts these crates into a room, without their wrong bodies and what earlier checks left."""
    wanted = {f"{it}:" for it in names}
    lines = (TOP / "crates.txt").read_text(encoding="utf-8").splitlines(keepends=True)
    (room / "crates.txt").write_text("".join(it for it in lines if it.split()[:1] and it.split()[0] in wanted), encoding="utf-8")
    shutil.copy2(TOP / "HANDLES", room)
    for it in names:
        shutil.copytree(TOP / "crates" / it, room / "crates" / it, ignore=shutil.ignore_patterns("must-fail", "out"))


def log_of_failed(log: Path, last: str) -> str:
    """Gives what `rt ci` said to the log of the first crate that it says isn't proved, and names that: the last, where it names none."""
    said = log.read_text(encoding="utf-8")
    failed = NOT_PROVED.search(said)
    name = failed[1] if failed else last
    new_log(name).write_text(said, encoding="utf-8")
    return name


def made_of(name: str, room: Path) -> Path:
    """What `rt ci` made of a crate in a room."""
    return room / "crates" / name / "out" / (f"rlib/{name}.rlib" if root_of(name) == LIBRARY else name)


def prove_by_ci(crates: Uses, names: Sequence[str], room: Path) -> Optional[str]:
    """Proves these crates by `rt ci` in the room. What it says stands in the log of the last, or of the first crate that isn't proved."""
    left, last = set(names), names[-1]
    log = new_log(last)
    furnish(room, names)
    progress = Progress(names, lanes_for_checks(MEMORY_OF_A_CHECK))
    say_what_is_proved(crates, left, progress)
    with log.open("w", encoding="utf-8") as written:
        with subprocess.Popen(["rt", "ci"], cwd=room, stdin=subprocess.DEVNULL, stdout=subprocess.PIPE, stderr=subprocess.STDOUT, text=True, errors="replace") as ran:
            for line in ran.stdout or ():
                written.write(line)
                proved = PROVED.match(line)
                if proved and proved[1] in left:
                    left.remove(proved[1])
                    if left:
                        say_what_is_proved(crates, left, progress)
    if ran.returncode != 0 or not all(made_of(it, room).exists() for it in names):
        return log_of_failed(log, last)
    for it in names:
        made = made_of(it, room)
        (room / made.name).symlink_to(made)
    return None


def prove(kit: Kit, crates: Uses, names: Sequence[str], room: Path) -> Optional[str]:
    """Proves these crates of crates.txt, lowest first, in an empty folder, which then has NAME.rlib for each library and NAME for each program. Answers which
    is not proved, having said where its log is, or None."""
    failed = prove_by_ci(crates, names, room) if kit.has_kept() else prove_in_lanes(kit, crates, names, room)
    if failed:
        print(f"{failed} is not proved; the log is {TOP / 'crates' / failed / 'out' / 'build.log'}", file=sys.stderr)
    return failed
