"""Which program plays where none is named: the one that is built, or the released module in Node; what is said of it, and what is refused."""
from __future__ import annotations

import hashlib
import json
import os
import pty
import shutil
import subprocess
import sys
import tempfile
import unittest
import unittest.mock
from pathlib import Path
from typing import Dict, List, Optional, Tuple

from tool import TOP, InARoom
from saxtegun import programs
from saxtegun.logs import CIS
from saxtegun.processes import watched

EXAMPLE = TOP / "examples/block-pushing.json"
NODE = shutil.which("node")
COMMIT = "0123456789abcdef0123456789abcdef01234567"
HOW = "install Node 20 or later (nodejs.org), name the program of a release by SAXTEGUN_PROGRAM, or prove and build it with the Rattle kit by ./replay\n"
PLAYED = "no program is built here; the module of Saxtegun 1.2.3, commit 0123456789ab, plays in Node "


class InAFreshClone(InARoom):
    """A fresh clone, with what its command needs, and a path on which stands what a test puts there."""

    def setUp(self) -> None:
        super().setUp()
        self.top, self.path = self.room / "clone", self.room / "bin"
        self.path.mkdir()
        for name in ("python", "engine", "web"):
            shutil.copytree(TOP / name, self.top / name, ignore=shutil.ignore_patterns("__pycache__", "out", "tests*"))
        shutil.copy(TOP / "saxtegun", self.top)

    def put(self, path: Path, text: str) -> None:
        path.parent.mkdir(parents=True, exist_ok=True)
        path.write_text(text, encoding="utf-8")
        path.chmod(0o755)

    def release(self, module: bytes = b"\0asm\1\0\0\0") -> None:
        """Puts a module into released/, with its sum."""
        released = self.top / "released"
        released.mkdir()
        (released / "saxtegun.wasm").write_bytes(module)
        (released / "SHA256SUMS").write_text(f"# Saxtegun 1.2.3, commit {COMMIT}\n{hashlib.sha256(module).hexdigest()}  saxtegun.wasm\n")

    def node(self, version: str) -> None:
        """Puts a Node onto the path, which says with which module and how it was called."""
        self.put(self.path / "node", f'#!/bin/sh\nif test "$1" = --version; then echo {version}; else echo "$SAXTEGUN_MODULE" "$@"; fi\n')

    def called(self, *words: object, path: Optional[str] = None, folder: Optional[Path] = None) -> Tuple[int, str, str]:
        env = {name: value for name, value in os.environ.items() if not name.startswith("SAXTEGUN_")}
        env["PATH"] = f"{self.path}" if path is None else path
        ran = subprocess.run([sys.executable, str(self.top / "saxtegun"), *map(str, words)], cwd=folder, env=env, stdout=subprocess.PIPE, stderr=subprocess.PIPE)
        return ran.returncode, ran.stdout.decode(), ran.stderr.decode()


class Programs(InAFreshClone):
    def setUp(self) -> None:
        super().setUp()
        # of no session, so a program need write no line
        self.empty = self.room / "empty.json"
        self.empty.write_text("[]\n")

    def test_the_version_says_what_plays_and_its_sum(self) -> None:
        self.assertEqual(self.called("--version"), (0, f"saxtegun of no version\nnothing plays: the program is not built here, and there is no Node: {HOW}", ""))
        (self.top / "VERSION").write_text("1.2.3\n")
        self.release()
        self.node("v20.1.0")
        digest = hashlib.sha256(b"\0asm\1\0\0\0").hexdigest()
        told = f"saxtegun 1.2.3\n{PLAYED}20.1.0\n{digest}  {self.top}/released/saxtegun.wasm\n"
        self.assertEqual(self.called("--version"), (0, told, ""))
        for path, word in (("crates/pz_replayer/out/pz_replayer", "the program that is built here plays, crates/pz_replayer/out/pz_replayer"), ("bin/pz_replayer", "the program plays that came with it")):
            self.put(self.top / path, "a program")
            told = f"saxtegun 1.2.3\n{word}\n{hashlib.sha256(b'a program').hexdigest()}  {self.top}/{path}\n"
            self.assertEqual(self.called("--version"), (0, told, ""))

    def test_a_terminal_is_not_told_at_each_call_what_plays(self) -> None:
        self.release()
        self.node("v20.1.0")
        environments: List[Tuple[Dict[str, str], bool]] = [({}, False), ({"CI": "1"}, True)]
        for ci, said in environments:
            env = {name: value for name, value in os.environ.items() if not name.startswith("SAXTEGUN_") and name not in CIS}
            master, slave = pty.openpty()
            with open(master, "rb", buffering=0) as told:
                subprocess.run([sys.executable, str(self.top / "saxtegun"), "lines", str(self.empty)], env={**env, "PATH": str(self.path), **ci}, stdout=subprocess.DEVNULL, stderr=slave)
                os.write(slave, b"end\n")
                self.assertEqual(PLAYED in told.read(10_000).decode(), said)
                os.close(slave)

    def test_without_a_program_and_node_it_says_how_to_get_one(self) -> None:
        self.release()
        self.assertEqual(self.called("lines", self.empty), (2, "", f"saxtegun lines: the program is not built here, and there is no Node: {HOW}"))
        self.put(self.path / "node", "#!/bin/sh\nexit 1\n")
        self.assertEqual(self.called("lines", self.empty), (2, "", f"saxtegun lines: the program is not built here, and there is no Node: {HOW}"))

    def test_a_node_in_a_relative_entry_of_the_path_is_not_taken(self) -> None:
        """Neither where the entry is the current folder nor below it, and not before one that is whole, which is taken then."""
        self.release()
        strange = self.room / "stranger"
        self.put(strange / "node", f"#!/bin/sh\ntouch {self.room}/ran\necho v22.0.0\n")
        self.put(strange / "bin/node", f"#!/bin/sh\ntouch {self.room}/ran\necho v22.0.0\n")
        errors = f"saxtegun lines: the program is not built here, and there is no Node: {HOW}"
        for path in (".:/none", "/none:", "bin:/none", ""):
            with self.subTest(path):
                self.assertEqual(self.called("lines", self.empty, path=path, folder=strange), (2, "", errors))
        self.node("v20.0.0")
        self.assertEqual(self.called("lines", self.empty, path=f".:{self.path}", folder=strange)[::2], (0, f"saxtegun: {PLAYED}20.0.0\n"))
        self.assertFalse((self.room / "ran").exists())

    def test_a_node_that_is_too_old_is_reported(self) -> None:
        self.release()
        self.node("v18.20.4")
        self.assertEqual(self.called("test", EXAMPLE), (2, "", f"saxtegun test: the program is not built here, and Node 18.20.4 is too old to play: {HOW}"))

    def test_a_clone_of_which_nothing_is_released_is_reported(self) -> None:
        self.node("v22.1.0")
        self.assertEqual(self.called("lines", self.empty), (2, "", f"saxtegun lines: the program is not built here, and no module is released: {HOW}"))

    def test_the_released_module_plays_in_node(self) -> None:
        self.release()
        self.node("v20.0.0")
        status, out, errors = self.called("lines", self.empty, "--order", "rows", "--workers", "3")
        self.assertEqual((status, errors), (0, f"saxtegun: {PLAYED}20.0.0\n"))
        self.assertEqual(out, f"{self.top}/released/saxtegun.wasm {self.top}/engine/replay.mjs --order rows --workers 3 {self.empty}\n")

    def test_a_module_with_another_sum_is_refused(self) -> None:
        self.release()
        self.node("v20.0.0")
        with open(self.top / "released/saxtegun.wasm", "ab") as module:
            module.write(b"\0")
        status, out, errors = self.called("lines", self.empty)
        self.assertEqual((status, out, errors.count("\n")), (2, "", 1))
        self.assertIn("is not the module that SHA256SUMS beside it names: fetch both again", errors)
        for text in ("", "# Saxtegun 1.2.3, commit none\n", f"# Saxtegun 1.2.3, commit {COMMIT}\nno sum\n", f"# Saxtegun 1.2.3, commit {COMMIT}\n", None):
            sums = self.top / "released/SHA256SUMS"
            sums.unlink() if text is None else sums.write_text(text)
            with self.subTest(text):
                status, out, errors = self.called("lines", self.empty)
                self.assertEqual((status, out, errors.count("\n")), (2, "", 1))

    def test_the_program_that_is_built_comes_first_and_is_looked_at_by_replay(self) -> None:
        self.release()
        self.node("v20.0.0")
        self.put(self.top / "crates/pz_replayer/out/pz_replayer", '#!/bin/sh\necho built "$@"\n')
        self.put(self.top / "replay", '#!/bin/sh\necho replay "$@"\n')
        said = "saxtegun: the program that is built here plays, crates/pz_replayer/out/pz_replayer\n"
        self.assertEqual(self.called("lines", self.empty), (0, f"replay --order columns {self.empty}\n", said))

    def test_replay_runs_nothing_of_a_folder(self) -> None:
        """It is a script: its shell, and what that calls, are looked for along the path."""
        shutil.copy(TOP / "replay", self.top)
        self.put(self.top / "crates/pz_replayer/out/pz_replayer", '#!/bin/sh\necho built "$@"\n')
        strange = self.room / "stranger"
        for name in ("bash", "dirname", "find", "sed"):
            self.put(strange / name, f'#!/bin/sh\ntouch {self.room}/ran\nPATH=/usr/bin:/bin\nexec {name} "$@"\n')
        self.put(strange / "setup", f"touch {self.room}/ran\n")
        for path in (".:/usr/bin:/bin", ":/usr/bin:/bin", "../stranger:/usr/bin:/bin", ".", ""):
            with self.subTest(path), unittest.mock.patch.dict(os.environ, BASH_ENV="./setup"):
                for named in ((), ("--program", self.top / "replay")):
                    status, out, errors = self.called("lines", self.empty, *named, path=path, folder=strange)
                    self.assertEqual((status, out), (0, f"built --order columns {self.empty}\n"), errors)
                    self.assertFalse((self.room / "ran").exists())
                ran = subprocess.run([self.top / "replay", self.empty], cwd=strange, env={"PATH": path, "BASH_ENV": "./setup", "CDPATH": "."}, stdout=subprocess.PIPE, stderr=subprocess.PIPE)
                self.assertEqual((ran.returncode, ran.stdout.decode()), (0, f"built {self.empty}\n"), ran.stderr)
                ran = subprocess.run([self.top / "replay", "--help"], cwd=strange, env={"PATH": path}, stdout=subprocess.PIPE, stderr=subprocess.PIPE)
                self.assertIn(b"Plays a sessions file:", ran.stdout, ran.stderr)
                self.assertFalse((self.room / "ran").exists())

    def test_what_replay_builds_by_takes_no_module_of_a_folder(self) -> None:
        shutil.copy(TOP / "replay", self.top)
        self.put(self.top / "dev/build", '#!/bin/sh\necho "[${PYTHONPATH-}${PYTHONHOME-}]"\nexit 2\n')
        ran = subprocess.run([self.top / "replay", self.empty], env={"PATH": "/usr/bin:/bin", "PYTHONPATH": ":/none", "PYTHONHOME": "."}, stdout=subprocess.PIPE, stderr=subprocess.PIPE)
        self.assertEqual((ran.returncode, ran.stdout), (2, b"[]\n"))

    def test_comparing_and_shrinking_begin_no_build(self) -> None:
        self.put(self.top / "replay", f'#!/bin/sh\ntouch {self.room}/began\nexit 2\n')
        mine = self.room / "mine"
        self.put(mine, '#!/bin/sh\nexit 0\n')
        for words in (("compare", "--engines", mine, self.top / "replay", self.empty), ("shrink", self.top / "replay", mine, EXAMPLE, "both*")):
            status, out, errors = self.called(*words)
            self.assertEqual((status, out, errors.count("\n"), (self.room / "began").exists()), (2, "", 1, False))
            self.assertIn("./replay would prove and build the program first, which takes many minutes: call it once by itself", errors)
        self.put(self.top / "crates/pz_replayer/out/pz_replayer", "#!/bin/sh\nexit 0\n")
        self.assertNotIn("would prove and build", self.called("compare", "--engines", mine, self.top / "replay", self.empty)[2])
        self.assertFalse((self.room / "began").exists())

    def test_a_program_that_is_named_comes_before_all_and_nothing_is_said(self) -> None:
        self.put(self.room / "mine", '#!/bin/sh\necho mine "$@"\n')
        self.put(self.top / "crates/pz_replayer/out/pz_replayer", "")
        self.assertEqual(self.called("lines", self.empty, "--program", self.room / "mine"), (0, f"mine --order columns {self.empty}\n", ""))
        self.put(self.top / "bin/pz_replayer", '#!/bin/sh\necho released "$@"\n')
        self.assertEqual(self.called("lines", self.empty), (0, f"released --order columns {self.empty}\n", ""))

    def test_a_c_library_that_is_too_old_is_reported(self) -> None:
        """As the loader of Debian bullseye says it, which ends with 1."""
        said = "/x: /lib/x86_64-linux-gnu/libc.so.6: version `GLIBC_2.34' not found (required by /x)"
        self.put(self.top / "bin/pz_replayer", f'#!/bin/sh\necho "{said}" >&2\nexit 1\n'.replace("`", "\\`"))
        for verb in ("test", "lines"):
            status, out, errors = self.called(verb, EXAMPLE)
            self.assertEqual((status, out), (2, ""))
            self.assertEqual(errors, f"saxtegun {verb}: the program needs a newer C library than this machine has (GLIBC_2.34): play in Node, as docs/engine.md tells\n")


@unittest.skipUnless(NODE and (TOP / "released").is_dir(), "Node is not there, which dev/tools installs, or nothing is released")
class Released(InAFreshClone):
    """The files of released/, which may be of an earlier commit: their sums, and that the functions of this one play by their module."""

    def setUp(self) -> None:
        super().setUp()
        (self.path / "node").symlink_to(str(NODE))
        shutil.copytree(TOP / "released", self.top / "released")

    def test_the_files_are_those_of_the_sums_and_small(self) -> None:
        files = sorted(it.name for it in (TOP / "released").iterdir() if it.name != "SOURCES")
        self.assertEqual(files, ["SHA256SUMS", "saxtegun.html", "saxtegun.wasm"])
        checked = subprocess.run(["sha256sum", "--check", "--quiet", "--strict", "SHA256SUMS"], cwd=TOP / "released", stdout=subprocess.PIPE, stderr=subprocess.PIPE)
        self.assertEqual((checked.returncode, checked.stdout, checked.stderr), (0, b"", b""))
        self.assertLess(sum((TOP / "released" / it).stat().st_size for it in files), 1_210_000)

    def test_a_fresh_clone_plays(self) -> None:
        status, out, errors = self.called("lines", EXAMPLE)
        closes = [it for it in map(json.loads, out.splitlines()) if "close" in it]
        self.assertEqual((status in (0, 1), [it["name"] for it in closes]), (True, [it[0] for it in json.loads(EXAMPLE.read_text(encoding="utf-8"))]))
        self.assertRegex(errors, r"^saxtegun: no program is built here; the module of Saxtegun \S+, commit [0-9a-f]{12}, plays in Node \S+\n$")

    def test_a_report_names_the_module_that_decides_its_frames(self) -> None:
        status, out, _ = self.called("report", EXAMPLE)
        module = (TOP / "released/saxtegun.wasm").read_bytes()
        self.assertEqual((status, f"Played by saxtegun.wasm (SHA-256 {hashlib.sha256(module).hexdigest()[:16]}), order columns." in out), (0, True))

    def another(self) -> Path:
        """Another folder of the functions that play in Node, whose own module is none."""
        other = self.room / "other"
        shutil.copytree(TOP / "engine", other, ignore=shutil.ignore_patterns("out"))
        (other / "out").mkdir()
        (other / "out/saxtegun.wasm").write_text("no module at all\n")
        return other / "replay.mjs"

    def test_another_engine_is_not_handed_our_module(self) -> None:
        """It would play by ours, and be called the same."""
        other, case = self.another(), self.room / "case.json"
        for words in (("compare", "--engines", "saxtegun", other, EXAMPLE), ("compare", "--engines", other, "saxtegun", "--stages", "saxtegun", "saxtegun", EXAMPLE)):
            status, out, _ = self.called(*words)
            self.assertEqual(status, 1, out)
            self.assertIn("replay.mjs crashed before its first frame", out)
            self.assertIn(": 0 the same, ", out)
        status, out, _ = self.called("compare", "--engines", other, other, "--stages", "saxtegun", "saxtegun", EXAMPLE)
        self.assertEqual((status, ": 0 the same, " in out), (1, True), out)
        status, out, errors = self.called("shrink", "saxtegun", other, EXAMPLE, "both*", case, "--within", "2")
        self.assertEqual((status, "crashed" in out, "show the same" in errors), (0, True, False), errors)

    def test_a_program_that_is_named_plays_by_its_own_module_in_each_round(self) -> None:
        """Behind a round that was explained by stages, which our own module tells."""
        with unittest.mock.patch.dict(os.environ), unittest.mock.patch.multiple(programs, CHOSEN=[], CHOSEN_FOR_STAGES=[], STAGES=(), say=lambda line: None):
            os.environ.pop("SAXTEGUN_STAGES", None)
            os.environ.pop("SAXTEGUN_MODULE", None)
            programs.stages_words()
            programs.choose()
            with tempfile.TemporaryFile() as lines:
                self.assertEqual(watched([str(self.another()), str(EXAMPLE)], lines).status, 2)
            self.assertNotIn("SAXTEGUN_MODULE", os.environ)

    def test_the_author_sees_what_differs(self) -> None:
        status, out, errors = self.called("test", EXAMPLE)
        self.assertEqual((status, errors.count("\n")), (1, 1))
        self.assertIn("session 4, a recording that has gone stale: differs", out)


if __name__ == "__main__":
    unittest.main()
