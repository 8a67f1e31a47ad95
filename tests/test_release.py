"""Releases: the same bytes from the same commit, what they hold, and what is refused."""
from __future__ import annotations

import fnmatch
import gzip
import json
import os
import re
import shutil
import subprocess
import sys
import tarfile
import tempfile
import unittest
from pathlib import Path
from typing import IO, List, Set, Union, cast

TOP = Path(__file__).resolve().parent.parent
sys.path.insert(0, str(TOP / "dev"))
from releasing import BUILT, NOTICES, PROGRAM, Broken, Built, check_version, has_passed, headline, is_made, lay_out_for_debian, make, make_released, put, sum_of, told  # noqa: E402
from crates import all_below, read_crates, read_uses  # noqa: E402
from freshness import newer  # noqa: E402
from symbols import c_library_of  # noqa: E402
from tool import PROGRAM as PROVED, plays  # noqa: E402

# The sources of the kit's libraries, each with its terms.
KIT = Path("/opt/rattle/rattle")
# Stands in for the program: it says how it was called; and for the one that tells sources: it tells none. The module is one without anything in it.
STAND_IN = Built(b'#!/bin/sh\necho "$@"\n', b"#!/bin/sh\nexit 2\n", b"#!/bin/sh\nexit 3\n", b"\0asm\1\0\0\0")
ALONE = {**os.environ, "GIT_AUTHOR_DATE": "2026-11-26T12:00:00Z", "GIT_COMMITTER_DATE": "2026-11-26T12:00:00Z"}


# What no release holds and no tool of these tests reads: most of the files.
LEFT_OUT = ["/attack/", "/bench/", "/conformance/", "/crates/"]


def git(folder: Path, *words: str) -> str:
    who = ["-c", "user.name=Tests", "-c", "user.email=tests@localhost"]
    return subprocess.run(["git", *who, *words], cwd=folder, check=True, env=ALONE, stdout=subprocess.PIPE).stdout.decode().strip()


def clone(folder: Union[str, Path], source: Path = TOP) -> Path:
    """A clone without what is left out, so that it is quickly there."""
    subprocess.run(["git", "clone", "-q", "--no-checkout", "--shared", str(source), str(folder)], check=True)
    git(Path(folder), "sparse-checkout", "set", "--no-cone", "/*", *(f"!{it}" for it in LEFT_OUT))
    git(Path(folder), "checkout", "-q")
    return Path(folder)


@unittest.skipUnless(shutil.which("objdump"), "objdump is not there: dev/tools installs it")
class Symbols(unittest.TestCase):
    def test_the_c_library_of_a_program_is_what_objdump_says(self) -> None:
        """Each program of this machine names a version as objdump lists it; a script has none."""
        for name in ("ls", "bash", "git"):
            program = Path(os.path.realpath(shutil.which(name) or name))
            said = subprocess.run(["objdump", "-T", str(program)], capture_output=True, text=True).stdout
            newest = max(tuple(map(int, it)) for it in re.findall(r"\(GLIBC_(\d+)\.(\d+)", said))
            with self.subTest(name):
                self.assertEqual(c_library_of(program.read_bytes()), f"{newest[0]}.{newest[1]}")
        self.assertEqual(c_library_of(b"#!/bin/sh\n"), "")


@plays
class DayOfTheLibrary(unittest.TestCase):
    def test_the_documents_say_which_c_library_the_program_needs(self) -> None:
        needed = c_library_of(PROVED.read_bytes())
        for path in ("README.md", "docs/ci.md", "CONTRIBUTING.md"):
            text = " ".join((TOP / path).read_text(encoding="utf-8").split())
            with self.subTest(path):
                self.assertEqual(re.findall(r"C library,? (?:from )?(\d\.\d+) (?:or later|on)", text), [needed])


class PartsOfOthers(unittest.TestCase):
    """NOTICES names each library of the kit that a crate of the program or of the module names in crates.txt, and says whether the module has it."""

    def below(self, crate: str) -> Set[str]:
        uses = read_uses(TOP)
        return {it for name in [*all_below(read_crates(TOP), crate), crate] for it in uses[name] if it not in uses}

    def test_each_library_is_there_with_its_terms(self) -> None:
        text = (TOP / NOTICES).read_text(encoding="utf-8")
        rows = re.findall(r"^  (\w+) +(yes|no) +(\S.*)$", text, re.M)
        named = {name: (in_module, terms) for name, in_module, terms in rows}
        program, module = self.below("pz_replayer"), self.below("pz_export")
        self.assertEqual(program | module, program)
        self.assertLessEqual(program, set(named))
        for name in sorted(program):
            with self.subTest(name):
                self.assertEqual(named[name][0], "yes" if name in module else "no")

    def test_the_text_of_each_of_these_terms_is_there(self) -> None:
        text = " ".join((TOP / NOTICES).read_text(encoding="utf-8").split())
        for words in ("Permission is hereby granted, free of charge", 'THE SOFTWARE IS PROVIDED "AS IS"', "Apache License Version 2.0, January 2004"):
            self.assertIn(words, text)

    @unittest.skipUnless(KIT.is_dir(), "there is no kit")
    def test_each_copyright_of_a_part_is_there(self) -> None:
        """What the kit's files of terms say of who holds the rights stands in NOTICES too."""
        text = (TOP / NOTICES).read_text(encoding="utf-8")
        for name, _, _ in re.findall(r"^  (\w+) +(yes|no) +(\S.*)$", text, re.M):
            for file in sorted((KIT / name).glob("LICENSE*")):
                for line in re.findall(r"^Copyright \(c\) .*$", file.read_text(encoding="utf-8"), re.M):
                    with self.subTest(name):
                        self.assertIn(line.strip(), text)


@unittest.skipUnless((TOP / ".git").exists() and shutil.which("dpkg-deb"), "a release is made of a clone, with dpkg-deb: dev/tools")
class Release(unittest.TestCase):
    kept: tempfile.TemporaryDirectory[str]
    one: Path
    version: str
    commit: str
    release: Path
    told: List[str]
    archive: Path

    @classmethod
    def setUpClass(cls) -> None:
        cls.kept = tempfile.TemporaryDirectory()
        cls.one = clone(Path(cls.kept.name) / "one")
        cls.version = (cls.one / "VERSION").read_text().strip()
        changes = cls.one / "CHANGELOG.md"
        changes.write_text(changes.read_text() + f"\n## {cls.version}\n")
        git(cls.one, "commit", "-qam", "Give the version its heading")
        cls.commit = git(cls.one, "rev-parse", "HEAD")
        cls.release = Path(cls.kept.name) / "release"
        cls.told = make(cls.one, cls.version, cls.release, STAND_IN)
        cls.archive = cls.release / f"saxtegun-{cls.version}-linux-x86_64.tar.gz"

    @classmethod
    def tearDownClass(cls) -> None:
        cls.kept.cleanup()

    def test_the_same_commit_gives_the_same_bytes_in_another_folder(self) -> None:
        other = clone(Path(self.kept.name) / "two", self.one)
        again = Path(self.kept.name) / "again"
        make(other, self.version, again, STAND_IN)
        names = sorted(it.name for it in self.release.iterdir())
        self.assertEqual(names, ["NOTICES", "SHA256SUMS", f"saxtegun-{self.version}-linux-x86_64.tar.gz", f"saxtegun-engine-{self.version}.tgz", "saxtegun.html", f"saxtegun_{self.version}_amd64.deb"])
        for file in self.release.iterdir():
            self.assertEqual(file.read_bytes(), (again / file.name).read_bytes(), file.name)

    def test_the_sums_are_those_of_the_files(self) -> None:
        checked = subprocess.run(["sha256sum", "--check", "--quiet", "SHA256SUMS"], cwd=self.release, capture_output=True, text=True)
        self.assertEqual((checked.returncode, checked.stdout), (0, ""))
        named = [line.split()[1] for line in (self.release / "SHA256SUMS").read_text().splitlines()]
        self.assertEqual(named, sorted(it.name for it in self.release.iterdir() if it.name != "SHA256SUMS"))

    def unpacked(self) -> Path:
        """The folder of the archive, unpacked for one test."""
        room = tempfile.TemporaryDirectory()
        self.addCleanup(room.cleanup)
        with tarfile.open(self.archive) as tar:
            tar.extractall(room.name)
        return Path(room.name) / f"saxtegun-{self.version}-linux-x86_64"

    def test_the_archive_plays_with_its_own_program(self) -> None:
        release = self.unpacked()
        env = {name: value for name, value in os.environ.items() if name != "SAXTEGUN_PROGRAM"}
        example = str(release / "examples/block-pushing.json")
        called = subprocess.run([str(release / "saxtegun"), "lines", example], capture_output=True, text=True, env=env)
        self.assertEqual(called.stdout, f"--order columns {example}\n")
        self.assertEqual(subprocess.run([str(release / "replay"), "one", "two words"], capture_output=True, text=True).stdout, "one two words\n")
        self.assertIn("commit ", (release / "PROVED.txt").read_text())
        self.assertTrue((release / "examples/day.html").is_file() and (release / "examples/day.lines").is_file())

    def test_documents_of_an_archive_name_what_is_in_it_or_listed_as_elsewhere(self) -> None:
        release = self.unpacked()
        elsewhere = re.findall(r"^- `(.*)`$", (release / "CONTENTS.md").read_text(encoding="utf-8"), re.M)
        self.assertTrue(elsewhere)
        for path in elsewhere:
            self.assertFalse((release / path).exists(), path)
        here = [str(it.relative_to(release)) for it in release.rglob("*")]
        listed = subprocess.run(["git", "ls-files"], cwd=self.one, capture_output=True, text=True).stdout.splitlines()
        folders = {path.split("/")[0] for path in listed if "/" in path}
        missing = set()
        for document in release.rglob("*.md"):
            text = document.read_text(encoding="utf-8")
            links = [os.path.relpath(document.parent / it, release) for it in re.findall(r"\]\(([^)#]+)", text) if "://" not in it]
            quoted = [one or other for one, other in re.findall(r"`([^`\n]+)`|^ {4}(.*)$", text, re.M)]
            words = re.findall(r"[\w./*+-]+", " ".join(quoted))
            named = [it[2:] for it in words if it.startswith("./") and it[2:] in listed]
            for path in [*links, *named, *(it for it in words if "/" in it and it.split("/")[0] in folders)]:
                is_elsewhere = any(path == it or path.startswith(it) or f"{path}/" == it for it in elsewhere)
                if not is_elsewhere and not fnmatch.filter(here, path.rstrip("./")):
                    missing.add((document.name, path))
        self.assertEqual(missing, set())

    def test_the_page_is_the_one_that_is_made_of_the_module(self) -> None:
        made = Path(self.kept.name) / "page.html"
        module = Path(self.kept.name) / "module.wasm"
        module.write_bytes(STAND_IN.module)
        subprocess.run([str(self.one / "dev/page"), "--module", str(module), "--output", str(made)], check=True, stdout=subprocess.DEVNULL)
        self.assertEqual((self.release / "saxtegun.html").read_bytes(), made.read_bytes())
        self.assertEqual((self.unpacked() / "saxtegun.html").read_bytes(), made.read_bytes())

    def test_the_package_for_node_has_what_npm_wants(self) -> None:
        with tarfile.open(self.release / f"saxtegun-engine-{self.version}.tgz") as tar:
            content = {info.name: cast(IO[bytes], tar.extractfile(info)).read() for info in tar if info.isfile()}
        wanted = ["NOTICES", "describe.mjs", "open.mjs", "out/saxtegun.wasm", "package.json", "replay.mjs", "saxtegun.d.ts", "saxtegun.mjs", "solve.mjs", "stages.mjs", "streams.mjs"]
        self.assertEqual(sorted(content), [f"package/{it}" for it in wanted])
        said = json.loads(content["package/package.json"])
        self.assertEqual((said["name"], said["version"]), ("saxtegun-engine", self.version))
        self.assertEqual(content["package/out/saxtegun.wasm"], STAND_IN.module)
        for path in (said["types"], said["exports"]["."]["default"], said["exports"]["./out/saxtegun.wasm"], *said["bin"].values()):
            self.assertIn(os.path.normpath(f"package/{path}"), content)

    @unittest.skipUnless(shutil.which("node"), "Node is not there: dev/tools installs it")
    def test_the_package_for_node_is_imported_by_its_name(self) -> None:
        room = Path(self.kept.name) / "node"
        with tarfile.open(self.release / f"saxtegun-engine-{self.version}.tgz") as tar:
            tar.extractall(room / "node_modules")
        (room / "node_modules/package").rename(room / "node_modules/saxtegun-engine")
        (room / "asks.mjs").write_text('import { load, parse } from "saxtegun-engine";\nconsole.log(typeof load, parse(new TextEncoder().encode("[1]\\n")).length);\n')
        asked = subprocess.run(["node", "asks.mjs"], cwd=room, capture_output=True, text=True)
        self.assertEqual((asked.stdout, asked.stderr), ("function 1\n", ""))

    def test_the_package_has_the_command_and_its_page(self) -> None:
        listed = subprocess.run(["dpkg-deb", "-c", str(self.release / f"saxtegun_{self.version}_amd64.deb")], capture_output=True, text=True)
        for path in ("./usr/bin/saxtegun", "./usr/lib/saxtegun/bin/pz_replayer", "./usr/lib/saxtegun/bin/pz_describer", "./usr/lib/saxtegun/bin/pz_solver", "./usr/lib/saxtegun/saxtegun.html", "./usr/share/man/man1/saxtegun.1.gz", "./usr/share/doc/saxtegun/copyright"):
            self.assertRegex(listed.stdout, rf"(?m) {path}$")
        self.assertNotRegex(listed.stdout, r"(?m)^\S+ (?!root/root)")

    def test_each_file_of_this_commit_is_reported_as_such(self) -> None:
        for file in sorted(self.release.iterdir()):
            with self.subTest(file.name):
                self.assertTrue(is_made(self.one, file, STAND_IN))

    def test_whole_files_are_compared(self) -> None:
        """Also where only their ends or one byte of their compression differ, or what was built does."""
        changed = Path(self.kept.name) / "changed"
        for content in (self.archive.read_bytes() + b"more", gzip.compress(gzip.decompress(self.archive.read_bytes()), 1), b"", b"no release\n"):
            changed.write_bytes(content)
            self.assertFalse(is_made(self.one, changed, STAND_IN))
        self.assertFalse(is_made(self.one, self.archive, STAND_IN._replace(module=b"another module")))

    def test_the_command_tells_whether_a_file_is_of_this_commit(self) -> None:
        top = self.gate()
        changed = Path(self.kept.name) / f"changed\x1b[2J\n{self.archive.name}"
        changed.write_bytes(self.archive.read_bytes()[:-1] + b"\1")
        for file, status, said in ((self.archive, 0, "is as this commit makes it\n"), (changed, 1, "is no file that this commit makes\n")):
            called = subprocess.run([str(top / "dev/release"), "--verify", str(file)], capture_output=True, text=True)
            self.assertEqual((called.returncode, called.stderr), (status, ""))
            self.assertTrue(called.stdout.endswith(said) and called.stdout[:-1].isprintable(), called.stdout)

    def test_what_is_proved_is_reported(self) -> None:
        text = (self.unpacked() / "PROVED.txt").read_text(encoding="utf-8")
        self.assertIn(f"commit   {self.commit}\n", text)
        self.assertRegex(text, r"(?m)^kit +\S")
        promise = " ".join(headline(self.one))
        self.assertTrue(promise.startswith("For every list of recorded sessions") and promise.endswith("equals the recorded one."), promise)
        self.assertIn("".join(f"    {it}\n" for it in headline(self.one)), text)

    def gate(self) -> Path:
        """A clone in which the gate has passed, and what it built."""
        top = clone(Path(tempfile.mkdtemp(dir=self.kept.name)) / "gate", self.one)
        for path, content in zip(BUILT, STAND_IN):
            put(top / path, content)
        self.note(top, self.commit)
        return top

    def note(self, top: Path, commit: str, program: bytes = STAND_IN.program) -> None:
        """What ./check writes when it has passed."""
        sums = [f"{sum_of(content)}  {path}" for path, content in zip(BUILT, STAND_IN._replace(program=program))]
        put(top / "out/gate-passed", "".join(f"{it}\n" for it in [f"commit {commit}", *sums, "rt ci: 7 passed, 0 failed"]).encode())

    def test_a_gate_counts_for_its_commit_and_for_what_it_built(self) -> None:
        top = self.gate()
        self.assertTrue(has_passed(top))
        self.note(top, "0" * 40)
        self.assertFalse(has_passed(top))
        self.note(top, self.commit, b"another program")
        self.assertFalse(has_passed(top))
        self.note(top, self.commit)
        (top / PROGRAM).unlink()
        self.assertFalse(has_passed(top))
        self.assertFalse(has_passed(self.one))

    def test_the_command_makes_a_release_of_what_the_gate_built_and_keeps_page_and_module(self) -> None:
        top = self.gate()
        for _ in range(2):
            called = subprocess.run([str(top / "dev/release"), self.version], capture_output=True, text=True)
            self.assertEqual((called.returncode, called.stderr), (0, ""))
        for file in self.release.iterdir():
            self.assertEqual(file.read_bytes(), (top / "release" / file.name).read_bytes(), file.name)
        self.assert_released(top)
        self.assertEqual(git(top, "status", "--porcelain", "--", ".", ":!released"), "")

    def assert_released(self, top: Path) -> None:
        head, *sums = (top / "released/SHA256SUMS").read_text().splitlines()
        self.assertEqual(head, f"# Saxtegun {self.version}, commit {self.commit}")
        self.assertEqual(sorted(it.name for it in (top / "released").iterdir()), ["SHA256SUMS", "SOURCES", "saxtegun.html", "saxtegun.wasm"])
        self.assertEqual(newer(top, top / "released"), [])
        subprocess.run(["sha256sum", "--check", "--quiet", "--strict", "SHA256SUMS"], cwd=top / "released", check=True)
        self.assertEqual(len(sums), 2)
        self.assertEqual((top / "released/saxtegun.wasm").read_bytes(), STAND_IN.module)
        self.assertEqual((top / "released/saxtegun.html").read_bytes(), (self.release / "saxtegun.html").read_bytes())

    def test_page_and_module_are_kept_alone(self) -> None:
        top = self.gate()
        called = subprocess.run([str(top / "dev/release"), "--released"], capture_output=True, text=True)
        self.assertEqual((called.returncode, called.stderr), (0, ""))
        self.assert_released(top)
        with self.assertRaisesRegex(Broken, "more than 1210000"):
            make_released(top, self.version, os.urandom(1_000_000))
        (top / "README.md").write_text("changed\n")
        called = subprocess.run([str(top / "dev/release"), "--released"], capture_output=True, text=True)
        self.assertEqual((called.returncode, called.stderr), (2, "release: M README.md: commit what is changed or new first\n"))

    def test_the_debian_package_wants_the_c_library_that_its_program_needs(self) -> None:
        package = self.release / f"saxtegun_{self.version}_amd64.deb"
        self.assertEqual(subprocess.run(["dpkg-deb", "-f", str(package), "Depends"], capture_output=True, text=True).stdout, "python3 (>= 3.8)\n")
        archive, root = self.unpacked(), Path(self.kept.name) / "root"
        shutil.copy(sys.executable, archive / "bin/pz_replayer")
        wanted = c_library_of(Path(sys.executable).read_bytes())
        lay_out_for_debian(root, archive, self.version, 0)
        control = (root / "DEBIAN/control").read_text()
        self.assertIn(f"Depends: libc6 (>= {wanted}), python3 (>= 3.8)\n", control)

    def test_what_is_no_release_is_refused(self) -> None:
        with self.assertRaisesRegex(Broken, "is no version"):
            check_version(self.one, "1.2")
        with self.assertRaisesRegex(Broken, "the file VERSION says"):
            check_version(self.one, "99.0.0")
        unnamed = clone(Path(self.kept.name) / "unnamed")
        (unnamed / "VERSION").write_text("7.7.7\n")
        with self.assertRaisesRegex(Broken, "has no heading"):
            check_version(unnamed, "7.7.7")
        (self.one / "left over").write_text("")
        self.addCleanup((self.one / "left over").unlink)
        with self.assertRaisesRegex(Broken, "commit what is changed or new first"):
            check_version(self.one, self.version)

    def test_a_command_that_fails_is_reported_by_its_last_line(self) -> None:
        with self.assertRaises(Broken) as why:
            told(self.one, "sh", "-c", "echo first >&2; echo second >&2; exit 1")
        self.assertTrue(str(why.exception).endswith(": second"), why.exception)
        with self.assertRaises(Broken) as why:
            told(self.one, "false")
        self.assertEqual(str(why.exception), "false: it failed")

    def test_wrong_words_and_a_file_that_is_no_archive_end_with_2(self) -> None:
        calls: List[List[str]] = [[], ["--verify"], ["1.2.3", "--into"], ["1.2.3", "--to", "x"], ["--released", "x"]]
        for words in calls:
            called = subprocess.run([str(TOP / "dev/release"), *words], capture_output=True, text=True)
            self.assertEqual(called.returncode, 2)
            self.assertRegex(called.stderr, r"^release: .*\n$")


if __name__ == "__main__":
    unittest.main()
