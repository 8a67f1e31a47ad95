"""engine/: the C of the module, the rewriting to 32 bits, and the glue over the module where that is built."""
from __future__ import annotations

import gzip
import json
import os
import shutil
import subprocess
import sys
import tempfile
import unittest
from pathlib import Path
from typing import List, Tuple, Union

from test_stages import OnCases, compact
from tool import InARoom, TOP, case_named

sys.path.insert(0, str(TOP / "engine"))
import to32

ENGINE, OWN = TOP / "engine", Path(__file__).resolve().parent / "engine"
NODE, COMPILER, VALGRIND = (shutil.which(it) or "" for it in ("node", "cc", "valgrind"))
# Beside the proofs, when ./check has SAXTEGUN_PROGRAM=none, a module that is there is that of an earlier run.
IS_BUILT = os.environ.get("SAXTEGUN_PROGRAM") != "none" and (ENGINE / "out" / "saxtegun.wasm").is_file()
# The names of its exports stand in a module as they are.
IS_DESCRIBING = IS_BUILT and b"saxtegun_description" in (ENGINE / "out" / "saxtegun.wasm").read_bytes()
DESCRIPTIONS = sorted((TOP / "conformance/descriptions").glob("*.json"))


@unittest.skipUnless(COMPILER, "there is no C compiler: dev/tools installs one")
class TheC(InARoom):
    """The heap against a list of blocks, the arithmetic against the compiler's own."""

    def hold(self, name: str, *words: str) -> None:
        program = self.room / name
        subprocess.run([COMPILER, "-std=gnu11", "-O1", "-g", "-Wall", "-Wextra", "-Werror", *words, OWN / f"{name}.c", "-o", program], check=True)
        under = [] if words or not VALGRIND else [VALGRIND, "-q", "--error-exitcode=1"]
        ran = subprocess.run([*under, program], stderr=subprocess.PIPE, check=False)
        self.assertEqual((ran.returncode, ran.stderr.decode()), (0, ""))

    def test_the_heap_under_valgrind(self) -> None:
        self.hold("heap")

    def test_the_heap_under_sanitizers(self) -> None:
        self.hold("heap", "-fsanitize=address,undefined", "-fno-sanitize-recover=all")

    def test_arithmetic_on_128_bits(self) -> None:
        self.hold("helpers", "-fsanitize=undefined", "-fno-sanitize-recover=all")


class To32(InARoom):
    """What is rewritten, and what is refused."""

    def test_the_target_is_changed(self) -> None:
        lines = ['target datalayout = "e-m:e"', 'target triple = "x86_64-unknown-linux-gnu"']
        self.assertEqual(to32.rewritten(lines), [f'target datalayout = "{to32.LAYOUT}"', f'target triple = "{to32.TRIPLE}"'])

    def test_a_slot_for_a_pointer_keeps_its_eight_bytes(self) -> None:
        self.assertEqual(to32.rewritten(["  %a = alloca ptr, align 8"]), ["  %a = alloca i64, align 8"])

    def test_an_address_becomes_a_number(self) -> None:
        self.assertEqual(to32.rewritten(["  %n = ptrtoaddr ptr %p to i64"]), ["  %n = ptrtoint ptr %p to i64"])

    def test_a_pair_is_read_at_the_places_that_it_had(self) -> None:
        self.assertEqual(to32.rewritten(["  %r = load { i8, ptr }, ptr %p, align 8"]), [
            "  %part.1 = getelementptr i8, ptr %p, i32 0",
            "  %value.1 = load i8, ptr %part.1, align 1",
            "  %pair.1 = insertvalue { i8, ptr } poison, i8 %value.1, 0",
            "  %part.2 = getelementptr i8, ptr %p, i32 8",
            "  %value.2 = load ptr, ptr %part.2, align 8",
            "  %r = insertvalue { i8, ptr } %pair.1, ptr %value.2, 1"])

    def test_a_pair_is_written_at_the_places_that_it_had(self) -> None:
        self.assertEqual(to32.rewritten(["  store { ptr, i32 } %v, ptr %p, align 8"]), [
            "  %value.1 = extractvalue { ptr, i32 } %v, 0",
            "  %part.1 = getelementptr i8, ptr %p, i32 0",
            "  store ptr %value.1, ptr %part.1, align 8",
            "  %value.2 = extractvalue { ptr, i32 } %v, 1",
            "  %part.2 = getelementptr i8, ptr %p, i32 8",
            "  store i32 %value.2, ptr %part.2, align 4"])

    def test_attributes_of_the_processor_go(self) -> None:
        line = 'attributes #0 = { nounwind "frame-pointer"="all" "probe-stack"="inline-asm" "stack-probe-size"="3072" "target-cpu"="x86-64" }'
        self.assertEqual(to32.rewritten([line]), ['attributes #0 = { nounwind "frame-pointer"="all" }'])

    def test_what_says_the_same_stays(self) -> None:
        lines = ["; a comment", "", '@s = private unnamed_addr constant [2 x i8] c"\\00a", align 1', 'define internal noundef { ptr, i64 } @"a::b"(ptr noundef %a0, i1 noundef zeroext %a1) #0 {',
                 "start:", "  %p = getelementptr inbounds nuw i8, ptr %a0, i64 -8", "  %v = load ptr, ptr %p, align 8, !noundef !0", "  store ptr %v, ptr @s, align 8",
                 "  %c = icmp eq ptr %v, null", '  %r = call { ptr, i64 } @"a::b"(ptr %v, i1 true)', to32.BARRIER,
                 "  call void @llvm.memmove.p0.p0.i64(ptr %p, ptr %v, i64 24, i1 false)", "  %v = load atomic i64, ptr %p seq_cst, align 8",
                 "  %v = atomicrmw add ptr %p, i64 1 seq_cst, align 8", "  %v = cmpxchg ptr %p, i64 0, i64 %n acq_rel acquire, align 8", "  switch i8 %t, label %other [", "    i8 1, label %one", "  ]",
                 "one:                                              ; preds = %start", "  ret { ptr, i64 } %r", "  unreachable", "}", "!0 = !{}"]
        self.assertEqual(to32.rewritten(lines), lines)

    def test_every_other_form_is_refused(self) -> None:
        for line in ("  %p = inttoptr i64 %n to ptr", "  %n = ptrtoint ptr %p to i64", "  %n = ptrtoaddr ptr %p to i32", "  %p = addrspacecast ptr %q to ptr addrspace(1)",
                     "  %a = alloca { i8, ptr }, align 8", "  %a = alloca [2 x ptr], align 8", "  %p = getelementptr ptr, ptr %q, i64 1", "  %p = getelementptr { i8, ptr }, ptr %q, i64 0, i32 1",
                     "  %v = load { i8, ptr, i8 }, ptr %p, align 8", "  %v = load [2 x ptr], ptr %p, align 8", "  store { ptr, { i8, ptr } } %v, ptr %p, align 8", "  %v = load <2 x ptr>, ptr %p, align 16",
                     "  %c = icmp ult ptr %p, %q", "  %v = load atomic ptr, ptr %p seq_cst, align 8", "  %v = atomicrmw xchg ptr %p, ptr %q seq_cst, align 8",
                     '  call void asm sideeffect "nop", ""()', "  call void %f()", "  call void @llvm.x86.sse2.pause()", "  %r = call i32 (ptr, ...) @open(ptr %p)", "declare i32 @open(ptr, ...)",
                     "@v = private constant <{ ptr, [8 x i8] }> <{ ptr @s, [8 x i8] zeroinitializer }>, align 8", "@p = private global ptr null, align 8", "@s = external global i8",
                     'module asm "nop"', 'target features = "+sse2"', "  %x = va_arg ptr %p, i64", "  invoke void @f() to label %a unwind label %b", "what: is this"):
            with self.subTest(line), self.assertRaises(to32.UnknownForm):
                to32.rewritten([line])

    def test_a_refusal_names_the_line_and_writes_nothing(self) -> None:
        (self.room / "from.ll").write_text("; fine\n  what is this\n", encoding="utf-8")
        ran = subprocess.run([sys.executable, "-B", ENGINE / "to32.py", "from.ll", "to.ll"], cwd=self.room, stdout=subprocess.PIPE, stderr=subprocess.PIPE, check=False)
        self.assertEqual((ran.returncode, ran.stderr.decode()), (1, "to32: a form that isn't known:   what is this\n"))
        self.assertFalse((self.room / "to.ll").exists())


class OnStages(InARoom):
    """Tests engine/stages.mjs, and the glue about stages."""

    def tell(self, *words: Union[str, Path], module: Union[str, Path] = "", file: bytes = b"[]") -> Tuple[int, str, str]:
        ran = subprocess.run([NODE, ENGINE / "stages.mjs", *words], input=file, env={**os.environ, "SAXTEGUN_MODULE": str(module)}, stdout=subprocess.PIPE, stderr=subprocess.PIPE, check=False)
        return ran.returncode, ran.stdout.decode(), ran.stderr.decode()

    def pass_the_glue(self, **module: str) -> None:
        ran = subprocess.run([NODE, "--test", "--test-reporter=tap", OWN / "stages.test.mjs"], env={**os.environ, **module}, stdout=subprocess.PIPE, stderr=subprocess.STDOUT, check=False)
        self.assertEqual(ran.returncode, 0, ran.stdout.decode(errors="replace"))


@unittest.skipUnless(NODE, "Node is not there: dev/tools installs it")
class TheStages(OnStages):
    """The stages of an input where no module is there, and the command line of engine/stages.mjs."""

    def test_the_glue_without_a_module(self) -> None:
        self.pass_the_glue(SAXTEGUN_MODULE=str(self.room / "none"))

    def test_words_that_are_no_command_line(self) -> None:
        calls: List[List[str]] = [[], ["0"], ["0", "x"], ["-1", "0"], ["0", "1.0"], ["0", ""], ["0", "0", "rows"], ["0", "0", "columns", "more"], ["18446744073709551616", "0"]]
        for words in calls:
            with self.subTest(words):
                self.assertEqual(self.tell(*words), (2, "", "bad command line\n"))

    def test_a_module_without_stages(self) -> None:
        (self.room / "empty.wasm").write_bytes(b"\0asm\1\0\0\0")
        self.assertEqual(self.tell("0", "1", module=self.room / "empty.wasm"), (2, "", "no-stages\n"))


@unittest.skipUnless(NODE, "Node is not there: dev/tools installs it")
class TheModule(InARoom):
    """Which module the command lines of engine/ take: in a clone none is built."""

    def test_where_none_is_built_the_released_one_plays(self) -> None:
        for folder in ("engine", "released"):
            (self.room / folder).mkdir()
        for file in ENGINE.glob("*.mjs"):
            shutil.copy2(file, self.room / "engine")
        missing = str(self.room / "none")
        for module, said in (("", "no module is built here, by engine/build, and none is released\n"), (missing, f"there is no module at {missing}\n")):
            refused = self.played_by(module)
            self.assertEqual((refused.returncode, refused.stderr.decode()), (2, said))
        shutil.copy2(TOP / "released/saxtegun.wasm", self.room / "released")
        played = self.played_by("")
        self.assertEqual((played.returncode, played.stderr, played.stdout.count(b'"close":')), (1, b"", 5))

    def played_by(self, module: str) -> subprocess.CompletedProcess[bytes]:
        """The example, played in the room by this module, or by the one that it takes where none is named."""
        command = [NODE, str(self.room / "engine/replay.mjs"), str(TOP / "examples/block-pushing.json")]
        return subprocess.run(command, env={**os.environ, "SAXTEGUN_MODULE": module}, stdout=subprocess.PIPE, stderr=subprocess.PIPE, check=False)


@unittest.skipUnless(NODE, "Node is not there: dev/tools installs it")
class OpenSessions(unittest.TestCase):
    """Tests the glue of open sessions, without a module and over the one that is built; the second name begins with Engine, by which ./check finds it."""

    def pass_the_glue(self, **module: str) -> None:
        ran = subprocess.run([NODE, "--test", "--test-reporter=tap", OWN / "open.test.mjs"], env={**os.environ, **module}, stdout=subprocess.PIPE, stderr=subprocess.STDOUT, check=False)
        self.assertEqual(ran.returncode, 0, ran.stdout.decode(errors="replace"))

    def test_the_glue_without_a_module(self) -> None:
        self.pass_the_glue(SAXTEGUN_MODULE="/nonexistent/module.wasm")


@unittest.skipUnless(NODE and IS_BUILT, "Node is not there, which dev/tools installs, or the module is not built: engine/build")
class EngineOpenSessions(OpenSessions):
    """The same over the module."""

    def test_the_glue(self) -> None:
        self.pass_the_glue()


@unittest.skipUnless(NODE, "Node is not there: dev/tools installs it")
class TheSolutions(InARoom):
    """The glue of solutions where no module is there, and the command line of engine/solve.mjs."""

    def pass_the_glue(self, **module: str) -> None:
        ran = subprocess.run([NODE, "--test", "--test-reporter=tap", OWN / "solutions.test.mjs"], env={**os.environ, **module}, stdout=subprocess.PIPE, stderr=subprocess.STDOUT, check=False)
        self.assertEqual(ran.returncode, 0, ran.stdout.decode(errors="replace"))

    def solve(self, *words: Union[str, Path], file: bytes = b"[]", module: Union[str, Path] = "") -> Tuple[int, str, str]:
        ran = subprocess.run([NODE, ENGINE / "solve.mjs", *words], input=file, env={**os.environ, "SAXTEGUN_MODULE": str(module)}, stdout=subprocess.PIPE, stderr=subprocess.PIPE, check=False)
        return ran.returncode, ran.stdout.decode(), ran.stderr.decode()

    def test_the_glue_without_a_module(self) -> None:
        self.pass_the_glue(SAXTEGUN_MODULE=str(self.room / "none"))

    def test_words_that_are_no_command_line(self) -> None:
        calls: List[List[str]] = [[], ["1"], ["1", "2", "3"], ["x", "1"], ["1", "-1"], ["1.0", "1"], ["1", ""], ["1", "18446744073709551616"]]
        for words in calls:
            with self.subTest(words):
                self.assertEqual(self.solve(*words), (2, "", "bad command line\n"))

    def test_a_module_without_solutions(self) -> None:
        (self.room / "empty.wasm").write_bytes(b"\0asm\1\0\0\0")
        self.assertEqual(self.solve("9", "9", module=self.room / "empty.wasm"), (2, "", "no-solutions\n"))


@unittest.skipUnless(NODE and IS_BUILT, "Node is not there, which dev/tools installs, or the module is not built: engine/build")
class EngineSolutions(TheSolutions):
    """The same over the module; the name begins with Engine, by which ./check finds it."""

    def test_the_glue(self) -> None:
        self.pass_the_glue()

    def test_the_lines_are_those_of_the_program(self) -> None:
        program = TOP / "crates/pz_solver"
        words, file = (program / "args").read_text().split(), (program / "stdin").read_bytes()
        self.assertEqual(self.solve(*words, file=file), (0, (program / "stdout").read_text(), ""))
        self.assertEqual(self.solve("9", "9", file=b"[0]"), (2, "", "bad-entry 0\n"))


@unittest.skipUnless(NODE and IS_BUILT, "Node is not there, which dev/tools installs, or the module is not built: engine/build")
class EngineStages(OnStages, OnCases):
    """The stages that the module gives; the name begins with Engine, by which ./check finds it."""

    def test_the_glue(self) -> None:
        self.pass_the_glue()

    def test_the_lines_and_the_exit_status(self) -> None:
        self.assertEqual(self.tell("0", "+18446744073709551615", "columns"), (0, "", ""))
        self.assertEqual(self.tell("0", "1", file=b"[0]"), (2, "", "bad-entry 0\n"))
        walk = case_named("walk-two-steps-right-against-a-wall").input
        status, lines, errors = self.tell("0", "1", file=walk)
        self.assertEqual((status, errors, [json.loads(it)["stage"] for it in lines.splitlines()]), (0, "", ["input", "movement", "end"]))

    def test_each_case_is_told_as_it_was_worked_out(self) -> None:
        self.hold_to_cases([NODE, str(ENGINE / "stages.mjs")], {it: value for it, value in os.environ.items() if it != "SAXTEGUN_MODULE"})


class OnDescriptions(InARoom):
    """Tests engine/describe.mjs, and the glue about descriptions."""

    def describe(self, *words: Union[str, Path], module: Union[str, Path] = "") -> Tuple[int, str, str]:
        ran = subprocess.run([NODE, ENGINE / "describe.mjs", *words], env={**os.environ, "SAXTEGUN_MODULE": str(module)}, stdout=subprocess.PIPE, stderr=subprocess.PIPE, check=False)
        return ran.returncode, ran.stdout.decode(), ran.stderr.decode()

    def pass_the_glue(self, **module: str) -> None:
        ran = subprocess.run([NODE, "--test", "--test-reporter=tap", OWN / "descriptions.test.mjs"], env={**os.environ, **module}, stdout=subprocess.PIPE, stderr=subprocess.STDOUT, check=False)
        self.assertEqual(ran.returncode, 0, ran.stdout.decode(errors="replace"))

    def write(self, content: bytes) -> Path:
        (self.room / "game.txt").write_bytes(content)
        return self.room / "game.txt"


@unittest.skipUnless(NODE, "Node is not there: dev/tools installs it")
class TheDescriptions(OnDescriptions):
    """The description of a source where no module is there, and the command line of engine/describe.mjs."""

    def test_the_glue_without_a_module(self) -> None:
        self.pass_the_glue(SAXTEGUN_MODULE=str(self.room / "none"))

    def test_words_that_are_no_command_line(self) -> None:
        self.assertEqual(self.describe(), (2, "", "bad command line\n"))

    def test_a_file_that_is_not_there(self) -> None:
        (self.room / "empty.wasm").write_bytes(b"\0asm\1\0\0\0")
        self.assertEqual(self.describe(self.room / "none", module=self.room / "empty.wasm"), (2, "", "open-fault\n"))

    def test_a_module_without_descriptions(self) -> None:
        (self.room / "empty.wasm").write_bytes(b"\0asm\1\0\0\0")
        self.assertEqual(self.describe(self.write(b""), module=self.room / "empty.wasm"), (2, "", "no-descriptions\n"))

    def test_each_case_says_its_rule_and_no_two_have_one_source(self) -> None:
        cases = [json.loads(path.read_text(encoding="utf-8")) for path in DESCRIPTIONS]
        self.assertGreaterEqual(len({case["source"] for case in cases}), 20)
        self.assertEqual([path.stem for path, case in zip(DESCRIPTIONS, cases) if set(case) != {"rule", "source", "told"} or not case["rule"].endswith(".")], [])


@unittest.skipUnless(NODE and IS_DESCRIBING, "Node is not there, which dev/tools installs, or the module is not built or gives no descriptions: engine/build")
class EngineDescriptions(OnDescriptions):
    """The descriptions that the module gives; the name begins with Engine, by which ./check finds it."""

    def test_the_glue(self) -> None:
        self.pass_the_glue()

    def test_what_is_no_text_is_refused(self) -> None:
        self.assertEqual(self.describe(self.write(b"\xff")), (2, "", "not-json\n"))

    def test_each_case_is_told_as_it_was_worked_out(self) -> None:
        for path in DESCRIPTIONS:
            with self.subTest(path.stem):
                case = json.loads(path.read_text(encoding="utf-8"))
                self.assertEqual(self.describe(self.write(case["source"].encode())), (0, compact(case["told"]), ""))


class InNode(InARoom):
    """Tests in JavaScript."""

    def pass_in_node(self, name: str) -> None:
        ran = subprocess.run([NODE, "--test", "--test-reporter=tap", OWN / name], stdout=subprocess.PIPE, stderr=subprocess.STDOUT, check=False)
        self.assertEqual(ran.returncode, 0, ran.stdout.decode(errors="replace"))


@unittest.skipUnless(NODE, "Node is not there: dev/tools installs it")
class TheExample(InNode):
    """The script of the page of docs/engine.md, over an engine of the test's own."""

    def test_the_page(self) -> None:
        self.pass_in_node("example.test.mjs")


@unittest.skipUnless(NODE and IS_BUILT, "Node is not there, which dev/tools installs, or the module is not built: engine/build")
class EngineGlue(InNode):
    """The exports, the functions of the glue and their refusals; the name begins with Engine, by which ./check finds it."""

    def test_the_glue(self) -> None:
        self.pass_in_node("glue.test.mjs")

    def test_the_exports(self) -> None:
        self.pass_in_node("exports.test.mjs")

    def test_the_script_of_the_page_about_it(self) -> None:
        ran = subprocess.run([NODE, TOP / "examples/script.mjs", TOP / "examples/block-pushing.json"], stdout=subprocess.PIPE, check=False)
        self.assertEqual((ran.returncode, ran.stdout.decode()), (1, "differs: a recording that has gone stale\n"))
        # a stranger's name moves no cursor
        with tempfile.NamedTemporaryFile("w", suffix=".json") as file:
            json.dump([["\x1b[2J\x9b\n\u202e\u00e9", ["", [], ""]]], file)
            file.flush()
            ran = subprocess.run([NODE, TOP / "examples/script.mjs", file.name], stdout=subprocess.PIPE, check=False)
        self.assertEqual((ran.returncode, ran.stdout.decode()), (1, "refused: \\u{1b}[2J\\u{9b}\\u{a}\\u{202e}\u00e9\n"))

    def test_the_module_is_small(self) -> None:
        module = (ENGINE / "out" / "saxtegun.wasm").read_bytes()
        self.assertLessEqual(len(module), 620_000)
        self.assertLessEqual(len(gzip.compress(module)), 200_000)


if __name__ == "__main__":
    unittest.main()
