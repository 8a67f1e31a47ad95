"""What the engine tells of a source, how it is asked, and what is said where it can't be."""
from __future__ import annotations

import io
import json
import os
import subprocess
import sys
import unittest
from contextlib import contextmanager, redirect_stdout
from pathlib import Path
from typing import Any, Dict, Iterator, List, Optional, Sequence, Tuple, Union
from unittest import mock

from tool import TOP, InARoom  # which puts the package on the path
from saxtegun import budget, descriptions, playing, programs, reindexing
from saxtegun.command_line import main
from saxtegun.commands import Refused
from saxtegun.descriptions import NOTHING, OUTLINES, Definition, Description, Drawn, Fault, Line, Paragraph, Setting, Undescribed, Words, asked, bytes_of, description_of, expect, how_to_ask
from saxtegun.explanations import told
from saxtegun.games import Game, game_of, titles_of
from saxtegun.lines import Run
from saxtegun.pages import look_known
from saxtegun.playing import Engine
from saxtegun.recording_search import find
from saxtegun.recordings import as_sessions, own_name
from saxtegun.sessions import Entry, sessions_in
from saxtegun.texts import GameText, remark
from saxtegun.verbs import coverage

SOURCE = """(a comment) Title A (game)
run_rules_on_level_start
OBJECTS
Background .
black (and
white)

Player P
WHITE Red
.000.
.....
.....
.....
.1.1.

LEGEND
@ = Player and Background (both)
One = Player
SOUNDS
===
COLLISIONLAYERS
Background
Player,
RULES
startloop
late [ > Player | ... ]->[ | ] Message Hello (there)
+ [ One ] -> [ ]
endloop
WINCONDITIONS
All Player on Background
LEVELS
message Go (on)

.P
@.
"""
TOLD = Description(
    fault=None,
    lines=NOTHING.lines,
    prelude=[Setting(1, "title", "A (game)"), Setting(2, "run_rules_on_level_start", "")],
    objects=[
        Paragraph([4, 5], ["Background", "."], ["black"], [], 0),
        Paragraph([8, 9, 10, 11, 12, 13, 14], ["Player", "P"], ["WHITE", "Red"], [".000.", ".....", ".....", ".....", ".1.1."], 1),
    ],
    legend=[Definition(17, ["@"], ["Player", "and", "Background"], "aggregate", (1, 0)), Definition(18, ["One"], ["Player"], "object", (1,))],
    layers=[Words(22, ["background"], "Background"), Words(23, ["player"], "Player,")],
    rules=[
        Words(25, ["startloop"], "startloop"),
        Words(26, ["late", "[", ">", "player", "|", "...", "]", "->", "[", "|", "]", "message", "hello (there)"], "late [ > Player | ... ]->[ | ] Message Hello (there)"),
        Words(27, ["+", "[", "one", "]", "->", "[", "]"], "+ [ One ] -> [ ]"),
        Words(28, ["endloop"], "endloop"),
    ],
    wins=[Words(30, ["all", "player", "on", "background"], "All Player on Background")],
    levels=[Drawn([32], ()), Drawn([34, 35], (".P", "@."))],
)
ENTRY = sessions_in("x", '[["a", ["title x\\nOBJECTS\\n", [], ""]]]').entries[0]


def ways() -> Any:
    """As the command asks, and in Node."""
    return how_to_ask(), [programs.node_that_plays(), str(programs.DESCRIBE_IN_NODE), OUTLINES]


def description_line(source: str) -> str:
    return asked([source], how_to_ask())[0]


class Whole(unittest.TestCase):
    def test_a_source_is_told_line_by_line(self) -> None:
        found = description_of(SOURCE)
        self.assertEqual(found._replace(lines=NOTHING.lines), TOLD)
        self.assertEqual(next(iter(found.lines)), Line(1, "prelude", "Title A (game)"))
        self.assertEqual([it.number for it in found.lines.of("objects")], [4, 5, 7, *range(8, 16)])
        self.assertEqual([*found.lines.with_headings()][2], (3, "OBJECTS"))
        self.assertEqual(found.lines.headings, ["objects", "legend", "sounds", "collisionlayers", "rules", "winconditions", "levels"])
        self.assertEqual(found.rules[1].as_written(), "late [ > Player | ... ] -> [ | ] Message".split() + ["Hello (there)"])
        self.assertEqual([it.is_late for it in found.rules], [False, True, False, False])
        self.assertEqual([it.joins for it in found.rules], [False, False, True, False])

    def test_a_source_that_is_refused_is_told_as_far_as_it_goes(self) -> None:
        self.assertEqual(description_of("title x").fault, Fault("Section", 0))
        self.assertEqual(titles_of(["title x"]), {"x"})
        long = description_of("x" * 2**20 + "y")
        self.assertEqual((long.fault, [*long.lines], long._replace(fault=None, lines=NOTHING.lines)), (Fault("TooLong", 0), [], NOTHING))

    def test_half_a_letter_is_another_one(self) -> None:
        self.assertEqual(bytes_of("a\ud800b"), b"a?b")
        self.assertEqual(titles_of(["title \ud800"]), {"?"})

    def test_a_game_that_is_refused_draws_by_all_but_what_is_defined_by_or(self) -> None:
        source = SOURCE.replace("One =", "Two = Player or Background\nThree = Two\nOne =").replace("All", "Few")
        self.assertIsNotNone(description_of(source).fault)
        game = Game(source)
        self.assertEqual([it for it in (".", "@", "one", "two", "three", "?") if game.draws(it)], [".", "@", "one"])

    def test_time_to_explain_that_ends_while_a_description_is_read_ends_explaining(self) -> None:
        line = json.dumps({"fault": None, "lines": [[1, "prelude", False, "x"]]}, separators=(",", ":"))
        with mock.patch.object(budget.EXPLAINING, "left", 0), self.assertRaises(budget.UsedUp), budget.EXPLAINING.spent():
            descriptions.read(line)


@contextmanager
def asked_for() -> Iterator[List[int]]:
    """Counts how many sources are asked for at once, of which nothing is told."""
    line = json.dumps({"fault": None, **{it: [] for it in Description._fields[1:]}}, separators=(",", ":"))
    counts = []

    def answers(them: Sequence[Any], words: Sequence[str]) -> List[str]:
        counts.append(len(them))
        return [line] * len(them)

    with mock.patch.multiple(descriptions, asked=answers, how_to_ask=lambda: []):
        yield counts


def refusing(entries: Sequence[Entry], of: Any, engine: Engine) -> Iterator[Run]:
    """Runs that are all refused, as if something had played."""
    return (Run(number, it.name, "refused", "NoLevel:0", []) for number, it in enumerate(entries))


class Asked(InARoom):
    """How the engine is asked: by stand-ins that are scripts, or by a count of calls."""

    def setUp(self) -> None:
        super().setUp()
        fresh = mock.patch.object(descriptions, "DESCRIPTIONS", descriptions.Descriptions())
        fresh.start()
        self.addCleanup(fresh.stop)
        self.chosen: Any = mock.patch.object(programs, "CHOSEN_FOR_SOURCES", [])
        self.chosen.start()
        self.addCleanup(self.chosen.stop)
        game_of.cache_clear()

    def stand_in(self, script: str) -> None:
        path = self.room / "pz_describer"
        path.write_text(f"#!{sys.executable}\nimport os, sys, time\n{script}\n")
        path.chmod(0o755)
        programs.CHOSEN_FOR_SOURCES[:] = [[str(path)]]

    def assert_refused(self, why: str) -> None:
        with self.assertRaises(Undescribed) as refused:
            description_of("title x")
        self.assertEqual(str(refused.exception), f"the engine can't be asked what it reads of a source: {why}")

    def test_each_source_is_asked_for_once(self) -> None:
        with mock.patch.object(descriptions, "watched", side_effect=descriptions.watched) as called:
            for _ in range(3):
                for source in ("title x", "title y"):
                    description_of(source)
        self.assertEqual(called.call_count, 2)

    def test_sources_that_are_expected_are_told_by_one_process(self) -> None:
        for words in ways():
            sources = [f"title {it}" for it in range(200)]
            with self.subTest(words[0]), mock.patch.object(descriptions, "how_to_ask", lambda: words), mock.patch.object(subprocess, "Popen", side_effect=subprocess.Popen) as begun:
                descriptions.DESCRIPTIONS.cache_clear()
                expect(sources)
                self.assertEqual([description_of(it).prelude[0].value for it in sources], [str(it) for it in range(200)])
                self.assertEqual(begun.call_count, 1)

    def test_two_hundred_games_that_are_refused_are_explained_by_one_process(self) -> None:
        """They are explained by lines that are there, so that nothing plays."""
        sessions, lines = self.room / "sessions.json", self.room / "lines"
        sessions.write_text(json.dumps([[f"s{it}", [f"title {it}\nOBJECTS\nPlayer\nred\nRULES\n[ Crate{it} ] -> [ ]\n", [], ""]] for it in range(200)]))
        lines.write_text("".join(f'{{"cause":"Unknown:6","close":"refused","frames":0,"name":"s{it}","session":{it}}}\n' for it in range(200)))
        programs.CHOSEN_FOR_SOURCES[:] = [programs.describer_words()]
        with mock.patch.object(sys, "argv", ["saxtegun", "explain", str(sessions), str(lines)]), redirect_stdout(io.StringIO()) as told:
            with mock.patch.object(subprocess, "Popen", side_effect=subprocess.Popen) as begun:
                self.assertEqual(main(), 0)
        self.assertEqual(begun.call_count, 1)
        self.assertTrue(all(f"`Crate{it}`" in told.getvalue() for it in range(200)))

    def test_what_was_told_before_the_engine_ended_is_known(self) -> None:
        self.stand_in(f"print({description_line('title x')!r}); sys.stderr.write('memory\\n'); sys.exit(2)")
        expect(["title x", "title y"])
        with mock.patch.object(descriptions, "watched", side_effect=descriptions.watched) as called:
            self.assertEqual(description_of("title x").prelude[0].value, "x")
            self.assertEqual(called.call_count, 1)
            self.assertEqual(description_of("title y").prelude[0].value, "x", "the stand-in tells each the same")
            self.assertEqual(called.call_count, 2)

    def test_what_was_told_before_it_was_too_much_is_known(self) -> None:
        """Small games may tell so much together, of which each alone tells far less."""
        line, sources = description_line("title x"), [f"title {it}" for it in range(10)]
        self.stand_in(f"[print({line!r}) for it in sys.argv[2:]]")
        expect(sources)
        with mock.patch.object(descriptions, "MOST_TOLD", 4 * len(line) - 1), mock.patch.object(descriptions, "watched", side_effect=descriptions.watched) as called:
            self.assertEqual([description_of(it).prelude[0].value for it in sources], ["x"] * 10)
        self.assertEqual(called.call_count, 4)

    def test_only_so_many_letters_are_asked_for_at_once(self) -> None:
        sources = [f"title {it}" + "\n" * 100 for it in range(10)]
        expect(sources)
        with mock.patch.object(descriptions, "MOST_LETTERS_AT_ONCE", 500), mock.patch.object(descriptions, "watched", side_effect=descriptions.watched) as called:
            self.assertEqual([description_of(it).prelude[0].value for it in sources], [str(it) for it in range(10)])
        self.assertEqual(called.call_count, 3)

    def test_of_sources_just_too_many_to_be_kept_none_is_asked_for_alone(self) -> None:
        """They are gone through again and again, and each forgets one that is wanted next."""
        sources, line = [f"title {it:3}" for it in range(101)], description_line("title x")
        expect(sources)
        with mock.patch.object(descriptions, "MOST_KEPT", 900), mock.patch.object(descriptions, "asked", side_effect=lambda them, words: [line] * len(them)) as called:
            for _ in range(3):
                for it in sources:
                    description_of(it)
        self.assertLessEqual(called.call_count, 6)

    def test_the_longest_source_that_is_played_is_kept_beside_others(self) -> None:
        """A game of a MiB by turns with small ones, as in a file where its recordings have the empty text: each turn would ask for it anew."""
        longest = "title x".ljust(2**20)
        wanted = [it for number in range(300) for it in (longest, f"title {number}")]
        with asked_for() as counts:
            expect(wanted)
            for it in wanted:
                description_of(it)
        self.assertEqual(counts, [301])

    def sessions_of(self, count: int, lines: str = "") -> Path:
        """A file of sessions of as many games."""
        path = self.room / "sessions.json"
        path.write_text(json.dumps([[f"s{it}", [f"title {it}\n{lines}", [], ""]] for it in range(count)]))
        return path

    def test_recordings_of_many_games_are_named_by_one_process(self) -> None:
        found = find(json.dumps([["", [f"title {it}\nOBJECTS\n", [], ""]] for it in range(300)])).found
        with asked_for() as counts:
            as_sessions("x", found, own_name)
        self.assertEqual(counts, [300])

    def test_levels_of_many_games_are_found_by_one_process(self) -> None:
        sessions = sessions_in("x", self.sessions_of(300).read_text())
        with asked_for() as counts, mock.patch.object(reindexing, "runs_played", refusing):
            self.assertEqual(len(reindexing.reindexed(sessions.entries, sessions, Engine())), 300)
        self.assertEqual(counts, [300])

    def test_lines_of_many_games_are_left_out_by_one_process(self) -> None:
        def played(entries: Sequence[Entry], of: Any, engine: Engine) -> Iterator[Run]:
            return (it._replace(close="passed") for it in refusing(entries, of, engine))

        with asked_for() as counts, mock.patch.object(coverage, "runs_played", played), self.assertRaises(Refused):
            self.call("coverage", self.sessions_of(300))
        self.assertEqual(counts, [300])

    def test_clocks_of_many_games_are_found_by_one_process(self) -> None:
        path = self.sessions_of(300, "realtime_interval 1\n")
        for verb in ("test", "lines", "accept"):
            descriptions.DESCRIPTIONS.cache_clear()
            with self.subTest(verb), asked_for() as counts, mock.patch.object(playing, "play_file", side_effect=Refused("nothing plays")):
                self.assertRaisesRegex(Refused, "nothing plays", self.call, verb, path, "--ticks-as-recorded")
                self.assertEqual(counts, [300])

    def call(self, verb: str, *words: object) -> int:
        with mock.patch.object(sys, "argv", ["saxtegun", verb, *map(str, words)]), redirect_stdout(io.StringIO()):
            return main()

    def test_titles_that_take_too_long_to_read_are_not_waited_for(self) -> None:
        path, game = self.sessions_of(2), self.room / "game.txt"
        game.write_text("title 0\n")
        with mock.patch.object(budget.EXPLAINING, "left", 0):
            self.assertRaisesRegex(Refused, "take over 60 s to read: name the sessions of .* with --only, or say --all$", self.call, "source", game, path)
            told = remark("s.json", sessions_in("s.json", path.read_text()).entries, GameText(str(game), "title 0\n"))
        self.assertIn("; whether they are of another game isn't known: not looked at further", told)

    def test_what_was_expected_before_is_expected_again(self) -> None:
        expect(["a", "b"])
        self.assertEqual(titles_of(["title x", "title y"]), {"x", "y"})
        self.assertEqual([*descriptions.DESCRIPTIONS.expected], ["a", "b"])

    def test_of_many_sources_some_are_kept(self) -> None:
        with mock.patch.object(descriptions, "MOST_KEPT", 20):
            for source in ("title x" + "\n" * 9, "title y" + "\n" * 9, "title z" + "\n" * 9):
                description_of(source)
                self.assertIn(source, descriptions.DESCRIPTIONS.known)
            self.assertEqual(len(descriptions.DESCRIPTIONS.known), 1)

    def test_the_program_that_tells_sources_is_looked_for_beside_the_one_that_plays(self) -> None:
        for plays, tells in (("bin/pz_replayer", "bin/pz_describer"), ("crates/pz_replayer/out/pz_replayer", "crates/pz_describer/out/pz_describer")):
            path = self.room / tells
            path.parent.mkdir(parents=True)
            path.write_text("")
            path.chmod(0o755)
            with mock.patch.object(programs, "DESCRIBERS", ()), mock.patch.dict(os.environ, SAXTEGUN_PROGRAM=str(self.room / plays)):
                self.assertEqual(programs.describers(), [], "the program that plays isn't there")
                (self.room / plays).parent.mkdir(parents=True, exist_ok=True)
                (self.room / plays).write_text("")
                programs.CHOSEN_FOR_SOURCES.clear()
                self.assertEqual(programs.describer_words(), [str(path)])

    def test_without_a_program_and_node_it_is_said_what_is_missing(self) -> None:
        nothing: Dict[str, Any] = {"DESCRIBERS": (), "CHOSEN": [], "CHOSEN_FOR_STAGES": [], "BUILT": self.room / "none"}
        with mock.patch.multiple(programs, **nothing), mock.patch.dict(os.environ, PATH=str(self.room), SAXTEGUN_PROGRAM=""):
            self.assert_refused(f"the program is not built here, and there is no Node: {programs.HOW_TO_GET_ONE}")

    def test_what_ends_without_an_answer_is_told(self) -> None:
        for script, why in (
            ("sys.stderr.write('memory\\n'); sys.exit(2)", "memory"),
            ("os.kill(os.getpid(), 9)", "it ended with status -9"),
            ("sys.exit(3)", "it ended with status 3"),
            ("", "what it wrote is no description"),
            ("print('{}')", "what it wrote is no description"),
            ("print('[' * 100_000)", "what it wrote is no description"),
            ("print('{\"fault\":null,\"lines\":[[1]]}')", "what it wrote is no description"),
            ("print('x', end='')", "what it wrote is no description"),
            ("print(); print()", "what it wrote is no description"),
            ("sys.stdout.buffer.write(b'\\xff\\n')", "what it wrote is no description"),
            (f"print('{description_line('title x')}x')", "what it wrote is no description"),
        ):
            with self.subTest(script):
                self.stand_in(script)
                self.assert_refused(why)

    def test_a_file_that_can_t_be_written_is_told(self) -> None:
        self.stand_in("print()")
        with mock.patch.object(descriptions.Path, "write_bytes", side_effect=OSError(28, "No space left on device")):
            self.assert_refused("No space left on device")

    def test_what_tells_too_much_or_takes_too_long_is_told(self) -> None:
        self.stand_in("print('x' * 5 * 2**20)")
        with mock.patch.object(descriptions, "MOST_TOLD", 2**22):
            self.assert_refused("it told more than 4 MiB")
        self.stand_in("time.sleep(60)")
        with mock.patch.object(descriptions, "SECONDS", 0.2):
            self.assert_refused("not answered in 0.2 s")

    def test_what_takes_longer_than_there_is_time_to_explain_ends_explaining(self) -> None:
        self.stand_in("time.sleep(60)")
        with mock.patch.object(budget.EXPLAINING, "left", 0.2):
            sentence, below = told(Run(0, "a", "refused", "Section:0", []), ENTRY)
        self.assertEqual((sentence.rpartition("; ")[2], below), (budget.NOT_LOOKED_AT, []))

    def test_an_answer_is_told_without_what_the_engine_was_asked_for(self) -> None:
        self.stand_in("sys.exit(3)")
        why = "the engine can't be asked what it reads of a source: it ended with status 3"
        sentence, below = told(Run(0, "a", "refused", "Section:0", []), ENTRY)
        self.assertEqual((sentence, below), (f"a section that must be there is missing (Section:0); 0 frames; {why}", []))
        game = look_known("title x")
        self.assertEqual((game.objects, game.notes), ([], [why]))
        with self.assertRaises(Refused):
            titles_of(["title x"])


class EngineOfDescriptions(InARoom):
    def test_each_file_has_its_line(self) -> None:
        words = [programs.in_node().words[0], str(programs.DESCRIBE_IN_NODE)]
        names = programs.environment_of(words)
        paths = [self.room / it for it in "ab"]
        for path in paths:
            path.write_text(f"title {path.name}")
        ran = subprocess.run([*words, *map(str, paths)], stdout=subprocess.PIPE, stderr=subprocess.PIPE, env=names)
        self.assertEqual((ran.returncode, ran.stderr, len(ran.stdout.splitlines())), (0, b"", 2))
        calls: List[Tuple[List[str], bytes]] = [([], b"bad command line\n"), ([str(self.room / "c")], b"open-fault\n")]
        for given, why in calls:
            ran = subprocess.run([*words, *given], stdout=subprocess.PIPE, stderr=subprocess.PIPE, env=names)
            self.assertEqual((ran.returncode, ran.stderr), (2, why))


# Level texts, each with its cells: whatever the order in which it names them, those that have the same names have the same number.
LEVELS = {
    "": '{"cells":[],"sets":[]}',
    ":0,\n": '{"cells":[0],"sets":[""]}',
    "b:0,B  a:1,\n0,1,\n": '{"cells":[0,1,0,1],"sets":["b","a b"]}',
    "a b:0,b a A:1,1,c:2,0,": '{"cells":[0,0,0,1,0],"sets":["a b","c"]}',
    "\u00e4 z:0,\r\n": '{"cells":[0],"sets":["z \u00e4"]}',
    "a:b:0,": '{"cells":[0],"sets":["a:b"]}',
    **{text: "null" for text in ("a:0", "a:1,", "0,", "a:0,1,", "a:,", "\n,")},
}
SESSIONS = [
    ["one", ["S", [0, 1, 2, 3, 4, "undo", "restart", "tick"], "a:0,"]],
    ["two", ["T", [], "", 7]],
    ['"three\n', ["S", [], "b:0,0,", None, "a seed"], "more"],
]
TOLD_OF_SESSIONS = (
    '{"sessions":[{"index":0,"inputs":[0,1,2,3,4,"undo","restart","tick"],"level":{"cells":[0],"sets":["a"]},"name":"one","source":0},'
    '{"index":7,"inputs":[],"level":{"cells":[],"sets":[]},"name":"two","source":1},'
    '{"index":0,"inputs":[],"level":{"cells":[0,0],"sets":["b"]},"name":"\\"three\\n","source":0}],"sources":["S","T"]}'
)
# A game around a rule, which is its eleventh line.
GAME, END = ["OBJECTS", "Background .", "black", "Player p", "red", "LEGEND", "COLLISIONLAYERS", "Background", "Player", "RULES"], ["LEVELS", "p."]
REFUSED_FILES = {"": "not-json", "{}": "not-json", "[3]": "bad-entry 0", json.dumps([SESSIONS[0], ["", ["", [], "x"]]]): "bad-level 1"}


class DayOfLevelsAndFiles(InARoom):
    """What is told of level texts and of files of sessions, by the program where it is built."""

    names: Optional[Dict[str, str]] = None

    def words(self) -> List[str]:
        return programs.describer_words()

    def tell(self, kind: Optional[str], *texts: Union[str, bytes]) -> Tuple[int, str, str]:
        paths = [self.room / str(number) for number in range(len(texts))]
        for path, text in zip(paths, texts):
            path.write_bytes(text if isinstance(text, bytes) else text.encode())
        words = self.words()
        ran = subprocess.run([*words, *([] if kind is None else [kind]), *map(str, paths)], stdout=subprocess.PIPE, stderr=subprocess.PIPE, env=self.names or programs.environment_of(words), check=False)
        return ran.returncode, ran.stdout.decode(), ran.stderr.decode()

    def test_level_texts(self) -> None:
        self.assertEqual(self.tell("--levels", *LEVELS), (0, "".join(f"{it}\n" for it in LEVELS.values()), ""))

    def test_a_set_of_long_names_in_many_cells_is_told_once(self) -> None:
        text = " ".join(f"name{it}" for it in range(10_000)) + ":0," + "0," * 100_000
        status, told, _ = self.tell("--levels", text)
        self.assertEqual((status, len(json.loads(told)["cells"])), (0, 100_001))
        self.assertLess(len(told), len(text) + 100)

    def test_files_of_sessions(self) -> None:
        self.assertEqual(self.tell("--sessions", "[]", json.dumps(SESSIONS)), (0, f'{{"sessions":[],"sources":[]}}\n{TOLD_OF_SESSIONS}\n', ""))

    def test_files_that_are_refused(self) -> None:
        for text, why in REFUSED_FILES.items():
            self.assertEqual(self.tell("--sessions", text), (2, "", f"{why}\n"))

    def test_outlines(self) -> None:
        """A source of which the rules alone are refused is told as one whose rules are right, but that neither has a program."""
        right, wrong, nothing = "\n".join([*GAME, "[ > p ] -> [ ]", *END]), "\n".join([*GAME, "[ x ] -> [ ]", *END]), ""
        status, told, why = self.tell(OUTLINES, right, wrong, nothing)
        (of_right, of_wrong, of_nothing), whole = map(json.loads, told.splitlines()), json.loads(self.tell(None, right)[1])
        self.assertEqual((status, why, whole["program"]["early"][0]["groups"]), (0, "", [[11, 11, 11, 11]]))
        self.assertEqual(of_right, {**whole, "program": None})
        self.assertEqual((of_wrong["fault"], of_wrong["program"], of_wrong["rules"]), (None, None, [{"line": 11, "words": "[ x ] -> [ ]".split()}]))
        self.assertEqual(of_wrong["objects"], whole["objects"])
        self.assertEqual(of_nothing["fault"], {"code": "Section", "line": 0})

    def test_what_is_no_text_or_no_command_line(self) -> None:
        for kind in (OUTLINES, "--levels", "--sessions"):
            self.assertEqual(self.tell(kind, b"\xff"), (2, "", "not-json\n"))
            self.assertEqual(self.tell(kind), (2, "", "bad command line\n"))


class EngineOfLevelsAndFiles(DayOfLevelsAndFiles):
    """The same by the module that is built."""

    @classmethod
    def setUpClass(cls) -> None:
        if os.environ.get("SAXTEGUN_PROGRAM") == "none" or not (TOP / "engine/out/saxtegun.wasm").is_file():
            raise unittest.SkipTest("the module is not built: engine/build")

    names = {it: value for it, value in os.environ.items() if it != "SAXTEGUN_MODULE"}

    def words(self) -> List[str]:
        return [programs.in_node().words[0], str(programs.DESCRIBE_IN_NODE)]


if __name__ == "__main__":
    unittest.main()
