"""The playground: how dev/page joins it, what its policy allows, and that it reads games and tells faults as the command does. web/tests looks at it in browsers."""
from __future__ import annotations

import base64
import hashlib
import json
import os
import re
import shutil
import subprocess
import tempfile
import unittest
import zlib
from html.parser import HTMLParser
from random import Random
from typing import Any, Dict, Iterator, List, Optional, Sequence, Tuple

from test_differences import games
from tool import CASES, InARoom, TOP, run
from saxtegun.cases import plain_cases
from saxtegun.commands import Refused
from saxtegun.descriptions import description_of, expect
from saxtegun.differences import likely
from saxtegun.explanations import culprit_told, cause_told, fault_in
from saxtegun.files import read_any_text
from saxtegun.games import Game
from saxtegun.levelsets import entries_of_levels
from saxtegun.lines import Frame, Run, runs_in
from saxtegun.pages import look_of
from saxtegun.recording_search import find
from saxtegun.recordings import COMPILER, CUT_OFF, HOW, OBJECTS, as_sessions, own_name
from saxtegun.sessions import Entry, fault_of
from saxtegun.webpages import without_types

NODE, OWN, MODULE = shutil.which("node") or "", TOP / "tests" / "web", b"\0asm\1\0\0\0"
# The name of a language of XML, which nothing is fetched from.
SVG = "http://www.w3.org/2000/svg"


class Elements(HTMLParser):
    """The elements of a page by their tags, and the texts of its scripts and styles by their ids."""

    def __init__(self, text: str) -> None:
        super().__init__(convert_charrefs=False)
        self.found: List[Any] = []
        self.texts: Dict[str, str] = {}
        self.open: Any = None
        self.feed(text)

    def handle_starttag(self, tag: str, attrs: Any) -> None:
        self.found.append((tag, dict(attrs)))
        self.open = dict(attrs).get("id", tag) if tag in ("script", "style") else None

    def handle_endtag(self, tag: str) -> None:
        self.open = None

    def handle_data(self, data: str) -> None:
        if self.open is not None:
            self.texts[self.open] = self.texts.get(self.open, "") + data


class Page(InARoom):
    def setUp(self) -> None:
        super().setUp()
        (self.room / "module.wasm").write_bytes(MODULE)

    def built(self, name: str = "page.html") -> Tuple[str, str]:
        answer = run(TOP / "dev/page", "--module", self.room / "module.wasm", "--output", self.room / "new" / name)
        self.assertEqual((answer.status, answer.errors), (0, ""))
        return (self.room / "new" / name).read_text(encoding="utf-8"), answer.out

    def test_the_same_sources_give_the_same_bytes(self) -> None:
        (one, said), (other, _) = self.built("one.html"), self.built("other.html")
        self.assertEqual(one, other)
        self.assertIn(hashlib.sha256(one.encode()).hexdigest(), said)

    def test_the_module_and_the_example_stand_in_it(self) -> None:
        texts = Elements(self.built()[0]).texts
        self.assertEqual(zlib.decompress(base64.b64decode(texts["module"])), MODULE)
        self.assertEqual(json.loads(texts["example-game"]), (TOP / "examples/day/game.txt").read_text(encoding="utf-8"))

    def test_its_policy_lets_nothing_else_run_and_asks_no_network(self) -> None:
        elements = Elements(self.built()[0])
        policy = next(words["content"] for tag, words in elements.found if tag == "meta" and words.get("http-equiv") == "Content-Security-Policy")
        of = {words[0]: words[1:] for words in (it.split() for it in policy.split(";"))}
        digest = {name: "'sha256-" + base64.b64encode(hashlib.sha256(elements.texts[name].encode()).digest()).decode() + "'" for name in ("script", "style")}
        self.assertEqual(of, {"default-src": ["'none'"], "script-src": [digest["script"], "'wasm-unsafe-eval'"], "style-src": [digest["style"]], "worker-src": ["blob:"],
                              "base-uri": ["'none'"], "form-action": ["'none'"]})

    def test_no_element_runs_or_loads_anything_by_itself(self) -> None:
        elements = Elements(self.built()[0])
        for tag, words in elements.found:
            with self.subTest(tag):
                self.assertEqual([it for it in words if it.startswith("on") or it in ("src", "href", "srcset", "style", "action", "data")], [])
        self.assertEqual([words for tag, words in elements.found if tag == "script" and "type" not in words], [{"id": "script"}])

    def test_nothing_names_an_address_of_a_network(self) -> None:
        page = self.built()[0].replace(SVG, "")
        self.assertEqual(re.findall(r"(?i)\b(?:https?|wss?|ftp):.{0,40}|.{0,40}[\"'`]//[a-z].{0,40}", page), [])
        # the glue would fetch a module that is named by its address, which the policy forbids
        for word in ("XMLHttpRequest", "WebSocket", "EventSource", "sendBeacon", "innerHTML", "insertAdjacentHTML", "document.write", "eval(", "new Function"):
            self.assertNotIn(word, page)

    def test_each_element_that_the_script_asks_for_is_there(self) -> None:
        elements = Elements(self.built()[0])
        ids = [words["id"] for _, words in elements.found if "id" in words]
        self.assertEqual(len(ids), len(set(ids)))
        asked = set(re.findall(r'\b(?:at\("([a-z-]+)"\)|(?:click|say|tell)\("([a-z-]+)",)', elements.texts["script"]))
        asked = {one or other for one, other in asked}
        self.assertEqual(asked - set(ids), set())

    def test_what_is_clicked_or_filled_in_has_a_name(self) -> None:
        text = self.built()[0]
        labelled = set(re.findall(r'<label for="([a-z-]+)"', text)) | {found for found in re.findall(r'<label>[^<]*<select id="([a-z-]+)"', text)} | {"file"}
        for tag, words in Elements(text).found:
            if tag in ("input", "select", "textarea", "progress"):
                with self.subTest(words):
                    self.assertTrue(words.get("aria-label") or words["id"] in labelled)
            if tag == "canvas":
                self.assertEqual(words["role"], "img")

    def test_a_module_that_is_not_there_is_reported(self) -> None:
        answer = run(TOP / "dev/page", "--module", self.room / "none", "--output", self.room / "page.html")
        self.assertEqual((answer.status, answer.errors), (1, f"dev/page: there is no module at {self.room}/none; engine/build makes it\n"))

    def test_a_name_that_two_modules_declare_is_refused(self) -> None:
        for it in ("dev", "web", "python", "engine", "examples/day"):
            shutil.copytree(TOP / it, self.room / it, ignore=shutil.ignore_patterns("out", "tests", "__pycache__"))
        with open(self.room / "web/saying.mjs", "a", encoding="utf-8") as added:
            added.write("export async function paceOf() {}\nclass load {}\n")
        answer = run(self.room / "dev/page", "--module", self.room / "module.wasm", "--output", self.room / "page.html")
        self.assertEqual((answer.status, answer.errors), (1, "dev/page: modules share one scope, and two declare a name: paceOf in animating.mjs and saying.mjs, load in saxtegun.mjs and saying.mjs\n"))
        self.assertFalse((self.room / "page.html").exists())

    def test_what_tells_types_is_left_out_and_no_other_comment(self) -> None:
        script = Elements(self.built()[0]).texts["script"]
        self.assertNotRegex(script, r"@(?:ts-check|type|typedef|param|template|returns)\b")
        self.assertIn("// Elements of a page. What came from games goes into them as text alone.\n", script)
        self.assertIn("// As many workers as leave the page a processor.\n", script)

    def test_only_comments_that_tell_types_are_left_out(self) -> None:
        text = '''// @ts-check
// Words.
/** @typedef {{ one: string }} One */

/** Other words. */
/** @type {(one: One) => string} */
export const f = (one) => /** @type {Other} */ (one).name; // more words
class It {
  /** @type {number} */
  #count = 0;
}
const words = "// @ts-check";
'''
        self.assertEqual(without_types(text), '''// Words.

/** Other words. */
export const f = (one) => (one).name; // more words
class It {
  #count = 0;
}
const words = "// @ts-check";
''')

    @unittest.skipUnless(NODE, "Node is not there: dev/tools installs it")
    def test_node_reads_its_script(self) -> None:
        (self.room / "script.cjs").write_text(Elements(self.built()[0]).texts["script"], encoding="utf-8")
        ran = subprocess.run([NODE, "--check", self.room / "script.cjs"], stdout=subprocess.PIPE, stderr=subprocess.STDOUT, check=False)
        self.assertEqual(ran.returncode, 0, ran.stdout.decode())


def in_node(script: str, values: Any) -> Any:
    """What a script of tests/web makes of values."""
    ran = subprocess.run([NODE, OWN / script], input=json.dumps(values).encode(), stdout=subprocess.PIPE, check=True)
    return json.loads(ran.stdout)


def fault_in_lines(lines: str) -> Optional[str]:
    """Why lines are no recording, or None."""
    with tempfile.NamedTemporaryFile("w", suffix=".jsonl") as file:
        file.write(lines)
        file.flush()
        try:
            return None if [*runs_in(file.name)] else "it has none"
        except Refused as why:
            return str(why)[len(file.name) + 2 :]


def entries_of_cases() -> Iterator[Tuple[Any, List[Any]]]:
    """Each session of the cases that JSON can be read of, with the lines of its case."""
    for case in plain_cases(CASES):
        try:
            values = json.loads(case.input)
        except (ValueError, RecursionError):
            continue
        lines = [json.loads(it) for it in case.stdout.decode().splitlines()]
        for number, value in enumerate(values if isinstance(values, list) else []):
            if isinstance(value, list) and len(value) > 1 and isinstance(value[1], list) and value[1] and isinstance(value[1][0], str) and not re.search("[\ud800-\udfff]", value[1][0]):
                yield value, [it for it in lines if it["session"] == number]


# Texts at the edges of what is read, beside those of the cases.
STRANGE = ("", "title \u3000 A (comment) b\nOBJECTS (\n) \nx y\n", "color_palette mastersystem\nbackground_color #AbC\nOBJECTS\n\nBackground \U0001f600\nnocolour transparent #12\n01.9.\n.....\n00000\n00000\n00000\nBackground\nred\n"
           "LEGEND\n\U0001f601 = Background\nA = B\nB = A\nC = a and\n= = Background\nD = Background and A\nCOLLISIONLAYERS\nA, Background\nBackground, D\nLEVELS\nmessage (hello)\n\U0001f600\U0001f601\nA\n\nmessage\n",
           "objects of mine\nplayer\r\nblue\r\n=====\n(a (b) c) Wall w\nred\n(d\n) 00000\nLegend\nconstructor = player\n__proto__ = player\ntoString = wall or player\ncollisionlayers\n,,\nconstructor,__proto__\nrules\n"
           "+[a]->[b](c)\nmessage->x (y)\nlevels\nw\u2028w\n")


FORMS = json.loads((TOP / "tests/forms/expected.json").read_text(encoding="utf-8"))
PIECES = ("[", '"', "\\", "\n", "]", ",", "&quot;", "<br>", "> ", "//", "/*", "*/", "`", "\u201c", "\u201d", "${", "null", '"objects"', '["a",["objects",[0],"b:0,",', "1.0", "&#34;", "'", "\r\n", "\ufeff", "\u00a0", "\U0001f600")


def broken_forms(count: int) -> Iterator[str]:
    """Forms in which letters are missing, or pieces stand that don't belong there."""
    random = Random(1)
    texts = [read_any_text(str(it)) for it in sorted((TOP / "tests/forms").glob("*.txt"))]
    for _ in range(count):
        letters = list(random.choice(texts))
        for _ in range(random.choice((1, 2, 4))):
            at = random.randrange(len(letters) + 1)
            letters[at : at + random.choice((0, 0, 1, 5, 40))] = [random.choice(PIECES)]
        yield "".join(letters)


@unittest.skipUnless(NODE, "Node is not there: dev/tools installs it")
class Twins(unittest.TestCase):
    """The page reads games and tells faults as the command does: what Python says is what is wanted."""

    def test_games_are_read_as_python_reads_them(self) -> None:
        sources = list(dict.fromkeys([*(value[1][0] for value, _ in entries_of_cases()), (TOP / "examples/day/game.txt").read_text(encoding="utf-8"), *STRANGE]))
        expect(sources)
        for source, found in zip(sources, in_node("read-games.mjs", sources)):
            game, told = Game(source), description_of(source)
            look = found.pop("look")
            with self.subTest(source[:200]):
                self.assertEqual(found, {"title": game.title, "notes": game.notes, "levels": [list(it.rows) for it in entries_of_levels(source)]})
                # the page draws nothing of a source that is refused, and so it looks for no layers there
                if any(it.layer is not None for it in told.objects):
                    self.assertEqual(look, json.loads(json.dumps(look_of(game))))

    def test_faults_are_reported_as_by_python(self) -> None:
        told = [(line["cause"], value[1][0], value[1][1], [it["at"] for it in lines if "at" in it]) for value, lines in entries_of_cases() for line in lines if "cause" in line]
        self.assertGreater(len(told), 80)
        told.append((300 * "x", "", [], []))
        expect(source for _, source, _, _ in told)
        found = in_node("read-faults.mjs", [[cause, source, inputs, [{"at": it} for it in frames]] for cause, source, inputs, frames in told])
        for (cause, source, inputs, frames), it in zip(told, found):
            run_of = Run(0, "", "refused", cause, [Frame(at, "move", "") for at in frames])
            fault = fault_in(cause)
            sentence = cause_told(cause) + culprit_told(Entry(0, "", source, inputs, "", 0, {}, False), run_of)
            with self.subTest(cause):
                self.assertEqual(it, {"sentence": sentence, "line": fault[1] if fault and fault[1] else None})

    def found_in(self, texts: Sequence[str]) -> List[Any]:
        """What the page finds in texts, as the command finds it: entries and what was skipped."""
        return [([(it["line"], it["name"], it["source"], it["inputs"], it["level"], it["index"]) for it in found["found"]], [(it["line"], it["what"]) for it in found["skipped"]])
                for found in in_node("find.mjs", texts)]

    def test_each_form_gives_its_recordings(self) -> None:
        expected, forms = FORMS["recordings"], FORMS["forms"]
        texts = {form: read_any_text(str(TOP / f"tests/forms/{form}.txt")) for form in forms}
        for (form, wanted), (found, skipped) in zip(forms.items(), self.found_in(list(texts.values()))):
            with self.subTest(form):
                self.assertEqual([[name, body] for _, name, *body in found], [[name, [expected[key][it] for it in ("source", "inputs", "level", "index")]] for name, key in wanted["took"]])
                self.assertEqual([it if it in ("compiler", "cut-off") else "fault" for _, it in skipped], wanted["skipped"])

    def test_forms_with_errors_give_what_the_command_finds(self) -> None:
        texts = list(broken_forms(2000))
        for text, found in zip(texts, self.found_in(texts)):
            there = find(text)
            bodies = [json.loads(it.body) for it in there.found]
            wanted = [(it.line, it.name, *body[:3], (body[3] if len(body) > 3 else 0) or 0) for it, body in zip(there.found, bodies)]
            self.assertEqual(found, (wanted, [tuple(it) for it in there.skipped]), text)

    def test_recordings_get_the_names_that_the_command_gives(self) -> None:
        for form in ("entry", "body-alone", "without-a-name", "entries-in-a-row", "solved"):
            findings = find(read_any_text(str(TOP / f"tests/forms/{form}.txt")))
            entries = as_sessions("a", findings.found, own_name).entries
            with self.subTest(form):
                self.assertEqual(in_node("names.mjs", [[it.name, it.source, it.inputs, it.level, it.index] for it in [e._replace(name=f.name) for e, f in zip(entries, findings.found)]]), [it.name for it in entries])

    def test_the_number_of_messages_of_a_compiler_is_a_whole_one_that_the_language_counts_to(self) -> None:
        numbers = {"0": True, "3": True, f"{2**64 - 1}": True, f"{2**64}": False, 30 * "9": False, "-1": False, "1.0": False, "true": False, "null": False}
        texts = [f'["a",["x",["m"],{number}]]' for number in numbers]
        wanted: List[Any] = [([], [(1, "compiler")] if is_one else []) for is_one in numbers.values()]
        self.assertEqual([([*found.found], [tuple(it) for it in found.skipped]) for found in map(find, texts)], wanted)
        self.assertEqual(self.found_in(texts), wanted)

    def test_letters_of_html_are_read_by_their_numbers_and_by_six_names(self) -> None:
        letters = {"&#65;": "A", "&#x41": "A", "&#00000065;": "A", f"&#{5000 * '0'}65;": "A", f"&#X{5000 * '0'}41;": "A", "&#146;": "\u2019", "&#x80;": "\u20ac", "&#129;": "\x81", "&#159;": "\u0178", "&#160;": "\xa0", "&#1;": "\x01",
                   "&#0;": "\ufffd", "&#xd800;": "\ufffd", "&#1114112;": "\ufffd", "&#1114111;": "\U0010ffff", f"&#{5000 * '9'};": "\ufffd", "&#;": "&#;", "&#x;": "&#x;", "&amp;lt;": "&lt;", "&ltx": "<x", "&apos;": "'", "&apos": "&apos",
                   "Caf&eacute;": "Caf&eacute;", "&rarr;": "&rarr;", "&QUOT;": "&QUOT;"}
        text = "\n".join(f"[&quot;{it}&quot;, [&quot;title {it}&quot;,[1],&quot;&quot;,0]]" for it in letters)
        wanted = [(it, f"title {it}") for it in letters.values()]
        self.assertEqual([(it.name, json.loads(it.body)[0]) for it in find(text).found], wanted)
        self.assertEqual([it[1:3] for it in self.found_in([text])[0][0]], wanted)

    def test_entries_and_lines_are_refused_in_the_words_of_the_command(self) -> None:
        start, close = '{"at":0,"frame":0,"kind":"start","level":"","session":0}\n', '{{"close":"{}","cause":{},"name":"","frames":{},"session":0}}\n'
        recordings = {
            start + close.format("passed", "null", 1): None, close.format("refused", '"memory"', 0): None,
            close.format("passed", "null", 0): "line 1: no close of a session of 0 frames", close.format("differs", "null", 0): "line 1: no close of a session of 0 frames",
            start + close.format("passed", '"memory"', 1): "line 2: no close of a session of 1 frame", start: "the lines end within session 0, which has no close",
        }
        nearly = 'its further element {}, and would demand nothing'
        faults = {
            '["a",["",[],""],"solved"]': None, '["a",["",[],""],"slved"]': nearly.format('"slved" is nearly "solved"'), f'["a",["",[],""],"{"solved" + 300 * "x"}"]': nearly.format(f'"solved{194 * "x"}.." is nearly "solved"'),
            '["a",["",[],""],["solved"]]': nearly.format('that is a list holds "solved"'), '["a",["",[],"",0,"solved"]]': 'its second list holds "solved" or nearly that, which would demand nothing there: it stands behind that list',
        }
        entries = [json.loads(it) for it in faults]
        self.assertEqual([fault_of(it) for it in entries], [*faults.values()])
        self.assertEqual([fault_in_lines(it) for it in recordings], [*recordings.values()])
        self.assertEqual(in_node("judge.mjs", {"entries": entries, "recordings": [*recordings]}), {"entries": [*faults.values()], "recordings": [*recordings.values()]})

    def test_a_title_is_a_name_as_it_stands_and_not_as_a_terminal_shows_it(self) -> None:
        blanks = "a" + 9 * " " + "b"
        named = {("", f"title {blanks}"): f"{blanks}, level 1", ("A" + 9 * " " + "B", f"title {blanks}"): f"{blanks}, level 1", ("own" + 9 * " " + "name", f"title {blanks}"): "own" + 9 * " " + "name",
                 ("", "title"): "a game, level 1", ("", "title \u200b"): "a game, level 1", ("", "title \u3000"): "a game, level 1", ("", f"title {300 * 'x'}"): f"{200 * 'x'}.., level 1"}
        entries = [Entry(0, name, f"{title}\nOBJECTS\n", [], "", 0, {}, False) for name, title in named]
        self.assertEqual([own_name(it.name, it) for it in entries], [*named.values()])
        self.assertEqual(in_node("names.mjs", [[it.name, it.source, it.inputs, it.level, it.index] for it in entries]), [*named.values()])

    def test_what_is_skipped_is_told_as_the_command_tells_it(self) -> None:
        page = (TOP / "web/findings.mjs").read_text(encoding="utf-8")
        for sentence in (COMPILER, CUT_OFF, OBJECTS, HOW):
            self.assertIn(sentence, page)

    def test_the_likely_difference_is_the_one_that_the_command_names(self) -> None:
        cases = [(value[1][0], [it for it in value[1][1] if isinstance(it, str)], [it for it in lines if "level" in it]) for value, lines in entries_of_cases() if len(value[1]) > 1 and isinstance(value[1][1], list)]
        starts = [[{"at": 0, "kind": "start", "level": level}] for level in ("", "background:0,crate:1,player box:2,", "a:0,")]
        cases += [(source, inputs, start) for source, inputs, _, _ in games() for start in starts[:2]]
        cases += [(source, ["undo"], starts[2]) for source in STRANGE]
        wanted = [likely(Entry(0, "", source, [*inputs], "", 0, {}, False), Run(0, "", "differs", None, [Frame(it["at"], it["kind"], it["level"]) for it in frames]))
                  for source, inputs, frames in cases]
        self.assertGreater(len(set(wanted)), 9)
        for case, it, there in zip(cases, wanted, in_node("likely.mjs", cases)):
            self.assertEqual(there, it, case)

    def test_the_logic_of_the_page(self) -> None:
        files = [it for it in sorted(OWN.glob("*.test.mjs")) if it.name != "costs.test.mjs"]
        self.assertTrue(files)
        ran = subprocess.run([NODE, "--test", "--test-reporter=tap", *files], stdout=subprocess.PIPE, stderr=subprocess.STDOUT, check=False)
        self.assertEqual(ran.returncode, 0, ran.stdout.decode(errors="replace"))

    def test_what_the_page_reads_takes_time_by_its_length(self) -> None:
        room = {**os.environ, "NODE_OPTIONS": "--max-semi-space-size=128"}  # so that little time is taken by collecting
        ran = subprocess.run([NODE, "--test", "--test-reporter=tap", OWN / "costs.test.mjs"], env=room, stdout=subprocess.PIPE, stderr=subprocess.STDOUT, check=False)
        self.assertEqual(ran.returncode, 0, ran.stdout.decode(errors="replace"))


if __name__ == "__main__":
    unittest.main()
