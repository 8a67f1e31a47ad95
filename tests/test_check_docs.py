"""What `dev/check-docs` finds in the pages of a small repository, and what `dev/rule-book` writes of its rules."""
from __future__ import annotations

import shutil
import re
import unittest
from typing import List, Tuple

from tool import TOP, OnSmallCrates, run

PAGE = """# A page

For whoever tests.

## The crates

There is one: `pz_one`.

## Rules

- *a rule*: `pz_one/src/lib.rt`
  `same`

| what | where |
|---|---|
| a word | `pz_one/src/lib.rt` `same` |

See [the crates](#the-crates), [the front](../README.md#front) and `crates/pz_one`.
"""

# A rule with all its places.
RULE = {
    "docs/language.md": "# The language\n\n## Numbers\n\n- A number is itself.\n  It stays so. <sub>number.same</sub> Others may be there.\n",
    "crates/pz_one/specs/Lib.antt": "-- What a number is.\nuse Rattle\n\n-- number.same: the number\n-- itself\nabbrev pub same : ℕ → ℕ\nsame n = n\n\nabbrev pub other : ℕ\n",
    "crates/pz_one/src/same.rt": "/// The number itself. Rule `number.same`.\n#[inline]\npub fn same(number: u32) -> u32\n",
    "conformance/cases/a-number-isn-t-another.json": '{"rules": ["number.same"], "words": []}\n',
    "attack/pz_one.edits": "== answers_null\nAnswers 0. [number.same]\nfile: src/same.rt\nold: same\nnew: null\n",
}
AT = dict(zip(("sentence", "definition", "function", "case", "body"), RULE))


class OnOneRule(OnSmallCrates):
    def setUp(self) -> None:
        super().setUp()
        self.found("check-docs", "# A tower\n\n# a crate of one function\npz_one:\n")
        self.write("README.md", "# Front\n")
        self.write("conformance/README.md", "# Cases\n")
        for path, text in RULE.items():
            self.write(path, text)

    def told(self) -> List[str]:
        """What is told of the rules."""
        answer = run(self.tool)
        self.assertEqual(answer.errors, "")
        lines = answer.out.splitlines()[:-1]
        self.assertEqual(answer.status, bool(lines))
        return lines


class OfRules(OnOneRule):
    def test_a_rule_with_all_its_places(self) -> None:
        self.assertEqual(self.told(), [])

    def test_each_place_that_a_rule_lacks_is_told(self) -> None:
        for kind in ("definition", "function", "case", "body"):
            with self.subTest(kind):
                self.write(AT[kind], RULE[AT[kind]].replace('"number.same"', "").replace("number.same", "").lstrip("\n"))
                self.assertEqual(self.told(), [f"docs/language.md:6: the rule number.same has no {kind}"])
                self.write("dev/without.txt", f"# Reasons\nnumber.* {kind}: it has none\n")
                self.assertEqual(self.told(), [])
                self.write("dev/without.txt", "")
                self.write(AT[kind], RULE[AT[kind]])

    def test_a_case_of_another_kind_has_ids_too(self) -> None:
        self.write(AT["case"], "{}")
        self.write("conformance/stages/a-number-has-a-stage.json", '{"rules": ["number.same"], "input": 1}\n')
        self.write("conformance/descriptions/a-number-has-none.json", "{}\n")
        self.assertEqual(self.told(), [])

    def test_an_id_that_no_page_has_is_told_wherever_it_stands(self) -> None:
        for kind, line in (("definition", 6), ("function", 3), ("case", 1), ("body", 2)):
            with self.subTest(kind):
                text = RULE[AT[kind]]
                joint = {"definition": ", ", "function": "`, `", "case": '", "', "body": ", "}[kind]
                self.write(AT[kind], text.replace("number.same", f"number.same{joint}number.other"))
                self.assertEqual(self.told(), [f"{AT[kind]}:{line}: no sentence of docs/language.md or docs/sessions.md has the rule number.other"])
                self.write(AT[kind], text)

    def test_a_page_leads_to_no_rule_that_is_not_there(self) -> None:
        for name, told in (("number.same", []), ("number.other", ["docs/language.md:8: no sentence of docs/language.md or docs/sessions.md has the rule number.other"])):
            with self.subTest(name):
                self.write("docs/language.md", RULE["docs/language.md"] + f"\nNo more than that (`{name}`), as in `a.txt b`.\n")
                self.assertEqual(self.told(), told)

    def test_an_id_that_stands_twice_in_the_pages_is_told(self) -> None:
        for page, line in (("docs/language.md", 8), ("docs/sessions.md", 3)):
            with self.subTest(page):
                before = RULE.get(page, "# Sessions\n")
                self.write(page, before + "\nThe same again. <sub>number.same</sub>\n")
                self.assertEqual(self.told(), [f"{page}:{line}: the rule number.same stands there a second time"])
                self.write(page, before)

    def test_a_reason_for_what_is_there_or_is_no_place_is_told(self) -> None:
        for line, told in (
            ("number.same body: it has none", "number.same has a body"),
            ("number.other body: it has none", "number.other body is no rule and place with a reason"),
            ("number.same tests: it has none", "number.same tests is no rule and place with a reason"),
            ("number.same body:", "number.same body: is no rule and place with a reason"),
            ("number.same", "number.same  is no rule and place with a reason"),
        ):
            with self.subTest(line):
                self.write("dev/without.txt", line + "\n")
                self.assertEqual(self.told(), [f"dev/without.txt: {told}"])


class OfTheBook(OnOneRule):
    def setUp(self) -> None:
        super().setUp()
        shutil.copy(TOP / "dev/rule-book", self.tool.parent)
        self.book = self.tool.parent / "rule-book"

    def test_the_book_has_sentence_definition_function_case_and_body(self) -> None:
        self.assertEqual(
            run(self.book, "Itself").out.split("\n\n"),
            [
                "# The rule book",
                "## Numbers (docs/language.md)",
                "### number.same, docs/language.md:6",
                "A number is itself. It stays so.",
                "Definition `same`, crates/pz_one/specs/Lib.antt:6",
                "    -- the number\n    -- itself\n    abbrev pub same : ℕ → ℕ\n    same n = n",
                "Function `same`, crates/pz_one/src/same.rt:3",
                "    /// The number itself. Rule `number.same`.\n    #[inline]\n    pub fn same(number: u32) -> u32",
                "Case: A number isn't another. conformance/cases/a-number-isn-t-another.json",
                "Wrong body: Answers 0. attack/pz_one.edits:2 answers_null",
                "    file: src/same.rt\n    old: same\n    new: null\n",
            ],
        )

    def test_the_table_has_a_line_for_each_rule_and_says_why_a_place_is_not_there(self) -> None:
        self.write(AT["body"], "Answers 0.\n")
        self.write("dev/without.txt", "number.same body: nobody wrote one\n")
        self.assertEqual(
            run(self.book, "--table").out.splitlines()[2:],
            ["| number.same | `crates/pz_one/specs/Lib.antt` `same` | `crates/pz_one/src/same.rt` `same` | `conformance/cases/a-number-isn-t-another.json` | none: nobody wrote one |"],
        )

    def test_words_choose_what_fits_them_best_by_what_they_begin_and_how_few_have_them(self) -> None:
        self.write("docs/sessions.md", "# Files\n\nThe same numbers, not another. <sub>file.numbers</sub>\n\nAny number stays, and isn't a `large_number`. <sub>file.same</sub>\n")
        for words, wanted in ((("same",), ["number.same", "file.same", "file.numbers"]), (("FILE", "number"), ["file.numbers", "file.same"]), (("large", "number"), ["file.same"]), (("large", "stays"), ["file.same"]), (("`",), ["file.same"]), (("umbers",), []), (("itself",), ["number.same"]), (("another", "numbers"), ["file.numbers", "number.same"]), (("isn", "stays"), ["file.same", "number.same"]), (("isn", "itself"), ["number.same"]), (("large", "file", "nobody"), ["file.same"])):
            with self.subTest(words):
                self.assertEqual(re.findall(r"^(?:### )?([a-z]+\.[a-z-]+)[:,] ", run(self.book, *words).out, re.M), wanted)

    def test_words_of_readers_find_those_of_the_pages(self) -> None:
        self.write("docs/sessions.md", "# Play\n\nA win ends it. <sub>play.end</sub>\n\nIn a pass each is free. <sub>play.passes</sub>\n")
        for word, wanted in (("Won", "play.end"), ("repeats", "play.passes"), ("blocked", "play.passes")):
            with self.subTest(word):
                self.assertIn(f"### {wanted}, ", run(self.book, word).out)

    def test_an_id_chooses_its_rule_alone(self) -> None:
        self.write("docs/sessions.md", "# Files\n\nThe same number. <sub>number.same-again</sub>\n")
        for words, ids in ((("number.same",), ["number.same"]), (("number.same-again", "number.same"), ["number.same-again", "number.same"])):
            with self.subTest(words):
                self.assertEqual(re.findall(r"^### (\S+),", run(self.book, *words).out, re.M), ids)

    def test_where_none_is_the_best_each_is_a_line(self) -> None:
        more = "\n\n".join(f"Letter {it} stays, {'and so on ' * 20}. <sub>letter.{it}</sub>" for it in "abcd")
        self.write("docs/sessions.md", f"# Files\n\n{more}\n")
        lines = [f"letter.{it}: Letter {it} stays, {'and so on ' * 20}"[: len("letter.a: ") + 140] + ".." for it in "abcd"]
        self.assertEqual(run(self.book, "letters").out.splitlines(), [*lines, "", "`dev/rule-book letter.a` shows the first in full."])

    def test_words_that_no_rule_has(self) -> None:
        answer = run(self.book, "umber", "nobody")
        self.assertEqual((answer.status, answer.out, answer.errors), (1, "", "rule-book: no rule has umber nobody\n"))

    def test_an_option_that_is_none(self) -> None:
        self.assertEqual(run(self.book, "--all").status, 2)


class OfDocuments(OnSmallCrates):
    def setUp(self) -> None:
        super().setUp()
        self.found("check-docs", "# A tower\n\n# a crate of one function\npz_one:\n")
        self.write("README.md", "# Front\n\n| a | b |\n|---|---|\n| c | d |\n")
        self.write("conformance/README.md", "# Cases\n")

    def told(self, page: str) -> Tuple[int, List[str]]:
        """What is told of a page, and the status."""
        self.write("docs/architecture.md", page)
        answer = run(self.tool)
        self.assertEqual(answer.errors, "")
        *lines, last = answer.out.splitlines()
        self.assertEqual(last, f"check-docs: {len(lines)} missing")
        return answer.status, lines

    def test_a_page_without_a_fault(self) -> None:
        self.assertEqual(self.told(PAGE), (0, []))

    def test_each_fault_is_reported_with_its_line(self) -> None:
        for old, new, told in (
            ("`pz_one/src/lib.rt`\n  `same`", "`pz_one/src/lib.rt`\n  `other`", "11: other does not stand in the file named before it"),
            ("`pz_one/src/lib.rt` `same` |", "`pz_one/src/lib.rt` `other` |", "16: other does not stand in the file named before it"),
            ("`pz_one/src/lib.rt`\n  `same`", "`pz_one/src/gone.rt`\n  `same`", "11: pz_one/src/gone.rt is not there"),
            ("`crates/pz_one`", "`crates/pz_two`", "18: crates/pz_two is not there"),
            ("../README.md#front", "../GONE.md", "18: ../GONE.md is not there"),
            ("(#the-crates)", "(#the-rules)", "18: architecture.md has no heading the-rules"),
            ("README.md#front", "README.md#back", "18: README.md has no heading back"),
            ("For whoever tests.", "For whoever " + "tests " * 20 + "much.", "3: 137 columns"),
        ):
            with self.subTest(told):
                self.assertIn(old, PAGE)
                self.assertEqual(self.told(PAGE.replace(old, new)), (1, [f"docs/architecture.md:{told}"]))

    def test_what_is_quoted_or_a_row_of_a_table_may_be_long(self) -> None:
        self.assertEqual(self.told(f"{PAGE}\n    {'x' * 120}\n\n| {'y' * 120} | z |\n\n```\n{'z' * 120}\n```\n"), (0, []))

    def test_a_cell_of_the_front_page_is_no_paragraph(self) -> None:
        self.write("README.md", f"# Front\n\n| a | {'word ' * 31}|\n")
        self.assertEqual(self.told(PAGE), (1, ["README.md:3: a cell of more than 30 words"]))

    def test_a_crate_without_a_line_above_it(self) -> None:
        self.write("crates.txt", "# A tower\n\npz_one:\n")
        self.assertEqual(self.told(PAGE), (1, ["crates.txt: no line above pz_one says what it is"]))

    def test_a_comment_before_an_empty_line_is_of_no_crate(self) -> None:
        self.write("crates.txt", "# A tower\n\n# a crate of one function\npz_one:\n\n# Another\n\npz_two: pz_one\n")
        self.assertEqual(self.told(PAGE), (1, ["crates.txt: no line above pz_two says what it is"]))


if __name__ == "__main__":
    unittest.main()
