"""Lists, texts, numbers and words of JavaScript, each as JSON that changes nothing in it.

Read are texts in any of the three quotes, and in the typographic ones that a word processor makes of them; numbers, true, false, null, and undefined (as null).
Between them white space is passed over, comments, and what a page, a mail or a quotation puts there."""
from __future__ import annotations

import json
import re
from typing import NamedTuple, Optional

# So many rounds of a group are matched at once: each is remembered until the match ends, which takes a hundred times the memory of its text.
ROUNDS = "{0,1000}"
# What stands between the items of a list: white space, commas, line breaks of HTML, and the sign before a line that is quoted.
SPACE = re.compile(rf"(?:[\s,]+|\ufeff|<br\s*/?>|&nbsp;|(?<=\n)[ \t]*>+){ROUNDS}")
# What mostly stands where no white space does: the end of a text is among them.
NO_SPACE = '"[]0123456789'
# What stands in a list of inputs as JSON has it, which is what most of a recording is.
INPUTS = re.compile(rf'[0-9,\s]*(?:"(?:undo|restart|tick)"[0-9,\s]*){ROUNDS}')
WORD = re.compile(r"-?(?:0|[1-9][0-9]*)(?:\.[0-9]+)?(?:[eE][-+]?[0-9]+)?(?![\w.])|[A-Za-z_]\w*")
# No number of a recording is longer, and Python reads none of thousands of digits.
MOST_OF_A_NUMBER = 400
WORDS = {"null": "null", "undefined": "null", "true": "true", "false": "false"}
# What stands between a quote and the one that ends it.
BODIES = {
    '"': re.compile(rf'[^"\\\n]*(?:\\(?:\r\n|[\s\S])[^"\\\n]*){ROUNDS}'),
    "'": re.compile(rf"[^'\\\n]*(?:\\(?:\r\n|[\s\S])[^'\\\n]*){ROUNDS}"),
    "`": re.compile(rf"[^`\\$]*(?:(?:\\(?:\r\n|[\s\S])|\$(?!\{{))[^`\\$]*){ROUNDS}"),
    **dict.fromkeys("\u201c\u201d\u201e", re.compile(f"[^\u201c\u201d\u201e\\\\\n]*(?:\\\\.[^\u201c\u201d\u201e\\\\\n]*){ROUNDS}")),
}
# What ends a text that begins with a quote.
ENDS = {**{quote: quote for quote in "\"'`"}, **dict.fromkeys("\u201c\u201d\u201e", "\u201c\u201d")}
# What stands between the quotes of a text that is JSON as it stands. Runs of letters are one step each: a step for each letter would take far more time.
PLAIN = re.compile(rf'[^"\\\x00-\x1f]*(?:\\["\\/bfnrt][^"\\\x00-\x1f]*){ROUNDS}')
ESCAPE = re.compile(r"\\(?:u\{([0-9a-fA-F]+)\}|u([0-9a-fA-F]{4})|x([0-9a-fA-F]{2})|(\r\n|[\s\S]))")
ESCAPES = {"n": "\n", "r": "\r", "t": "\t", "b": "\b", "f": "\f", "v": "\v", "0": "\0", "\n": "", "\r\n": ""}
LAST = 0x10FFFF


class Token(NamedTuple):
    """A bracket, or a value as JSON, and where it stands."""

    kind: str
    json: str
    at: int
    end: int


def behind(pattern: "re.Pattern[str]", text: str, at: int) -> int:
    """Where the text goes on behind all that fits a pattern, which has some rounds at most and is matched again and again."""
    while True:
        match = pattern.match(text, at)
        if match is None or match.end() == at:
            return at
        at = match.end()


def letter_of(escape: "re.Match[str]") -> str:
    """The letter of an escape."""
    code = escape[1] or escape[2] or escape[3]
    if not code:
        return ESCAPES.get(escape[4], escape[4])
    if len(code.lstrip("0")) > 6 or int(code, 16) > LAST:
        raise ValueError
    return chr(int(code, 16))


def unescaped(text: str) -> Optional[str]:
    """A text without its escapes, or None where one names no letter."""
    try:
        return ESCAPE.sub(letter_of, text)
    except ValueError:
        return None


def skip_space(text: str, at: int, last_comment: int) -> int:
    """Where the text goes on behind white space, commas and comments. `last_comment` is where the last sign stands that ends one, so that none is looked for in vain."""
    while text[at : at + 1] not in NO_SPACE:
        at = behind(SPACE, text, at)
        if text.startswith("//", at):
            at = text.find("\n", at) + 1 or len(text)
        elif text.startswith("/*", at) and at + 1 < last_comment:
            at = text.index("*/", at + 2) + 2
        else:
            break
    return at


def plain_at(text: str, at: int) -> Optional[Token]:
    """The text that begins here and is JSON as it stands, or None."""
    end = behind(PLAIN, text, at + 1) if text[at] == '"' else at
    return Token("value", text[at : end + 1], at, end + 1) if end > at and text[end : end + 1] == '"' else None


def text_at(text: str, at: int) -> Optional[Token]:
    """The text that begins here, or None where it has no end or names a letter that isn't there."""
    plain = plain_at(text, at)
    if plain is not None:
        return plain
    end = behind(BODIES[text[at]], text, at + 1)
    read = unescaped(text[at + 1 : end]) if end < len(text) and text[end] in ENDS[text[at]] else None
    return None if read is None else Token("value", json.dumps(read), at, end + 1)


def inputs_at(text: str, at: int) -> Optional[Token]:
    """The list of inputs that begins here and is JSON as it stands, or None."""
    end = behind(INPUTS, text, at + 1) + 1
    found = text[at:end]
    if found[-1] != "]":
        return None
    try:
        json.loads(found)
    except ValueError:
        return None
    return Token("value", found, at, end)


def token_at(text: str, at: int) -> Optional[Token]:
    """What stands here, or None where it is no part of a list."""
    letter = text[at : at + 1]
    if letter == "[":
        return inputs_at(text, at) or Token(letter, letter, at, at + 1)
    if letter == "]":
        return Token(letter, letter, at, at + 1)
    if letter in BODIES:
        return text_at(text, at)
    word = WORD.match(text, at)
    if word is None or not (word[0] in WORDS or word[0][0] in "-0123456789") or len(word[0]) > MOST_OF_A_NUMBER:
        return None
    return Token("value", WORDS.get(word[0], word[0]), at, word.end())
