// @ts-check
// Lists, texts, numbers and words of JavaScript within any text, each as its value. The twin of python/saxtegun/javascript.py, which holds what is read.
import { there } from "./there.mjs";

// What Python calls white space in a text.
export const WHITE_SPACE = "\\t-\\r\\x1c-\\x20\\x85\\xa0\\u1680\\u2000-\\u200a\\u2028\\u2029\\u202f\\u205f\\u3000";
// So many rounds of a group are matched at once: each is remembered until the match ends, and a hundred thousand are too many.
export const ROUNDS = "{0,1000}";
// White space, and line breaks of HTML; then the sign before a line that is quoted.
const GAP = new RegExp(`[${WHITE_SPACE}\\ufeff]+|<br[${WHITE_SPACE}]*/?>|&nbsp;`, "y");
const QUOTED_LINE = /[ \t]*>+/y;
const NAME_OR_NUMBER = /-?(?:0|[1-9][0-9]*)(?:\.[0-9]+)?(?:[eE][-+]?[0-9]+)?(?![\p{L}\p{N}_.])|[A-Za-z_][\p{L}\p{N}_]*/uy;
const NAMED_VALUES = new Map([["null", null], ["undefined", null], ["true", true], ["false", false]]);
const ESCAPE = /\\(?:u\{[0-9a-fA-F]+\}|u[0-9a-fA-F]{4}|x[0-9a-fA-F]{2}|\r\n|[^])/gu; // without groups, with which a browser takes thrice as long
const ESCAPES = new Map(Object.entries({ n: "\n", r: "\r", t: "\t", b: "\b", f: "\f", v: "\v", 0: "\0", "\n": "", "\r\n": "" }));
const WHOLE = /^-?(?:0|[1-9][0-9]*)$/;
const MOST_WHOLE = 2n ** 64n; // numbers from here on are no index
export const LAST_LETTER = 0x10ffff;
const SMART_ENDS = "\u201c\u201d";
// What ends a text that begins with a quote, and what of it is passed over in one step.
const QUOTES = new Map([
  ['"', { ends: '"', plain: /[^"\\\n]*/y }], ["'", { ends: "'", plain: /[^'\\\n]*/y }], ["`", { ends: "`", plain: /[^`\\$]*/y }],
  ..."\u201c\u201d\u201e".split("").map((quote) => /** @type {[string, { ends: string, plain: RegExp }]} */ ([quote, { ends: SMART_ENDS, plain: /[^\u201c\u201d\\\n]*/y }])),
]);
const ESCAPED_PLAIN = /[^"\\\n]*/y;
// What stands in a list of inputs as JSON has it, which is what most of a recording is.
const INPUT_PIECE = new RegExp(`[0-9,${WHITE_SPACE}]*(?:"(?:undo|restart|tick)"[0-9,${WHITE_SPACE}]*)${ROUNDS}`, "y");

export const isQuote = (letter) => QUOTES.has(letter);

// What a pattern finds at a place, or null.
function foundAt(pattern, text, at) {
  pattern.lastIndex = at;
  return pattern.exec(text)?.[0] ?? null;
}

// What an escape stands for, or null where it names no letter.
function letterOf(escape) {
  const letter = escape.slice(1);
  if (escape.length === 2 || !"ux".includes(escape[1])) return ESCAPES.get(letter) ?? letter;
  const digits = letter.replace(/^[ux]\{?0*|\}$/g, ""), number = Number(`0x${digits || "0"}`);
  return digits.length > 6 || number > LAST_LETTER ? null : String.fromCodePoint(number);
}

// A text without its escapes, or null where one names no letter.
export function unescaped(text) {
  if (!text.includes("\\")) return text;
  let isBad = false;
  const read = text.replace(ESCAPE, (escape) => {
    const letter = letterOf(escape);
    isBad ||= letter === null;
    return letter;
  });
  return isBad ? null : read;
}

// Where a letter that is escaped ends.
function behindEscape(text, at) {
  return text.startsWith("\r\n", at + 1) ? at + 3 : at + 1 + (text.codePointAt(at + 1) > 0xffff ? 2 : 1);
}

// Where the text of JavaScript that begins with a quote ends; below 0 where it doesn't: minus the place up to which it was read.
export function endOfText(text, begin) {
  const { ends, plain } = there(QUOTES.get(text[begin]));
  for (let at = begin + 1; ;) {
    at += foundAt(plain, text, at).length;
    const letter = text[at];
    if (letter === undefined || letter === "\n") return -at;
    if (ends.includes(letter)) return at + 1;
    if (letter === "$") {
      if (text[at + 1] === "{") return -at;
      at += 1;
    } else {
      const isBroken = at + 1 >= text.length || (ends === SMART_ENDS && (text[at + 1] === "\n" || text.startsWith("\r\n", at + 1)));
      if (isBroken) return -at;
      at = behindEscape(text, at);
    }
  }
}

// Where the rest of a text ends that was escaped and has lost its quotes.
export function endOfEscaped(text, begin) {
  for (let at = begin; ;) {
    at += foundAt(ESCAPED_PLAIN, text, at).length;
    if (text[at] !== "\\" || at + 1 >= text.length || text[at + 1] === "\n") return at;
    at += text.codePointAt(at + 1) > 0xffff ? 3 : 2;
  }
}

// Where the text goes on behind white space and comments. `lastComment` is where the last sign stands that ends one.
export function behindSpace(text, begin, lastComment) {
  for (let at = begin; ;) {
    const gap = foundAt(GAP, text, at) ?? (text[at - 1] === "\n" ? foundAt(QUOTED_LINE, text, at) : null);
    if (gap !== null) at += gap.length;
    else if (text.startsWith("//", at)) at = text.indexOf("\n", at) + 1 || text.length;
    else if (text.startsWith("/*", at) && at + 1 < lastComment) at = text.indexOf("*/", at + 2) + 2;
    else return at;
  }
}

// The value of a word or number, or null where it is none: { value }. A number that isn't whole, or beyond any index, is no number here.
function valueOfWord(word) {
  if (NAMED_VALUES.has(word)) return { value: NAMED_VALUES.get(word) };
  if (!/^[-0-9]/.test(word)) return null;
  if (!WHOLE.test(word)) return { value: NaN };
  return { value: word.length < 16 ? Number(word) : word.length > 20 ? NaN : BigInt(word) < MOST_WHOLE && BigInt(word) >= 0n ? Number(BigInt(word)) : NaN };
}

// Where the text goes on behind inputs.
function behindInputs(text, begin) {
  for (let at = begin; ;) {
    const { length } = foundAt(INPUT_PIECE, text, at);
    if (length === 0) return at;
    at += length;
  }
}

// The list of inputs that begins at a place and is JSON as it stands, or null.
function inputsAt(text, at) {
  const end = behindInputs(text, at + 1) + 1;
  try {
    return text[end - 1] === "]" ? { kind: "value", value: JSON.parse(text.slice(at, end)), at, end } : null;
  } catch {
    return null;
  }
}

// What stands at a place, { kind, value, at, end } with "[", "]", "," or "value" for its kind; null where it is no part of a list.
export function tokenAt(text, at) {
  const letter = text[at], inputs = letter === "[" ? inputsAt(text, at) : null;
  if (inputs !== null) return inputs;
  if (letter === "[" || letter === "]" || letter === ",") return { kind: letter, at, end: at + 1 };
  if (isQuote(letter)) {
    const end = endOfText(text, at), value = end < 0 ? null : unescaped(text.slice(at + 1, end - 1));
    return value === null ? null : { kind: "value", value, at, end };
  }
  const word = foundAt(NAME_OR_NUMBER, text, at), read = word === null ? null : valueOfWord(word);
  return read === null ? null : { kind: "value", value: read.value, at, end: at + word.length };
}
