// @ts-check
// Recordings in any text: what an editor's console prints, with whatever stands around it, or published test data. The twin of
// python/saxtegun/recording_search.py, which holds what is looked for; both are held to the texts of tests/forms.
import { LAST_LETTER, ROUNDS, WHITE_SPACE, behindSpace, endOfEscaped, endOfText, tokenAt, unescaped } from "./javascript.mjs";
import { faultOf, restOf } from "./session-file.mjs";
import { there } from "./there.mjs";

const SPACE_SET = `[${WHITE_SPACE}]*`;
const BREAK = `[${WHITE_SPACE}>]*(?:(?:<br${SPACE_SET}/?>|&nbsp;)[${WHITE_SPACE}>]*)${ROUNDS}`;
const BROKEN_LINES = `${SPACE_SET}(?:\\\\[nrt]${SPACE_SET})${ROUNDS}`;
// Where a recording may begin: a list whose first item is a text; such a list as a text, or escaped; and such a list in HTML.
const BEGIN = new RegExp(
  `(?<list>\\[(?=${BREAK}["'\`\u201c\u201d\u201e]))|(?<quoted>["'\`](?=${BROKEN_LINES}\\[${BROKEN_LINES}\\\\?["'\`]))`
  + `|(?<escaped>\\[(?=${BROKEN_LINES}\\\\["']))|(?<html>\\[(?=${BREAK}&(?:quot|#34|apos|#39);))`, "g");
// Letters of HTML: by their numbers, and by the names that programs write which make HTML of a text.
const HTML_LETTER = /&#([0-9]+);?|&#[xX]([0-9a-fA-F]+);?|&(quot|lt|gt|amp|nbsp);?|&(apos);/g;
const HTML_NAMES = new Map(Object.entries({ quot: '"', apos: "'", lt: "<", gt: ">", amp: "&", nbsp: "\xa0" }));
// What the numbers from 128 on stand for there.
const FROM_128 = "\u20ac\x81\u201a\u0192\u201e\u2026\u2020\u2021\u02c6\u2030\u0160\u2039\u0152\x8d\u017d\x8f\x90\u2018\u2019\u201c\u201d\u2022\u2013\u2014\u02dc\u2122\u0161\u203a\u0153\x9d\u017e\u0178";
const MOST_DEPTH = 8; // an entry holds a body, which holds its inputs; behind one that is cut off another may begin
const LEAST_LETTERS = 9; // of anything that is taken or skipped by name
const LEAST_READ = 100_000; // letters of what is quoted are read in vain at most, beside four times those of the text
const MOST_OF_A_HEAD = 4000; // letters of a source in which its first heading is looked for, where it is cut off
const HEADING = /objects/giu;

const isBody = (value) => Array.isArray(value) && value.length > 2 && typeof value[0] === "string" && Array.isArray(value[1]) && typeof value[2] === "string";

const isEntry = (value) => value.length > 1 && typeof value[0] === "string" && isBody(value[1]);

// Whether a value is [source, messages, their number], as a compiler's test has it.
const isOfACompiler = (value) => Array.isArray(value) && value.length === 3 && typeof value[0] === "string" && Array.isArray(value[1]) && Number.isInteger(value[2]) && value[2] >= 0;

function letterOfHtml(whole, decimal, hexadecimal, ...names) {
  const name = names.slice(0, 2).find(Boolean);
  if (name !== undefined) return HTML_NAMES.get(name);
  const number = decimal === undefined ? parseInt(hexadecimal, 16) : Number(decimal);
  if (number >= 128 && number < 160) return FROM_128[number - 128];
  return number === 0 || number > LAST_LETTER || (number >= 0xd800 && number < 0xe000) ? "\ufffd" : String.fromCodePoint(number);
}

const fromHtml = (text) => text.replace(HTML_LETTER, letterOfHtml);

// How many lines end between two places. Nothing is looked for beyond the second.
function feedsIn(text, low, high) {
  let count = 0;
  for (let at = low; at < high; at += 1) if (text.charCodeAt(at) === 0x0a) count += 1;
  return count;
}

// A search through a text. One that was quoted or escaped is inner, and not unquoted again.
class Search {
  constructor(text, firstLine = 1, isInner = false) {
    this.text = text;
    this.isInner = isInner;
    this.counted = 0;
    this.line = firstLine;
    this.lastComment = text.lastIndexOf("*/");
    this.heading = -1;
    this.found = [];
    this.skipped = [];
    this.left = 4 * text.length + LEAST_READ;
  }

  // The line of a place; places are asked for in their order, or nearly so.
  lineOf(at) {
    const count = feedsIn(this.text, Math.min(at, this.counted), Math.max(at, this.counted));
    if (at < this.counted) return this.line - count;
    this.line += count;
    this.counted = at;
    return this.line;
  }

  run() {
    for (let at = 0; ;) {
      BEGIN.lastIndex = at;
      const begin = BEGIN.exec(this.text);
      if (begin === null) return this;
      const { list, html, escaped } = there(begin.groups);
      if (list !== undefined) at = this.readList(begin.index);
      else if (this.isInner) at = begin.index + begin[0].length;
      else if (html !== undefined) {
        this.readInner(begin.index, fromHtml(this.text.slice(begin.index)));
        return this;
      } else at = this.readQuoted(begin.index, escaped !== undefined);
    }
  }

  // Searches a text that was quoted; whether something was in it.
  readInner(at, text) {
    const { found, skipped } = new Search(text, this.lineOf(at), true).run();
    for (const it of found) this.found.push(it);
    for (const it of skipped) this.skipped.push(it);
    return found.length + skipped.length > 0;
  }

  // Reads what was quoted or escaped once; where the search goes on.
  readQuoted(at, isEscaped) {
    if (this.left < 0) return at + 1;
    const end = isEscaped ? endOfEscaped(this.text, at) : endOfText(this.text, at);
    this.left -= Math.abs(end) - at;
    if (end - at < LEAST_LETTERS) return at + 1;
    const text = unescaped(isEscaped ? this.text.slice(at, end) : this.text.slice(at + 1, end - 1));
    return text !== null && this.readInner(at, text) ? end : at + 1;
  }

  // Reads the list that begins at a place, as far as it goes; where the search goes on.
  readList(begin) {
    /** @type {{ at: number, items: unknown[] }[]} */
    const lists = [];
    for (let at = begin; ;) {
      const token = tokenAt(this.text, at);
      if (token === null || (token.kind === "[" && lists.length === MOST_DEPTH)) {
        this.tellCut(lists, at);
        return Math.max(at, begin + 1);
      }
      at = token.end;
      if (token.kind === "[") lists.push({ at: token.at, items: [] });
      else if (lists.length === 0) return at; // inputs that stand alone
      else if (token.kind === "value") there(lists.at(-1)).items.push(token.value);
      else if (token.kind === "]" && this.close(lists)) return at;
      at = behindSpace(this.text, at, this.lastComment);
    }
  }

  // Ends the innermost list; whether the outermost has ended, or a recording in one that is cut off.
  close(lists) {
    const it = lists.pop();
    if (lists.length === 0) {
      this.tell(it);
      return true;
    }
    if (lists.length > 1 && isEntry(it.items)) {
      this.tellCut(lists, it.at);
      this.tell(it);
      return true;
    }
    lists.at(-1).items.push(it.items);
    return false;
  }

  // Takes a list that is a recording, and says which isn't a whole one; any other list is passed over.
  tell({ at, items }) {
    if (isEntry(items)) this.take(at, items);
    else if (isBody(items)) this.take(at, ["", items]);
    else if (isOfACompiler(items) || (items.length === 2 && isOfACompiler(items[1]))) this.skipped.push({ line: this.lineOf(at), what: "compiler" });
  }

  // Takes an entry, unless it has a fault.
  take(at, entry) {
    const fault = faultOf(entry), [name, [source, inputs, level, index]] = entry;
    if (fault !== null) this.skipped.push({ line: this.lineOf(at), what: fault });
    else this.found.push({ line: this.lineOf(at), name, source, inputs, level, index: Math.min(index ?? 0, Number.MAX_SAFE_INTEGER), ...restOf(entry) });
  }

  // Takes a recording of which only the last brackets are missing, and says which is cut off: also one that is cut in a further text.
  tellCut(lists, at) {
    if (lists.length === 0) return;
    let items = lists.map((it) => it.items);
    if (items.length === 2 && items[1].length > 3) items = [[...items[0], items[1]]];
    const isWhole = items.length === 1 && isEntry(items[0]), isInText = at < this.text.length && "\"'`\u201c\u201d\u201e".includes(this.text[at]);
    if (isWhole && !isInText) this.take(lists[0].at, items[0]);
    else if (isWhole || this.hasHeading(lists[0].at, at)) this.skipped.push({ line: this.lineOf(lists[0].at), what: "cut-off" });
  }

  // Whether a heading of a source stands in what was read, or soon behind it in its line.
  hasHeading(begin, at) {
    if (this.heading < begin) {
      HEADING.lastIndex = begin;
      this.heading = HEADING.exec(this.text)?.index ?? this.text.length;
    }
    return this.heading < Math.min(at + MOST_OF_A_HEAD, this.text.length) && !this.text.slice(at, this.heading).includes("\n");
  }
}

// The recordings of a text, { line, name, source, inputs, level, index }, and what was skipped in it, { line, what }: "compiler", "cut-off", or a fault.
export function findingsIn(text) {
  const { found, skipped } = new Search(text).run();
  return { found, skipped };
}
