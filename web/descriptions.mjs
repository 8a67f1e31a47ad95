// @ts-check
// What the engine has read of the text of a game, in outline, as engine/saxtegun.d.ts has it: nothing in the page cuts one into words by itself. It is asked in
// the thread that shows the page, by an instance of the module that does nothing else: a state of the page follows from the one before by a function, which would
// wait for a worker at each step. No rule is expanded for it, so none makes it slow: hundredths of a second for a game, a second or so for the longest
// text that is read, 1 MiB, and more where a legend gives a property of hundreds hundreds of names; and what is being typed is asked about behind a pause (running.mjs).
import { fold } from "./texts.mjs";
import { there } from "./there.mjs";

/** @typedef {import("../engine/saxtegun").Description & { why?: string }} Told */
/** @typedef {Pick<import("../engine/saxtegun").Engine, "outline">} Reader */

/** @type {Told} */
const NOTHING = { fault: null, layers: [], legend: [], levels: [], lines: [], objects: [], prelude: [], program: null, rules: [], wins: [] };
/** @type {Told} */
const TOO_LONG = { ...NOTHING, fault: { code: "TooLong", line: 0 } };
const MOST_KEPT = 64; // texts whose descriptions are kept,
const MOST_LETTERS_KEPT = 2 ** 20; // and letters of them, beside the last one
/** @type {Record<string, string>} */
const WHY_NOT = {
  "no-descriptions": "the engine of this page is an older one, which tells nothing of a text: objects are drawn by letters, and play begins at the first level",
  memory: "there is not enough memory to read the text: objects are drawn by letters",
};

/** @type {Map<string, Told>} */
const known = new Map();
/** @type {Reader | null} */
let reader = null;
let letters = 0;

// Lets an engine read texts from now on.
/** @type {(engine: Reader) => void} */
export function readBy(engine) {
  reader = engine;
  known.clear();
  letters = 0;
}

// What the engine tells; `why` is there where it tells nothing. Half a letter, which is no text, is another one there.
/** @type {(source: string) => Told} */
function readText(source) {
  const { description, fault } = there(reader).outline(new TextEncoder().encode(source));
  if (fault === "too-many") return TOO_LONG;
  return fault === null ? there(description) : { ...NOTHING, why: WHY_NOT[fault] ?? "the engine stopped at a fault of its own as it read the text: objects are drawn by letters" };
}

// Forgets the texts that were longest not asked about, where those that are kept are too many.
function forget(newest) {
  for (const source of known.keys()) {
    if ((known.size <= MOST_KEPT && letters <= MOST_LETTERS_KEPT) || source === newest) return;
    known.delete(source);
    letters -= source.length;
  }
}

/** @type {(source: string) => Told} */
export function descriptionOf(source) {
  const told = known.get(source) ?? readText(source);
  if (!known.delete(source)) letters += source.length;
  known.set(source, told);
  forget(source);
  return told;
}

// The lines of the prelude, each keyword in small letters.
/** @type {(source: string) => { line: number, keyword: string, value: string }[]} */
export const settingsOf = (source) => descriptionOf(source).prelude.map(([line, keyword, value]) => ({ line, keyword: fold(keyword), value }));

// The words before the first one like this, or all.
/** @type {(word: string, words: string[]) => string[]} */
export const before = (word, words) => (words.includes(word) ? words.slice(0, words.indexOf(word)) : words);
