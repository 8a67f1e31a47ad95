// @ts-check
// Recordings that were found in a text, as sessions of a file: their names, those that are there already, and what is said of the rest. The twin of
// python/saxtegun/recordings.py.
import { descriptionOf } from "./descriptions.mjs";
import { plural } from "./elements.mjs";
import { entriesOfLevels, titleOf } from "./game.mjs";
import { isSolvedWanted } from "./session-file.mjs";
import { fold, isTooLong, withoutEnd } from "./texts.mjs";
import { there } from "./there.mjs";

const HOW = "in PuzzleScript's editor play, press Ctrl+J, and copy all that the console prints then";
const SKIPPED = {
  compiler: "what the compiler printed, which is no recording: one is printed below it, by Ctrl+J after you played",
  "cut-off": "a recording that is cut off: copy it again, up to its last bracket",
};
const OBJECTS = 'it has objects in braces, and a recording is a list, ["name", ["source", [inputs], "level", index]]';
const WITHOUT_NAME = ["", "untitled test"]; // a recording without a name of its own
const SKIPPED_TOLD = 3;

const skippedTold = ({ line, what }) => `line ${line}: skipped ${Object.hasOwn(SKIPPED, what) ? SKIPPED[what] : `a recording with a fault: ${what}`}`;

// What was skipped of a text, as sentences without their ends.
export function allSkippedTold(skipped) {
  const more = skipped.length > SKIPPED_TOLD ? [`and ${skipped.length - SKIPPED_TOLD} more`] : [];
  return [...skipped.slice(0, SKIPPED_TOLD).map(skippedTold), ...more].join("; ");
}

// Why a text without recordings is nothing that the page takes, and what to do; null where it is the text of a game.
export function nothingTold(text) {
  if (text.trim() === "") return `it is empty: ${HOW}`;
  if (text.includes('"source"') && text.includes("{")) return `${OBJECTS}: ${HOW}`;
  const { lines, fault, why } = descriptionOf(text);
  if (fault?.code === "TooLong") return `it has no recording, and is longer than a game's text may be: ${HOW}`;
  return why !== undefined || lines.some(([, , isHeading]) => isHeading) ? null : `it has no recording, and is no text of a game, since it has no heading as OBJECTS or LEVELS: ${HOW}`;
}

// A text without what two that are the same may differ in: how lines end, and what stands behind the last. One that is too long to be played stays as it
// is, and so is the same as no other that is played.
const endless = (text) => (isTooLong(text) ? text : withoutEnd(text.replaceAll("\r\n", "\n")));

// The titles of texts and the numbers of their levels, each text read once, since many recordings may be of one.
class Titles {
  constructor() {
    this.known = new Map();
  }

  // A text by { title, numbers }: of each entry of LEVELS the number of the level that is there, or comes next.
  of(source) {
    if (!this.known.has(source)) {
      const numbers = [1];
      for (const rows of entriesOfLevels(source)) numbers.push(there(numbers.at(-1)) + (rows.length > 0 ? 1 : 0));
      this.known.set(source, { title: titleOf(source), numbers });
    }
    return this.known.get(source);
  }

  // The name of a recording: its own; or the title with the level, where it has none or the title, as the editor writes it.
  nameOf({ name, source, index }) {
    const { title, numbers } = this.of(source), level = numbers[index] ?? numbers.at(-1);
    return WITHOUT_NAME.includes(name) || (name.length === title.length && fold(name) === fold(title)) ? `${title}, level ${level}` : name;
  }
}

// Recordings under their own names, where those without a text are of this one.
export function withOwnNames(recordings, text) {
  const titles = new Titles();
  return recordings.map((it) => ({ ...it, name: titles.nameOf({ ...it, source: it.source || text }) }));
}

// Names of which no two are alike. Each keeps the number that it got last, so that many of one name aren't counted anew.
class Names {
  constructor(taken) {
    this.taken = new Set(taken);
    this.numbers = new Map();
  }

  // Takes a name that no other has: itself, or with a number.
  free(name) {
    let number = this.numbers.get(name) ?? 1, free = name;
    while (this.taken.has(free)) {
      number += 1;
      free = `${name} (${number})`;
    }
    this.numbers.set(name, number);
    this.taken.add(free);
    return free;
  }
}

// Recordings, each found by what it is, whatever its name.
class Known {
  constructor(entries) {
    this.keys = new Map(); // of each, whether it must be solved
    this.texts = new Map(); // the number of each text, of which one may be that of many recordings
    this.numbers = new Map();
    entries.forEach((it) => this.take(it));
  }

  numberOf(source) {
    if (!this.texts.has(source)) {
      const text = endless(source);
      if (!this.numbers.has(text)) this.numbers.set(text, this.numbers.size);
      this.texts.set(source, this.numbers.get(text));
    }
    return this.texts.get(source);
  }

  // Whether two texts are the same, but for how lines end and what stands behind the last.
  isSameText(one, other) {
    return this.numberOf(one) === this.numberOf(other);
  }

  // Takes a recording that isn't there yet, or demands more; whether it was none of these.
  take({ source, inputs, level, index, rest = [] }) {
    const key = JSON.stringify([this.numberOf(source), inputs, level, index]), isWanted = isSolvedWanted({ rest }), isNew = !this.keys.has(key) || (isWanted && !this.keys.get(key));
    if (isNew) this.keys.set(key, isWanted);
    return isNew;
  }
}

// What of some recordings is added to the entries of a file, under names that no other has, and how many are there already: { added, known }. Those of
// the text at hand follow it.
/** @param {any[]} recordings @param {any[]} entries @param {string} text */
export function toAdd(recordings, entries, text) {
  const known = new Known(entries.map((it) => ({ ...it, source: it.source || text }))), names = new Names(entries.map(({ name }) => name)), added = [];
  for (const it of recordings) {
    const whole = { ...it, source: it.source || text };
    if (!known.take(whole)) continue;
    added.push({ ...it, name: names.free(it.name), source: known.isSameText(whole.source, text) ? "" : it.source });
  }
  return { added, known: recordings.length - added.length };
}

// What was done with recordings, in a sentence without its end.
export function addedTold({ added, known }, file, skipped) {
  const parts = [`${plural(added.length, "recording")} added to ${file}`, ...(known > 0 ? [`${known} ${known === 1 ? "is" : "are"} there already`] : []), ...(skipped.length > 0 ? [allSkippedTold(skipped)] : [])];
  return parts.join("; ");
}
