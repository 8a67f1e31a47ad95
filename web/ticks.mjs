// @ts-check
// Games with a clock, `realtime_interval`, which are refused. A recording has its ticks among its inputs, so it is played without that line where that is
// wanted: each answer says so.
import { descriptionOf, settingsOf } from "./descriptions.mjs";
import { eachInPieces } from "./pieces.mjs";

export const CLOCK = "realtime_interval";
const WORD = new RegExp(CLOCK, "i"); // the case of ASCII letters alone is ignored by it

const clockLinesOf = (source) => settingsOf(source).filter(({ keyword }) => keyword === CLOCK).map(({ line }) => line);

let lastAsked = { source: "", isThere: false }; // the text of which it was asked last

// Whether a game has a clock. A text without the word has none, and is not read.
export function hasClock(source) {
  if (lastAsked.source !== source) lastAsked = { source, isThere: WORD.test(source) && clockLinesOf(source).length > 0 };
  return lastAsked.isThere;
}

// The text of a game without its clock. All other lines keep their numbers, and no comment begins behind a keyword.
export function withoutClock(source) {
  if (!hasClock(source)) return source;
  const lines = source.split("\n"), clockLines = new Set(clockLinesOf(source));
  for (const [number, , , text] of descriptionOf(source).lines.filter(([it]) => clockLines.has(it))) {
    const line = lines[number - 1];
    lines[number - 1] = line.slice(0, Math.max(0, line.lastIndexOf(text)));
  }
  return lines.join("\n");
}

// What is known of the clocks of many texts, each of which is read once.
export class Clocks {
  constructor(without = withoutClock) {
    this.without = without;
    this.known = new Map();
  }

  // Reads texts that aren't known yet; whether it came to the end.
  async read(sources, signal) {
    const unknown = [...new Set(sources)].filter((source) => !this.known.has(source)), hasWord = (source) => WORD.test(source);
    unknown.filter((source) => !hasWord(source)).forEach((source) => this.known.set(source, source));
    return eachInPieces(unknown.filter(hasWord), (source) => this.known.set(source, this.without(source)), signal);
  }

  // A text without its clock, as far as it is read.
  playedOf(source) {
    return this.known.get(source) ?? source;
  }

  // Whether a text has a clock, as far as it is read.
  isThere(source) {
    return this.playedOf(source) !== source;
  }
}

// The text that the engine gets of a game.
export const playedText = (source, isTicked) => (isTicked ? withoutClock(source) : source);

// Whether a game is refused for its clock.
export const isRefusedForClock = (source, cause, isWithClock = hasClock) => (cause ?? "").startsWith("OutsideProfile:") && isWithClock(source);
