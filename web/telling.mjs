// @ts-check
// Inputs and frames in words. Both are counted from 0, as the tools count them.
import { plural } from "./elements.mjs";

export const KINDS = ["start", "move", "undo", "restart", "load", "tick", "over"];
const WORDS = ["up", "left", "down", "right", "action"];
const LETTERS = { 0: "\u2191", 1: "\u2190", 2: "\u2193", 3: "\u2192", 4: "x", undo: "z", restart: "r", tick: "." };

export const inputWord = (input) => (typeof input === "number" ? WORDS[input] : input);

// The letter of an input: an arrow, or the key that gives it.
export const inputLetter = (input) => LETTERS[input];

function shownBy(kind, changes) {
  const changed = changes === null ? "another size of level" : changes === 0 ? "nothing changed" : `${plural(changes, "cell")} changed`;
  switch (KINDS[kind]) {
    case "start": return "the level at the start";
    case "load": return "solved, and the next level begins";
    case "over": return "solved, and that was the last level";
    case "tick": return `a tick that follows by itself, ${changed}`;
    case "move": return changes === 0 ? "a bump: nothing changed" : changed;
    default: return changed;
  }
}

// What a frame shows: after which input, and what changed (`changes` is a number of cells, or null where the level has another size).
export function frameTold([taken, kind], inputs, changes) {
  const after = taken === 0 ? "Before any input" : `After input ${taken - 1} (${inputWord(inputs[taken - 1])})`;
  return `${after}: ${shownBy(kind, changes)}.`;
}

// How the level that is shown differs from the one beside it.
export function differenceTold(differing, beside) {
  if (differing === null) return `It can't be compared with ${beside} cell by cell.`;
  if (differing === 0) return `It is the same as ${beside}.`;
  return `${plural(differing, "cell")} ${differing === 1 ? "differs" : "differ"} from ${beside} (framed).`;
}
