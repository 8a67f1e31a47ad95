// @ts-check
// Level texts, read as docs/sessions.md has them: cells as labels of sets of names. The twin of python/saxtegun/levels.py.
import { fold } from "./texts.mjs";

const MOST_DIGITS = 9; // more cells than any level has

// Numbers for sets of names, the same for the same set.
export class Labels {
  constructor() {
    this.names = [];
    this.byNames = new Map();
    this.byText = new Map();
  }

  // The number of the set of names that a text spells.
  of(text) {
    if (!this.byText.has(text)) {
      const all = text.split(" ").filter(Boolean).map(fold).sort(), names = all.filter((name, place) => name !== all[place - 1]), key = names.join(" ");
      if (!this.byNames.has(key)) {
        this.byNames.set(key, this.names.length);
        this.names.push(names);
      }
      this.byText.set(text, this.byNames.get(key));
    }
    return this.byText.get(text);
  }
}

// The number that digits write, or null where they are none or too many.
function numberIn(digits) {
  return /^[0-9]+$/.test(digits) && digits.replace(/^0+/, "").length <= MOST_DIGITS ? Number(digits) : null;
}

// The label of a piece, or null where it is no piece of a level text. `numbered` are the labels of the sets that have a number so far.
function readPiece(piece, numbered, labels) {
  const colon = piece.lastIndexOf(":"), number = numberIn(piece.slice(colon + 1));
  if (colon < 0) return number === null || number >= numbered.length ? null : numbered[number];
  if (number === null || number !== numbered.length) return null;
  numbered.push(labels.of(piece.slice(0, colon)));
  return numbered[number];
}

// The cells of a level text, each by its label, or null where it is no level text.
export function readCells(text, labels) {
  const pieces = text.replace(/[\r\n]/g, "").split(",");
  if (pieces.pop() !== "") return null;
  const numbered = [], cells = [], known = new Map(); // by the digits of a number the label that has it
  for (const piece of pieces) {
    const label = known.get(piece) ?? readPiece(piece, numbered, labels);
    if (label === null) return null;
    if (!piece.includes(":")) known.set(piece, label);
    cells.push(label);
  }
  return cells;
}

// The width of a level of so many cells, by the line breaks of its text; one row where they give none.
export function widthOf(text, count) {
  const width = text.split("\n", 1)[0].split(",").length - 1;
  return width > 0 && count % width === 0 ? width : Math.max(1, count);
}

// A level text as a level, or null, also where there is none. Where `width` is named, the level is so wide.
export function readLevel(text, labels, order, width = null) {
  const cells = text === null ? null : readCells(text, labels);
  return cells === null ? null : { width: width ?? widthOf(text, cells.length), cells, order };
}
