// @ts-check
// The levels of a run as the page holds them: the first is whole, and each other is what it has otherwise than the one before.
import { differing, isOfOneSize } from "./levels.mjs";

const KEPT = 64; // a whole level is kept for each so many frames

// A whole level, whose labels may be written as letters; one that can't be read back has its text alone, and one larger than any that is played its sides.
function unpacked(level, order, labels) {
  const cells = typeof level.cells === "string" ? Array.from(level.cells, (letter) => labels.get(letter)) : level.cells;
  return { ...level, order, cells };
}

export class Run {
  // Each frame is [inputs taken, kind, change]; a change is 0 where nothing changed, a list of cells each with its new label, or a whole level.
  constructor(frames, order, letters) {
    this.frames = frames;
    this.order = order;
    this.labels = new Map(Array.from(letters, (letter, label) => [letter, label]));
    this.kept = new Map();
  }

  get last() {
    return this.frames.length - 1;
  }

  levelAt(number) {
    let at = this.begin(number);
    let level = this.kept.get(at) ?? unpacked(this.frames[at][2], this.order, this.labels);
    for (at += 1; at <= number; at += 1) {
      level = this.changed(level, this.frames[at][2]);
      if (at % KEPT === 0) this.kept.set(at, level);
    }
    return level;
  }

  // The frame from which a level is made: one that is kept, or is whole.
  begin(number) {
    let at = number;
    while (at > 0 && !this.kept.has(at) && (this.frames[at][2] === 0 || Array.isArray(this.frames[at][2]))) at -= 1;
    return at;
  }

  changed(level, change) {
    if (change === 0) return level;
    if (!Array.isArray(change)) return unpacked(change, this.order, this.labels);
    const cells = level.cells.slice();
    for (let at = 0; at < change.length; at += 2) cells[change[at]] = change[at + 1];
    return { ...level, cells };
  }

  // The cells that a frame has otherwise than the one before, or null where the two can't be compared.
  changesAt(number) {
    const change = number > 0 ? this.frames[number][2] : 0;
    if (change === 0) return [];
    if (Array.isArray(change)) return change.filter((_, place) => place % 2 === 0);
    const [before, level] = [this.levelAt(number - 1), this.levelAt(number)];
    return isOfOneSize(before, level) ? differing(before, level) : null;
  }

  // Whether a frame shows the same level as the one before it.
  isStill(number) {
    const change = this.frames[number][2];
    return number > 0 && (change === 0 || (Array.isArray(change) && change.length === 0));
  }

  // The first frame that is shown after so many inputs.
  frameAfter(taken) {
    const found = this.frames.findIndex((frame) => frame[0] >= taken);
    return found < 0 ? this.last : found;
  }

  // The numbers of the inputs after which nothing changed: bumps, and undos of nothing.
  bumps() {
    const still = new Map();
    this.frames.forEach(([taken], number) => still.set(taken, (still.get(taken) ?? true) && this.isStill(number)));
    return new Set([...still].filter(([taken, isStill]) => taken > 0 && isStill).map(([taken]) => taken - 1));
  }
}

// A level's text as docs/sessions.md has it.
export function textOf(level, names) {
  if (!level.cells) return level.text ?? "";
  const numbers = new Map();
  const pieces = level.cells.map((label, place) => {
    const isNew = !numbers.has(label);
    if (isNew) numbers.set(label, numbers.size);
    return `${isNew ? `${names[label].join(" ")}:` : ""}${numbers.get(label)},${(place + 1) % level.width === 0 ? "\n" : ""}`;
  });
  return pieces.join("");
}
