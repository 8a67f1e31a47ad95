// @ts-check
"use strict";
// Writes what an engine shows as the lines that `saxtegun` reads, as docs/sessions.md has them:
//
//     const lines = new Lines((text) => process.stdout.write(text), "columns");
//     lines.start("the name of a session", "its recorded level text");
//     lines.frame(0, "start", { width, height, at: (column, row) => ["background", "player"] });
//     lines.frame(1, "move", level);       // inputs taken so far, the kind, the level
//     lines.close();                       // passed or differs, by the last level
//     lines.close("stopped", "loop-limit") // or what ended it
//
// A session is started, has its frames, and is closed before the next one is started. Sessions and frames are numbered here.

/** @typedef {"columns" | "rows"} Order */
/** @typedef {"start" | "move" | "undo" | "restart" | "load" | "tick" | "over"} Kind */
/** @typedef {{ width: number, height: number, at: (column: number, row: number) => Iterable<string> }} Level */
/** @typedef {{ tick: number, stop?: string, stage?: string, block?: number, lines?: number[] }} Place */
/** @typedef {Place & { changed?: boolean, commands?: string[], headings?: [number, number, string, string][], level?: Level }} Stage */

const KINDS = ["start", "move", "undo", "restart", "load", "tick", "over"];
const CAUSED = ["stopped", "refused"];

// A name as names are compared: the case of ASCII letters is ignored, and of no others.
const fold = (name) => name.replace(/[A-Z]/g, (letter) => letter.toLowerCase());

const BEYOND = /[\ud800-\udfff]/;

// Names in the order of their bytes, which is that of their units but for letters of two.
/** @type {(names: string[]) => string[]} */
function byBytes(names) {
  if (!names.some((name) => BEYOND.test(name))) return names.sort();
  const pairs = names.map((name) => ({ name, bytes: Buffer.from(name) }));
  return pairs.sort((one, other) => Buffer.compare(one.bytes, other.bytes)).map(({ name }) => name);
}

// The names of a cell as a level text spells them.
/** @type {(names: Iterable<string>) => string} */
const spelt = (names) => byBytes([...new Set(Array.from(names, fold))]).join(" ");

// The cells of a level in an order, each as it is spelt.
/** @type {(level: Level, order: Order) => string[]} */
function cellsOf(level, order) {
  const [outer, inner] = order === "rows" ? [level.height, level.width] : [level.width, level.height];
  const cells = [];
  for (let one = 0; one < outer; one += 1) {
    for (let other = 0; other < inner; other += 1) {
      const [column, row] = order === "rows" ? [other, one] : [one, other];
      cells.push(spelt(level.at(column, row)));
    }
  }
  return cells;
}

// The level text of cells: a set of names that is new is written with the next number, which then stands for it.
/** @type {(cells: string[], width: number) => string} */
function levelText(cells, width) {
  const numbers = new Map();
  return cells.map((cell, place) => {
    const isNew = !numbers.has(cell);
    if (isNew) numbers.set(cell, numbers.size);
    return `${isNew ? `${cell}:` : ""}${numbers.get(cell)},${(place + 1) % width === 0 ? "\n" : ""}`;
  }).join("");
}

// The cells of a level text, each as it is spelt, or null where it is no level text.
/** @type {(text: string) => string[] | null} */
function readLevelText(text) {
  const pieces = text.replace(/[\r\n]/g, "").split(",");
  if (pieces.pop() !== "") return null;
  const sets = [];
  const cells = [];
  for (const piece of pieces) {
    const colon = piece.lastIndexOf(":");
    const digits = piece.slice(colon + 1);
    if (!/^[0-9]+$/.test(digits)) return null;
    if (colon >= 0) {
      if (Number(digits) !== sets.length) return null;
      sets.push(spelt(piece.slice(0, colon).split(" ").filter((name) => name !== "")));
    }
    if (Number(digits) >= sets.length) return null;
    cells.push(sets[Number(digits)]);
  }
  return cells;
}

// The line of a stage behind so many inputs, or of a stop, with its keys in the order of their letters. A level is one of `frame`.
/** @type {(input: number, stage: Stage, order: Order) => string} */
function stageLine(input, { level, ...told }, order) {
  const text = level === undefined ? {} : { level: levelText(cellsOf(level, order), level.width) };
  const line = { ...told, ...text, input };
  return `${JSON.stringify(Object.fromEntries(Object.keys(line).sort().map((key) => [key, line[key]])))}\n`;
}

class Lines {
  // `write` gets each line with its line feed. `order` is that of the recorded levels.
  /** @param {(line: string) => unknown} write @param {Order} order */
  constructor(write, order = "columns") {
    if (order !== "rows" && order !== "columns") throw new RangeError(`an order is rows or columns, and not ${order}`);
    this.write = write;
    this.order = order;
    this.count = 0;
    /** @type {{ name: string, recorded: string, frames: number, cells: string[] | null } | null} */
    this.session = null;
    this.allPassed = true;
  }

  /** @param {string} name @param {string} recorded */
  start(name, recorded) {
    if (this.session !== null) throw new Error(`the session ${this.session.name} is not closed`);
    this.session = { name, recorded, frames: 0, cells: null };
  }

  // `at` inputs are taken. `level` has a width, a height and a function `at` that answers the names in the cell of a column and a row.
  /** @param {number} at @param {Kind} kind @param {Level} level */
  frame(at, kind, level) {
    const session = this.opened();
    if (!KINDS.includes(kind)) throw new RangeError(`there is no kind ${kind}, but ${KINDS.join(", ")}`);
    session.cells = cellsOf(level, this.order);
    this.line({ at, frame: session.frames, kind, level: levelText(session.cells, level.width), session: this.count });
    session.frames += 1;
  }

  // Without words: passed or differs, by the last level. Or `stopped` or `refused` with a cause. Answers how it is closed.
  /** @type {(how?: "stopped" | "refused", cause?: string) => "passed" | "differs" | "stopped" | "refused"} */
  close(how, cause) {
    const session = this.opened();
    if (CAUSED.includes(how) !== (typeof cause === "string")) throw new RangeError("a cause belongs to stopped and refused, and to no other close");
    const close = how || (this.isRecorded(session) ? "passed" : "differs");
    this.line({ ...(cause === undefined ? {} : { cause }), close, frames: session.frames, name: session.name, session: this.count });
    this.count += 1;
    this.session = null;
    this.allPassed = this.allPassed && close === "passed";
    return close;
  }

  // ---- what the three stand on

  opened() {
    if (this.session === null) throw new Error("no session is started");
    return this.session;
  }

  isRecorded({ recorded, cells }) {
    const wanted = readLevelText(recorded);
    return wanted !== null && cells !== null && wanted.length === cells.length && wanted.every((cell, place) => cell === cells[place]);
  }

  line(value) {
    this.write(`${JSON.stringify(value)}\n`);
  }
}

module.exports = { Lines, fold, levelText, readLevelText, stageLine };
