// @ts-check
"use strict";
// Gives an engine the command line of the program, [--workers N] [--order rows|columns] [FILE], so that `conformance/run`,
// `saxtegun compare --engines` and `saxtegun shrink` can play it:
//
//     serve((entry, frame) => { .. frame(at, kind, level) .. });
//
// `entry` has source, inputs and index. What is answered, or promised, closes the session: nothing, or ["stopped", "loop-limit"], or
// ["refused", "BadRule:3"].
// For what tells the stages of inputs there is `serveStages`, whose command line is SESSION INPUT [columns], with the file on standard input, as `--stages` of
// both verbs wants it:
//
//     serveStages((entry, input, tell) => { .. tell({ tick, stage, changed, commands, headings, level }) .. });
//
// `input` inputs are taken behind it, 0 is the start. Of a group or loop `tell` also gets block and lines; of a step that stops tick and stop.
//
// Where the engine throws, now or later, or ends without an answer, as behind a promise that nobody keeps, the status is 2. A file is tested as far as
// JavaScript can: it doesn't tell 1.0 from 1, and nests as deep as it will.

const fs = require("fs");
const { Lines, readLevelText, stageLine } = require("./lines.js");
/** @typedef {import("./lines.js").Kind} Kind */
/** @typedef {import("./lines.js").Level} Level */
/** @typedef {import("./lines.js").Order} Order */
/** @typedef {{ name: string, source: string, inputs: (0 | 1 | 2 | 3 | 4 | "undo" | "restart" | "tick")[], level: string, index: number }} Entry */
/** @typedef {["stopped" | "refused", string] | [] | null | void} Close */

const INPUTS = [0, 1, 2, 3, 4, "undo", "restart", "tick"];
const MOST = 65536; // entries, and inputs of one
const MOST_BYTES = 16777216;

class Refusal extends Error {}

// The words of a command line as { order, file }.
function readWords(words) {
  /** @type {{ order: Order, file: string | null }} */
  const given = { order: "columns", file: null };
  const said = new Set();
  let areOptionsOver = false;
  for (let place = 0; place < words.length; place += 1) {
    const [, option, value] = (!areOptionsOver && /^(--workers|--order)(?:=(.*))?$/s.exec(words[place])) || [];
    if (words[place] === "--" && !areOptionsOver) {
      areOptionsOver = true;
    } else if (option !== undefined) {
      const word = value === undefined ? words[(place += 1)] : value;
      const isGood = option === "--workers" ? /^\+?0*([1-9]|[1-5]\d|6[0-4])$/.test(word) : word === "rows" || word === "columns";
      if (!isGood || said.has(option)) throw new Refusal("bad command line");
      said.add(option);
      if (option === "--order") given.order = /** @type {Order} */ (word);
    } else if (given.file === null && (areOptionsOver || !/^-./s.test(words[place]))) {
      given.file = words[place];
    } else {
      throw new Refusal("bad command line");
    }
  }
  return given;
}

// The bytes of a file, or of the standard input, as far as a byte more than there may be: what is read may have no end.
function readBytes(file) {
  const from = file === null ? 0 : fs.openSync(file, "r");
  const bytes = Buffer.alloc(MOST_BYTES + 1);
  let count = 0;
  for (let more = 1; more > 0; count += more) more = fs.readSync(from, bytes, count, bytes.length - count, null);
  return bytes.subarray(0, count);
}

/** @type {(file: string | null) => string} */
function readInput(file) {
  try {
    const bytes = readBytes(file);
    if (bytes.length > MOST_BYTES) throw new Refusal("too-many");
    return new TextDecoder("utf-8", { fatal: true, ignoreBOM: true }).decode(bytes);
  } catch (why) {
    if (why instanceof Refusal) throw why;
    throw new Refusal(why instanceof TypeError ? "not-json" : why.code === "EISDIR" || file === null ? "read-fault" : "open-fault");
  }
}

// An entry as { name, source, inputs, level, index }, or null where it is none.
/** @type {(value: unknown) => Entry | null} */
function readEntry(value) {
  if (!Array.isArray(value) || typeof value[0] !== "string" || !Array.isArray(value[1])) return null;
  const [source, inputs, level] = value[1];
  const index = value[1][3] === undefined || value[1][3] === null ? 0 : value[1][3];
  const isGood = typeof source === "string" && typeof level === "string" && Array.isArray(inputs) && inputs.length <= MOST
    && inputs.every((it) => INPUTS.includes(it)) && Number.isInteger(index) && index >= 0 && index <= 2 ** 64;
  return isGood ? { name: value[0], source, inputs, level, index } : null;
}

/** @type {(text: string) => Entry[]} */
function readEntries(text) {
  let values = null;
  try {
    values = JSON.parse(text);
  } catch (why) {
    throw new Refusal("not-json");
  }
  if (!Array.isArray(values)) throw new Refusal("not-json");
  if (values.length > MOST) throw new Refusal("too-many");
  return values.map((value, number) => {
    const entry = readEntry(value);
    if (entry === null) throw new Refusal(`bad-entry ${number}`);
    if (readLevelText(entry.level) === null) throw new Refusal(`bad-level ${number}`);
    return entry;
  });
}

// Does what sets the exit status; where something throws, or nothing is left to do before there is an answer, it says why, and the status is 2.
/** @type {(act: () => Promise<number>) => Promise<void>} */
async function answer(act) {
  let isOver = false;
  const fail = (why) => {
    isOver = true;
    process.exitCode = 2;
    // an engine may throw what is no error
    const { stack = String(why), message = String(why) } = Object(why);
    if (!(why instanceof Refusal)) process.stderr.write(`${stack}\nthe engine failed: `);
    process.stderr.write(`${message}\n`);
  };
  process.stdout.on("error", () => {
    isOver = true;
    process.exit(2);
  });
  process.on("uncaughtException", (why) => {
    fail(why);
    process.exit(2);
  });
  process.on("exit", () => {
    if (!isOver) fail(new Refusal("the engine failed: it ended without an answer"));
  });
  try {
    process.exitCode = await act();
    isOver = true;
  } catch (why) {
    fail(why);
  }
}

// Plays what the command line names, session by session, and sets the exit status.
/** @type {(play: (entry: Entry, frame: (at: number, kind: Kind, level: Level) => void) => Close | Promise<Close>, words?: string[]) => Promise<void>} */
function serve(play, words = process.argv.slice(2)) {
  return answer(async () => {
    const { order, file } = readWords(words);
    const lines = new Lines((text) => process.stdout.write(text), order);
    for (const entry of readEntries(readInput(file))) {
      lines.start(entry.name, entry.level);
      let isOpen = true;
      const close = await play(entry, (at, kind, level) => {
        if (!isOpen) throw new Error("a frame comes behind the close of its session");
        lines.frame(at, kind, level);
      });
      isOpen = false;
      const [how, cause] = close || [];
      lines.close(how, cause);
    }
    return lines.allPassed ? 0 : 1;
  });
}

// Tells the stages that the command line asks for; none of a session that isn't there.
/** @type {(tell: (entry: Entry, input: number, tell: (stage: import("./lines.js").Stage) => void) => unknown, words?: string[]) => Promise<void>} */
function serveStages(tell, words = process.argv.slice(2)) {
  return answer(async () => {
    const isGood = (words.length === 2 || (words.length === 3 && words[2] === "columns")) && words.slice(0, 2).every((it) => /^[0-9]{1,15}$/.test(it));
    if (!isGood) throw new Refusal("bad command line");
    const [session, input] = words.map(Number);
    const entry = readEntries(readInput(null))[session];
    const order = words.length === 3 ? "columns" : "rows";
    if (entry !== undefined) await tell(entry, input, (stage) => process.stdout.write(stageLine(input, stage, order)));
    return 0;
  });
}

module.exports = { serve, serveStages };
