// @ts-check
// The streams of the command lines of this folder, as the program reads and writes them.
import { existsSync, openSync, readSync, writeSync } from "node:fs";
import { pathToFileURL } from "node:url";
import { load } from "./saxtegun.mjs";

const MODULE = process.env.SAXTEGUN_MODULE;
const MOST_BYTES = 16_777_216;

// A refusal, which is told in a line.
export class Refusal extends Error {}

// Calls the system again where a stream that doesn't wait had nothing ready.
function patiently(call) {
  for (;;) {
    try {
      return call();
    } catch (error) {
      if (error.code !== "EAGAIN") throw error;
      Atomics.wait(new Int32Array(new SharedArrayBuffer(4)), 0, 0, 5);
    }
  }
}

export function open(file) {
  if (file === undefined) return 0;
  try {
    return openSync(file, "r");
  } catch {
    throw new Refusal("open-fault");
  }
}

// The bytes of the input, as far as a byte more than there may be.
export function readInput(from) {
  const parts = [];
  let left = MOST_BYTES + 1;
  while (left > 0) {
    const part = Buffer.alloc(Math.min(left, 65_536));
    let count = 0;
    try {
      count = patiently(() => readSync(from, part));
    } catch (error) {
      if (error.code !== "EOF") throw new Refusal("read-fault");
    }
    if (count === 0) break;
    parts.push(part.subarray(0, count));
    left -= count;
  }
  return Buffer.concat(parts);
}

function writeLines(lines) {
  let at = 0;
  while (at < lines.length) {
    let count = 0;
    try {
      count = patiently(() => writeSync(1, lines, at));
    } catch {
      // told below
    }
    if (count === 0) throw new Refusal(`write-fault ${at}`);
    at += count;
  }
}

// The engine of the module that SAXTEGUN_MODULE names, or else of the one that is built here, or of the one that is released, as ./saxtegun takes it.
export function loadNamed() {
  const places = MODULE ? [pathToFileURL(MODULE)] : ["out/saxtegun.wasm", "../released/saxtegun.wasm"].map((name) => new URL(name, import.meta.url));
  const found = places.find((it) => existsSync(it));
  if (found === undefined) throw new Refusal(MODULE ? `there is no module at ${MODULE}` : "no module is built here, by engine/build, and none is released");
  return load(found);
}

// Writes the lines of an answer, and gives its status.
export function told(answer) {
  if (answer.fault !== null) throw new Refusal(answer.fault);
  writeLines(answer.lines);
  return answer.status;
}

// Ends with the status that a command gives for its words, or with the line of a refusal.
export async function run(command) {
  try {
    process.exitCode = await command(process.argv.slice(2));
  } catch (error) {
    // an error that is thrown on would end this with 1, which says that some sessions did not pass
    process.exitCode = 2;
    try {
      patiently(() => writeSync(2, `${error instanceof Refusal ? error.message : error.stack}\n`));
    } catch {
      // nobody can be told
    }
  }
}
