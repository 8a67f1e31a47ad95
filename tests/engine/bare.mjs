// @ts-check
// Hostile calls of the bare module, the same ones for a seed: `node tests/engine/bare.mjs [SEED] [CALLS] [MODULE]`. Places and lengths are wrong, orders are none, and
// rooms are given back that were never taken. Each call returns or traps, none takes long; what was refused takes nothing from the next answer of the same instance,
// and a fresh instance always answers rightly.
import assert from "node:assert/strict";
import { readFileSync } from "node:fs";
import { exportsOf } from "./instances.mjs";

const OUT = new URL("../../engine/out/saxtegun.wasm", import.meta.url), EXAMPLES = new URL("../../examples/", import.meta.url);
const PLACES = [0, 1, 8, 15, 16, 65_535, 65_536, 1 << 20, 0x7fffffff, -1, -16, -8, 0x80000000 | 0, -65_536, 1 << 24, 2 ** 31 - 8];
const LENGTHS = [0n, 1n, 23n, 24n, 100n, 1n << 16n, 1n << 24n, (1n << 24n) + 1n, 1n << 31n, (1n << 32n) - 1n, 1n << 32n, (1n << 32n) + 100n, 1n << 40n, 1n << 63n, -1n, -8n, (1n << 63n) - 1n];
const SIZES = [0, 1, -1, 2 ** 31 - 1, 0x9fffffff | 0, 0xa0000000 | 0];
const REFUSED = ["", "[", "[[]]", '[["a",["",[9],""]]]', '[["a",["",[],"junk"]]]', "\u0000", "[".repeat(1000)];
const OUTCOME = 24, ROOM = 1 << 16, EACH = 100;

function numbersOf(seed) {
  let state = seed;
  return () => {
    state = (Math.imul(state, 1_103_515_245) + 12_345) & 0x7fffffff;
    return state / 0x80000000;
  };
}

// An instance with a file, a room and an outcome of its own.
class Host {
  constructor(module, file) {
    this.exports = exportsOf(module);
    const take = (size) => this.exports.take_room(size) >>> 0;
    this.file = take(file.length);
    this.room = take(ROOM);
    this.outcome = take(OUTCOME);
    new Uint8Array(this.exports.memory.buffer, this.file, file.length).set(file);
    this.length = file.length;
  }

  // What it answers for the first bytes of its file: the status and the lines.
  answer(length = this.length) {
    const count = Number(this.exports.saxtegun_lines(this.file, BigInt(length), 1, this.room, BigInt(ROOM), this.outcome));
    const [status] = new BigUint64Array(this.exports.memory.buffer.slice(this.outcome, this.outcome + OUTCOME));
    return { status: Number(status), lines: Buffer.from(this.exports.memory.buffer.slice(this.room, this.room + Math.min(count, ROOM))) };
  }
}

// One wrong call; whether it returned.
function isReturned(host, next, pick) {
  const place = () => (next() < 0.4 ? pick(PLACES) : next() < 0.5 ? pick([host.file, host.room, host.outcome, host.file + 1, host.room + 3, host.outcome + 4]) : Math.floor(next() * 2 ** 32) | 0);
  const length = () => pick([...LENGTHS, BigInt(host.length)]), order = () => pick([0, 1, 2, -1, 255, 256]);
  const calls = [
    () => host.exports.saxtegun_lines(place(), length(), order(), place(), length(), place()),
    () => host.exports.saxtegun_frames(place(), length(), order(), length(), place(), length(), place()),
    () => host.exports.saxtegun_stages?.(place(), length(), order(), place(), place(), place(), length(), place()),
    () => host.exports.saxtegun_description?.(place(), length(), place(), length(), place()),
    () => host.exports.saxtegun_outline?.(place(), length(), place(), length(), place()),
    () => host.exports.saxtegun_level_description?.(place(), length(), place(), length(), place()),
    () => host.exports.saxtegun_file_description?.(place(), length(), place(), length(), place()),
    () => host.exports.give_back_room(place()),
    () => host.exports.take_room(pick([...SIZES, place()])),
  ];
  try {
    pick(calls)();
    return true;
  } catch (why) {
    assert.ok(why instanceof WebAssembly.RuntimeError || why instanceof RangeError, String(why));
    return false;
  }
}

// Makes so many calls; how many returned and how many trapped.
/** @type {(seed: number, calls: number, path?: string | URL) => { returned: number, trapped: number }} */
export function attack(seed, calls, path = OUT) {
  const module = new WebAssembly.Module(readFileSync(path)), next = numbersOf(seed), pick = (list) => list[Math.floor(next() * list.length)];
  const [good, wanted] = ["block-pushing.json", "block-pushing.lines"].map((name) => readFileSync(new URL(name, EXAMPLES)));
  assert.deepEqual(WebAssembly.Module.imports(module), []);
  const counts = { returned: 0, trapped: 0 };
  for (let number = 0; number < calls; number += 1) {
    const host = new Host(module, good);
    counts[isReturned(host, next, pick) ? "returned" : "trapped"] += 1;
    if (number % EACH !== 0) continue;
    assert.deepEqual(new Host(module, good).answer(), { status: 1, lines: wanted }, `a fresh instance behind call ${number}`);
    const file = Buffer.concat([Buffer.from(pick(REFUSED)), good]), refused = new Host(module, file), { length } = file;
    assert.equal(refused.answer(length - good.length).status, 2, `call ${number}`);
    new Uint8Array(refused.exports.memory.buffer, refused.file, good.length).set(good);
    assert.deepEqual(refused.answer(good.length), { status: 1, lines: wanted }, `behind a refusal, call ${number}`);
  }
  return counts;
}

if (process.argv[1]?.endsWith("tests/engine/bare.mjs")) {
  const [seed = 75, calls = 10_000, path] = process.argv.slice(2);
  console.log(attack(Number(seed), Number(calls), path));
}
