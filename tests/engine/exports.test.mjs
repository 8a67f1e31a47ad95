// @ts-check
// The exports of the module: the frames from an input on beside the lines of the whole, the stages of an input, and all with what they ask of the heap
// refused.
import assert from "node:assert/strict";
import { readFileSync } from "node:fs";
import test from "node:test";
import { plainCases } from "./cases.mjs";
import { exportsOf } from "./instances.mjs";

const OUT = new URL("../../engine/out/", import.meta.url);
const ROOM = 4096, OUTCOME = 24, MARK = 7;
const MEMORY = { status: 2, fault: 1, entry: 0, count: 0, text: "" };
const LAST = 2n ** 64n - 1n;

const compiled = async (name) => WebAssembly.compile(readFileSync(new URL(name, OUT)));
const hasStages = (module) => WebAssembly.Module.exports(module).some(({ name }) => name === "saxtegun_stages");
const linesOf = (text) => text.match(/.*\n/g) ?? [];

// What the lines of the items from an input on are, by the objects that the lines say.
function linesFrom(text, from) {
  return linesOf(text).filter((line) => (JSON.parse(line).at ?? Infinity) >= from).join("");
}

// The cases whose command line is good and names no file.
function* cases() {
  for (const { name, words, input: file, shown: text, status } of plainCases()) {
    if (words.length > 0 && !(words.length === 2 && words[0] === "--order" && ["rows", "columns"].includes(words[1]))) continue;
    yield { name, order: words[1] === "rows" ? 0 : 1, file, text, status };
  }
}

// A host of the module: a file that it asks about, with a room of its own.
class Host {
  constructor(module, file, order, size) {
    this.exports = exportsOf(module);
    const take = (count) => this.exports.take_room(count) >>> 0;
    this.file = take(file.length);
    this.room = take(size);
    this.outcome = take(OUTCOME);
    this.bytes(this.file, file.length).set(file);
    this.length = file.length;
    this.order = order;
    this.size = size;
  }

  bytes(at, count) {
    return new Uint8Array(this.exports.memory.buffer, at, count);
  }

  // Plays the file, from an input on where one is named, or tells stages, [session, input], and gives all that is answered.
  /** @param {number | bigint | number[]} [from] */
  ask(from) {
    this.bytes(this.room, this.size).fill(MARK);
    const { saxtegun_lines: lines, saxtegun_frames: frames, saxtegun_stages: stages } = this.exports;
    const { order } = this, file = [this.file, BigInt(this.length)], rest = [this.room, BigInt(this.size), this.outcome];
    const told = () => (Array.isArray(from) ? stages(...file, order, ...from, ...rest) : frames(...file, order, BigInt(from), ...rest));
    const count = Number(from === undefined ? lines(...file, order, ...rest) : told());
    const [status, fault, entry] = new BigUint64Array(this.bytes(this.outcome, OUTCOME).slice().buffer).values();
    const held = count <= this.size ? count : 0;
    assert.ok(this.bytes(this.room + held, this.size - held).every((byte) => byte === MARK), "the room keeps what no line takes");
    return { status: Number(status), fault: Number(fault), entry: Number(entry), count, text: new TextDecoder().decode(this.bytes(this.room, held)) };
  }
}

test("the frames from an input on are the filter of all lines", async () => {
  const module = await compiled("saxtegun.wasm");
  let compared = 0;
  for (const { name, order, file, text, status } of cases()) {
    const host = new Host(module, file, order, Math.max(text.length * 2, 64));
    const whole = host.ask();
    assert.deepEqual([whole.status, whole.text], [status, text], name);
    const last = Math.max(0, ...linesOf(text).map((line) => JSON.parse(line).at ?? 0));
    for (const from of new Set([0, 1, 2, last >> 1, last, last + 1, 2n ** 32n, LAST])) {
      const wanted = linesFrom(text, from);
      assert.deepEqual(host.ask(from), { ...whole, count: Buffer.byteLength(wanted), text: wanted }, `${name} from ${from}`);
      compared += 1;
    }
  }
  assert.ok(compared > 1000);
});

test("a room that is too small stays as it is", async () => {
  const module = await compiled("saxtegun.wasm");
  for (const { order, file, text } of [...cases()].filter((it) => it.text).slice(0, 20)) {
    const { length } = Buffer.from(linesFrom(text, 1));
    const [small, fitting] = [length - 1, length].map((size) => new Host(module, file, order, size).ask(1));
    assert.deepEqual([small.count, small.text, fitting.count, fitting.text], [length, "", length, linesFrom(text, 1)]);
  }
});

// Cases that are played in a moment: a session, one that has most kinds of frames, three of which one has a source that is refused, and a file that is refused.
const SMALL = ["walk-two-steps-right-against-a-wall", "win-load-win-again-over", "the-second-of-three-sessions-has-a-refused-source", "a-second-entry-that-is-a-number"];

test("stages are told where there is room for them, and else the room stays as it is", async () => {
  const module = await compiled("saxtegun.wasm");
  if (!hasStages(module)) return;
  for (const { name, order, file, status } of [...cases()].filter((it) => SMALL.includes(it.name))) {
    const whole = new Host(module, file, order, ROOM * 4).ask([0, 1]), [small, fitting] = [Math.max(0, whole.count - 1), whole.count].map((size) => new Host(module, file, order, size).ask([0, 1]));
    assert.deepEqual([whole.status, fitting.text, small.text, small.count], [status === 2 ? 2 : 0, whole.text, "", whole.count], name);
    assert.ok(linesOf(whole.text).every((line) => JSON.parse(line).input === 1), name);
  }
});

test("whatever is refused of the heap, an answer is that of ample memory or tells the want of it", async () => {
  const module = await compiled("refusing.wasm");
  for (const { name, file, order } of [...cases()].filter((it) => SMALL.includes(it.name))) {
    const host = new Host(module, file, order, ROOM);
    const { refuse, requests, blocks_out: blocksOut } = host.exports;
    for (const from of [undefined, 0, 1, ...(hasStages(module) ? [[0, 1]] : [])]) {
      refuse(1n, 0n);
      const ample = host.ask(from), most = requests(), out = blocksOut();
      let refusals = 0;
      for (let number = 1n; number <= most + 1n; number++) {
        for (const to of [number, LAST]) {
          refuse(number, to);
          const answer = host.ask(from);
          const isRefused = answer.fault === MEMORY.fault;
          assert.deepEqual(answer, isRefused ? MEMORY : ample, `${name} from ${from}, request ${number}`);
          assert.ok(number <= most || !isRefused, "a run that meets no refusal is ample");
          assert.equal(blocksOut(), out, "all that was taken is given back");
          refusals += Number(isRefused);
        }
      }
      assert.ok(refusals > most, `${name}: ${refusals} of ${most}`);
    }
  }
});
