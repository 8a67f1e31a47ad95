// @ts-check
// Sessions that are kept open by engine/saxtegun.mjs. What is expected is what the engine's frames of the same inputs are, and of the small game what is
// worked out by hand. A module that keeps none open says so.
import assert from "node:assert/strict";
import { existsSync, readFileSync } from "node:fs";
import test from "node:test";
import { load } from "../../engine/saxtegun.mjs";
import { plainCases } from "./cases.mjs";
import { exportsOf, wrong } from "./instances.mjs";

const OUT = new URL("../../engine/out/", import.meta.url);
const MODULE = process.env.SAXTEGUN_MODULE ?? new URL("saxtegun.wasm", OUT), REFUSING = new URL("refusing.wasm", OUT);
const EMPTY = Uint8Array.of(0, 0x61, 0x73, 0x6d, 1, 0, 0, 0);
/** @type {import("../../engine/saxtegun").Session["inputs"]} */
const INPUTS = [0, 1, 2, 3, 4, "undo", "restart", "tick"];
/** @type {("rows" | "columns")[]} */
const ORDERS = ["rows", "columns"];
const RIGHT = 3;
const engine = existsSync(MODULE) ? await load(readFileSync(MODULE)) : null;
const isRefusing = engine?.hasOpenSessions && existsSync(REFUSING) && WebAssembly.Module.exports(new WebAssembly.Module(readFileSync(REFUSING))).some(({ name }) => name === "saxtegun_open");
const it = (name, act) => test(name, { skip: !engine?.hasOpenSessions && "the module is not there, or keeps no session open" }, act);

const WALK = "OBJECTS\nBackground .\nblack\nPlayer p\nwhite\nWall #\ngrey\nLEGEND\nCOLLISIONLAYERS\nBackground\nPlayer, Wall\nLEVELS\n#p.#\n";
const WON = "OBJECTS\nBackground .\nblack\nPlayer p\nwhite\nGoal g\nred\nLEGEND\nCOLLISIONLAYERS\nBackground\nGoal\nPlayer\nWINCONDITIONS\nAll Player on Goal\nLEVELS\np.g\n";
const LEVELS = { left: "background wall:0,background player:1,background:2,0,\n", right: "background wall:0,background:1,background player:2,0,\n" };
const frame = (at, number, kind, level) => ({ at, frame: number, kind, level, session: 0 });
const close = (how, frames) => ({ close: how, frames, name: "", session: 0 });
const walk = (inputs = []) => engine.open({ source: WALK, inputs, level: LEVELS.right }, { order: "rows" });
const moved = (frames, its) => ({ frames, close: its, fault: null });
const START = moved([frame(0, 0, "start", LEVELS.left)], close("differs", 1)), ONE = moved([frame(1, 1, "move", LEVELS.right)], close("passed", 2));
const nothing = (fault) => ({ frames: [], close: null, fault });

// Numbers that look random, from a seed.
function random(seed) {
  let state = seed;
  return (below) => {
    state = (Math.imul(state, 1664525) + 1013904223) >>> 0;
    return Math.floor((state / 2 ** 32) * below);
  };
}

it("of a session nothing is read but its elements", () => {
  const beside = { source: WALK, inputs: [], get more() { throw new Error("it is read"); } };
  const { session, ...opened } = engine.open(beside, { order: "rows" });
  assert.deepEqual([opened.fault, opened.frames], [null, START.frames]);
  session.close();
});

it("an input is answered by what it shows", () => {
  const { session, ...opened } = walk();
  assert.deepEqual(opened, START);
  assert.deepEqual(session.give([RIGHT]), ONE);
  assert.deepEqual(session.give([]), ONE);
  assert.deepEqual(session.give([RIGHT]), moved([frame(2, 2, "move", LEVELS.right)], close("passed", 3)));
  assert.deepEqual(session.give(["undo"]), moved([frame(3, 3, "undo", LEVELS.left)], close("differs", 4)));
  assert.deepEqual(session.back(1), ONE);
  assert.deepEqual(session.back(0), START);
  assert.deepEqual(session.inputs, []);
});

it("a session is opened where its inputs end", () => {
  const { session, ...opened } = walk([RIGHT]);
  assert.deepEqual(opened, ONE);
  assert.deepEqual(session.inputs, [RIGHT]);
});

it("a copy goes on by itself", () => {
  const { session } = walk([RIGHT]), { session: copy, fault } = session.copy();
  assert.equal(fault, null);
  assert.deepEqual(copy.back(0), START);
  assert.deepEqual(session.give([]), ONE);
  copy.close();
  assert.deepEqual(copy.give([RIGHT]), nothing("not-open"));
  assert.deepEqual(copy.copy(), { session: null, fault: "not-open" });
  assert.deepEqual(session.give([]), ONE);
});

it("what is closed is refused, and closes no other", () => {
  const { session } = walk();
  session.close();
  session.close();
  const { session: later } = walk();
  assert.deepEqual([session.isOpen, session.give([]), session.back(0)], [false, nothing("not-open"), nothing("not-open")]);
  assert.deepEqual([later.isOpen, later.give([RIGHT])], [true, ONE]);
});

it("a call that is refused leaves a session as it was", () => {
  const { session } = walk([RIGHT]);
  assert.deepEqual(session.back(2), nothing("too-few-inputs"));
  assert.deepEqual(session.give(new Array(65_536).fill(RIGHT)), nothing("too-many-inputs"));
  for (const inputs of [[5], ["up"], [-1], [1.5], [null]].map(wrong)) assert.throws(() => session.give(inputs), TypeError);
  for (const count of [-1, 0.5, NaN, "1"].map(wrong)) assert.throws(() => session.back(count), TypeError);
  assert.deepEqual([session.inputs, session.give([])], [[RIGHT], ONE]);
});

it("inputs come by any list, and a wrong one opens nothing", () => {
  const { session } = walk(wrong(new Uint8Array([RIGHT])));
  for (const inputs of [new Set(["undo"]), new Uint8Array([RIGHT]), [][Symbol.iterator](), ""]) assert.equal(session.give(wrong(inputs)).fault, null);
  assert.deepEqual([session.inputs, session.give([])], [[RIGHT, "undo", RIGHT], engine.frames({ source: WALK, inputs: session.inputs, level: LEVELS.right }, { order: "rows", from: 3 })]);
  for (let turn = 0; turn < 3000; turn += 1) assert.throws(() => walk([5]), TypeError);
  assert.deepEqual(walk().session.give([RIGHT]), ONE);
});

it("an instance that gets no memory opens nothing, which is told", async (t) => {
  const other = await load(readFileSync(MODULE));
  t.mock.method(WebAssembly, "Instance", function none() { throw new RangeError("no memory"); });
  assert.deepEqual(other.open({ source: WALK, inputs: [] }), { session: null, ...nothing("memory") });
  t.mock.restoreAll();
  assert.equal(other.open({ source: WALK, inputs: [] }).fault, null);
});

it("lines that are too long to be read close all sessions, of which none goes on unseen", async (t) => {
  for (const act of [(session) => session.give([RIGHT]), (session) => session.back(0), (session) => session.give([])]) {
    const other = await load(readFileSync(MODULE)), [session, beside] = ["one", "beside"].map(() => other.open({ source: WALK, inputs: ["undo"] }).session);
    t.mock.method(TextDecoder.prototype, "decode", () => { throw new RangeError("too long a string"); });
    assert.deepEqual([act(session), session.inputs], [nothing("memory"), ["undo"]]);
    t.mock.restoreAll();
    assert.deepEqual([session, beside].map((it) => [it.isOpen, it.give([])]), Array(2).fill([false, nothing("broken")]));
    assert.equal(other.open({ source: WALK, inputs: [] }).fault, null);
  }
});

it("a session that is refused is told, and not opened", () => {
  assert.deepEqual(engine.open({ source: "", inputs: [RIGHT] }), { session: null, frames: [], close: { cause: "Section:0", ...close("refused", 0) }, fault: null });
  assert.deepEqual(engine.open({ source: WALK, inputs: [], level: "x" }), { session: null, ...nothing("bad-level 0") });
  assert.deepEqual(engine.open({ source: "\ud800", inputs: [] }), { session: null, ...nothing("not-json") });
});

it("play goes on behind the last win", () => {
  const { session } = engine.open({ source: WON, inputs: [RIGHT] }, { order: "rows" });
  session.give([RIGHT]);
  const { frames } = session.give(["undo"]);
  assert.deepEqual(frames.map(({ at, kind }) => [at, kind]), [[3, "over"]]);
});

it("memory that is given back is used again", () => {
  for (let turn = 0; turn < 3000; turn += 1) walk().session.close();
  assert.deepEqual(walk().session.give([RIGHT]), ONE);
});

// The sources of the conformance cases that are played.
function sources() {
  const found = new Set();
  for (const { input } of plainCases()) {
    const entries = engine.replay(input).fault === null ? JSON.parse(new TextDecoder().decode(input)) : [];
    for (const [, [source]] of entries) if (typeof source === "string" && source.length < 4000) found.add(source);
  }
  return [...found];
}

it("whatever is called, a session shows what its inputs show", () => {
  const pick = random(78), games = sources();
  for (let game = 0; game < 40; game += 1) {
    const source = games[pick(games.length)], order = ORDERS[pick(2)], { session, close: its } = engine.open({ source, inputs: [] }, { order });
    if (its?.close === "refused") continue;
    const open = [session];
    for (let turn = 0; turn < 30; turn += 1) {
      const at = pick(open.length), one = open[at], { inputs } = one;
      const act = pick(10);
      if (act === 0) open.push(one.copy().session);
      else if (act === 1 && open.length > 1) open.splice(at, 1)[0].close();
      else {
        const answer = act < 4 ? one.back(pick(inputs.length + 1)) : one.give(Array.from({ length: pick(act === 9 ? 90 : 3) }, () => INPUTS[pick(8)]));
        const now = one.inputs, { frames, close: wanted } = engine.frames({ source, inputs: now }, { order, from: now.length });
        assert.deepEqual(answer, { frames, close: wanted, fault: null });
      }
    }
    for (const one of open) one.close();
  }
});

test("an older module keeps none open, and says so", async () => {
  const older = await load(EMPTY);
  assert.equal(older.hasOpenSessions, false);
  assert.deepEqual(older.open({ source: WALK, inputs: [] }), { session: null, ...nothing("no-open-sessions") });
});

// A host of the module: a place for open sessions, and calls by numbers and bytes. An answer is [status, fault, entry, text].
class Host {
  constructor(module) {
    this.exports = exportsOf(module);
    const take = (size) => this.exports.take_room(size) >>> 0;
    this.held = take(HELD);
    this.file = take(4096);
    this.room = take(4096);
    this.outcome = take(24);
    new Uint8Array(this.exports.memory.buffer, this.held, HELD).fill(0);
  }

  /** @type {(count: number | bigint) => [number, number, number, string]} */
  answer(count) {
    const [status, fault, entry] = [...new BigUint64Array(new Uint8Array(this.exports.memory.buffer, this.outcome, 24).slice().buffer)].map(Number);
    return [status, fault, entry, new TextDecoder().decode(new Uint8Array(this.exports.memory.buffer, this.room, Number(count)))];
  }

  put(bytes) {
    new Uint8Array(this.exports.memory.buffer, this.file, bytes.length).set(bytes);
    return [this.file, BigInt(bytes.length)];
  }

  open(source) {
    const file = this.put(new TextEncoder().encode(JSON.stringify([["", [source, [], LEVELS.right, 0]]])));
    return this.answer(this.exports.saxtegun_open(this.held, ...file, 0, 0, this.room, 4096n, this.outcome));
  }

  give(number, bytes) {
    return this.answer(this.exports.saxtegun_give(this.held, number, ...this.put(bytes), this.room, 4096n, this.outcome));
  }

  back(number, count) {
    return this.answer(this.exports.saxtegun_back(this.held, number, count, this.room, 4096n, this.outcome));
  }

  copy(number) {
    this.exports.saxtegun_copy(this.held, number, this.outcome);
    return this.answer(0);
  }

  close(number) {
    return this.exports.saxtegun_close(this.held, number);
  }
}

const HELD = 24, LAST = 2n ** 64n - 1n, MEMORY = [2, 1, 0, ""];
const lines = ({ frames, close: its }) => [...frames, its].map((it) => `${JSON.stringify(it, Object.keys(it).sort())}\n`).join("");

it("a host is answered by numbers", async () => {
  const host = new Host(await WebAssembly.compile(readFileSync(MODULE)));
  for (const answer of [host.give(0, [3]), host.back(0, 0), host.copy(0)]) assert.deepEqual(answer, [2, 6, 0, ""]);
  assert.equal(host.close(0), 0);
  assert.deepEqual(host.open(WALK), [0, 0, 0, lines(START)]);
  assert.deepEqual(host.give(0, [3]), [0, 0, 0, lines(ONE)]);
  assert.deepEqual([host.give(0, [8]), host.give(0, [0, 255])], [[2, 9, 0, ""], [2, 9, 0, ""]]);
  assert.deepEqual([host.give(0, []), host.back(0, 2)], [[0, 0, 0, lines(ONE)], [2, 8, 0, ""]]);
  assert.deepEqual([host.copy(0), host.copy(1), host.copy(3)], [[0, 0, 1, ""], [0, 0, 2, ""], [2, 6, 0, ""]]);
  assert.deepEqual([host.close(1), host.close(1), host.copy(1)], [1, 0, [2, 6, 0, ""]]);
  assert.deepEqual([host.open(WALK)[2], host.give(2, []), host.back(0, 0)], [3, [0, 0, 2, lines(ONE)], [0, 0, 0, lines(START)]]);
});

test("whatever is refused of the heap, a session is as it was or where it was to go", { skip: !isRefusing && "there is no module that refuses, or it keeps no session open" }, async () => {
  const host = new Host(await WebAssembly.compile(readFileSync(REFUSING))), { refuse, requests } = host.exports;
  const whole = (act) => {
    refuse(1n, 0n);
    return act();
  };
  const refusals = (act, wanted, before, undo) => {
    assert.deepEqual(whole(act), wanted);
    const most = requests();
    undo(wanted);
    for (let number = 1n; number <= most + 1n; number++) {
      for (const to of [number, LAST]) {
        refuse(number, to);
        const answer = act(), isRefused = answer[1] === 1;
        if (isRefused) assert.deepEqual([answer, whole(() => host.give(0, []))], [MEMORY, before], `request ${number}`);
        else assert.deepEqual(answer.slice(3), wanted.slice(3), `request ${number}`);
        if (!isRefused) whole(() => undo(answer));
      }
    }
  };
  const start = whole(() => host.open(WALK)), one = [0, 0, 0, lines(ONE)];
  refusals(() => host.give(0, [3]), one, start, () => host.back(0, 0));
  whole(() => host.give(0, [3]));
  refusals(() => host.back(0, 0), start, one, () => host.give(0, [3]));
  refusals(() => host.copy(0), [0, 0, 1, ""], one, ([, , number]) => host.close(number));
  refusals(() => host.open(WALK), [0, 0, host.copy(0)[2] + 1, lines(START)], one, ([, , number]) => host.close(number));
});
