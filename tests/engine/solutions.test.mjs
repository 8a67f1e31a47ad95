// @ts-check
// What wins a session, by engine/saxtegun.mjs and by the exports. What is expected is worked out by hand. A module that solves nothing says so.
import assert from "node:assert/strict";
import { existsSync, readFileSync } from "node:fs";
import test from "node:test";
import { load } from "../../engine/saxtegun.mjs";
import { exportsOf } from "./instances.mjs";

const OUT = new URL("../../engine/out/", import.meta.url);
const MODULE = process.env.SAXTEGUN_MODULE ?? new URL("saxtegun.wasm", OUT), REFUSING = new URL("refusing.wasm", OUT);
const EMPTY = Uint8Array.of(0, 0x61, 0x73, 0x6d, 1, 0, 0, 0);
const PROGRAM = new URL("../../crates/pz_solver/", import.meta.url);
const engine = existsSync(MODULE) ? await load(readFileSync(MODULE)) : null;
const isRefusing = engine?.hasSolutions && existsSync(REFUSING) && WebAssembly.Module.exports(new WebAssembly.Module(readFileSync(REFUSING))).some(({ name }) => name === "saxtegun_solutions");
const it = (name, act) => test(name, { skip: !engine?.hasSolutions && "the module is not there, or solves nothing" }, act);

const ROOM = 4096, OUTCOME = 24, KEPT = 1000, LAST = 2n ** 64n - 1n, MEMORY = [2, 1, 0, ""];
const RIGHT = 3;
const HEAD = "OBJECTS\nBackground .\nblack\nTarget o\nblue\nWall #\ngrey\nPlayer p\nwhite\nCrate *\nbrown\nLEGEND\nCOLLISIONLAYERS\nBackground\nTarget\nPlayer, Wall, Crate\n";
const game = (...levels) => `${HEAD}RULES\n[ > Player | Crate ] -> [ > Player | > Crate ]\nWINCONDITIONS\nAll Target on Crate\nLEVELS\n${levels.join("\n")}`;
const PUSH = game("p.*.o\n"), STUCK = game("p*#o\n"), WIDE = game(`p${".".repeat(19)}o\n`);
const solution = (source, inputs = [], options = {}) => engine.solution({ source, inputs }, options);
const told = (found) => ({ solution: found, fault: null });

it("a session is solved from where it stands", () => {
  assert.deepEqual(solution(PUSH), told({ solved: [RIGHT, RIGHT, RIGHT] }));
  assert.deepEqual(solution(PUSH, [RIGHT], { levels: 100 }), told({ solved: [RIGHT, RIGHT] }));
  assert.deepEqual(solution(PUSH, [RIGHT, "undo"]), told({ solved: [RIGHT, RIGHT, RIGHT] }));
});

it("where no list of presses wins, that is told", () => assert.deepEqual(solution(STUCK), told({ unsolvable: true })));

it("a search that may keep no more levels tells how far it came", () => {
  // a row: one press leads to one cell more
  for (const levels of [1, 2, 7, 20]) assert.deepEqual(solution(WIDE, [], { levels }), told({ outOfBounds: { inputs: levels - 1, levels } }));
  assert.deepEqual(solution(WIDE, [], { levels: 21 }), told({ unsolvable: true }));
  assert.deepEqual(solution(WIDE, [], { levels: 2 ** 40 }), told({ unsolvable: true }));
  // a level of 21 cells takes 148 bytes at most
  for (const levels of [1, 2, 7, 20]) assert.deepEqual(solution(WIDE, [], { bytes: 149 * levels - 1 }), told({ outOfBounds: { inputs: levels - 1, levels } }));
  assert.deepEqual(solution(WIDE, [], { bytes: 2 ** 40 }), told({ unsolvable: true }));
});

it("a session that has won its last level, has stopped or is refused has no level to solve", () => {
  assert.deepEqual(solution(PUSH, [RIGHT, RIGHT, RIGHT]), told({ over: true }));
  assert.deepEqual(solution(game("p.*.o\n", "p*o\n"), [RIGHT, RIGHT, RIGHT]), told({ solved: [RIGHT] }));
  const loop = `${HEAD}RULES\n[ Player | Crate ] -> [ Player | Target ]\n+ [ Player | Target ] -> [ Player | Crate ]\nLEVELS\np.*\n`;
  assert.deepEqual(solution(loop, [RIGHT, RIGHT]), told({ stopped: true }));
  assert.deepEqual(solution("no game"), told({ refused: true }));
});

it("a bound that is none is refused, and so is a session that is none", () => {
  for (const bound of [-1, 0.5, NaN, "1"]) {
    assert.throws(() => solution(PUSH, [], { levels: bound }), TypeError);
    assert.throws(() => solution(PUSH, [], { bytes: bound }), TypeError);
  }
  assert.deepEqual(solution(PUSH, [7]), { solution: null, fault: "bad-entry 0" });
});

it("the sessions of a file are solved, a line each", () => {
  const read = (name) => readFileSync(new URL(name, PROGRAM));
  const [levels, bytes] = read("args").toString().trim().split("\n").map(Number);
  const { lines, ...answer } = engine.solutionsOf(read("stdin"), { levels, bytes });
  assert.deepEqual([answer, new TextDecoder().decode(lines)], [{ status: 0, passed: true, fault: null }, read("stdout").toString()]);
  assert.deepEqual(engine.solutionsOf("[3]"), { status: 2, passed: false, lines: new Uint8Array(0), fault: "bad-entry 0" });
});

test("an older module solves nothing, and says so", async () => {
  const older = await load(EMPTY);
  assert.equal(older.hasSolutions, false);
  assert.deepEqual(older.solutionsOf("[]"), { status: 2, passed: false, lines: new Uint8Array(0), fault: "no-solutions" });
});

// A host of the module: calls by numbers and bytes. An answer is [status, fault, entry, text].
class Host {
  constructor(module) {
    this.exports = exportsOf(module);
    const take = (size) => this.exports.take_room(size) >>> 0;
    this.file = take(ROOM);
    this.room = take(ROOM);
    this.outcome = take(OUTCOME);
  }

  solutions(text, levels, size = ROOM) {
    const bytes = new TextEncoder().encode(text), memory = () => this.exports.memory.buffer;
    new Uint8Array(memory(), this.file, bytes.length).set(bytes);
    new Uint8Array(memory(), this.room, ROOM).fill(0x2e);
    const count = this.exports.saxtegun_solutions(this.file, BigInt(bytes.length), levels, KEPT, this.room, BigInt(size), this.outcome);
    const words = new BigUint64Array(new Uint8Array(memory(), this.outcome, OUTCOME).slice().buffer);
    return [...[...words].map(Number), new TextDecoder().decode(new Uint8Array(memory(), this.room, Number(count)))];
  }
}

const FILE = JSON.stringify([["", [PUSH, [RIGHT], "", 0]]]), LINE = '{"session":0,"solution":{"solved":[3,3]}}\n';

it("a host is answered by numbers", async () => {
  const host = new Host(await WebAssembly.compile(readFileSync(MODULE)));
  assert.deepEqual([host.solutions(FILE, 9), host.solutions("[3]", 9), host.solutions("[", 9)], [[0, 0, 0, LINE], [2, 3, 0, ""], [2, 2, 0, ""]]);
  assert.deepEqual([host.solutions(FILE, 9, LINE.length - 1), host.solutions(FILE, 9, LINE.length)], [[0, 0, 0, ".".repeat(LINE.length)], [0, 0, 0, LINE]]);
});

test("whatever is refused of the heap, a solution is that of ample memory or tells the want of it", { skip: !isRefusing && "there is no module that refuses, or it solves nothing" }, async () => {
  const host = new Host(await WebAssembly.compile(readFileSync(REFUSING))), { refuse, requests, blocks_out: blocksOut } = host.exports, wanted = [0, 0, 0, LINE];
  const whole = () => {
    refuse(1n, 0n);
    return host.solutions(FILE, 9);
  };
  assert.deepEqual(whole(), wanted);
  const most = requests(), out = blocksOut();
  for (let number = 1n; number <= most + 1n; number++) {
    for (const to of [number, LAST]) {
      refuse(number, to);
      const answer = host.solutions(FILE, 9), left = blocksOut();
      assert.deepEqual([answer, left], [answer[1] === 1 && number <= most ? MEMORY : wanted, out], `request ${number}`);
    }
  }
  assert.deepEqual(whole(), wanted);
});
