// @ts-check
// The stages of an input by engine/saxtegun.mjs. Over a module that has them, what is expected is worked out by hand; one that has none says so.
import assert from "node:assert/strict";
import { existsSync, readFileSync } from "node:fs";
import test from "node:test";
import { load, parse } from "../../engine/saxtegun.mjs";
import { wrong } from "./instances.mjs";

const MODULE = process.env.SAXTEGUN_MODULE ?? new URL("../../engine/out/saxtegun.wasm", import.meta.url);
const EMPTY = Uint8Array.of(0, 0x61, 0x73, 0x6d, 1, 0, 0, 0);
const engine = existsSync(MODULE) ? await load(readFileSync(MODULE)) : null;
const it = (name, act) => test(name, { skip: !engine?.hasStages && "the module is not there, or gives no stages" }, act);

// A crate that is pushed along a row of three cells. The rule stands on line 16.
const PUSH = `OBJECTS
Background
black
Player
white
Crate
orange
LEGEND
. = Background
P = Player
* = Crate
COLLISIONLAYERS
Background
Player, Crate
RULES
[ > Player | Crate ] -> [ > Player | > Crate ]
WINCONDITIONS
LEVELS
P*.
`;
const RIGHT = 3;
/** @typedef {import("../../engine/saxtegun").Stage} Stage */
const BEFORE = "background player:0,background crate:1,background:2,\n", BEHIND = "background:0,background player:1,background crate:2,\n";
/** @type {(name: Stage["stage"], level: string, headings: Stage["headings"], more?: object) => Stage} */
const stage = (name, level, headings, more = {}) => ({ changed: true, commands: [], headings, input: 1, level, stage: name, tick: 0, ...more });
const STAGES = [
  stage("input", BEFORE, [[0, 0, "player", "right"]]),
  stage("early", BEFORE, [[0, 0, "player", "right"], [1, 0, "crate", "right"]], { block: 0, lines: [16] }),
  stage("movement", BEHIND, []),
  stage("end", BEHIND, []),
];
const FILE = JSON.stringify([["a", ["", [], "", 0]], ["b", [PUSH, [RIGHT], "", 0]]]);
const refused = (fault) => ({ status: 2, passed: false, lines: new Uint8Array(0), fault });

test("a module without stages says so", async () => {
  const old = await load(EMPTY);
  assert.equal(old.hasStages, false);
  assert.deepEqual(old.stages({ source: PUSH, inputs: [RIGHT] }, 1), { stages: [], fault: "no-stages" });
  assert.deepEqual(old.stagesOf(FILE, 1, 1), refused("no-stages"));
});

test("what is no number and no order is no call", async () => {
  const old = await load(EMPTY);
  for (const number of [-1, 0.5, NaN, "1", undefined].map(wrong)) {
    assert.throws(() => old.stagesOf(FILE, number, 0), TypeError);
    assert.throws(() => old.stages({ source: PUSH, inputs: [] }, number), TypeError);
  }
  assert.throws(() => old.stagesOf(FILE, 0, 0, { order: wrong("diagonals") }), TypeError);
});

it("the stages of an input are given, by rows and by columns", () => {
  assert.deepEqual(engine.stages({ source: PUSH, inputs: [RIGHT] }, 1, { order: "rows" }), { stages: STAGES, fault: null });
  const byColumns = /** @type {Stage[]} */ (engine.stages({ source: PUSH, inputs: [RIGHT] }, 1).stages);
  assert.deepEqual(byColumns.map(({ headings, lines }) => [headings, lines]), STAGES.map(({ headings, lines }) => [headings, lines]));
});

it("the lines of the stages of a session of a file are given as bytes", () => {
  const { lines, ...answer } = engine.stagesOf(FILE, 1, 1, { order: "rows" });
  assert.deepEqual([answer, parse(lines)], [{ status: 0, passed: true, fault: null }, STAGES]);
  const text = new TextDecoder().decode(lines);
  assert.equal(text.split("\n")[1], `{"block":0,"changed":true,"commands":[],"headings":[[0,0,"player","right"],[1,0,"crate","right"]],"input":1,"level":${JSON.stringify(BEFORE)},"lines":[16],"stage":"early","tick":0}`);
});

it("an input or a session that is not there has no stages, and the start none without rules that run there", () => {
  for (const [session, input] of [[1, 0], [1, 2], [2, 1], [2 ** 32, 1], [1, 2 ** 53 - 1]]) assert.equal(engine.stagesOf(FILE, session, input).lines.length, 0);
});

it("a stop stands behind the stages of its step", () => {
  const loop = PUSH.replace("[ > Player |", "startloop\n[ Player ] -> [ Crate ]\n[ Crate ] -> [ Player ]\nendloop\n[ > Player |");
  const { stages, fault } = engine.stages({ source: loop, inputs: [RIGHT] }, 1);
  assert.deepEqual([fault, stages.at(-1)], [null, { input: 1, stop: "loop-limit", tick: 0 }]);
});

it("a file that is refused has its fault", () => {
  for (const [text, fault] of [["", "not-json"], ["[0]", "bad-entry 0"], ['["\ud800"]', "not-json"], ['[["a",["",[],"x"]]]', "bad-level 0"]]) assert.deepEqual(engine.stagesOf(text, 0, 0), refused(fault));
});
