// @ts-check
// The parts of the report that need no browser: addresses, frames, level texts and words. tests/test_pages.py runs them in Node.
import assert from "node:assert/strict";
import { test } from "node:test";
import { addressOf, readAddress } from "../address.mjs";
import { Run, textOf } from "../frames.mjs";
import { differing, numberAt, placeOf } from "../levels.mjs";
import { differenceTold, frameTold } from "../telling.mjs";

test("an address is read as it was written", () => {
  for (const words of [
    { session: 4, frame: 16, close: "differs", name: "a & b=#?%+\u00e9" },
    { session: 0, frame: 0, close: null, name: "" },
    { session: null, frame: null, close: null, name: null },
  ]) {
    const { session, frame, close, name } = readAddress(addressOf(words));
    assert.deepEqual({ session, frame, close, name }, { ...words, name: words.name || null });
  }
});

test("what is no number in an address is none", () => {
  for (const text of ["x", "-1", "1.5", "1e3", "", "99999999999", "0x1", "%"]) {
    assert.equal(readAddress(`#session=${text}`).session, null, text);
    assert.equal(readAddress(`#session=${text}`).text, text === "%" ? "%" : text);
  }
  assert.deepEqual(readAddress(""), { session: null, frame: null, close: null, name: null, text: null });
  assert.equal(readAddress(`#name=${"x".repeat(100_000)}`).name?.length, 2000);
});

const whole = (cells) => ({ width: 3, cells });
// "!" and '"' stand for the labels 0 and 1
const FRAMES = [[0, 0, whole("!!!!!!")], [1, 1, [2, 1]], [2, 1, 0], [3, 1, []], [3, 5, [2, 0, 5, 1]], [4, 4, { width: 2, cells: [1, 1, 0, 0] }], [5, 1, { text: "a,b:0," }], [6, 1, whole('!!!!!"')]];

test("levels are made of the first and what changed", () => {
  const run = new Run(FRAMES, "columns", '!"');
  const cells = [[0, 0, 0, 0, 0, 0], [0, 0, 1, 0, 0, 0], [0, 0, 1, 0, 0, 0], [0, 0, 1, 0, 0, 0], [0, 0, 0, 0, 0, 1], [1, 1, 0, 0], undefined, [0, 0, 0, 0, 0, 1]];
  for (const number of [7, 0, 4, 3, 6, 5, 2, 1]) assert.deepEqual(run.levelAt(number).cells, cells[number], String(number));
  assert.deepEqual(FRAMES.map((_, number) => run.changesAt(number)), [[], [2], [], [], [2, 5], null, null, null]);
  assert.equal(run.levelAt(6).text, "a,b:0,");
});

test("a level behind many others is the same, whichever was looked at before", () => {
  const changes = Array.from({ length: 300 }, (_, number) => [number % 6, (number >> 3) % 2]);
  const frames = [[0, 0, whole("!!!!!!")], ...changes.map((change, number) => [number + 1, 1, change])];
  const cells = [0, 0, 0, 0, 0, 0];
  const wanted = [[...cells], ...changes.map(([cell, label]) => { cells[cell] = label; return [...cells]; })];
  const run = new Run(frames, "rows", '!"');
  for (let step = 0; step <= 300; step += 1) {
    const number = (step * 127) % 301;
    assert.deepEqual(run.levelAt(number).cells, wanted[number]);
  }
});

test("a bump is an input after which nothing changed", () => {
  const run = new Run(FRAMES.slice(0, 5), "columns", '!"');
  assert.deepEqual([...run.bumps()], [1]); // the third input has a tick that changed something
  assert.deepEqual([0, 1, 3, 9].map((taken) => run.frameAfter(taken)), [0, 1, 3, 4]);
});

test("a level's text is that of docs/sessions.md", () => {
  const names = [["background", "wall"], ["background"], ["background", "player"], []];
  assert.equal(textOf({ width: 4, cells: [0, 1, 2, 0] }, names), "background wall:0,background:1,background player:2,0,\n");
  assert.equal(textOf({ width: 1, cells: [3, 3] }, names), ":0,\n0,\n");
  assert.equal(textOf({ text: "a,b:0," }, names), "a,b:0,");
});

test("cells have places in both orders", () => {
  for (const order of ["rows", "columns"]) {
    const level = { width: 3, cells: [0, 1, 2, 3, 4, 5], order };
    assert.deepEqual(placeOf(level, 1), order === "rows" ? [1, 0] : [0, 1]);
    for (const number of level.cells) assert.equal(numberAt(level, ...placeOf(level, number)), number);
  }
  assert.equal(differing({ width: 1, cells: [0, 1] }, { width: 2, cells: [0, 1] }), null);
  assert.deepEqual(differing({ width: 1, cells: [0, 1] }, { width: 1, cells: [0, 2] }), [1]);
});

test("a bump is told from a move", () => {
  const inputs = [3, "undo"];
  assert.equal(frameTold([0, 0], inputs, 0), "Before any input: the level at the start.");
  assert.equal(frameTold([1, 1], inputs, 0), "After input 0 (right): a bump: nothing changed.");
  assert.equal(frameTold([1, 1], inputs, 1), "After input 0 (right): 1 cell changed.");
  assert.equal(frameTold([2, 2], inputs, 2), "After input 1 (undo): 2 cells changed.");
  assert.equal(frameTold([1, 4], inputs, null), "After input 0 (right): solved, and the next level begins.");
  assert.equal(differenceTold(1, "the recorded level"), "1 cell differs from the recorded level (framed).");
  assert.equal(differenceTold(0, "it"), "It is the same as it.");
});
