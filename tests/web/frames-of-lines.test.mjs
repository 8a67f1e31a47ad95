// @ts-check
// The frames that the worker hands the page as lines are those that the engine tells, also behind a session that is kept open.
import assert from "node:assert/strict";
import { test } from "node:test";
import { framesTold, handedOver, isLevelLonger, takenOver } from "../../web/frames-of-lines.mjs";
import { KeptOpen } from "../../web/kept-open.mjs";
import { playedBy, readableAnswer } from "../../web/page-engine.mjs";
import { GAME, INPUTS, ORDERS } from "./bench.mjs";
import { module } from "./module.mjs";

const WON_BY_A_MOVE = "OBJECTS\nBackground .\nblack\nPlayer P\nwhite\nGoal O\nred\nLEGEND\nCOLLISIONLAYERS\nBackground\nGoal\nPlayer\nRULES\nWINCONDITIONS\nAll Player on Goal\nLEVELS\nP..O\n";
const bytesOfText = (text) => new TextEncoder().encode(text);
const shown = (frames) => frames.map(({ at, kind, level }) => ({ at, kind, level }));

/** @type {import("../../web/state").Input[]} */
const PLAYED = [0, 3, "undo", 3, "tick", "restart", 3, 3, 1];
const LINES = [
  '{"at":0,"frame":0,"kind":"start","level":"player:0,\\u00e9 \\"wall\\":1,0,\\n1,\\n","session":0}',
  '{"at":1,"frame":1,"kind":"move","level":"","session":0}',
  '{"at":12,"frame":2,"kind":"over","level":"é:0,\\n","session":0}',
  '{"cause":"again-limit","close":"stopped","frames":3,"name":"a \\"name\\"","session":0}',
].map((line) => `${line}\n`).join("");

const TOLD = [
  { at: 0, kind: "start", level: 'player:0,é "wall":1,0,\n1,\n' },
  { at: 1, kind: "move", level: "" },
  { at: 12, kind: "over", level: "é:0,\n" },
];

test("frames are told of lines", () => {
  const { frames, close, fault } = framesTold({ lines: bytesOfText(LINES), fault: null });
  assert.deepEqual([shown(frames), close, fault], [TOLD, { cause: "again-limit", close: "stopped", frames: 3, name: 'a "name"', session: 0 }, null]);
});

test("of a fault no frames are told", () => {
  assert.deepEqual(framesTold({ lines: new Uint8Array(0), fault: "not-json" }), { frames: [], close: null, fault: "not-json" });
});

test("what a worker hands over is what it has", () => {
  const { frames } = framesTold({ lines: bytesOfText(LINES), fault: null });
  const { answer, parts } = handedOver({ frames: frames.slice(1), cause: null, isSolved: true });
  const { frames: taken, ...rest } = takenOver(structuredClone(answer, { transfer: parts }));
  assert.deepEqual([shown(taken), rest], [TOLD.slice(1), { cause: null, isSolved: true }]);
});

test("an answer without frames of lines is handed over as it is", () => {
  for (const answer of [{ frames: [], cause: "engine:memory", isSolved: false }, { frames: TOLD, cause: null, isSolved: false }, { stages: [], fault: null }, { status: 0, lines: bytesOfText(LINES) }]) {
    assert.deepEqual(handedOver(answer), { answer, parts: [] });
    assert.equal(takenOver(answer), answer);
  }
  assert.equal(takenOver(null), null);
});

test("a level is long by its letters, and not by the bytes that tell it", () => {
  const [frame] = framesTold({ lines: bytesOfText(LINES), fault: null }).frames, letters = TOLD[0].level.length;
  assert.deepEqual([isLevelLonger(frame, letters), isLevelLonger(frame, letters - 1), isLevelLonger(TOLD[0], letters), isLevelLonger(TOLD[0], letters - 1), isLevelLonger({ at: 1 }, 0)], [false, true, false, true, false]);
  assert.ok(frame.size > letters);
});

test("what is played whole is what the engine's frames are", { skip: !module && "the module is not there" }, () => {
  for (const source of [GAME, WON_BY_A_MOVE, "no game"]) {
    for (const order of ORDERS) {
      const inputs = PLAYED, wanted = { source, index: 0, order, inputs, from: 0, isTicked: false };
      const { frames, close, fault } = module.frames({ source, inputs: [...inputs, "undo"] }, { order }), answer = readableAnswer(playedBy(module, wanted));
      assert.equal(fault, null);
      assert.deepEqual(shown(answer.frames), frames.filter(({ at }) => at <= inputs.length).map(({ at, kind, level }) => ({ at, kind, level })));
      assert.deepEqual([answer.cause, answer.isSolved], [close.cause ?? null, frames.at(-1)?.kind === "over"]);
    }
  }
});

test("a key behind an open session leads to what playing all leads to", { skip: !module?.hasOpenSessions && "the module is not there, or keeps no session open" }, () => {
  const kept = new KeptOpen(module), withMessage = WON_BY_A_MOVE.replace("P..O\n", "P.O\nmessage done\n");
  const sources = [withMessage, GAME, GAME.replace("-> [ > Player | > Crate ]", "-> [ > Player | > Crate ] again")];
  let seed = 78, compared = 0;
  const random = (below) => {
    seed = (Math.imul(seed, 1664525) + 1013904223) >>> 0;
    return Math.floor((seed / 2 ** 32) * below);
  };
  for (let turn = 0; turn < 60; turn += 1) {
    const base = { source: sources[random(sources.length)], index: 0, order: ORDERS[random(2)], isTicked: false };
    let inputs = Array.from({ length: random(90) }, () => INPUTS[random(4)]);
    kept.follow({ ...base, inputs });
    for (let key = 0; key < 8; key += 1) {
      inputs = [...inputs.slice(0, inputs.length - random(3)), INPUTS[random(8)]];
      const wanted = { ...base, inputs, from: inputs.length }, answer = kept.played(wanted);
      if (answer === null) continue;
      assert.deepEqual(answer, playedBy(module, wanted));
      compared += 1;
    }
  }
  assert.ok(compared > 400, `${compared}`);
});
