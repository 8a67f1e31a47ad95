// @ts-check
// Hostile calls of the glue, the same ones for a seed: `node tests/engine/hostile.mjs [SEED] [CALLS] [MODULE]`. Each answers with a fault that is known or refuses
// by a TypeError, none takes long, and between them the example's answer stays right.
import assert from "node:assert/strict";
import { readFileSync } from "node:fs";
import { pathToFileURL } from "node:url";
import { load } from "../../engine/saxtegun.mjs";

const EXAMPLES = new URL("../../examples/", import.meta.url);
const GAME = "OBJECTS\nBackground\nblack\nPlayer\nred\nLEGEND\nCOLLISIONLAYERS\nBackground\nPlayer\nLEVELS\nq\n";
const PIECES = ["[", "{", '"', "\\u0000", "(", ")", "...", "->", "startloop\\n", "again", "late", "\ud83d", "\u2028"];
const FILES = ["", "[", "[]", "[[", "[[]]", "null", "{}", '"', "[1e999]", "[".repeat(5000), '[{"a":'.repeat(3000), "\ufeff[]", "[]\0", "[\n]\n ", " ".repeat(9999)];
const FAULTS = /^(memory|not-json|too-many|bad-entry \d+|bad-level \d+|no-stages|no-descriptions)$/;

// Numbers from 0 up to 1, the same ones for a seed.
function numbersOf(seed) {
  let state = seed;
  return () => {
    state = (Math.imul(state, 1_103_515_245) + 12_345) & 0x7fffffff;
    return state / 0x80000000;
  };
}

function bytesOf(next, good) {
  const kind = Math.floor(next() * 3);
  if (kind === 0) return Uint8Array.from({ length: Math.floor(next() * 300) }, () => next() * 256);
  if (kind === 1) return good.subarray(0, Math.floor(next() * good.length));
  const changed = new Uint8Array(good);
  for (let count = Math.floor(next() * 6); count >= 0; count -= 1) changed[Math.floor(next() * good.length)] = next() * 256;
  return changed;
}

function entryOf(pick) {
  const input = pick([0, 9, -1, 1.5, "undo", "x", null]), index = pick([0, null, -1, 2 ** 53, 1e300]);
  return [pick(["", "a", "\ud800", "\u0000"]), [pick(["", "x", GAME]), [input], pick(["", "a:0,", "0,"]), index]];
}

function fileOf(next, pick, good) {
  const kind = Math.floor(next() * 4);
  if (kind === 0) return bytesOf(next, good);
  if (kind === 1) return JSON.stringify([entryOf(pick)]);
  if (kind === 2) return pick(FILES);
  const text = good.toString(), at = Math.floor(next() * text.length);
  return text.slice(0, at) + pick(PIECES) + text.slice(at + Math.floor(next() * 20));
}

// One call; its answer.
function called(engine, next, pick, good) {
  const file = fileOf(next, pick, good);
  if (typeof file === "string" && next() < 0.3) return engine.frames({ source: file, inputs: [0, 1, pick(["undo", "tick", 3])], index: pick([0, 1, 5]) }, { from: pick([0, 1, 2 ** 53 - 1]) });
  if (next() < 0.2) return engine.description(pick([file, GAME, GAME.slice(0, Math.floor(next() * GAME.length))]));
  const order = pick(["rows", "columns"]), number = () => pick([0, 1, 2, 65_535, 2 ** 32, 2 ** 53 - 1]);
  return next() < 0.3 ? engine.stagesOf(file, number(), number(), { order }) : engine.replay(file, { order });
}

// Makes so many calls; how many were answered by which fault.
export async function attack(seed, calls, module) {
  const engine = await load(module), next = numbersOf(seed), pick = (list) => list[Math.floor(next() * list.length)];
  const [good, wanted] = ["block-pushing.json", "block-pushing.lines"].map((name) => readFileSync(new URL(name, EXAMPLES)));
  const counts = {};
  for (let number = 0; number < calls; number += 1) {
    const { fault } = called(engine, next, pick, good);
    assert.ok(fault === null || FAULTS.test(fault), `call ${number}: ${fault}`);
    counts[fault?.replace(/ .*/, "") ?? "none"] = (counts[fault?.replace(/ .*/, "") ?? "none"] ?? 0) + 1;
    if (number % 250 === 0) assert.ok(wanted.equals(engine.replay(good).lines), `wrong behind call ${number}`);
  }
  return counts;
}

if (process.argv[1] === import.meta.filename || process.argv[1]?.endsWith("tests/engine/hostile.mjs")) {
  const [seed = 75, calls = 10_000, module] = process.argv.slice(2);
  console.log(await attack(Number(seed), Number(calls), module && pathToFileURL(module)));
}
