#!/usr/bin/env node
// @ts-check
// engine/solve.mjs LEVELS BYTES: what wins each session of a sessions file from where it stands behind its inputs, a line each; the file comes on the
// standard input. LEVELS are the most levels that a search may keep, BYTES the most that these may take. The exit status is 0, or 2 with a line of
// failure. SAXTEGUN_MODULE may name another module than out/saxtegun.wasm.
import { Refusal, loadNamed, open, readInput, run, told } from "./streams.mjs";

const NUMBER = /^\+?[0-9]+$/;
const MOST_WORD = 2n ** 64n - 1n;

// The bound that a word names; no memory has so much as one that can't be told exactly.
function boundIn(word) {
  if (!NUMBER.test(word) || BigInt(word.replace("+", "")) > MOST_WORD) throw new Refusal("bad command line");
  return Math.min(Number(word), Number.MAX_SAFE_INTEGER);
}

async function solve(words) {
  if (words.length !== 2) throw new Refusal("bad command line");
  const [levels, bytes] = words.map(boundIn), file = readInput(open()), engine = await loadNamed();
  return told(engine.solutionsOf(file, { levels, bytes }));
}

await run(solve);
