#!/usr/bin/env node
// @ts-check
// engine/stages.mjs SESSION INPUT [columns] [firings]: the stages of an input of a session, a line each, and where that is asked for the firings of
// instances too; the sessions file comes on the standard input. SESSION is numbered from 0; INPUT 0 is the session's start, and 1 its first input. Cells go
// by rows, or by columns where that is named. The exit status is 0, or 2 with a line of failure. SAXTEGUN_MODULE may name another module than
// out/saxtegun.wasm.
import { Refusal, loadNamed, open, readInput, run, told } from "./streams.mjs";

const NUMBER = /^\+?[0-9]+$/;
const MOST_WORD = 2n ** 64n - 1n;

// A number of the words; no file has so many sessions or inputs as one that can't be told exactly.
function numberIn(word) {
  if (!NUMBER.test(word) || BigInt(word.replace("+", "")) > MOST_WORD) throw new Refusal("bad command line");
  return Math.min(Number(word), Number.MAX_SAFE_INTEGER);
}

async function tell(words) {
  const firings = words.at(-1) === "firings", asked = firings ? words.slice(0, -1) : words;
  const [session, input] = asked.slice(0, 2).map(numberIn), order = asked[2] ?? "rows";
  if (asked.length < 2 || asked.length > 3 || (asked.length === 3 && order !== "columns")) throw new Refusal("bad command line");
  const file = readInput(open()), engine = await loadNamed();
  return told(engine.stagesOf(file, session, input, { order, firings }));
}

await run(tell);
