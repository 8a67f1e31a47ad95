#!/usr/bin/env node
// @ts-check
// engine/describe.mjs [--outlines | --levels | --sessions] FILE..: what the engine has read of each source, in whole or in outline, as one line of JSON; of each level
// text, or of each file of sessions.
// The exit status is 0, or 2 with a line of failure; a source that is refused is described too, and what is no level text is null. SAXTEGUN_MODULE may name another
// module than out/saxtegun.wasm.
import { closeSync } from "node:fs";
import { Refusal, loadNamed, open, readInput, run, told } from "./streams.mjs";

const LINE_FEED = 0x0a;

// An answer's text as a line.
function asLine(answer) {
  const lines = new Uint8Array(answer.lines.length + 1);
  lines.set(answer.lines);
  lines[answer.lines.length] = LINE_FEED;
  return { ...answer, lines };
}

// The bytes of a file, which is closed then: there may be many.
function bytesIn(file) {
  const from = open(file);
  try {
    return readInput(from);
  } finally {
    closeSync(from);
  }
}

// What is told of bytes, by the word that asks for it; without one, a source is.
const KINDS = {
  "--outlines": (engine, bytes) => engine.outlineOf(bytes),
  "--levels": (engine, bytes) => engine.levelDescriptionOf(bytes),
  "--sessions": (engine, bytes) => engine.fileDescriptionOf(bytes),
};

async function describe(words) {
  const kind = Object.hasOwn(KINDS, words[0] ?? "") ? words[0] : null;
  const files = kind === null ? words : words.slice(1);
  if (files.length === 0) throw new Refusal("bad command line");
  const engine = await loadNamed(), ask = KINDS[kind] ?? ((its, bytes) => its.descriptionOf(bytes));
  for (const file of files) told(asLine(ask(engine, bytesIn(file))));
  return 0;
}

await run(describe);
