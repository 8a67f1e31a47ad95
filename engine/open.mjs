#!/usr/bin/env node
// @ts-check
// engine/open.mjs [--order ORDER] ENTRY GAME: keeps a session of a game open, which begins at an entry of LEVELS. Each line of the standard input is a list of
// inputs that it is given, or a number of inputs to which it goes back. The opening and each such line are answered by the lines of the frames that come with the
// last input, as in a recording, and of the close; or by one line {"fault":".."}, where the session stays as it was, but for `memory` and `broken`, which may
// close it. The exit status is 0, or 2 with a line of failure. SAXTEGUN_MODULE may name another module than out/saxtegun.wasm.
import { createInterface } from "node:readline";
import { Refusal, loadNamed, open, readInput, run, told } from "./streams.mjs";

const ORDERS = ["rows", "columns"];
const MOST_LINE = 1_048_576; // letters of a line that is answered

// What the words ask for.
function asked(words) {
  const isOrdered = words[0] === "--order", [index, game, ...more] = isOrdered ? words.slice(2) : words, order = isOrdered ? words[1] : "columns";
  if (!ORDERS.includes(order) || !/^[0-9]{1,9}$/.test(index ?? "") || game === undefined || more.length > 0) throw new Refusal("bad command line");
  return { order, index: Number(index), game };
}

// Writes what came of a call.
function tell({ frames, close, fault }) {
  const lines = fault === null ? [...frames, close] : [{ fault }];
  told({ lines: new TextEncoder().encode(lines.map((line) => `${JSON.stringify(line)}\n`).join("")), status: 0, fault: null });
}

// What a line asks of a session.
function answerTo(session, line) {
  if (line.length > MOST_LINE) throw new Refusal("bad line");
  try {
    const value = JSON.parse(line);
    return Array.isArray(value) ? session.give(value) : session.back(value);
  } catch (error) {
    if (error instanceof SyntaxError || error instanceof TypeError) throw new Refusal("bad line");
    throw error;
  }
}

async function keepOpen(words) {
  const { order, index, game } = asked(words), source = new TextDecoder().decode(readInput(open(game)));
  const { session, ...opened } = (await loadNamed()).open({ source, index, inputs: [] }, { order });
  tell(opened);
  if (session === null) return 0;
  try {
    for await (const line of createInterface({ input: process.stdin, crlfDelay: Infinity })) tell(answerTo(session, line));
  } finally {
    process.stdin.destroy(); // it would keep this from ending
  }
  return 0;
}

await run(keepOpen);
