#!/usr/bin/env node
// @ts-check
// engine/replay.mjs [--workers N] [--order rows|columns] [FILE]: the program's command line, lines and exit statuses, for Node 20 and later. With more than one
// worker a file is cut and its parts are played side by side; without the option one plays. Of a standard stream that is closed Node doesn't know.
// SAXTEGUN_MODULE may name another module than out/saxtegun.wasm, in whose place a clone in which it isn't built has the released one.
import { Refusal, loadNamed, open, readInput, run, told } from "./streams.mjs";

const OPTION = /^(--order|--workers)(?:=(.*))?$/s;
const WORKERS = /^\+?0*([1-9]|[1-5][0-9]|6[0-4])$/;

function isValue(option, value) {
  return option === "--order" ? value === "rows" || value === "columns" : WORKERS.test(value ?? "");
}

// What the words of the command line say.
function readOptions(words) {
  const chosen = {}, files = [];
  while (words.length > 0) {
    const word = words.shift();
    const [, option, joined] = OPTION.exec(word) ?? [];
    if (option) {
      const value = joined ?? words.shift();
      if (option in chosen || !isValue(option, value)) throw new Refusal("bad command line");
      chosen[option] = value;
    } else if (word === "--") {
      files.push(...words.splice(0));
    } else if (word.startsWith("-") && word !== "-") {
      throw new Refusal("bad command line");
    } else {
      files.push(word);
    }
  }
  if (files.length > 1) throw new Refusal("bad command line");
  return { order: chosen["--order"] ?? "columns", workers: Number(chosen["--workers"] ?? 1), file: files[0] };
}

async function play(words) {
  const { order, workers, file } = readOptions(words), input = readInput(open(file)), engine = await loadNamed();
  return told(workers > 1 ? await engine.replayInWorkers(input, { order, workers }) : engine.replay(input, { order }));
}

await run(play);
