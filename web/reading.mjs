// @ts-check
// A long file is read by a worker, so that the page answers meanwhile, and doesn't begin with what it would stand still for.
import { Game } from "./game.mjs";
import { handed } from "./handing.mjs";
import { MOST_OF_READING } from "./limits.mjs";
import { Refusal } from "./session-file.mjs";

const LONG = 65_536; // bytes of a file that is read so: none of fewer takes long

// The texts of games that the page reads where a file is opened.
/** @type {(read: import("./handing.mjs").Handed) => any[]} */
const textsOf = ({ kind, text, entries = [] }) => (kind === "game" ? [text] : [...new Set(entries.map(({ source }) => source))].filter((source) => source.length > LONG));

// What a worker answers: what a file is taken for, or why it isn't.
/** @type {(file: { name: string, bytes: any, text: string }) => import("./handing.mjs").Handed} */
export function readFile({ name, bytes, text }) {
  try {
    const it = handed(name, bytes, text);
    textsOf(it).forEach((source) => new Game(source));
    return it;
  } catch (error) {
    if (!(error instanceof Refusal)) throw error;
    return { kind: "refused", why: error.message };
  }
}

const slowTold = (name) => `${name} keeps its reader busy for over ${MOST_OF_READING / 1000} seconds: play it by the command`;

// Reads files in workers of their own, which begin() gives: read(file, signal) is what a file is taken for, or null where that was stopped.
export function readerIn(begin, module, most = MOST_OF_READING) {
  return (file, signal) => new Promise((settle, refuse) => {
    const worker = begin(), end = (act, answer) => {
      clearTimeout(timer);
      worker.terminate();
      act(answer);
    };
    const fail = () => end(refuse, new Refusal(slowTold(file.name))), timer = setTimeout(fail, most);
    worker.onmessage = ({ data }) => (data.kind === "refused" ? end(refuse, new Refusal(data.why)) : end(settle, data));
    worker.onerror = (event) => {
      event.preventDefault();
      fail();
    };
    signal.addEventListener("abort", () => end(settle, null));
    worker.postMessage({ module });
    worker.postMessage({ file });
  });
}

// What a file is taken for beside this text, by read(file, signal) where it is long.
export const readBeside = async (text, name, bytes, read, signal) => (bytes.length < LONG ? handed(name, bytes, text) : read({ name, bytes, text }, signal));
