// @ts-check
// Plays a sessions file and prints the sessions that didn't pass: node examples/script.mjs FILE
import { readFileSync } from "node:fs";
import { pathToFileURL } from "node:url";
import { load, parse } from "../engine/saxtegun.mjs";

// SAXTEGUN_MODULE may name another module than engine/out/saxtegun.wasm
const { SAXTEGUN_MODULE } = process.env, engine = await load(SAXTEGUN_MODULE && pathToFileURL(SAXTEGUN_MODULE));
const { status, lines, fault } = engine.replay(readFileSync(process.argv[2]));
if (fault) console.error(fault);
// what would move a cursor in a terminal stands there by its number
const readable = (name) => name.replace(/\p{C}/gu, (letter) => `\\u{${letter.codePointAt(0).toString(16)}}`);
for (const { close, name } of parse(lines)) {
  if (close && close !== "passed") console.log(`${close}: ${readable(name)}`);
}
process.exitCode = status;
