// @ts-check
// The cases of conformance/, as conformance/README.md says what stands in a file.
import { readFileSync, readdirSync } from "node:fs";

const CASES = new URL("../../conformance/cases/", import.meta.url);

/** @param {string} name */
export function readCase(name) {
  const value = JSON.parse(readFileSync(new URL(`${name}.json`, CASES), "utf8"));
  const { words, text = JSON.stringify(value.sessions), lines = [], message = "", status, room, length } = value;
  const shown = lines.map((line) => `${JSON.stringify(line)}\n`).join("");
  const isPlain = room === undefined && length === undefined;
  return { name, words, input: Buffer.from(text), lines: new TextEncoder().encode(shown), shown, message, status, isPlain };
}

// All cases but those that have files beside them, and those whose file is as long as one may be.
export function* plainCases() {
  for (const file of readdirSync(CASES).sort()) {
    const one = readCase(file.replace(/\.json$/, ""));
    if (one.isPlain) yield one;
  }
}
