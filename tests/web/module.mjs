// @ts-check
// The module that is there, or undefined. The page reads texts by it.
import { existsSync, readFileSync } from "node:fs";
import { load } from "../../engine/saxtegun.mjs";
import { readBy } from "../../web/descriptions.mjs";

const found = ["engine/out/saxtegun.wasm", "released/saxtegun.wasm"].map((name) => new URL(`../../${name}`, import.meta.url)).find((it) => existsSync(it));

export const module = found && (await load(await WebAssembly.compile(readFileSync(found))));
readBy(module);
