// @ts-check
// Reads a list of [cause, source, inputs, frames] on standard input, and writes what web/ says of each.
import { readFileSync } from "node:fs";
import { culpritTold } from "../../web/faults.mjs";
import "./module.mjs";

const told = JSON.parse(readFileSync(0, "utf8")).map(([cause, source, inputs, frames]) => culpritTold(cause, { source, inputs, frames }));
process.stdout.write(JSON.stringify(told));
