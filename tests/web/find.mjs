// @ts-check
// What the page finds in texts that standard input has as a list of JSON: for each what it took and what it skipped.
import { readFileSync } from "node:fs";
import { findingsIn } from "../../web/console.mjs";

process.stdout.write(JSON.stringify(JSON.parse(readFileSync(0, "utf-8")).map(findingsIn)));
