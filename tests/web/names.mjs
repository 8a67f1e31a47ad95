// @ts-check
// The names that the page gives to recordings, which standard input has as entries of JSON: [name, source, inputs, level, index].
import { readFileSync } from "node:fs";
import { withOwnNames } from "../../web/findings.mjs";
import "./module.mjs";

const recordings = JSON.parse(readFileSync(0, "utf-8")).map(([name, source, inputs, level, index]) => ({ name, source, inputs, level, index }));
process.stdout.write(JSON.stringify(withOwnNames(recordings, "").map(({ name }) => name)));
