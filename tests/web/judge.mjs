// @ts-check
// Reads { entries, recordings } on standard input, values and lines, and writes of each what web/ finds wrong with it, or null.
import { readFileSync } from "node:fs";
import { runsIn } from "../../web/lines.mjs";
import { faultOf } from "../../web/session-file.mjs";
import "./module.mjs";

function whyNoRecording(lines) {
  try {
    runsIn(lines);
    return null;
  } catch (error) {
    return error.message;
  }
}

const { entries, recordings } = JSON.parse(readFileSync(0, "utf8"));
process.stdout.write(JSON.stringify({ entries: entries.map((it) => faultOf(it)), recordings: recordings.map(whyNoRecording) }));
