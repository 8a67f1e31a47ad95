// @ts-check
// Reads a list of sources on standard input, and writes what web/ reads in each.
import { readFileSync } from "node:fs";
import { Game, entriesOfLevels } from "../../web/game.mjs";
import "./module.mjs";

const told = JSON.parse(readFileSync(0, "utf8")).map((source) => {
  const game = new Game(source);
  return { title: game.title, notes: game.notes, look: game.look(), levels: entriesOfLevels(source) };
});
process.stdout.write(JSON.stringify(told));
