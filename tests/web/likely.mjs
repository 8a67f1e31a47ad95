// @ts-check
// The likely difference of sessions that standard input has as a list of JSON: [source, inputs, the frames].
import { readFileSync } from "node:fs";
import { likelyTold } from "../../web/differences.mjs";
import { Game } from "../../web/game.mjs";
import "./module.mjs";

process.stdout.write(JSON.stringify(JSON.parse(readFileSync(0, "utf-8")).map(([source, inputs, frames]) => likelyTold({ source, game: new Game(source), inputs, frames }))));
