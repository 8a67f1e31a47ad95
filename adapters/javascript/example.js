#!/usr/bin/env node
// @ts-check
"use strict";
// How an engine is plugged in: a player who pushes crates, in the game of examples/block-pushing.json and in no other.

const { readFileSync } = require("fs");
const { join } = require("path");
const { serve } = require("./program.js");

const [[, [SOURCE]]] = JSON.parse(readFileSync(join(__dirname, "../../examples/block-pushing.json"), "utf8"));
const STEPS = [[0, -1], [-1, 0], [0, 1], [1, 0]];
const GLYPHS = {
  ".": [], "#": ["wall"], P: ["player"], "*": ["crate"], "@": ["crate", "target"], O: ["target"],
};
const DRAWN = [
  "####.. #.O#.. #..### #@P..# #..*.# #..### ####..",
  "###### #....# #.#P.# #.*@.# #.O@.# #....# ######",
];

// The levels of the game, each as columns of cells, which are sets of names.
function levels() {
  return DRAWN.map((drawn) => {
    const rows = drawn.split(" ");
    return Array.from(rows[0], (_, column) => rows.map((row) => new Set(["background", ...GLYPHS[row[column]]])));
  });
}

const shown = (level) => ({ width: level.length, height: level[0].length, at: (column, row) => level[column][row] });

const isSolved = (level) => level.flat().every((cell) => !cell.has("target") || cell.has("crate"));

// The level after a step; a crate pushes none.
function pushed(before, [across, down]) {
  const level = before.map((column) => column.map((cell) => new Set(cell)));
  const move = (name, column, row) => {
    const aim = level[column + across][row + down];
    if (["wall", "crate", "player"].some((it) => aim.has(it))) return;
    level[column][row].delete(name);
    aim.add(name);
  };
  const column = level.findIndex((cells) => cells.some((cell) => cell.has("player")));
  const row = level[column].findIndex((cell) => cell.has("player"));
  if (level[column + across][row + down].has("crate")) move("crate", column + across, row + down);
  move("player", column, row);
  return level;
}

const isSame = (one, other) => one.every((column, x) => column.every((cell, y) => cell.size === other[x][y].size && [...cell].every((it) => other[x][y].has(it))));

serve((entry, frame) => {
  if (entry.source !== SOURCE) throw new Error("this engine plays one game alone, that of examples/block-pushing.json");
  const ahead = levels().slice(entry.index);
  let level = ahead.shift();
  let past = [];
  let isOver = false;
  frame(0, "start", shown(level));
  entry.inputs.forEach((input, taken) => {
    if (isOver) {
      frame(taken + 1, "over", shown(level));
      return;
    }
    if (input === "undo") {
      level = past.pop() || level;
      frame(taken + 1, "undo", shown(level));
      return;
    }
    const before = level;
    level = pushed(before, STEPS[input]);
    if (!isSame(before, level)) past.push(before);
    frame(taken + 1, "move", shown(level));
    isOver = ahead.length === 0 && isSolved(level);
    if (ahead.length > 0 && isSolved(level)) {
      level = ahead.shift();
      past = [];
      frame(taken + 1, "load", shown(level));
    }
  });
});
