#!/usr/bin/env node
// @ts-check
"use strict";
const { serve } = require("../../adapters/javascript/program.js");
const { BITS, SourceError, World } = require("./engine.js");

const ACTS = ["up", "left", "down", "right", "action"];

// A board of the engine as the adapter wants a level.
const shown = (rows) => ({
  width: rows[0].length,
  height: rows.length,
  at: (column, row) => ["background", ...Object.keys(BITS).filter((name) => rows[row][column] & BITS[name])],
});

serve(async (entry, frame) => {
  try {
    const world = await World.open(entry.source);
    await world.enter(entry.index);
    frame(0, "start", shown(world.board));
    for (const [taken, input] of entry.inputs.entries()) {
      await world.act(ACTS[input] || input);
      frame(taken + 1, input === "undo" || input === "restart" ? input : "move", shown(world.board));
    }
  } catch (why) {
    if (why instanceof SourceError) return ["refused", `${why.code}:${why.line}`];
    throw why;
  }
  return null;
});
