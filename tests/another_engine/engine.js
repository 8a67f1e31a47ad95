// @ts-check
"use strict";
// An engine that isn't ours in shape, for tests of the adapter: its levels are rows of numbers, its calls are promises, and what is wrong it throws.
// It knows a player who pushes one crate, and no other rule.

const BITS = { player: 1, wall: 2, crate: 4 };
const STEPS = { up: [0, -1], left: [-1, 0], down: [0, 1], right: [1, 0], action: [0, 0] };

class SourceError extends Error {
  constructor(code, line) {
    super(`${code} in line ${line}`);
    this.code = code;
    this.line = line;
  }
}

const soon = () => new Promise((done) => setImmediate(done));

class World {
  static async open(text) {
    await soon();
    const [head, levels] = text.split(/^LEVELS$/m);
    if (levels === undefined) throw new SourceError("Section", 0);
    const letters = {};
    for (const [, name, letter] of head.matchAll(/^(\w+) (\S)$/gm)) letters[letter] = BITS[name.toLowerCase()] || 0;
    const boards = levels.trim().split("\n\n").map((block) => block.split("\n").map((row) => [...row].map((it) => letters[it])));
    return new World(boards, head.includes("[ > Player | Crate ] ->"));
  }

  constructor(boards, canPush) {
    this.boards = boards;
    this.canPush = canPush;
    this.past = [];
  }

  async enter(number) {
    await soon();
    this.first = this.boards[number];
    this.board = structuredClone(this.first);
  }

  async act(name) {
    await soon();
    if (name === "undo") {
      this.board = this.past.pop() || this.board;
      return;
    }
    if (name !== "restart" && !STEPS[name]) throw new Error(`there is no act ${name}`);
    const before = structuredClone(this.board);
    if (name === "restart") this.board = structuredClone(this.first);
    else this.step(STEPS[name]);
    if (JSON.stringify(before) !== JSON.stringify(this.board)) this.past.push(before);
  }

  step([across, down]) {
    const y = this.board.findIndex((row) => row.includes(BITS.player));
    const x = this.board[y].indexOf(BITS.player);
    if (this.canPush && this.cell(x + across, y + down) === BITS.crate) this.shift(x + across, y + down, across, down);
    this.shift(x, y, across, down);
  }

  cell(x, y) {
    return (this.board[y] || [])[x];
  }

  shift(x, y, across, down) {
    if (this.cell(x + across, y + down) !== 0) return;
    this.board[y + down][x + across] = this.board[y][x];
    this.board[y][x] = 0;
  }
}

module.exports = { BITS, SourceError, World };
