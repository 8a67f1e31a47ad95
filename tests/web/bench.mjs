// @ts-check
// The page without a browser: its state, played by the module in Node, with what is drawn left out. For the tests of the page's logic.
import { readFileSync } from "node:fs";
import { withComparison } from "../../web/filing.mjs";
import { keptOf, stateFrom } from "../../web/kept-work.mjs";
import { runsIn } from "../../web/lines.mjs";
import { runWithFrames } from "../../web/suite.mjs";
import { KeptOpen } from "../../web/kept-open.mjs";
import { actedBy, playedBy, solutionBy, stagesBy } from "../../web/page-engine.mjs";
import { partingOf } from "../../web/comparing.mjs";
import { Runner } from "../../web/running.mjs";
import { beginning } from "../../web/work.mjs";
import { module } from "./module.mjs";

const TOP = new URL("../../", import.meta.url);

export { module };
export const read = (name) => readFileSync(new URL(name, TOP));
export const GAME = read("examples/day/game.txt").toString();
/** @type {import("../../web/state").Input[]} */
export const INPUTS = [0, 1, 2, 3, 4, "undo", "restart", "tick"];
/** @type {import("../../web/state").Order[]} */
export const ORDERS = ["rows", "columns"];

// What the program makes of sessions: how each closed.
export function closesOf(entries, order) {
  const { lines, fault } = module.replay(JSON.stringify(entries), { order });
  if (fault !== null) return fault;
  return new TextDecoder().decode(lines).split("\n").filter((line) => line.includes('"close":')).map((line) => JSON.parse(line).close);
}

// What comes of another engine's lines, at once.
export function comparedWithLines(state, name, text) {
  const others = runsIn(text), { suite } = state;
  return withComparison(state, { name, suite, others, partings: others.map((other, number) => partingOf(runWithFrames(suite, number), other)) });
}

export class Bench {
  constructor(state = beginning(GAME)) {
    const [stages, acted, solution] = [stagesBy, actedBy, solutionBy].map((answer) => async (wanted) => answer(module, wanted)), open = new KeptOpen(module);
    const play = async (wanted) => {
      const answer = open.played(wanted) ?? playedBy(module, wanted);
      open.follow(wanted);
      return answer;
    };
    this.engine = { play, stages, acted, solution, playAll: async (bytes, { order }) => module.replay(bytes, { order }) };
    this.begin(state);
  }

  begin(state) {
    this.runner = new Runner(state, { engine: this.engine, draw: () => {}, keep: (now, isPlaying) => { this.kept = keptOf(now, isPlaying); }, pause: 0 });
    this.runner.update((now) => now);
  }

  get state() {
    return this.runner.state;
  }

  // Does something to the state, and waits until all is played.
  async act(change, ...words) {
    this.runner.update((state) => change(state, ...words));
    await this.runner.idle();
    return this.state;
  }

  // Leaves the page, and visits it again.
  async reload() {
    this.begin(stateFrom(structuredClone(this.kept), this.state.example));
    await this.runner.idle();
  }
}
