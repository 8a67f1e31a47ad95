// @ts-check
// The engine in the page: the module that stands in it. Games are played in workers alone, so that the page answers whatever a game does.
import { load } from "../engine/saxtegun.mjs";
import { readBy } from "./descriptions.mjs";
import { at } from "./elements.mjs";
import { framesTold, handedOver, isLevelLonger, takenOver } from "./frames-of-lines.mjs";
import { KeptOpen, ONE_MORE } from "./kept-open.mjs";
import { MOST_INPUTS, MOST_OF_A_LEVEL, MOST_OF_A_RECORDING, MOST_TAKEN } from "./limits.mjs";
import { readFile, readerIn } from "./reading.mjs";
import { there } from "./there.mjs";
import { playedText } from "./ticks.mjs";

/** @typedef {import("../engine/saxtegun").Engine} Engine */
/** @typedef {import("./state").Asked} Asked */

export const PLAYER = "saxtegun-player"; // the name of the workers that play for the page

const FEW = 131_072; // bytes of a sessions file that one worker plays
const SOON = 400; // milliseconds that it may take for it
const MOMENT = 30; // milliseconds for which inputs are looked through before it is told what came of it
const GRACE = 100; // milliseconds that a worker has to end what isn't wanted any more
const IDLE = 200; // milliseconds without a question, after which a session is opened for the keys that may come; behind a key it is opened at once

// The module, which stands in the page compressed.
async function moduleBytes() {
  const packed = Uint8Array.from(atob(there(at("module").textContent)), (letter) => letter.charCodeAt(0));
  return new Response(new Blob([packed]).stream().pipeThrough(new DecompressionStream("deflate"))).arrayBuffer();
}

const refusedPlay = (fault) => ({ frames: [], cause: `engine:${fault}`, isSolved: false });

// The answer of a worker that has none to give, whatever it was asked.
const noAnswer = (fault) => ({ ...refusedPlay(fault), stages: [], solution: null, fault, lines: null });
const BROKEN = noAnswer("broken");

const WIDE = /[^\0-\xff]/; // a letter beside which each letter of a text takes two bytes

const roomOfText = (text) => (WIDE.test(text) ? 2 : 1) * text.length;

// The room of levels: of those that stand in lines, which are one list of bytes, that of the lines.
const roomOfLevels = (items) => items.reduce((sum, item) => sum + (item.size ?? roomOfText(item.level ?? "")), 0);

// An answer as it is handed to the page, which takes what it is handed, and reads the texts of levels, on its own thread: one that takes it long is none.
export function readableAnswer(answer) {
  const { frames = [], stages = [] } = answer, isLong = (shown) => isLevelLonger(shown, MOST_OF_A_LEVEL);
  if (stages.reduce((sum, { headings = [], lines = [] }) => sum + 1 + headings.length + lines.length, frames.length) > MOST_TAKEN) return noAnswer("memory");
  if (frames.some(isLong) || stages.some(isLong)) return noAnswer("long-level");
  return roomOfLevels(frames) + roomOfLevels(stages) > MOST_OF_A_RECORDING ? noAnswer("memory") : answer;
}

// What the engine makes of a recording: { frames, cause, isSolved }. A fault of the engine is a cause that begins with `engine:`.
/** @type {(engine: Engine, asked: Asked & { from: number }) => { frames: object[], cause: string | null, isSolved: boolean }} */
export function playedBy(engine, { source, index, order, inputs, from, isTicked }) {
  const played = inputs.length >= MOST_INPUTS ? inputs : [...inputs, ONE_MORE], text = playedText(source, isTicked);
  const whole = () => framesTold(engine.replay(JSON.stringify([["", [text, played, "", index]]]), { order, most: MOST_OF_A_RECORDING }));
  /** @type {{ frames: { at: number, kind: string }[], close: { cause?: string } | null, fault: string | null }} */
  const { frames, close, fault } = from === 0 ? whole() : engine.frames({ source: text, index, inputs: played }, { order, from });
  if (fault !== null) return refusedPlay(fault);
  return { frames: frames.filter((frame) => frame.at <= inputs.length), cause: close?.cause ?? null, isSolved: frames.at(-1)?.kind === "over" };
}

// The stages of some inputs of a recording: { stages, fault }.
/** @type {(engine: Pick<Engine, "stages">, asked: Asked & { numbers: number[] }) => { stages: object[], fault: string | null }} */
export function stagesBy(engine, { source, index, order, inputs, isTicked, numbers }) {
  const session = { source: playedText(source, isTicked), index, inputs }, answers = numbers.map((number) => engine.stages(session, number, { order }));
  const fault = answers.find((answer) => answer.fault !== null)?.fault ?? null;
  return { stages: fault === null ? answers.flatMap(({ stages }) => stages) : [], fault };
}

// The lines of rules that acted, for each of some inputs from one on, as many as are looked through in a moment: { lines, fault }.
/** @type {(engine: Pick<Engine, "stages">, asked: Asked & { from: number, count: number }) => { lines: number[][], fault: string | null }} */
export function actedBy(engine, { source, index, order, inputs, isTicked, from, count }) {
  const played = playedText(source, isTicked), lines = [];
  for (const begin = performance.now(); from + lines.length < count && (lines.length === 0 || performance.now() - begin < MOMENT);) {
    const number = from + lines.length, { stages, fault } = engine.stages({ source: played, index, inputs: inputs.slice(0, number) }, number, { order });
    if (fault !== null) return { lines, fault };
    lines.push([...new Set(stages.flatMap((stage) => ("lines" in stage ? stage.lines ?? [] : [])))]);
  }
  return { lines, fault: null };
}

// What wins a recording from where it ends, and the frames that this shows: { solution, frames, fault }.
/** @type {(engine: Engine, asked: Asked) => { solution: import("./state").Found | null, frames: import("../engine/saxtegun").Frame[], fault: string | null }} */
export function solutionBy(engine, { source, index, order, inputs, isTicked }) {
  if (!engine.hasSolutions) return { solution: null, frames: [], fault: "no-solutions" };
  const played = playedText(source, isTicked), found = engine.solution({ source: played, index, inputs }), presses = /** @type {import("./state").Found | null} */ (found.solution)?.solved;
  if (presses === undefined) return { ...found, frames: [] };
  const shown = engine.frames({ source: played, index, inputs: [...inputs, ...presses] }, { order, from: inputs.length + 1 });
  return { solution: shown.fault === null ? found.solution : null, frames: shown.frames, fault: shown.fault };
}

// A worker that answers one question at a time. One whose answer isn't wanted any more is given a moment, and then ended, whatever it does.
class PlayerThread {
  constructor(begin, module) {
    this.begin = begin;
    this.module = module;
    this.worker = null;
    this.last = Promise.resolve();
  }

  start() {
    this.worker = this.begin(PLAYER);
    this.worker.postMessage({ module: this.module });
  }

  end() {
    this.worker?.terminate();
    this.worker = null;
  }

  async ask(question, signal) {
    const before = this.last;
    /** @type {(value?: unknown) => void} */
    let settled = () => {};
    this.last = new Promise((settle) => { settled = settle; });
    await before;
    try {
      return signal.aborted ? null : await this.answer(question, signal);
    } finally {
      settled();
    }
  }

  answer(question, signal) {
    if (this.worker === null) this.start();
    return new Promise((settle) => {
      const leave = (answer) => {
        this.end();
        settle(answer);
      };
      let timer = 0;
      this.worker.onmessage = ({ data }) => {
        clearTimeout(timer);
        settle(takenOver(data));
      };
      this.worker.onerror = (event) => {
        event.preventDefault();
        leave(BROKEN);
      };
      this.worker.onmessageerror = () => leave(BROKEN);
      signal.addEventListener("abort", () => { timer = setTimeout(() => leave(null), GRACE); });
      this.worker.postMessage(question);
    });
  }
}

// Hands an answer to the page, or that there is none where it is larger than may be handed over.
function hand(answer) {
  const { answer: handed, parts } = handedOver(answer);
  try {
    globalThis.postMessage(handed, parts);
  } catch {
    globalThis.postMessage(BROKEN);
  }
}

// What the worker does: it answers whatever it is asked, also where it can't. Behind what it played it keeps a session open, to which a key is given alone.
export function servePlayer() {
  let engine = null, open = null, timer = 0;
  const answerTo = async ({ wanted, staged, covered, sought, bytes, order, most }) => {
    const module = await engine;
    if (wanted) return (await open).played(wanted) ?? playedBy(module, wanted);
    if (staged) return stagesBy(module, staged);
    if (sought) return solutionBy(module, sought);
    return covered ? actedBy(module, covered) : module.replay(bytes, { order, most });
  };
  const follow = (wanted) => open.then((kept) => kept.follow(wanted)).catch(() => {});
  globalThis.addEventListener("message", async ({ data }) => {
    if (data.wanted) clearTimeout(timer);
    if (data.module) {
      engine = load(data.module);
      engine.then(readBy).catch(() => {});
      open = engine.then((module) => new KeptOpen(module));
      open.catch(() => {});
      return;
    }
    if (data.file) {
      await engine;
      globalThis.postMessage(readFile(data.file));
      return;
    }
    hand(await answerTo(data).then(readableAnswer).catch(() => BROKEN));
    if (data.wanted) timer = setTimeout(follow, data.wanted.from > 0 ? 0 : IDLE, data.wanted);
  });
}

// The answer to a question, or null where it takes too long, or isn't wanted any more.
async function soon(thread, question, signal) {
  const ending = new AbortController(), end = () => ending.abort();
  signal.addEventListener("abort", end);
  const timer = setTimeout(end, SOON);
  const answer = await thread.ask(question, ending.signal);
  clearTimeout(timer);
  signal.removeEventListener("abort", end);
  return answer;
}

// What answers searches: each has a worker of its own, with which what it has kept is given back, and so gets no answer of another.
export function searchesIn(begin, module) {
  return async (question, signal) => {
    const solver = new PlayerThread(begin, module), answer = await solver.ask({ sought: question }, signal);
    solver.end();
    return answer;
  };
}

// Loads the module. Workers are started from the page's own script, which does nothing but play in them.
export async function startEngine() {
  const module = await WebAssembly.compile(await moduleBytes());
  const address = URL.createObjectURL(new Blob([there(at("script").textContent)], { type: "text/javascript" }));
  const begin = (name) => new Worker(address, { name });
  const engine = await load(module, { worker: begin }), [player, few] = [new PlayerThread(begin, module), new PlayerThread(begin, module)];
  readBy(engine);
  // few sessions are played by a worker that is there already
  const playAll = async (bytes, options) => {
    const answer = bytes.length > FEW ? null : await soon(few, { bytes, order: options.order, most: options.most }, options.signal);
    return answer ?? engine.replayInWorkers(bytes, options);
  };
  const asked = (kind) => (question, signal) => player.ask({ [kind]: question }, signal);
  return { play: asked("wanted"), stages: asked("staged"), acted: asked("covered"), solution: searchesIn(begin, module), read: readerIn(() => begin(PLAYER), module), playAll };
}
