// @ts-check
// Runs the page: after each change of the state the engine is asked for what is wanted of it, the state is drawn, and it is kept.
import { playedInParts } from "./parts.mjs";
import { answered, isWanted, wantedPlay } from "./replaying.mjs";
import { coverageCame, isCoverageWanted, isStagesWanted, stagesCame, wantedCoverage, wantedStages } from "./staging.mjs";
import { isSolutionWanted, solutionCame, wantedSolution } from "./solving.mjs";
import { partsPlayed, seeing, suiteCame, unsolvedIn, wantedSuite } from "./suite.mjs";
import { held } from "./work.mjs";
/** @typedef {{ what?: string, wanted: any, controller: AbortController, done: number, total: number, isSlow: boolean, timer?: number }} Doing */

const SLOW = 500; // milliseconds, after which it is said that something is being played
const TYPING_PAUSE = 250; // milliseconds without a letter, after which what was typed is played

export class Runner {
  // engine.play, engine.stages, engine.acted and engine.solution, each of (request, signal), and engine.playAll(bytes, { order, signal, progress }) are asked;
  // draw(state, doing, isBusy, isKey) shows what there is, and keep(state, isPlaying) keeps it, where `isPlaying` is whether something is played that isn't over
  // in a moment.
  constructor(state, { engine, draw, keep, pause = TYPING_PAUSE }) {
    /** @type {import("./state").State} */
    this.state = state;
    this.engine = engine;
    this.draw = draw;
    this.keep = keep;
    this.pause = pause;
    /** @type {{ [what in "play" | "suite" | "stages" | "coverage" | "solution" | "reading"]: Doing | null } & { isTyping: boolean }} */
    this.doing = { play: null, suite: null, stages: null, coverage: null, solution: null, reading: null, isTyping: false }; // what is asked now: { wanted, controller, done, total, isSlow }
    this.timer = 0;
    this.coming = 0; // files that are being read
    /** @type {Promise<unknown>} */
    this.read = Promise.resolve(); // what came before, once it is read
    this.waiting = [];
  }

  // Takes the state to its next, by a function; by that of a key, or of what it led to, where that is told.
  /** @type {(act: (state: import("./state").State) => import("./state").State, isKey?: boolean) => void} */
  update(act, isKey = false) {
    this.state = seeing(act(this.state));
    this.ask();
    this.show(isKey);
  }

  // Takes what is typed, which is read and played once nothing more is typed for a while.
  type(act) {
    clearTimeout(this.timer);
    this.doing.isTyping = true;
    this.timer = setTimeout(() => {
      this.doing.isTyping = false;
      this.update((state) => state);
    }, this.pause);
    this.update(act);
  }

  // Counts as busy until something that comes to the page is there.
  async during(coming) {
    this.coming += 1;
    this.show();
    await coming.finally(() => { this.coming -= 1; });
    this.show();
  }

  // Reads something that came, by read(signal, progress), behind what came before; `what` says what is done. It is null where it was stopped.
  /** @type {<Answer>(what: string, read: (signal: AbortSignal, progress: (...told: number[]) => void) => Promise<Answer>) => Promise<Answer>} */
  reading(what, read) {
    const answer = this.read.then(() => this.readNow(what, read));
    this.read = answer.catch(() => {});
    return answer;
  }

  /** @type {<Answer>(what: string, read: (signal: AbortSignal, progress: (...told: number[]) => void) => Promise<Answer>) => Promise<Answer>} */
  async readNow(what, read) {
    /** @type {Doing} */
    const doing = { what, wanted: null, controller: new AbortController(), done: 0, total: 0, isSlow: false };
    doing.timer = setTimeout(() => this.showSlow(doing), SLOW);
    this.doing.reading = doing;
    try {
      return await read(doing.controller.signal, (done, total) => this.progress(doing, done, total));
    } finally {
      clearTimeout(doing.timer);
      this.doing.reading = null;
    }
  }

  progress(doing, done, total) {
    Object.assign(doing, { done, total });
    this.draw(this.state, this.doing, true);
  }

  show(isKey = false) {
    this.draw(this.state, this.doing, this.isBusy || this.coming > 0, isKey);
    this.keep(this.state, this.isSlow);
    if (!this.isBusy) this.waiting.splice(0).forEach((settle) => settle());
  }

  // Whether something is played that isn't over in a moment: a browser may end before that, and at the next visit it is held then.
  get isSlow() {
    return [this.doing.play, this.doing.suite].some((doing) => doing?.isSlow);
  }

  get isBusy() {
    const { play, suite, stages, reading, isTyping } = this.doing;
    return isTyping || play !== null || suite !== null || stages !== null || reading !== null;
  }

  // Settles once nothing is typed, asked or wanted.
  idle() {
    return this.isBusy ? new Promise((settle) => this.waiting.push(settle)) : Promise.resolve();
  }

  ask() {
    if (this.doing.isTyping) return;
    this.askPlay();
    this.askSuite();
    this.askFor("stages", wantedStages, isStagesWanted, (...words) => this.engine.stages(...words), stagesCame);
    this.askFor("solution", wantedSolution, isSolutionWanted, (...words) => this.engine.solution(...words), solutionCame);
    this.askFor("coverage", wantedCoverage, isCoverageWanted, (...words) => this.engine.acted(...words), coverageCame);
  }

  // Asks the engine what a state wants of it, and takes the answer to the state.
  askFor(name, wantedOf, isStillWanted, ask, came) {
    this.begin(name, wantedOf(this.state), (wanted) => isStillWanted(this.state, wanted), async ({ wanted, controller }) => {
      const answer = await ask(wanted, controller.signal);
      return (state) => came(state, wanted, answer);
    });
  }

  // Begins what is wanted where something else is asked now, which is ended.
  begin(name, wanted, isSame, act) {
    const doing = this.doing[name];
    if (doing !== null && wanted !== null && isSame(doing.wanted)) return;
    this.leave(name);
    if (wanted === null) return;
    const next = { wanted, controller: new AbortController(), done: 0, total: 0, isSlow: false };
    next.timer = setTimeout(() => this.showSlow(next), SLOW);
    this.doing[name] = next;
    act(next).then((answer) => this.end(name, next, answer));
  }

  showSlow(doing) {
    doing.isSlow = true;
    this.show();
  }

  leave(name) {
    clearTimeout(this.doing[name]?.timer);
    this.doing[name]?.controller.abort();
    this.doing[name] = null;
  }

  end(name, doing, act) {
    if (this.doing[name] !== doing) return;
    clearTimeout(doing.timer);
    this.doing[name] = null;
    this.update(act, doing.wanted.isKey ?? false);
  }

  askPlay() {
    this.askFor("play", wantedPlay, isWanted, (...words) => this.engine.play(...words), answered);
  }

  askSuite() {
    const { file, text, order, isTicked } = this.state;
    const isSame = (wanted) => wanted.file === file && wanted.order === order && wanted.isTicked === isTicked && (wanted.text === text || !file?.isOverAGame);
    this.begin("suite", wantedSuite(this.state), isSame, async (doing) => {
      const { wanted, controller: { signal } } = doing, begun = performance.now();
      doing.total = wanted.file.entries.length;
      const progress = (done, total) => this.progress(doing, done, total);
      const answer = await this.playSuite(wanted, { order: wanted.order, signal, progress }).catch((error) => ({ fault: error.message, lines: null }));
      return (state) => suiteCame(state, wanted, answer, performance.now() - begun);
    });
  }

  // How all sessions closed, and which of them must be solved and aren't.
  async playSuite(wanted, options) {
    const answer = await this.playFile(wanted, options), again = (file) => this.playFile({ ...wanted, file }, { ...options, progress: () => {} });
    const demanded = answer?.fault === null ? await unsolvedIn(wanted.file, answer.lines, again) : answer;
    return demanded && { ...answer, ...demanded };
  }

  async playFile(wanted, options) {
    const count = wanted.file.entries.length, parts = await partsPlayed(wanted, options.signal);
    return parts === null ? null : playedInParts(this.engine, parts, count, options);
  }

  // Ends what is read or played, at the wish of whoever sits before the page.
  stopPlay() {
    const { reading } = this.doing;
    if (reading === null) this.update(held);
    else reading.controller.abort();
  }

  stopSuite() {
    const wanted = this.doing.suite?.wanted;
    if (wanted === undefined) return;
    this.leave("suite");
    this.update((state) => suiteCame(state, wanted, null, 0));
  }
}
