// @ts-check
// The playground: a game is played, recorded and replayed, by the engine that stands in the page. What is clicked and pressed leads from one state to
// the next (work.mjs, suite.mjs), which is drawn (drawn.mjs), played (running.mjs) and kept (keeping.mjs).
import { Animation } from "./animating.mjs";
import { Drawn } from "./drawn.mjs";
import { Ghost } from "./ghost.mjs";
import { at, isMotionReduced, json } from "./elements.mjs";
import { PASTED, download, holdingDrops, takeFiles } from "./handing.mjs";
import { keptOf, stateFrom } from "./kept-work.mjs";
import { Store } from "./keeping.mjs";
import { listen } from "./listening.mjs";
import { PLAYER, servePlayer, startEngine } from "./page-engine.mjs";
import { readBeside } from "./reading.mjs";
import { Runner } from "./running.mjs";
import { Refusal, SessionFile } from "./session-file.mjs";
import { isFailure } from "./session-list.mjs";
import { RECORDINGS, comparing, savedLater, withComparison, withOtherFile, withRecordings } from "./filing.mjs";
import { framesOf, isAtEnd, shownOf } from "./replaying.mjs";
import { UNREADABLE, keepingTold } from "./page-words.mjs";
import { say } from "./saying.mjs";
import { linePointedAt, lookedAtActed, stageChosen } from "./staging.mjs";
import { sessionOpened } from "./suite.mjs";
import { there } from "./there.mjs";
import { RECORDED_ORDER, beginning, cutBack, edited, inOrder, lookedAt, lookedAtInput, pressed, released, withGame, withRefusal, withoutRefusals } from "./work.mjs";

const FRAME_PAUSE = 160; // milliseconds between two frames when playing

class Playground {
  constructor(state, engine, store) {
    this.engine = engine;
    this.store = store;
    this.timer = 0;
    this.kept = null;
    const acts = {
      open: (number) => this.act(sessionOpened, number), input: (taken) => this.act(lookedAtInput, taken), frame: (frame) => this.act(lookedAt, frame),
      stage: (number) => this.act(stageChosen, number), acted: (input) => this.act(lookedAtActed, input), point: (line) => this.act(linePointedAt, line),
      type: (text) => this.runner.type((now) => withoutRefusals(edited(now, text))),
    };
    this.page = new Drawn(acts);
    this.animation = new Animation(() => this.runner.show(), isMotionReduced);
    this.ghost = new Ghost(() => this.runner.show());
    this.runner = new Runner(state, { engine, draw: (...words) => this.draw(...words), keep: (...words) => this.keep(...words) });
  }

  get state() {
    return this.runner.state;
  }

  draw(state, doing, isBusy, isKey) {
    this.animation.follow(state);
    const seen = this.ghost.seen(this.animation.seen(state));
    if (isKey) this.page.drawSoon(seen, doing, isBusy);
    else this.page.draw(seen, doing, isBusy);
  }

  // Does something to the state by hand. Frames that are shown one after another stop, and what was said of files that came before is read by then.
  act(change, ...words) {
    this.taking((state) => withoutRefusals(change(state, ...words)));
  }

  // Does to the state what a file leads to.
  taking(change, ...words) {
    this.stopMoving();
    this.runner.update((state) => change(state, ...words));
  }

  // Does what a key does that may be held down.
  actByKey(change, ...words) {
    this.stopMoving();
    this.runner.update((state) => withoutRefusals(change(state, ...words)), true);
  }

  stopMoving() {
    this.pause();
    this.animation.end();
    this.ghost.end();
  }

  // Takes a key. What it led to before is shown to its end first; a message that comes there waits for a key of its own.
  press(input) {
    if (this.ghost.end()) return this.runner.show();
    if (this.animation.end() && this.state.messages.length > 0) return this.runner.show();
    return this.actByKey(pressed, input);
  }

  // ---- frames one after another

  pause() {
    clearInterval(this.timer);
    this.timer = 0;
    say("play", "Play");
  }

  playFrames() {
    this.ghost.end();
    if (this.timer !== 0) return this.pause();
    if (this.state.isHeld) return this.act(released);
    if (framesOf(this.state).length < 2) return null;
    if (isAtEnd(this.state)) this.act(lookedAt, 0);
    at("play").textContent = "Pause";
    this.timer = setInterval(() => {
      this.runner.update((state) => lookedAt(state, shownOf(state) + 1));
      if (isAtEnd(this.state)) this.pause();
    }, FRAME_PAUSE);
    return this.timer;
  }

  // Leaves out inputs; under a ghost it ends that first, as a key does.
  cut() {
    if (this.ghost.end()) this.runner.show();
    else this.actByKey(cutBack);
  }

  // Shows the presses that win, or no longer.
  haunt() {
    this.pause();
    this.animation.end();
    if (this.ghost.end()) this.runner.show();
    else this.ghost.begin(this.state);
  }

  step(count) {
    this.actByKey((state) => lookedAt(state, shownOf(state) + count));
  }

  // ---- sessions

  // Opens the next session that is listed, or the next failure.
  openNext(step, isFailureWanted) {
    const number = this.page.list.next(step, (row) => !isFailureWanted || isFailure(row));
    if (number !== null) this.act(sessionOpened, number);
  }

  // Saves the recording as a session, once all is played in the order of recorded levels.
  async save(number) {
    const asked = this.state;
    if (this.state.order !== RECORDED_ORDER) this.act(inOrder, RECORDED_ORDER);
    await this.runner.idle();
    this.taking(savedLater, asked, number);
    at("stage").focus({ preventScroll: true });
  }

  // Nothing tells whether the browser writes it, so it counts as changed as before.
  saveFile() {
    const { name, bytes } = there(this.state.file);
    download(name.endsWith(".json") ? name : RECORDINGS, bytes);
  }

  // ---- files, and what is kept

  // Takes a file by what is in it. Whatever goes wrong, it is said that it was not opened.
  async take(name, bytes) {
    try {
      const it = await this.runner.reading(`Reading ${name}`, (signal) => readBeside(this.state.text, name, bytes, this.engine.read, signal));
      if (it === null) throw new Refusal(`${name} was stopped while it was read`);
      if (it.kind === "recordings") this.taking(withRecordings, it.found, it.skipped);
      else if (it.kind === "sessions") this.taking(withOtherFile, new SessionFile(name, it.bytes, it.entries), name === PASTED);
      else if (it.kind === "lines") await this.compare(name, it.runs);
      else this.takeGame(it.text);
    } catch (error) {
      if (!(error instanceof Refusal)) console.error(error);
      this.refuse(error.message);
    }
  }

  // Compares another engine's lines with how the sessions went, once these are played.
  async compare(name, runs) {
    await this.runner.idle();
    const comparison = await this.runner.reading("Comparing sessions", (...words) => comparing(this.state, name, runs, ...words));
    if (comparison === null) throw new Refusal(`${name} was stopped while it was compared`);
    this.taking(withComparison, comparison);
  }

  // Says why a file isn't opened, until something else is done by hand: what comes beside it says nothing of that.
  refuse(why) {
    this.taking(withRefusal, why);
  }

  // Begins to read what one act of a hand has brought.
  during(begin) {
    this.act((state) => state);
    return this.runner.during(begin());
  }

  takeGame(text) {
    this.taking(withGame, text.replaceAll("\r\n", "\n"));
    at("stage").focus();
  }

  // Keeps what was made by hand, where that has changed.
  keep(state, isBusy) {
    const { text, order, work, queue, file, isUnsaved, past, tab, isTicked } = state, values = [text, order, work, queue, file, isUnsaved, past, tab, isTicked, isBusy];
    if (this.kept?.every((value, place) => value === values[place])) return;
    this.kept = values;
    this.store.keep(keptOf(state, isBusy), (isKept) => say("promise", keepingTold(isKept)));
  }
}

async function start() {
  const release = holdingDrops(), example = json("example-game"), [engine, store] = await Promise.all([startEngine(), Store.open()]);
  const state = store.value === undefined ? null : stateFrom(store.value, example), told = store.value !== undefined && state === null ? UNREADABLE : null;
  if (state !== null) store.goOn();
  const page = new Playground(state ?? beginning(example), engine, store);
  listen(page);
  takeFiles((name, bytes) => page.take(name, bytes), (why) => page.refuse(why), (begin) => page.during(begin), release());
  page.runner.update((now) => (told === null ? now : { ...now, told: { text: [told, now.told?.text].filter(Boolean).join(" "), close: null } }));
  document.body.inert = false;
  await page.runner.idle();
  at("stage").focus({ preventScroll: true });
  document.documentElement.dataset.opened = "true";
}

// Says that the page can't begin: nothing that it promises holds then.
function failed(error) {
  say("status", `This page can't begin here, and takes nothing: ${error.message}. It needs a browser with WebAssembly, and memory for its engine.`);
  say("promise", "Nothing is kept.");
}

// in a worker this script plays what it is handed, and there is no page
if (typeof document === "object") start().catch(failed);
else if (globalThis.self?.name === PLAYER) servePlayer();
