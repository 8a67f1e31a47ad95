// @ts-check
// Random acts on the state of the page, held against a small model: nothing that was made is lost, each verdict is that of the engine on the file as it
// would be saved, and what is accepted was on the screen. ACTS and SEED can be set from outside.
import assert from "node:assert/strict";
import test from "node:test";
import { isDeepStrictEqual } from "node:util";
import { MOST_PAST } from "../../web/limits.mjs";
import { SessionFile } from "../../web/session-file.mjs";
import { accepted, followed, namesakeOf, removed, savedAs, withOtherFile } from "../../web/filing.mjs";
import { isPlayed, sourceOf } from "../../web/replaying.mjs";
import { coverageStopped, covered, linePointedAt, opened, stageStepped } from "../../web/staging.mjs";
import { differenceOf, playedAgain, rowsOf, runsOfNow, seenOf, sessionOf, sessionOpened } from "../../web/suite.mjs";
import { begunAnew, cutBack, edited, fromLevel, held, inOrder, lookedAt, named, pressed, putBack, released, withGame, withOwnText } from "../../web/work.mjs";
import { Bench, GAME, INPUTS, closesOf, comparedWithLines, module, read } from "./bench.mjs";

const ACTS = Number(process.env.ACTS ?? 2000), SEED = Number(process.env.SEED ?? 1);
const OTHER = GAME.replace("title ", "title Another ");
const EDITS = [
  ["[ > Player | Crate ] ->", "[ > Player | Crat ] ->"], ["[ > Player | Crat ] ->", "[ > Player | Crate ] ->"], ["[ > Player | Crate ] -> [ > Player | > Crate ]", "[ > Player ] -> [ Player ]"],
  ["[ > Player ] -> [ Player ]", "[ > Player | Crate ] -> [ > Player | > Crate ]"], ["All Target", "Some Target"], ["Some Target", "All Target"], ["LEVELS", "LEVELS\n"], ["RULES", "RULES "],
];
const RECORDINGS = JSON.parse(read("examples/day/recordings.json").toString());
const bytesOf = (value) => new TextEncoder().encode(typeof value === "string" ? value : JSON.stringify(value));
const MIXED = RECORDINGS.map(([name, body], number) => [`mixed ${name}`, [number % 2 === 0 ? "" : OTHER, ...body.slice(1)]]);
const FILES = [read("examples/day/recordings.json"), read("examples/block-pushing.json"), bytesOf(MIXED), bytesOf("[]"), bytesOf(RECORDINGS.slice(0, 2))];

// Numbers that look random, the same for the same seed.
function randomOf(seed) {
  let state = seed;
  return (count) => {
    state = (Math.imul(state, 1103515245) + 12345) & 0x7fffffff;
    return (state >>> 8) % count;
  };
}

// ---- the model: what was made by hand, and where it can be found

const recordingOf = (work, text) => JSON.stringify([work.own ?? text, work.index]) + JSON.stringify(work.inputs).slice(0, -1);
const sessionTextOf = ({ name, source, inputs, level, index }) => JSON.stringify([name, source, inputs, level, index]);

// What can be put back, each thing with the text over which it is played if all behind it were put back before.
function pastOver(past, text) {
  const over = [];
  for (const lost of past.toReversed()) over.unshift({ ...lost, over: lost.text ?? over[0]?.over ?? text });
  return over;
}

// The recordings that can be put back, as they are played then.
const lostRecordings = ({ past }, text) => pastOver(past, text).filter((it) => it.work?.inputs.length > 0).map((it) => recordingOf(it.work, it.over));

// What there is in a state and in what can be put back into it.
function found(state) {
  const all = [{ text: state.text, over: state.text, work: state.work, file: state.file }, ...pastOver(state.past, state.text)];
  const recordings = all.filter((it) => it.work).map((it) => recordingOf(it.work, it.over));
  const ofFile = all.flatMap(({ file, over }) => (file?.entries ?? []).map((entry) => recordingOf({ own: entry.source || null, ...entry }, over)));
  return {
    texts: new Set(all.map((it) => it.text)), recordings: [...recordings, ...ofFile],
    names: new Set([...all.map((it) => it.work?.name), ...all.flatMap((it) => it.file?.entries.map(({ name }) => name) ?? [])]),
    sessions: new Set(all.flatMap((it) => it.file?.entries.map(sessionTextOf) ?? [])),
  };
}

// What may not be missing after an act, of what stood there before; `text` is the one that it is read over.
function assertNothingLost(before, after, { isEdit, isFileClean }) {
  const { texts, recordings, names, sessions } = found(after), text = isEdit ? after.text : before.text;
  if (!isEdit && before.text.trim() !== "" && before.text !== GAME) assert.ok(texts.has(before.text), "a text is lost");
  if (before.work.inputs.length > 0) assert.ok(recordings.some((it) => it.startsWith(recordingOf(before.work, text))), "a recording is lost");
  for (const it of lostRecordings(before, text)) assert.ok(recordings.some((other) => other.startsWith(it)), "a recording that could be put back can't, or comes back over another text");
  if (before.work.name !== "") assert.ok(names.has(before.work.name), "a name is lost");
  if (!isFileClean) for (const entry of before.file?.entries ?? []) assert.ok(sessions.has(sessionTextOf(entry)), `session ${entry.name} is lost`);
}

// Each verdict is that of the engine on the file as it would be saved, over the text that is at hand.
function assertVerdicts(state) {
  const runs = runsOfNow(state);
  if (runs === null) return;
  const values = JSON.parse(new TextDecoder().decode(state.file.bytes)).map(([name, [source, ...body]]) => [name, [source || state.text, ...body]]);
  assert.deepEqual(runs.map(({ close }) => close), closesOf(values, state.order));
  rowsOf(state).forEach((row, number) => assert.equal(row.isOther, ![state.text, values[number][1][0]].every((it) => it === state.text), "another text isn't told"));
}

// What is worked on is shown as it stands.
function assertShown(state) {
  if (state.isHeld) return;
  assert.ok(isPlayed(state), "it isn't played as it stands");
  const { opened, index, inputs } = state.work;
  if (opened !== null) assert.ok(state.file.entries[opened], "the session that is open isn't there");
  if (sessionOf(state) !== null) assert.equal(state.played.cause === null, !["stopped", "refused"].includes(runsOfNow(state)?.[opened].close ?? "passed"));
  assert.ok(isDeepStrictEqual([state.played.source, state.played.index, state.played.inputs], [sourceOf(state), index, inputs]), "something else is played");
}

// ---- the acts: each is a name, and what it does to the bench

const pick = (random, list) => list[random(list.length)];

function editOf(random, text) {
  const [from, to] = pick(random, EDITS);
  return text.replace(from, to);
}

const hasFile = ({ file }) => file !== null && file.entries.length > 0;
const numberIn = (random, { file }) => random(file.entries.length);

const change = (act) => ({ act, isEdit: false });
const ACTIONS = [
  ...Array.from({ length: 8 }, () => (random) => change((state) => pressed(state, pick(random, INPUTS)))),
  (random) => change((state) => lookedAt(state, random(6))), () => change((state) => lookedAt(state, Infinity)), () => change(cutBack), () => change(putBack), () => change(putBack), () => change(begunAnew),
  (random) => change((state) => fromLevel(state, random(4))), (random) => change((state) => withGame(state, pick(random, [GAME, OTHER, "", "title none\n"]))),
  ...Array.from({ length: 3 }, () => (random) => ({ act: (state) => edited(state, editOf(random, state.text)), isEdit: true })),
  (random) => ({ act: (state) => named(state, pick(random, ["walk", "push", ""])), isName: true }),
  ...Array.from({ length: 4 }, () => (random) => change((state) => (hasFile(state) ? sessionOpened(state, numberIn(random, state)) : state))),
  () => change((state) => savedAs(state)), () => change((state) => (namesakeOf(state) < 0 ? state : savedAs(state, namesakeOf(state)))), () => change(removed), () => change(playedAgain),
  (random) => change((state) => withOtherFile(state, new SessionFile("file.json", new Uint8Array(pick(random, FILES))))), () => change((state) => (random3(state) ? withOtherFile(state, null) : state)),
  () => change((state) => (differenceOf(state)?.why === null ? accepted(state, [state.work.opened]) : state)), () => change((state) => accepted(state, seenOf(state))),
  () => change((state) => (state.file === null ? state : followed(state))), (random) => change((state) => inOrder(state, pick(random, ["columns", "columns", "rows"]))), () => change(withOwnText),
  () => change(held), () => change(released),
  (random) => change((state) => opened(state, random(3) > 0)), (random) => change((state) => stageStepped(state, random(3) - 1)), () => change(covered), () => change(coverageStopped),
  (random) => change((state) => linePointedAt(state, 70 + random(20))),
  () => change((state) => (runsOfNow(state) === null ? state : comparedWithLines(state, "lines", new TextDecoder().decode(state.suite.lines)))),
];

// Not each time that it could be closed.
const random3 = (state) => state.past.length % 3 === 0;

// What a random act does to the bench, tested against the model.
async function actOnce(bench, random, log) {
  const number = random(ACTIONS.length), before = bench.state, { act, isEdit = false, isName = false } = ACTIONS[number](random);
  log.push(number);
  bench.runner.update(act);
  const after = bench.state;
  if (before.past.length < MOST_PAST - 1) {
    const given = isName ? { ...before, work: { ...before.work, name: "" } } : before;
    assertNothingLost(given, after, { isEdit, isFileClean: !before.isUnsaved && !after.isUnsaved });
  }
  if (random(3) > 0) await bench.runner.idle();
}

test(`${ACTS} random acts lose nothing, and each verdict is true`, { skip: module === undefined && "there is no module" }, async () => {
  const random = randomOf(SEED), log = [];
  let bench = new Bench();
  for (let count = 0; count < ACTS; count += 1) {
    try {
      await actOnce(bench, random, log);
      if (random(10) === 0) {
        await bench.runner.idle();
        assertShown(bench.state);
        assertVerdicts(bench.state);
      }
      if (random(100) === 0) {
        await bench.runner.idle();
        const before = bench.state;
        await bench.reload();
        assertNothingLost(before, bench.state, { isEdit: false, isFileClean: false });
        assert.ok(isDeepStrictEqual(found(bench.state), found(before)), "another state is there after a reload");
      }
      if (random(300) === 0) bench = new Bench();
    } catch (error) {
      error.message = `act ${count} of seed ${SEED}, behind ${log.slice(-6).join(" ")}: ${error.message}`;
      throw error;
    }
  }
});
