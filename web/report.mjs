// @ts-check
// The page of a report: a list of sessions, and a player for the one that is open.
import { addressOf, readAddress } from "./address.mjs";
import { makeCopy } from "./copying.mjs";
import { at, cut, fill, json, make, plural, readable, sayable } from "./elements.mjs";
import { Player } from "./player.mjs";
import { SessionList, isFailure } from "./session-list.mjs";

const LATER = 200; // milliseconds after which the address follows

const index = json("index");
let writing = 0;

const rows = index.sessions.map(([name, close, frames]) => ({ name, close, frames, parting: null }));
const list = new SessionList({
  open: (number) => openSession(number), refilter: () => writeAddressSoon(), toldOf: ({ close }) => close, closes: index.closes, always: [], areFailuresFirst: true, elsewhere: "filter",
  toldOfCount: (listed, all) => (listed === all ? "Failures come first." : `${listed} of ${plural(all, "session")}`),
});
const player = new Player(index, () => writeAddressSoon());

// ---- the address

function addressNow() {
  const frame = player.isOpen ? player.at : null;
  return addressOf({ session: list.current, frame, close: list.close === "all" ? null : list.close, name: list.name });
}

function writeAddress() {
  clearTimeout(writing);
  writing = 0;
  if (addressNow() !== location.hash) history.replaceState(null, "", addressNow());
}

// Browsers let an address change only so often, as when a session is played.
function writeAddressSoon() {
  if (!writing) writing = setTimeout(writeAddress, LATER);
}

function notice(text) {
  at("notice").textContent = text;
  at("notice").hidden = text === "";
}

function showAddress(hash) {
  const { session, frame, close, name, text } = readAddress(hash);
  const isThere = session !== null && session < index.sessions.length;
  list.setFilters(close, name);
  notice(text === null || isThere ? "" : `There is no session ${cut(text, 20)} here. The first one of the list is shown.`);
  if (isThere) openSession(session, frame);
  else openSession(list.shown[0] ?? list.order[0]);
}

// ---- sessions

/** @type {(number: number | null | undefined, frame?: number | null) => void} */
function openSession(number, frame = null) {
  if (number === undefined || number === null) return;
  player.open(number, frame);
  list.setCurrent(number);
  writeAddressSoon();
}

function showResult() {
  const failures = rows.filter(isFailure).length;
  const all = plural(index.sessions.length, "session");
  if (index.result) at("result").textContent = index.result;
  else if (index.sessions.length === 0) at("result").textContent = "There are no sessions in this file.";
  else at("result").textContent = failures === 0 ? `All ${all} passed.` : `${failures} of ${all} did not pass.`;
}

// ---- keys

const whenOpen = (act) => () => { if (player.isOpen) act(); };

/** @type {Record<string, [string | null, string | null, () => void]>} */
const KEYS = {
  ArrowLeft: ["left arrow or [, right arrow or ]", "a frame back, a frame forward", whenOpen(() => player.goTo(player.at - 1))],
  ArrowRight: [null, null, whenOpen(() => player.goTo(player.at + 1))],
  "[": [null, null, whenOpen(() => player.goTo(player.at - 1))],
  "]": [null, null, whenOpen(() => player.goTo(player.at + 1))],
  Home: ["Home, End", "the first frame, the last", whenOpen(() => player.goTo(0))],
  End: [null, null, whenOpen(() => player.goTo(player.last))],
  p: ["p or space", "play, or pause", whenOpen(() => player.play())],
  " ": [null, null, whenOpen(() => player.play())],
  n: ["n, N", "the next session that did not pass, the one before", () => openSession(list.next(1, isFailure))],
  N: [null, null, () => openSession(list.next(-1, isFailure))],
  j: ["j, k", "the next session of the list, the one before", () => openSession(list.next(1))],
  k: [null, null, () => openSession(list.next(-1))],
  "+": ["+, -, 0", "larger, smaller, as large as there is room", whenOpen(() => player.boards.zoomBy(1))],
  "-": [null, null, whenOpen(() => player.boards.zoomBy(-1))],
  0: [null, null, whenOpen(() => player.boards.fit())],
  b: ["b", "both levels in one place, one after the other", whenOpen(() => player.boards.blink())],
  "/": ["/", "filter by name", () => at("filter").focus()],
};

const MARKS = [
  ["whole frame", "a cell that differs from the level beside it"],
  ["corners", "a cell that changed since the frame before"],
  ["dotted input", "nothing changed after it"],
  ["numbers", "sessions, frames and inputs are counted from 0, columns and rows from 1"],
];

// Whether a key does something else where the focus is.
function isTaken(event) {
  const { tagName, type, id } = event.target;
  if (event.ctrlKey || event.metaKey || event.altKey) return true;
  if (tagName === "SELECT" || tagName === "TEXTAREA" || type === "search") return true;
  return event.key === " " && (tagName === "BUTTON" || tagName === "SUMMARY" || type === "checkbox") && id !== "play";
}

function press(event) {
  if (event.target === at("filter") && event.key === "Enter") {
    openSession(list.shown[0]);
    at("filter").blur();
    return;
  }
  if (isTaken(event) || !(event.key in KEYS)) return;
  event.preventDefault();
  KEYS[event.key][2]();
}

// ---- the page

function showFoot() {
  const told = Object.values(KEYS).filter(([keys]) => keys);
  at("keys").replaceChildren(...[...told, ...MARKS].flatMap(([keys, text]) => [make("dt", "", keys ?? ""), make("dd", "", text ?? "")]));
  fill(at("foot"), [...index.origin, ...index.notes].map((note) => make("p", "", readable(note))));
}

document.title = sayable(`${index.file}: ${index.title}`);
at("title").textContent = sayable(index.file);
makeCopy(at("copy-link"), () => { writeAddress(); return location.href; });
makeCopy(at("copy-level"), () => player.levelText);
makeCopy(at("copy-inputs"), () => JSON.stringify(player.session.inputs));
document.addEventListener("keydown", press, true);
// what the address was changed to: meanwhile it may have followed what was shown before
window.addEventListener("hashchange", (event) => showAddress(new URL(event.newURL).hash));
list.show(rows, null);
showResult();
showFoot();
showAddress(location.hash);
document.documentElement.dataset.opened = String(Math.round(performance.now()));
