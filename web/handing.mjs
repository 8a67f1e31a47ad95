// @ts-check
// Files that come into the page and leave it, by the hand of whoever sits before it.
import { findingsIn } from "./console.mjs";
import { at } from "./elements.mjs";
import { allSkippedTold, nothingTold, withOwnNames } from "./findings.mjs";
import { MOST_OF_A_FILE, MOST_OF_A_SOURCE, MOST_SESSIONS } from "./limits.mjs";
import { runsIn } from "./lines.mjs";
import { Refusal, codingOf, sessionsIn, textOf } from "./session-file.mjs";
import { asInField, whyNoField } from "./texts.mjs";
/** @typedef {import("./session-file.mjs").Entry} Entry */
/** @typedef {{ kind: string, text?: string, bytes?: Uint8Array, entries?: Entry[], found?: Entry[], skipped?: object[], runs?: object[], why?: string }} Handed */


const unreadableTold = (name) => `${name} can't be read`;

// Why a file isn't read, by its size, or null.
const tooLongTold = (name, size) => (size > MOST_OF_A_FILE ? `${name} has more than 64 MiB, and is not read` : null);

const BEGINS_LIKE_SESSIONS = /^\s*\[\s*[[\]]/;

// How many entries a text has that is a sessions file, or meant to be one; else null. JSON that begins otherwise is not read: it may have millions of lists.
function entriesIn(text) {
  if (!BEGINS_LIKE_SESSIONS.test(text)) return null;
  try {
    const value = JSON.parse(text);
    return Array.isArray(value) && (value.length === 0 || Array.isArray(value[0])) ? value.length : null;
  } catch {
    return null;
  }
}

const isLines = (text) => text.trimStart()[0] === "{" && !text.includes('"source"');

// Recordings with line feeds alone at the ends of lines. A text too long to be played also then stays as it is.
const inLines = (recordings) => recordings.map((it) => (it.source.length > 2 * MOST_OF_A_SOURCE ? it : { ...it, source: it.source.replaceAll("\r\n", "\n") }));

// What bytes are taken for beside a text at hand: { kind: "sessions", bytes, entries }, { kind: "recordings", found, skipped } of a text, { kind: "lines", runs },
// or { kind: "game", text }. Refused where they are none.
/** @type {(name: string, bytes: any, atHand?: string) => Handed} */
export function handed(name, bytes, atHand = "") {
  const long = tooLongTold(name, bytes.length);
  if (long !== null) throw new Refusal(long);
  const coding = codingOf(bytes), text = textOf(bytes, name, coding), isWide = coding !== "utf-8", plain = text.replace(/^\ufeff+/, ""), count = entriesIn(isWide ? plain : text);
  if (count !== null && count > MOST_SESSIONS) throw new Refusal(`${name} has more than 65,536 sessions`);
  if (count !== null) {
    const own = isWide ? new TextEncoder().encode(plain) : bytes;
    return { kind: "sessions", bytes: own, entries: sessionsIn(name, own) };
  }
  const { found, skipped } = findingsIn(plain);
  if (found.length > 0) return { kind: "recordings", found: withOwnNames(inLines(found), atHand), skipped };
  if (isLines(plain)) return { kind: "lines", runs: runsIn(plain) };
  if (skipped.length > 0) throw new Refusal(`no recording is left in ${name}: ${allSkippedTold(skipped)}`);
  const why = nothingTold(plain);
  if (why !== null) throw new Refusal(`${name}: ${why}`);
  const whyNot = whyNoField(plain);
  if (whyNot !== null) throw new Refusal(`${name} ${whyNot}: play it by the command, or edit it`);
  return { kind: "game", text: plain };
}

const NOT_IN_FILES = /[\\/:*?"<>|\p{Cc}\p{Cf}\p{Surrogate}]+/gu;
const MOST_OF_A_NAME = 60; // letters

// The name of a file for the text of a game with a title.
export function fileNameOf(title) {
  const name = [...title.replace(NOT_IN_FILES, " ").replace(/\s+/g, " ").trim()].slice(0, MOST_OF_A_NAME).join("").replace(/^[. ]+|[. ]+$/g, "");
  return `${name || "game"}.txt`;
}

export function download(name, content) {
  const link = document.createElement("a"), address = URL.createObjectURL(new Blob([content], { type: "application/octet-stream" }));
  link.href = address;
  link.download = name;
  link.click();
  setTimeout(() => URL.revokeObjectURL(address), 10_000);
}

// The bytes of a file, or null of what can't be read, as a folder.
const readBytes = (file) => file.arrayBuffer().then((buffer) => new Uint8Array(buffer), () => null);

// Hands on files, one behind the other: take(name, bytes). One that is too long, or can't be read, is told by refuse(why), and none of it is taken.
export async function takeEach(files, take, refuse) {
  for (const file of files) {
    const why = tooLongTold(file.name, file.size), bytes = why === null ? await readBytes(file) : null;
    if (bytes !== null) await take(file.name, bytes);
    else refuse(why ?? unreadableTold(file.name));
  }
}

// The name of what is pasted, which is no file of a disk.
export const PASTED = "pasted";

// Whether a text that is pasted into an element is left to it: not one that a browser would lay out there for minutes.
export const isTyped = (text, element) => text === "" || (Boolean(element.matches?.("textarea, input")) && whyNoField(asInField(text)) === null);

// Whether a text may be dropped into an element, as the browser does that.
const isField = (element) => Boolean(element.matches?.("textarea, input[type=text], input[type=search], input:not([type])")) && !element.readOnly && !element.disabled;

// Holds what is dropped before the page can take it: a browser would open a file in the place of the page, whoever made it. The answer ends that, and has the
// files, and texts as files.
export function holdingDrops() {
  /** @type {File[]} */
  const held = [], hold = (event) => {
    event.preventDefault();
    if (event.type !== "drop") return;
    const files = [...event.dataTransfer?.files ?? []], text = event.dataTransfer?.getData("text/plain") ?? "";
    held.push(...(files.length > 0 || text === "" ? files : [new File([text], PASTED)]));
  };
  const types = ["dragover", "drop"];
  types.forEach((type) => document.addEventListener(type, hold));
  return () => {
    types.forEach((type) => document.removeEventListener(type, hold));
    return held;
  };
}

// Hands on files that are chosen or dropped, as above, and texts that are pasted or dropped. during(begin) begins to read what one act of a hand brought;
// `held` are files that came before.
export function takeFiles(take, refuse, during, held) {
  const takeAll = (files) => during(() => takeEach(files, take, refuse)), takeText = (text) => during(() => take(PASTED, new TextEncoder().encode(text)));
  at("open").addEventListener("click", () => at("file").click());
  at("file").addEventListener("change", async () => {
    await takeAll([...at("file").files ?? []]);
    at("file").value = "";
  });
  document.addEventListener("dragover", (event) => {
    if (event.dataTransfer?.types.includes("Files") || !isField(event.target)) event.preventDefault();
  });
  document.addEventListener("drop", (event) => {
    const files = [...event.dataTransfer?.files ?? []], text = event.dataTransfer?.getData("text/plain") ?? "";
    if (files.length === 0 && isField(event.target) && whyNoField(asInField(text)) === null) return;
    event.preventDefault();
    if (files.length > 0) takeAll(files);
    else if (text !== "") takeText(text);
  });
  document.addEventListener("paste", (event) => {
    const text = event.clipboardData?.getData("text/plain");
    if (text === undefined || isTyped(text, event.target)) return;
    event.preventDefault();
    takeText(text);
  });
  if (held.length > 0) takeAll(held);
}
