// @ts-check
// The messages of LEVELS, where the site shows them: where a game begins, before a level that comes next, and behind the last.
import { descriptionOf } from "./descriptions.mjs";

// The entries of LEVELS: the text of a message, or null for a level.
export const messagesOf = (source) => descriptionOf(source).levels.map((it) => ("message" in it ? it.message : null));

// The messages directly before an entry.
function messagesBefore(entries, index) {
  let first = index;
  while (first > 0 && entries[first - 1] !== null) first -= 1;
  return entries.slice(first, index);
}

// The messages before the level that a session is in once it has won so many; behind the last level, where there is no such level.
export function messagesAt(source, index, won) {
  const entries = messagesOf(source), levels = entries.map((_, number) => number).filter((number) => number >= index && entries[number] === null);
  return messagesBefore(entries, levels[won] ?? entries.length);
}
