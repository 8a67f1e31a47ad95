// @ts-check
// Texts of games and of strangers letter by letter, as the engine tells letters apart.
import { MOST_LETTERS, MOST_OF_A_SOURCE } from "./limits.mjs";

// What Unicode calls white space.
const SPACE = /[\t-\r \x85\xa0\u1680\u2000-\u200a\u2028\u2029\u202f\u205f\u3000]/;

// A name as names are compared: the case of ASCII letters is ignored, and of no others.
export const fold = (text) => text.replace(/[A-Z]/g, (letter) => letter.toLowerCase());

// The map of pairs of a text and a value; of two with one text the first stays.
export function firstsOf(pairs) {
  const map = new Map();
  for (const [text, value] of pairs) if (!map.has(text)) map.set(text, value);
  return map;
}

// Whether a text is longer than one that is played.
export const isTooLong = (text) => text.length > MOST_OF_A_SOURCE || (3 * text.length > MOST_OF_A_SOURCE && new TextEncoder().encode(text).length > MOST_OF_A_SOURCE);

// A text as a field gives it back.
export const asInField = (text) => text.replace(/\r\n?/g, "\n");

// Why a text isn't put into the field where it would be edited, in words that go on behind it; or null. A game has its lines between line feeds.
export function whyNoField(text) {
  if (isTooLong(text)) return "is longer than a game's text may be";
  const within = text.search(/\r(?!\n)/);
  return within < 0 ? null : `has a carriage return within line ${text.slice(0, within).split("\n").length}, which a field shows as the end of a line`;
}

export const shortened = (text) => {
  const letters = [...text.slice(0, 2 * MOST_LETTERS + 1)];
  return letters.length <= MOST_LETTERS ? text : `${letters.slice(0, MOST_LETTERS).join("")}..`;
};

// A text without the white space of a game behind its last line. A pattern that ends with `+$` would begin again at each blank.
export function withoutEnd(text) {
  let end = text.length;
  while (end > 0 && SPACE.test(text[end - 1])) end -= 1;
  return text.slice(0, end);
}
