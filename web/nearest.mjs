// @ts-check
// The nearest of some words, as Python's difflib finds it, which the command line tells too.
import { there } from "./there.mjs";

const CUTOFF = 0.6;
// So many letters of a word are compared, with so many words at most: those whose length is nearest.
const LETTERS_COMPARED = 40;
const WORDS_COMPARED = 300;

// The longest stretch that two words share, between places of each. In two rows of numbers stands how long what is shared is that ends at each place of the
// other: with the letter at hand, and with the one before.
/** @type {(one: number[], other: number[], place: [number, number], placeOther: [number, number], rows: [Uint32Array, Uint32Array]) => { at: number, atOther: number, size: number }} */
function longestShared(one, other, [low, high], [lowOther, highOther], rows) {
  let [before, now] = rows, best = { at: low, atOther: lowOther, size: 0 };
  before.fill(0, lowOther, highOther + 1);
  now[lowOther] = 0;
  for (let at = low; at < high; at += 1) {
    const letter = one[at];
    for (let atOther = lowOther; atOther < highOther; atOther += 1) {
      const size = letter === other[atOther] ? before[atOther] + 1 : 0;
      now[atOther + 1] = size;
      if (size > best.size) best = { at: at - size + 1, atOther: atOther - size + 1, size };
    }
    [before, now] = [now, before];
  }
  return best;
}

// How many letters two words share, by longest stretches and then on both sides of each.
/** @type {(one: number[], other: number[]) => number} */
function shared(one, other) {
  /** @type {[[number, number], [number, number]][]} */
  const left = [[[0, one.length], [0, other.length]]];
  /** @type {[Uint32Array, Uint32Array]} */
  const rows = [new Uint32Array(other.length + 1), new Uint32Array(other.length + 1)];
  let count = 0;
  while (left.length > 0) {
    const [[low, high], [lowOther, highOther]] = there(left.pop());
    if (low === high || lowOther === highOther) continue;
    const { at, atOther, size } = longestShared(one, other, [low, high], [lowOther, highOther], rows);
    if (size === 0) continue;
    count += size;
    left.push([[low, at], [lowOther, atOther]], [[at + size, high], [atOther + size, highOther]]);
  }
  return count;
}

// How like two words are, from 0 to 1.
export function likeness(one, other) {
  const [letters, others] = [one, other].map((word) => Array.from(word, (letter) => there(letter.codePointAt(0)))), both = letters.length + others.length;
  return both === 0 ? 1 : (2 * shared(letters, others)) / both;
}

const beginOf = (word) => [...word].slice(0, LETTERS_COMPARED).join("");

// The words that are compared with a word, of so many letters.
function compared(words, size) {
  const all = [...words].sort().map((word) => ({ word, distance: Math.abs([...word].length - size) }));
  return (all.length <= WORDS_COMPARED ? all : all.sort((one, other) => one.distance - other.distance).slice(0, WORDS_COMPARED)).map((it) => it.word).sort();
}

// The word of a list that is nearest to a word, or null where none is near.
export function nearest(word, words) {
  const begin = beginOf(word);
  let best = null, most = CUTOFF;
  for (const candidate of compared(words, [...word].length)) {
    const like = likeness(beginOf(candidate), begin);
    if (like >= most) [best, most] = [candidate, like];
  }
  return best;
}
