// @ts-check
// The frames of a recording, { at, kind, level }, of which each has how many inputs were taken when it was shown.

// The frames before so many inputs, and then others.
export const joined = (frames, from, more) => [...frames.slice(0, firstFrom(frames, from)), ...more];

// The number of the first frame that was shown after so many inputs or more.
export function firstFrom(frames, taken) {
  let low = 0, high = frames.length;
  while (low < high) {
    const middle = (low + high) >> 1;
    if (frames[middle].at < taken) low = middle + 1;
    else high = middle;
  }
  return low;
}

// Which of `count` things are listed where no more than `most` are, around one of them: [first, behind the last].
export function windowAround(count, at, most) {
  const first = Math.max(0, Math.min(count - most, at - Math.floor(most / 2)));
  return [first, Math.min(count, first + most)];
}

const MARKS = ["\u2191", "\u2190", "\u2193", "\u2192", "\u25cf"];

// An input as a mark in a strip.
export const markOf = (input) => (typeof input === "number" ? MARKS[input] : { undo: "z", restart: "r", tick: "." }[input]);
