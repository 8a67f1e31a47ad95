// @ts-check
// A level is { width, cells, order }: the label of each cell, row by row where the order is "rows" and column by column where it is "columns".
// A label is a number for a set of objects.

export const heightOf = (level) => level.cells.length / level.width;

const MOST_CELLS = 16_384; // of a level that is played, as docs/language.md has it
const MOST_OF_A_SIDE = 6_553; // of a recorded text, which need not have line breaks: of more, each with five pixels, a browser draws nothing

// Whether a level is larger than any that is played, as one that a stranger recorded may be: a browser would draw it for minutes, or leave it empty.
export const isTooLarge = (level) => level?.cells?.length > MOST_CELLS || (level?.cells?.length > 0 && Math.max(level.width, heightOf(level)) > MOST_OF_A_SIDE);

// Whether there is a level with cells that is drawn: a text that can't be read back has none.
export const isDrawn = (level) => Boolean(level && level.cells && level.cells.length > 0) && !isTooLarge(level);

export const isOfOneSize = (one, other) => isDrawn(one) && isDrawn(other) && one.width === other.width && one.cells.length === other.cells.length;

// The column and the row of a cell, both from 0.
export function placeOf(level, number) {
  if (level.order === "rows") return [number % level.width, Math.floor(number / level.width)];
  return [Math.floor(number / heightOf(level)), number % heightOf(level)];
}

export const numberAt = (level, column, row) => (level.order === "rows" ? row * level.width + column : column * heightOf(level) + row);

// The numbers of the cells that differ, or null where the two can't be compared.
export function differing(one, other) {
  if (!isOfOneSize(one, other)) return null;
  const numbers = [];
  for (let number = 0; number < one.cells.length; number += 1) if (one.cells[number] !== other.cells[number]) numbers.push(number);
  return numbers;
}
