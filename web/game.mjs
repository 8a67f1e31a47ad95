// @ts-check
// How a game looks, of what the engine has read of its text: objects with their colours, sprites and layers. The twin of python/saxtegun/games.py, but that
// nothing is drawn of a text that is refused: it has no layers here.
import { descriptionOf, settingsOf } from "./descriptions.mjs";
import { firstsOf, fold, shortened } from "./texts.mjs";

const PALETTE = new Map(Object.entries({
  black: "#000000", white: "#ffffff", grey: "#9d9d9d", darkgrey: "#697175", lightgrey: "#cccccc", gray: "#9d9d9d",
  darkgray: "#697175", lightgray: "#cccccc", red: "#be2633", darkred: "#732930", lightred: "#e06f8b", brown: "#a46422",
  darkbrown: "#493c2b", lightbrown: "#eeb62f", orange: "#eb8931", yellow: "#f7e26b", green: "#44891a", darkgreen: "#2f484e",
  lightgreen: "#a3ce27", blue: "#1d57f7", lightblue: "#b2dcef", darkblue: "#1b2632", purple: "#342a97", pink: "#de65e2",
}));
const DEFAULT_PALETTE = ["arnecolors", "1"];
const OTHER_COLOUR = "grey";
const CLEAR = "transparent";
const HEX = /^#(?:[0-9a-f]{3}|[0-9a-f]{6})$/;
const ROWS = 5; // of a sprite, each of as many pixels
const MOST_COLOURS = 10; // a pixel is a digit, so no further colour is drawn
const SWITCHES = new Map(Object.entries({ noaction: 4, noundo: "undo", norestart: "restart" })); // words of the prelude that switch a key off
const MOST_LEVELS = 1024; // to choose from: no game that is played has more entries of LEVELS
const UNTITLED = "a game";
const SEEN = /[^\p{C}\p{Z}]/u;
const LIKE_A_CELL = /^[0-9]+,/; // what a name begins with that reads in a level text as a cell, and what stands behind it

// The title that a text has last, or its beginning, where it is long.
export function titleOf(source) {
  const last = settingsOf(source).findLast(({ keyword }) => keyword === "title")?.value ?? "";
  return SEEN.test(last) ? shortened(last) : UNTITLED;
}

// How a game looks. `notes` tells what is drawn otherwise than the game draws it.
export class Game {
  constructor(source) {
    const told = descriptionOf(source), settings = settingsOf(source);
    this.notes = told.why === undefined ? [] : [told.why];
    this.title = titleOf(source);
    this.ground = PALETTE.get("black");
    // by an input the word that switches it off: the site takes no such key, so no recording has it
    this.switches = new Map(settings.filter(({ keyword }) => SWITCHES.has(keyword)).map(({ keyword }) => [SWITCHES.get(keyword), keyword]));
    settings.forEach((setting) => this.readColours(setting));
    this.objects = told.objects.map((it) => ({ name: fold(it.names[0]), colours: this.coloursOf(it), sprite: this.spriteOf(it), layer: it.layer ?? null }));
    this.isReadBack = !this.objects.some(({ name }) => LIKE_A_CELL.test(name));
    this.layers = firstsOf(this.objects.map(({ name, layer }) => [name, layer]));
    this.firstNames = firstsOf(told.objects.flatMap(({ names }) => names.map((name) => [fold(name), fold(names[0])])));
    this.definitions = firstsOf(told.legend.map((it) => [fold(it.left[0]), it]));
  }

  readColours({ keyword, value }) {
    if (keyword === "background_color") this.ground = this.colourOf(fold(value)) ?? this.ground;
    else if (keyword === "color_palette" && !DEFAULT_PALETTE.includes(fold(value))) this.notes.push(`its palette ${value} is drawn by the colours of arnecolors`);
  }

  // The colour of a word by its numbers, or null where it is transparent.
  colourOf(word) {
    if (HEX.test(word)) return word.length === 7 ? word : `#${[...word.slice(1)].map((digit) => digit + digit).join("")}`;
    if (PALETTE.has(word) || word === CLEAR) return PALETTE.get(word) ?? null;
    this.notes.push(`its colour ${word} is drawn as ${OTHER_COLOUR}`);
    return PALETTE.get(OTHER_COLOUR);
  }

  coloursOf({ colours }) {
    return colours.slice(0, MOST_COLOURS).map((word) => this.colourOf(fold(word)));
  }

  // The pixels of an object, row by row, or none at all where it is a block of its first colour.
  spriteOf({ names, colours, sprite }) {
    const pixels = sprite.join("");
    if (sprite.length !== ROWS || pixels.length !== ROWS * ROWS) return "";
    if ([...pixels].some((pixel) => pixel !== "." && Number(pixel) >= colours.length)) {
      this.notes.push(`pixels of ${fold(names[0])} have a number beyond its colours, and are left out`);
    }
    return pixels;
  }

  // The objects that a name stands for, in the order of first mention.
  members(name) {
    if (this.firstNames.has(name)) return [this.firstNames.get(name)];
    return (this.definitions.get(name)?.members ?? []).map((place) => this.objects[place].name);
  }

  // The text of a level that was played, or null where it may read back as another one.
  levelText(text) {
    return this.isReadBack ? text : null;
  }

  isProperty(name) {
    return this.definitions.get(name)?.kind === "property";
  }

  // The game as pictures.mjs takes it. An object without a layer is drawn above all others.
  look() {
    const above = 1 + this.objects.reduce((most, { layer }) => Math.max(most, layer ?? 0), 0);
    return { ground: this.ground, objects: this.objects.map(({ name, layer, colours, sprite }) => [name, layer ?? above, colours, sprite]) };
  }
}

// The entries of LEVELS: the rows of a level, or none where it is a message.
export const entriesOfLevels = (source) => descriptionOf(source).levels.map((it) => ("rows" in it ? it.rows : []));

// The levels to choose from: the number of each, from 1, the entry of LEVELS that it is, and its sides.
export function levelsOf(source) {
  const entries = entriesOfLevels(source).map((rows, index) => ({ index, width: [...(rows[0] ?? "")].length, height: rows.length }));
  return entries.filter((entry) => entry.height > 0).slice(0, MOST_LEVELS).map((entry, place) => ({ number: place + 1, ...entry }));
}
