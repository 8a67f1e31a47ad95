// @ts-check
// What stands in cells, as pixels, from the look of their game: { ground, objects }. The ground is a colour; each object is [name, layer, colours, sprite],
// where a colour that is null is transparent, and a sprite is 25 letters (a digit for a colour, or "." for none), or "" for a block of the first colour.
import { firstsOf } from "./texts.mjs";
import { there } from "./there.mjs";

export const SIDE = 5; // pixels of a sprite
const PIXELS = SIDE * SIDE;
const UNSEEN = 0; // what an object has where it is transparent
const FIRST_COLOUR = "0".repeat(PIXELS);

// A colour as a number, by a byte each for red, green, blue and being opaque.
const colourNumber = (colour) => (colour ? Number.parseInt(colour.slice(1), 16) * 256 + 255 : UNSEEN);

function pixelsOfObject([, , colours, sprite]) {
  const numbers = colours.map(colourNumber);
  return Array.from(sprite || FIRST_COLOUR, (letter) => numbers[Number(letter)] ?? UNSEEN);
}

// The cells of a game. `labels` says for a label which objects stand in the cell, by their names.
export class Pictures {
  constructor(look, labels) {
    this.ground = look.ground;
    this.objects = firstsOf(look.objects.map((object) => [object[0], { layer: object[1], pixels: pixelsOfObject(object) }]));
    this.isLettered = look.objects.length === 0; // a game without objects is one that couldn't be read
    this.labels = labels;
    this.known = new Map(); // by a label its pixels, or its letter
  }

  // What a cell is drawn by, worked out once.
  of(label, drawn) {
    if (!this.known.has(label)) this.known.set(label, drawn(this.labels[label]));
    return this.known.get(label);
  }

  // The pixels of a cell, row by row: of each the colour of the uppermost object that has one there.
  pixelsOf(label) {
    return this.of(label, (names) => {
      const pixels = new Uint32Array(PIXELS).fill(colourNumber(this.ground));
      const objects = names.map((name) => this.objects.get(name)).filter(Boolean).sort((one, other) => one.layer - other.layer);
      for (const object of objects) for (let place = 0; place < PIXELS; place += 1) if (object.pixels[place] !== UNSEEN) pixels[place] = object.pixels[place];
      return pixels;
    });
  }

  // The letter that a cell is drawn by where nothing else is known: the first of a name in it, that of the background only where there is no other.
  letterOf(label) {
    return this.of(label, (names) => {
      const name = names.find((it) => it !== "background") ?? names[0] ?? " ";
      return name === "background" ? "." : String.fromCodePoint(there(name.codePointAt(0)));
    });
  }
}
