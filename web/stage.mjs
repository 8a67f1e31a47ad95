// @ts-check
// How the playground shows levels (boards.mjs): beside or below one another, as large as there is room for, and scrolled to what changes.
import { SIDE } from "./pictures.mjs";
import { at } from "./elements.mjs";
import { heightOf, isDrawn } from "./levels.mjs";
import { put } from "./saying.mjs";

const LEAST_HEIGHT = 180; // of the room for levels
const BESIDE = { wide: 330, narrow: 450 }; // what stands above and below a level
const BETWEEN = 18; // pixels between two levels,
const CAPTION = 26; // and of what stands below each
const NARROW = 640; // as playground.css has it
const ROOMS = ["level-room", "other-room"];

// The rooms that levels have beside and below one another, of which the one is taken in which they are larger: { isBelow, width, height }.
function roomFor(shown) {
  const levels = shown.filter(isDrawn), width = at("stage").clientWidth - 2;
  const height = Math.max(LEAST_HEIGHT, window.innerHeight - (window.innerWidth <= NARROW ? BESIDE.narrow : BESIDE.wide));
  if (levels.length < 2) return { isBelow: false, width, height };
  const rooms = [{ isBelow: false, width: (width - BETWEEN) / 2, height }, { isBelow: true, width, height: (height - CAPTION) / 2 }];
  const fraction = (room) => Math.min(...levels.map((level) => Math.min(room.width / level.width, room.height / heightOf(level))));
  return fraction(rooms[1]) > fraction(rooms[0]) ? rooms[1] : rooms[0];
}

function drawn(room, levels, scale) {
  at("boards").classList.toggle("below", room.isBelow);
  for (const id of ROOMS) put(at(id).style, { maxHeight: `${room.height}px`, maxWidth: `${room.width}px` });
  const isWhole = levels.every((level) => level.width * SIDE * scale <= room.width && heightOf(level) * SIDE * scale <= room.height);
  at("stage").classList.toggle("whole", isWhole);
}

export const STAGE = {
  places: [["level", "level-caption"], ["other", "other-caption"]], most: 64, isChangeWhole: true, isFollowing: true, roomFor, drawn,
  labelOf: (told, width, height) => `${told}; ${width} wide, ${height} high`,
};
