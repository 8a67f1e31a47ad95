// @ts-check
// Work on many things that may take long, in pieces: between them the thread is given back, so that the page answers, and it is heard where it is stopped.

const PIECE = 30; // milliseconds, or as long as one thing takes

export const rest = () => new Promise((settle) => { setTimeout(settle); });

// Does something with each of some things; whether it came to the end.
/** @type {<Thing>(things: Thing[], act: (thing: Thing) => unknown, signal: AbortSignal, progress?: (...told: number[]) => void) => Promise<boolean>} */
export async function eachInPieces(things, act, signal, progress = () => {}) {
  let rested = -Infinity;
  for (const [done, thing] of things.entries()) {
    if (performance.now() - rested > PIECE) {
      progress(done, things.length);
      await rest();
      if (signal.aborted) return false;
      rested = performance.now();
    }
    act(thing);
  }
  return true;
}
