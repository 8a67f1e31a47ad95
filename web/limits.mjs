// @ts-check
// How much the page reads, tells and keeps, and how long it waits. What goes beyond is refused in one sentence, and not read in part.

// ---- what is read
export const MOST_OF_A_FILE = 64 * 2 ** 20; // bytes, as the command reads of a text
export const MOST_OF_A_SOURCE = 2 ** 20; // bytes of a game's text, as the engine plays
export const MOST_SESSIONS = 65_536; // of a file, as the engine plays
export const MOST_BYTES_PLAYED = 2 ** 24; // of a sessions file that the engine is handed
export const MOST_INPUTS = 65_536; // of a session, as the engine plays
export const MOST_OF_READING = 5000; // milliseconds for one file; what comes of it is drawn on the page's own thread

// ---- what is taken of an answer
export const MOST_OF_LINES = 2 ** 29; // bytes of all sessions: held twice as they are joined, and as often beside those of what was played before
export const MOST_OF_A_RECORDING = 2 ** 28; // bytes of the lines, or the levels, of one recording: held in the worker and in the page, and a tab has some 4 GiB
export const MOST_AT_ONCE = 2 ** 24; // bytes of lines that are gone through without a rest
export const MOST_TAKEN = 2 ** 19; // frames, stages, and headings and lines of these: with millions the page would stand still for long
export const MOST_OF_A_LEVEL = 2 ** 20; // letters of a level, which take a second at worst; levels for people have some thousand

// ---- what is told
export const MOST_LETTERS = 200; // of a text of a stranger that is read in a line among others

// ---- what is kept
export const MOST_PAST = 20; // things that can be put back,
export const MOST_BYTES_PAST = 2 ** 24; // and bytes of them, since all is written at each change
