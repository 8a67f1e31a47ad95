/** How a sessions file was answered. */
export interface Answer {
  /** The exit status of the program: 0, every session passed; 1, some did not; 2, refused, and there are no lines. */
  status: 0 | 1 | 2;
  /** Whether every session passed. */
  passed: boolean;
  /** The lines of the recording in UTF-8, byte for byte those of the program; see docs/sessions.md. */
  lines: Uint8Array;
  /**
   * Why the file was refused, and else null: `not-json`, `bad-entry N`, `bad-level N`, `too-many` as docs/sessions.md has them; `memory`, where memory was
   * refused; `broken`, where the module stopped at a fault, its own or that of what it was built by, or a worker could not be started; `no-stages`, where
   * stages or firings were asked of an older module, which gives none; `no-descriptions`, where a description was; `no-open-sessions`, where a session was to
   * be opened; `no-solutions`, where a solution was. Of an open session also `not-open`, `too-many-inputs` and `too-few-inputs`.
   */
  fault: string | null;
}

export interface Options {
  /** The order of the cells of a level; `columns` where it is left out. */
  order?: "rows" | "columns";
}

export interface StageOptions extends Options {
  /** Whether the firings of instances are told before each group or loop; not where it is left out. */
  firings?: boolean;
}

/** One session, as the elements of an entry of docs/sessions.md. */
export interface Session {
  source: string;
  inputs: (0 | 1 | 2 | 3 | 4 | "undo" | "restart" | "tick")[];
  /** The level text where the session ended when it was recorded; empty where it is left out, which no level equals. */
  level?: string;
  /** The entry of LEVELS at which play starts; 0 where it is left out. */
  index?: number;
}

/** A frame, as its line has it: after how many inputs it was shown, its number, why it was shown, and its level. */
export interface Frame {
  at: number;
  frame: number;
  kind: "start" | "move" | "tick" | "undo" | "restart" | "load" | "over";
  level: string;
  session: 0;
}

/** How a session closed, as its line has it. */
export interface Close {
  close: "passed" | "differs" | "stopped" | "refused";
  cause?: string;
  frames: number;
  name: string;
  session: 0;
}

/**
 * A stage of a step, as its line has it: the level behind the press, a group or loop of rules that acted, the movement, or the end of the step. Block
 * and lines, the source lines of the block's rules from 1, are those of `early` and `late` alone. A step that stops has its stop behind its stages.
 */
export interface Stage {
  /** 0 for the start of the session, 1 for its first input. */
  input: number;
  /** 0 for the step of the input itself; then the ticks of `again`. */
  tick: number;
  stage: "input" | "early" | "movement" | "late" | "end";
  changed: boolean;
  commands: string[];
  /** What heads somewhere: column and row, from 0, object, direction. */
  headings: [number, number, string, string][];
  level: string;
  block?: number;
  lines?: number[];
}

/**
 * An instance that changed a cell, before the stage of its group or loop: when (counted from 0: the round of a loop, the group in it, the pass of that, the
 * instance in it), by the rule of which source line, in which direction its rows were scanned, and at which places a cell changed: of each combination a
 * place of each row, and of each place its column, its row, and the cells that its gap spans.
 */
export interface Firing {
  input: number;
  tick: number;
  stage: "early" | "late";
  block: number;
  round: number;
  group: number;
  pass: number;
  instance: number;
  line: number;
  direction: string;
  places: [number, number, number][][];
  headings: [number, number, string, string][];
  level: string;
}

export interface Stop {
  input: number;
  tick: number;
  stop: string;
}

/**
 * What the engine has read of a source. Lines are numbered from 1. Words of the prelude, of OBJECTS, LEGEND and LEVELS are told as they are written, those of
 * layers, rules and win lines in lower case. A section whose heading comes again is told up to that. A source whose
 * rules alone are refused has no program; one that is refused before them has no `layer`, `kind` or `members` either. Of one that is too long no line is told.
 */
export interface Description {
  /** The first fault, by its code as in `refused BadRule:3`, and its line; line 0 is the whole source. */
  fault: { code: string; line: number } | null;
  /** Each layer, by its names. */
  layers: { line: number; names: string[] }[];
  /** Each definition of LEGEND: the words on both sides of its `=`, and what the name denotes, its members by their places in `objects`. */
  legend: { left: string[]; line: number; right: string[]; kind?: "object" | "property" | "aggregate"; members?: number[] }[];
  /** The entries of LEVELS, as an index counts them: a message or a level, whose first row says how wide it is. */
  levels: ({ line: number; message: string } | { line: number; rows: string[] })[];
  /** Each line that isn't left out: its number, its section by the word of its heading, whether it is that heading, and its text without comments. */
  lines: [number, string, boolean, string][];
  /** Each object: all its names, the words of its colours, the rows of its sprite, and its layer, from 0. There are at most 512. */
  objects: { colours: string[]; layer?: number; line: number; names: string[]; sprite: string[] }[];
  /** The lines of the prelude: number, keyword, value. */
  prelude: [number, string, string][];
  /** The blocks before the movement and those after it: a group, or a loop of groups; of a group for each instance the line of its rule. */
  program: { early: Block[]; late: Block[] } | null;
  rules: { line: number; words: string[] }[];
  wins: { line: number; words: string[] }[];
}

export interface Block {
  groups: number[][];
  loop: boolean;
}

/** The cells of a level text, in its order: each cell's set of names by its place in `sets`. Each set stands there once, its names separated by spaces. */
export interface LevelDescription {
  cells: number[];
  sets: string[];
}

/** The sessions of a file: each by the place of its source in `sources`, where each text stands once, and `index`, at which entry of LEVELS it starts. */
export interface FileDescription {
  sessions: { index: number; inputs: Session["inputs"]; level: LevelDescription; name: string; source: number }[];
  sources: string[];
}

/**
 * What a search, breadth first, tells of the level in which a session stands: presses that win, and no shorter list does; that no list wins; or that none of
 * at most `inputs` presses does, while one press more reaches more than `levels` levels, as many as were kept. `over`: its last level was won; `stopped`,
 * `refused`: there is no level in which it stands.
 */
export type Solution =
  | { solved: (0 | 1 | 2 | 3 | 4)[] }
  | { unsolvable: true }
  | { outOfBounds: { inputs: number; levels: number } }
  | { over: true }
  | { stopped: true }
  | { refused: true };

export interface SearchOptions {
  /** The most levels that the search may keep; 1,000,000 where it is left out. */
  levels?: number;
  /** The most bytes that they may take, at four a cell and 64 a level; 134,217,728 where it is left out. */
  bytes?: number;
}

/** The items that came with the last input of an open session, as their lines have them. Where there is a fault, there are none. */
export interface Moved {
  frames: Frame[];
  close: Close | null;
  fault: string | null;
}

/**
 * A session that is kept open. It shows what the session of its inputs shows, whatever was called before. A call with a fault leaves it as it was, but for
 * `broken`, and `memory` of lines that no room could be had for, or beyond 512 MiB: they close all open sessions of the engine.
 */
export interface OpenSession {
  /** The inputs that it was given so far. */
  readonly inputs: Session["inputs"];
  readonly isOpen: boolean;
  /** Gives it inputs, one after another; with none it tells once more what came with the last. */
  give(inputs: Session["inputs"]): Moved;
  /** Goes back to where it had so many inputs. That plays no more inputs than lie behind a level that was kept, of which there are the more the nearer. */
  back(count: number): Moved;
  /** Another session that was given the same. */
  copy(): { session: OpenSession | null; fault: string | null };
  /** Gives its memory back. Later calls are answered by `not-open`. */
  close(): void;
}

export interface PlayOptions extends Options {
  /** How many bytes the lines may have; of more the answer is `memory`. As many as there is memory for where it is left out. */
  most?: number;
}

export interface WorkerOptions extends PlayOptions {
  /** How many workers play at once, 1 to 64; where it is left out, one fewer than there are processors. */
  workers?: number;
  /** Is told now and then how many sessions of how many were played; in a file that isn't cut, that is one of one. */
  progress?: (done: number, total: number) => void;
  /** Ends the workers, whatever they do; the promise is then rejected with the signal's reason. */
  signal?: AbortSignal;
}

export interface Engine {
  /** Plays a file in the calling thread. Each call is answered; one that can't be is `memory` or `broken`. */
  replay(text: string | ArrayBuffer | ArrayBufferView, options?: PlayOptions): Answer;
  /**
   * Plays one session from its start, for a player that presses one key after another: its close, and of its frames those that were shown after `from` inputs or
   * more; all, where that is left out. `from` is a whole number from 0 on. The module itself leaves the others out. Where there is a fault, there are neither.
   */
  frames(session: Session, options?: Options & { from?: number }): { frames: Frame[]; close: Close | null; fault: string | null };
  /** Whether the module gives stages, and whether it gives firings. */
  readonly hasStages: boolean;
  readonly hasFirings: boolean;
  /** The stages of an input of a session, which is played from its start: none for an input that it doesn't have. Where there is a fault, there are none. */
  stages(session: Session, input: number, options?: StageOptions): { stages: (Stage | Firing | Stop)[]; fault: string | null };
  /** The lines of the stages of an input, of a session of a file that is numbered from 0. The status of an answer is 0 or 2. */
  stagesOf(text: string | ArrayBuffer | ArrayBufferView, session: number, input: number, options?: StageOptions): Answer;
  /** Whether the module describes sources. */
  readonly hasDescriptions: boolean;
  /** What the engine has read of a source. Where there is a fault, not of the source but of the call, the description is null: `memory`, `not-json` of bytes that
   * are no text, `too-many` of more than 16 MiB, `no-descriptions` of an older module. */
  description(source: string | ArrayBuffer | ArrayBufferView): { description: Description | null; fault: string | null };
  /** The same as bytes of JSON. The status of an answer is 0 or 2. */
  descriptionOf(source: string | ArrayBuffer | ArrayBufferView): Answer;
  /** The outline of a source: its description without the program of its rules, and without a fault that is found as rules are expanded. No rule adds
   * to its time but by its own length, where a few rules of many properties may take the whole description half a minute; which is the answer of an older module. */
  outline(source: string | ArrayBuffer | ArrayBufferView): { description: Description | null; fault: string | null };
  outlineOf(source: string | ArrayBuffer | ArrayBufferView): Answer;
  /** The cells that the engine has read of a level text; null, without a fault, of what is no level text. */
  levelDescription(level: string | ArrayBuffer | ArrayBufferView): { description: LevelDescription | null; fault: string | null };
  levelDescriptionOf(level: string | ArrayBuffer | ArrayBufferView): Answer;
  /** What the engine has read of a file of sessions, or the file's fault. */
  fileDescription(text: string | ArrayBuffer | ArrayBufferView): { description: FileDescription | null; fault: string | null };
  fileDescriptionOf(text: string | ArrayBuffer | ArrayBufferView): Answer;
  /** Whether the module keeps sessions open. */
  readonly hasOpenSessions: boolean;
  /** Opens a session, and gives it its inputs: what came with the last of them, or with its start. There is no session where there is a fault, or it is refused. */
  open(session: Session, options?: Options): Moved & { session: OpenSession | null };
  /** Whether the module solves levels. */
  readonly hasSolutions: boolean;
  /** What wins each session of a file from where it stands behind its inputs: a line each, `{"session":N,"solution":..}`. The status of an answer is 0 or 2. */
  solutionsOf(text: string | ArrayBuffer | ArrayBufferView, options?: SearchOptions): Answer;
  /** What wins one session from where it stands behind its inputs. Where there is a fault, the solution is null. */
  solution(session: Session, options?: SearchOptions): { solution: Solution | null; fault: string | null };
  /** Plays a file in workers of its own, cut into files of consecutive sessions. The answer is that of `replay`. */
  replayInWorkers(text: string | ArrayBuffer | ArrayBufferView, options?: WorkerOptions): Promise<Answer>;
}

/**
 * Loads the module: of this address, of these bytes, or compiled already. Without a source it is `out/saxtegun.wasm` beside this file. `worker` starts a
 * worker of this name in a browser, from a script that runs what this file does; where it is left out, from this file.
 */
export function load(source?: string | URL | ArrayBuffer | ArrayBufferView | WebAssembly.Module, options?: { worker?: (name: string) => Worker }): Promise<Engine>;

/** What a line may tell: a frame or a close, with the number of its session, a stage, a firing or a stop, or a solution. */
export type Line = Partial<Omit<Frame & Close, "session"> & Stage & Omit<Firing, "stage"> & Stop> & { session?: number; solution?: Solution };

/** The objects of lines. */
export function parse(lines: Uint8Array): Line[];
