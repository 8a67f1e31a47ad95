/** The state of the page, as web/work.mjs begins it, and what it is made of. */
import type { Session, Stage, Stop } from "../engine/saxtegun";
import type { SessionFile } from "./session-file.mjs";

export type Input = Session["inputs"][number];
export type Order = "rows" | "columns";

export interface Frame {
  readonly at: number;
  readonly kind: string;
  readonly level: string;
}

/** What is recorded: over its own text or the one at hand, from an entry of LEVELS on; `opened` is the number of the session that is open. */
export interface Work {
  own: string | null;
  index: number;
  inputs: Input[];
  name: string;
  opened: number | null;
}

/** A key that was pressed and isn't played yet: behind so many inputs, or all, where this frame was looked at. */
export interface Key {
  input: Input;
  behind: number | null;
  looked: number | null;
}

/** What the engine is asked about. */
export interface Asked {
  source: string;
  index: number;
  order: Order;
  isTicked: boolean;
  inputs: Input[];
}

export interface AskedPlay extends Asked {
  from: number;
  isKey: boolean;
}

export interface AskedStages extends Asked {
  numbers: number[];
}

export interface Played extends AskedPlay {
  frames: Frame[];
  cause: string | null;
  isSolved: boolean;
}

/** How a session closed, and where its lines stand. */
export interface Run {
  name: string;
  close: string;
  cause: string | null;
  count: number;
  begin: number;
  end: number;
  isUnsolved: boolean;
}

export interface AskedSuite {
  file: SessionFile;
  text: string;
  order: Order;
  isTicked: boolean;
}

export interface Suite extends AskedSuite {
  why: string | null;
  lines: Uint8Array | null;
  runs: Run[] | null;
  milliseconds: number;
}

/** Where two runs part. */
export interface Parting {
  frame: number;
  kind: "end" | "level" | "kind" | "close";
}

export interface OtherRun {
  name: string;
  close: string;
  cause: string | null;
  count: number;
  frames: Frame[];
}

/** A session that differs, as it was seen. */
export interface Difference {
  reached: string;
  recorded: string;
  isSolved: boolean;
  why: string | null;
}

/** What something else took the place of. */
export interface Lost {
  text?: string;
  work?: Work;
  file?: SessionFile;
  isUnsaved?: boolean;
}

/** What is said, with the close whose shape stands before it. */
export interface Told {
  text: string;
  close: string | null;
}

/** A stage, or the stop behind the last. */
export type StageOrStop = Partial<Stage> & Partial<Stop>;

/** A solution, of which one is there. */
export interface Found {
  solved?: (0 | 1 | 2 | 3 | 4)[];
  unsolvable?: true;
  outOfBounds?: { inputs: number; levels: number };
  over?: true;
  stopped?: true;
  refused?: true;
}

export interface StagesCame {
  wanted: AskedStages;
  stages: StageOrStop[];
  fault: string | null;
}

export interface Staging {
  isOpen: boolean;
  came: StagesCame | null;
  chosen: { came: StagesCame; looked: number | null; number: number } | null;
  sought: number | null;
  line: { source: string; number: number } | null;
  isCovered: boolean;
  isStopped: boolean;
  fault: string | null;
  acted: (Asked & { lines: number[][] }) | null;
}

export interface State {
  example: string;
  text: string;
  order: Order;
  work: Work;
  looked: number | null;
  queue: Key[];
  played: Played | null;
  isTicked: boolean;
  isHeld: boolean;
  file: SessionFile | null;
  isUnsaved: boolean;
  suite: Suite | null;
  good: Suite | null;
  isNew: boolean;
  seen: Map<number, Difference>;
  comparison: { name: string; others: OtherRun[]; partings: (Parting | null)[] } | null;
  past: Lost[];
  tab: string;
  since: (Parting & { at: number }) | null;
  messages: string[];
  told: Told | null;
  refusals: string[];
  saved: string;
  staging: Staging;
  solving: { asked: Asked | null; came: { solution: Found | null; frames: Frame[]; fault: string | null } | null };
  /** Which of how many presses that win a ghost shows, where one does. */
  ghost?: { count: number; of: number };
}
