/** What the modules of this repository use of Node, for a check of their types without its own declarations. */

declare const process: {
  readonly argv: string[];
  readonly env: Record<string, string | undefined>;
  readonly stderr: { write(text: string): boolean };
  readonly stdin: { destroy(): void };
  readonly stdout: { on(name: string, act: (fault: unknown) => void): void; write(text: string): boolean };
  readonly versions?: { readonly node?: string };
  exitCode?: number;
  cpuUsage(since?: { user: number; system: number }): { user: number; system: number };
  exit(status: number): never;
  on(name: string, act: (fault: unknown) => void): void;
};

/** Of a module in the older manner. */
declare const __dirname: string;

declare const Buffer: {
  alloc(size: number): Buffer;
  byteLength(text: string): number;
  compare(one: Uint8Array, other: Uint8Array): number;
  concat(parts: readonly Uint8Array[]): Buffer;
  from(content: string | ArrayBuffer | ArrayLike<number>, coding?: string): Buffer;
};

interface Buffer extends Uint8Array {
  subarray(begin?: number, end?: number): Buffer;
  toString(coding?: string): string;
}

declare module "node:fs" {
  type Place = string | URL;
  export function closeSync(file: number): void;
  export function existsSync(path: Place): boolean;
  export function openSync(path: Place, flags: string): number;
  export function readFileSync(path: Place | number): Buffer;
  export function readFileSync(path: Place | number, coding: string): string;
  export function readSync(file: number, into: Uint8Array, from?: number, count?: number, place?: number | null): number;
  export function readdirSync(path: Place): string[];
  export function writeSync(file: number, bytes: string): number;
  export function writeSync(file: number, bytes: Uint8Array, from?: number): number;
}

declare module "fs" {
  export * from "node:fs";
}

declare module "path" {
  export function join(...parts: string[]): string;
}

declare module "node:fs/promises" {
  export function readFile(path: string | URL): Promise<Buffer>;
}

declare module "node:readline" {
  export function createInterface(options: { input: unknown; crlfDelay?: number }): AsyncIterable<string>;
}

declare module "node:url" {
  export function pathToFileURL(path: string): URL;
}

declare module "node:worker_threads" {
  export const workerData: unknown;
  export const parentPort: { on(name: string, act: (message: any) => void): void; postMessage(message: unknown, moved?: readonly ArrayBuffer[]): void } | null;
  export class Worker {
    constructor(script: string | URL, options?: { eval?: boolean; resourceLimits?: Record<string, number>; workerData?: unknown });
    on(name: string, act: (message: any) => void): this;
    postMessage(message: unknown, moved?: readonly ArrayBuffer[]): void;
    terminate(): Promise<number>;
  }
}
