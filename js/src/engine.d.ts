// Types of mseplay/engine. README.md says what each does.

/** A number of ticks, of which a second has 141,120,000,000. */
export type Ticks = bigint;
/** A time: ticks, NaN or Infinity. */
export type Time = bigint | number;
export type Bytes = ArrayBuffer | SharedArrayBuffer | ArrayBufferView;
export type Files = Record<string, Bytes | string> | ReadonlyMap<string, Bytes | string>;

export interface TickRange {
  readonly start: Ticks;
  readonly end: Ticks;
}

export interface RunResult {
  /** The status that the program ends with. */
  readonly status: number;
  /** What it prints. */
  readonly bytes: Uint8Array;
  /** The same as a text. */
  readonly text: string;
}

export type Refusal =
  | 'InvalidStateError' | 'NotSupportedError' | 'QuotaExceededError' | 'TypeError' | 'NotFoundError'
  | 'NoSuchBuffer' | 'NoSuchBytes';

export interface StepResult {
  /** The lines that the step prints, without line feeds. */
  readonly lines: string[];
  /** The name by which its call was refused. */
  readonly refused: Refusal | null;
}

export interface Fault {
  readonly number: number;
  readonly inner: number;
  /** The type of the box that is missing. */
  readonly missing: string | null;
  readonly buffer: number;
  readonly offset: number;
}

export interface Attributes {
  readonly readyState: 'closed' | 'open' | 'ended';
  readonly duration: Time;
  /** The element's readyState. */
  readonly level: 0 | 1 | 2 | 3 | 4;
  readonly position: Ticks;
  readonly startPosition: Ticks;
  readonly paused: boolean;
  readonly seeking: boolean;
  readonly ended: boolean;
  /** The code of the element's error, 0 where there is none. */
  readonly error: number;
  readonly seekable: TickRange | null;
  readonly buffered: TickRange[];
  /** How many source buffers were ever made. */
  readonly made: number;
  readonly fault: Fault | null;
}

export interface Track {
  readonly id: number;
  readonly kind: 'video' | 'audio' | 'other';
  readonly codec: string;
  readonly frames: number;
  readonly ranges: TickRange[];
}

export interface BufferAttributes {
  readonly updating: boolean;
  readonly active: boolean;
  readonly mode: 'segments' | 'sequence';
  readonly timestampOffset: Ticks;
  readonly appendWindowStart: Ticks;
  readonly appendWindowEnd: Time;
  readonly phase: 'waiting' | 'init' | 'media';
  readonly held: number;
  readonly used: number;
  readonly ranges: TickRange[];
  readonly tracks: Track[];
}

export interface SessionOptions {
  /** How many bytes of coded frames a source buffer may hold: 1 to 2^40. */
  quota?: number | bigint;
  /** The longest gap that counts as buffered, in ticks: 0 to 2^40. */
  gap?: number | bigint;
}

export declare class Session {
  constructor(options?: SessionOptions);
  give(bytes: Bytes): number;
  forget(before: number | bigint): void;
  step(line: string): StepResult;
  next(): 'fire' | 'element' | `work ${number}` | null;
  attributes(): Attributes;
  buffer(number: number): BufferAttributes | null;
  block(): string[];
  close(): void;
}

export declare function run(words: readonly string[], files?: Files): RunResult;

export interface Engine {
  run: typeof run;
  Session: typeof Session;
}

export declare function load(source: string | URL | BufferSource | WebAssembly.Module): Promise<Engine>;

/** An argument is of the wrong kind, or out of its range. */
export declare class ArgumentError extends TypeError {}
/** A line is no step. */
export declare class LineError extends Error {
  readonly line: string;
}
/** A step names a blob that was not handed over, or was forgotten. */
export declare class BytesError extends Error {
  readonly line: string;
}
/** The session was closed. */
export declare class ClosedError extends Error {}
/** The module could not be loaded. */
export declare class ModuleError extends Error {
  readonly cause?: unknown;
}
/** There was no memory. A session whose step found none has ended. */
export declare class OutOfMemoryError extends Error {}
/** The engine stopped in the middle of a call; its sessions have ended. */
export declare class EngineStoppedError extends Error {
  readonly cause?: unknown;
}
