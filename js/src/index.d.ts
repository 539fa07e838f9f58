// Types of `mseplay`. Names and meaning are those of the web standards where no comment says otherwise.

type Handler<Target> = ((this: Target, event: Event) => unknown) | null;

/** The mocked timers of a test, as `mock.timers` of node's test runner. */
export interface Timers {
  tick(milliseconds: number): void;
}

/** A clock that a test moves. Nothing else lets time pass. */
export class Clock {
  /** With timers both pass together. */
  constructor(options?: { timers?: Timers | null });
  /** Seconds since the clock was made. */
  now(): number;
  /** Lets so many seconds pass: at once, or with timers millisecond by millisecond, to be awaited. */
  advance(seconds: number): Promise<void> | undefined;
  /** Calls a listener with the seconds of each advance. */
  listen(listener: (seconds: number) => unknown): void;
  /** The seconds between two `timeupdate`; undefined where each advance has one. */
  readonly rhythm: number | undefined;
}

/** What an element needs of a clock: one of your own has this method. */
export interface ClockLike {
  listen(listener: (seconds: number) => unknown): void;
  readonly rhythm?: number;
}

/** What becomes of an append that would take a source buffer above its quota. */
export type WhenFull = 'evict' | 'refuse';

export interface ElementOptions {
  /** The clock that the element goes by; one of its own where it is left out. */
  clock?: ClockLike;
  /** How many bytes of coded frames a source buffer holds. */
  quota?: number;
  whenFull?: WhenFull;
  /** The longest gap that counts as buffered, in seconds. */
  gap?: number;
  /** Media that begin so many seconds behind the position 0 play from there without a seek of the page. */
  startTolerance?: number;
}

/** A part of the standard that is left out. */
export class NotThereError extends Error {
  constructor(what: string, why: string);
}

export class TimeRanges {
  private constructor();
  readonly length: number;
  start(index: number): number;
  end(index: number): number;
}

export class MediaError {
  private constructor();
  static readonly MEDIA_ERR_ABORTED: 1;
  static readonly MEDIA_ERR_NETWORK: 2;
  static readonly MEDIA_ERR_DECODE: 3;
  static readonly MEDIA_ERR_SRC_NOT_SUPPORTED: 4;
  readonly MEDIA_ERR_ABORTED: 1;
  readonly MEDIA_ERR_NETWORK: 2;
  readonly MEDIA_ERR_DECODE: 3;
  readonly MEDIA_ERR_SRC_NOT_SUPPORTED: 4;
  readonly code: number;
  readonly message: string;
}

export type AppendMode = 'segments' | 'sequence';
export type ReadyState = 'closed' | 'open' | 'ended';
export type EndOfStreamError = 'network' | 'decode';

export class SourceBuffer extends EventTarget {
  private constructor();
  readonly updating: boolean;
  readonly buffered: TimeRanges;
  mode: AppendMode;
  timestampOffset: number;
  appendWindowStart: number;
  appendWindowEnd: number;
  appendBuffer(data: ArrayBuffer | ArrayBufferView): void;
  abort(): void;
  remove(start: number, end: number): void;
  changeType(type: string): void;
  onupdatestart: Handler<SourceBuffer>;
  onupdate: Handler<SourceBuffer>;
  onupdateend: Handler<SourceBuffer>;
  onerror: Handler<SourceBuffer>;
  onabort: Handler<SourceBuffer>;
}

export class SourceBufferList extends EventTarget implements Iterable<SourceBuffer> {
  private constructor();
  readonly length: number;
  readonly [index: number]: SourceBuffer;
  [Symbol.iterator](): Iterator<SourceBuffer>;
  onaddsourcebuffer: Handler<SourceBufferList>;
  onremovesourcebuffer: Handler<SourceBufferList>;
}

export class MediaSource extends EventTarget {
  static isTypeSupported(type: string): boolean;
  static readonly canConstructInDedicatedWorker: false;
  readonly readyState: ReadyState;
  readonly sourceBuffers: SourceBufferList;
  readonly activeSourceBuffers: SourceBufferList;
  duration: number;
  addSourceBuffer(type: string): SourceBuffer;
  removeSourceBuffer(buffer: SourceBuffer): void;
  endOfStream(error?: EndOfStreamError): void;
  setLiveSeekableRange(start: number, end: number): void;
  clearLiveSeekableRange(): void;
  onsourceopen: Handler<MediaSource>;
  onsourceended: Handler<MediaSource>;
  onsourceclose: Handler<MediaSource>;
}

/** Tracks of a media element: none that the engine tells of. */
export class AudioTrackList extends EventTarget implements Iterable<never> {
  private constructor();
  readonly length: number;
  getTrackById(id: string): null;
  [Symbol.iterator](): Iterator<never>;
  onchange: Handler<AudioTrackList>;
  onaddtrack: Handler<AudioTrackList>;
  onremovetrack: Handler<AudioTrackList>;
}

export class VideoTrackList extends EventTarget implements Iterable<never> {
  private constructor();
  readonly length: number;
  readonly selectedIndex: -1;
  getTrackById(id: string): null;
  [Symbol.iterator](): Iterator<never>;
  onchange: Handler<VideoTrackList>;
  onaddtrack: Handler<VideoTrackList>;
  onremovetrack: Handler<VideoTrackList>;
}

export type TextTrackKind = 'subtitles' | 'captions' | 'descriptions' | 'chapters' | 'metadata';

/** A text track that the page added. No cue becomes active. */
export class TextTrack extends EventTarget {
  private constructor();
  readonly kind: TextTrackKind;
  readonly label: string;
  readonly language: string;
  readonly id: string;
  readonly inBandMetadataTrackDispatchType: string;
  mode: 'disabled' | 'hidden' | 'showing';
  readonly cues: readonly object[] | null;
  readonly activeCues: readonly object[] | null;
  addCue(cue: object): void;
  removeCue(cue: object): void;
  oncuechange: Handler<TextTrack>;
}

export class TextTrackList extends EventTarget implements Iterable<TextTrack> {
  private constructor();
  readonly length: number;
  readonly [index: number]: TextTrack;
  getTrackById(id: string): TextTrack | null;
  [Symbol.iterator](): Iterator<TextTrack>;
  onchange: Handler<TextTrackList>;
  onaddtrack: Handler<TextTrackList>;
  onremovetrack: Handler<TextTrackList>;
}

export class HTMLMediaElement extends EventTarget {
  constructor(options?: ElementOptions);
  static readonly NETWORK_EMPTY: 0;
  static readonly NETWORK_IDLE: 1;
  static readonly NETWORK_LOADING: 2;
  static readonly NETWORK_NO_SOURCE: 3;
  readonly NETWORK_EMPTY: 0;
  readonly NETWORK_IDLE: 1;
  readonly NETWORK_LOADING: 2;
  readonly NETWORK_NO_SOURCE: 3;
  static readonly HAVE_NOTHING: 0;
  static readonly HAVE_METADATA: 1;
  static readonly HAVE_CURRENT_DATA: 2;
  static readonly HAVE_FUTURE_DATA: 3;
  static readonly HAVE_ENOUGH_DATA: 4;
  readonly HAVE_NOTHING: 0;
  readonly HAVE_METADATA: 1;
  readonly HAVE_CURRENT_DATA: 2;
  readonly HAVE_FUTURE_DATA: 3;
  readonly HAVE_ENOUGH_DATA: 4;
  srcObject: MediaSource | null;
  /** An address of a media source, or a media source itself. */
  get src(): string | MediaSource;
  set src(source: string | MediaSource);
  readonly currentSrc: string;
  load(): void;
  readonly networkState: number;
  getAttribute(name: string): string | null;
  setAttribute(name: string, value: string): void;
  hasAttribute(name: string): boolean;
  removeAttribute(name: string): void;
  toggleAttribute(name: string, force?: boolean): boolean;
  autoplay: boolean;
  controls: boolean;
  crossOrigin: 'anonymous' | 'use-credentials' | null;
  defaultMuted: boolean;
  loop: boolean;
  preload: 'none' | 'metadata' | 'auto' | '';
  defaultPlaybackRate: number;
  playbackRate: number;
  preservesPitch: boolean;
  volume: number;
  muted: boolean;
  readonly played: TimeRanges;
  readonly audioTracks: AudioTrackList;
  readonly videoTracks: VideoTrackList;
  readonly textTracks: TextTrackList;
  addTextTrack(kind: TextTrackKind, label?: string, language?: string): TextTrack;
  canPlayType(type: string): 'probably' | 'maybe' | '';
  fastSeek(time: number): void;
  readonly mediaKeys: null;
  setMediaKeys(keys: unknown): Promise<never>;
  currentTime: number;
  readonly buffered: TimeRanges;
  readonly seekable: TimeRanges;
  readonly readyState: number;
  readonly duration: number;
  readonly paused: boolean;
  readonly seeking: boolean;
  readonly ended: boolean;
  readonly error: MediaError | null;
  play(): Promise<void>;
  pause(): void;
  onloadstart: Handler<HTMLMediaElement>;
  onabort: Handler<HTMLMediaElement>;
  onemptied: Handler<HTMLMediaElement>;
  onratechange: Handler<HTMLMediaElement>;
  onvolumechange: Handler<HTMLMediaElement>;
  onprogress: Handler<HTMLMediaElement>;
  onsuspend: Handler<HTMLMediaElement>;
  onstalled: Handler<HTMLMediaElement>;
  onresize: Handler<HTMLMediaElement>;
  onencrypted: Handler<HTMLMediaElement>;
  onwaitingforkey: Handler<HTMLMediaElement>;
  ondurationchange: Handler<HTMLMediaElement>;
  onloadedmetadata: Handler<HTMLMediaElement>;
  onloadeddata: Handler<HTMLMediaElement>;
  onwaiting: Handler<HTMLMediaElement>;
  ontimeupdate: Handler<HTMLMediaElement>;
  oncanplay: Handler<HTMLMediaElement>;
  onplaying: Handler<HTMLMediaElement>;
  oncanplaythrough: Handler<HTMLMediaElement>;
  onseeking: Handler<HTMLMediaElement>;
  onseeked: Handler<HTMLMediaElement>;
  onplay: Handler<HTMLMediaElement>;
  onpause: Handler<HTMLMediaElement>;
  onended: Handler<HTMLMediaElement>;
  onerror: Handler<HTMLMediaElement>;
}

export interface VideoPlaybackQuality {
  readonly creationTime: number;
  readonly corruptedVideoFrames: number;
  readonly droppedVideoFrames: number;
  readonly totalVideoFrames: number;
}

export class HTMLVideoElement extends HTMLMediaElement {
  width: number;
  height: number;
  poster: string;
  playsInline: boolean;
  getVideoPlaybackQuality(): VideoPlaybackQuality;
}

export class HTMLAudioElement extends HTMLMediaElement {}

export { HTMLVideoElement as MediaElement };

/** Attaches a media source to an element, as `element.srcObject = source` does. */
export function attach(element: HTMLMediaElement, source: MediaSource): void;

/** A promise that is kept when all events of an element, its source and their buffers were dispatched. */
export function settled(element: HTMLMediaElement): Promise<void>;

/**
 * Writes all calls so far as the script `name` into a folder, with its bytes beside it, and gives these files by their
 * names. In a page it gives them alone. Each life of the element, from one source to the next, is a script.
 */
export function saveScript(element: HTMLMediaElement, folder: string, name?: string): Record<string, Uint8Array>;

/** What a test steers of a media element: faults on purpose, and what stands around it. */
export interface Control {
  /** The next appends to a buffer, so many (1 where it is left out), are refused with QuotaExceededError. */
  refuseAppends(buffer: SourceBuffer, count?: number): void;
  whenFull(what: WhenFull): void;
  /** An error of the decoder where the position comes to a time; null takes it back. */
  decodeErrorAt(seconds: number | null): void;
  /** The seconds between two `timeupdate`; with Infinity each advance of the clock has one. */
  timeupdateEvery(seconds: number): void;
  /** Whether the page is hidden. */
  hidden: boolean;
}

/** The test controls of an element. */
export function control(element: HTMLMediaElement): Control;

/** Pieces of some bytes, cut as a network might: the same for the same seed. */
export function cuts(bytes: Uint8Array, seed?: number): Uint8Array[];
