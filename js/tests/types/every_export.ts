// Uses every export of the package, for tsc.

import {
  ArgumentError, BytesError, ClosedError, EngineStoppedError, LineError, load, ModuleError, OutOfMemoryError, run, Session,
} from 'mseplay/engine';
import type {
  Attributes, BufferAttributes, Bytes, Engine, Fault, Files, Refusal, RunResult, StepResult, Time, Track,
} from 'mseplay/engine';
import {
  attach, AudioTrackList, Clock, control, cuts, HTMLAudioElement, HTMLMediaElement, HTMLVideoElement, MediaElement,
  MediaError, MediaSource, NotThereError, saveScript, settled, SourceBuffer, SourceBufferList, TextTrack, TextTrackList,
  TimeRanges, VideoTrackList,
} from 'mseplay';
import type { ClockLike, Control, ElementOptions, Timers, VideoPlaybackQuality, WhenFull } from 'mseplay';
import { register } from 'mseplay/register';
import type { RegisterOptions } from 'mseplay/register';

const files: Files = { 'a.mp4': new Uint8Array(1), 'b.toml': 'steps = []' };
const result: RunResult = run(['ranges', 'a.mp4'], files);
const more: RunResult = run(['make', '1'], new Map<string, Bytes>());
const printed: [number, Uint8Array, string] = [result.status, more.bytes, more.text];

const session = new Session({ quota: 1n, gap: 0 });
const blob: number = session.give(new ArrayBuffer(8));
session.forget(blob);
const step: StepResult = session.step('attach');
const refused: Refusal | null = step.refused;
const next: string | null = session.next();
const attributes: Attributes = session.attributes();
const duration: Time = attributes.duration;
const fault: Fault | null = attributes.fault;
const buffer: BufferAttributes | null = session.buffer(0);
const track: Track | undefined = buffer?.tracks[0];
const lines: string[] = [...step.lines, ...session.block()];
session.close();

async function other(): Promise<Engine> {
  await load(new URL('file:///mseplay.wasm'));
  return load(new Uint8Array(8));
}

const errors: Error[] = [
  new ArgumentError(), new BytesError(), new ClosedError(), new EngineStoppedError(), new LineError(), new ModuleError(),
  new OutOfMemoryError(),
];

const timers: Timers = { tick() {} };
const clock: ClockLike = new Clock({ timers });
const whenFull: WhenFull = 'refuse';
const options: ElementOptions = { clock, quota: 12, whenFull, gap: 0.033, startTolerance: 0.1 };
const video = new HTMLVideoElement(options);
const elements: HTMLMediaElement[] = [video, new HTMLAudioElement(), new MediaElement()];
const source = new MediaSource();

async function play(): Promise<number> {
  attach(video, source);
  video.src = source;
  video.src = URL.createObjectURL(new Blob([]));
  source.onsourceopen = (event) => event.type;
  const added: SourceBuffer = source.addSourceBuffer('video/mp4');
  added.mode = 'sequence';
  added.appendBuffer(new Uint8Array(8));
  added.addEventListener('updateend', () => source.endOfStream('decode'));
  const list: SourceBufferList = source.activeSourceBuffers;
  const ranges: TimeRanges = list[0].buffered;
  const error: MediaError | null = video.error;
  const texts: TextTrackList = video.textTracks;
  const text: TextTrack = video.addTextTrack('captions', 'English', 'en');
  const lists: [AudioTrackList, VideoTrackList] = [video.audioTracks, video.videoTracks];
  const quality: VideoPlaybackQuality = video.getVideoPlaybackQuality();
  video.ontimeupdate = function onTime() { this.pause(); };
  video.muted = MediaSource.isTypeSupported('video/mp4');
  await Promise.all([video.play(), settled(video), new Clock().advance(1)]);
  if (error?.code === MediaError.MEDIA_ERR_DECODE) throw new NotThereError('a', 'b');
  return ranges.end(0) + texts.length + text.label.length + lists.length + quality.totalVideoFrames;
}

const steered: Control = control(video);
steered.refuseAppends(source.sourceBuffers[0], 2);
steered.whenFull('evict');
steered.decodeErrorAt(null);
steered.timeupdateEvery(Infinity);
steered.hidden = true;
const pieces: Uint8Array[] = cuts(new Uint8Array(8), 7);
const saved: Record<string, Uint8Array> = saveScript(video, 'kept', 'kept.toml');
const names: RegisterOptions = { window: globalThis, replace: true, clock };
const unregister: () => void = register(names);

// what a page cannot set or make is refused
// @ts-expect-error
video.paused = true;
// @ts-expect-error
new SourceBuffer();
// @ts-expect-error
source.endOfStream('lost');
// @ts-expect-error
video.videoWidth;

// what is no bytes, no line, and no option is refused
// @ts-expect-error
session.give('abc');
// @ts-expect-error
session.step(7);
// @ts-expect-error
new Session({ quota: '1' });

export {
  blob, duration, elements, errors, fault, lines, next, other, pieces, play, printed, refused, saved, track, unregister,
};
