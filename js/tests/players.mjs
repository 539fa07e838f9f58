// Players and what they need, without anything of node: they run in a page too.
//
// The media are those of examples/README.md. A segment of plain.mp4 has three pictures of a thirtieth of a second and
// 12 bytes; its place is said by `timestampOffset`.

import { attach, Clock, HTMLVideoElement, MediaSource, settled } from '../src/index.mjs';

export const VIDEO = 'video/mp4; codecs="avc1.42E01E"';
// two frames of 1024 samples at 48000 a second
const FRAMES = 'fff14c80013ffc2100fff14c80013ffc2100';
export const ADTS = Uint8Array.from(FRAMES.match(/../g), (digits) => parseInt(digits, 16));
const INIT_LENGTH = 595;

export function picturesOf(plain) {
  return { init: plain.subarray(0, INIT_LENGTH), segment: plain.subarray(INIT_LENGTH), seconds: 0.1 };
}

export function rangesOf(ranges) {
  return Array.from({ length: ranges.length }, (_, i) => [ranges.start(i), ranges.end(i)]);
}

// writes the types of events into a list as they come
export function hear(list, target, types) {
  for (const type of types) target.addEventListener(type, () => list.push(type));
}

export const OF_ELEMENT = ['durationchange', 'loadedmetadata', 'loadeddata', 'waiting', 'timeupdate', 'canplay',
  'playing', 'canplaythrough', 'seeking', 'seeked', 'play', 'pause', 'ended', 'error'];
export const OF_BUFFER = ['updatestart', 'update', 'updateend', 'error', 'abort'];

// lets time pass as a browser does: in quarters of a second, with the events of each
export async function pass(clock, video, seconds, step = 0.25) {
  for (let passed = 0; passed < seconds; passed += step) {
    clock.advance(Math.min(step, seconds - passed));
    await settled(video);
  }
}

// A small player: it appends segments of pictures one after the other, takes away what was played where there is no
// room, and ends the stream.
export class Player {
  constructor(video, count, plain) {
    this.video = video;
    this.pictures = picturesOf(plain);
    this.count = count;
    this.next = 0;
    this.removed = 0;
    this.source = new MediaSource();
    this.source.addEventListener('sourceopen', () => this.start(), { once: true });
    video.srcObject = this.source;
  }

  start() {
    this.buffer = this.source.addSourceBuffer(VIDEO);
    this.buffer.onupdateend = () => this.fill();
    this.buffer.appendBuffer(this.pictures.init);
  }

  fill() {
    if (this.buffer.updating || this.source.readyState !== 'open') return;
    if (this.next === this.count) {
      this.source.endOfStream();
      return;
    }
    try {
      this.buffer.timestampOffset = this.next * this.pictures.seconds;
      this.buffer.appendBuffer(this.pictures.segment);
      this.next += 1;
    } catch (error) {
      if (error.name !== 'QuotaExceededError') throw error;
      this.makeRoom();
    }
  }

  makeRoom() {
    const played = Math.floor(this.video.currentTime / this.pictures.seconds + 1e-6);
    if (played > this.removed) {
      this.removed = played;
      this.buffer.remove(0, played * this.pictures.seconds);
    } else {
      this.video.addEventListener('timeupdate', () => this.fill(), { once: true });
    }
  }
}

// A player that does odd things: it is steered by numbers that look like chance, and are the same for each seed.
export class OddPlayer {
  constructor(seed, plain) {
    this.number = seed;
    this.plain = plain;
    this.left = 80;
    this.log = [];
    this.at = 0;
  }

  chance(count) {
    this.number = (this.number * 1103515245 + 12345) % 2147483648;
    return Math.floor((this.number / 2147483648) * count);
  }

  async play() {
    const clock = new Clock();
    const video = new HTMLVideoElement({ clock, quota: 400 });
    const source = new MediaSource();
    attach(video, source);
    await settled(video);
    const buffers = [source.addSourceBuffer(VIDEO), source.addSourceBuffer('audio/aac')];
    Object.assign(this, { video, source, buffers });
    await settled(video);
    const types = new Set([...OF_ELEMENT, ...OF_BUFFER]);
    [video, source, ...buffers].forEach((target, i) => {
      const name = ['element', 'source', 'buffer 0', 'buffer 1'][i];
      for (const type of [...types, 'sourceopen', 'sourceended']) {
        target.addEventListener(type, () => this.hear(`${name} ${type}`));
      }
    });
    while (this.left > 0) {
      this.call();
      if (this.chance(2) === 0) await settled(video);
      clock.advance(this.chance(4) / 20);
    }
    await settled(video);
  }

  hear(event) {
    const { video, buffers } = this;
    const updating = buffers.map((buffer) => buffer.updating).join(' ');
    this.log.push(`event ${event} level ${video.readyState} seeking ${video.seeking}`
      + ` ranges ${rangesOf(buffers[0].buffered)} updating ${updating}`);
    while (this.left > 0 && this.chance(3) === 0) this.call();
  }

  // the bytes of the file in pieces, over and over from its media segment on
  appendPiece() {
    const end = Math.min(this.at + 1 + this.chance(600), this.plain.length);
    this.buffers[0].appendBuffer(this.plain.subarray(this.at, end));
    this.at = end < this.plain.length ? end : INIT_LENGTH;
  }

  call() {
    const { video, source, buffers } = this;
    const calls = [
      () => this.appendPiece(),
      () => this.appendPiece(),
      () => buffers[1].appendBuffer(ADTS),
      () => { buffers[0].timestampOffset = this.chance(8) / 10; },
      () => { buffers[0].abort(); this.at = INIT_LENGTH; },
      () => buffers[this.chance(2)].remove(this.chance(5) / 10, 1),
      () => { video.currentTime = this.chance(8) / 10; },
      () => video.pause(),
      () => source.endOfStream(),
      () => { source.duration = 0.4 + this.chance(8) / 10; },
    ];
    this.left -= 1;
    try {
      if (this.chance(4) === 0) video.play().catch(() => {});
      calls[this.chance(calls.length)]();
      this.log.push('done');
    } catch (error) {
      this.log.push(`refused ${error.name}`);
    }
  }
}
