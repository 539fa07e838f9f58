// What the tests share.

import { once } from 'node:events';
import { readFileSync } from 'node:fs';
import { attach, HTMLVideoElement, MediaSource } from '../src/index.mjs';
import { picturesOf } from './players.mjs';

export const example = (name) => readFileSync(new URL(`../../crates/case_runs/data/${name}`, import.meta.url));
export const PLAIN = example('plain.mp4');
export const PICTURES = picturesOf(PLAIN);

// an element with an open source
export async function open(options) {
  const video = new HTMLVideoElement(options);
  const source = new MediaSource();
  attach(video, source);
  await once(source, 'sourceopen');
  return { video, source };
}

export async function append(buffer, bytes) {
  buffer.appendBuffer(bytes);
  await new Promise((keep) => { buffer.addEventListener('updateend', keep, { once: true }); });
}
