// The segments at the top level of a file: an initialization segment up to its `moov`, a media segment up to the last
// `mdat` of its `moof`, and what stands behind the last of them. Boxes before a `moov` or `moof` belong to it.

import { readMovie, topBoxes } from './boxes.mjs';

const segmentOf = (boxes, kind) => ({ kind, from: boxes[0].from, to: boxes.at(-1).to, boxes });

// Each is `{ kind, from, to, boxes }`, its kind "init", "media" or "other".
export async function* segments(reader) {
  let boxes = [], kind = null;
  for await (const box of topBoxes(reader)) {
    if (kind === 'media' && box.type !== 'mdat' && boxes.at(-1).type === 'mdat') {
      yield segmentOf(boxes, kind);
      [boxes, kind] = [[], null];
    }
    boxes.push(box);
    if (box.type === 'moof') kind = 'media';
    if (box.type === 'moov' && kind === null) {
      yield segmentOf(boxes, 'init');
      boxes = [];
    }
  }
  if (boxes.length) yield segmentOf(boxes, kind ?? 'other');
}

// The movie box is read as a whole up to this size, which is the engine's own bound.
const MOST_MOVIE = 1 << 24;

/** The movie box of a file; of one that is too large only whether it is of a fragmented file. */
async function movieOf(reader, box) {
  if (box.to - box.from <= MOST_MOVIE) return readMovie(await reader.bytes(box.from, box.to));
  for await (const { type } of topBoxes(reader, box.from + box.header, box.to)) {
    if (type === 'mvex') return { fragmented: true, tracks: [] };
  }
  return { fragmented: false, tracks: [] };
}

// What a file is, by its first boxes: "init" where a `moov` comes before the first `moof`, "media" where none does,
// "adts", or "other". An `init` says whether it is one of a fragmented file, and which tracks it has.
export async function kindOfFile(reader) {
  if (isAdts(await reader.bytes(0, 16))) return { kind: 'adts' };
  for await (const box of topBoxes(reader)) {
    if (box.type === 'moof') return { kind: 'media' };
    if (box.type === 'moov') return { kind: 'init', movie: await movieOf(reader, box), at: box.from };
  }
  return { kind: 'other' };
}

/** Whether bytes begin with a frame of ADTS or an ID3v2 tag. */
export function isAdts(head) {
  const isTag = String.fromCharCode(...head.subarray(0, 3)) === 'ID3';
  return head.length >= 7 && (isTag || (head[0] === 0xff && (head[1] & 0xf6) === 0xf0));
}
