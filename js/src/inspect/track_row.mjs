// What a segment did to one track: the time that it added, and how that lies to the segment before.

import { difference, endBefore, gapsOf } from './ranges.mjs';
import { TICKS } from './times.mjs';

// `now` and `before` are the engine's words on the track behind the segment and before it, `told` those of the boxes.
export function trackRow(now, before, told, spans) {
  const added = difference(now.ranges, before?.ranges ?? []);
  const row = {
    id: now.id, kind: now.kind, codec: now.codec,
    samples: told?.samples ?? 0, begins: told?.begins ?? null,
    before: before?.frames ?? 0, after: now.frames, added, inside: gapsOf(added), between: null, lost: null,
  };
  const frame = told?.samples ? told.units * TICKS / BigInt(told.track.scale || 1) / BigInt(told.samples) : 0n;
  row.frame = frame;
  row.between = told?.samples ? betweenOf(row, before?.ranges ?? [], overlapOf(told, spans)) : null;
  if (told?.decoded) spans.set(now.id, told.decoded);
  return row;
}

// By how many ticks the samples are decoded before those of the segment before end, by the boxes; else 0.
function overlapOf({ track, decoded }, spans) {
  const last = spans.get(track.id);
  if (!last || !decoded || decoded.from >= last.to || decoded.to <= last.from) return 0n;
  return (last.to - decoded.from) * TICKS / BigInt(track.scale || 1);
}

function betweenOf(row, before, overlap) {
  const begin = row.added[0]?.[0];
  if (overlap > 0n) return between('overlap', overlap, row.frame);
  if (begin === undefined) return null;
  if (!before.length) return between('first', begin, row.frame);
  const end = endBefore(before, begin);
  if (end === null) return between('earlier', before[0][0] - begin, row.frame);
  return end === begin ? between('none', 0n, row.frame) : between('gap', begin - end, row.frame, end);
}

/**
 * What a later segment filled is no gap in the end, as where the pictures of one group are parted: `ranges` are those
 * of the track then.
 */
export function forgetFilled(row, ranges) {
  const isFilled = ([from, to]) => ranges.some(([start, end]) => start <= from && to <= end);
  row.inside = row.inside.filter((gap) => !isFilled(gap));
  const { between: gap } = row;
  if (gap?.kind === 'gap' && isFilled([gap.from, gap.from + gap.ticks])) gap.kind = 'filled';
}

const between = (kind, ticks, frame, from = null) => ({ kind, ticks, frame, from });
