// The records of crates/mseplay_c/src/look.rt, as they stand in the module's memory.

const SOURCES = ['closed', 'open', 'ended'];
const MODES = ['segments', 'sequence'];
const PHASES = ['waiting', 'init', 'media'];
const KINDS = ['video', 'audio', 'other'];

/** The bytes of each record. */
export const RANGE_SIZE = 32;
export const LOOK_SIZE = 136;
export const BUFFER_LOOK_SIZE = 96;
export const TRACK_LOOK_SIZE = 32;

/** A number of ticks: 128 bits in two's complement. */
function ticksAt(view, at) {
  const low = view.getBigUint64(at, true);
  const high = view.getBigInt64(at + 8, true);
  return high === 0n ? low : (high << 64n) + low;
}

/** A time: a number of ticks, NaN or Infinity. */
function timeAt(view, at) {
  const kind = view.getUint32(at, true);
  if (kind === 0) return NaN;
  return kind === 1 ? ticksAt(view, at + 8) : Infinity;
}

function countAt(view, at) {
  return Number(view.getBigUint64(at, true));
}

function rangeAt(view, at) {
  return { start: ticksAt(view, at), end: ticksAt(view, at + 16) };
}

/** So many ranges, one behind the other. */
export function rangesAt(view, at, count) {
  return Array.from({ length: count }, (_, i) => rangeAt(view, at + i * RANGE_SIZE));
}

function codeAt(view, at) {
  return String.fromCharCode(view.getUint8(at), view.getUint8(at + 1), view.getUint8(at + 2), view.getUint8(at + 3));
}

function faultAt(view, at) {
  const number = view.getUint8(at);
  if (number === 0) return null;
  return {
    number,
    inner: view.getUint8(at + 1),
    missing: view.getUint32(at + 2, true) === 0 ? null : codeAt(view, at + 2),
    buffer: view.getUint32(at + 8, true),
    offset: countAt(view, at + 16),
  };
}

/** How many ranges a record `Look` has. */
export function lookRangeCount(view, at) {
  return countAt(view, at + 96);
}

/** The record `Look`, with the ranges that stand in a place of their own. */
export function lookAt(view, at, rangesPlace) {
  return {
    readyState: SOURCES[view.getUint8(at)],
    duration: timeAt(view, at + 8),
    level: view.getUint8(at + 1),
    position: ticksAt(view, at + 32),
    startPosition: ticksAt(view, at + 48),
    paused: view.getUint8(at + 2) === 1,
    seeking: view.getUint8(at + 3) === 1,
    ended: view.getUint8(at + 4) === 1,
    error: view.getUint8(at + 5),
    seekable: view.getUint8(at + 6) === 1 ? rangeAt(view, at + 64) : null,
    buffered: rangesAt(view, rangesPlace, lookRangeCount(view, at)),
    made: view.getUint32(at + 104, true),
    fault: faultAt(view, at + 112),
  };
}

function trackRangeCount(view, at) {
  return countAt(view, at + 24);
}

/** How many bytes a record `BufferLook` has with all its tracks, and its ranges with those of the tracks there. */
export function bufferSizes(view, at, tracksPlace, trackRoom) {
  const tracks = countAt(view, at + 88);
  let ranges = countAt(view, at + 80);
  const there = Math.min(tracks, trackRoom);
  for (let i = 0; i < there; i++) ranges += trackRangeCount(view, tracksPlace + i * TRACK_LOOK_SIZE);
  return { record: BUFFER_LOOK_SIZE + tracks * TRACK_LOOK_SIZE, ranges: ranges * RANGE_SIZE };
}

function trackAt(view, at, ranges) {
  return {
    id: view.getUint32(at, true),
    kind: KINDS[view.getUint8(at + 4)],
    codec: codeAt(view, at + 5),
    frames: countAt(view, at + 16),
    ranges,
  };
}

/** The record `BufferLook`, with its tracks, and with the ranges of all of them in a place of their own. */
export function bufferLookAt(view, at, tracksPlace, rangesPlace) {
  let place = rangesPlace;
  const nextRanges = (count) => {
    const ranges = rangesAt(view, place, count);
    place += count * RANGE_SIZE;
    return ranges;
  };
  const ranges = nextRanges(countAt(view, at + 80));
  const trackCount = countAt(view, at + 88);
  const tracks = [];
  for (let i = 0; i < trackCount; i++) {
    const track = tracksPlace + i * TRACK_LOOK_SIZE;
    tracks.push(trackAt(view, track, nextRanges(trackRangeCount(view, track))));
  }
  return {
    updating: view.getUint8(at) === 1,
    active: view.getUint8(at + 1) === 1,
    mode: MODES[view.getUint8(at + 2)],
    timestampOffset: ticksAt(view, at + 8),
    appendWindowStart: ticksAt(view, at + 24),
    appendWindowEnd: timeAt(view, at + 40),
    phase: PHASES[view.getUint8(at + 3)],
    held: countAt(view, at + 64),
    used: countAt(view, at + 72),
    ranges,
    tracks,
  };
}
