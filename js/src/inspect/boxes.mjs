// Boxes of ISO BMFF (ISO/IEC 14496-12, 4.2), as far as a table of segments needs them: what stands at the top level of
// a file, the tracks of a movie box, and of a movie fragment how many samples it has, when, and where sync samples are.
// What is buffered is not told here but by the engine.

const typeAt = (view, at) => String.fromCharCode(...[4, 5, 6, 7].map((place) => view.getUint8(at + place)));

export const viewOf = (bytes) => new DataView(bytes.buffer, bytes.byteOffset, bytes.byteLength);

// The header of a box of which at least eight bytes are there: its type, the length of the header and of the box.
// `size` is NaN where the header says none that a byte stream can have.
function headerAt(view, at) {
  const type = typeAt(view, at), short = view.getUint32(at);
  if (short !== 1) return { type, header: 8, size: short < 8 ? NaN : short };
  if (view.byteLength - at < 16) return { type, header: 16, size: NaN };
  const long = Number(view.getBigUint64(at + 8));
  return { type, header: 16, size: long < 16 ? NaN : long };
}

// The boxes at the top level, or those in a part of a file: type, first byte, the byte behind the last one that is
// there, the size that is told, and the length of the header.
export async function* topBoxes(reader, from = 0, end = reader.source.size) {
  while (from < end) {
    const bytes = await reader.bytes(from, Math.min(from + 16, end));
    if (bytes.length < 8) {
      yield { type: '', from, to: end, told: NaN, header: 8 };
      return;
    }
    const { type, header, size: told } = headerAt(viewOf(bytes), 0);
    const to = Number.isNaN(told) ? end : Math.min(end, from + told);
    yield { type, from, to, told, header };
    from = to;
  }
}

// The boxes in a payload; what is no whole box ends them.
export function* boxesIn(view, from = 0, to = view.byteLength) {
  while (to - from >= 8) {
    const { type, header, size } = headerAt(view, from);
    if (!(size <= to - from)) return;
    yield { type, from: from + header, to: from + size };
    from += size;
  }
}

function find(view, path, from, to) {
  let place = { from, to };
  for (const name of path) {
    place = [...boxesIn(view, place.from, place.to)].find((box) => box.type === name);
    if (!place) return null;
  }
  return place;
}

const findAll = (view, type, from, to) => [...boxesIn(view, from, to)].filter((box) => box.type === type);

const versionOf = (view, box) => (box.from < box.to ? view.getUint8(box.from) : 0);
const field = (view, box, at) => (box && box.from + at + 4 <= box.to ? view.getUint32(box.from + at) : 0);

// A movie box: whether it is one of a fragmented file, and its tracks with what `trex` (8.8.3) says of their samples.
export function readMovie(bytes) {
  const view = viewOf(bytes), { from, to } = find(view, ['moov']) ?? { from: 0, to: 0 };
  const mvex = find(view, ['mvex'], from, to);
  const defaults = new Map((mvex ? findAll(view, 'trex', mvex.from, mvex.to) : []).map((box) =>
    [field(view, box, 4), { duration: field(view, box, 12), flags: field(view, box, 20) }]));
  const tracks = findAll(view, 'trak', from, to).map((trak) => readTrack(view, trak, defaults)).filter(Boolean);
  return { fragmented: mvex !== null, tracks };
}

const KINDS = { vide: 'video', soun: 'audio' };

function readTrack(view, trak, defaults) {
  const tkhd = find(view, ['tkhd'], trak.from, trak.to), mdia = find(view, ['mdia'], trak.from, trak.to);
  const inMedia = (...path) => mdia && find(view, path, mdia.from, mdia.to);
  const mdhd = inMedia('mdhd'), hdlr = inMedia('hdlr');
  const kind = hdlr && hdlr.to - hdlr.from >= 12 && KINDS[typeAt(view, hdlr.from + 4)];
  if (!kind || !tkhd || !mdhd) return null;
  const id = field(view, tkhd, versionOf(view, tkhd) === 1 ? 20 : 12);
  const scale = field(view, mdhd, versionOf(view, mdhd) === 1 ? 20 : 12);
  const stsd = inMedia('minf', 'stbl', 'stsd');
  const codec = stsd && stsd.to - stsd.from >= 16 ? typeAt(view, stsd.from + 8) : '';
  const entry = stsd && { from: stsd.from + 8, to: stsd.to };
  return { id, kind, codec, scale, entry, ...defaults.get(id) ?? { duration: 0, flags: 0 } };
}

// A movie fragment: of each track how many samples it has, whether the first is a sync sample, and in units of the
// track how long they last and from when to when they are decoded.
export function readFragment(bytes, tracks) {
  const view = viewOf(bytes), { from, to } = find(view, ['moof']) ?? { from: 0, to: 0 };
  const found = new Map();
  for (const traf of findAll(view, 'traf', from, to)) {
    const tfhd = find(view, ['tfhd'], traf.from, traf.to);
    const track = tracks.find((one) => one.id === field(view, tfhd, 4));
    if (!track) continue;
    if (!found.has(track.id)) found.set(track.id, { track, samples: 0, begins: null, decoded: null, units: 0n });
    readRuns(view, traf, sampleDefaults(view, tfhd, track), found.get(track.id));
  }
  return [...found.values()];
}

// What `tfhd` (8.8.7) says of samples, else `trex`.
function sampleDefaults(view, tfhd, track) {
  const flags = field(view, tfhd, 0) & 0xffffff;
  const facts = { duration: track.duration, flags: track.flags };
  let at = 8 + (flags & 0x1 ? 8 : 0) + (flags & 0x2 ? 4 : 0);
  if (flags & 0x8) { facts.duration = field(view, tfhd, at); at += 4; }
  if (flags & 0x10) at += 4;
  if (flags & 0x20) facts.flags = field(view, tfhd, at);
  return facts;
}

function decodeTime(view, traf) {
  const tfdt = find(view, ['tfdt'], traf.from, traf.to);
  if (!tfdt || tfdt.to - tfdt.from < 8) return null;
  const isLong = versionOf(view, tfdt) === 1 && tfdt.to - tfdt.from >= 12;
  return isLong ? view.getBigUint64(tfdt.from + 4) : BigInt(field(view, tfdt, 4));
}

function readRuns(view, traf, defaults, told) {
  let time = decodeTime(view, traf);
  if (time === null) return;
  const start = time;
  for (const trun of findAll(view, 'trun', traf.from, traf.to)) time += readRun(view, trun, defaults, told);
  told.decoded = { from: told.decoded?.from ?? start, to: time };
}

// The samples of a `trun` (8.8.8); gives how long they are decoded.
function readRun(view, trun, defaults, told) {
  const flags = field(view, trun, 0) & 0xffffff;
  const count = field(view, trun, 4);
  const [hasDuration, hasSize, hasFlags, hasOffset] = [0x100, 0x200, 0x400, 0x800].map((flag) => (flags & flag) !== 0);
  const row = 4 * (hasDuration + hasSize + hasFlags + hasOffset);
  const firstAt = trun.from + 8 + (flags & 0x1 ? 4 : 0);
  let at = firstAt + (flags & 0x4 ? 4 : 0);
  if (count === 0 || at + row * count > trun.to) return 0n;
  const first = flags & 0x4 ? view.getUint32(firstAt) : null;
  const own = hasFlags ? view.getUint32(at + 4 * (hasDuration + hasSize)) : defaults.flags;
  told.begins ??= ((first ?? own) & 0x10000) === 0;
  let length = defaults.duration * count;
  if (hasDuration) {
    length = 0;
    for (let sample = 0; sample < count; sample++, at += row) length += view.getUint32(at);
  }
  told.samples += count;
  told.units += BigInt(length);
  return BigInt(length);
}
