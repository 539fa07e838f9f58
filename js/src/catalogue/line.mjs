// What there is to tell of one file, as an object for a line of JSON.

import { secondsOf } from '../front/times.mjs';
import { faultHelp } from '../front/faults.mjs';
import { codecOf } from '../inspect/codecs.mjs';
import { inspect } from '../inspect/files.mjs';
import { Reader } from '../inspect/reader.mjs';
import { kindOfFile } from '../inspect/segments.mjs';
import { readMovie, topBoxes } from '../inspect/boxes.mjs';

/** A movie box is looked into for codecs up to this size. */
const MOST_MOVIE = 1 << 24;

/** Whether a file is a classic one, and its codecs by the number of their track, as RFC 6381 writes them. */
async function movieOf(source) {
  const reader = new Reader(source), codecs = new Map();
  const { kind, movie } = await kindOfFile(reader);
  if (kind !== 'init') return { isClassic: false, codecs };
  for await (const { type, from, to, told } of topBoxes(reader)) {
    if (type !== 'moov') continue;
    // of a box that was cut nobody knows what else it had
    if (told !== to - from) break;
    const bytes = to - from > MOST_MOVIE ? new Uint8Array(0) : await reader.bytes(from, to);
    for (const track of readMovie(bytes).tracks) codecs.set(track.id, codecOf(bytes, track));
    return { isClassic: !movie.fragmented, codecs };
  }
  return { isClassic: false, codecs };
}

const rangesAs = (time) => (ranges) => ranges.map(([from, to]) => [time(from), time(to)]);

function gapsIn(rows, time) {
  return rows.flatMap((row) => row.tracks.flatMap((track) => {
    const { between, inside } = track;
    const before = between?.kind === 'gap' ? [[between.from, between.from + between.ticks]] : [];
    return [...before, ...inside].map(([from, to]) =>
      ({ segment: row.segment, offset: row.from, track: track.id, from: time(from), to: time(to) }));
  }));
}

const isCut = ({ boxes }) => boxes.some((box) => !(box.told <= box.size));

// What was lost in a segment: why, where it was looked into, else how many.
function lossOf(row, track) {
  if (track.lost) return track.lost;
  const missing = track.samples - (track.after - track.before);
  const isLost = row.kind === 'media' && missing > 0 && !row.fault && !row.refused && row.isRead && !isCut(row);
  return isLost ? { unknown: missing } : null;
}

function lossesIn(rows) {
  return rows.flatMap((row) => row.tracks.flatMap((track) => {
    const lost = lossOf(row, track);
    return lost ? [{ segment: row.segment, offset: row.from, track: track.id, ...lost }] : [];
  }));
}

function faultAs({ fault, rows }) {
  if (!fault) return null;
  const { kind, segment } = rows.find((one) => one.fault === fault);
  return { fault: fault.number, name: fault.name, offset: fault.at, segment: kind === 'media' ? segment : null };
}

/** What `remux` made of a classic file. */
function remuxAs({ classic, inspection }) {
  const [made] = classic;
  if (made.status === 0) return { bytes: inspection.sources[0]?.size ?? 0 };
  const text = made.text.trim(), found = /^fault (\d+) (.+?) at (\d+)$/.exec(text);
  return found ? { fault: Number(found[1]), name: found[2], offset: Number(found[3]) } : { error: text };
}

const tracksAs = (buffers, codecs, time) => buffers.flatMap((buffer) => buffer.tracks.map((track) => ({
  track: track.id, kind: track.kind, codec: track.codec, codecs: codecs.get(track.id) ?? track.codec,
  frames: Number(track.frames), ranges: rangesAs(time)(track.ranges),
})));

const NOT_WRONG = ['fine', 'priming', 'more'];

// The sentences of a file, and of what kind they are where something is wrong.
function saidOf({ sentences, notes }) {
  const kinds = sentences.map(({ kind }) => kind).filter((kind) => !NOT_WRONG.includes(kind));
  return { wrong: [...new Set(kinds)], says: [...sentences.map(({ text }) => text), ...notes] };
}

const durationAs = (duration, time) =>
  (typeof duration === 'bigint' ? time(duration) : Number.isNaN(duration) ? 'nan' : 'inf');

/** Inspects the file of a source; classic files are made into fragments before it where `isRemuxed`. */
export async function lineOf(engine, source, { isRemuxed = false, isSeconds = false } = {}) {
  const time = isSeconds ? (ticks) => secondsOf(String(ticks)) : String;
  const { isClassic, codecs } = await movieOf(source);
  const told = await inspect(engine, [source], { help: faultHelp, isRemuxed: isRemuxed && isClassic });
  const { duration } = told.inspection.session.attributes();
  told.inspection.close();
  return {
    file: source.name, bytes: source.size, classic: isClassic,
    ...(isRemuxed && isClassic && { remux: remuxAs(told) }),
    duration: durationAs(duration, time),
    segments: told.rows.filter(({ kind }) => kind === 'media').length,
    ranges: rangesAs(time)(told.buffers[0]?.ranges ?? []),
    tracks: tracksAs(told.buffers, codecs, time),
    gaps: gapsIn(told.rows, time), lost: lossesIn(told.rows), fault: faultAs(told), ...saidOf(told),
  };
}

/** The object for a file that could not be read. */
export const unreadLine = (name, code, text) => ({ file: name, error: { code, text } });

/** Whether a line has a fault, and whether its file could not be read. */
export const stateOfLine = (line) => ({
  isFaulty: Boolean(line.fault || line.remux?.fault || line.remux?.error), isUnread: line.error !== undefined,
});
