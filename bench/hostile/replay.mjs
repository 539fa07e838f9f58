// Does the sessions and runs again that `hostile .. dump` puts on standard output, by js/mseplay.wasm: each has to bring the same.
//
//     node replay.mjs < DUMP
//
// prints what was counted as a line of JSON. Where something is not the same it says what, with the seed, and ends with
// status 1.

import { readSync } from 'node:fs';
import { fileURLToPath } from 'node:url';
import { load } from '../../js/src/engine.mjs';

const wasm = fileURLToPath(new URL('../../js/mseplay.wasm', import.meta.url));
const { run, Session } = await load(wasm);

const [GIVE, STEP, FORGET, LOOK, LOOK_AT, BLOCK, NEXT, NEXT_DRAIN, PRINTED] = [0, 1, 2, 3, 4, 5, 6, 7, 8];
const [DONE, NOT_THERE, NO_BYTES] = [0, 2, 8];
const REFUSALS = [null, 'InvalidStateError', 'NotSupportedError', 'QuotaExceededError', 'TypeError', 'NotFoundError',
  'NoSuchBuffer', 'NoSuchBytes'];
const INIT = ['Size', 'Missing', 'HasSamples', 'NoMvex', 'EditList', 'ZeroTimescale', 'DuplicateTrack', 'TooManyTracks'];
const MOOF = ['Size', 'NoTraf', 'NoTfhd', 'NoTfdt', 'BaseOffset', 'UnknownTrack', 'TooManySamples', 'Place'];
const FAULTS = [null, 'SizeZero', 'BoxSize', 'TooLarge', 'MoovPlace', 'MoofPlace', 'NoInit', 'InSegment', 'OutsideMdat',
  'Init', 'Moof', 'NoTracks', 'Codec', 'TracksDiffer', 'TimeRange', 'Sync', 'Rate', 'Length', 'Counts'];

const counts = { sessions: 0, steps: 0, looks: 0, runs: 0, left_out: 0 };
const texts = new TextDecoder('utf-8', { fatal: true, ignoreBOM: true });
let seed = 0n;

// The stream.

const chunk = Buffer.alloc(1 << 20);
let buffer = Buffer.alloc(0);
let place = 0;

/** So many bytes that come next. */
function take(length) {
  while (buffer.length - place < length) {
    let read = 0;
    try {
      read = readSync(0, chunk, 0, chunk.length, null);
    } catch (error) {
      if (error.code === 'EAGAIN') continue;
      throw error;
    }
    if (read === 0) throw new Error('the stream ends early');
    buffer = Buffer.concat([buffer.subarray(place), chunk.subarray(0, read)]);
    place = 0;
  }
  place += length;
  return buffer.subarray(place - length, place);
}

const byte = () => take(1)[0];
const number = () => take(8).readBigUInt64LE();
const bytes = () => take(take(4).readUInt32LE());

function check(fact, what) {
  if (fact) return;
  console.error(`replay.mjs: ${what}\nhostile: seed ${seed}`);
  process.exit(1);
}

// What is looked at, as hostile/looks.c writes it.

const rangeText = ({ start, end }, last = ')') => `[${start},${end}${last}`;
const rangesText = (ranges) => ranges.map((range) => rangeText(range)).join(' ') || 'none';
const timeText = (time) => (typeof time === 'bigint' ? `${time}` : Number.isNaN(time) ? 'nan' : 'inf');

function faultText(fault) {
  if (fault === null) return '';
  const inner = { 9: INIT, 10: MOOF }[fault.number]?.[fault.inner - 1];
  const words = ['fault', fault.number, FAULTS[fault.number], inner, fault.missing, 'buffer', fault.buffer, 'at', fault.offset];
  return `${words.filter((word) => word !== undefined && word !== null).join(' ')}\n`;
}

function lookText(session) {
  const found = session.attributes();
  return `source ${found.readyState} duration ${timeText(found.duration)} level ${found.level} position ${found.position} `
    + `paused ${found.paused} seeking ${found.seeking} error ${found.error}\n`
    + `start ${BigInt.asUintN(64, found.startPosition)} ended ${+found.ended} made ${found.made}\n`
    + `seekable ${found.seekable ? rangeText(found.seekable, ']') : ''}\nbuffered ${rangesText(found.buffered)}\n`
    + faultText(found.fault);
}

function bufferText(session, k) {
  const found = session.buffer(k);
  if (found === null) return null;
  const tracks = found.tracks.map((track) => `track ${k} ${track.id} ${track.kind} ${track.codec} frames ${track.frames} `
    + `ranges ${rangesText(track.ranges)}\n`);
  return `updating ${+found.updating} active ${+found.active} mode ${found.mode} offset ${found.timestampOffset} `
    + `window ${found.appendWindowStart} ${timeText(found.appendWindowEnd)}\n`
    + `buffer ${k} phase ${found.phase} held ${found.held} used ${found.used} buffered ${rangesText(found.ranges)}\n`
    + tracks.join('');
}

// Sessions.

const joined = (lines) => lines.map((line) => `${line}\n`).join('');

/** What a line brings: the status, the refusal and the text. */
function stepOf(session, line) {
  try {
    const { lines, refused } = session.step(line);
    return { status: DONE, refused, text: joined(lines) };
  } catch (error) {
    const status = { LineError: NOT_THERE, BytesError: NO_BYTES }[error.name];
    if (status === undefined) throw error;
    return { status, refused: null, text: '' };
  }
}

function drainByNext(session) {
  let text = '';
  for (let line = session.next(); line !== null; line = session.next()) text += joined(session.step(line).lines);
  return text;
}

/** The text of a line, or null where it is no UTF-8: no string is this line. */
function lineOf(data) {
  try {
    return texts.decode(data);
  } catch {
    return null;
  }
}

function actionText(session, kind, argument) {
  switch (kind) {
    case LOOK: return lookText(session);
    case LOOK_AT: return bufferText(session, Number(BigInt.asUintN(32, argument)));
    case BLOCK: return joined(session.block());
    case NEXT: return session.next() ?? 'none';
    default: return drainByNext(session);
  }
}

function doStep(session, data, status, refused, told) {
  const line = lineOf(data);
  if (line === null) {
    check(status === NOT_THERE, 'a line of no UTF-8 was a step');
    counts.left_out += 1;
    return;
  }
  const found = stepOf(session, line);
  counts.steps += 1;
  check(found.status === status && found.refused === REFUSALS[refused] && found.text === told,
    `${JSON.stringify(line)}: ${JSON.stringify(found)}, and natively ${status} ${refused} ${told}`);
}

function doAction(session, blobs) {
  const [kind, status, refused, argument] = [byte(), byte(), byte(), number()];
  const [data, told] = [Buffer.from(bytes()), bytes().toString()];
  if (kind === GIVE) {
    check(session.give(data) === blobs.length && status === DONE, 'give');
    blobs.push(data);
  } else if (kind === STEP) {
    doStep(session, data, status, refused, told);
  } else if (kind === FORGET) {
    session.forget(argument < 1n << 53n ? Number(argument) : Number.MAX_SAFE_INTEGER);
  } else if (kind !== PRINTED) {
    const text = actionText(session, kind, argument);
    counts.looks += 1;
    check((text === null) === (status === NOT_THERE) && (text ?? '') === told, `action ${kind}: ${text}, and natively ${told}`);
  }
}

function doSession() {
  seed = number();
  const [quota, gap, count, blobs] = [number(), number(), take(4).readUInt32LE(), []];
  const session = new Session({ quota: Number(quota), gap: Number(gap) });
  for (let i = 0; i < count; i++) doAction(session, blobs);
  session.close();
  counts.sessions += 1;
  return blobs;
}

function doRun(blobs) {
  const [status, count] = [byte(), byte()];
  const words = Array.from({ length: count }, () => bytes().toString());
  const files = new Map([['s', Buffer.from(bytes())], ...blobs.map((blob, i) => [`b${i}`, blob])]);
  const printed = Buffer.from(bytes());
  const found = run(words, files);
  counts.runs += 1;
  check(found.status === status && Buffer.compare(found.bytes, printed) === 0,
    `${words.join(' ')}: ${found.status} ${found.text}, and natively ${status} ${printed}`);
}

let blobs = [];
for (let kind = byte(); kind !== 69; kind = byte()) {
  if (kind === 83) blobs = doSession();
  else doRun(blobs);
}
console.log(JSON.stringify(counts));
