// What is wrong, in sentences: each says what, and in which segment of which file. They stand in the order in which a
// person should look: what ends an append, what was dropped, what is missing, what begins late.

import { decimal, grouped, length, seconds } from './times.mjs';

const MOST = 40;
const KINDS = { video: 'pictures', audio: 'sound' };

const count = (number, one, many = `${one}s`) => `${grouped(number)} ${Number(number) === 1 ? one : many}`;
const list = (words) => (words.length < 2 ? words.join('') : `${words.slice(0, -1).join(', ')} and ${words.at(-1)}`);
const span = ([from, to]) => `from ${seconds(from)} s to ${seconds(to)} s`;

/** A width in frames, and in the greatest unit of which it has one. */
export function width(ticks, frame) {
  if (!frame) return length(ticks);
  const frames = decimal(ticks, frame, 3);
  const about = ticks % frame === 0n ? '' : 'about ';
  return frames === '0' ? length(ticks) : `${about}${frames} ${frames === '1' ? 'frame' : 'frames'} (${length(ticks)})`;
}

const has = (track) => (track.kind === 'video' ? 'have' : 'has');
const kindOf = (track) => KINDS[track.kind] ?? track.kind;
const trackName = (track) => `the ${kindOf(track)} (track ${track.id}, ${track.codec})`;

/** A row in a sentence, with its place. */
function rowName(row) {
  const name = row.kind === 'init' ? 'the initialization segment' : `segment ${row.segment}`;
  return `${name}, at byte ${grouped(row.from)} of ${row.file}`;
}

const capital = (text) => text[0].toUpperCase() + text.slice(1);
const sentence = (kind, row, text) => ({ kind, file: row?.file, at: row?.from, text });

/**
 * The sentences on what `inspect` found: rows, fault, and of each buffer its state; `classic` has the files that were
 * to be made into fragments. `help` explains the line of a fault.
 */
export function sentencesOf(about, help) {
  const found = [
    ...about.classic.map((one) => classicSays(one, help)), ...faultSays(about, help),
    ...droppedSays(about.rows), ...gapsSay(about.rows), ...overlapsSay(about.rows),
    ...cutSays(about), ...lateSays(about), ...nothingSays(about),
  ];
  if (found.every(({ kind }) => kind === 'priming')) return [sentence('fine', null, fineSays(about)), ...found];
  const more = found.length - MOST;
  if (more <= 0) return found;
  const says = `${count(more, 'more sentence')} of this kind: the table of segments has them all.`;
  return [...found.slice(0, MOST), sentence('more', null, says)];
}

function classicSays({ name, at, status, text }, help) {
  const what = `${name} is a classic MP4 file and not a fragmented one: its moov, at byte ${grouped(at)}, has no mvex, `
    + 'so no page can append it as it is.';
  const then = status === 0
    ? 'It was made into fragments by remux; what is shown is of these.'
    : `remux can't make fragments of it: ${help(text.trim()) ?? text.trim()}.`;
  return { kind: 'classic', file: name, at, text: `${what} ${then}` };
}

function faultSays({ fault }, help) {
  if (!fault) return [];
  const { file, at, number, line, name } = fault;
  const text = `${file} breaks its format at byte ${grouped(at)} (0x${at.toString(16)}), `
    + `fault ${number} ${help(line) ?? name}. What came before it stands; nothing behind it was read.`;
  return [{ kind: 'fault', file, at, text }];
}

// Dropped frames.

const REASONS = ['unsynced', 'early', 'other'];

/** Losses of one track for one reason, of segments that follow each other. */
function runsOfLosses(rows) {
  const runs = [];
  const add = (row, track, why) => {
    const lost = track.lost?.[why] ?? 0;
    if (lost <= 0) return;
    const isLike = (run) => run.why === why && run.track.id === track.id && run.rows[0].buffer === row.buffer;
    const last = runs.findLast(isLike);
    if (last?.rows.at(-1).segment !== row.segment - 1) {
      runs.push({ why, track, rows: [row], lost, samples: track.samples });
      return;
    }
    last.rows.push(row);
    last.lost += lost;
    last.samples += track.samples;
  };
  for (const row of rows) for (const track of row.tracks) for (const why of REASONS) add(row, track, why);
  return runs;
}

const lossSays = (run) => (isPriming(run)
  ? sentence('priming', run.rows[0], primingText(run)) : sentence('dropped', run.rows[0], droppedText(run)));
const droppedSays = (rows) => runsOfLosses(rows).map(lossSays);

/** Whether just the first few frames of sound went, and what is left begins at 0. */
const isPriming = ({ why, track, rows, lost }) =>
  why === 'early' && track.kind === 'audio' && rows[0].segment === 1 && lost <= 4 && track.added[0]?.[0] === 0n;

function primingText({ track, rows, lost }) {
  const [frames, were, them] = lost === 1
    ? ['the first frame', 'was', 'it'] : [`the first ${lost} frames`, 'were', 'them'];
  return `Of ${rowName(rows[0])}, ${frames} of ${trackName(track)} ${were} dropped: the edit list (elst) puts ${them} `
    + 'before 0. It is the priming of the encoder, and nothing is lost.';
}

const WHY = {
  unsynced: ({ track, lost }) => `since no random access point came before ${lost === 1 ? 'it' : 'them'}: `
    + (track.begins ? 'a group there has none'
      : 'the first sample is not marked as a sync sample (sample flags of trun, tfhd or trex)'),
  early: ({ lost }) => `since ${lost === 1 ? 'it begins before 0, or is' : 'they begin before 0, or are'} decoded `
    + 'behind one that does: the edit list (elst) or the decode time (tfdt) puts them there',
  other: () => 'since a frame lies where others are, or follows one that is not held',
};

function droppedText(run) {
  const { why, track, rows, lost, samples } = run;
  const where = rows.length > 1
    ? `segments ${rows[0].segment} to ${rows.at(-1).segment}, from byte ${grouped(rows[0].from)} of ${rows[0].file} on`
    : rowName(rows[0]);
  const frames = lost === samples ? `all ${count(lost, 'frame')}` : `${grouped(lost)} of ${count(samples, 'frame')}`;
  const were = lost === 1 ? 'was' : 'were';
  return `Of ${where}, ${frames} of ${trackName(track)} ${were} dropped, ${WHY[why](run)}.`;
}

// Gaps and overlaps.

/** A sentence for each segment with a gap before it, and for each with gaps inside. */
function gapsSay(rows) {
  const found = [];
  const last = new Map();
  for (const row of rows) {
    const late = row.tracks.filter((track) => track.between?.kind === 'gap');
    if (late.length) found.push(sentence('gap', row, gapText(row, late, last.get(row.buffer))));
    const holed = row.tracks.filter((track) => track.inside.length);
    if (holed.length) found.push(sentence('hole', row, holeText(row, holed)));
    if (row.kind === 'media') last.set(row.buffer, row);
  }
  return found;
}

function gapText(row, tracks, last) {
  const [{ between }] = tracks;
  const isOne = tracks.every((track) => track.between.ticks === between.ticks);
  const places = tracks.map((track) => {
    const { from, ticks, frame } = track.between;
    const wide = isOne ? '' : `of ${width(ticks, frame)} `;
    return `${trackName(track)} ${has(track)} a gap ${wide}${span([from, from + ticks])}`;
  });
  const begins = `begins ${isOne ? `${width(between.ticks, between.frame)} ` : ''}late`;
  const before = !last ? 'what was there' : `segment ${last.segment}${last.file === row.file ? '' : ` (${last.file})`}`;
  return `${capital(rowName(row))}, ${begins}: ${list(places)}. `
    + `Either frames were lost between ${before} and this one, or the decode time (tfdt) of this one is too late.`;
}

function holeText(row, tracks) {
  const places = tracks.map((track) => {
    const [[from, to]] = track.inside;
    const more = track.inside.length - 1;
    const gap = `${trackName(track)} ${has(track)} a gap of ${width(to - from, track.frame)} ${span([from, to])}`;
    return more ? `${gap}, and ${count(more, 'more gap')}` : gap;
  });
  return `Within ${rowName(row)}, ${list(places)}: a sample's duration ends before the next one begins, `
    + 'or frames there were dropped.';
}

function overlapsSay(rows) {
  return rows.flatMap((row) => {
    const tracks = row.tracks.filter((track) => track.between?.kind === 'overlap' && track.lost?.replaced > 0);
    return tracks.length ? [sentence('overlap', row, overlapText(row, tracks))] : [];
  });
}

function overlapText(row, tracks) {
  const places = tracks.map((track) => {
    const { replaced } = track.lost;
    const were = replaced === 1 ? 'was' : 'were';
    return `of ${trackName(track)} ${count(replaced, 'frame')} of earlier segments ${were} replaced`;
  });
  const [{ between }] = tracks;
  const early = width(between.ticks, between.frame);
  return `${capital(rowName(row))}, begins ${early} before the end of what came before it: ${list(places)}.`;
}

// What is buffered in the end.

/** A file that ends within a segment. */
function cutSays({ buffers, rows, fault }) {
  const cut = fault ? [] : buffers.filter((buffer) => buffer.phase === 'media' || Number(buffer.held) > 0);
  return cut.map((buffer) => {
    const row = rows.findLast((one) => one.buffer === buffer.number);
    const box = row?.boxes.findLast((one) => one.told > one.size);
    const size = !box ? ''
      : `: its last box, ${box.type}, says ${grouped(box.told)} bytes, and ${grouped(box.size)} are there`;
    return sentence('cut', row, `${row?.file} ends in the middle of ${rowName(row)}${size}. `
      + 'It was cut, or the rest has not come.');
  });
}

const LATE = {
  video: 'They are shown later than they are decoded and no edit list says so, or the stream was cut out of a longer '
    + 'one.',
  audio: 'Its decode time (tfdt) or its edit list (elst) says so, or the stream was cut out of a longer one.',
  dropped: 'Frames before it were dropped.',
};

/** Media that begin behind 0, where a player starts. */
function lateSays({ buffers, rows }) {
  const late = buffers.filter(({ ranges }) => ranges.length && ranges[0][0] > 0n);
  return late.map(({ number, ranges, tracks }) => {
    const mine = rows.filter((row) => row.buffer === number);
    const row = mine.find((one) => one.tracks.some((track) => track.added.length));
    const isDropped = mine.some((one) => one.tracks.some(({ lost }) => lost?.early > 0 || lost?.unsynced > 0));
    const behind = tracks.filter((track) => track.ranges[0]?.[0] > 0n);
    const why = isDropped || behind.length === 0 ? LATE.dropped : LATE[behind[0].kind];
    return sentence('late', row, `Nothing is buffered at 0: the first range begins at ${seconds(ranges[0][0])} s, with `
      + `${rowName(row)}, where ${list(behind.map(trackName))} ${beginWord(behind)}. ${why} `
      + 'A player that starts at 0 waits there.');
  });
}

const beginWord = (tracks) => (tracks.length > 1 || tracks[0]?.kind === 'video' ? 'begin' : 'begins');

function nothingSays({ buffers, rows, fault }) {
  if (fault || buffers.some((buffer) => buffer.tracks.length)) return [];
  const names = [...new Set(rows.map((row) => row.file))].slice(0, 3);
  return [sentence('nothing', rows[0], `${list(names) || 'What was dropped'} has no initialization segment (ftyp and `
    + 'moov), so nothing was buffered: it is no fragmented MP4, or its initialization segment is another file.')];
}

function fineSays({ buffers, rows }) {
  const told = buffers.map((buffer) => {
    const frames = buffer.tracks.map((track) => `${count(track.frames, 'frame')} of ${kindOf(track)}`);
    return `${list(frames)} ${span(buffer.ranges[0] ?? [0n, 0n])}`;
  });
  const isWhole = !rows.some(({ tracks }) => tracks.some((track) => track.lost));
  return `Nothing is wrong: ${told.join('; ')}, without a gap${isWhole ? ', and no frame was dropped' : ''}.`;
}
