// The table of segments as words: a list of cells for each row. The page draws it, and `mseplay inspect` prints it.

import { grouped, seconds } from './times.mjs';
import { width } from './says.mjs';

export const HEADS = [
  'segment', 'file and offset', 'bytes', 'boxes', 'track', 'added (s)', 'frames held', 'to the one before',
  'to look at',
];

const KINDS = { init: 'init', frames: 'frames', other: '–' };

// The cells of a row; those of its tracks are lists, one member a track.
export function cellsOf(row) {
  const tracks = row.tracks.filter((track) => row.kind !== 'media' || track.samples || track.added.length);
  const of = (word) => tracks.map(word);
  return [
    KINDS[row.kind] ?? String(row.segment), `${row.file} @ ${grouped(row.from)}`, grouped(row.to - row.from),
    boxWords(row.boxes), of((track) => `${track.id} ${track.kind} ${track.codec}`), of(addedWords), of(heldWords),
    of(betweenWords), lookWords(row, tracks),
  ];
}

function boxWords(boxes) {
  const words = boxes.slice(0, 6).map(({ type, size, told }) => {
    const cut = told > size ? ` of ${grouped(told)}` : Number.isNaN(told) ? ' of no size' : '';
    return `${type || '?'} ${grouped(size)}${cut}`;
  });
  return words.join(' · ') + (boxes.length > 6 ? ` · and ${boxes.length - 6} more` : '');
}

function addedWords({ added }) {
  if (!added.length) return 'nothing';
  const words = added.slice(0, 2).map(([from, to]) => `${seconds(from)} – ${seconds(to)}`);
  return words.join(', ') + (added.length > 2 ? `, and ${added.length - 2} more` : '');
}

function heldWords({ before, after, samples }) {
  const held = `${grouped(before)} → ${grouped(after)}`;
  return samples ? `${held} (has ${grouped(samples)})` : held;
}

function betweenWords({ between }) {
  if (!between) return '';
  const { kind, ticks, frame } = between;
  if (kind === 'none') return 'adjoins';
  if (kind === 'filled') return `gap of ${width(ticks, frame)}, filled later`;
  if (kind === 'gap') return `gap of ${width(ticks, frame)}`;
  if (kind === 'overlap') return `overlap of ${width(ticks, frame)}`;
  if (kind === 'earlier') return 'before all that was there';
  return ticks === 0n ? 'the first, at 0' : `the first, at ${seconds(ticks)} s`;
}

const LOST = {
  unsynced: 'dropped: no random access point before', early: 'dropped: before 0, or decoded behind one that is',
  replaced: 'of earlier segments replaced', other: 'dropped: not decodable, or covered',
};

function lookWords(row, tracks) {
  const words = row.isRead ? [] : ['not read, behind the fault'];
  if (row.fault) words.push(`fault ${row.fault.number} ${row.fault.name} at ${grouped(row.fault.at)}`);
  if (row.refused) words.push(`refused ${row.refused}`);
  for (const track of tracks) {
    for (const [why, says] of Object.entries(LOST)) {
      const lost = track.lost?.[why] ?? 0;
      if (lost > 0) words.push(`${grouped(lost)} ${lost === 1 ? 'frame' : 'frames'} of track ${track.id} ${says}`);
    }
    const gaps = track.inside.length;
    if (gaps) words.push(`${gaps} ${gaps === 1 ? 'gap' : 'gaps'} inside of track ${track.id}`);
  }
  return words.join('; ');
}

// Whether a row has something to look at.
export const isOdd = (row) => Boolean(row.fault || row.refused || row.tracks.some(isOddTrack));

const ODD = ['gap', 'overlap', 'earlier'];
const isOddTrack = (track) => track.lost || track.inside.length || ODD.includes(track.between?.kind);

// Lines of text, with columns as wide as their widest cell, a line for each track.
export function* textTable(rows) {
  const all = [[HEADS], ...rows.map((row) => linesOf(cellsOf(row)))];
  const widths = HEADS.map((_, at) => Math.min(60, Math.max(...all.flat().map((cells) => cells[at].length))));
  const padded = (cells) => cells.map((cell, at) => cell.padEnd(widths[at])).join('  ').trimEnd();
  for (const lines of all) for (const cells of lines) yield padded(cells);
}

function linesOf(cells) {
  const height = Math.max(1, ...cells.map((cell) => (Array.isArray(cell) ? cell.length : 1)));
  const cellAt = (cell, line) => (Array.isArray(cell) ? cell[line] ?? '' : line ? '' : cell);
  return Array.from({ length: height }, (_, line) => cells.map((cell) => cellAt(cell, line)));
}
