// Which file goes into which source buffer, and in which order: initialization segments first, pictures and sound
// apart, and what has both into one buffer.

import { Reader } from './reader.mjs';
import { kindOfFile } from './segments.mjs';

const TYPES = { video: 'video/mp4', audio: 'audio/mp4', adts: 'audio/aac', other: 'video/mp4' };

// Names in the order in which a person counts: seg-2 before seg-10.
export const byName = (a, b) => a.name.localeCompare(b.name, 'en', { numeric: true });

// Gives `{ buffers: [{ kind, type, files: [{ source, kind }] }], notes }`.
export async function planOf(sources) {
  const looked = async (source) => ({ source, ...await kindOfFile(new Reader(source)) });
  const files = await Promise.all(sources.map(looked));
  const inits = files.filter((file) => file.kind === 'init');
  const buffers = new Map();
  const put = (kind, ...some) => {
    if (!buffers.has(kind)) buffers.set(kind, { kind, type: TYPES[kind], files: [] });
    buffers.get(kind).files.push(...some);
  };
  for (const init of inits) {
    const own = files.filter((file) => file.kind === 'media' && initOf(file, inits) === init);
    put(kindOfMovie(init.movie), init, ...own);
  }
  if (!inits.length) for (const file of files.filter((file) => file.kind === 'media')) put('video', file);
  for (const file of files.filter((file) => file.kind === 'adts')) put('adts', file);
  if (!buffers.size) for (const file of files) put('other', file);
  return { buffers: [...buffers.values()], notes: notesOf(files, inits, buffers) };
}

function kindOfMovie({ tracks }) {
  const kinds = new Set(tracks.map((track) => track.kind));
  return kinds.size === 1 && kinds.has('audio') ? 'audio' : 'video';
}

// The initialization segment of a file without one: that whose name and folder have most in common with its own, as
// `init-stream0.m4s` has with `chunk-stream0-00001.m4s`.
function initOf(file, inits) {
  const words = new Set(wordsOf(file.source.name));
  const shared = (init) => wordsOf(init.source.name).filter((word) => words.has(word)).length;
  return inits.reduce((best, init) => (shared(init) > shared(best) ? init : best), inits[0]);
}

const wordsOf = (name) => name.toLowerCase().split(/[^a-z0-9]+/).filter(Boolean);

function notesOf(files, inits, buffers) {
  const notes = [];
  const media = files.filter((file) => file.kind === 'media');
  if (media.length && !inits.length) {
    notes.push('No initialization segment is among the files (a file with ftyp and moov, often named init.mp4), so '
      + `${media[0].source.name} can't be read: drop it too.`);
  }
  for (const { kind, files: some } of buffers.values()) {
    const count = some.filter((file) => file.kind === 'init').length;
    const what = kind === 'audio' ? 'sound' : 'pictures';
    if (count > 1) notes.push(`${count} initialization segments are of ${what}: they go into one buffer in turn.`);
  }
  const passed = buffers.has('other') ? [] : files.filter((file) => file.kind === 'other');
  const names = passed.slice(0, 5).map((file) => file.source.name).join(', ');
  const others = passed.length > 5 ? ' and others' : '';
  if (passed.length) notes.push(`Passed over, since no segment is there: ${names}${others}.`);
  return notes;
}
