// The whole of `inspect`: classic files are made into fragments, a plan is made, all is appended, and told.

import { Inspection } from './inspection.mjs';
import { planOf } from './plan.mjs';
import { bytesSource, Reader } from './reader.mjs';
import { sentencesOf } from './says.mjs';
import { kindOfFile } from './segments.mjs';

/** Runs `remux`; where there is no memory for it, that is its fault. */
function remux({ run }, bytes) {
  try {
    return run(['remux', 'file'], { file: bytes });
  } catch (error) {
    if (error.name !== 'OutOfMemoryError') throw error;
    return { status: 5, text: 'there is no memory for it here; the program itself has more' };
  }
}

// A classic file as the engine's `remux` writes it, or the file as it is; `classic` gets a word on it.
async function asFragments(engine, source, classic) {
  const found = await kindOfFile(new Reader(source));
  if (found.kind !== 'init' || found.movie.fragmented) return source;
  const { status, bytes, text } = remux(engine, await source.read(0, source.size));
  classic.push({ name: source.name, at: found.at, status, text: status ? text : '' });
  return status ? source : bytesSource(`${source.name} as fragments`, bytes.slice());
}

// Appends the files of some sources; `heard` gets each row, and what part of all bytes was read. Classic files are
// appended as they are where `isRemuxed` is false. Gives the inspection, which goes on, and what there is to tell.
export async function inspect(engine, sources, options = {}) {
  const { help = () => null, heard = () => {}, gap = 0, isRemuxed = true } = options;
  const classic = [], whole = [];
  for (const source of sources) whole.push(isRemuxed ? await asFragments(engine, source, classic) : source);
  const plan = await planOf(whole), inspection = new Inspection(engine, { gap });
  const all = plan.buffers.flatMap(({ files }) => files).reduce((sum, { source }) => sum + source.size, 0) || 1;
  let done = 0;
  for await (const row of inspection.append(plan)) heard(row, (done += row.to - row.from) / all);
  inspection.step('elementbuffered');
  inspection.step('seekable');
  inspection.step('state');
  const buffers = inspection.buffers.map(({ number, type }) => ({ number, type, ...inspection.stateOf(number) }));
  const told = { rows: inspection.rows, fault: inspection.fault, classic, buffers, notes: plan.notes };
  return { inspection, ...told, sentences: sentencesOf(told, help) };
}
