// The file that the lines of a catalogue go into. A run that was stopped goes on behind the lines that it has.

import { closeSync, ftruncateSync, openSync, readSync } from 'node:fs';
import { stateOfLine } from './line.mjs';

const PIECE = 1 << 20;
const FRONT = '{"file":"';
const LINE_FEED = 10;

/** A file whose lines are not those of a catalogue. Nothing of it is changed. */
export class ResumeError extends Error {}

/** The lines of a file as bytes, each with the place behind it; of the last one whether it has an end. */
function* linesOf(file) {
  const piece = Buffer.alloc(PIECE);
  let rest = Buffer.alloc(0), at = 0;
  for (let count; (count = readSync(file, piece, 0, PIECE, null)) > 0;) {
    const bytes = Buffer.concat([rest, piece.subarray(0, count)]);
    let from = 0;
    for (let end; (end = bytes.indexOf(LINE_FEED, from)) >= 0; from = end + 1) {
      yield { bytes: bytes.subarray(from, end), isWhole: true, to: (at += end + 1 - from) };
    }
    rest = Buffer.from(bytes.subarray(from));
  }
  if (rest.length) yield { bytes: rest, isWhole: false, to: at + rest.length };
}

function lineIn(bytes) {
  try {
    const line = JSON.parse(bytes.toString());
    return typeof line?.file === 'string' ? line : null;
  } catch {
    return null;
  }
}

// The front of a line: it may end anywhere.
function isFront(bytes) {
  const text = bytes.toString('latin1');
  return text.startsWith(FRONT) || FRONT.startsWith(text);
}

/**
 * Opens the file of a name, makes it where there is none, and takes away a line that was broken off at its end. Gives
 * the states of the files whose lines it has, by name, and the file, at whose end is written.
 */
export function resume(name) {
  const file = openSync(name, 'a+');
  const done = new Map();
  let number = 0, length = 0;
  try {
    for (const { bytes, isWhole, to } of linesOf(file)) {
      number += 1;
      const line = isWhole ? lineIn(bytes) : null;
      if (isWhole ? !line : !isFront(bytes)) {
        throw new ResumeError(`${name}:${number}: no line of a catalogue, so nothing is written to this file`);
      }
      if (!isWhole) break;
      done.set(line.file, stateOfLine(line));
      length = to;
    }
    ftruncateSync(file, length);
  } catch (error) {
    closeSync(file);
    throw error;
  }
  return { file, done, close: () => closeSync(file) };
}
