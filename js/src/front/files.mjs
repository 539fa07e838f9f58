// Files of the folder that the program is run in, as the native program loads them: docs/SCRIPTS.md, "Commands".

import { closeSync, fstatSync, openSync, readSync } from 'node:fs';
import { printedName } from './script.mjs';
import { stringsOf } from './toml.mjs';

const NO_FILE = 8;
const READ = 3;
/** The most bytes that a file may have. */
const MOST = 2 ** 30;
const PIECE = 1 << 20;

/** What a file has, up to one byte more than it may have. */
function readAll(file) {
  const { size } = fstatSync(file);
  let bytes = new Uint8Array(Math.min(size, MOST) + 1);
  let length = 0;
  for (;;) {
    if (length === bytes.length) {
      if (length > MOST) throw new Error('more than 2^30 bytes');
      const longer = new Uint8Array(Math.min(2 * length + PIECE, MOST + 1));
      longer.set(bytes);
      bytes = longer;
    }
    const count = readSync(file, bytes, length, bytes.length - length, null);
    if (count === 0) return bytes.subarray(0, length);
    length += count;
  }
}

/** The bytes of a file; null where there is none; undefined where it is there and is not read. */
function load(name) {
  if (name === '') return null;
  let file;
  try {
    file = openSync(name, 'r');
    return readAll(file);
  } catch (error) {
    return error.code === 'ENOENT' ? null : undefined;
  } finally {
    if (file !== undefined) closeSync(file);
  }
}

/** The name in a line `error: no file NAME`, as it is printed. */
const missingName = (result) => result.text.slice('error: no file '.length, -1);

function unread(result) {
  const text = `error: read ${missingName(result)}\n`;
  return { status: READ, text, bytes: new TextEncoder().encode(text) };
}

/** What a run that misses a file comes to, by what loading the file gave. */
const withoutFile = (result, loaded) => (loaded === undefined ? unread(result) : result);

/** The files that a script names, in its order. A text in it that begins so and is no blob does no harm. */
function blobNames(script) {
  const texts = stringsOf(new TextDecoder().decode(script));
  return texts.filter((text) => text.startsWith('file ')).map((text) => text.slice('file '.length));
}

function loadBlobs(files, script) {
  const lost = [];
  for (const name of new Set(blobNames(script))) {
    const bytes = load(name);
    if (bytes) files.set(name, bytes);
    else lost.push({ name: printedName(name), bytes });
  }
  return lost;
}

/**
 * Runs the program with words over the folder. The engine says which file it misses, so that nothing is read but what
 * the program reads. `main` is the file that the words name, where it was read.
 */
export function runInFolder(run, words) {
  const first = run(words, {});
  if (first.status !== NO_FILE) return { result: first };
  const main = load(words.at(-1));
  if (!main) return { result: withoutFile(first, main) };
  const files = new Map([[words.at(-1), main]]);
  const second = run(words, files);
  if (second.status !== NO_FILE) return { result: second, main };
  const lost = loadBlobs(files, main);
  const third = run(words, files);
  if (third.status !== NO_FILE) return { result: third, main };
  return { result: withoutFile(third, lost.find(({ name }) => name === missingName(third))?.bytes), main };
}
