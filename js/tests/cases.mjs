// The cases of crates/case_runs/data: docs in examples/README.md, "Cases".

import { readFileSync } from 'node:fs';
import { fileURLToPath } from 'node:url';
import { stringsOf } from '../src/front/toml.mjs';

export const DATA = fileURLToPath(new URL('../../crates/case_runs/data/', import.meta.url));

export const read = (name) => readFileSync(DATA + name);

function readIfThere(name) {
  try {
    return readFileSync(DATA + name);
  } catch {
    return undefined;
  }
}

/** The lines of cases.txt, each with its status, its way, the text that is printed, and the words. */
export function cases() {
  const lines = read('cases.txt').toString().split('\n').filter((line) => line.trim() !== '' && !line.startsWith('#'));
  return lines.map((line) => {
    const [status, way, text, ...words] = line.trim().split(/\s+/);
    const [kind, value] = way.split('=');
    return { line, status: Number(status), kind, value, text, words: words.map((word) => word.replaceAll('␣', ' ')) };
  });
}

/** The files that the words and their script name, by their names. */
export function filesOf(words) {
  const files = new Map();
  const add = (name) => {
    const bytes = readIfThere(name);
    if (bytes) files.set(name, bytes);
    return bytes;
  };
  const main = words.length > 0 && add(words.at(-1));
  if (words[0] !== 'play' || !main) return files;
  for (const text of stringsOf(main.toString())) if (text.startsWith('file ')) add(text.slice('file '.length));
  return files;
}

/** The runs of a case: words, files, and whether what comes of them is as wanted. */
export function* runsOf(each) {
  const files = filesOf(each.words);
  if (each.kind === 'run' || each.kind === 'indexed') yield { words: each.words, files, wanted: wholeText(each) };
  if (each.kind === 'repeat') {
    yield { words: each.words, files: withScript(each, files, repeated(each)), wanted: wholeText(each) };
  }
  if (each.kind === 'cut') yield* cutRuns(each, files);
  if (each.kind === 'fronts') yield* frontRuns(each, files);
}

const wholeText = (each) => ({ status: each.status, bytes: read(each.text) });

const withScript = (each, files, text) => new Map(files).set(each.words[1], Buffer.from(text));

function repeated({ words, value }) {
  const lines = read(words[1]).toString().match(/[^\n]*\n|[^\n]+$/g);
  return lines.map((line) => (line.endsWith('# repeat\n') ? line.repeat(Number(value)) : line)).join('');
}

function* cutRuns(each, files) {
  const script = read(each.words[1]).toString();
  const append = /"append (\d+) (\d+) (\d+) (\d+)"/.exec(script);
  const [buffer, blob, first, length] = append.slice(1).map(Number);
  const closing = read(each.text).toString().split(' error ').at(-1);
  for (let at = 0; at <= length; at++) {
    const front = `"append ${buffer} ${blob} ${first} ${at}"`;
    const steps = `${front}, "drain", "append ${buffer} ${blob} ${first + at} ${length - at}"`;
    const cut = script.slice(0, append.index) + steps + script.slice(append.index + append[0].length);
    yield { words: each.words, files: withScript(each, files, cut), wanted: { status: each.status, closing } };
  }
}

function* frontRuns(each, files) {
  const content = files.get(each.value) ?? read(each.value);
  for (const row of read(each.text).toString().split(/^bytes /m).slice(1)) {
    const [numbers] = row.split('\n', 1);
    const [shortest, longest, base] = numbers.split(' ').map(Number);
    const block = row.slice(numbers.length + 1);
    for (let length = shortest; length <= longest; length++) {
      const end = block.replaceAll('*', String(length - base));
      const status = /\nfault /.test(end) && each.words[0] !== 'play' ? 9 : 0;
      const front = new Map(files).set(each.value, content.subarray(0, length));
      const wanted = each.words[0] === 'play' ? { status, end } : { status, bytes: Buffer.from(end) };
      yield { words: each.words, files: front, wanted };
    }
  }
}

/** Whether a result is as wanted. */
export function isAsWanted({ status, bytes }, wanted) {
  if (status !== wanted.status) return false;
  const found = Buffer.from(bytes.buffer, bytes.byteOffset, bytes.length);
  if (wanted.bytes) return found.equals(wanted.bytes);
  const text = found.toString();
  return wanted.end === undefined ? text.split(' error ').at(-1) === wanted.closing : text.endsWith(wanted.end);
}
