// What is wrong with a script, and where: docs/SCRIPTS.md, "Faults of a script". What is wrong says the engine; the
// place is looked for here, and where it is not sure no line is told.

import { lineCautions, lineHelp, nearest } from './calls.mjs';
import { ruleFault } from './rules.mjs';
import { readKeys, UnreadError } from './toml.mjs';

const KEYS = {
  quota: 'quota is a whole number from 1 to 1,099,511,627,776',
  drain: 'drain is a whole number from 1 to 1,000,000',
  gap: 'gap is a whole number of ticks, from 0 to 1,099,511,627,776',
  blobs: 'blobs is a list of texts',
  steps: 'steps is a list of step lines',
  rules: 'rules is a list of tables, each under [[rules]]',
};
const MOST = { blobs: '1,000', steps: '100,000', rules: '1,000' };
const MOST_CAUTIONS = 5;

/** A key as the engine prints it. */
export const printedName = (name) => Array.from(name, (c) => (c >= ' ' && c <= '~' ? c : '?')).join('');

function membersOf(keys, name) {
  const value = keys.get(name)?.value;
  return value?.kind === 'list' ? value.items : [];
}

function textHelp(bytes) {
  try {
    return new TextDecoder('utf-8', { fatal: true, ignoreBOM: true }).decode(bytes);
  } catch {
    return undefined;
  }
}

function notTomlFault(bytes) {
  const text = textHelp(bytes);
  if (text === undefined) return { why: 'the bytes are no UTF-8' };
  try {
    readKeys(text);
    return { why: 'a script is a TOML text' };
  } catch (error) {
    if (!(error instanceof UnreadError)) throw error;
    return error.line === undefined ? { why: 'a script is a TOML text' } : { line: error.line, why: error.message };
  }
}

function keyFault(keys, printed) {
  if (Object.hasOwn(KEYS, printed)) return { line: keys.get(printed)?.line, why: KEYS[printed] };
  const name = [...keys.keys()].find((key) => printedName(key) === printed);
  const names = Object.keys(KEYS);
  return { line: keys.get(name)?.line, why: `the keys of a script are ${names.join(', ')}${nearest(printed, names)}` };
}

function blobHelp(value) {
  if (value.kind !== 'text') return 'a blob is a text';
  const digits = /^hex (.*)$/s.exec(value.value)?.[1];
  if (digits === undefined) return 'a blob is file NAME or hex DIGITS';
  if (digits.length % 2 === 1) return 'hex has two digits for each byte';
  return 'hex has digits from 0 to 9 and a to f alone, without spaces';
}

function memberFault(keys, list, number) {
  const value = membersOf(keys, list)[number];
  if (!value) return {};
  if (list === 'rules') return ruleFault(value);
  const text = value.kind === 'text' ? JSON.stringify(value.value) : '';
  if (list === 'blobs') return { line: value.line, text, why: blobHelp(value) };
  return { line: value.line, text, why: value.kind === 'text' ? lineHelp(value.value, true) : 'a step line is a text' };
}

/** The fault that a printed line names: the line, what is named, the text that is there, and what may stand there. */
function faultOf(printed, bytes) {
  if (printed === 'error: script not toml') return { name: 'not TOML', ...notTomlFault(bytes) };
  let keys = new Map();
  try {
    keys = readKeys(textHelp(bytes) ?? '');
  } catch (error) {
    if (!(error instanceof UnreadError)) throw error;
  }
  const [, many] = /^error: script too many (\w+)$/.exec(printed) ?? [];
  if (many) return { name: `too many ${many}`, line: keys.get(many)?.line, why: `at most ${MOST[many]}` };
  const [, key] = /^error: script key (.*)$/.exec(printed) ?? [];
  if (key !== undefined) return { name: `key ${key}`, ...keyFault(keys, key) };
  const [, kind, number] = /^error: script (blob|step|rule) (\d+)$/.exec(printed);
  return { name: `${kind} ${number}`, ...memberFault(keys, `${kind}s`, Number(number)) };
}

/** The line of help behind a line `error: script ..`. */
export function scriptHelp(printed, file, bytes) {
  const { line, name, text, why } = faultOf(printed, bytes);
  const place = line === undefined ? file : `${file}:${line}`;
  const said = [name, text].filter(Boolean).join(' ');
  return `${place}: ${said}${why ? `: ${why}` : ''}`;
}

/** The lines of a script where calls stand, each a text with its line of the file. */
function linesOf(keys) {
  const tables = membersOf(keys, 'rules').filter((rule) => rule.kind === 'table');
  const rules = tables.flatMap((rule) => membersOf(rule.keys, 'calls'));
  return [...membersOf(keys, 'steps'), ...rules].filter((item) => item.kind === 'text');
}

/** Cautions for bare times below a microsecond, the first few of them. */
export function scriptCautions(file, bytes) {
  let keys;
  try {
    keys = readKeys(textHelp(bytes) ?? '');
  } catch (error) {
    if (!(error instanceof UnreadError)) throw error;
    return [];
  }
  const all = linesOf(keys).flatMap(({ value, line }) =>
    lineCautions(value).map((caution) => `${file}:${line}: ${JSON.stringify(value)}: ${caution}`));
  const more = all.length - MOST_CAUTIONS;
  return more > 0 ? [...all.slice(0, MOST_CAUTIONS), `${file}: ${more} more such times`] : all;
}
