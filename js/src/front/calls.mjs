// The lines of a script, docs/SCRIPTS.md, "Call lines" and "Step lines", and what is wrong with a line that is none.

import { isTime, isTinyTime, TIME_HELP, tinyTimeHelp } from './times.mjs';

/** The words behind the first word of each line; where there are several forms, each of them. */
const CALLS = {
  attach: [[]],
  add: [['TYPE']],
  removebuffer: [['K']],
  duration: [['T']],
  endofstream: [[], ['network|decode']],
  live: [['T', 'T']],
  clearlive: [[]],
  mode: [['K', 'segments|sequence']],
  offset: [['K', 'T']],
  windowstart: [['K', 'T']],
  windowend: [['K', 'T']],
  append: [['K', 'B'], ['K', 'B', 'F', 'L']],
  abort: [['K']],
  remove: [['K', 'T', 'T']],
  changetype: [['K', 'TYPE']],
  buffered: [['K']],
  state: [[]],
  seek: [['T']],
  play: [[]],
  pause: [[]],
  advance: [['T']],
  elementbuffered: [[]],
  seekable: [[]],
};

const STEPS = { fire: [[]], work: [['K']], element: [[]], drain: [[]] };

const isBelow = (most) => (word) => /^(0|[1-9][0-9]*)$/.test(word) && BigInt(word) < most;

/** Of each kind of word whether a text is one, and what may stand there. */
const KINDS = {
  K: [isBelow(1n << 32n), 'K is the number of a source buffer: digits without leading zeros, below 2^32'],
  B: [isBelow(1n << 32n), 'B is the number of a blob: digits without leading zeros, below 2^32'],
  F: [isBelow(1n << 63n), 'F is the first byte: digits without leading zeros, below 2^63'],
  L: [isBelow(1n << 63n), 'L is the length in bytes: digits without leading zeros, below 2^63'],
  T: [isTime, TIME_HELP],
  'network|decode': [(word) => word === 'network' || word === 'decode', 'an error is network or decode'],
  'segments|sequence': [(word) => word === 'segments' || word === 'sequence', 'a mode is segments or sequence'],
};

/** The words behind the first one, where a TYPE is all that is left; undefined where their count fits no form. */
function wordsOfForm(form, rest) {
  if (rest === undefined) return form.length === 0 ? [] : undefined;
  if (form.at(-1) !== 'TYPE') {
    const words = rest.split(' ');
    return words.length === form.length ? words : undefined;
  }
  const words = rest.split(' ');
  if (words.length < form.length) return undefined;
  return [...words.slice(0, form.length - 1), words.slice(form.length - 1).join(' ')];
}

function splitLine(line) {
  const at = line.indexOf(' ');
  return at < 0 ? [line, undefined] : [line.slice(0, at), line.slice(at + 1)];
}

/** The form of a line and its words, as pairs; undefined where no form has so many. */
function pairsOf(line) {
  const [name, rest] = splitLine(line);
  const forms = Object.hasOwn(CALLS, name) ? CALLS[name] : Object.hasOwn(STEPS, name) ? STEPS[name] : [];
  for (const form of forms) {
    const words = wordsOfForm(form, rest);
    if (words) return form.map((kind, i) => [kind, words[i]]);
  }
  return undefined;
}

function distance(a, b) {
  let row = Array.from({ length: b.length + 1 }, (_, i) => i);
  for (let i = 1; i <= a.length; i++) {
    const next = [i];
    for (let j = 1; j <= b.length; j++) {
      next[j] = Math.min(row[j] + 1, next[j - 1] + 1, row[j - 1] + (a[i - 1] === b[j - 1] ? 0 : 1));
    }
    row = next;
  }
  return row[b.length];
}

/** The name among some that a word was likely meant to be, in a sentence of its own; else nothing. */
export function nearest(word, names) {
  const near = names.find((name) => name.toLowerCase() === word.toLowerCase())
    ?? names.find((name) => distance(name, word) <= (name.length > 4 ? 2 : 1));
  return near === undefined ? '' : `; is it ${near}?`;
}

function formHelp(name, forms) {
  return forms.map((form) => [name, ...form].join(' ')).join(', or ');
}

/** What is wrong with a line that is none; undefined where nothing is found. `isStep`: whether step lines may stand. */
export function lineHelp(line, isStep) {
  if (/[^\x20-\x7e]/.test(line)) return 'a line has characters from 0x20 to 0x7E alone';
  const forms = isStep ? { ...CALLS, ...STEPS } : CALLS;
  const [name] = splitLine(line);
  if (!Object.hasOwn(forms, name)) {
    if (!isStep && Object.hasOwn(STEPS, name)) return `${name} stands in steps alone, and a rule makes calls`;
    if (name === '') return 'a line begins with the name of a call or of a step, without a space before it';
    return `${name} is no call${isStep ? ' and no step' : ''}${nearest(name, Object.keys(forms))}`;
  }
  const pairs = pairsOf(line);
  const form = `it is written ${formHelp(name, forms[name])}`;
  if (!pairs) return `${form}, with one space between words`;
  const bad = pairs.find(([kind, word]) => Object.hasOwn(KINDS, kind) && !KINDS[kind][0](word));
  if (bad) return bad[1] === '' ? `${form}, with one space between words` : KINDS[bad[0]][1];
  return pairs.some(([kind, word]) => kind === 'TYPE' && word === '') ? `${form}, and a TYPE is not empty` : undefined;
}

/** The cautions for a line: of each bare time below a microsecond. */
export function lineCautions(line) {
  const tiny = (pairsOf(line) ?? []).filter(([kind, word]) => kind === 'T' && isTinyTime(word));
  return tiny.map(([, word]) => tinyTimeHelp(word));
}

/** A line with each of its times put through a function. */
export function mapTimes(line, change) {
  const pairs = pairsOf(line);
  if (!pairs) return line;
  const words = pairs.map(([kind, word]) => (kind === 'T' ? change(word) : word));
  return [splitLine(line)[0], ...words].join(' ');
}
