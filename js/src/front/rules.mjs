// What is wrong with a rule of a script, docs/SCRIPTS.md, "Rules".

import { lineHelp, nearest } from './calls.mjs';

const SOURCE_EVENTS = ['sourceopen', 'sourceended'];
const LIST_EVENTS = ['addsourcebuffer', 'removesourcebuffer'];
const BUFFER_EVENTS = ['updatestart', 'update', 'updateend', 'error', 'abort'];
const ELEMENT_EVENTS = [
  'durationchange', 'loadedmetadata', 'loadeddata', 'waiting', 'timeupdate', 'canplay', 'playing', 'canplaythrough',
  'seeking', 'seeked', 'play', 'pause', 'ended', 'error',
];
const EVENTS = {
  source: SOURCE_EVENTS, sourcebuffers: LIST_EVENTS, activesourcebuffers: LIST_EVENTS, element: ELEMENT_EVENTS,
};
const KEYS = ['listener', 'on', 'times', 'repeat', 'calls'];
const MOST_CALLS = 1000;

function eventHelp(text) {
  const words = text.split(' ');
  if (words[0] === 'buffer') {
    const isIndex = /^(0|[1-9][0-9]*)$/.test(words[1] ?? '');
    if (!isIndex) return 'an event at a buffer is buffer K EVENT, as buffer 0 updateend';
    const isFired = BUFFER_EVENTS.includes(words.slice(2).join(' '));
    return isFired ? undefined : `of a buffer these are fired: ${BUFFER_EVENTS.join(', ')}`;
  }
  const events = Object.hasOwn(EVENTS, words[0]) ? EVENTS[words[0]] : undefined;
  if (!events) return `an event begins with its target: ${Object.keys(EVENTS).join(', ')}, or buffer K`;
  return events.includes(words.slice(1).join(' ')) ? undefined : `of ${words[0]} these are fired: ${events.join(', ')}`;
}

const isNumber = (value, least, most) => value.kind === 'number' && value.value >= least && value.value <= most;

/** Of the value of a key what is wrong, and the line; undefined where nothing is found. */
function valueFault(name, value) {
  const fault = (why, found = value) => ({ line: found.line, text: `"${name}"`, why });
  if (name === 'listener' && !isNumber(value, 0n, 15n)) return fault('a listener is a number from 0 to 15');
  if (name === 'times' && !isNumber(value, 1n, 1_000_000n)) return fault('times is a number from 1 to 1,000,000');
  if (name === 'repeat' && value.kind !== 'boolean') return fault('repeat is true or false');
  if (name === 'on') {
    const why = value.kind === 'text' ? eventHelp(value.value) : 'an event is a text, as buffer 0 updateend';
    return why && { line: value.line, text: `on ${JSON.stringify(value.value ?? value.kind)}`, why };
  }
  if (name !== 'calls') return undefined;
  if (value.kind !== 'list') return fault('calls is a list of call lines');
  if (value.items.length < 1 || value.items.length > MOST_CALLS) return fault('a rule has 1 to 1,000 calls');
  for (const item of value.items) {
    const why = item.kind === 'text' ? lineHelp(item.value, false) : 'a call line is a text';
    if (why) return { line: item.line, text: JSON.stringify(item.value ?? item.kind), why };
  }
  return undefined;
}

/** What is wrong with a rule: the line, the text that is there, and what may stand there. */
export function ruleFault(rule) {
  if (rule.kind !== 'table') return { line: rule.line, text: '', why: 'a rule is a table, [[rules]]' };
  for (const [name, { value, line }] of rule.keys) {
    if (!KEYS.includes(name)) {
      const why = `the keys of a rule are ${KEYS.join(', ')}${nearest(name, KEYS)}`;
      return { line, text: JSON.stringify(name), why };
    }
    const fault = valueFault(name, value);
    if (fault) return fault;
  }
  const lacks = ['listener', 'on', 'calls'].filter((name) => !rule.keys.has(name));
  return { line: rule.line, text: '', why: lacks.length > 0 ? `it lacks ${lacks.join(' and ')}` : undefined };
}
