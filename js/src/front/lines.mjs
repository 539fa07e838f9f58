// Printed lines, docs/SCRIPTS.md: their times as seconds, and each of them as JSON.

import { mapTimes } from './calls.mjs';
import { secondsOf } from './times.mjs';

const RANGES = /\[(-?\d+),(-?\d+)([)\]])/g;
const TICKS = '-?\\d+|inf|nan';

/** The parts of a line of a call: who called, the line, and the answer. */
function callOf(line) {
  const found = /^(call|listener (\d+)) (.*): (.*?)$/s.exec(line);
  return found && { listener: found[2], call: found[3], answer: found[4] };
}

const inRanges = (text) => text.replace(RANGES, (_, a, b, end) => `[${secondsOf(a)},${secondsOf(b)}${end}`);

/** A text in which the times behind some words are seconds. */
function behindWords(text, words) {
  const pattern = new RegExp(`\\b(${words}) (${TICKS})(?= |$)`, 'g');
  return text.replace(pattern, (_, word, ticks) => `${word} ${secondsOf(ticks)}`);
}

const STATE_TIMES = 'duration|position';

function answerInSeconds(answer) {
  return answer.startsWith('source ') ? behindWords(answer, STATE_TIMES) : inRanges(answer);
}

/** A printed line with its times as seconds. */
export function inSeconds(line) {
  const called = callOf(line);
  if (called) {
    const who = called.listener === undefined ? 'call' : `listener ${called.listener}`;
    return `${who} ${mapTimes(called.call, secondsOf)}: ${answerInSeconds(called.answer)}`;
  }
  if (line.startsWith('state ')) return behindWords(line, STATE_TIMES);
  if (line.startsWith('duration ')) return behindWords(line, 'duration');
  if (/^(buffer|track) /.test(line)) return inRanges(line);
  if (line.startsWith('feed ')) return behindWords(line, 'at');
  return line.startsWith('frame ') ? behindWords(line, 'pts|dts|dur') : line;
}

function rangesOf(text, time) {
  return Array.from(text.matchAll(RANGES), ([, start, end]) => [time(start), time(end)]);
}

/** The words of a text as pairs of a name and a value. */
function pairsOf(text) {
  const words = text.split(' ');
  return Object.fromEntries(words.flatMap((word, i) => (i % 2 === 0 ? [[word, words[i + 1]]] : [])));
}

function stateOf(text, time) {
  const state = pairsOf(text);
  return {
    source: state.source,
    duration: time(state.duration),
    level: Number(state.level),
    position: time(state.position),
    paused: state.paused === 'true',
    seeking: state.seeking === 'true',
    error: Number(state.error),
  };
}

function answerOf(answer, time) {
  if (answer.startsWith('refused ')) return { refused: answer.slice('refused '.length) };
  if (answer.startsWith('ranges ')) return { ranges: rangesOf(answer, time) };
  if (answer.startsWith('range ')) return { range: rangesOf(answer, time)[0] ?? null };
  return answer.startsWith('source ') ? { state: stateOf(answer, time) } : { answer };
}

function feedLine(rest, time) {
  const [, buffer, track, at, wanted] = /^(\d+) (\d+) at (\S+) (?:wanted (\d+)|none)$/.exec(rest);
  const frame = wanted === undefined ? null : Number(wanted);
  return { feed: { buffer: Number(buffer), track: Number(track), at: time(at), wanted: frame } };
}

function frameLine(rest, time) {
  const [, frame, others] = /^(\d+) (.*)$/.exec(rest);
  const { pts, dts, dur, bytes, sync } = pairsOf(others);
  const times = { pts: time(pts), dts: time(dts), dur: time(dur) };
  return { frame: Number(frame), ...times, bytes: Number(bytes), sync: sync === 'true' };
}

function bufferLine(rest, time) {
  const [, buffer, phase, held, used, ranges] = /^(\d+) phase (\w+) held (\d+) used (\d+) buffered (.*)$/.exec(rest);
  return { buffer: Number(buffer), phase, held: Number(held), used: Number(used), buffered: rangesOf(ranges, time) };
}

function trackLine(rest, time) {
  const found = /^(\d+) (\d+) (\w+) (.{4}) frames (\d+) ranges (.*)$/s.exec(rest);
  const [, buffer, track, kind, codec, frames, ranges] = found;
  const numbers = { track: Number(track), buffer: Number(buffer) };
  return { ...numbers, kind, codec, frames: Number(frames), ranges: rangesOf(ranges, time) };
}

function faultLine(rest) {
  const [, number, name, buffer, offset] = /^(\d+) (.+?)(?: buffer (\d+))? at (\d+)$/.exec(rest);
  return { fault: Number(number), name, ...(buffer && { buffer: Number(buffer) }), offset: Number(offset) };
}

function eventLine(rest) {
  const [, target, event] = /^(.*) (\w+)$/.exec(rest);
  return { event, target };
}

function madeLine(rest) {
  const [, made, bytes, frames] = /^(\d+) bytes (\d+) frames (\d+)$/.exec(rest);
  return { made: Number(made), bytes: Number(bytes), frames: Number(frames) };
}

const LINES = {
  event: eventLine,
  state: (rest, time) => ({ state: stateOf(rest, time) }),
  duration: (rest, time) => ({ duration: time(rest) }),
  buffer: bufferLine,
  track: trackLine,
  fault: faultLine,
  feed: feedLine,
  frame: frameLine,
  end: (rest) => ({ end: rest }),
  made: madeLine,
  'error:': (rest) => ({ error: rest }),
};

/** A printed line as JSON. A time is a text: decimal ticks or seconds, inf or nan. */
export function asJSON(line, isSeconds) {
  const time = isSeconds ? secondsOf : (ticks) => ticks;
  const called = callOf(line);
  if (called) {
    const call = isSeconds ? mapTimes(called.call, secondsOf) : called.call;
    const who = called.listener === undefined ? {} : { listener: Number(called.listener) };
    return JSON.stringify({ ...who, call, ...answerOf(called.answer, time) });
  }
  const [word] = line.split(' ', 1);
  const rest = line.slice(word.length + 1);
  return JSON.stringify(Object.hasOwn(LINES, word) ? LINES[word](rest, time) : { line });
}

/** Whether printed lines tell a refused call or a fault, or no track. */
export function isPoor(lines) {
  const isBad = (line) => /^(?:call|listener \d+) .*: refused \w+$/s.test(line) || line.startsWith('fault ');
  return lines.some(isBad) || !lines.some((line) => line.startsWith('track ') || line.startsWith('feed '));
}
