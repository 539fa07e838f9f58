// The story of a text: where each thing was last told, and what was queued and fired.

import { isTicks } from "../../../js/src/inspect/times.mjs";
import { countUpTo, put } from "./words.mjs";

export class Story {
  constructor(kind) {
    this.kind = kind;
    this.lines = [];
    this.ends = {};           // the least and the greatest time, for the axis
    this.duration = null;     // the line of the block that tells it
    this.answers = new Map(); // of "buffer K", "element", "seekable", "state", "track K ID": the lines that told it
    this.types = new Map();   // of "buffer K": the type that it was added with
    this.queued = new Map();  // of "TARGET EVENT": lines of calls that queued one for certain
    this.fired = new Map();   // of "TARGET EVENT": lines of the events
    this.targets = new Map(); // of a target: lines of its events
    this.events = [];
    this.calls = [];          // the lines of the script's calls
    this.faults = [];
    this.buffers = new Set();
    this.blocks = new Map();  // of "K": its line of the block
    this.tracks = new Map();  // of "K": its track lines
    this.removals = new Map(); // of "K": lines of calls that removed
    this.madeBuffers = 0;
    this.refusals = 0;
    this.heard = 0;
  }

  take(line) {
    line.index = this.lines.length;
    this.lines.push(line);
    widenByLine(this.ends, line);
    if (line.kind === "duration") this.duration = line;
    if (line.kind === "event") this.takeEvent(line);
    else if (line.words) this.takeCall(line);
    else if (line.kind === "buffer") this.takeBuffer(line);
    else if (line.kind === "track") this.takeTrack(line);
    else if (line.kind === "fault" || line.kind === "error") this.faults.push(line);
    if (line.state) this.tell("state", line);
  }

  tell(key, line) {
    put(this.answers, key, line.index);
    if (key.startsWith("buffer ")) this.buffers.add(key.slice(7));
  }

  takeEvent(line) {
    put(this.fired, `${line.target} ${line.event}`, line.index);
    put(this.targets, line.target, line.index);
    this.events.push(line.index);
    if (line.target.startsWith("buffer ")) this.buffers.add(line.target.slice(7));
  }

  takeBuffer(line) {
    this.blocks.set(line.buffer, line);
    this.tell(`buffer ${line.buffer}`, line);
  }

  takeTrack(line) {
    put(this.tracks, line.buffer, line);
    this.tell(`track ${line.buffer} ${line.id}`, line);
  }

  takeCall(line) {
    const [name, buffer] = line.words;
    if (line.kind === "call") this.calls.push(line.index); else this.heard++;
    if (line.refused) this.refusals++;
    if (name === "buffered" && line.answer !== "refused NoSuchBuffer") this.tell(`buffer ${buffer}`, line);
    if (name === "elementbuffered") this.tell("element", line);
    if (name === "seekable") this.tell("seekable", line);
    if (line.answer !== "done") return;
    if (name === "add") {
      this.types.set(String(this.madeBuffers), { type: line.call.slice(4), index: line.index });
      this.buffers.add(String(this.madeBuffers++));
    }
    if (name === "remove") put(this.removals, buffer, line.index);
    const event = surelyQueued(name, buffer);
    if (event) put(this.queued, event, line.index);
  }

  // The line that told a thing last, at a line or before it; undefined where none did.
  last(key, index) {
    const told = this.answers.get(key) ?? [];
    const count = countUpTo(told, index);
    return count ? this.lines[told[count - 1]] : undefined;
  }
}

// The event that a call queues whatever else is so, where it was done.
function surelyQueued(name, buffer) {
  switch (name) {
    case "attach": return "source sourceopen";
    case "add": return "sourcebuffers addsourcebuffer";
    case "removebuffer": return "sourcebuffers removesourcebuffer";
    case "endofstream": return "source sourceended";
    case "append": case "remove": return `buffer ${buffer} updatestart`;
    default: return null;
  }
}

// The queue is first in, first out. So where a call has queued an event that is not fired yet, all events up to that
// one wait in the queue. Those behind it, up to the next call of the script, may be queued later.
export function queueAt(story, index) {
  let lastSure = -1;
  const never = [];
  for (const [event, queued] of story.queued) {
    const count = countUpTo(queued, index);
    if (!count) continue;
    const fired = story.fired.get(event) ?? [];
    if (count <= countUpTo(fired, index)) continue;
    if (count <= fired.length) lastSure = Math.max(lastSure, fired[count - 1]);
    else never.push({ event, count: count - Math.max(fired.length, countUpTo(fired, index)) });
  }
  if (never.length && story.events.length) lastSure = Math.max(lastSure, story.events.at(-1));
  return { lastSure, never, coming: comingEvents(story, index, lastSure) };
}

// The events behind a line: those that surely wait, and else up to the first call that follows an event.
function comingEvents(story, index, lastSure) {
  const coming = [];
  for (let at = countUpTo(story.events, index); at < story.events.length && coming.length < 200; at++) {
    const line = story.lines[story.events[at]];
    const before = coming.at(-1);
    if (before && line.index > lastSure && callsBetween(story, before.index, line.index)) break;
    coming.push(line);
  }
  return coming;
}

const callsBetween = (story, from, to) => countUpTo(story.calls, to) > countUpTo(story.calls, from);

// The calls of the script since a line, by which what was told there may be old; questions change nothing.
export const QUESTIONS = new Set(["state", "buffered", "elementbuffered", "seekable"]);

// Keeps the least and the greatest time of a story while it is read; as numbers, which is near enough for an axis.
function widen(ends, text) {
  const value = Number(text);
  if (!Number.isFinite(value)) return;
  if (ends.least === undefined || value < ends.least) [ends.least, ends.from] = [value, BigInt(text)];
  if (ends.greatest === undefined || value > ends.greatest) [ends.greatest, ends.to] = [value, BigInt(text)];
}

function widenByLine(ends, line) {
  if (line.rangeText) {
    const first = /\[(-?\d+),/.exec(line.rangeText);
    const last = /,(-?\d+)[)\]]$/.exec(line.rangeText);
    if (first) widen(ends, first[1]);
    if (last) widen(ends, last[1]);
  }
  if (line.state && isTicks(line.state.position)) widen(ends, String(line.state.position));
  const duration = line.kind === "duration" ? line.time : line.state?.duration;
  if (isTicks(duration)) ends.duration = duration;
}
