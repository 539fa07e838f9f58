// ==UserScript==
// @name     record.js of mseplay
// @match    *://*/*
// @run-at   document-start
// @grant    none
// ==/UserScript==

// Records what a page does with Media Source Extensions, as a script of mseplay.
//
// Include this file before the player's own scripts, or paste it into the console before the player starts, or load it
// as a user script. Then
//
//     record.save()
//
// downloads one archive, recording.zip: recording.toml, the bytes that were appended, and browser.txt, what the browser
// did in the lines of the program. clients/README.md tells the rest.
(() => {
"use strict";

if (window.record) {
  console.log("record.js is there already: record.save() saves what it has");
  return;
}
if (!window.MediaSource) {
  console.error("record.js: this page has no MediaSource, so there is nothing to record");
  return;
}

// Times. The program counts whole ticks; a browser tells doubles. A double is a whole number times
// a power of two, so the tick nearest to it is found exactly. The nearest is taken and not the one
// before it, since a double that stands for a tick lies on either side of it: 0.3 lies below.

const SECOND = 141120000000n;
const FARTHEST = 1n << 110n;

function ticksOf(seconds) {
  const view = new DataView(new ArrayBuffer(8));
  view.setFloat64(0, Math.abs(seconds));
  const bits = view.getBigUint64(0);
  const exponent = Number(bits >> 52n);
  const fraction = bits & ((1n << 52n) - 1n);
  const whole = exponent > 0 ? fraction | (1n << 52n) : fraction;
  const power = Math.max(exponent, 1) - 1075;
  const product = whole * SECOND;
  const ticks = power >= 0
    ? product << BigInt(power)
    : (product + (1n << BigInt(-power - 1))) >> BigInt(-power);
  const near = ticks > FARTHEST ? FARTHEST : ticks;
  return seconds < 0 ? -near : near;
}

// a time as a script writes it: in ticks, and in seconds where ticks would have more digits than a script takes
function scriptTime(seconds) {
  if (Number.isNaN(seconds)) return "nan";
  if (seconds === Infinity) return "inf";
  const ticks = ticksOf(seconds);
  return String(ticks).length <= 24 ? String(ticks) : `${ticks / SECOND}/1`;
}

// a time as the program prints it
function printedTime(seconds) {
  return scriptTime(seconds).replace(/^(.*)\/1$/, (_, whole) => String(BigInt(whole) * SECOND));
}

// A call is kept as the words of its line: names, numbers and times.

const asTime = (seconds) => ({seconds});
const times = (values, count) => Array.from({length: count}, (_, i) => asTime(Number(values[i])));

// the line of a call, as the program prints it
function lineOf(words, timeText = printedTime) {
  const texts = words.map((word) => typeof word === "object" ? timeText(word.seconds) : String(word));
  return texts.join(" ").replace(/[^ -~]/gu, "?");
}

// Words of the program for what a browser answers.

function rangesText(ranges) {
  const spans = [];
  for (let i = 0; i < ranges.length; i += 1) {
    spans.push(` [${printedTime(ranges.start(i))},${printedTime(ranges.end(i))})`);
  }
  return spans.length ? spans.join("") : " none";
}

function rangeText(ranges) {
  if (!ranges.length) return "none";
  return `[${printedTime(ranges.start(0))},${printedTime(ranges.end(ranges.length - 1))}]`;
}

function stateText(source, element) {
  const error = element && element.error ? element.error.code : 0;
  const facts = element || {readyState: 0, currentTime: 0, paused: true, seeking: false};
  // before there is metadata `currentTime` is where playback will start, and the position is 0
  const position = facts.readyState ? facts.currentTime : 0;
  return `source ${source.readyState} duration ${printedTime(source.duration)} level ${facts.readyState}`
    + ` position ${printedTime(position)} paused ${facts.paused} seeking ${facts.seeking}`
    + ` error ${error}`;
}

// The browser's own properties and functions, which the recorder reads by itself.

const descriptor = (type, name) => Object.getOwnPropertyDescriptor(type.prototype, name);

const native = {
  bufferRanges: descriptor(SourceBuffer, "buffered").get,
  elementRanges: descriptor(HTMLMediaElement, "buffered").get,
  warn: console.warn.bind(console),
};

// What cannot be recorded is told once.
const warned = new Set();

function warnOnce(text) {
  if (!warned.has(text)) native.warn(`record.js: ${text}`);
  warned.add(text);
}

// What is recorded of one MediaSource.

const EVENTS = {
  source: ["sourceopen", "sourceended", "sourceclose"],
  list: ["addsourcebuffer", "removesourcebuffer"],
  buffer: ["updatestart", "update", "updateend", "error", "abort"],
  element: ["durationchange", "loadedmetadata", "loadeddata", "waiting", "timeupdate", "canplay", "playing",
    "canplaythrough", "seeking", "seeked", "play", "pause", "ended", "error"],
  // a page may make calls within these, but no line of the program tells them
  other: ["loadstart", "progress", "suspend", "emptied", "stalled", "ratechange", "volumechange", "resize",
    "abort", "encrypted", "waitingforkey"],
};
const BLOB_LIMIT = 2 ** 30;

class Recording {
  constructor(source) {
    this.source = source;
    this.element = null;
    this.buffers = [];
    this.entries = [];
    this.blobs = [];
    this.pieces = new Map();
    this.isAttached = false;
    this.isOver = false;
    // the read that stands last, with what the same read told since then
    this.lastRead = null;
    // what was there when the page left the source, and what came behind it
    this.closing = null;
    this.behind = [];
    // the recording of the life before, while events of its end are to come
    const before = ofSource.get(source);
    this.before = before && !before.isClosed ? before : null;
    this.expected = {play: 0, pause: 0, seeking: 0};
    const find = () => ofSource.get(source);
    watch(source, find, {source: EVENTS.source});
    watch(source.sourceBuffers, find, {sourcebuffers: EVENTS.list});
    watch(source.activeSourceBuffers, find, {activesourcebuffers: EVENTS.list});
  }

  attachTo(element) {
    if (this.element === element) return;
    this.element = element;
    watch(element, () => ofElement.get(element), {element: EVENTS.element, other: EVENTS.other});
    if (element.currentTime > 0) this.unasked("before the source was attached", ["seek", asTime(element.currentTime)]);
    if (!element.paused) this.unasked("before the source was attached", ["play"]);
  }

  // what the element and the buffers are at this moment, for the script to come to the same
  moment() {
    const element = this.element;
    return {
      busy: this.buffers.filter((buffer) => buffer.updating).map((buffer) => this.buffers.indexOf(buffer)),
      isSeekDue: Boolean(element && element.seeking && element.readyState >= 2 && !element.error),
      time: element ? element.currentTime : 0,
      plays: Boolean(element && !element.paused && !element.seeking),
      isAtEnd: Boolean(element && (element.ended || standsAtRangeEnd(element))),
    };
  }

  put(entry) {
    if (this.isOver) return entry;
    this.finishRead();
    if (!this.isAttached && this.source.readyState === "open") {
      this.isAttached = true;
      this.entries.push({kind: "call", words: ["attach"], answer: "done", ...where(), within: null, ...this.moment()});
    }
    this.entries.push(entry);
    return entry;
  }

  note(text) {
    this.put({kind: "note", text, ...where(), ...this.moment()});
  }

  hear(event, target, type) {
    if (!event.isTrusted) return;
    if (this.isOver || (this.before && event.target !== this.element)) {
      this.hearBehind(event, target, type);
      return;
    }
    if (type === "sourceopen" && !this.element) attachShown(this.source);
    if (type === "sourceclose" && !(this.element && this.element.error)) {
      this.endUnseen();
      return;
    }
    if (target === "element") this.explain(type);
    enterEvent(event);
    const entry = this.put({kind: "event", target, type, ...where(), ...this.moment()});
    now.entry = entry;
  }

  // Behind its end, up to sourceclose. A source that is opened again has another life, with a recording of its own.
  hearBehind(event, target, type) {
    const ended = this.before || this;
    if (type === "sourceopen" && ended === this) renewed(this).hear(event, target, type);
    else if (ended.closing) ended.behind.push(`${target === "other" ? "element" : target} ${type}`);
    if (type === "sourceclose") this.before = null;
    ended.isClosed ||= type === "sourceclose";
  }

  // the page leaves the source by this call, which is made behind this: what is there now closes the script
  leave(text) {
    if (this.isOver) return;
    this.note(`left by ${text}`);
    this.endMoment = this.moment();
    this.closing = closingLines(this);
    this.isOver = true;
  }

  // the source was taken away by no call that is wrapped here, and what was there before it is not known
  endUnseen() {
    const isOfEnd = ({kind, type}) => kind === "event" && ["removesourcebuffer", "emptied", "abort"].includes(type);
    while (this.entries.length && isOfEnd(this.entries.at(-1))) this.entries.pop();
    this.note("the source was closed: the page took it away, so the script ends here");
    this.isOver = true;
  }

  // play, pause and seeks that no call asked for, as by autoplay or a person at the controls
  explain(type) {
    if (!(type in this.expected)) return;
    if (this.expected[type] > 0) {
      this.expected[type] -= 1;
      return;
    }
    const element = this.element;
    const why = "autoplay, a person at the controls, or the browser";
    if (type === "play") this.unasked(why, ["play"]);
    if (type === "pause" && !element.ended && !element.error) this.unasked(why, ["pause"]);
    if (type === "seeking" && !this.seeksByItself) this.unasked(why, ["seek", asTime(element.currentTime)]);
    this.seeksByItself = false;
  }

  unasked(why, words) {
    this.note(`no call of the page: ${why}`);
    this.put({kind: "call", words, answer: "done", within: null, ...where(), ...this.moment()});
  }

  // a call of the page: its words, what was before it, and what it answered
  call(words, answer, moment) {
    const timeAfter = this.element ? this.element.currentTime : 0;
    return this.put({kind: "call", words, answer, within: liveEvent(), ...where(), ...moment, timeAfter});
  }

  // A read is kept with its first answer and its last one, until anything else comes: what it told is looked at then.
  read(target, words, answerOf, ranges) {
    this.finishRead();
    const answer = answerOf(ranges);
    const entry = this.repeated(words, answer) ?? this.call(words, answer, this.moment());
    this.lastRead = {recording: this, target, answerOf, entry, told: null};
    return this.lastRead;
  }

  finishRead() {
    const read = this.lastRead;
    this.lastRead = null;
    if (!read?.told) return;
    const answer = read.answerOf(read.told);
    if (answer === read.entry.answer) return;
    const moment = this.moment();
    this.entries.push({...read.entry, ...moment, timeAfter: moment.time, answer});
  }

  // the same read just before one that tells the same
  repeated(words, answer) {
    for (let i = this.entries.length - 1; i >= 0; i -= 1) {
      const before = this.entries[i];
      const isRead = before.kind === "call" && /buffered|seekable/.test(before.words[0]);
      if (isRead && lineOf(before.words) === lineOf(words)) return before.answer === answer ? before : null;
      if (!isRead && !(before.kind === "event" && ["timeupdate", "progress"].includes(before.type))) return null;
    }
    return null;
  }

  numberOf(buffer) {
    return this.buffers.indexOf(buffer);
  }

  // where the bytes of an append stand: the bytes of each buffer are one blob, the same bytes are kept once
  keep(number, bytes) {
    const key = `${bytes.length} ${crc32(bytes)}`;
    const alike = this.pieces.get(key) || [];
    const found = alike.find((piece) => sameBytes(piece.bytes, bytes));
    if (found) return found;
    let blob = this.blobs.findLastIndex((one) => one.number === number);
    if (blob < 0 || this.blobs[blob].length + bytes.length > BLOB_LIMIT) {
      const parts = this.blobs.filter((one) => one.number === number).length;
      const name = parts ? `buffer-${number}-${parts}.bin` : `buffer-${number}.bin`;
      blob = this.blobs.push({number, name, parts: [], length: 0}) - 1;
    }
    const piece = {blob, first: this.blobs[blob].length, bytes};
    this.blobs[blob].parts.push(bytes);
    this.blobs[blob].length += bytes.length;
    this.pieces.set(key, [...alike, piece]);
    return piece;
  }
}

// Listens to a target once, for all recordings that it has: the recorder hears an event before the page does, since its
// listeners capture and are the first.
const watched = new WeakSet();

function watch(target, find, types) {
  if (watched.has(target)) return;
  watched.add(target);
  for (const [name, list] of Object.entries(types)) {
    for (const type of list) {
      target.addEventListener(type, (event) => find()?.hear(event, name, type), {capture: true});
    }
  }
}

function standsAtRangeEnd(element) {
  const ranges = native.elementRanges.call(element);
  const time = element.currentTime;
  for (let i = 0; i < ranges.length; i += 1) {
    if (ranges.start(i) <= time && time <= ranges.end(i)) {
      return ranges.end(i) - time < 0.25 && element.readyState <= 2;
    }
  }
  return false;
}

const sameBytes = (some, others) => some.length === others.length && some.every((byte, i) => byte === others[i]);

// Where the page is: within which event, and in which task. A trusted event that is being told has a
// phase, also while the microtasks of its listeners run; outside of events a message to oneself
// ends the task.

const now = {event: null, entry: null, task: 0, isOpen: false, start: performance.now()};
const channel = new MessageChannel();
channel.port1.onmessage = () => { now.isOpen = false; };

function enterEvent(event) {
  if (now.event === event) return;
  now.event = event;
  now.entry = null;
  now.task += 1;
  now.isOpen = false;
}

function liveEvent() {
  return now.event && now.event.eventPhase !== Event.NONE ? now.entry : null;
}

function where() {
  const isInEvent = now.event && now.event.eventPhase !== Event.NONE;
  if (!isInEvent && !now.isOpen) {
    now.task += 1;
    now.isOpen = true;
    channel.port2.postMessage(null);
  }
  return {task: now.task, at: performance.now() - now.start};
}

// Which recording a source, a buffer or an element belongs to.

const recordings = [];
const ofSource = new WeakMap();
const ofBuffer = new WeakMap();
const ofElement = new WeakMap();
const sourceOfUrl = new Map();

function recordingOf(source) {
  if (!ofSource.has(source)) {
    const recording = begun(source);
    if (source.sourceBuffers.length) {
      recording.isOver = true;
      warnOnce("it came too late for a media source that has buffers already, which is not recorded");
    }
  }
  return ofSource.get(source);
}

function begun(source) {
  const recording = new Recording(source);
  recordings.push(recording);
  ofSource.set(source, recording);
  return recording;
}

// the recording of the next life of a source
function renewed(recording) {
  const next = begun(recording.source);
  if (recording.element) attach(recording.element, recording.source);
  return next;
}

function attach(element, source) {
  const before = recordingOf(source);
  const recording = before.isOver && before.closing ? begun(source) : before;
  ofElement.set(element, recording);
  recording.attachTo(element);
}

// where elements are: documents, and shadow roots also where they are closed
const roots = [];

// the element of a page that has the source by another way than those below, such as a <source> in it
function attachShown(source) {
  const elements = roots.flatMap((root) => [...root.deref()?.querySelectorAll("video, audio") || []]);
  const element = elements.find((one) => one.srcObject === source || sourceOfUrl.get(one.currentSrc) === source);
  if (element) attach(element, source);
}

// Wrapping. `run` makes the browser's own call; the recorder keeps what it answers or throws.

function recorded(recording, words, run, answerOf = () => "done") {
  const moment = recording.moment();
  let answer;
  try {
    answer = run();
  } catch (error) {
    const isOfBytes = words[0] === "append" && error.name === "TypeError";
    if (isOfBytes) recording.note("not told: appendBuffer, refused TypeError");
    else recording.call(words, `refused ${error.name}`, moment);
    throw error;
  }
  recording.call(words, answerOf(answer), moment);
  return answer;
}

// a call that no line of a script can tell
function untold(recording, text, run) {
  try {
    const answer = run();
    recording.note(`not told: ${text}, done`);
    return answer;
  } catch (error) {
    recording.note(`not told: ${text}, refused ${error?.name ?? "otherwise"}`);
    throw error;
  }
}

// a function in the place of another, with its name and its length
function inPlaceOf(own, run) {
  const wrapper = {run(...values) { return run(this, values, () => Reflect.apply(own, this, values)); }}.run;
  for (const name of ["name", "length"]) {
    Object.defineProperty(wrapper, name, Object.getOwnPropertyDescriptor(own, name));
  }
  return wrapper;
}

function wrapFunction(object, name, record) {
  const own = Object.getOwnPropertyDescriptor(object, name);
  if (own) Object.defineProperty(object, name, {...own, value: inPlaceOf(own.value, record)});
}

function wrapSetter(type, name, record) {
  const own = descriptor(type, name);
  if (own) Object.defineProperty(type.prototype, name, {...own, set: inPlaceOf(own.set, record)});
}

// A value that is an object is made a number or a text here, once, and the browser is given what came of it.

const asNumber = (value) => +value;
const asText = (value) => `${value}`;
const isObject = (value) => (typeof value === "object" && value !== null) || typeof value === "function";

// up to the first that the browser refuses, since it does not look at those behind it
function convert(values, kinds) {
  for (let i = 0; i < kinds.length && i < values.length; i += 1) {
    if (isObject(values[i])) values[i] = kinds[i](values[i]);
    if (kinds[i] === asNumber && typeof values[i] === "number" && !Number.isFinite(values[i])) return;
  }
}

// The words of a call, or null where no line tells it: a value that was not converted, or a symbol.
function wordsFor(values, kinds, wordsOf) {
  if (kinds.some((_, i) => isObject(values[i]))) return null;
  try {
    return wordsOf(...values);
  } catch {
    return null;
  }
}

// A call or a change of an attribute: `find` has its recording, and `words` makes its line of the values.
function recordedBy({find, kinds = [], least = kinds.length, words, before, after, answer}) {
  return (target, values, run) => {
    const recording = find(target);
    if (!recording || recording.isOver) return run();
    try {
      if (values.length >= least) convert(values, kinds);
    } catch (error) {
      return untold(recording, "a call whose arguments threw", () => { throw error; });
    }
    const line = values.length < least ? null : wordsFor(values, kinds, (...each) => words(recording, target, ...each));
    if (!line) return untold(recording, "a call of arguments that no line tells", run);
    before?.(recording, target, ...values);
    return recorded(recording, line, after ? () => after(recording, run()) : run, answer && (() => answer(target)));
  };
}

// Reads cost a page little: where the same one stands last, nothing is looked at.
function wrapRead(type, name, find, word, answerOf) {
  const own = descriptor(type, name);
  const {get} = own;
  let last = {target: null};
  const reader = {
    read() {
      if (last.target === this && last.recording.lastRead === last) return last.told = get.call(this);
      const recording = find.get(this);
      if (recording === undefined || recording.isOver) return get.call(this);
      const words = find === ofBuffer ? [word, recording.numberOf(this)] : [word];
      let answer;
      try {
        answer = get.call(this);
      } catch (error) {
        recording.call(words, `refused ${error.name}`, recording.moment());
        throw error;
      }
      last = recording.read(this, words, answerOf, answer);
      return answer;
    },
  }.read;
  Object.defineProperty(reader, "name", Object.getOwnPropertyDescriptor(get, "name"));
  Object.defineProperty(type.prototype, name, {...own, get: reader});
}

// The media source.

const isSource = (object) => Object.prototype.toString.call(object) === "[object MediaSource]";

// a type is the last word of its line, and the empty one is none
const typeWords = (...words) => words.at(-1) === "" ? words.slice(0, -1) : words;

function wrapSources(realm) {
  const type = realm.MediaSource;
  realm.MediaSource = new Proxy(type, {
    construct(target, values, made) {
      const source = Reflect.construct(target, values, made);
      recordingOf(source);
      return source;
    },
  });
  type.prototype.constructor = realm.MediaSource;
  const wrap = (name, facts) => wrapFunction(type.prototype, name, recordedBy({find: recordingOf, ...facts}));
  wrap("addSourceBuffer", {
    kinds: [asText],
    words: (recording, source, text) => typeWords("add", String(text)),
    after: (recording, buffer) => {
      ofBuffer.set(buffer, recording);
      watch(buffer, () => recording, {[`buffer ${recording.buffers.push(buffer) - 1}`]: EVENTS.buffer});
      return buffer;
    },
  });
  wrap("removeSourceBuffer", {
    least: 1,
    words: (recording, source, buffer) => {
      const number = recording.numberOf(buffer);
      return number < 0 ? null : ["removebuffer", number];
    },
  });
  wrap("endOfStream", {
    kinds: [asText], least: 0,
    words: (recording, source, error) => {
      if (error === undefined) return ["endofstream"];
      return ["network", "decode"].includes(error) ? ["endofstream", error] : null;
    },
    before: (recording, source, error) => { if (error === undefined) recording.seeksByItself = true; },
  });
  wrap("setLiveSeekableRange", {
    kinds: [asNumber, asNumber], words: (recording, source, ...values) => ["live", ...times(values, 2)],
  });
  wrap("clearLiveSeekableRange", {words: () => ["clearlive"]});
  wrapSetter(type, "duration", recordedBy({
    find: recordingOf, kinds: [asNumber],
    words: (recording, source, value) => ["duration", asTime(Number(value))],
    before: (recording) => { recording.seeksByItself = true; },
  }));
}

// Source buffers. One whose source the recorder did not see is left alone.

// the bytes of an append; of memory that the page gave away there are none
function bytesOf(value) {
  try {
    if (ArrayBuffer.isView(value)) return new Uint8Array(value.buffer, value.byteOffset, value.byteLength).slice();
    return Object.prototype.toString.call(value) === "[object ArrayBuffer]" ? new Uint8Array(value).slice() : null;
  } catch {
    return new Uint8Array(0);
  }
}

function appendWords(recording, buffer, value) {
  const bytes = bytesOf(value);
  if (!bytes) return null;
  const number = recording.numberOf(buffer);
  const piece = recording.keep(number, bytes);
  return ["append", number, piece.blob, piece.first, bytes.length];
}

function wrapBuffers(realm) {
  const type = realm.SourceBuffer;
  const find = (buffer) => ofBuffer.get(buffer);
  const told = (facts) => recordedBy({find, ...facts});
  const call = (name, facts) => wrapFunction(type.prototype, name, told(facts));
  const numbered = (name, ...words) => (recording, buffer) => [name, recording.numberOf(buffer), ...words];
  call("appendBuffer", {least: 1, words: appendWords});
  call("abort", {words: numbered("abort")});
  call("remove", {
    kinds: [asNumber, asNumber],
    words: (recording, buffer, ...values) => numbered("remove", ...times(values, 2))(recording, buffer),
  });
  call("changeType", {
    kinds: [asText],
    words: (recording, buffer, text) => typeWords(...numbered("changetype", String(text))(recording, buffer)),
  });
  wrapSetter(type, "mode", told({
    kinds: [asText],
    words: (recording, buffer, mode) => ["segments", "sequence"].includes(mode)
      ? numbered("mode", mode)(recording, buffer) : null,
  }));
  for (const [name, word] of [["timestampOffset", "offset"], ["appendWindowStart", "windowstart"],
    ["appendWindowEnd", "windowend"]]) {
    wrapSetter(type, name, told({
      kinds: [asNumber],
      words: (recording, buffer, value) => numbered(word, asTime(Number(value)))(recording, buffer),
    }));
  }
  wrapRead(type, "buffered", ofBuffer, "buffered", (ranges) => `ranges${rangesText(ranges)}`);
}

// The element.

const isMedia = (element) => typeof element?.canPlayType === "function";

// the recording of an element, also where nobody saw how it came to its source
function recordingOfElement(element) {
  if (!ofElement.has(element)) attachUrl(element, element.currentSrc);
  return ofElement.get(element);
}

// Of seeks before there is metadata only the last one is made, when they come.
function expectSeek(recording, element, value) {
  if (!Number.isFinite(Number(value))) return;
  recording.expected.seeking = element.readyState === 0 ? 1 : recording.expected.seeking + 1;
}

// What a promise comes to is no answer, but for an element whose source cannot be played: there it is refused at once.
const playAnswer = (element) => element.error?.code === 4 ? "refused NotSupportedError" : "done";

function wrapElements(realm) {
  const type = realm.HTMLMediaElement;
  const told = (facts) => recordedBy({find: recordingOfElement, ...facts});
  const call = (name, facts) => wrapFunction(type.prototype, name, told(facts));
  // an event is looked for behind the call only where the call brings it
  call("play", {
    words: () => ["play"], answer: playAnswer,
    before: (recording, element) => {
      if (element.paused) recording.expected.play += 1;
      if (element.ended) recording.seeksByItself = true;
    },
  });
  call("pause", {
    words: () => ["pause"],
    before: (recording, element) => { if (!element.paused) recording.expected.pause += 1; },
  });
  const seekWords = (recording, element, value) => ["seek", asTime(Number(value))];
  const seek = {kinds: [asNumber], words: seekWords, before: expectSeek};
  call("fastSeek", seek);
  wrapSetter(type, "currentTime", told(seek));
  wrapRead(type, "buffered", ofElement, "elementbuffered", (ranges) => `ranges${rangesText(ranges)}`);
  wrapRead(type, "seekable", ofElement, "seekable", (ranges) => `range ${rangeText(ranges)}`);
}

// How a source comes to an element, and goes.

// A page that gives an element another source, or loads it anew, leaves the one that is open.
function leave(element, text) {
  const recording = ofElement.get(element);
  if (recording && recording.source.readyState !== "closed") recording.leave(text);
}

function attachUrl(element, url) {
  if (sourceOfUrl.has(url)) attach(element, sourceOfUrl.get(url));
}

function setUrl(element, values, run) {
  convert(values, [asText]);
  leave(element, "src");
  run();
  attachUrl(element, String(values[0]));
}

function setObject(element, value, run) {
  leave(element, "srcObject");
  run();
  if (isSource(value)) attach(element, value);
  else if (/MediaSourceHandle/.test(Object.prototype.toString.call(value))) {
    warnOnce("a media source of a worker is not recorded");
  }
}

function setAttribute(element, values, run) {
  const media = isMedia(element) ? element : isMedia(element?.parentElement) ? element.parentElement : null;
  if (!media || values.length < 2) return run();
  convert(values, [asText, asText]);
  if (String(values[0]).toLowerCase() !== "src") return run();
  if (media === element) leave(element, "setAttribute");
  const answer = run();
  attachUrl(media, String(values[1]));
  return answer;
}

function wrapAttaching(realm) {
  wrapFunction(realm.URL, "createObjectURL", (target, values, run) => {
    const url = run();
    if (isSource(values[0])) sourceOfUrl.set(url, values[0]);
    return url;
  });
  const {prototype} = realm.HTMLMediaElement;
  wrapSetter(realm.HTMLMediaElement, "src", setUrl);
  wrapSetter(realm.HTMLMediaElement, "srcObject", (element, [value], run) => setObject(element, value, run));
  wrapFunction(prototype, "load", (element, values, run) => {
    leave(element, "load()");
    return run();
  });
  wrapFunction(realm.Element.prototype, "setAttribute", setAttribute);
  wrapFunction(realm.Element.prototype, "attachShadow", (element, values, run) => {
    const root = run();
    roots.push(new WeakRef(root));
    return root;
  });
}

// Frames. Those of the same origin are recorded too: their windows are wrapped when they come into the page, before
// their scripts run, and when they have loaded another page.

function install(realm) {
  try {
    if (realm.record?.archive || !realm.MediaSource) return;
    realm.record = api;
  } catch {
    warnOnce("a frame of another origin is not recorded");
    return;
  }
  roots.push(new WeakRef(realm.document));
  wrapSources(realm);
  wrapBuffers(realm);
  wrapElements(realm);
  wrapAttaching(realm);
  watchFrames(realm);
}

function watchFrames(realm) {
  const {document} = realm;
  const windowOf = descriptor(realm.HTMLIFrameElement, "contentWindow").get;
  const look = (frame) => { if (windowOf.call(frame)) install(windowOf.call(frame)); };
  const lookAtAll = () => document.querySelectorAll("iframe").forEach(look);
  lookAtAll();
  new realm.MutationObserver(lookAtAll).observe(document, {childList: true, subtree: true});
  document.addEventListener("load", lookAtAll, {capture: true});
  for (const name of ["contentWindow", "contentDocument"]) {
    const own = descriptor(realm.HTMLIFrameElement, name);
    const get = inPlaceOf(own.get, (frame, values, run) => {
      look(frame);
      return run();
    });
    Object.defineProperty(realm.HTMLIFrameElement.prototype, name, {...own, get});
  }
}

// The script. It is written when it is asked for, from all entries.

const STEP_LIMIT = 100000;

// Writes the steps of the script and the browser's lines, entry by entry.
class Writer {
  constructor() {
    this.steps = [];
    this.lines = [];
    // events since the script last fired some, and how far the clock went since
    this.owed = 0;
    this.passed = 0;
    this.isAtEnd = false;
    this.task = 0;
    this.last = null;
  }

  write(entries) {
    for (const entry of entries) {
      this.follow(entry);
      if (entry.kind === "note") this.steps.push(tomlComment(entry.text));
      else if (entry.kind === "event") this.event(entry);
      else this.call(entry);
      this.last = entry;
    }
  }

  // how far the element played since the entry before
  follow(entry) {
    const before = this.last;
    if (before && before.plays && entry.plays) {
      this.passed += Math.max(0, entry.time - (before.timeAfter ?? before.time));
    }
    if (before && before.plays && this.passed > 0 && entry.isAtEnd) this.isAtEnd = true;
  }

  event(entry) {
    if (entry.target === "other") return;
    this.lines.push(`event ${entry.target} ${entry.type}`);
    if (entry.type !== "sourceclose") this.owed += 1;
  }

  call(entry) {
    this.comeTo(entry);
    const second = (entry.at / 1000).toFixed(3);
    if (entry.task !== this.task) this.steps.push(tomlComment(`task ${entry.task}, ${second} s${withinText(entry)}`));
    this.task = entry.task;
    this.steps.push(lineOf(entry.words, scriptTime));
    this.lines.push(`call ${lineOf(entry.words)}: ${entry.answer}`);
  }

  // takes the program to where the browser was before this entry
  comeTo(entry) {
    if (!this.owed && !this.passed) return;
    if (!entry.busy.length && !entry.isSeekDue) this.steps.push("drain");
    else for (let i = 0; i < this.owed; i += 1) this.steps.push("fire");
    if (this.passed > 0) this.advance(entry);
    this.owed = 0;
  }

  // At the end of a range the program stops by itself, so a second more takes it there for sure: a browser tells
  // the end of a range only to the microsecond.
  advance(entry) {
    const words = ["advance", asTime(this.passed + (this.isAtEnd ? 1 : 0))];
    this.steps.push(lineOf(words, scriptTime));
    this.lines.push(`call ${lineOf(words)}: done`);
    if (!entry.busy.length && !entry.isSeekDue) this.steps.push("drain");
    this.passed = 0;
    this.isAtEnd = false;
  }
}

function withinText({within}) {
  return within ? `, within ${within.target === "other" ? "element" : within.target} ${within.type}` : "";
}

function tomlText(text) {
  return text.includes("'") ? `"${text.replace(/["\\]/g, "\\$&")}"` : text.includes('"') ? `'${text}'` : `"${text}"`;
}

const tomlComment = (text) => `# ${text.replace(/[\u0000-\u001f\u007f]/g, " ")}`;

function tomlScript(recording, steps) {
  const count = steps.filter((step) => !step.startsWith("#")).length;
  const lines = [
    tomlComment("A page's calls, recorded by clients/record.js."),
    tomlComment(`Page: ${location.href}`),
    tomlComment(`Browser: ${navigator.userAgent}`),
  ];
  if (count > STEP_LIMIT) lines.push(tomlComment(`There are ${count} steps; the program takes ${STEP_LIMIT}.`));
  const blobs = recording.blobs.map((blob) => tomlText(`file ${blob.name}`));
  lines.push(`blobs = [${blobs.join(", ")}]`, "steps = [");
  for (const step of steps) lines.push(`  ${step.startsWith("#") ? step : `${tomlText(step)},`}`);
  return `${[...lines, "]"].join("\n")}\n`;
}

// what is there in the end: the last lines of the program, as far as a page sees them
function closingLines({source, element, buffers}) {
  const lines = [`state ${stateText(source, element)}`, `duration ${printedTime(source.duration)}`];
  buffers.forEach((buffer, number) => {
    const isListed = Array.from(source.sourceBuffers).includes(buffer);
    if (isListed) lines.push(`buffer ${number} buffered${rangesText(native.bufferRanges.call(buffer))}`);
  });
  return lines;
}

// what came when the page had left the source: the program never leaves one
function behindLines({behind}) {
  return behind.length ? [`# behind the end, when the page had left the source: ${behind.join(", ")}`] : [];
}

function filesOf(recording) {
  recording.finishRead();
  const writer = new Writer();
  writer.write(recording.entries);
  const end = recording.isOver ? recording.endMoment : recording.moment();
  if (end) writer.follow(end);
  writer.comeTo(end ?? {busy: [], isSeekDue: false});
  const closing = recording.isOver ? [...recording.closing ?? [], ...behindLines(recording)] : closingLines(recording);
  return [
    {name: "recording.toml", parts: [encode(tomlScript(recording, writer.steps))]},
    {name: "browser.txt", parts: [encode(`${[...writer.lines, ...closing].join("\n")}\n`)]},
    ...recording.blobs.map(({name, parts}) => ({name, parts})),
  ];
}

const encode = (text) => new TextEncoder().encode(text);

// The archive: a ZIP file whose entries are stored as they are. Each entry has a local header and its bytes;
// behind them all stands the directory, which tells where each entry begins, and the end.

const CRC_TABLE = Uint32Array.from({length: 256}, (_, value) => {
  for (let bit = 0; bit < 8; bit += 1) value = value & 1 ? (value >>> 1) ^ 0xEDB88320 : value >>> 1;
  return value;
});

function crc32(bytes, before = 0) {
  let crc = ~before;
  for (const byte of bytes) crc = (crc >>> 8) ^ CRC_TABLE[(crc ^ byte) & 0xFF];
  return ~crc >>> 0;
}

// little-endian fields, each a pair of its length in bytes and its value
function fields(...pairs) {
  const bytes = [];
  for (const [length, value] of pairs) {
    for (let i = 0; i < length; i += 1) bytes.push((value / 2 ** (8 * i)) & 0xFF);
  }
  return Uint8Array.from(bytes);
}

// what the local header and the directory both tell: version, flags, no compression, the time 1980-01-01, the sums
function facts(name, crc, length) {
  return [[2, 20], [2, 0], [2, 0], [2, 0], [2, 0x21], [4, crc], [4, length], [4, length], [2, name.length], [2, 0]];
}

function zip(files) {
  const parts = [];
  const directory = [];
  let place = 0;
  const put = (list, ...some) => some.forEach((part) => { list.push(part); });
  for (const file of files) {
    const name = encode(file.name);
    const length = file.parts.reduce((sum, part) => sum + part.length, 0);
    const crc = file.parts.reduce((before, part) => crc32(part, before), 0);
    const shared = facts(name, crc, length);
    put(parts, fields([4, 0x04034B50], ...shared), name, ...file.parts);
    put(directory, fields([4, 0x02014B50], [2, 20], ...shared, [2, 0], [2, 0], [2, 0], [4, 0], [4, place]), name);
    place += 30 + name.length + length;
  }
  const size = directory.reduce((sum, part) => sum + part.length, 0);
  if (place + size > 0xFFFFFFFF) throw new Error("record.js: more than 4 GB, which one archive does not hold");
  const count = files.length;
  const end = fields([4, 0x06054B50], [2, 0], [2, 0], [2, count], [2, count], [4, size], [4, place], [2, 0]);
  return new Blob([...parts, ...directory, end], {type: "application/zip"});
}

// What a person calls.

function chosen(number) {
  if (!recordings.length) throw new Error("record.js: no MediaSource was made so far");
  if (number !== undefined && !recordings[number]) {
    throw new Error(`record.js: there are the recordings 0 to ${recordings.length - 1}`);
  }
  return recordings[number ?? recordings.length - 1];
}

const api = {
  // the archive of a recording, as a Blob; there is one for each MediaSource, counted from 0, and the last is taken
  archive(number) {
    return zip(filesOf(chosen(number)));
  },

  // the archive as a download
  save(number) {
    const blob = api.archive(number);
    const link = document.createElement("a");
    link.href = URL.createObjectURL(blob);
    link.download = "recording.zip";
    link.click();
    setTimeout(() => URL.revokeObjectURL(link.href), 60000);
    return blob;
  },

  // a line on each recording
  list() {
    return recordings.map((recording, number) => {
      const calls = recording.entries.filter((entry) => entry.kind === "call").length;
      const bytes = recording.blobs.reduce((sum, blob) => sum + blob.length, 0);
      return `${number}: ${calls} calls, ${recording.buffers.length} buffers, ${bytes} bytes`;
    });
  },
};

install(window);
console.log("record.js is there: record.save() downloads what the page did, record.list() tells what there is");
})();
