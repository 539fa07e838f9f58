// SourceBuffer (Media Source Extensions, 3).

import { leaveOut } from './errors.mjs';
import { defineHandlers } from './handlers.mjs';
import { leaveList, needArguments, numberOf, onlyInside } from './inside.mjs';
import { typeWord } from './machine.mjs';
import { tag } from './tags.mjs';
import { BufferedAttribute } from './time_ranges.mjs';
import { secondsOf, timeText } from './times.mjs';

const MODES = ['segments', 'sequence'];

// The bytes of a BufferSource (Web IDL, "get a copy of the bytes held by the buffer source"): none where it is
// detached.
function bytesOf(data) {
  const isView = ArrayBuffer.isView(data);
  if (!isView && !(data instanceof ArrayBuffer)) {
    throw new TypeError('the data are neither an ArrayBuffer nor a view of one');
  }
  const buffer = isView ? data.buffer : data;
  if (buffer.byteLength === 0) return new Uint8Array(0);
  return isView ? new Uint8Array(buffer, data.byteOffset, data.byteLength) : new Uint8Array(buffer);
}

export class SourceBuffer extends EventTarget {
  #machine;
  #number;
  #buffered = new BufferedAttribute();
  // what could be read when it left the list of source buffers, of which the engine tells no more
  #last = null;

  constructor(given, machine, number) {
    super();
    onlyInside(given, 'SourceBuffer');
    this.#machine = machine;
    this.#number = number;
  }

  get updating() {
    return this.#attributes.updating;
  }

  get buffered() {
    // 3.1, "buffered", step 1
    if (this.#last !== null) throw new DOMException('the source buffer was removed', 'InvalidStateError');
    return this.#buffered.of(this.#attributes.ranges);
  }

  get mode() {
    return this.#attributes.mode;
  }

  set mode(mode) {
    // another word than these changes nothing, as of every attribute that has an enumeration (Web IDL)
    const word = String(mode);
    if (MODES.includes(word)) this.#call('mode', word, () => `mode = "${word}"`, []);
  }

  get timestampOffset() {
    return secondsOf(this.#attributes.timestampOffset);
  }

  set timestampOffset(offset) {
    this.#setTime('offset', 'timestampOffset', Number(offset));
  }

  get appendWindowStart() {
    return secondsOf(this.#attributes.appendWindowStart);
  }

  set appendWindowStart(start) {
    this.#setTime('windowstart', 'appendWindowStart', Number(start));
  }

  get appendWindowEnd() {
    return secondsOf(this.#attributes.appendWindowEnd);
  }

  set appendWindowEnd(end) {
    this.#setTime('windowend', 'appendWindowEnd', Number(end));
  }

  appendBuffer(data) {
    needArguments(arguments, 1);
    this.#machine.append(this.#number, bytesOf(data));
  }

  abort() {
    this.#machine.reset(this.#number, `abort ${this.#number}`, () => 'abort()');
  }

  remove(start, end) {
    needArguments(arguments, 2);
    const times = [Number(start), Number(end)];
    this.#call('remove', times.map(timeText).join(' '), () => `remove(${times.join(', ')})`, times);
  }

  changeType(type) {
    needArguments(arguments, 1);
    const text = String(type);
    const line = `changetype ${this.#number}${typeWord(text)}`;
    this.#machine.reset(this.#number, line, () => `changeType(${JSON.stringify(text)})`);
  }

  get [numberOf]() {
    return this.#number;
  }

  // Takes the buffer out of the list of source buffers, by the call that does so.
  [leaveList](remove) {
    const last = this.#attributes;
    remove();
    this.#last = { ...last, updating: false };
  }

  get #attributes() {
    return this.#last ?? this.#machine.buffer(this.#number);
  }

  #setTime(word, attribute, seconds) {
    this.#call(word, timeText(seconds), () => `${attribute} = ${seconds}`, [seconds]);
  }

  #call(word, words, asked, values) {
    this.#machine.call(`${word} ${this.#number} ${words}`, asked, values);
  }
}

defineHandlers(SourceBuffer, ['updatestart', 'update', 'updateend', 'error', 'abort']);
leaveOut(SourceBuffer.prototype, 'SourceBuffer', 'tracks are left out', ['audioTracks', 'videoTracks', 'textTracks']);
tag(SourceBuffer);
