// The machine behind a media element: a live session of the engine, and the script of what it did. The engine's queue
// of events goes over into the tasks of the element at once: taking an event off the queue changes nothing else, and
// the script has each `fire` where the event was dispatched.

import { Session } from './engine.mjs';
import { refusal } from './errors.mjs';
import { Recording } from './recording.mjs';
import { reasonOf } from './refusals.mjs';
import { secondsOf } from './times.mjs';

// A type as a line has it. No character that a line may not have makes a type supported or not, and neither does "?".
export function typeWord(type) {
  return type === '' ? '' : ` ${type.replace(/[^\x20-\x7e]/gu, '?')}`;
}

// the host of a machine that no element has
export const NOBODY = {
  told() {}, stepped() {}, turn: () => false, look() {}, append() {}, appended() {}, reset() {},
};

export class Machine {
  #session;
  #recording;
  #host;
  // the step that a drain does next: no event, since those are told at once
  #next = null;
  // behind the end of the script
  #isEnded = false;
  #wasDrained = false;
  // events that were told and not yet dispatched
  #waiting = 0;
  // what a page reads, until the next step
  #attributes = null;
  #buffers = new Map();

  // `settings` are `quota` in bytes and `gap` in ticks. The host is handed each event as `told("buffer 0",
  // "updateend")`; `stepped` is called behind each step; `look` before something is read or called; `append` before an
  // append, which it may refuse, and `appended` behind it; `reset` behind a call that resets the string of a buffer;
  // and `turn` before a turn of the element, in the place of which it may make a call, and then is true.
  constructor(settings, host) {
    this.#session = new Session(settings);
    this.#recording = new Recording(settings);
    this.#host = host;
  }

  // Makes a call, and throws its error where it is refused. The error has the text that `asked` gives of what the page
  // asked, and tells why by the values that it handed in.
  call(line, asked, values = []) {
    this.#make(line, line, asked, values);
  }

  // Makes a call that resets the string of a source buffer.
  reset(buffer, line, asked) {
    this.call(line, asked);
    this.#host.reset(buffer);
  }

  // Adds a source buffer and gives its number.
  addBuffer(type) {
    this.call(`add${typeWord(type)}`, () => `addSourceBuffer(${JSON.stringify(type)})`);
    return this.last.made - 1;
  }

  append(buffer, bytes) {
    this.#host.append(buffer, bytes, () => this.buffer(buffer));
    const own = bytes.slice();
    const blob = this.#session.give(own);
    try {
      this.#make(`append ${buffer} ${blob}`, `append ${buffer} ${this.#recording.part(own)}`, () => 'appendBuffer', []);
    } finally {
      this.#session.forget(blob + 1);
    }
    this.#host.appended(buffer, own);
  }

  // What a page reads of the source and of the element.
  get attributes() {
    this.#host.look();
    return this.last;
  }

  // The same, without time that has passed since the last call.
  get last() {
    this.#attributes ??= this.#session.attributes();
    return this.#attributes;
  }

  // The source buffers, by their numbers; null for those that were removed.
  get buffers() {
    return Array.from({ length: this.last.made }, (_, number) => this.buffer(number));
  }

  // What a page reads of the source buffer of a number; null where it is not in the list.
  buffer(number) {
    this.#host.look();
    return this.lastOf(number);
  }

  // The same, without time that has passed since the last call.
  lastOf(number) {
    if (!this.#buffers.has(number)) this.#buffers.set(number, this.#session.buffer(number));
    return this.#buffers.get(number);
  }

  // Whether a step is left to do.
  get hasWork() {
    return this.#next !== null;
  }

  // Does steps until an event is told, or nothing is left to do.
  work() {
    this.#host.look();
    while (this.#next !== null && this.#waiting === 0) {
      if (this.#next !== 'element' || !this.#host.turn()) {
        this.#recording.step(this.#next);
        this.#step(this.#next);
      }
    }
  }

  // Notes that the first event of those that were told is dispatched now.
  fire() {
    if (this.#isEnded) return;
    this.#waiting -= 1;
    this.#recording.step('fire');
  }

  // Whether a call was made.
  get isUsed() {
    return this.#recording.isUsed;
  }

  // Ends the script here.
  freeze() {
    this.#wasDrained = this.#isDrained;
    this.#isEnded = true;
  }

  // Takes the source buffers away, behind the end of the script. Gives the events by which work that ran on them ends,
  // as pairs of a number and a type.
  removeAll() {
    const told = [];
    this.#host = { ...NOBODY, told: (target, type) => told.push(target.split(' ').concat(type)) };
    for (let number = 0; number < this.last.made; number += 1) this.#step(`removebuffer ${number}`);
    return told.filter(([name]) => name === 'buffer').map(([, number, type]) => [Number(number), type]);
  }

  // The calls so far as a script with its bytes, whose names begin with `prefix`. The script begins with a note.
  files(name, prefix, note) {
    this.#host.look();
    return this.#recording.files(name, prefix, note, this.#isDrained);
  }

  get #isDrained() {
    if (this.#isEnded) return this.#wasDrained;
    return this.#waiting === 0 && this.#next === null;
  }

  #make(line, recorded, asked, values) {
    this.#host.look();
    if (!this.#isEnded) this.#recording.call(recorded, this.#isDrained);
    const { refused } = this.#step(line);
    if (refused !== null) throw refusal(refused, `${asked()}: ${this.#reasonOf(line, refused, values)}`);
  }

  #reasonOf(line, name, values) {
    const [word, number] = line.split(' ');
    const { attributes, buffers } = this;
    const state = { attributes, buffers, buffer: buffers[number], values, duration: secondsOf(attributes.duration) };
    return reasonOf(word, name, state);
  }

  // Does a step, and tells its events.
  #step(line) {
    const done = this.#session.step(line);
    this.#attributes = null;
    this.#buffers.clear();
    for (this.#next = this.#session.next(); this.#next === 'fire'; this.#next = this.#session.next()) {
      const [line] = this.#session.step('fire').lines;
      const end = line.lastIndexOf(' ');
      this.#waiting += 1;
      this.#host.told(line.slice('event '.length, end), line.slice(end + 1));
    }
    this.#host.stepped();
    return done;
  }
}
