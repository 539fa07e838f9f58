// MediaSource (Media Source Extensions, 2).

import { Session } from './engine.mjs';
import { leaveOut } from './errors.mjs';
import { defineHandlers } from './handlers.mjs';
import { attachTo, detach, leaveList, needArguments, numberOf, refresh, targetOf, token } from './inside.mjs';
import { Machine, NOBODY, typeWord } from './machine.mjs';
import { SourceBuffer } from './source_buffer.mjs';
import { SourceBufferList } from './source_buffer_list.mjs';
import { tag } from './tags.mjs';
import { secondsOf, timeText } from './times.mjs';

const ERRORS = ['network', 'decode'];

// byte stream formats of browsers that the engine does not read
const LEFT_OUT = /^\s*(video|audio)\/(webm|mp2t|mpeg)\b/i;

// Whether a source buffer takes a type: asked of a source of its own.
function isSupported(type) {
  const session = new Session();
  try {
    session.step('attach');
    return session.step(`add${typeWord(type)}`).refused === null;
  } finally {
    session.close();
  }
}

export class MediaSource extends EventTarget {
  // the element's machine, once there is an element; before that one of its own, which refuses all calls
  #machine = null;
  #closed = null;
  #buffers = [];
  #sourceBuffers = new SourceBufferList(token, () => this.#buffersWith(() => true));
  #activeSourceBuffers = new SourceBufferList(token, () => this.#buffersWith(({ active }) => active));

  static isTypeSupported(type) {
    needArguments(arguments, 1);
    return isSupported(String(type));
  }

  // workers are left out
  static get canConstructInDedicatedWorker() {
    return false;
  }

  get readyState() {
    return this.#machine?.attributes.readyState ?? 'closed';
  }

  get sourceBuffers() {
    return this.#sourceBuffers;
  }

  get activeSourceBuffers() {
    return this.#activeSourceBuffers;
  }

  get duration() {
    return secondsOf(this.#machine?.attributes.duration ?? NaN);
  }

  set duration(duration) {
    const seconds = Number(duration);
    this.#called.call(`duration ${timeText(seconds)}`, () => `duration = ${seconds}`, [seconds]);
  }

  addSourceBuffer(type) {
    needArguments(arguments, 1);
    const buffer = new SourceBuffer(token, this.#machine, this.#add(String(type)));
    this.#buffers.push(buffer);
    this.#refresh();
    return buffer;
  }

  removeSourceBuffer(buffer) {
    if (!(buffer instanceof SourceBuffer)) throw new TypeError('the argument is no SourceBuffer');
    // 2.2, "removeSourceBuffer", step 1
    if (!this.#buffersWith(() => true).includes(buffer)) {
      throw new DOMException('removeSourceBuffer: the source buffer is not in the list', 'NotFoundError');
    }
    buffer[leaveList](() => this.#machine.call(`removebuffer ${buffer[numberOf]}`, () => 'removeSourceBuffer'));
    this.#refresh();
  }

  endOfStream(error) {
    if (error === undefined) {
      this.#called.call('endofstream', () => 'endOfStream()');
      return;
    }
    const word = String(error);
    if (!ERRORS.includes(word)) throw new TypeError(`endOfStream("${word}"): there is no such error of a stream`);
    this.#called.call(`endofstream ${word}`, () => `endOfStream("${word}")`);
  }

  setLiveSeekableRange(start, end) {
    needArguments(arguments, 2);
    const times = [Number(start), Number(end)];
    const line = `live ${times.map(timeText).join(' ')}`;
    this.#called.call(line, () => `setLiveSeekableRange(${times.join(', ')})`, times);
  }

  clearLiveSeekableRange() {
    this.#called.call('clearlive', () => 'clearLiveSeekableRange()');
  }

  // Media Source Extensions, 2.4.1, "Attaching to a media element"
  [attachTo](machine) {
    this.#machine = machine;
    machine.call('attach', () => 'attach');
  }

  // Media Source Extensions, 2.4.2, "Detaching from a media element". `queue` queues a task that fires an event.
  [detach](queue) {
    const buffers = this.#buffers;
    [...this.#sourceBuffers].forEach((buffer) => buffer[leaveList](() => {}));
    // the standard leaves open how work ends that runs; here it ends as in removeSourceBuffer
    const ends = this.#machine.removeAll();
    // steps 1, 2, 3 and 5
    this.#machine = null;
    this.#buffers = [];
    this.#refresh();
    // step 4
    queue(this.#activeSourceBuffers, 'removesourcebuffer');
    ends.forEach(([number, type]) => queue(buffers[number], type));
    // step 6
    queue(this.#sourceBuffers, 'removesourcebuffer');
    // step 7
    queue(this, 'sourceclose');
  }

  // the target of an event: "source", "sourcebuffers", "activesourcebuffers" or "buffer K"
  [targetOf](name) {
    // it changes behind such an event only
    if (name === 'activesourcebuffers') this.#refresh();
    const [sourcebuffers, activesourcebuffers] = [this.#sourceBuffers, this.#activeSourceBuffers];
    const targets = { source: this, sourcebuffers, activesourcebuffers };
    return targets[name] ?? this.#buffers[Number(name.split(' ')[1])];
  }

  get #called() {
    return this.#machine ?? (this.#closed ??= new Machine({}, NOBODY));
  }

  #add(type) {
    try {
      return this.#called.addBuffer(type);
    } catch (error) {
      if (error.name === 'NotSupportedError' && LEFT_OUT.test(type)) {
        throw new DOMException(`${type} is not there: ISO BMFF and ADTS are the only byte stream formats`, error.name);
      }
      throw error;
    }
  }

  // The source buffers in the list of which the engine's attributes are so.
  #buffersWith(isSo, attributesOf = (number) => this.#machine.buffer(number)) {
    return this.#buffers.filter((_, number) => {
      const attributes = attributesOf(number);
      return attributes !== null && isSo(attributes);
    });
  }

  // Gives the lists the source buffers that are in them now.
  #refresh() {
    const attributesOf = (number) => this.#machine.lastOf(number);
    this.#sourceBuffers[refresh](this.#buffersWith(() => true, attributesOf));
    this.#activeSourceBuffers[refresh](this.#buffersWith(({ active }) => active, attributesOf));
  }
}

defineHandlers(MediaSource, ['sourceopen', 'sourceended', 'sourceclose']);
leaveOut(MediaSource.prototype, 'MediaSource', 'workers are left out', ['handle']);
tag(MediaSource);
