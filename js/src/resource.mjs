// The media resource of an element: loading it, and leaving it (HTML, 4.8.11.5). Each life of an element, from one
// source to the next, has a machine of its own.

import { EventTask } from './event_task.mjs';
import { faultInWords } from './faults.mjs';
import { attachTo, detach, targetOf, token } from './inside.mjs';
import { Machine } from './machine.mjs';
import { MediaError } from './media_error.mjs';
import { MediaSource } from './media_source.mjs';
import { Tasks } from './tasks.mjs';
import { secondsOf, timeText } from './times.mjs';

export const [EMPTY, IDLE, LOADING, NO_SOURCE] = [0, 1, 2, 3];

const HAVE_FUTURE_DATA = 3;
const SRC_NOT_SUPPORTED = 4;
// errors without a fault, by their code
const ENDED = {
  2: 'endOfStream("network") was called',
  3: 'endOfStream("decode") was called',
  4: 'endOfStream was called with an error before there was metadata',
};
const ASKED = 'the test asked for an error of the decoder';
// events of the engine behind which promises of play() are kept or broken
const SETTLING = ['playing', 'pause'];

export class Resource {
  #element;
  #settings;
  #tasks = new Tasks(this);
  #machine;
  #source = null;
  #ended = [];
  // the state where there is no source
  #networkState = EMPTY;
  #failure = null;
  #selection = 0;
  #playPromises = [];

  // `settings` are those of a machine, `playing` is what the element does by itself, and `faults` are those that a test
  // asked for.
  constructor(element, settings, playing, faults) {
    this.#element = element;
    this.#settings = settings;
    this.playing = playing;
    this.faults = faults;
    this.#begin();
  }

  get attributes() {
    return this.#machine.attributes;
  }

  get networkState() {
    if (this.#source === null) return this.#networkState;
    // HTML, 4.8.11.5, "media data processing steps list": all of it was fetched, or an error ended it
    const { readyState, error } = this.#machine.attributes;
    if (error === SRC_NOT_SUPPORTED) return NO_SOURCE;
    return readyState === 'ended' ? IDLE : LOADING;
  }

  // The error of the element, as an object that stays the same.
  get error() {
    const { error, fault } = this.#machine.attributes;
    if (this.#failure === null && error !== 0) {
      const asked = this.playing.hasDecodeError ? ASKED : ENDED[error];
      this.#failure = new MediaError(token, error, fault === null ? asked : faultInWords(fault));
    }
    return this.#failure;
  }

  // What the tasks ask for where there is none.
  get hasWork() {
    return this.#machine.hasWork;
  }

  work() {
    this.#machine.work();
  }

  // Whether the page seeks.
  get seeking() {
    return this.#machine.attributes.seeking && !this.playing.isStarting;
  }

  // The page seeks to a time.
  seek(time, asked, values) {
    this.playing.sought();
    this.#machine.call(`seek ${time}`, asked, values);
  }

  // A promise that is kept when no event is left to dispatch.
  settled() {
    return this.#tasks.settled();
  }

  // The same where there is something to do.
  get busy() {
    return this.#tasks.isScheduled ? this.settled() : undefined;
  }

  // The machines of all lives in which something was done, the one that goes on last.
  get lives() {
    const lives = [...this.#ended, this.#machine].filter(({ isUsed }) => isUsed);
    return lives.length === 0 ? [this.#machine] : lives;
  }

  // Queues a media element task that fires an event.
  fire(type) {
    this.fireAt(this.#element, type);
  }

  // Queues a task that fires an event at a target of the element's.
  fireAt(target, type) {
    this.#tasks.queue(new EventTask(target, type));
  }

  // The media element load algorithm. `provider` gives the media source that is to be attached, null where there is
  // none, and undefined where there should be one.
  load(provider) {
    // step 2
    this.#selection += 1;
    const { networkState } = this;
    const { startPosition } = this.#machine.attributes;
    if (networkState !== EMPTY) this.#machine.freeze();
    // steps 3 to 5
    const isOfElement = (task) => task instanceof EventTask && task.isOf(this.#element);
    this.#tasks.remove(isOfElement).forEach((task) => task.discard());
    // step 6
    if ([LOADING, IDLE].includes(networkState)) this.fire('abort');
    // step 7
    if (networkState !== EMPTY) this.#leave();
    // step 8
    this.#element.playbackRate = this.#element.defaultPlaybackRate;
    // step 9
    this.#failure = null;
    this.playing.loads();
    // step 10
    this.select(provider);
    // the default playback start position stays
    if (networkState !== EMPTY && startPosition !== 0n) {
      this.#machine.call(`seek ${timeText(secondsOf(startPosition))}`, () => 'load()');
    }
  }

  // The resource selection algorithm. What it does once the script of the page has ended is done at once where a media
  // source is attached.
  select(provider) {
    const selection = this.#selection;
    // step 1
    this.#networkState = NO_SOURCE;
    const found = provider();
    if (found instanceof MediaSource && found.readyState === 'closed') {
      this.#attach(found);
      return;
    }
    // step 5, "await a stable state"
    queueMicrotask(() => {
      if (selection === this.#selection) this.#selectNone(found);
    });
  }

  // HTML, 4.8.11.8, "internal play steps"
  play() {
    return new Promise((keep, refuse) => {
      // play(), step 1
      if (this.error?.code === SRC_NOT_SUPPORTED) {
        refuse(new DOMException(`play(): ${this.error.message}`, 'NotSupportedError'));
        return;
      }
      // internal play steps, step 5
      this.playing.steered();
      const { paused, level } = this.#machine.attributes;
      this.#playPromises.push({ keep, refuse });
      this.#machine.call('play', () => 'play()');
      // step 4
      if (!paused && level >= HAVE_FUTURE_DATA) {
        const promises = this.#playPromises.splice(0);
        this.#tasks.queue({ run: () => promises.forEach((promise) => promise.keep()) });
      }
    });
  }

  // HTML, 4.8.11.8, "internal pause steps"
  pause() {
    // step 1
    this.playing.steered();
    this.#machine.call('pause', () => 'pause()');
  }

  #begin() {
    const machine = new Machine(this.#settings, {
      told: (target, type) => this.#told(machine, target, type),
      stepped: () => {
        this.#tasks.schedule();
        this.playing.stepped();
      },
      turn: () => this.playing.turn(),
      look: () => this.playing.look(),
      append: (number, bytes, buffer) => this.faults.append(number, bytes, buffer),
      appended: (number, bytes) => this.faults.appended(number, bytes),
      reset: (number) => this.faults.reset(number),
    });
    this.#machine = machine;
    this.playing.begin(machine);
    this.faults.begin();
  }

  // Queues an event of the engine. Those that settle promises take the pending ones with them ("take pending play
  // promises").
  #told(machine, name, type) {
    if (!this.playing.isHeard(name, type)) {
      this.#tasks.queue({ run: () => machine.fire() });
      return;
    }
    const target = name === 'element' ? this.#element : this.#source[targetOf](name);
    const promises = name === 'element' && SETTLING.includes(type) ? this.#playPromises.splice(0) : [];
    this.#tasks.queue(new EventTask(target, type, { before: () => machine.fire(), promises }));
  }

  // the media element load algorithm, step 7
  #leave() {
    const { paused, position } = this.#machine.attributes;
    // step 7.1
    this.fire('emptied');
    // step 7.3
    this.#source?.[detach]((target, type) => this.fireAt(target, type));
    this.#source = null;
    this.#ended.push(this.#machine);
    // steps 7.5, 7.7, 7.10: a new machine has no metadata, does not seek, and has no duration
    this.#begin();
    // step 7.6
    if (!paused) {
      const aborted = new DOMException('play() was interrupted by another load', 'AbortError');
      this.#playPromises.splice(0).forEach(({ refuse }) => refuse(aborted));
    }
    // step 7.8
    if (position !== 0n) this.fire('timeupdate');
  }

  // resource selection algorithm, steps 7 to 9; Media Source Extensions, 2.4.1
  #attach(source) {
    this.fire('loadstart');
    this.#source = source;
    source[attachTo](this.#machine);
  }

  // `found` is null where there is no media source, undefined where an address has none, or one that cannot be attached
  #selectNone(found) {
    // step 6
    if (found === null) {
      this.#networkState = EMPTY;
      return;
    }
    // steps 7 and 8
    this.#networkState = LOADING;
    this.fire('loadstart');
    // step 9, "Failed with media provider" and "Failed with attribute"
    const promises = this.#playPromises.splice(0);
    const message = found === undefined ? 'src is no address of a media source' : 'the media source has an element';
    const before = () => this.#fail(message);
    this.#tasks.queue(new EventTask(this.#element, 'error', { before, promises }));
  }

  // the dedicated media source failure steps, steps 1 to 3
  #fail(message) {
    this.#failure = new MediaError(token, SRC_NOT_SUPPORTED, message);
    this.#networkState = NO_SOURCE;
  }
}
