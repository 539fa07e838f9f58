// A clock that a test moves. Nothing else lets time pass.

import { later } from './tasks.mjs';

const NEARLY = 1e-9;
const MILLISECOND = 0.001;
// browsers fire some four `timeupdate` a second
const RHYTHM = 0.25;

export class Clock {
  #now = 0;
  #listeners = new Set();
  #timers;

  // `timers` are the mocked timers of a test, as `mock.timers` of node's test runner: both pass together then, and
  // `advance` gives a promise.
  constructor({ timers = null } = {}) {
    this.#timers = timers;
  }

  // Seconds since the clock was made.
  now() {
    return this.#now;
  }

  // The seconds between two `timeupdate` of an element that plays; undefined where each advance has one.
  get rhythm() {
    return this.#timers === null ? undefined : RHYTHM;
  }

  // Lets so many seconds pass: an element that plays moves by them. Without timers this is done at once. With timers it
  // goes by milliseconds: the elements move, their events are dispatched, and the timers are called that are due.
  advance(seconds) {
    if (!(seconds >= 0 && seconds < Infinity)) throw new RangeError(`${seconds} seconds cannot pass`);
    if (this.#timers !== null) return this.#passWithTimers(seconds);
    this.#pass(seconds);
    return undefined;
  }

  // Calls a listener with the seconds of each advance. With timers it is waited for the promises that listeners give.
  listen(listener) {
    this.#listeners.add(listener);
  }

  #pass(seconds) {
    this.#now += seconds;
    return Array.from(this.#listeners, (listener) => listener(seconds));
  }

  async #passWithTimers(seconds) {
    const end = this.#now + seconds;
    while (end - this.#now > NEARLY) {
      const whole = Math.floor(this.#now / MILLISECOND + NEARLY / MILLISECOND) + 1;
      const isWhole = whole * MILLISECOND - end < NEARLY;
      await Promise.all(this.#pass((isWhole ? whole * MILLISECOND : end) - this.#now));
      if (isWhole) this.#timers.tick(1);
      // what timers have begun comes before the next millisecond
      await new Promise((keep) => { later(keep); });
      await Promise.all(this.#pass(0));
    }
  }
}
