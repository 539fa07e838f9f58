// What a test steers of a media element: faults on purpose, and what stands around the element.

import { resourceOf } from './inside.mjs';
import { page } from './page.mjs';

const WHEN_FULL = ['evict', 'refuse'];
// hidden pages are told of the time once a second
const HIDDEN_RHYTHM = 1;

function seconds(value) {
  if (!(Number(value) >= 0)) throw new RangeError(`${value} are no seconds`);
  return Number(value);
}

class Control {
  #resource;
  #rhythm;

  constructor(resource) {
    this.#resource = resource;
    this.#rhythm = resource.playing.rhythm;
  }

  // The next appends to a source buffer, so many, are refused with QuotaExceededError.
  refuseAppends(buffer, count = 1) {
    this.#resource.faults.refuse(buffer, count);
  }

  // What becomes of an append that would take a buffer above its quota: "evict" leaves it to the engine, "refuse"
  // refuses it with QuotaExceededError before the engine sees it.
  whenFull(what) {
    if (!WHEN_FULL.includes(what)) throw new TypeError(`whenFull is "evict" or "refuse", not ${what}`);
    this.#resource.faults.whenFull = what;
  }

  // Where the position reaches a time, an error of the decoder comes, as from endOfStream("decode"); null takes it
  // back.
  decodeErrorAt(time) {
    this.#resource.playing.decodeErrorAt = time === null ? null : seconds(time);
  }

  // While the element plays, `timeupdate` comes each so many seconds of the clock; with Infinity, at each advance of
  // it.
  timeupdateEvery(time) {
    this.#rhythm = seconds(time);
    this.#resource.playing.rhythm = this.#rhythm;
  }

  // Whether the page is hidden: then `timeupdate` comes once a second.
  get hidden() {
    return page.hidden;
  }

  set hidden(isHidden) {
    page.hidden = Boolean(isHidden);
    this.#resource.playing.rhythm = isHidden ? HIDDEN_RHYTHM : this.#rhythm;
  }
}

const controls = new WeakMap();

// The test controls of an element.
export function control(element) {
  if (!controls.has(element)) controls.set(element, new Control(element[resourceOf]));
  return controls.get(element);
}

// Pieces of some bytes, cut as a network might: the same for the same seed.
export function cuts(bytes, seed = 1) {
  const pieces = [];
  // Park and Miller's generator
  let number = 1 + (Math.abs(Math.trunc(seed)) % 2147483646);
  const chance = () => {
    number = (number * 48271) % 2147483647;
    return number / 2147483647;
  };
  for (let at = 0; at < bytes.length;) {
    // short pieces come as often as long ones
    const length = Math.ceil(bytes.length ** chance());
    pieces.push(bytes.subarray(at, at + length));
    at += length;
  }
  return pieces;
}
