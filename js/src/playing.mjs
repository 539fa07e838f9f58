// What a media element does by itself while it plays (HTML, 4.8.11.7 and 4.8.11.8): it goes on with the clock, plays
// with `autoplay`, begins again with `loop`, begins where the media begin, and meets an error of its decoder that a
// test asked for. What the engine is told for it may have events that the page does not hear.

import { resourceOf } from './inside.mjs';
import { Played } from './played.mjs';
import { Playhead } from './playhead.mjs';
import { secondsOf, ticksOf, timeText } from './times.mjs';

const [HAVE_METADATA, HAVE_CURRENT_DATA, HAVE_FUTURE_DATA] = [1, 2, 3];

export class Playing {
  #element;
  #machine;
  #startTolerance;
  #playhead = new Playhead({
    advance: (seconds, isTold) => this.#advance(seconds, isTold),
    tell: () => this.#element[resourceOf].fire('timeupdate'),
    reach: () => this.#secondsAhead,
  });
  #played = new Played();
  // events of the next call or turn that the page does not hear
  #unheard = [];
  // whether the engine seeks to where the media begin
  #isStarting = false;
  #decodeErrorAt = null;
  #hasDecodeError = false;
  // HTML, 4.8.11.1, "can autoplay flag"
  #canAutoplay = true;
  #hasAllCome = false;

  // `startTolerance` are the ticks within which media begin where they are played from without a seek of the page.
  constructor(element, startTolerance) {
    this.#element = element;
    this.#startTolerance = startTolerance;
  }

  // Goes on with the machine of another life.
  begin(machine) {
    this.#machine = machine;
    this.#played = new Played();
    this.#isStarting = false;
    this.#hasDecodeError = false;
  }

  // Whether the engine seeks and the page does not know of it.
  get isStarting() {
    return this.#isStarting;
  }

  // The ranges that were played.
  get played() {
    this.#playhead.settle();
    return this.#played.ranges;
  }

  // Whether the error of the element is the one that a test asked for.
  get hasDecodeError() {
    return this.#hasDecodeError;
  }

  set decodeErrorAt(seconds) {
    this.#decodeErrorAt = seconds === null ? null : ticksOf(seconds);
    this.stepped();
  }

  get rhythm() {
    return this.#playhead.rhythm;
  }

  set rhythm(seconds) {
    this.#playhead.rhythm = seconds;
  }

  // The page has called play() or pause().
  steered() {
    this.#canAutoplay = false;
  }

  // The element loads.
  loads() {
    this.#canAutoplay = true;
  }

  // The page has sought.
  sought() {
    this.#isStarting = false;
  }

  // Lets so many seconds of the clock pass, at a rate.
  pass(seconds, rate) {
    if (!this.#machine.last.paused && rate > 0) this.#playhead.pass(seconds, rate);
  }

  // Before the page reads or calls: the engine has to know what time it is.
  look() {
    this.#playhead.settle();
  }

  // Whether the page hears an event that the engine told.
  isHeard(name, type) {
    if (name === 'element' && type === 'canplaythrough') this.#hasAllCome = true;
    const place = this.#unheard.indexOf(`${name} ${type}`);
    if (place >= 0) this.#unheard.splice(place, 1);
    return place < 0;
  }

  // Behind each step of the engine.
  stepped() {
    if (this.#unheard.length > 0) this.#unheard = [];
    this.#start();
    this.#fail();
    this.#playByItself();
  }

  // Before a turn of the element; tells whether something was done in its place.
  turn() {
    if (this.#isStarting) {
      this.#isStarting = false;
      this.#unheard = ['element timeupdate', 'element seeked'];
      return false;
    }
    return this.#beginAgain();
  }

  // Where the media begin a little behind the position 0, they are played from there.
  #start() {
    if (this.#startTolerance === 0n) return;
    const { level, position, buffered, seekable, seeking } = this.#machine.last;
    if (level !== HAVE_METADATA || position !== 0n || buffered.length === 0) return;
    const { start } = buffered[0];
    if (start <= 0n || start > this.#startTolerance || seekable === null || seekable.end < start) return;
    this.#isStarting = !seeking;
    this.#silently(['element seeking'], `seek ${start}`);
  }

  // An error of the decoder, as endOfStream("decode") makes it, where the position is reached and no buffer is
  // updating.
  #fail() {
    if (this.#decodeErrorAt === null) return;
    const { level, position, error, readyState } = this.#machine.last;
    if (level < HAVE_CURRENT_DATA || position < this.#decodeErrorAt || error > 0) return;
    const { buffers } = this.#machine;
    if (buffers.some((buffer) => buffer?.updating)) return;
    this.#decodeErrorAt = null;
    this.#hasDecodeError = true;
    // a source that has ended takes an error only when it is open again, which the offset does
    if (readyState === 'ended') {
      const listed = buffers.findIndex((buffer) => buffer !== null);
      this.#silently(['source sourceopen'], `offset ${listed} ${timeText(secondsOf(buffers[listed].timestampOffset))}`);
      this.#silently(['source sourceended'], 'endofstream decode');
    } else {
      this.#machine.call('endofstream decode', () => 'control');
    }
  }

  // "eligible for autoplay", where all data have come
  #playByItself() {
    const hasCome = this.#hasAllCome;
    this.#hasAllCome = false;
    if (!hasCome || !this.#canAutoplay || !this.#element.autoplay || !this.#machine.last.paused) return;
    this.#machine.call('play', () => 'autoplay');
  }

  // "reaches the end of the media resource", step 1: with `loop`, seek to the earliest position
  #beginAgain() {
    const { ended, seeking } = this.#machine.last;
    if (!this.#element.loop || !ended || seeking) return false;
    this.#machine.call('seek 0', () => 'loop');
    return true;
  }

  #silently(events, line) {
    this.look();
    this.#unheard = events;
    this.#machine.call(line, () => line);
  }

  // Lets the media go on by so many seconds, as far as they go.
  #advance(seconds, isTold) {
    const { position } = this.#machine.last;
    const ticks = this.#ticksUntilError(position, seconds) ?? timeText(seconds);
    if (isTold) this.#machine.call(`advance ${ticks}`, () => 'advance');
    else this.#silently(['element timeupdate'], `advance ${ticks}`);
    const end = this.#machine.last.position;
    if (end > position) this.#played.add(position, end);
  }

  #ticksUntilError(position, seconds) {
    if (this.#decodeErrorAt === null || this.#decodeErrorAt <= position) return null;
    const left = this.#decodeErrorAt - position;
    return ticksOf(seconds) > left ? left : null;
  }

  // The seconds of the media until the end of what is buffered here; Infinity where nothing plays.
  get #secondsAhead() {
    const { level, position, buffered, seeking } = this.#machine.last;
    if (level < HAVE_FUTURE_DATA || seeking) return Infinity;
    const here = buffered.find(({ start, end }) => start <= position && position <= end);
    const end = here === undefined ? position : here.end;
    const until = this.#decodeErrorAt !== null && this.#decodeErrorAt > position && this.#decodeErrorAt < end
      ? this.#decodeErrorAt : end;
    return secondsOf(until - position);
  }
}
