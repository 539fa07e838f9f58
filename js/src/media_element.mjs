// HTMLMediaElement (HTML, 4.8.11), and what a test does with one.

import { AppendFaults } from './append_faults.mjs';
import { Clock } from './clock.mjs';
import {
  ElementWithAttributes, reflectBooleans, reflectNumbers, reflectTexts, reflectWord,
} from './content_attributes.mjs';
import { leaveOut } from './errors.mjs';
import { defineHandlers } from './handlers.mjs';
import { needArguments, resourceOf } from './inside.mjs';
import { MediaSource } from './media_source.mjs';
import { sourceAt } from './object_urls.mjs';
import { Playing } from './playing.mjs';
import { EMPTY, Resource } from './resource.mjs';
import { tag } from './tags.mjs';
import { BufferedAttribute, timeRanges } from './time_ranges.mjs';
import { secondsOf, ticksOf, timeText } from './times.mjs';
import { addTextTrack, newLists } from './track_lists.mjs';

// All events of a media element that have an attribute on... (HTML, 8.1.8.2; Encrypted Media Extensions, 7). Those are
// never fired that stand last.
const EVENTS = [
  'loadstart', 'abort', 'emptied', 'durationchange', 'loadedmetadata', 'loadeddata', 'waiting', 'timeupdate', 'canplay',
  'playing', 'canplaythrough', 'seeking', 'seeked', 'play', 'pause', 'ended', 'error', 'ratechange', 'volumechange',
  'progress', 'suspend', 'stalled', 'resize', 'encrypted', 'waitingforkey',
];
const PRELOADS = ['none', 'metadata', 'auto'];
const READY_STATES = ['HAVE_NOTHING', 'HAVE_METADATA', 'HAVE_CURRENT_DATA', 'HAVE_FUTURE_DATA', 'HAVE_ENOUGH_DATA'];
const NETWORK_STATES = ['NETWORK_EMPTY', 'NETWORK_IDLE', 'NETWORK_LOADING', 'NETWORK_NO_SOURCE'];

// a double of Web IDL
function finite(value) {
  const number = Number(value);
  if (!Number.isFinite(number)) throw new TypeError(`${value} is no finite number`);
  return number;
}

// the ticks of so many seconds
function length(seconds, name) {
  if (finite(seconds) < 0) throw new RangeError(`${name}: ${seconds} seconds are no length of time`);
  return ticksOf(finite(seconds));
}

function isSrc(name) {
  return String(name).toLowerCase() === 'src';
}

export class HTMLMediaElement extends ElementWithAttributes {
  #resource;
  // the assigned media provider object, and the source that src was set to, without an address
  #provider = null;
  #src = null;
  #currentSrc = '';
  #buffered = new BufferedAttribute();
  #defaultPlaybackRate = 1;
  #playbackRate = 1;
  #volume = 1;
  #muted = false;
  #preservesPitch = true;
  #tracks = newLists();

  // `quota` is the number of bytes that a source buffer holds, and `whenFull` what becomes of an append that has no
  // room. Gaps of at most `gap` seconds count as buffered. Media that begin at most `startTolerance` seconds behind
  // the position 0 play from there.
  constructor({ clock = new Clock(), quota, whenFull, gap = 0, startTolerance = 0 } = {}) {
    super();
    const playing = new Playing(this, length(startTolerance, 'startTolerance'));
    const settings = { quota, gap: length(gap, 'gap') || undefined };
    this.#resource = new Resource(this, settings, playing, new AppendFaults(quota, whenFull));
    if (clock.rhythm !== undefined) playing.rhythm = clock.rhythm;
    clock.listen((seconds) => {
      playing.pass(seconds, this.#playbackRate);
      return clock.rhythm === undefined ? undefined : this.#resource.busy;
    });
  }

  // HTML, 4.8.11.2: setting it loads, also to null
  get srcObject() {
    return this.#provider;
  }

  set srcObject(source) {
    if (source !== null && !(source instanceof MediaSource)) throw new TypeError('the value is no MediaSource');
    this.#provider = source;
    this.load();
  }

  // The address of a media source, or the source itself where nothing makes addresses. Setting it loads; taking the
  // attribute away does not.
  get src() {
    return this.#src ?? this.getAttribute('src') ?? '';
  }

  set src(source) {
    if (source instanceof MediaSource) {
      this.#src = source;
      this.load();
    } else {
      this.setAttribute('src', source);
    }
  }

  get currentSrc() {
    return this.#currentSrc;
  }

  setAttribute(name, value) {
    super.setAttribute(name, value);
    if (isSrc(name)) {
      this.#src = null;
      this.load();
    }
  }

  removeAttribute(name) {
    super.removeAttribute(name);
    if (isSrc(name)) this.#src = null;
  }

  // HTML, 4.8.11.5
  load() {
    this.#resource.load(() => this.#findSource());
  }

  get networkState() {
    return this.#resource.networkState;
  }

  // HTML, 4.8.11.6: the default playback start position, unless it is 0
  get currentTime() {
    const { startPosition, position } = this.#resource.attributes;
    return secondsOf(startPosition === 0n ? position : startPosition);
  }

  set currentTime(time) {
    const seconds = Number(time);
    this.#resource.seek(timeText(seconds), () => `currentTime = ${seconds}`, [seconds]);
  }

  get buffered() {
    return this.#buffered.of(this.#resource.attributes.buffered);
  }

  get seekable() {
    const { seekable } = this.#resource.attributes;
    return timeRanges(seekable === null ? [] : [seekable]);
  }

  get readyState() {
    return this.#resource.attributes.level;
  }

  get duration() {
    return secondsOf(this.#resource.attributes.duration);
  }

  get paused() {
    return this.#resource.attributes.paused;
  }

  get seeking() {
    return this.#resource.seeking;
  }

  get ended() {
    return this.#resource.attributes.ended && !this.loop;
  }

  get error() {
    return this.#resource.error;
  }

  // The promise is kept with `playing`, and broken with `pause`. A page may leave it alone, which is no error.
  play() {
    if (this.networkState === EMPTY) this.#resource.select(() => this.#findSource());
    const promise = this.#resource.play();
    promise.catch(() => {});
    return promise;
  }

  pause() {
    if (this.networkState === EMPTY) this.#resource.select(() => this.#findSource());
    this.#resource.pause();
  }

  fastSeek(time) {
    needArguments(arguments, 1);
    this.currentTime = time;
  }

  get defaultPlaybackRate() {
    return this.#defaultPlaybackRate;
  }

  set defaultPlaybackRate(rate) {
    const before = this.#defaultPlaybackRate;
    this.#defaultPlaybackRate = finite(rate);
    if (this.#defaultPlaybackRate !== before) this.#resource.fire('ratechange');
  }

  get playbackRate() {
    return this.#playbackRate;
  }

  set playbackRate(rate) {
    const before = this.#playbackRate;
    if (finite(rate) < 0) throw new DOMException(`nothing plays at a rate of ${rate}`, 'NotSupportedError');
    this.#playbackRate = finite(rate);
    if (this.#playbackRate !== before) this.#resource.fire('ratechange');
  }

  get preservesPitch() {
    return this.#preservesPitch;
  }

  set preservesPitch(preserves) {
    this.#preservesPitch = Boolean(preserves);
  }

  get volume() {
    return this.#volume;
  }

  set volume(volume) {
    const before = this.#volume;
    const after = finite(volume);
    if (after < 0 || after > 1) throw new DOMException(`a volume of ${volume} is not from 0 to 1`, 'IndexSizeError');
    this.#volume = after;
    if (after !== before) this.#resource.fire('volumechange');
  }

  get muted() {
    return this.#muted;
  }

  set muted(muted) {
    const before = this.#muted;
    this.#muted = Boolean(muted);
    if (this.#muted !== before) this.#resource.fire('volumechange');
  }

  get played() {
    return timeRanges(this.#resource.playing.played);
  }

  get audioTracks() {
    return this.#tracks[0];
  }

  get videoTracks() {
    return this.#tracks[1];
  }

  get textTracks() {
    return this.#tracks[2];
  }

  addTextTrack(kind, label, language) {
    needArguments(arguments, 1);
    const track = addTextTrack(this.textTracks, kind, label, language);
    this.#resource.fireAt(this.textTracks, 'addtrack');
    return track;
  }

  canPlayType(type) {
    needArguments(arguments, 1);
    if (!MediaSource.isTypeSupported(type)) return '';
    return /;\s*codecs\s*=/i.test(type) ? 'probably' : 'maybe';
  }

  get mediaKeys() {
    return null;
  }

  setMediaKeys() {
    return Promise.reject(new DOMException('encrypted media are left out', 'NotSupportedError'));
  }

  get [resourceOf]() {
    return this.#resource;
  }

  // The media source that is to be attached, null where there is none, and undefined where an address has none.
  #findSource() {
    const address = this.getAttribute('src');
    const source = this.#provider ?? this.#src;
    if (source !== null || address === null) {
      this.#currentSrc = source === null ? this.#currentSrc : '';
      return source;
    }
    this.#currentSrc = address || this.#currentSrc;
    return sourceAt(address);
  }
}

defineHandlers(HTMLMediaElement, EVENTS);
reflectBooleans(HTMLMediaElement, { autoplay: 'autoplay', controls: 'controls', defaultMuted: 'muted', loop: 'loop' });
reflectWord(HTMLMediaElement, 'preload', (text) => {
  if (text === '') return 'auto';
  return PRELOADS.includes(text?.toLowerCase()) ? text.toLowerCase() : 'metadata';
});
reflectWord(HTMLMediaElement, 'crossOrigin', (text) => {
  if (text === null) return null;
  return text.toLowerCase() === 'use-credentials' ? 'use-credentials' : 'anonymous';
});
leaveOut(HTMLMediaElement.prototype, 'HTMLMediaElement', 'media have no date of their own here', ['getStartDate']);
for (const names of [READY_STATES, NETWORK_STATES]) {
  names.forEach((name, value) => {
    Object.defineProperty(HTMLMediaElement, name, { value });
    Object.defineProperty(HTMLMediaElement.prototype, name, { value });
  });
}

export class HTMLVideoElement extends HTMLMediaElement {
  // Media Playback Quality, 3: nothing is decoded
  getVideoPlaybackQuality() {
    return {
      creationTime: performance.now(), corruptedVideoFrames: 0, droppedVideoFrames: 0, totalVideoFrames: 0,
    };
  }
}

reflectBooleans(HTMLVideoElement, { playsInline: 'playsinline' });
reflectNumbers(HTMLVideoElement, ['width', 'height']);
reflectTexts(HTMLVideoElement, ['poster']);
leaveOut(HTMLVideoElement.prototype, 'HTMLVideoElement', 'nothing is decoded', ['videoWidth', 'videoHeight']);

export class HTMLAudioElement extends HTMLMediaElement {}

tag(HTMLMediaElement, HTMLVideoElement, HTMLAudioElement);

// Attaches a media source to an element, as `element.srcObject = source` does.
export function attach(element, source) {
  element.srcObject = source;
}

// A promise that is kept when all events of an element, its source and their buffers were dispatched.
export function settled(element) {
  return element[resourceOf].settled();
}
