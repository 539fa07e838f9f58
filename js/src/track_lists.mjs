// Lists of tracks (HTML, 4.8.11.10 and 4.8.11.11). The engine tells of no tracks: lists of audio and video tracks are
// empty, and a list of text tracks has those that a page adds.

import { defineHandlers } from './handlers.mjs';
import { onlyInside, token } from './inside.mjs';
import { tag } from './tags.mjs';

const items = Symbol('items');
const KINDS = ['subtitles', 'captions', 'descriptions', 'chapters', 'metadata'];
const MODES = ['disabled', 'hidden', 'showing'];

class TrackList extends EventTarget {
  [items] = [];

  constructor(given) {
    super();
    onlyInside(given, new.target.name);
  }

  get length() {
    return this[items].length;
  }

  getTrackById(id) {
    return this[items].find((track) => track.id === String(id)) ?? null;
  }

  [Symbol.iterator]() {
    return this[items][Symbol.iterator]();
  }
}

export class AudioTrackList extends TrackList {}

export class VideoTrackList extends TrackList {
  get selectedIndex() {
    return -1;
  }
}

export class TextTrackList extends TrackList {}

for (const ofClass of [AudioTrackList, VideoTrackList, TextTrackList]) {
  defineHandlers(ofClass, ['change', 'addtrack', 'removetrack']);
  tag(ofClass);
}

// A text track that a page added. No time passes for its cues.
export class TextTrack extends EventTarget {
  #kind;
  #label;
  #language;
  #mode = 'hidden';
  #cues = [];

  constructor(given, kind, label, language) {
    super();
    onlyInside(given, 'TextTrack');
    [this.#kind, this.#label, this.#language] = [kind, label, language];
  }

  get kind() {
    return this.#kind;
  }

  get label() {
    return this.#label;
  }

  get language() {
    return this.#language;
  }

  get id() {
    return '';
  }

  get inBandMetadataTrackDispatchType() {
    return '';
  }

  get mode() {
    return this.#mode;
  }

  set mode(mode) {
    if (MODES.includes(String(mode))) this.#mode = String(mode);
  }

  get cues() {
    return this.#mode === 'disabled' ? null : this.#cues;
  }

  get activeCues() {
    return this.#mode === 'disabled' ? null : [];
  }

  addCue(cue) {
    if (!this.#cues.includes(cue)) this.#cues.push(cue);
  }

  removeCue(cue) {
    if (!this.#cues.includes(cue)) throw new DOMException('the cue is not in the list', 'NotFoundError');
    this.#cues.splice(this.#cues.indexOf(cue), 1);
  }
}

defineHandlers(TextTrack, ['cuechange']);
tag(TextTrack);

export function newLists() {
  return [new AudioTrackList(token), new VideoTrackList(token), new TextTrackList(token)];
}

// addTextTrack(), steps 1 to 4: the new track, which is in the list.
export function addTextTrack(list, kind, label = '', language = '') {
  if (!KINDS.includes(String(kind))) throw new TypeError(`there is no kind "${kind}" of text tracks`);
  const track = new TextTrack(token, String(kind), String(label), String(language));
  list[items].push(track);
  const index = list.length - 1;
  Object.defineProperty(list, index, { value: track, configurable: true, enumerable: true });
  return track;
}
