// Puts the classes where a player's code names them: on globalThis, or on a window that is handed in.

import {
  HTMLAudioElement, HTMLMediaElement, HTMLVideoElement, MediaError, MediaSource, SourceBuffer, SourceBufferList,
  TimeRanges,
} from './index.mjs';
import { addressOf, revoke } from './object_urls.mjs';
import { page } from './page.mjs';

const CLASSES = {
  HTMLAudioElement, HTMLMediaElement, HTMLVideoElement, MediaError, MediaSource, SourceBuffer, SourceBufferList,
  TimeRanges,
};
const ELEMENTS = { audio: HTMLAudioElement, video: HTMLVideoElement };

// What was put, so that it can be taken away again.
class Places {
  #undo = [];

  // Puts a value at a place, whether or not something is there.
  put(owner, name, value) {
    const before = Object.getOwnPropertyDescriptor(owner, name);
    Object.defineProperty(owner, name, { value, configurable: true, enumerable: false, writable: true });
    this.#undo.push(() => {
      // somebody else has put something there since
      if (Object.getOwnPropertyDescriptor(owner, name)?.value !== value) return;
      if (before === undefined) delete owner[name];
      else Object.defineProperty(owner, name, before);
    });
  }

  takeAway() {
    this.#undo.splice(0).reverse().forEach((undo) => undo());
  }
}

// Addresses of media sources of these classes; all others go to what was there.
function putAddresses(places, URL) {
  const { createObjectURL, revokeObjectURL } = URL;
  places.put(URL, 'createObjectURL', (object) => {
    if (object instanceof MediaSource) return addressOf(object);
    if (createObjectURL === undefined) throw new TypeError('the object is no MediaSource');
    return createObjectURL.call(URL, object);
  });
  places.put(URL, 'revokeObjectURL', (url) => {
    if (!revoke(String(url))) revokeObjectURL?.call(URL, url);
  });
}

function elementMaker(options, others) {
  return (name, ...rest) => {
    const ofName = String(name).toLowerCase();
    if (Object.hasOwn(ELEMENTS, ofName)) return new ELEMENTS[ofName](options);
    return others(name, ...rest);
  };
}

function putElements(places, target, { replace, ...options }) {
  if (target.document === undefined) {
    const createElement = elementMaker(options, (name) => {
      throw new DOMException(`there is no document, and <${name}> is no media element`, 'NotSupportedError');
    });
    places.put(page, 'createElement', createElement);
    places.put(target, 'document', page);
  } else if (replace || target.document.createElement === undefined) {
    const others = target.document.createElement?.bind(target.document);
    places.put(target.document, 'createElement', elementMaker(options, others));
  }
}

// Puts MediaSource and the rest on `window`, as far as they are not there, or with `replace` in any case; `clock`,
// `quota` and `gap` are those of the elements that `document.createElement` makes. Gives a function that takes all
// away.
export function register({ window: target = globalThis, replace = false, ...options } = {}) {
  const places = new Places();
  for (const [name, ofName] of Object.entries(CLASSES)) {
    if (replace || target[name] === undefined) places.put(target, name, ofName);
  }
  if (target.self === undefined) places.put(target, 'self', target);
  if (target.URL === undefined) places.put(target, 'URL', class URL {});
  putAddresses(places, target.URL);
  putElements(places, target, { replace, ...options });
  return () => places.takeAway();
}
