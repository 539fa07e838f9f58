// SourceBufferList (Media Source Extensions, 5).

import { defineHandlers } from './handlers.mjs';
import { onlyInside, refresh } from './inside.mjs';
import { tag } from './tags.mjs';

export class SourceBufferList extends EventTarget {
  #items;
  #shown = 0;

  // `items` gives the source buffers that are in the list now
  constructor(given, items) {
    super();
    onlyInside(given, 'SourceBufferList');
    this.#items = items;
  }

  get length() {
    return this.#items().length;
  }

  [Symbol.iterator]() {
    return this.#items()[Symbol.iterator]();
  }

  // Makes these items the indexed properties (Web IDL, 3.9, "legacy platform objects"): there are as many as items, and
  // none can be set.
  [refresh](items) {
    for (let index = items.length; index < this.#shown; index += 1) delete this[index];
    items.forEach((value, index) => {
      Object.defineProperty(this, index, { value, writable: false, enumerable: true, configurable: true });
    });
    this.#shown = items.length;
  }
}

defineHandlers(SourceBufferList, ['addsourcebuffer', 'removesourcebuffer']);
tag(SourceBufferList);
