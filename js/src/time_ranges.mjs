// TimeRanges (HTML, 4.8.11.14).

import { needArguments, onlyInside, token } from './inside.mjs';
import { tag } from './tags.mjs';
import { secondsOf } from './times.mjs';

export class TimeRanges {
  #ranges;

  constructor(given, ranges) {
    onlyInside(given, 'TimeRanges');
    this.#ranges = ranges;
  }

  get length() {
    return this.#ranges.length;
  }

  start(index) {
    needArguments(arguments, 1);
    return this.#range(index).start;
  }

  end(index) {
    needArguments(arguments, 1);
    return this.#range(index).end;
  }

  #range(index) {
    // an index is an unsigned long (Web IDL)
    const place = index >>> 0;
    if (place >= this.#ranges.length) {
      throw new DOMException(`there is no range ${place} of ${this.#ranges.length}`, 'IndexSizeError');
    }
    return this.#ranges[place];
  }
}

tag(TimeRanges);

// The ranges of the engine as an object of a page.
export function timeRanges(ranges) {
  return new TimeRanges(token, ranges.map(({ start, end }) => ({ start: secondsOf(start), end: secondsOf(end) })));
}

function areSame(ranges, others) {
  if (ranges.length !== others.length) return false;
  return ranges.every(({ start, end }, i) => start === others[i].start && end === others[i].end);
}

// An attribute `buffered`: the same object until the ranges change (Media Source Extensions, 3.1, "buffered", step 5).
export class BufferedAttribute {
  #ranges = [];
  #object = timeRanges([]);

  // The object for these ranges of the engine.
  of(ranges) {
    if (!areSame(ranges, this.#ranges)) {
      this.#ranges = ranges;
      this.#object = timeRanges(ranges);
    }
    return this.#object;
  }
}
