// The script of a session: its keys, the bytes that were appended, and its steps so far.

import { AppendedBytes } from './bytes.mjs';

const MOST_STEPS = 100_000;

function list(texts) {
  return texts.map((text) => `  ${JSON.stringify(text)},\n`).join('');
}

export class Recording {
  #settings;
  #bytes = new AppendedBytes();
  #steps = [];
  // the steps since the last call: what a drain does so far
  #since = [];

  // `settings` are the keys of a script "quota" and "gap", where they have a value.
  constructor(settings) {
    this.#settings = Object.entries(settings).filter(([, value]) => value !== undefined);
  }

  // Whether a call was made.
  get isUsed() {
    return this.#steps.length > 0;
  }

  // Notes a call. `isDrained` says whether nothing was left to do before it.
  call(line, isDrained) {
    this.#steps.push(...this.#stepsSince(isDrained), line);
    this.#since = [];
  }

  // Notes a step that a drain does: "fire", "work K" or "element".
  step(line) {
    this.#since.push(line);
  }

  // The words of a line that name these bytes.
  part(bytes) {
    return this.#bytes.part(bytes);
  }

  // The files of the script: its text, which begins with a note, and the bytes that it names. Names of the latter begin
  // with `prefix`.
  files(name, prefix, note, isDrained) {
    const steps = [...this.#steps, ...this.#stepsSince(isDrained)];
    if (steps.length > MOST_STEPS) {
      throw new RangeError(`a script has at most ${MOST_STEPS} steps, and this one would have ${steps.length}`);
    }
    const blobs = this.#bytes.blobs.map((bytes, i) => [`${prefix}${i}.bin`, bytes]);
    return { [name]: new TextEncoder().encode(note + this.#text(blobs, steps)), ...Object.fromEntries(blobs) };
  }

  #stepsSince(isDrained) {
    return isDrained && this.#since.length > 0 ? ['drain'] : this.#since;
  }

  #text(blobs, steps) {
    const keys = this.#settings.map(([key, value]) => `${key} = ${value}\n`);
    return `${keys.join('')}blobs = [\n${list(blobs.map(([file]) => `file ${file}`))}]\nsteps = [\n${list(steps)}]\n`;
  }
}
