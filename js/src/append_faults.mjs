// Appends that are refused on purpose.

import { numberOf } from './inside.mjs';
import { Payload } from './payload.mjs';

// that of a script that names none
const QUOTA = 134_217_728;

export class AppendFaults {
  #quota;
  #left = new Map();
  #payloads = new Map();

  constructor(quota = QUOTA, whenFull = 'evict') {
    this.#quota = quota;
    this.whenFull = whenFull;
  }

  // Source buffers of another life have other numbers.
  begin() {
    this.#left.clear();
    this.#payloads.clear();
  }

  refuse(buffer, count) {
    if (!Number.isInteger(count) || count < 0) throw new RangeError(`${count} appends cannot be refused`);
    this.#left.set(buffer[numberOf], count);
  }

  // Refuses an append to the buffer of a number, where the engine would not refuse it as it is. `attributes` gives what
  // the engine tells of the buffer.
  append(number, bytes, attributes) {
    const left = this.#left.get(number) ?? 0;
    if (left === 0 && this.whenFull !== 'refuse') return;
    const buffer = attributes();
    if (buffer === null || buffer.updating) return;
    if (left > 0) {
      this.#left.set(number, left - 1);
      throw new DOMException('appendBuffer: the test asked for it', 'QuotaExceededError');
    }
    if (this.whenFull === 'refuse') this.#refuseAbove(number, buffer.used, bytes);
  }

  // The bytes were appended. Boxes are followed while it matters.
  appended(number, bytes) {
    if (this.whenFull === 'refuse') this.#payload(number).take(bytes);
  }

  // The string of a buffer was reset.
  reset(number) {
    this.#payloads.delete(number);
  }

  #payload(number) {
    if (!this.#payloads.has(number)) this.#payloads.set(number, new Payload());
    return this.#payloads.get(number);
  }

  #refuseAbove(number, used, bytes) {
    const more = this.#payload(number).of(bytes);
    // the engine evicts wherever a buffer is full, also for an append without payload
    if (used < this.#quota && used + more <= this.#quota) return;
    const words = `${used} bytes and ${more} more are too many for its quota of ${this.#quota}`;
    throw new DOMException(`appendBuffer: the source buffer is full: ${words}`, 'QuotaExceededError');
  }
}
