// Live sessions: the functions of crates/mseplay_c/src/sessions.rt.

import { asBytes, asCount, asNumber } from './arguments.mjs';
import { ArgumentError, BytesError, ClosedError, kindOf, LineError, OutOfMemoryError } from './errors.mjs';
import * as records from './records.mjs';

const NO_STEP = 2;
const MEMORY = 5;
const NO_BYTES = 8;

/** The names by which a call is refused, in the order of their numbers, from 1 on. */
const REFUSALS = [
  'InvalidStateError', 'NotSupportedError', 'QuotaExceededError', 'TypeError', 'NotFoundError',
  'NoSuchBuffer', 'NoSuchBytes',
];

/** The most that a quota and a gap may be. */
const MOST = 1n << 40n;
const QUOTA = 134_217_728;

const HANDLE_SIZE = 8;

/** The lines of a text, each of which ends with a line feed. */
function linesOf(text) {
  const lines = text.split('\n');
  lines.pop();
  return lines;
}

function close({ instance, handle }) {
  if (instance.isStopped) return;
  instance.call('mseplay_close', handle);
  instance.free(handle);
}

/** The class `Session` over the instance that a function gives. */
export function sessionsOver(currentInstance) {
  const garbage = new FinalizationRegistry(close);

  return class Session {
    #instance;
    #handle;
    #isOpen = true;
    #given = 0;

    constructor({ quota = QUOTA, gap = 0 } = {}) {
      const instance = currentInstance();
      const [most, joined] = [asCount(quota, 'quota', 1n, MOST), asCount(gap, 'gap', 0n, MOST)];
      const handle = instance.take(HANDLE_SIZE);
      instance.numbers.setBigUint64(handle, 0n, true);
      if (instance.call('mseplay_open', most, joined, handle) !== 0) {
        instance.free(handle);
        throw new OutOfMemoryError();
      }
      this.#instance = instance;
      this.#handle = handle;
      garbage.register(this, { instance, handle }, this);
    }

    #open() {
      if (!this.#isOpen) throw new ClosedError();
      return this.#instance;
    }

    /** Hands over bytes, which are copied. Returns the number of the blob that they are. */
    give(bytes) {
      const instance = this.#open();
      const given = asBytes(bytes, 'give');
      const address = instance.put(given);
      const status = instance.call('mseplay_give', this.#handle, address, BigInt(given.length));
      instance.free(address);
      if (status !== 0) throw new OutOfMemoryError();
      return this.#given++;
    }

    /** Forgets the blobs with numbers below `before`: no line may name them from then on. */
    forget(before) {
      const instance = this.#open();
      const count = asCount(before, 'before', 0n, BigInt(Number.MAX_SAFE_INTEGER));
      if (instance.call('mseplay_forget', this.#handle, count) !== 0) throw new OutOfMemoryError();
    }

    /** Does the step of a line: the lines that it prints, and the name by which its call was refused, or null. */
    step(line) {
      const instance = this.#open();
      if (typeof line !== 'string') throw new ArgumentError(`step: a line is a string, not ${kindOf(line)}`);
      const length = instance.putLine(line);
      const { address, size } = instance.text;
      const count = instance.record.address;
      const status = instance.call(
        'mseplay_step', this.#handle, instance.line.address, BigInt(length), address, BigInt(size), count, count + 8);
      if (status === NO_STEP) throw new LineError(line);
      if (status === NO_BYTES) throw new BytesError(line);
      if (status === MEMORY) throw new OutOfMemoryError();
      const refused = instance.numbers.getUint8(count + 8);
      return { lines: this.#printed(), refused: refused === 0 ? null : REFUSALS[refused - 1] };
    }

    /** What the last step or block printed. */
    #printed() {
      const instance = this.#instance;
      const length = Number(instance.numbers.getBigUint64(instance.record.address, true));
      if (length === 0) return [];
      if (length > instance.text.size) {
        instance.text.fit(length);
        instance.call('mseplay_printed', this.#handle, instance.text.address, BigInt(instance.text.size));
      }
      return linesOf(instance.textAt(instance.text.address, length));
    }

    /** The line of the step that a drain does next: `fire`, `work K` or `element`; null where nothing is left to do. */
    next() {
      const instance = this.#open();
      const buffer = instance.record.address;
      switch (instance.call('mseplay_next', this.#handle, buffer)) {
        case 0: return null;
        case 1: return 'fire';
        case 2: return `work ${instance.numbers.getUint32(buffer, true)}`;
        case 3: return 'element';
        default: throw new OutOfMemoryError();
      }
    }

    /** What a page reads of the source and of the element. */
    attributes() {
      const instance = this.#open();
      const { record, ranges } = instance;
      const look = () => {
        const room = BigInt(Math.floor(ranges.size / records.RANGE_SIZE));
        const status = instance.call('mseplay_look', this.#handle, record.address, ranges.address, room);
        if (status !== 0) throw new OutOfMemoryError();
        return records.lookRangeCount(instance.numbers, record.address) * records.RANGE_SIZE;
      };
      const size = look();
      if (size > ranges.size) {
        ranges.fit(size);
        look();
      }
      return records.lookAt(instance.numbers, record.address, ranges.address);
    }

    /** What a page reads of the source buffer of a number, and what it holds; null where it is not in the list. */
    buffer(number) {
      const instance = this.#open();
      const k = asNumber(number, 'number', 0xffff_ffff);
      const { record, ranges } = instance;
      let size = this.#lookAt(k);
      if (size === null) return null;
      while (size.record > record.size || size.ranges > ranges.size) {
        record.fit(size.record);
        ranges.fit(size.ranges);
        size = this.#lookAt(k);
      }
      const tracks = record.address + records.BUFFER_LOOK_SIZE;
      return records.bufferLookAt(instance.numbers, record.address, tracks, ranges.address);
    }

    /** Looks at a buffer, as far as there is room; how many bytes its records and its ranges have. */
    #lookAt(k) {
      const instance = this.#instance;
      const { record, ranges } = instance;
      const tracks = record.address + records.BUFFER_LOOK_SIZE;
      const trackRoom = Math.floor((record.size - records.BUFFER_LOOK_SIZE) / records.TRACK_LOOK_SIZE);
      const rangeRoom = Math.floor(ranges.size / records.RANGE_SIZE);
      const status = instance.call('mseplay_look_at', this.#handle, k, record.address,
        tracks, BigInt(trackRoom), ranges.address, BigInt(rangeRoom));
      if (status === NO_STEP) return null;
      if (status !== 0) throw new OutOfMemoryError();
      return records.bufferSizes(instance.numbers, record.address, tracks, trackRoom);
    }

    /** The lines that would close a script of the steps so far. The session goes on. */
    block() {
      const instance = this.#open();
      const { address, size } = instance.text;
      const status = instance.call('mseplay_block', this.#handle, address, BigInt(size), instance.record.address);
      if (status !== 0) throw new OutOfMemoryError();
      return this.#printed();
    }

    /** Gives back the session's memory. Later calls but this throw. */
    close() {
      if (!this.#isOpen) return;
      this.#isOpen = false;
      garbage.unregister(this);
      close({ instance: this.#instance, handle: this.#handle });
    }
  };
}
