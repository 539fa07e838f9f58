// One instance of the engine's module, and its memory.

import { EngineStoppedError, OutOfMemoryError } from './errors.mjs';

/** The longest block of memory, as in build/lib.c. */
const LONGEST = 0x7fff_ffff;

const encoder = new TextEncoder();
const decoder = new TextDecoder();

/** A part of the memory that is kept for what is handed in or comes out; a larger one replaces it when needed. */
class Room {
  #instance;
  address;
  size;

  constructor(instance, size) {
    this.#instance = instance;
    this.address = instance.take(size);
    this.size = size;
  }

  /** Makes it at least so long. What it held is gone where it has to grow. */
  fit(size) {
    if (size <= this.size) return;
    const larger = Math.max(size, 2 * this.size);
    const address = this.#instance.take(larger);
    this.#instance.free(this.address);
    this.address = address;
    this.size = larger;
  }
}

export class Instance {
  #exports;
  #bytes = new Uint8Array(0);
  #numbers = new DataView(this.#bytes.buffer);
  #stopped = null;

  constructor(module) {
    this.#exports = new WebAssembly.Instance(module, {}).exports;
    /** Where the lines that are handed in stand. */
    this.line = new Room(this, 1 << 10);
    /** Where what is printed comes. */
    this.text = new Room(this, 1 << 14);
    /** Where ranges come. */
    this.ranges = new Room(this, 1 << 10);
    /** Where numbers and records come. */
    this.record = new Room(this, 1 << 10);
  }

  /** The bytes of the memory. They are to be asked for anew behind each call, since the memory may have grown. */
  get bytes() {
    if (this.#bytes.length === 0) this.#look();
    return this.#bytes;
  }

  /** The same as numbers. */
  get numbers() {
    if (this.#bytes.length === 0) this.#look();
    return this.#numbers;
  }

  #look() {
    this.#bytes = new Uint8Array(this.#exports.memory.buffer);
    this.#numbers = new DataView(this.#exports.memory.buffer);
  }

  /** Memory of its own for so many bytes. */
  take(size) {
    if (size > LONGEST) throw new OutOfMemoryError();
    const address = this.#guarded('malloc', [Math.max(size, 1)]) >>> 0;
    if (address === 0) throw new OutOfMemoryError();
    return address;
  }

  /** Gives back what `take` gave. */
  free(address) {
    this.#guarded('free', [address]);
  }

  /** Calls a function of the module that answers a status or a number below 256. */
  call(name, ...values) {
    return this.#guarded(name, values) & 255;
  }

  #guarded(name, values) {
    if (this.#stopped) throw new EngineStoppedError(this.#stopped);
    try {
      return this.#exports[name](...values);
    } catch (error) {
      this.#stopped = error;
      throw new EngineStoppedError(error);
    }
  }

  /** Whether a call stopped in the middle. */
  get isStopped() {
    return this.#stopped !== null;
  }

  /** Copies bytes into memory of their own. */
  put(bytes) {
    const address = this.take(bytes.length);
    this.bytes.set(bytes, address);
    return address;
  }

  /** Puts a text into the kept room for lines; the count of its bytes. */
  putLine(text) {
    this.line.fit(3 * text.length);
    const { address, size } = this.line;
    return encoder.encodeInto(text, this.bytes.subarray(address, address + size)).written;
  }

  /** The text of some bytes of the memory. */
  textAt(address, length) {
    return decoder.decode(this.bytes.subarray(address, address + length));
  }

  /** A copy of some bytes of the memory. */
  copyOf(address, length) {
    return this.bytes.slice(address, address + length);
  }

  /** The memory, a WebAssembly.Memory. */
  get memory() {
    return this.#exports.memory;
  }
}
