// Arguments of the calls: made what the engine takes, or refused by name.

import { ArgumentError, kindOf } from './errors.mjs';

/** The bytes of a buffer or of a view of one, without a copy. */
export function asBytes(value, call) {
  if (value instanceof Uint8Array) return value;
  if (ArrayBuffer.isView(value)) return new Uint8Array(value.buffer, value.byteOffset, value.byteLength);
  const isShared = typeof SharedArrayBuffer === 'function' && value instanceof SharedArrayBuffer;
  if (value instanceof ArrayBuffer || isShared) return new Uint8Array(value);
  throw new ArgumentError(`${call}: bytes are an ArrayBuffer or a view of one, not ${kindOf(value)}`);
}

/** A whole number, of JavaScript's numbers or of BigInt. */
export function asCount(value, name, least, most) {
  const isWhole = typeof value === 'bigint' || Number.isInteger(value);
  if (!isWhole || value < least || value > most) {
    throw new ArgumentError(`${name}: a whole number from ${least} to ${most}, not ${isWhole ? value : kindOf(value)}`);
  }
  return BigInt(value);
}

/** The same as a number of JavaScript. */
export function asNumber(value, name, most) {
  return Number(asCount(value, name, 0, most));
}

const encoder = new TextEncoder();

/** Words in UTF-8. */
export function asWords(words) {
  if (!Array.isArray(words)) throw new ArgumentError(`run: words are an array of strings, not ${kindOf(words)}`);
  return words.map((word) => {
    if (typeof word !== 'string') throw new ArgumentError(`run: a word is a string, not ${kindOf(word)}`);
    return encoder.encode(word);
  });
}

/** Files as pairs of the bytes of the name and the bytes. */
export function asFiles(files) {
  if (files === null || typeof files !== 'object') {
    throw new ArgumentError(`run: files are an object or a Map, not ${kindOf(files)}`);
  }
  const entries = files instanceof Map ? [...files] : Object.entries(files);
  return entries.map(([name, content]) => {
    if (typeof name !== 'string') throw new ArgumentError(`run: the name of a file is a string, not ${kindOf(name)}`);
    const bytes = typeof content === 'string' ? encoder.encode(content) : asBytes(content, `run: file ${name}`);
    return [encoder.encode(name), bytes];
  });
}
