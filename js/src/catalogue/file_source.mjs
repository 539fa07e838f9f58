// A file of node as a source of `inspect`, which is read piece by piece.

import { closeSync, fstatSync, openSync, readSync } from 'node:fs';

/** Opens a file. A folder, a pipe or a device is none. */
export function fileSource(name) {
  const file = openSync(name, 'r');
  const { size } = fstatSync(file);
  const read = async (from, to) => {
    const bytes = new Uint8Array(to - from);
    return bytes.subarray(0, readSync(file, bytes, 0, bytes.length, from));
  };
  return { name, size, read, close: () => closeSync(file) };
}
