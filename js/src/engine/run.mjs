// The program in one call: `mseplay_run` of crates/mseplay_c/src/lib.rt.

import { asFiles, asWords } from './arguments.mjs';

const SLICE_SIZE = 16;
const LEAST_ROOM = 1 << 20;

const decoder = new TextDecoder();

/** What a run of the program printed, and its status. */
class Printed {
  #text;

  constructor(status, bytes) {
    this.status = status;
    this.bytes = bytes;
  }

  get text() {
    return (this.#text ??= decoder.decode(this.bytes));
  }
}

/** Puts pieces of bytes, and then for each of them a pointer and a length of eight bytes, into the memory. */
function putSlices(instance, taken, pieces) {
  const table = instance.take(SLICE_SIZE * pieces.length);
  taken.push(table);
  pieces.forEach((piece, i) => {
    const address = instance.put(piece);
    taken.push(address);
    instance.numbers.setBigUint64(table + SLICE_SIZE * i, BigInt(address), true);
    instance.numbers.setBigUint64(table + SLICE_SIZE * i + 8, BigInt(piece.length), true);
  });
  return table;
}

/** How many bytes are likely printed, so that the run is seldom made twice for want of room. */
function likelySize(words, files) {
  const name = words.at(-1);
  const main = files.find(([bytes]) => decoder.decode(bytes) === name)?.[1].length ?? 0;
  if (words[0] === 'remux' || words[0] === 'feed') return main + LEAST_ROOM;
  return words[0] === 'play' ? 16 * main + LEAST_ROOM : LEAST_ROOM;
}

function call(instance, taken, words, files, likely) {
  const [wordTable, fileTable] = [putSlices(instance, taken, words), putSlices(instance, taken, files.flat())];
  const { text, record } = instance;
  const runOnce = () => {
    const status = instance.call('mseplay_run', wordTable, BigInt(words.length), fileTable, BigInt(files.length),
      text.address, BigInt(text.size), record.address);
    return { status, length: Number(instance.numbers.getBigUint64(record.address, true)) };
  };
  text.fit(likely);
  let { status, length } = runOnce();
  if (length > text.size) {
    text.fit(length);
    ({ status, length } = runOnce());
  }
  return new Printed(status, instance.copyOf(text.address, length));
}

/** Runs the program with words, and files in memory by their names. */
export function run(instance, words, files = {}) {
  const [givenWords, givenFiles] = [asWords(words), asFiles(files)];
  const taken = [];
  try {
    return call(instance, taken, givenWords, givenFiles, likelySize(words, givenFiles));
  } finally {
    if (!instance.isStopped) taken.forEach((address) => instance.free(address));
  }
}

