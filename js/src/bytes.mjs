// The bytes that were appended, as blobs of a script. A script has at most a thousand blobs, so the bytes of all
// appends stand one after the other in few of them, and the lines of appends name parts.

// a file that a script names has at most 2^30 bytes
const MOST_BYTES = 2 ** 29;
const SAMPLES = 64;

function areSame(bytes, others) {
  if (bytes.length !== others.length) return false;
  for (let i = 0; i < bytes.length; i += 1) {
    if (bytes[i] !== others[i]) return false;
  }
  return true;
}

// A key that few different bytes share, found without reading them all.
function keyOf(bytes) {
  const step = Math.max(1, Math.floor(bytes.length / SAMPLES));
  let sum = 0;
  for (let i = bytes.length - 1; i >= 0; i -= step) sum = (Math.imul(sum, 31) + bytes[i]) | 0;
  return `${bytes.length} ${sum}`;
}

function joined(pieces, length) {
  const all = new Uint8Array(length);
  let at = 0;
  for (const piece of pieces) {
    all.set(piece, at);
    at += piece.length;
  }
  return all;
}

export class AppendedBytes {
  // for each blob its pieces and how many bytes they have
  #blobs = [];
  #known = new Map();

  // The words of a line that name these bytes: the blob, the first byte and the length. The same bytes are kept once.
  part(bytes) {
    const key = keyOf(bytes);
    const alike = this.#known.get(key) ?? [];
    const kept = alike.find((other) => areSame(other.bytes, bytes));
    if (kept !== undefined) return kept.words;
    const words = this.#put(bytes);
    this.#known.set(key, [...alike, { bytes, words }]);
    return words;
  }

  // The bytes of each blob.
  get blobs() {
    return this.#blobs.map(({ pieces, length }) => joined(pieces, length));
  }

  #put(bytes) {
    const last = this.#blobs.at(-1);
    if (last === undefined || last.length + bytes.length > MOST_BYTES) this.#blobs.push({ pieces: [], length: 0 });
    const blob = this.#blobs.at(-1);
    const start = blob.length;
    blob.pieces.push(bytes);
    blob.length += bytes.length;
    return `${this.#blobs.length - 1} ${start} ${bytes.length}`;
  }
}
