// Reads a file piece by piece. A source is `{ name, size, read(from, to) }`, where `read` promises these bytes: a file
// of node, a `Blob` of a page, or bytes in memory.

const WINDOW = 4 * 1024 * 1024;

export const bytesSource = (name, bytes) => ({
  name, size: bytes.length, read: async (from, to) => bytes.subarray(from, to),
});

export const blobSource = (name, blob) => ({
  name, size: blob.size, read: async (from, to) => new Uint8Array(await blob.slice(from, to).arrayBuffer()),
});

// Neighbours are read with what was asked for, since boxes are small and stand one behind the other.
export class Reader {
  #from = 0;
  #bytes = new Uint8Array(0);

  constructor(source) { this.source = source; }

  // The bytes from one place to another, or as many as the file has.
  async bytes(from, to) {
    to = Math.min(to, this.source.size);
    if (from < this.#from || to > this.#from + this.#bytes.length) {
      this.#bytes = await this.source.read(from, Math.min(this.source.size, Math.max(to, from + WINDOW)));
      this.#from = from;
      const isWhole = this.#bytes.length >= to - from;
      if (!isWhole) throw new Error(`${this.source.name}: it has become shorter while it was read`);
    }
    return this.#bytes.subarray(from - this.#from, Math.max(from, to) - this.#from);
  }
}

// The bytes of a file, piece by piece, so that a large one is never in memory as a whole.
export async function* pieces(reader, from, to, size = WINDOW) {
  for (let at = from; at < to; at += size) yield { from: at, bytes: await reader.bytes(at, Math.min(at + size, to)) };
}
