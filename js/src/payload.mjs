// How many bytes of an append are payload: those inside of mdat boxes (ISO/IEC 14496-12, 4.2). The bytes of a source
// buffer are one string, so a box may begin in one append and end in another.

const HEADER = 8;
const LONG_HEADER = 16;

export class Payload {
  // the header that has begun, and how many bytes of its box are to come
  #header = [];
  #left = 0;
  #isMedia = false;

  // Counts the payload of the next bytes.
  take(bytes) {
    let count = 0;
    for (let at = 0; at < bytes.length;) {
      if (this.#left === 0) {
        this.#header.push(bytes[at]);
        at += 1;
        this.#open();
      } else {
        const length = Math.min(this.#left, bytes.length - at);
        if (this.#isMedia) count += length;
        this.#left -= length;
        at += length;
      }
    }
    return count;
  }

  // The same, and stays as it was.
  of(bytes) {
    const [header, left, isMedia] = [[...this.#header], this.#left, this.#isMedia];
    const count = this.take(bytes);
    [this.#header, this.#left, this.#isMedia] = [header, left, isMedia];
    return count;
  }

  // Looks whether the header is whole.
  #open() {
    if (this.#header.length < HEADER) return;
    const view = new DataView(Uint8Array.from(this.#header).buffer);
    const isLong = view.getUint32(0) === 1;
    if (isLong && this.#header.length < LONG_HEADER) return;
    const size = isLong ? Number(view.getBigUint64(HEADER)) : view.getUint32(0);
    this.#left = Math.max(0, size - this.#header.length);
    this.#isMedia = String.fromCharCode(...this.#header.slice(4, 8)) === 'mdat';
    this.#header = [];
  }
}
