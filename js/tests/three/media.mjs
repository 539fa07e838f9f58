// Media of clients/rows, which a browser decodes, as the players take them.

function* boxes(bytes) {
  const view = new DataView(bytes.buffer, bytes.byteOffset, bytes.byteLength);
  for (let at = 0; at < bytes.length; at += view.getUint32(at)) {
    yield { type: String.fromCharCode(...bytes.subarray(at + 4, at + 8)), at, end: at + view.getUint32(at) };
  }
}

// An initialization segment and the media segments behind it.
export function segmentsOf(bytes) {
  const all = [...boxes(bytes)];
  const { end } = all.find(({ type }) => type === 'moov');
  const starts = all.filter(({ type }) => type === 'moof').map(({ at }) => at);
  return {
    init: bytes.subarray(0, end),
    segments: starts.map((start, i) => bytes.subarray(start, starts[i + 1] ?? bytes.length)),
  };
}

// The type of pictures, by the profile in their avcC box.
export function typeOf(init) {
  const at = init.findIndex((_, i) => String.fromCharCode(...init.subarray(i, i + 4)) === 'avcC') + 5;
  const digits = Array.from(init.subarray(at, at + 3), (byte) => byte.toString(16).padStart(2, '0'));
  return `video/mp4; codecs="avc1.${digits.join('')}"`;
}

// Bytes several times, one behind the other.
export function repeated(bytes, times) {
  const all = new Uint8Array(bytes.length * times);
  for (let i = 0; i < times; i += 1) all.set(bytes, i * bytes.length);
  return all;
}

// Writes the events of a target into a log.
export function listen(log, name, target, types) {
  for (const type of types) target.addEventListener(type, () => log.push(`${name} ${type}`));
}

// Ranges in thousandths of a second.
export function rangesOf(ranges) {
  const rounded = (time) => Math.round(time * 1000);
  return Array.from({ length: ranges.length }, (_, i) => [rounded(ranges.start(i)), rounded(ranges.end(i))]);
}
