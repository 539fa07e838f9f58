// The codecs of a track as a type names them (RFC 6381), by the sample entry of its `moov`.

import { boxesIn, viewOf } from './boxes.mjs';

const hex = (number, digits = 2) => number.toString(16).padStart(digits, '0');
const HEADERS = { video: 78, audio: 28 }; // bytes of a sample entry before its boxes

// The text, or null where none can be said. `bytes` are those of the `moov`.
export function codecOf(bytes, track) {
  if (!track.entry || !(track.kind in HEADERS)) return null;
  const view = viewOf(bytes), [entry] = boxesIn(view, track.entry.from, track.entry.to);
  const boxes = entry ? [...boxesIn(view, entry.from + HEADERS[track.kind], entry.to)] : [];
  const payload = (type) => {
    const box = boxes.find((box) => box.type === type);
    return box && bytes.subarray(box.from, box.to);
  };
  return READERS[track.codec]?.(payload, track.codec) ?? null;
}

const avc = (payload, codec) => {
  const avcC = payload('avcC');
  return avcC && avcC.length >= 4 ? `${codec}.${hex(avcC[1])}${hex(avcC[2])}${hex(avcC[3])}` : null;
};

// ISO/IEC 14496-15, E.3: the profile, its compatibility in reverse order of bits, tier and level, constraints.
const hevc = (payload, codec) => {
  const hvcC = payload('hvcC');
  if (!hvcC || hvcC.length < 13) return null;
  const space = ['', 'A', 'B', 'C'][hvcC[1] >> 6], tier = hvcC[1] & 0x20 ? 'H' : 'L';
  let flags = viewOf(hvcC).getUint32(2), turned = 0;
  for (let bit = 0; bit < 32; bit++) { turned = ((turned << 1) | (flags & 1)) >>> 0; flags >>>= 1; }
  const constraints = [...hvcC.subarray(6, 12)];
  while (constraints.length && constraints.at(-1) === 0) constraints.pop();
  return [`${codec}.${space}${hvcC[1] & 0x1f}`, turned.toString(16), `${tier}${hvcC[12]}`,
    ...constraints.map((one) => one.toString(16).toUpperCase())].join('.');
};

const vp9 = (payload) => {
  const vpcC = payload('vpcC');
  return vpcC && vpcC.length >= 7
    ? `vp09.${[vpcC[4], vpcC[5], vpcC[6] >> 4].map((one) => String(one).padStart(2, '0')).join('.')}` : null;
};

const av1 = (payload) => {
  const av1C = payload('av1C');
  if (!av1C || av1C.length < 3) return null;
  const depth = av1C[2] & 0x40 ? (av1C[2] & 0x20 ? 12 : 10) : 8;
  return `av01.${av1C[1] >> 5}.${String(av1C[1] & 0x1f).padStart(2, '0')}${av1C[2] & 0x80 ? 'H' : 'M'}.${String(depth)
    .padStart(2, '0')}`;
};

// The audio object type of `esds`: the first five bits of the specific info of its decoder (ISO/IEC 14496-1, 7.2.6).
const aac = (payload) => {
  const esds = payload('esds'), at = esds ? esds.indexOf(0x05, 4) : -1;
  if (at < 0) return 'mp4a.40.2';
  let from = at + 1;
  while (esds[from] & 0x80) from++;
  return `mp4a.40.${esds[from + 1] >> 3 || 2}`;
};

const READERS = {
  avc1: avc, avc3: avc, hvc1: hevc, hev1: hevc, vp09: vp9, av01: av1, mp4a: aac,
  Opus: () => 'opus', fLaC: () => 'flac', 'ac-3': () => 'ac-3', 'ec-3': () => 'ec-3',
};
