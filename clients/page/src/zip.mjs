// ZIP archives (APPNOTE.TXT of PKWARE): members are stored or deflated, names are UTF-8, at most 4 GiB.

const TABLE = Uint32Array.from({ length: 256 }, (_, byte) => {
  for (let bit = 0; bit < 8; bit++) byte = byte & 1 ? (byte >>> 1) ^ 0xedb88320 : byte >>> 1;
  return byte;
});
const PIECE = 4 * 1024 * 1024;
const MOST = 0xffffffff;

function crcOn(crc, bytes) {
  for (let at = 0; at < bytes.length; at++) crc = TABLE[(crc ^ bytes[at]) & 0xff] ^ (crc >>> 8);
  return crc;
}

async function crcOf(blob) {
  let crc = MOST;
  for (let at = 0; at < blob.size; at += PIECE) crc = crcOn(crc,
    new Uint8Array(await blob.slice(at, at + PIECE).arrayBuffer()));
  return (crc ^ MOST) >>> 0;
}

// Numbers of two or four bytes, the lowest first: [2, 20] is 20 in two bytes.
function fields(...pairs) {
  const view = new DataView(new ArrayBuffer(pairs.reduce((sum, [size]) => sum + size, 0)));
  let at = 0;
  for (const [size, value] of pairs) {
    if (size === 2) view.setUint16(at, value, true); else view.setUint32(at, value, true);
    at += size;
  }
  return new Uint8Array(view.buffer);
}

const UTF8 = 0x800, DAY = 0x21; // 1980-01-01, so that the same files give the same bytes

// An archive of members `{ name, blob }`, which are stored.
export async function zipOf(members) {
  const parts = [], directory = [];
  let at = 0;
  for (const { name, blob } of members) {
    const text = new TextEncoder().encode(name);
    const facts = [[2, 20], [2, UTF8], [2, 0], [2, 0], [2, DAY], [4, await crcOf(blob)], [4, blob.size],
      [4, blob.size], [2, text.length], [2, 0]];
    parts.push(fields([4, 0x04034b50], ...facts), text, blob);
    directory.push(fields([4, 0x02014b50], [2, 20], ...facts, [2, 0], [2, 0], [2, 0], [4, 0], [4, at]), text);
    at += 30 + text.length + blob.size;
    if (at > MOST) throw new Error("the files have more than 4 GiB, which a .zip of this kind can't hold");
  }
  const size = directory.reduce((sum, part) => sum + part.length, 0);
  const end = fields([4, 0x06054b50], [2, 0], [2, 0], [2, members.length], [2, members.length], [4, size], [4, at],
    [2, 0]);
  return new Blob([...parts, ...directory, end], { type: "application/zip" });
}

// The members of an archive, `{ name, blob }`; folders are left out.
export async function unzipped(archive) {
  const view = new DataView(await archive.slice(Math.max(0, archive.size - 65558)).arrayBuffer());
  let end = view.byteLength - 22;
  while (end >= 0 && view.getUint32(end, true) !== 0x06054b50) end--;
  if (end < 0) throw new Error("it is no .zip, or it was cut: its directory is not there");
  const count = view.getUint16(end + 10, true), size = view.getUint32(end + 12, true);
  const at = view.getUint32(end + 16, true);
  const directory = new DataView(await archive.slice(at, at + size).arrayBuffer()), members = [];
  for (let place = 0, number = 0; number < count; number++) {
    const member = memberAt(directory, place);
    place += member.length;
    if (!member.name.endsWith("/")) members.push({ name: member.name, blob: await contentOf(archive, member) });
  }
  return members;
}

function memberAt(view, at) {
  if (at + 46 > view.byteLength || view.getUint32(at, true) !== 0x02014b50) throw new Error("its directory is damaged");
  const short = place => view.getUint16(at + place, true), long = place => view.getUint32(at + place, true);
  const name = new TextDecoder().decode(new Uint8Array(view.buffer, view.byteOffset + at + 46, short(28)));
  return { name, flags: short(8), method: short(10), crc: long(16), packed: long(20), size: long(24), at: long(42),
    length: 46 + short(28) + short(30) + short(32) };
}

async function contentOf(archive, { name, flags, method, crc, packed, size, at }) {
  const head = new DataView(await archive.slice(at, at + 30).arrayBuffer());
  if (head.byteLength < 30 || head.getUint32(0, true) !== 0x04034b50) {
    throw new Error(`${name} is not where its directory says`);
  }
  if (flags & 1) throw new Error(`${name} is encrypted`);
  const from = at + 30 + head.getUint16(26, true) + head.getUint16(28, true), body = archive.slice(from, from + packed);
  if (method !== 0 && method !== 8) {
    throw new Error(`${name} is packed in a way that is not read here (method ${method})`);
  }
  const blob = method === 0 ? body
    : await new Response(body.stream().pipeThrough(new DecompressionStream("deflate-raw"))).blob();
  if (blob.size !== size || await crcOf(blob) !== crc) {
    throw new Error(`${name} is damaged in the .zip: its bytes have another sum than it says`);
  }
  return blob;
}
