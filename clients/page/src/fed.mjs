// What a decoder is given at a time, by `feed`: of a large file only of the segments about that time.

const MOST_BYTES = 32 * 1024 * 1024;

// Of each buffer the text of `feed`, and how many frames of each track stand before those that it was asked about.
export async function groupsAt(engine, { inspection, rows }, ticks) {
  const found = [];
  for (const buffer of inspection.buffers) {
    if (buffer.type === "audio/aac") {
      found.push({ buffer: buffer.number, text: "", note: "feed reads MP4 alone, and these are frames of ADTS" });
      continue;
    }
    const mine = rows.filter(row => row.buffer === buffer.number && row.kind !== "other");
    const { bytes, before } = await bytesOf(inspection, chosen(mine, ticks));
    const { status, text } = engine.run(["feed", String(ticks), "file"], { file: bytes });
    found.push({ buffer: buffer.number, status, text: firstGroups(text), before });
  }
  return found;
}

// The rows to append: all of a small file, else the last initialization segment and those about the time, from one on
// in which each track begins with a sync sample.
function chosen(rows, ticks) {
  if (rows.reduce((sum, row) => sum + row.to - row.from, 0) <= MOST_BYTES) return { rows, skipped: [] };
  const covers = row => row.tracks.some(track => track.added.some(([from, to]) => from <= ticks && ticks < to));
  const at = rows.findIndex(covers);
  if (at < 0) return { rows: rows.slice(0, 1), skipped: [] };
  let first = at;
  while (first > 0
    && (rows[first].kind !== "media" || rows[first].tracks.some(track => track.samples && !track.begins))) first--;
  const init = rows.findLastIndex((row, place) => row.kind === "init" && place <= first);
  const behind = rows.slice(first, at + 2);
  return { rows: init === first ? behind : [rows[init], ...behind], skipped: rows.slice(0, first) };
}

async function bytesOf(inspection, { rows, skipped }) {
  const parts = [];
  for (const row of rows) {
    parts.push(await inspection.sources.find(source => source.name === row.file).read(row.from, row.to));
  }
  const bytes = new Uint8Array(parts.reduce((sum, part) => sum + part.length, 0));
  let at = 0;
  for (const part of parts) { bytes.set(part, at); at += part.length; }
  const before = {};
  for (const row of skipped) for (const track of row.tracks) before[track.id] = (before[track.id] ?? 0) + track.samples;
  return { bytes, before };
}

// Of each track the first lines, up to the first `end` or `none`.
function firstGroups(text) {
  const kept = [], seen = new Set();
  let isKept = false;
  for (const line of text.split("\n")) {
    const found = /^feed \d+ (\d+) at/.exec(line);
    if (found) { isKept = !seen.has(found[1]); seen.add(found[1]); }
    if (isKept && line) kept.push(line);
    if (line.startsWith("end ")) isKept = false;
  }
  return kept.map(line => `${line}\n`).join("");
}
