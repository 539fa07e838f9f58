// All rows that a story has at any line, in their order: what each is about. They are found once.

import { page } from "./dom.mjs";
import { decimal, length, rangesOf } from "../../../js/src/inspect/times.mjs";
import { asCount } from "./words.mjs";

// All rows that a story has at any line, in their order: what each is about. They are found once. Below what mseplay
// told of a thing stands what a browser told of it, where one was asked.
export function rowsOf(story) {
  if (story.rows) return story.rows;
  const add = row => {
    story.rows.push(row);
    const ranges = page.browser?.get(row.key);
    if (ranges) {
      story.rows.push({ key: `browser ${row.key}`,
        browser: { ranges, rangeText: ranges.length ? "ranges" : "ranges none" } });
    }
  };
  story.rows = [];
  if (story.kind === "play") { add({ key: "element" }); add({ key: "seekable" }); }
  for (const buffer of [...story.buffers].sort((a, b) => a - b)) {
    add({ key: `buffer ${buffer}`, buffer });
    for (const track of story.tracks.get(buffer) ?? []) {
      story.rows.push({ key: `track ${track.buffer} ${track.id}`, track });
    }
  }
  return story.rows;
}

// A row at a line. It has a key, names, and what was told last: ranges, a refusal, or nothing yet.
export function rowAt(story, index, { key, buffer, track, browser }) {
  if (browser) {
    return { key, cls: "browser", name: key.replace("browser ", ""), small: "in the browser, at the end",
      line: browser, browser };
  }
  if (track) return rowOfTrack(story, index, track);
  if (key === "element") {
    return rowOf(story, index, { key, cls: "element", name: "element", small: "buffered", ask: "elementbuffered" });
  }
  if (key === "seekable") {
    return rowOf(story, index, { key, cls: "seekable", name: "element", small: "can be sought", ask: "seekable" });
  }
  const type = story.types.get(buffer);
  const small = type ? (type.index > index ? "not added yet" : type.type) : "";
  return rowOf(story, index, { key, cls: "buffer", name: key, small, ask: `buffered ${buffer}`, buffer });
}

function rowOf(story, index, row) {
  row.line = story.last(row.key, index);
  row.fault = story.faults.find(fault =>
    fault.kind === "fault" && fault.buffer !== undefined && fault.buffer === row.buffer && fault.index <= index);
  return row;
}

function rowOfTrack(story, index, track) {
  const line = track.index <= index ? track : undefined;
  const mean = meanFrame(track);
  const small = `${track.codec} · ${asCount(Number(track.frames), "frame")}`
    + (mean ? ` · ${mean.exact ? "" : "mean "}${length(mean.ticks)}` : "");
  return { key: `track ${track.buffer} ${track.id}`, cls: `track ${track.medium}`,
    name: `track ${track.id} ${track.medium}`, small, line, track };
}

// How long a frame of a track is: its ranges divided by its frames, or null where it has none. Printed lines tell no
// more.
export function meanFrame(track) {
  if (track.mean === undefined) {
    const sum = rangesOf(track).reduce((all, [from, to]) => all + to - from, 0n);
    track.mean = track.frames && sum
      ? { sum, frames: track.frames, ticks: sum / track.frames, exact: sum % track.frames === 0n } : null;
  }
  return track.mean;
}

export function framesOf(width, mean) {
  const count = decimal(width * mean.frames, mean.sum, 3);
  const isWhole = width * mean.frames % mean.sum === 0n;
  if (count === "0" && width) return "< 0.001 frames";
  return (isWhole ? "" : "≈ ") + count + (count === "1" ? " frame" : " frames");
}

const CELLS = 150n;
const BARS_AT_ONCE = 300;

// What is drawn of ranges in the view: bars and the gaps between them. Where there are too many, those of one cell are
// one.
export function itemsOf(ranges, { from, to }) {
  const low = firstBehind(ranges, from), high = firstFrom(ranges, to);
  const seen = ranges.slice(low, high);
  const items = [];
  const isCrowded = seen.length > BARS_AT_ONCE;
  const cell = (to - from) / CELLS || 1n;
  let at = 0;
  if (low > 0 && low < ranges.length) items.push(gapItem(ranges, low));
  while (at < seen.length) {
    let last = at;
    if (isCrowded) while (last + 1 < seen.length && seen[last + 1][1] - seen[at][0] < cell) last++;
    items.push({ kind: last > at ? "many" : "bar", from: seen[at][0], to: seen[last][1], count: last - at + 1,
      index: low + at });
    if (low + last + 1 < ranges.length) items.push(gapItem(ranges, low + last + 1));
    at = last + 1;
  }
  return items.filter(item => item.to > item.from && item.to > from && item.from < to);
}

// The items of a line in the view; they are made once for each view.
export function itemsOfLine(line) {
  const { from, to } = page.view;
  if (line.items?.from !== from || line.items.to !== to) {
    line.items = { from, to, items: itemsOf(rangesOf(line), page.view) };
  }
  return line.items.items;
}

export const gapItem = (ranges, index) =>
  ({ kind: "gap", from: ranges[index - 1][1], to: ranges[index][0], count: 1, index });

function firstWhere(ranges, is) {
  let low = 0, high = ranges.length;
  while (low < high) {
    const middle = (low + high) >> 1;
    if (is(ranges[middle])) high = middle; else low = middle + 1;
  }
  return low;
}

export const firstBehind = (ranges, time) => firstWhere(ranges, range => range[1] > time);
export const firstFrom = (ranges, time) => firstWhere(ranges, range => range[0] >= time);

export const rowName = row => row.browser ? `${row.name} in the browser`
  : row.cls === "element" || row.cls === "seekable" ? `${row.name} ${row.small}`
  : row.track ? `buffer ${row.track.buffer} ${row.name}` : row.name;

export function feedRowOf(key) {
  const [part, id] = key.split(" ");
  return { key, cls: "feed", name: `track ${id} ${part}`, feed: page.story.feed.find(track => track.id === id) };
}

// The tracks in whose frames a gap is told: the row's own, those of its buffer, or of the element all.
export function tracksOf(row) {
  if (row.feed) return [row.feed];
  if (row.track) return [row.track];
  return row.buffer ? page.story.tracks.get(row.buffer) ?? [] : [...page.story.tracks.values()].flat();
}

export const meanOf = track => track.kind === "track" ? meanFrame(track) : track.mean;
