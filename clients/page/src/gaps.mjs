// The table of the gaps in view.

import { copyButton } from "./copy.mjs";
import { $, make, page, table, tableRow } from "./dom.mjs";
import { choose } from "./items.mjs";
import { feedRowOf, firstBehind, firstFrom, framesOf, gapItem, meanOf, rowName, tracksOf } from "./rows.mjs";
import {
  TICKS_OF_A_MICROSECOND, decimal, grouped, microseconds, rangesOf, seconds,
} from "../../../js/src/inspect/times.mjs";
import { asCount } from "./words.mjs";

function gapsSeen() {
  const found = { count: 0, gaps: [] };
  for (const row of page.rows) {
    if (row.line?.rangeText && row.key !== "seekable") addGaps(found, row, rangesOf(row.line));
  }
  for (const track of page.story.feed ?? []) addGaps(found, feedRowOf(`shown ${track.id}`), track.shown);
  return found;
}

// The gaps of a row in the view: all are counted, and the first are kept.
function addGaps(found, row, ranges) {
  const { from, to } = page.view;
  const low = Math.max(1, firstBehind(ranges, from)), high = Math.min(ranges.length, firstFrom(ranges, to) + 1);
  for (let index = low; index < high; index++) {
    if (ranges[index - 1][1] >= ranges[index][0] || ranges[index][0] <= from || ranges[index - 1][1] >= to) continue;
    if (found.count++ < GAPS_AT_ONCE) found.gaps.push({ row, item: gapItem(ranges, index) });
  }
}

const GAPS_AT_ONCE = 40;

export function drawGaps() {
  const found = gapsSeen();
  $("gaps").hidden = !found.count;
  if (!found.count) return;
  const rows = found.gaps.map(({ row, item }) => gapRow(row, item));
  const more = found.count > GAPS_AT_ONCE
    ? make("p", { class: "faint small" },
    `These are the first ${GAPS_AT_ONCE} of ${asCount(found.count, "gap")} in this part; zoom in to see the others.`)
      : "";
  $("gaps").replaceChildren(make("h2", {}, `Gaps (${grouped(found.count)})`),
    table(["where", "from (s)", "ticks", "µs", "frames"], rows), more,
    make("p", { class: "faint small", id: "frame-lengths" }, frameLengths(found.gaps)));
}

function gapRow(row, item) {
  const width = item.to - item.from;
  const element = tableRow(
    [make("button", { class: "tell", onclick: () => choose(row, item) }, rowName(row)), missing(row, item)],
    seconds(item.from), copyButton(String(width), grouped(width)),
      copyButton(decimal(width, TICKS_OF_A_MICROSECOND, 9), microseconds(width)), framesWords(row, width));
  Object.assign(element.dataset, { gap: row.key, from: item.from, to: item.to, ticks: width });
  return element;
}

// Whose gap it is: the tracks of the buffer that have nothing there.
function missing(row, item) {
  if (!row.buffer || !page.story.duration || page.index < page.story.duration.index) return "";
  const tracks = page.story.tracks.get(row.buffer) ?? [];
  const without = tracks.filter(track => !rangesOf(track).some(([from, to]) => from <= item.from && to >= item.to));
  if (!without.length || tracks.length < 2) return "";
  return make("div", { class: "faint small" },
    "missing in " + without.map(track => `track ${track.id} ${track.medium}`).join(", "));
}

// A width in frames of each track that it may be about, in one line.
function framesWords(row, width) {
  const isNamed = row.buffer || row.key === "element";
  const told = tracksOf(row).slice(0, 6).filter(meanOf)
    .map(track => framesOf(width, meanOf(track)) + (isNamed ? ` of track ${track.id} ${track.medium ?? ""}` : ""));
  return told.length ? told.join(", ") : make("span", { class: "faint" }, "not told");
}

// How long a frame of each of these tracks is, and how that is known.
function frameLengths(found) {
  const tracks = [...new Set(found.flatMap(({ row }) => tracksOf(row)))].slice(0, 12);
  const words = tracks.map(track => {
    const name = track.buffer === undefined ? `track ${track.id}` : `track ${track.id} of buffer ${track.buffer}`;
    const mean = meanOf(track);
    return mean ? `${name}, ${mean.exact ? "" : "in the mean "}${grouped(mean.ticks)} ticks`
      : `${name}, not told, since it has no frames`;
  });
  const how = page.story.kind === "feed" ? "by the durations of the frames that are given"
    : "by the track lines, ranges divided by frames";
  return words.length ? `How long a frame is, ${how}: ${words.join("; ")}.`
    : "No line of this text tells how long a frame is: track lines do, in the last lines of an output.";
}
