// The frames of feed, in decode order against presentation order.

import { make, page } from "./dom.mjs";
import { drawItem, itemLike } from "./items.mjs";
import { feedRowOf, firstBehind, firstFrom, itemsOf } from "./rows.mjs";
import { greater, isTicks, lesser } from "../../../js/src/inspect/times.mjs";
import { laneWidth, placeOf } from "./view.mjs";
import { asCount } from "./words.mjs";

const FRAMES_AT_ONCE = 250;

export function feedRows(tracks) {
  return tracks.flatMap(track => {
    const shown = framesSeen(track.shown), decoded = framesSeen(track.decoded);
    const isCrowded = Math.max(shown.length, decoded.length) > FRAMES_AT_ONCE;
    return [
      feedRow(track, "decoded", "decoded (dts)", frameLane(track, track.decoded, decoded, isCrowded, "decoded")),
      feedRow(track, "moved", "", linesLane(track, isCrowded ? [] : shown, isCrowded)),
      feedRow(track, "shown", "shown (pts)", frameLane(track, track.shown, shown, isCrowded, "shown")),
    ];
  });
}

// Frames that are in the view; the list is in order of time.
function framesSeen(ranges) {
  const { from, to } = page.view;
  const low = Math.max(0, firstBehind(ranges, from) - 1), high = firstFrom(ranges, to);
  return ranges.slice(low, high).filter(range => range[1] > from);
}

function feedRow(track, part, small, lane) {
  const count = part === "decoded" ? ` · ${asCount(track.frames.length, "frame")}` : "";
  const name = part === "moved" ? "" : `track ${track.id}`;
  return make("div",
    { class: `row feed ${part}`, "data-row": `${part} ${track.id}`, role: "group",
      "aria-label": `track ${track.id} ${small}` },
    make("div", { class: "name" }, name, small ? make("small", {}, small + count) : ""), lane);
}

function frameLane(track, ranges, seen, isCrowded, part) {
  const lane = make("div", { class: "lane frames" });
  const row = feedRowOf(`${part} ${track.id}`);
  if (isCrowded) lane.append(...itemsOf(ranges, page.view).map(item => drawItem(row, item, laneWidth())));
  else {
    lane.append(...seen.map(([from, to, frame]) => drawFrame(row, from, to, frame)));
    if (part === "shown") lane.append(...gapsOf(ranges).map(item => drawItem(row, item, laneWidth())));
  }
  if (!seen.length) {
    lane.classList.add("words");
    lane.append(track.frames.length ? "nothing in this part" : "no frame is given");
  }
  return lane;
}

const gapsOf = ranges => itemsOf(ranges, page.view).filter(item => item.kind === "gap");

function drawFrame(row, start, end, frame) {
  const from = placeOf(greater(start, page.view.from)), to = placeOf(lesser(end, page.view.to));
  const isChosen = page.story.lines[page.index] === frame;
  const about = `frame ${frame.serial}${frame.sync ? ", a random access point"
    : ""}: decoded ${frame.place}, shown ${frame.shownPlace} of its group of ${frame.group.frames.length}`;
  const button = make("button", {
    class: "frame" + (frame.sync ? " sync" : "") + (isChosen ? " chosen-bar" : ""), tabindex: -1,
      style: `left:${from}%;width:${to - from}%`,
    "data-from": start, "data-to": end, "data-frame": frame.serial, "aria-label": about, title: about,
    onclick: () => {
      page.chosen = { key: row.key, row, kind: "frame", from: start, to: end };
      page.goTo(frame.index);
      itemLike(page.chosen)?.focus();
    },
  });
  if ((to - from) * laneWidth() / 100 > frame.serial.length * 7.5 + 2) button.append(frame.serial);
  return button;
}

// A line from each frame's place in decode order to its place in presentation order.
function linesLane(track, seen, isCrowded) {
  const lane = make("div", { class: "lane lines" });
  const svg = document.createElementNS("http://www.w3.org/2000/svg", "svg");
  svg.setAttribute("aria-hidden", "true");
  for (const [from, to, frame] of seen) {
    svg.append(drawMove(frame, middleOf([frame.decoded, frame.decodeEnd]), middleOf([from, to])));
  }
  lane.append(svg);
  if (isCrowded) lane.append(make("span", { class: "faint small" }, "zoom in (+) to see each frame"));
  if (track.none && isTicks(track.none.time)) lane.append(noneMark(track.none.time));
  return lane;
}

const middleOf = ([from, to]) => (placeOf(from) + placeOf(to)) / 2;

function drawMove(frame, above, below) {
  const line = document.createElementNS("http://www.w3.org/2000/svg", "line");
  const isChosen = page.story.lines[page.index] === frame;
  const facts = { x1: above + "%", y1: "0", x2: below + "%", y2: "100%",
    class: (frame.place === frame.shownPlace ? "" : "moved") + (isChosen ? " chosen-line" : "") };
  for (const [name, value] of Object.entries(facts)) line.setAttribute(name, value);
  return line;
}

function noneMark(time) {
  const place = placeOf(time);
  if (place < 0 || place > 100) return "";
  const side = place > 90 ? `right:${100 - place}%` : `left:${place}%`;
  return make("span", { class: "gap-word", style: `${side};top:26px`, "data-none": time }, "none");
}
