// The axis: which part of it is seen, and where a time stands in a lane.

import { $, page } from "./dom.mjs";
import { feedEnds } from "./feed_frames.mjs";
import { TICKS, greater, isTicks, lesser } from "../../../js/src/inspect/times.mjs";

// The part of the axis that is seen when all is seen.
export function wholeView(story) {
  const ends = story.kind === "feed" ? feedEnds(story) : story.ends;
  let from = ends.from ?? 0n, to = ends.to ?? TICKS;
  const span = greater(to - from, 1n);
  if (from > 0n && from < 3n * span) from = 0n;
  if (isTicks(ends.duration) && ends.duration > to && ends.duration - from < 4n * span) to = ends.duration;
  if (to <= from) to = from + TICKS;
  return { from, to };
}

// The place of a time in a lane, in percent of its width.
export function placeOf(ticks) {
  const { from, to } = page.view;
  return Number((ticks - from) * 100000000n / (to - from)) / 1000000;
}

// The width of a lane in pixels. It is kept, since to ask for it in the middle of drawing makes the browser lay out the
// page.
let keptWidth = 0;

export const forgetWidth = () => { keptWidth = 0; };

export const laneWidth = () => keptWidth ||= Math.max(100, $("axis").clientWidth);

new ResizeObserver(() => {
  const width = Math.max(100, $("axis").clientWidth);
  if (width === keptWidth || !page.story) return;
  keptWidth = width;
  page.draw();
}).observe($("axis"));

// How wide words are, in pixels.
const ruler = document.createElement("canvas").getContext("2d");

const family = getComputedStyle(document.body).fontFamily;

export function wordWidth(text, size, weight = 400) {
  ruler.font = `${weight} ${size}px ${family}`;
  return ruler.measureText(text).width;
}

// A long text opens at its first frames, in which each can be seen.
export function openingView(story) {
  const first = story.feed?.find(track => track.frames.length > 80);
  if (!first) return wholeView(story);
  const frames = first.frames.slice(0, 40);
  const times = frames.flatMap(frame => [frame.from, frame.to, frame.decoded]);
  return { from: times.reduce(lesser), to: times.reduce(greater) };
}
